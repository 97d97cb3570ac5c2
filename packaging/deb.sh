#!/usr/bin/env bash
# Packs the built program with its man pages, the completion for bash, the pages for planners and the examples.
#
#     packaging/deb.sh deb|tarball [PROGRAM [FOLDER]]
#
# PROGRAM is what ./pami has built where nothing is said; nothing is built here. FOLDER, the current one where nothing is said,
# gets the package, whose path is printed. Needs scdoc and binutils, and for a .deb dpkg-deb. VERSION in the environment is the
# version; DEBFULLNAME and DEBEMAIL name who packs, as for Debian's own tools.
set -eu
umask 022
script=$(readlink -f -- "${BASH_SOURCE[0]}")
top=${script%/*/*}

die() {
    echo "deb.sh: $*" >&2
    exit 1
}

# Of one commit and one program the package has the same bytes, whenever it is made.
SOURCE_DATE_EPOCH=${SOURCE_DATE_EPOCH:-$(git -C "$top" log -1 --format=%ct 2>/dev/null || stat -c %Y "$top/README.md")}
export SOURCE_DATE_EPOCH
version=${VERSION:-1+git$(date -u -d "@$SOURCE_DATE_EPOCH" +%Y%m%d)}
kind=${1:-}
program=${2:-$top/crates/pami_cli/out/pami_cli}
folder=${3:-.}
packer="${DEBFULLNAME:-$(id -un)} <${DEBEMAIL:-$(id -un)@$(hostname -f 2>/dev/null || hostname)}>"

case $kind in
    deb) tools="scdoc strip objdump dpkg-deb dpkg" ;;
    tarball) tools="scdoc strip" ;;
    *) die "call it as packaging/deb.sh deb|tarball [PROGRAM [FOLDER]]" ;;
esac
for tool in $tools; do
    command -v "$tool" >/dev/null 2>&1 || die "$tool is missing (Debian packages scdoc, binutils, dpkg)"
done
[ -x "$program" ] || die "there is no program at $program; ./pami builds it, or name one"
[ -d "$folder" ] || die "there is no folder $folder"

stage=$(mktemp -d)
trap 'rm -rf "$stage"' EXIT

# A text, packed with neither name nor time.
put_packed() {
    gzip -9n >"$1"
}

# What both packages have, in a folder that is /usr of the one and the top of the other.
put_files() {
    local page doc=$1/share/doc/pami
    install -d "$1/bin" "$1/share/man/man1" "$1/share/man/man5" "$1/share/bash-completion/completions"
    install -d "$doc/docs" "$doc/examples/many"
    install -m 755 "$program" "$1/bin/pami"
    strip --remove-section=.comment --remove-section=.note "$1/bin/pami"
    for page in pami.1 pami-certificate.5; do
        scdoc <"$top/man/$page.scd" | put_packed "$1/share/man/man${page##*.}/$page.gz"
    done
    install -m 644 "$top/packaging/pami.bash-completion" "$1/share/bash-completion/completions/pami"
    for page in FORMATS ANSWERS RANGING CHECKING FROM_YOUR_TOOL MANY_MODELS; do
        install -m 644 "$top/docs/$page.md" "$doc/docs/"
    done
    install -m 644 "$top"/examples/*.* "$doc/examples/"
    install -m 644 "$top"/examples/many/* "$doc/examples/many/"
    cat >"$doc/copyright" <<'END'
The owner of pami hasn't chosen a licence yet. Until one is named, nothing is
granted beyond what the law gives every reader.
END
}

# The least C library that has all that the program asks of it.
needed_libc() {
    objdump -T "$program" | grep -o 'GLIBC_[0-9.]*' | sort -uV | tail -n 1 | cut -d _ -f 2
}

put_control() {
    install -d "$stage/DEBIAN"
    cat >"$stage/DEBIAN/control" <<END
Package: pami
Version: $version
Architecture: $1
Maintainer: $packer
Installed-Size: $(du -sk --apparent-size "$stage/usr" | cut -f 1)
Depends: libc6 (>= $(needed_libc))
Section: math
Priority: optional
Description: exact solver of linear programs
 Solves linear programs in the MPS and the CPLEX LP format by the dual
 simplex method, in fractions: nothing is rounded and there is no tolerance.
 With an optimal, infeasible or dual infeasible answer it writes the
 certificate that shows it, and a second command checks such a certificate
 against the model.
 .
 The program is written in Rattle, and each of its functions is proved
 against its contract.
END
    (cd "$stage" && find usr -type f -print0 | LC_ALL=C sort -z | xargs -0 md5sum) >"$stage/DEBIAN/md5sums"
}

put_changelog() {
    put_packed "$stage/usr/share/doc/pami/changelog.gz" <<END
pami ($version) unstable; urgency=medium

  * Packed from the repository; its history says what has changed.

 -- $packer  $(LC_ALL=C date -u -d "@$SOURCE_DATE_EPOCH" -R)
END
}

# All times are that of the commit.
set_times() {
    find "$1" -exec touch -h -d "@$SOURCE_DATE_EPOCH" {} +
}

if [ "$kind" = deb ]; then
    architecture=$(dpkg --print-architecture)
    result=$folder/pami_${version}_$architecture.deb
    install -d "$stage/usr"
    put_files "$stage/usr"
    put_changelog
    put_control "$architecture"
    chmod 755 "$stage"
    set_times "$stage"
    dpkg-deb --root-owner-group --build -Zxz "$stage" "$result" >&2
else
    name=pami-$version-$(uname -m)
    result=$folder/$name.tar.gz
    install -d "$stage/$name"
    put_files "$stage/$name"
    set_times "$stage/$name"
    tar -C "$stage" --sort=name --owner=0 --group=0 --numeric-owner --format=gnu -cf - "$name" | put_packed "$result"
fi
echo "$result"
