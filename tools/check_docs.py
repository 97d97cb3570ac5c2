#!/usr/bin/env python3
"""Compares the documents with the sources and with the built program.

1. Each name in backticks stands in some source (comments of .rt and .antt files don't count), as does each word with an
   underscore or a capital inside it in a fenced block, and each crate that is named anywhere; each path in backticks
   stands in the repository.
2. Where a document says `function` (`clause`, `clause`: what they say; `clause`: what it says), the functions of that
   name together have these clauses.
3. A fenced block that names a file behind its language, as ```rust crates/pami_cli/src/run.rt, quotes it: each of its
   lines stands in that file.
4. The arrows of a mermaid picture are what each crate stands on, by crates.txt, without what follows from other arrows.
5. A fenced block with lines `$ ./pami WORDS` shows runs: behind each such line stands the output, and behind that a line
   (status N). A line of three dots stands for any lines. Each is run in the top folder and has to print just that.
6. The tables of docs/FORMATS.md whose first columns are Kind and Fault have the kinds of file faults and those of faults of
   certificates that the sources tell, that of docs/CHECKING.md the conditions of verdicts, and no others.

check_docs.py [PROGRAM]. Ends with 1 where something differs. Where there is no program, it says so and leaves 5 out.
"""
import functools
import os
import re
import shlex
import subprocess
import sys

TOP = os.path.dirname(os.path.dirname(os.path.realpath(__file__)))
PROGRAM = f"{TOP}/crates/pami_cli/out/pami_cli"
SECONDS = 60

# Words in backticks that no source has to have: of the shell and its tools, of Rust, of the toolchain, of other solvers.
FOREIGN = set(
    """
    apt bash cargo cd clone diff flock git glpsol esolver hyperfine mktemp python python3 rustc sh
    rattle logic rt ci check fmt tidy try test run lib lemma plant verdict version must anew holes allow fail edit old new only start
    antt auto ensures requires fn ghost impl let match mod pub return struct enum trait use where type
    bool f64 i64 i128 u8 u32 u64 u128 usize Box Copy Drop Eq Err From Iterator None Ok Option Result Self Some String Vec
    md py txt kb mb lp mps dev full null stdin stdout stderr
    glpk utils qsopt librust num rational checked check exact freemps clp noint tofile to_lp gunzip xbf
    Binary Semi multiobjectives iron_ore venv install
    parallel resume make j4 snakemake
    """.split()
)

# The tables of words: the page, how the table begins, the column with the words, the file that has them, and words that are told
# elsewhere: a kind that is told of a model that was read.
TABLES = [
    ("docs/FORMATS.md", "| Kind |", 1, "crates/pami_model/specs/KindWords.antt", {"width"}),
    ("docs/FORMATS.md", "| Fault |", 1, "crates/pami_cert/specs/CertKinds.antt", set()),
    ("docs/CHECKING.md", "| Certificate | CONDITION |", 2, "crates/pami_check/specs/ConditionWords.antt", set()),
]

WORD = re.compile(r"[A-Za-z_][A-Za-z_0-9]*")
SPAN = re.compile(r"`([^`]+)`")
# A span of one function with a parenthesis behind it, and the clauses in front of each part of that.
CLAIM = re.compile(r"`(?:\w+(?:::|\.))*(\w+)`(?:\*\*)? \((?=`\w+`)")
CLAUSES = re.compile(r"\s*(`\w+`(?:,? (?:and )?`\w+`)*)")
PATH = re.compile(r"[\w.*-]*(?:/[\w.*<>-]+)+/?|[\w-]+\.(?:rt|antt|py|sh|md|mps|txt|edit)")
# Words that look like names wherever they stand.
LOOKS = re.compile(r"\b(?:[A-Za-z]\w*_\w+|[A-Z][a-z]+[A-Z]\w*)\b")
CRATE = re.compile(r"\bpami_\w+")
COMMENT = re.compile(r"//.*|(?:^|\s)-- .*", re.M)


def tracked():
    """The repository's files, without what the toolchain and Python's tools make."""
    for at, folders, files in os.walk(TOP):
        folders[:] = [it for it in folders if it not in (".git", "out", "__pycache__", ".pytest_cache", ".mypy_cache")]
        for name in files:
            yield os.path.relpath(f"{at}/{name}", TOP)


def text_of(path):
    with open(f"{TOP}/{path}", encoding="utf-8", errors="replace") as it:
        return it.read()


def sources(files):
    """The words of all sources, and the names of their files and folders."""
    words = set()
    for path in files:
        words.update(WORD.findall(path))
        # This script's own list of foreign words is no source.
        if path.endswith((".rt", ".antt")):
            words.update(WORD.findall(COMMENT.sub("", text_of(path))))
        elif not path.endswith((".md", "check_docs.py")):
            words.update(WORD.findall(text_of(path)))
    return words


def clauses(files):
    """The clauses of each function by name."""
    found = {}
    for path in files:
        if path.endswith(".rt"):
            name = None
            for line in text_of(path).splitlines():
                starts = re.match(r"\s*(?:pub(?:\([\w ]+\))? )?fn (\w+)", line)
                name = starts.group(1) if starts else name
                clause = re.match(r"\s*(?:ensures|requires) (\w+) \{", line)
                if name and clause:
                    found.setdefault(name, set()).add(clause.group(1))
                elif name:
                    found.setdefault(name, set())
    return found


def parts(text):
    """The lines outside of fenced blocks as (line, text), and the blocks as (line, info, lines)."""
    outside, blocks, block = [], [], None
    for number, line in enumerate(text.splitlines(), 1):
        if line.lstrip().startswith("```"):
            if block is None:
                block = (number, line.strip().strip("`"), [])
            else:
                blocks.append(block)
                block = None
        elif block is not None:
            block[2].append(line)
        else:
            outside.append((number, line))
    return outside, blocks


def is_name(word):
    """Not a placeholder, which is of capitals, nor a word of one letter, the end of a name or a sum."""
    is_sum = re.fullmatch(r"[0-9a-f]{16}", word)
    return len(word) > 1 and word.upper() != word and word.strip("_") == word and not is_sum


def wrong_words(blocks, words):
    for number, info, lines in blocks:
        # The words of a picture are compared with crates.txt.
        if " " in info or info == "mermaid" or any(it.startswith("$ ./pami") for it in lines):
            continue
        for at, line in enumerate(lines, number + 1):
            for word in LOOKS.findall(line):
                if word not in words and word not in FOREIGN:
                    yield at, f"the name {word}"


def wrong_names(outside, words, paths):
    for number, line in outside:
        for crate in CRATE.findall(SPAN.sub(" ", line)):
            if crate not in words:
                yield number, f"the crate {crate}"
        for span in SPAN.findall(line):
            for path in PATH.findall(span):
                stem = path.rstrip("/")
                inside = stem[2:] if stem.startswith("./") else stem
                is_open = "*" in inside or "<" in inside or re.search(r"\b[A-Z]+\b", inside)
                if inside.startswith("/") or is_open or not re.search(r"[a-z]", inside):
                    continue
                if not any(it == inside or it.endswith("/" + inside) for it in paths):
                    yield number, f"the path {path}"
            for word in WORD.findall(PATH.sub(" ", span)):
                if is_name(word) and word not in words and word not in FOREIGN:
                    yield number, f"the name {word}"


def inside_of(text, at):
    """What stands from here to the closing parenthesis."""
    depth = 1
    for end in range(at, len(text)):
        depth += {"(": 1, ")": -1}.get(text[end], 0)
        if not depth:
            return text[at:end]
    return text[at:]


def wrong_claims(text, known):
    """The clauses that a document names and no function of that name has."""
    for found in CLAIM.finditer(text.replace("\n", " ")):
        name = found.group(1)
        number = text.count("\n", 0, found.start()) + 1
        for part in inside_of(text, found.end()).split(";") if name in known else []:
            said = CLAUSES.match(part)
            for it in SPAN.findall(said.group(1)) if said else []:
                if it not in known[name]:
                    yield number, f"the clause {it} of {name}"


def wrong_quotes(blocks):
    for number, info, lines in blocks:
        path = info.split()[1] if len(info.split()) == 2 else ""
        if not path:
            continue
        if not os.path.isfile(f"{TOP}/{path}"):
            yield number, f"the quoted file {path}"
            continue
        have = {line.strip() for line in text_of(path).splitlines()}
        for at, line in enumerate(lines, number + 1):
            if line.strip() not in have and line.strip() != "..":
                yield at, f"the quoted line {line.strip()!r} of {path}"


def arrows():
    """Which crates each one stands on, without those that they stand on themselves."""
    below = {}
    for line in text_of("crates.txt").splitlines():
        if ":" in line and not line.startswith("#"):
            name, _, uses = line.partition(":")
            below[name.split()[0]] = set(uses.split())
    below = {name: uses & below.keys() for name, uses in below.items()}

    @functools.lru_cache(None)
    def reached(name):
        return frozenset(below[name].union(*map(reached, below[name])))

    return {
        (name[5:], it[5:])
        for name, uses in below.items()
        for it in uses
        if not any(it in reached(other) for other in uses)
    }


def wrong_pictures(blocks):
    for number, info, lines in blocks:
        if info == "mermaid":
            drawn = {tuple(found) for line in lines for found in re.findall(r"^\s*(\w+) --> (\w+)$", line)}
            for one, other in sorted(arrows() - drawn):
                yield number, f"the picture, which lacks {one} --> {other}"
            for one, other in sorted(drawn - arrows()):
                yield number, f"the picture's {one} --> {other}"


def wrong_table(outside, title, column, path, more):
    """The words that a table lacks or has too many, by the definition of these words."""
    due = set(re.findall(r'codes "([a-z-]+)"', text_of(path))) | more
    begin = [at for at, (_, line) in enumerate(outside) if line.startswith(title)]
    found = set()
    for _, line in outside[begin[0] + 2 :] if begin else []:
        if not line.startswith("|"):
            break
        found.update(SPAN.findall(line.split("|")[column]))
    number = outside[begin[0]][0] if begin else 1
    for word in sorted(found ^ due):
        yield number, f"the word {word} in the table that begins with {title}"


def wrong_kinds(page, outside, files):
    """What is wrong with the tables of words of a page."""
    for where, title, column, path, more in TABLES:
        if where == page and path in files:
            yield from wrong_table(outside, title, column, path, more)


def runs(block):
    """The runs that a block shows, as (line, words, output, status); an output is the lines, and dots among them."""
    number, _, lines = block
    shown = None
    for at, line in enumerate(lines, number + 1):
        if line.startswith("$ ./pami"):
            shown = (at, shlex.split(line)[2:], [])
        elif shown and re.fullmatch(r"\(status \d+\)", line):
            yield (*shown, int(line[8:-1]))
            shown = None
        elif shown:
            shown[2].append(line)
    if shown:
        yield (*shown, None)


def pattern(lines):
    """What a shown output matches: its lines as they stand, and any lines at three dots."""
    return "".join(r"(?:.*\n)*" if it == "..." else re.escape(it) + "\n" for it in lines)


def wrong_runs(block, program):
    for at, words, lines, status in runs(block):
        if status is None:
            yield at, "a run that is shown without a line (status N)"
            continue
        try:
            ran = subprocess.run(
                [program, *words], cwd=TOP, stdin=subprocess.DEVNULL, capture_output=True, timeout=SECONDS
            )
        except subprocess.TimeoutExpired:
            yield at, f"a run that doesn't end within {SECONDS} seconds"
            continue
        if ran.returncode != status:
            yield at, f"status {status}; the program ends with {ran.returncode}"
        said = ran.stdout.decode(errors="replace")
        if not re.fullmatch(pattern(lines), said):
            yield at, f"the text behind it; the program prints\n{said}"


def main(program=PROGRAM):
    files = sorted(tracked())
    folders = {os.path.dirname(it) for it in files}
    paths = {*files, *folders, *(os.path.dirname(it) for it in folders)}
    words, known = sources(files), clauses(files)
    built = os.access(program, os.X_OK)
    program = os.path.abspath(program)
    if not built:
        print(f"check_docs: the texts of runs are skipped, as there is no program at {program}")
    wrong = shown = 0
    for page in [it for it in files if it.endswith(".md")]:
        text = text_of(page)
        outside, blocks = parts(text)
        found = [*wrong_names(outside, words, paths), *wrong_words(blocks, words)]
        found += [*wrong_claims(text, known), *wrong_quotes(blocks), *wrong_pictures(blocks)]
        found += wrong_kinds(page, outside, files)
        for block in blocks if built else []:
            shown += len(list(runs(block)))
            found += wrong_runs(block, program)
        for number, why in sorted(found):
            print(f"{page}:{number}: {why}")
        wrong += len(found)
    print(f"check_docs: {shown} runs compared, {wrong} places in the documents are not so")
    return int(wrong > 0)


if __name__ == "__main__":
    sys.exit(main(*sys.argv[1:]))
