"""Runs a program and an exact judge on the MPS models of installed packages: real.py FOLDER PROGRAM..

The models are the files *.mps and *.mps.gz under /usr/share, and what `glpsol` writes in the free layout of these and of
the MathProg models *.mod there; and of each model with integer columns the same without that they are whole. See
README.md beside this file.
"""
import collections
import glob
import gzip
import os
import re
import shutil
import subprocess
import sys
from fractions import Fraction

# A program or a judge that takes longer than this many seconds is stopped, and so is the translation of a model.
PROGRAM_SECONDS, JUDGE_SECONDS, TRANSLATION_SECONDS = 60, 60, 60
PLACES = ["/usr/share/**/*.mps", "/usr/share/**/*.mps.gz", "/usr/share/**/*.mod"]
# The words of `esolver` for an end, and those of the program that say the same.
ENDS = {"OPTIMAL": "optimal", "INFEASIBLE": "infeasible", "UNBOUNDED": "dual-infeasible"}


def finish(words, seconds):
    """Status and output of a command; None where it didn't end in time."""
    try:
        done = subprocess.run(words, stdin=subprocess.DEVNULL, stdout=subprocess.PIPE, stderr=subprocess.DEVNULL,
                              timeout=seconds)
    except subprocess.TimeoutExpired:
        return None
    return done.returncode, done.stdout.decode(errors="replace")


def found():
    """The files of models, as (package or folder, path)."""
    paths = sorted({os.path.realpath(path) for place in PLACES for path in glob.glob(place, recursive=True)})
    for path in paths:
        within = re.match(r"/usr/share/(?:doc/)?([^/]+)", path)
        # Other programs have files of this ending too; a MathProg model has statements that end in a semicolon.
        if not path.endswith(".mod") or b"solve;" in read(path) or b"minimize" in read(path) or b"maximize" in read(path):
            yield within.group(1), path


def read(path):
    with open(path, "rb") as file:
        return file.read()


def translated(path, to, kind):
    """Whether glpsol wrote a model in free MPS."""
    words = ["glpsol", "--check", kind, path, "--wfreemps", to]
    return finish(words, TRANSLATION_SECONDS) is not None and os.path.exists(to)


# What stands for the types of bounds of integer columns where these may have any value.
RELAXED = {b"BV": (b"UP", b" 1"), b"LI": (b"LO", b""), b"UI": (b"UP", b"")}


def relaxed(path, to):
    """Whether a file has integer columns, and is written without that they are whole."""
    lines, changed = [], False
    for line in read(path).splitlines():
        words = line.split()
        if line[:1] == b" " and words[1:2] == [b"'MARKER'"]:
            changed = True
            continue
        if line[:1] == b" " and words[:1] and words[0] in RELAXED:
            kind, behind = RELAXED[words[0]]
            line, changed = b" " + b" ".join([kind, *words[1:]]) + behind, True
        lines.append(line)
    with open(to, "wb") as file:
        file.write(b"\n".join(lines) + b"\n")
    return changed


def models(folder):
    """The models as (package, name, layout, path of an MPS file), and those with integer columns relaxed too."""
    for number, (package, name, layout, path) in enumerate(readable(folder)):
        yield package, name, layout, path
        to = "%s/%d.relaxed.mps" % (folder, number)
        if layout != "as it is" and relaxed(path, to):
            yield package, name, "relaxed", to


def readable(folder):
    """The models as (package, name, layout, path of an MPS file)."""
    can_translate = shutil.which("glpsol") is not None
    if not can_translate:
        print("glpsol is missing (Debian package glpk-utils): no model is translated")
    for number, (package, path) in enumerate(found()):
        name = os.path.basename(path)
        free = "%s/%d.mps" % (folder, number)
        if name.endswith(".mod"):
            if can_translate and translated(path, free, "--math"):
                yield package, name, "from MathProg", free
            continue
        if name.endswith(".gz"):
            plain = "%s/%d.plain.mps" % (folder, number)
            with gzip.open(path) as packed, open(plain, "wb") as file:
                shutil.copyfileobj(packed, file)
            path = plain
        yield package, name, "as it is", path
        if can_translate and (translated(path, free, "--mps") or translated(path, free, "--freemps")):
            yield package, name, "by glpsol", free


def line_of(text, word):
    """The words behind the first line that begins with a word, or None."""
    for line in text.splitlines():
        if line.split()[:1] == [word]:
            return line.split()[1:]
    return None


NO_SIZES = ["-", "-", "-"]


def said_by(program, path):
    """What the program says of a model, as (kind, words to print, objective, sizes)."""
    done = finish([*program, "solve", path], PROGRAM_SECONDS)
    if done is None:
        return "stopped", "stopped after %d seconds" % PROGRAM_SECONDS, None, NO_SIZES
    text = done[1]
    answer = line_of(text, "answer")
    if answer is None:
        return (text.split() or ["nothing"])[0], text.strip() or "nothing, status %d" % done[0], None, NO_SIZES
    value, sizes = line_of(text, "objective"), line_of(text, "model") or NO_SIZES
    if value and value != ["wide"]:
        return answer[0], "optimal %s" % value[0], Fraction(value[0]), sizes
    return answer[0], " ".join(answer), None, sizes


def constant_in(path):
    """The constant that a file states on the right-hand side of its objective, which the judge leaves out."""
    goal, section, constant = None, "", Fraction(0)
    for line in read(path).decode(errors="replace").splitlines():
        words = line.split()
        if not words or line.startswith("*"):
            continue
        if not line[0].isspace():
            section = words[0]
        elif section == "ROWS" and words[0] == "N" and goal is None:
            goal = words[1]
        elif section == "RHS":
            pairs = words[len(words) % 2:]
            constant -= sum(Fraction(value) for row, value in zip(pairs[::2], pairs[1::2]) if row == goal)
    return constant


def judged(path, out):
    """What esolver says of a model, as (end, value), with the constant; None where it says nothing. A name that ends in
    .lp is one of LP, any other one of MPS."""
    is_lp = path.endswith(".lp")
    # A file that can't be read isn't to be judged by what was said of the one before.
    if os.path.exists(out):
        os.remove(out)
    done = finish(["esolver", *["-L"] * is_lp, "-O", out, path], JUDGE_SECONDS)
    if done is None or done[0] != 0 or not os.path.exists(out):
        return None
    text = read(out).decode(errors="replace")
    end = re.search(r"^status =? ?(\w+)", text, re.MULTILINE)
    value = line_of(text, "Value")
    constant = 0 if is_lp or not value else constant_in(path)
    return (end.group(1) if end else "nothing"), Fraction(value[1]) + constant if value else None


def compared(kind, value, judge):
    """How an answer stands to that of the judge, as a word or two."""
    if judge is None:
        return "the judge says nothing"
    if kind not in ENDS.values():
        return "the judge says %s" % judge[0].lower()
    if ENDS.get(judge[0]) != kind:
        return "DIFFERS: %s" % judge[0].lower()
    if kind != "optimal":
        return "the same"
    if value is None:
        return "the same end"
    return "the same objective" if value == judge[1] else "DIFFERS: %s" % judge[1]


def short(text, width):
    return text if len(text) <= width else text[:width - 2] + ".."


def main(folder, program):
    has_judge = shutil.which("esolver") is not None
    if not has_judge:
        print("esolver is missing (Debian package qsopt-ex): no answer is judged")
    print("%-20s %-24s %-13s %5s %6s %7s  %-44s %s"
          % ("package", "model", "layout", "rows", "cols", "entries", "answer", "judge"))
    counts, judges, seen = collections.Counter(), collections.Counter(), 0
    for package, name, layout, path in models(folder):
        kind, words, value, sizes = said_by(program, path)
        # The judge takes integer columns for others, so a model with them would be another one to it.
        judge = judged(path, folder + "/judge.sol") if has_judge and kind != "refused" else None
        verdict = compared(kind, value, judge) if has_judge and kind != "refused" else ""
        print("%-20s %-24s %-13s %5s %6s %7s  %-44s %s"
              % (short(package, 20), short(name, 24), layout, *sizes, short(words, 44), verdict), flush=True)
        # A refusal is counted by its kind, the word behind the line.
        counts["refused, " + words.split()[2] if kind == "refused" and len(words.split()) > 2 else kind] += 1
        judges[verdict.split(":")[0]] += bool(verdict)
        seen += 1
    print("\n%d models" % seen)
    for title, many in counts.most_common():
        print("%6d %s" % (many, title))
    for title, many in judges.most_common():
        if title:
            print("%6d times: %s" % (many, title))
    return int(judges["DIFFERS"] > 0)


if __name__ == "__main__":
    if len(sys.argv) < 3:
        sys.exit("real.py FOLDER PROGRAM..")
    sys.exit(main(sys.argv[1], sys.argv[2:]))
