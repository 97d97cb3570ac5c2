#!/usr/bin/env python3
"""Runs the built program for each status that it may end with, for each kind of refused file and for each kind of text that
is no certificate, and compares status, standard output and standard error with what docs/FORMATS.md says. Every text was
worked out from that document by hand, but for the counts of the large trial, which come from another program. Each text of
`solve` that has a certificate is checked too.

check_statuses.py [PROGRAM]. Ends with 1 where something differs. Where there is no program, it says so and ends with 0.
"""
import os
import subprocess
import sys
import tempfile

# No folder of compiled files is left beside this one.
sys.dont_write_bytecode = True
import fault_texts  # noqa: E402

TOP = os.path.dirname(os.path.dirname(os.path.realpath(__file__)))
PROGRAM = f"{TOP}/crates/pami_cli/out/pami_cli"
SECONDS = 60

# One row r with 2 x >= 4 at the cost of x: x is 2, and a unit more of r costs 1/2.
GOOD = """ROWS
 N c
 G r
COLUMNS
 x c 1 r 2
RHS
 r 4
ENDATA
"""
GOOD_TEXT = """pami 1
model 1 1 1
phase 2
major 1 full 0
pivot 1 0 r:r L x:x 1/2
answer optimal
certificate 1 optimal
objective 2
x x 2 0
r r 4 1/2
end
basis B L
"""
# The price of r is half the cost of x, so that cost may be anything from 0 on; and x is half of r, so r may be.
GOOD_RANGES = """range cost x 0 inf
range bound r:r 0 inf
"""
# No pivot is allowed: all variables stand as at the start, the column at its lower bound.
LIMIT_TEXT = """pami 1
model 1 1 1
phase 2
answer limit 0
basis L B
"""
# x is at least 0, and the row r wants it at most -1. The row's multiplier is below 0, as its upper bound is passed.
INFEASIBLE = GOOD.replace(" G r", " L r").replace(" r 2", " r 1").replace(" r 4", " r -1")
INFEASIBLE_TEXT = """pami 1
model 1 1 1
phase 2
major 1 full 0
none 0 r:r
answer infeasible
certificate 1 infeasible
r r -1
end
"""
# 10 x >= 100 and 10^-38 x >= 1: the elimination's multiplier has the denominator 10^39, which is past 2^127.
WIDE = """ROWS
 N c
 G a
 G b
COLUMNS
 x c 1 a 10
 x b 1e-38
RHS
 a 100 b 1
ENDATA
"""
SMALL = "1/1" + 38 * "0"
WIDE_TEXT = f"""pami 1
model 2 1 2
phase 2
rollback 1 reach-1-1 div -{SMALL} -10
major 2 single 0
pivot 1 0 r:a L x:x 1/10
rollback 3 backward-1 div {SMALL} -10
answer overflow factor div {SMALL} 10
"""
WIDE_ALONE_TEXT = f"""pami 1
model 2 1 2
phase 2
major 1 full 0
pivot 1 0 r:a L x:x 1/10
rollback 2 factor div {SMALL} 10
answer overflow factor div {SMALL} 10
"""
# A cost below 0 of a column without an upper bound, so phase 1: x begins at the upper end of its box, 1, which gives the row 2,
# and its box ends at 1 too. The ratio is 1/2. Behind the pivot the row is at an upper end that the model doesn't have.
FALLING = GOOD.replace("x c 1", "x c -1")
FALLING_TEXT = """pami 1
model 1 1 1
phase 1
major 1 full 0
pivot 1 0 r:r U x:x 1/2
answer dual-infeasible
certificate 1 dual-infeasible
x x 1/2
r r 1
end
"""
# A maximum that a row bounds, and no bound.
BOTH = """max 3 x
st
top: x <= 3
end
"""
# In phase 1 x begins at the upper end of its box, 1, and the row's box ends at 0. So the row leaves, and x enters; each unit costs
# 3. In phase 2 the row is at its own upper bound 3.
BOTH_TEXT = """pami 1
model 1 1 1
phase 1
major 1 full 0
pivot 1 0 r:top U x:x 3
phase 2
answer optimal
certificate 1 optimal
objective 9
x x 3 0
r top 3 -3
end
basis B U
"""
# The model of GOOD.
GOOD_LP = "min x\nst\n r: 2 x >= 4\nend\n"
# x is the cheaper one, but may be 1 at most; so it is flipped to 1, and y gives the other 2 of the 3 that r wants.
FLIP = """ROWS
 N c
 G r
COLUMNS
 x c 1 r 1
 y c 2 r 1
RHS
 r 3
BOUNDS
 UP x 1
ENDATA
"""
FLIP_TEXT = """pami 1
model 1 2 2
phase 2
major 1 full 0
flip x:x U
pivot 1 0 r:r L x:y 2
answer optimal
certificate 1 optimal
objective 5
x x 1 -1
x y 2 0
r r 3 2
end
basis UB L
"""
# y is what x lacks of 3, and costs 2: x may cost up to that, and y not less than x. y is 0 with 3 of x, or with r at 1.
FLIP_RANGES = """range cost x -inf 2
range cost y 1 inf
range bound x:x -inf 3
range bound r:r 1 inf
"""
# Both may be 1 at most, so 3 can't be had; the flips of a walk that nobody enters in aren't written.
UNREACHED = FLIP.replace("ENDATA", " UP y 1\nENDATA")
UNREACHED_TEXT = """pami 1
model 1 2 2
phase 2
major 1 full 0
none 0 r:r
answer infeasible
certificate 1 infeasible
r r 1
end
"""
# As large as may be: x begins at its upper bound 7, and the row, between 4 and 10, is met. z is free and in no row.
MAXIMUM = """OBJSENSE MAX
ROWS
 N c
 L r
COLUMNS
 x c 3 r 1
 z c 0
RHS
 r 10 c -1
RANGES
 r 6
BOUNDS
 UP x 7
 FR z
ENDATA
"""
MAXIMUM_TEXT = """pami 1
model 1 2 1
phase 2
answer optimal
certificate 1 optimal
objective 22
x x 7 -3
x z 0 0
r r 7 0
end
basis UZ B
"""
# x goes to its upper bound while it brings anything; r, which is x, is between 4 and 10. z may cost nothing else than 0.
MAXIMUM_RANGES = """range cost x 0 inf
range cost z 0 0
range bound x:x 4 10
"""
# One source and one sink. The states behind 1 are 39022 and 61087, whose sixteenths are 2438 and 3817: the demand is 39, and
# the cost 18.
TRIAL_TEXT = """trial 1 1 1
answer optimal objective 702
pivots 1 majors 1 flips 0 rollbacks 0
"""
LARGE_TRIAL_TEXT = """trial 7 20 30
answer optimal objective 6247
pivots 69 majors 22 flips 15 rollbacks 0
"""
# The starting value of the row is 10^-38 + 10^19, which has 57 digits in its numerator.
START = """ROWS
 N c
 G r
COLUMNS
 x c 1 r 1
 y c 1 r 1
BOUNDS
 LO x 1e-38
 LO y 1e19
ENDATA
"""
START_TEXT = f"""pami 1
model 1 2 2
answer overflow start add {SMALL} 10000000000000000000
"""
# The objective is 10^-38 + 10^20, and all else fits.
WIDE_SUM = "ROWS\n N c\nCOLUMNS\n x c 1e20\nRHS\n c -1e-38\nBOUNDS\n FX x 1\nENDATA\n"
WIDE_SUM_TEXT = """pami 1
model 0 1 0
phase 2
answer optimal
certificate 1 optimal
objective wide
x x 1 100000000000000000000
end
basis L -
"""
# The column's bounds are 10^-38 and 10^19, whose distance doesn't fit.
WIDE_BOX = GOOD.replace("ENDATA", "BOUNDS\n LO x 1e-38\n UP x 1e19\nENDATA")
MOST_BYTES = 16777216
# 1 - (-1) 2 is 3, which asks for x at its lower bound.
SIGN = GOOD_TEXT.replace("x x 2 0", "x x 2 3").replace("r r 4 1/2", "r r 4 -1")
# 2 (2^127 - 1) doesn't fit.
LARGE = GOOD_TEXT.replace("objective 2", "objective wide").replace("x x 2 0", f"x x {2**127 - 1} 0")
# The combination is at least 4, and no x is at most that large.
NO_LIMIT = "certificate 1 infeasible\nr r 1\nend\n"
FILES = {
    "good.mps": GOOD,
    "infeasible.mps": INFEASIBLE,
    "wide.mps": WIDE,
    "falling.mps": FALLING,
    "both.LP": BOTH,
    "good.lp": GOOD_LP,
    "lp.txt": GOOD_LP,
    "mps.lp": GOOD,
    "flip.mps": FLIP,
    "unreached.mps": UNREACHED,
    "maximum.mps": MAXIMUM,
    "start.mps": START,
    "wide_sum.mps": WIDE_SUM,
    "wide_box.mps": WIDE_BOX,
    "--limit": GOOD,
    # More than 8 megabytes of comments before the model, for a run that gets less memory than that.
    "long.mps": 200000 * ("*" + 40 * " " + "\n") + GOOD,
    "longest.mps": GOOD + (MOST_BYTES - len(GOOD)) * "*",
    "too_long.mps": GOOD + (MOST_BYTES + 1 - len(GOOD)) * "*",
    "good.txt": GOOD_TEXT,
    "infeasible.txt": INFEASIBLE_TEXT,
    "falling.txt": FALLING_TEXT,
    "sign.txt": SIGN,
    "objective.txt": GOOD_TEXT.replace("objective 2", "objective 3"),
    "large.txt": LARGE,
    "no_limit.txt": NO_LIMIT,
    "name.txt": GOOD_TEXT.replace("x x 2 0", "x y 2 0"),
    "word.txt": GOOD_TEXT.replace("x x 2 0", "x x 2  0"),
    "number.txt": GOOD_TEXT.replace("x x 2 0", "x x 4/2 0"),
    "cut.txt": GOOD_TEXT[:GOOD_TEXT.index("end")],
    "longest.txt": GOOD_TEXT + (MOST_BYTES - len(GOOD_TEXT)) * "*",
    "too_long.txt": GOOD_TEXT + (MOST_BYTES + 1 - len(GOOD_TEXT)) * "*",
}
BAD_WORDS, READ_FAULT = "bad words\n", "read fault\n"
NO_TEXT = b"\xff"

# What is shown, the words, the status and the text.
ROWS = [
    ("an optimal answer", ["solve", "good.mps"], 0, GOOD_TEXT),
    ("a file with a dash in front, behind --", ["solve", "--", "--limit"], 0, GOOD_TEXT),
    ("a file of 8 megabytes", ["solve", "long.mps"], 0, GOOD_TEXT),
    ("an LP file by its name", ["solve", "good.lp"], 0, GOOD_TEXT),
    ("an LP file by an option", ["solve", "--format", "lp", "lp.txt"], 0, GOOD_TEXT),
    ("an MPS file by an option", ["solve", "mps.lp", "--format=mps"], 0, GOOD_TEXT),
    ("an LP file without the option", ["solve", "lp.txt"], 3, "refused 1 section\n"),
    ("both phases", ["solve", "both.LP"], 0, BOTH_TEXT),
    ("no words", [], 2, BAD_WORDS),
    ("no command", ["good.mps"], 2, BAD_WORDS),
    ("no file", ["solve"], 2, BAD_WORDS),
    ("an empty file name", ["solve", ""], 2, BAD_WORDS),
    ("an option that isn't there", ["solve", "good.mps", "--help"], 2, BAD_WORDS),
    ("a format that isn't there", ["solve", "good.mps", "--format", "MPS"], 2, BAD_WORDS),
    ("a limit past the greatest", ["solve", "good.mps", "--limit", "1000001"], 2, BAD_WORDS),
    ("a batch of no rows", ["solve", "good.mps", "--batch", "0"], 2, BAD_WORDS),
    ("a batch past the greatest", ["solve", "good.mps", "--batch=9"], 2, BAD_WORDS),
    ("a refactor number past the greatest", ["solve", "good.mps", "--refactor=65"], 2, BAD_WORDS),
    ("a word that is no UTF-8", ["solve", NO_TEXT], 2, BAD_WORDS),
    ("a word that is no UTF-8 behind a whole command", ["solve", "good.mps", NO_TEXT], 2, BAD_WORDS),
    ("a file of 16,777,216 bytes", ["solve", "longest.mps"], 0, GOOD_TEXT),
    ("a flip", ["solve", "flip.mps"], 0, FLIP_TEXT),
    ("a maximum", ["solve", "maximum.mps"], 0, MAXIMUM_TEXT),
    ("an objective that doesn't fit", ["solve", "wide_sum.mps"], 0, WIDE_SUM_TEXT),
    ("ranges", ["solve", "good.mps", "--ranging"], 0, GOOD_TEXT + GOOD_RANGES),
    ("ranges behind a flip", ["solve", "--ranging", "flip.mps"], 0, FLIP_TEXT + FLIP_RANGES),
    ("ranges of a maximum", ["solve", "maximum.mps", "--ranging"], 0, MAXIMUM_TEXT + MAXIMUM_RANGES),
    ("no ranges of an infeasible answer", ["solve", "infeasible.mps", "--ranging"], 10, INFEASIBLE_TEXT),
    ("no ranges at the limit", ["solve", "--limit=0", "--ranging", "good.mps"], 12, LIMIT_TEXT),
    ("ranges with a value", ["solve", "good.mps", "--ranging=1"], 2, BAD_WORDS),
    ("ranges twice", ["solve", "--ranging", "good.mps", "--ranging"], 2, BAD_WORDS),
    ("a drawn model", ["trial", "1", "1", "1"], 0, TRIAL_TEXT),
    ("a drawn model by words with zeros, behind --", ["trial", "--", "0000000001", "01", "1"], 0, TRIAL_TEXT),
    ("a drawn model of another seed with the same remainder", ["trial", "65537", "1", "1"], 0,
     TRIAL_TEXT.replace("1", "65537", 1)),
    ("a large drawn model", ["trial", "7", "20", "30"], 0, LARGE_TRIAL_TEXT),
    ("the large drawn model again", ["trial", "7", "20", "30"], 0, LARGE_TRIAL_TEXT),
    ("a seed past the greatest", ["trial", "4294967296", "1", "1"], 2, BAD_WORDS),
    ("a seed of eleven digits", ["trial", "00000000001", "1", "1"], 2, BAD_WORDS),
    ("no sources", ["trial", "1", "0", "1"], 2, BAD_WORDS),
    ("too many sinks", ["trial", "1", "1", "65"], 2, BAD_WORDS),
    ("a drawn model without its sinks", ["trial", "1", "1"], 2, BAD_WORDS),
    ("a drawn model with a limit", ["trial", "1", "1", "1", "--limit", "5"], 2, BAD_WORDS),
    ("a drawn model with ranges", ["trial", "1", "1", "1", "--ranging"], 2, BAD_WORDS),
    ("a check with ranges", ["check", "good.mps", "good.txt", "--ranging"], 2, BAD_WORDS),
    ("a file of 16,777,217 bytes", ["solve", "too_long.mps"], 3, "refused 0 too-long\n"),
    ("a box whose width doesn't fit", ["solve", "wide_box.mps"], 3, "refused 0 width x:x\n"),
    ("a file that isn't there", ["solve", "missing.mps"], 4, READ_FAULT),
    ("a folder", ["solve", "."], 4, READ_FAULT),
    ("an infeasible answer", ["solve", "infeasible.mps"], 10, INFEASIBLE_TEXT),
    ("an infeasible answer behind flips", ["solve", "unreached.mps"], 10, UNREACHED_TEXT),
    ("the limit of pivots", ["solve", "good.mps", "--limit", "0"], 12, LIMIT_TEXT),
    ("the limit in one word", ["solve", "--limit=0", "good.mps"], 12, LIMIT_TEXT),
    ("all options", ["solve", "--batch=1", "good.mps", "--refactor", "0", "--limit=0"], 12, LIMIT_TEXT),
    ("a number that doesn't fit", ["solve", "wide.mps"], 13, WIDE_TEXT),
    (
        "a number that doesn't fit, one row at a time",
        ["solve", "wide.mps", "--batch=1", "--refactor=0"],
        13,
        WIDE_ALONE_TEXT,
    ),
    ("a start that doesn't fit", ["solve", "start.mps"], 13, START_TEXT),
    ("a cost that falls without end", ["solve", "falling.mps"], 11, FALLING_TEXT),
    ("a certificate", ["check", "good.mps", "good.txt"], 0, "valid\n"),
    ("a certificate of an LP file by an option", ["check", "lp.txt", "--format=lp", "good.txt"], 0, "valid\n"),
    ("a certificate of infeasibility", ["check", "infeasible.mps", "infeasible.txt"], 0, "valid\n"),
    ("a certificate of dual infeasibility", ["check", "falling.mps", "falling.txt"], 0, "valid\n"),
    ("a certificate of 16,777,216 bytes", ["check", "good.mps", "longest.txt"], 0, "valid\n"),
    ("a wrong sign", ["check", "good.mps", "sign.txt"], 20, "invalid sign x:x\n"),
    ("a wrong objective", ["check", "good.mps", "objective.txt"], 20, "invalid objective -\n"),
    ("a bound that there isn't", ["check", "good.mps", "no_limit.txt"], 20, "invalid finite x:x\n"),
    ("another model's certificate", ["check", "infeasible.mps", "good.txt"], 20, "invalid row r:r\n"),
    ("a product that doesn't fit", ["check", "good.mps", "large.txt"], 21, f"unchecked row r:r mul 2 {2**127 - 1}\n"),
    ("a model in place of a certificate", ["check", "good.mps", "good.mps"], 22, "malformed 9 none\n"),
    ("another name", ["check", "good.mps", "name.txt"], 22, "malformed 9 name\n"),
    ("a blank too much", ["check", "good.mps", "word.txt"], 22, "malformed 9 word\n"),
    ("a number that isn't in lowest terms", ["check", "good.mps", "number.txt"], 22, "malformed 9 number\n"),
    ("a certificate without its end", ["check", "good.mps", "cut.txt"], 22, "malformed 11 end-missing\n"),
    ("a certificate of 16,777,217 bytes", ["check", "good.mps", "too_long.txt"], 22, "malformed 0 too-long\n"),
    ("a check without a certificate", ["check", "good.mps"], 2, BAD_WORDS),
    ("a check with a limit", ["check", "good.mps", "good.txt", "--limit", "1"], 2, BAD_WORDS),
    ("a check with a batch", ["check", "good.mps", "good.txt", "--batch=4"], 2, BAD_WORDS),
    ("a certificate that isn't there", ["check", "good.mps", "missing.txt"], 4, READ_FAULT),
    ("a refused file before its certificate", ["check", "lp.txt", "missing.txt"], 3, "refused 1 section\n"),
    ("a width before a certificate", ["check", "wide_box.mps", "missing.txt"], 3, "refused 0 width x:x\n"),
]


def run(program, folder, words, out=subprocess.PIPE, kilobytes=None):
    """Status, output and standard error of one call in the folder, in that much memory where it is said."""
    words = [it if isinstance(it, bytes) else it.encode() for it in [program, *words]]
    if kilobytes:
        words = [b"sh", b"-c", b'ulimit -c 0; ulimit -v "$0" && exec "$@"', str(kilobytes).encode(), *words]
    return subprocess.run(
        words, cwd=folder, stdin=subprocess.DEVNULL, stdout=out, stderr=subprocess.PIPE, timeout=SECONDS
    )


def differs(title, ran, status, text):
    """Prints what is not as it should be. A text of None isn't compared."""
    wrong = []
    if ran.returncode != status:
        wrong.append(f"status {ran.returncode} in place of {status}")
    if text is not None and ran.stdout != text.encode():
        wrong.append(f"the text\n{ran.stdout.decode(errors='replace')}in place of\n{text}")
    if ran.stderr:
        wrong.append(f"on standard error\n{ran.stderr.decode(errors='replace')}")
    for it in wrong:
        print(f"check_statuses: {title}: {it}")
    return bool(wrong)


def refusals(program, folder):
    """Each text of fault_texts.py has to be refused with its line and kind, or not to be refused. Answers what isn't so."""
    wrong = []
    both = [("text.mps", fault_texts.FAULTS, fault_texts.GOOD), ("text.lp", fault_texts.LP_FAULTS, fault_texts.LP_GOOD)]
    for name, faults, good in both:
        for number, (kind, line, text, why) in enumerate(faults):
            with open(f"{folder}/{name}", "wb") as file:
                file.write(fault_texts.bytes_of(text))
            ran = run(program, folder, ["solve", name])
            wrong.append(differs(f"refused {name} {number} ({why})", ran, 3, f"refused {line} {kind}\n"))
        for number, (text, why) in enumerate(good):
            with open(f"{folder}/{name}", "wb") as file:
                file.write(fault_texts.bytes_of(text))
            ran = run(program, folder, ["solve", name, "--limit", "0"])
            wrong.append(ran.returncode == 3 and differs(f"good {name} {number} ({why})", ran, 0, None))
    return wrong


def own_texts(program, folder):
    """Each text of `solve` with a certificate is checked against its file. Answers what isn't valid."""
    wrong = []
    for title, words, status, text in ROWS:
        if words[:1] == ["solve"] and status in (0, 10, 11):
            with open(f"{folder}/own.txt", "w", encoding="utf-8") as it:
                it.write(text)
            ran = run(program, folder, ["check", *(it for it in words[1:] if it != "--ranging"), "own.txt"])
            wrong.append(differs(f"the check of {title}", ran, 0, "valid\n"))
    return wrong


def write_fault(program, folder):
    """Nothing can be written to /dev/full, so the answer is status 5. What it took can't be read again."""
    if not os.path.exists("/dev/full"):
        print("check_statuses: status 5 is skipped, as there is no /dev/full")
        return False
    with open("/dev/full", "wb") as full:
        ran = run(program, folder, ["solve", "good.mps"], out=full)
    return differs("an output that can't be written", ran, 5, None)


def want_of_memory(program, folder):
    """Status 6 with nothing written: the file of 8 megabytes in a megabyte more than the program needs for a small one.

    How much that is depends on the system, so it is found by trying.
    """
    for megabytes in range(1, 65):
        if run(program, folder, ["solve", "good.mps"], kilobytes=megabytes << 10).returncode == 0:
            ran = run(program, folder, ["solve", "long.mps"], kilobytes=megabytes << 10)
            return differs(f"a file of 8 megabytes in {megabytes} megabytes of memory", ran, 6, "")
    print("check_statuses: status 6 is skipped, as the program takes more memory here than can be told from a file")
    return False


def main(program=PROGRAM):
    if not os.access(program, os.X_OK):
        print(f"check_statuses: skipped, as there is no program at {program}")
        return 0
    program = os.path.abspath(program)
    with tempfile.TemporaryDirectory() as folder:
        for name, text in FILES.items():
            with open(f"{folder}/{name}", "w", encoding="utf-8") as it:
                it.write(text)
        bad = [differs(title, run(program, folder, words), status, text) for title, words, status, text in ROWS]
        bad += refusals(program, folder)
        bad += own_texts(program, folder)
        bad += [write_fault(program, folder), want_of_memory(program, folder)]
    print(f"check_statuses: {len(bad) - sum(bad)} calls as they should be, {sum(bad)} not")
    return int(any(bad))


if __name__ == "__main__":
    sys.exit(main(*sys.argv[1:]))
