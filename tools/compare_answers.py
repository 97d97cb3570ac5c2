#!/usr/bin/env python3
"""Runs two programs on files drawn by draw_models.py or draw_faults.py and compares what they write and how they end.

compare_answers.py PROGRAM REFERENCE --seed S --count N [--what models|faults|texts|trials] [--jobs J]. PROGRAM and REFERENCE are
commands, behind which the words `solve FILE --limit K` are put, with most files a batch, a refactor number or both, and with half of
them `--ranging`; both run in the folder of the files. `models` are drawn models, `faults` damaged files, and `texts` the texts of
fault_texts.py, which need neither seed nor count; `trials` are drawn words of `trial`, some of which are bad. Standard output and
exit status must be the same, byte for byte, and some text must be there. Each difference is printed, the first few in
full; then how often REFERENCE gave each kind of answer, and how often something else that is worth a count. Ends with 1
where something differs.
"""
import argparse
import collections
import concurrent.futures
import os
import random
import re
import shlex
import shutil
import subprocess
import sys
import tempfile

# No folder of compiled files is left beside this one.
sys.dont_write_bytecode = True
import draw_faults  # noqa: E402
import draw_models  # noqa: E402
import fault_texts  # noqa: E402

SECONDS = 120
IN_FULL = 5
# How many pivots a damaged file is allowed that is a model all the same, and how much of a file is shown.
FEW, SHOWN = 50, 4000
# The options beside the limit, for one file after the other.
OPTIONS = [
    [],
    ["--batch", "1", "--refactor", "0", "--ranging"],
    ["--batch=8"],
    ["--refactor", "0", "--ranging"],
    ["--batch=2", "--refactor=1"],
    ["--batch", "3", "--refactor", "64", "--ranging"],
]
# What is counted beside the kinds of answers, and how a text shows it.
EVENTS = [
    ("with a rollback", r"^rollback "),
    ("with a major kept in the mode single", r"^major \d+ single"),
    ("with two pivots in a major", r"^pivot .*\n(?:drop .*\n|flip .*\n)*pivot "),
    ("with a row that is dropped", r"^drop "),
    ("with no entering variable behind a pivot of the same major", r"^pivot .*\n(?:drop .*\n)*none "),
    ("with five pivots or more", r"^pivot 5 "),
    ("with a flip", r"^flip "),
    ("with three flips or more in one walk", r"(?:^flip .*\n){3}"),
    ("with a flip of a row's variable", r"^flip r:"),
    ("with a flip back", r"^flip (\S+) U(?:.*\n)+flip \1 L"),
    ("infeasible behind a flip", r"^flip (?:.*\n)+answer infeasible"),
    ("an overflow behind a flip", r"^flip (?:.*\n)+answer overflow"),
    ("a limit behind a flip", r"^flip (?:.*\n)+answer limit"),
    ("with a column at its upper bound at the end", r"^basis \S*U"),
    ("with a free column at 0 at the end", r"^basis \S*Z"),
    ("with a row's variable that enters", r"^pivot \d+ \d+ \S+ \S r:"),
    ("with a column's variable that leaves", r"^pivot \d+ \d+ x:"),
    ("with a pivot that costs nothing", r"^pivot .* 0$"),
    ("with an overflow in a later slice", r"^answer overflow (price|shift)-\d+-[1-9]"),
    ("with an objective that doesn't fit", r"^objective wide$"),
    ("with a cost that has two finite ends", r"^range cost \S+ -?\d\S* -?\d"),
    ("with a bound that has two finite ends", r"^range bound \S+ -?\d\S* -?\d"),
    ("with a number that has no end at all", r"^range .* -inf inf$"),
    ("with a wide end of a cost", r"^range cost .* wide"),
    ("with a wide end of a bound", r"^range bound .* wide"),
    ("with one wide end beside another", r"^range \S+ \S+ (wide -?\d|wide inf|-?\d\S* wide|-inf wide)"),
]


def command_of(text):
    """The words of a command. The files in it are named from the root, as it is to run in another folder."""
    words = shlex.split(text)
    for at, word in enumerate(words):
        if os.path.isfile(word) and (at > 0 or "/" in word):
            words[at] = os.path.abspath(word)
    if not words or not shutil.which(words[0]):
        sys.exit(f"compare_answers: there is no program {text!r}")
    return words


def answer(command, words, folder):
    """Exit status, standard output and standard error of one call, a character for each byte.

    There is no status where it doesn't end in time.
    """
    try:
        ran = subprocess.run(
            command + words, cwd=folder, stdin=subprocess.DEVNULL, capture_output=True, timeout=SECONDS
        )
    except subprocess.TimeoutExpired:
        return None, "", f"stopped after {SECONDS} seconds\n"
    return ran.returncode, ran.stdout.decode("latin-1"), ran.stderr.decode("latin-1")


def differs(given, due):
    """Whether the answers aren't the same, or aren't answers."""
    return given[:2] != due[:2] or given[0] is None or not given[1]


def kind_of(status, text):
    """What an answer is counted as: its word, with the place of an overflow, or the line that stands alone."""
    said = re.search(r"^answer (overflow [a-z]+|\w+)|^(refused) \d+ ([\w-]+)", text, re.MULTILINE)
    if said:
        return " ".join(it for it in said.groups() if it)
    if text.count("\n") == 1:
        return text.strip()
    return f"no answer, status {status}"


def show(number, words, folder, given, due):
    """Prints a difference."""
    what = "another text" if given[0] == due[0] else f"status {given[0]} in place of {due[0]}"
    line = f"difference {number}: {shlex.join(words)}: {what}"
    if number > IN_FULL:
        print(line)
        return
    print(line)
    if words[0] == "solve":
        with open(os.path.join(folder, words[1]), "rb") as file:
            model = file.read(SHOWN).decode("latin-1")
        print(f"--- the file\n{model.encode('unicode_escape').decode().replace(chr(92) + 'n', chr(10))}")
    for title, (status, text, error) in (("PROGRAM", given), ("REFERENCE", due)):
        end = "" if not text or text.endswith("\n") else " (no line feed)\n"
        print(f"--- {title}, status {status}\n{text}", end=end)
        if error:
            print(f"--- {title}, standard error\n{error}", end="")
    print("---")


def write_texts(folder):
    """Writes the texts of fault_texts.py, and answers their names."""
    texts = [text for _, _, text, _ in fault_texts.FAULTS] + [text for text, _ in fault_texts.GOOD]
    for number, text in enumerate(texts):
        with open(os.path.join(folder, f"t{number:04d}.mps"), "wb") as file:
            file.write(fault_texts.bytes_of(text))
    return [f"t{number:04d}.mps" for number in range(len(texts))]


def files_of(what, seed, count, folder):
    """Writes the files, and answers (name, limit) of each."""
    if what == "models":
        return draw_models.write_all(seed, count, folder)
    return [(name, FEW) for name in (write_texts(folder) if what == "texts" else draw_faults.write_all(seed, count, folder))]


def trial_words(draw):
    """Words of `trial`: small numbers mostly, and now and then one at or past an end of its range, or one too many."""
    seed = draw.choice([draw.randint(0, 70000), draw.randint(0, 2**32 - 1), 0, 2**32 - 1])
    sides = [draw.choice([1, 2, 3, draw.randint(1, 12), draw.randint(1, 30)]) for _ in range(2)]
    words = [f"{seed:0{draw.choice([1, 1, 1, 10])}}", *map(str, sides)]
    if draw.random() < 0.1:
        words[draw.randint(0, 2)] = draw.choice(["65", "0", "-1", "4294967296", "00000000001", "1.0", "x", ""])
    elif draw.random() < 0.1:
        words.insert(draw.randint(0, 3), draw.choice(["--", "1", "--limit=5", "--ranging"]))
    return ["trial", *words]


def calls_of(what, seed, count, folder):
    """The words of each call. Files are written to the folder."""
    if what == "trials":
        return [trial_words(random.Random(f"trial {seed} {number}")) for number in range(count)]
    files = enumerate(files_of(what, seed, count, folder))
    return [["solve", name, "--limit", str(limit), *OPTIONS[at % len(OPTIONS)]] for at, (name, limit) in files]


def compare(program, reference, what, seed, count, jobs):
    """How many differences there are; the counts are printed."""
    kinds, events = collections.Counter(), collections.Counter()
    differences = 0
    with tempfile.TemporaryDirectory() as folder, concurrent.futures.ThreadPoolExecutor(jobs) as pool:
        calls = calls_of(what, seed, count, folder)
        pairs = pool.map(lambda words: (answer(program, words, folder), answer(reference, words, folder)), calls)
        for words, (given, due) in zip(calls, pairs):
            kinds[kind_of(*due[:2])] += 1
            events.update(title for title, shown in EVENTS if re.search(shown, due[1], re.MULTILINE))
            if differs(given, due):
                differences += 1
                show(differences, words, folder, given, due)
    for kind, times in kinds.most_common():
        print(f"{times:6} {kind}")
    for title, _ in EVENTS:
        if events[title] or what == "models":
            print(f"{events[title]:6} {title}")
    if differences and what in ("models", "faults"):
        print(f"`draw_{what}.py --seed {seed} --count {count} FOLDER` draws these files again")
    print(f"{len(calls)} {what}, {differences} differences")
    return differences


def main():
    parser = argparse.ArgumentParser(description=__doc__.split("\n")[0])
    parser.add_argument("program")
    parser.add_argument("reference")
    parser.add_argument("--what", choices=["models", "faults", "texts", "trials"], default="models")
    parser.add_argument("--seed", type=int, default=1)
    parser.add_argument("--count", type=int, default=100)
    parser.add_argument("--jobs", type=int, default=1)
    given = parser.parse_args()
    commands = command_of(given.program), command_of(given.reference)
    return int(compare(*commands, given.what, given.seed, given.count, given.jobs) > 0)


if __name__ == "__main__":
    sys.exit(main())
