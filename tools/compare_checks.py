#!/usr/bin/env python3
"""Runs `check` of two programs on certificates drawn by draw_certs.py and compares what they write and how they end.

compare_checks.py PROGRAM REFERENCE --seed S --count N [--jobs J]. PROGRAM and REFERENCE are commands, behind which words are put.
Models of draw_models.py are taken in their order, most of those left out whose answer has no certificate; each has as many
cases as there are kinds of changes. PROGRAM's `solve` gives the texts that are then changed, so each model is checked with its own
text, with changed ones and with other models' texts. Standard output and exit status must be the same,
byte for byte. Each difference is printed, the first few in full; then how often REFERENCE gave each verdict. Ends with 1 where
something differs.
"""
import argparse
import collections
import concurrent.futures
import os
import random
import shlex
import sys
import tempfile

# No folder of compiled files is left beside this one.
sys.dont_write_bytecode = True
import draw_certs  # noqa: E402
import draw_models  # noqa: E402
from compare_answers import IN_FULL, SHOWN, answer, command_of, differs  # noqa: E402


def kind_of(status, text):
    """A verdict with its condition, a fault with its kind, or what else stands there."""
    words = text.split()
    if status in (20, 21):
        return " ".join(words[:2])
    if status in (3, 22):
        return f"{words[0]} {words[2]}" if len(words) > 2 else text.strip()
    return f"{text.strip()[:30]}, status {status}"


def show(number, words, folder, kind, given, due):
    """Prints a difference."""
    what = "another text" if given[0] == due[0] else f"status {given[0]} in place of {due[0]}"
    line = f"difference {number}: {shlex.join(words)} ({kind}): {what}"
    if number > IN_FULL:
        print(line)
        return
    print(line)
    for name in words[1:3]:
        with open(os.path.join(folder, name), "rb") as file:
            text = file.read(SHOWN).decode("latin-1")
        print(f"--- {name}\n{text.encode('unicode_escape').decode().replace(chr(92) + 'n', chr(10))}")
    for title, (status, text, error) in (("PROGRAM", given), ("REFERENCE", due)):
        print(f"--- {title}, status {status}\n{text}{error}", end="")
    print("---")


def solved(program, seed, count, folder, pool):
    """The names of so many models, and what PROGRAM writes of each: with a certificate, but for one in ten."""
    names, texts, first = [], [], 0
    models = draw_models.write_all(seed, 3 * count + 20, folder)
    while len(names) < count and first < len(models):
        some = models[first:first + count]
        first += count
        written = pool.map(lambda it: answer(program, ["solve", it[0], "--limit", str(it[1])], folder)[1], some)
        for (name, _), text in zip(some, written):
            if draw_certs.parts(text)[1] or len(names) % 10 == 9:
                names.append(name)
                texts.append(text)
    return names, texts


def write_certs(seed, count, folder, names, texts):
    """Writes the texts of all cases, and answers (words of the call, kind) of each."""
    calls = []
    for number in range(count):
        draw = random.Random(f"certificate {seed} {number}")
        at = number // len(draw_certs.KINDS) % len(names)
        with open(os.path.join(folder, names[at]), encoding="ascii", newline="") as file:
            text, kind = draw_certs.draw_text(draw, number, texts[at], draw.choice(texts), file.read())
        name = f"c{number:05d}.txt"
        with open(os.path.join(folder, name), "wb") as file:
            file.write(text.encode())
        calls.append((["check", names[at], name], kind))
    return calls


def compare(program, reference, seed, count, jobs):
    """How many differences there are; the counts are printed."""
    kinds = collections.Counter()
    differences = 0
    with tempfile.TemporaryDirectory() as folder, concurrent.futures.ThreadPoolExecutor(jobs) as pool:
        names, texts = solved(program, seed, 1 + (count - 1) // len(draw_certs.KINDS), folder, pool)
        calls = write_certs(seed, count, folder, names, texts)
        pairs = pool.map(lambda it: (answer(program, it[0], folder), answer(reference, it[0], folder)), calls)
        for (words, kind), (given, due) in zip(calls, pairs):
            kinds[kind_of(*due[:2])] += 1
            if differs(given, due):
                differences += 1
                show(differences, words, folder, kind, given, due)
    for kind, times in kinds.most_common():
        print(f"{times:6} {kind}")
    print(f"{count} certificates, {differences} differences")
    return differences


def main():
    parser = argparse.ArgumentParser(description=__doc__.split("\n")[0])
    parser.add_argument("program")
    parser.add_argument("reference")
    parser.add_argument("--seed", type=int, default=1)
    parser.add_argument("--count", type=int, default=100)
    parser.add_argument("--jobs", type=int, default=1)
    given = parser.parse_args()
    commands = command_of(given.program), command_of(given.reference)
    return int(compare(*commands, given.seed, given.count, given.jobs) > 0)


if __name__ == "__main__":
    sys.exit(main())
