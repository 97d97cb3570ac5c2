#!/usr/bin/env python3
"""Draws MPS files that are damaged on purpose, by a seed, to compare two programs in what they refuse.

draw_faults.py --seed S --count N FOLDER writes N files f0000.mps, f0001.mps, .. to FOLDER. Each is the text of a model of
draw_models.py with one damage of DAMAGES, over and over, and sometimes a second one, so that the order of faults counts. A few
stay texts of a model. Which fault comes first isn't known here.
"""
import argparse
import os
import random
import sys

# No folder of compiled files is left beside this one.
sys.dont_write_bytecode = True
import draw_models  # noqa: E402
import fault_texts  # noqa: E402

SECTIONS = ["NAME", "OBJSENSE", "ROWS", "COLUMNS", "RHS", "RANGES", "BOUNDS", "ENDATA"]
BAD_BYTES = [0, 1, 7, 8, 11, 12, 13, 26, 27, 31, 127]
ODD_BYTES = [128, 160, 195, 255]
# Texts in the place of a number: no numbers, numbers at the ends of what is read, infinite values.
NUMBERS = [
    "", ".", "-", "+", "e5", "1e", "1e+", "--1", "1.5.2", "0x1", "1,5", "nan", "1d5", "1/2", "infinit", "infinityy", "- 1",
    "+.e1",
    "1e19", "99999999999999999999", "1e20", "-1e20", "100000000000000000000", "0.1e21", "10e18", "1e999999999999", "-1e400",
    "1e-38", "1e-39", "10e-39", "0.10e-38", "1e-999999999", "0e999999999", "-0", "000", "0.0e-99", "1E+0", "+5", ".5", "5.",
    fault_texts.GREATEST, fault_texts.TOO_GREAT, "-" + fault_texts.GREATEST, "-" + fault_texts.TOO_GREAT,
    "0.123456789012345678901234567890123456789", "0.1234567890123456789012345678901234567891", "1e38", "2e38",
    "inf", "-inf", "+inf", "INF", "Infinity", "-INFINITY", "+infinity", "iNf",
]
WORDS = ["r0", "x0", "cost", "free", "rhs", "bnd", "R0", "X0", "nobody", "'MARKER'", "N", "UP", "BOUNDS", "5"]
NAMES = [fault_texts.LONG, fault_texts.LONGER, "n" * 300, "\xe4\xf6", "*", "a*b", "-", "'MARKER'", "ENDATA"]
BOUNDS = ["UP", "LO", "FX", "FR", "MI", "PL", "BV", "LI", "UI", "SC", "SI", "up", "XX", "FREE", "N"]
SENSES = ["MAX", "MIN", "MAXIMIZE", "MINIMIZE", "max", "MAXI", "MAX MIN", "ROWS", ""]


def places(lines, section=None):
    """The places of the data lines, of all sections or of one."""
    found, now = [], ""
    for at, line in enumerate(lines):
        if line[:1] in (" ", "\t"):
            if section in (None, now):
                found.append(at)
        elif line.strip() and line[0] != "*":
            now = line.split()[0]
    return found


def heads(lines):
    """The places of the section lines."""
    return [at for at, line in enumerate(lines) if line.strip() and line[0] not in " \t*"]


def one_of(draw, found, lines):
    """One of some places, or of all where there are none."""
    return draw.choice(found or range(len(lines)))


def with_word(draw, lines, at, change):
    """A line with one of its words changed; it stays a data line."""
    words = lines[at].split()
    if words:
        pick = draw.randrange(len(words))
        words[pick] = change(words[pick])
        lines[at] = " " + " ".join(words)


# ---- damages: each changes the list of lines

def bad_byte(draw, lines):
    at = draw.randrange(len(lines))
    cut = draw.randint(0, len(lines[at]))
    byte = draw.choice(draw.choice([BAD_BYTES, BAD_BYTES, ODD_BYTES]))
    lines[at] = lines[at][:cut] + chr(byte) + lines[at][cut + draw.randint(0, 1):]


def section_word(draw, lines):
    at = one_of(draw, heads(lines), lines)
    word = lines[at].split()[0]
    ways = [word.lower(), word + ":", word + " " + word, word[:-1], " " + word, draw.choice(SECTIONS), "SOS1", word + " *"]
    lines[at] = draw.choice(ways)


def section_moved(draw, lines):
    """A section line, or the whole section, elsewhere, left out or twice."""
    found = heads(lines)
    first = draw.randrange(len(found))
    begin, end = found[first], draw.choice([found[first] + 1, (found + [len(lines)])[first + 1]])
    taken = lines[begin:end]
    way = draw.randrange(3)
    if way:
        del lines[begin:end]
    if way < 2:
        at = draw.choice([draw.randint(0, len(lines)), draw.choice(heads(lines) or [0])])
        lines[at:at] = taken


def section_added(draw, lines):
    lines.insert(draw.choice([draw.randint(0, len(lines)), *heads(lines)]), draw.choice(SECTIONS))


def line_moved(draw, lines):
    at = one_of(draw, places(lines), lines)
    line = lines.pop(at)
    if draw.random() < 0.8:
        lines.insert(draw.randint(0, len(lines)), line)


def line_twice(draw, lines):
    at = one_of(draw, places(lines), lines)
    lines.insert(draw.choice([at, at + 1, draw.randint(0, len(lines))]), lines[at])


def count_of_words(draw, lines):
    at = one_of(draw, places(lines, draw.choice(SECTIONS[2:])) or places(lines), lines)
    words = lines[at].split()
    if draw.random() < 0.5 and len(words) > 1:
        del words[draw.randrange(len(words))]
    else:
        words.insert(draw.randint(0, len(words)), draw.choice(WORDS))
    lines[at] = " " + " ".join(words)


def blank_in_front(draw, lines):
    at = draw.randrange(len(lines))
    lines[at] = lines[at].lstrip() if draw.random() < 0.5 else draw.choice([" ", "\t"]) + lines[at]


def row_type(draw, lines):
    at = one_of(draw, places(lines, "ROWS"), lines)
    words = lines[at].split() or ["L"]
    words[0] = draw.choice(["N", "L", "G", "E", "l", "X", "EQ", "*"])
    lines[at] = " " + " ".join(words)


def sense(draw, lines):
    ways = [["OBJSENSE"], ["OBJSENSE " + draw.choice(SENSES)], ["OBJSENSE", " " + draw.choice(SENSES)]]
    at = draw.choice([0, 1, 1, 1, draw.randint(0, len(lines))])
    lines[at:at] = draw.choice(ways + [["OBJSENSE", "* comment", "", " " + draw.choice(SENSES)]])


def marker(draw, lines):
    name = draw.choice(["x0", "m", "MARKER", fault_texts.LONGER])
    lines.insert(one_of(draw, places(lines, "COLUMNS"), lines), f" {name} 'MARKER' 'INTORG'")


def another_name(draw, lines):
    """Another word in one line, or a name changed everywhere."""
    at = one_of(draw, places(lines), lines)
    if draw.random() < 0.7:
        with_word(draw, lines, at, lambda _: draw.choice(WORDS + NAMES))
        return
    name, other = draw.choice(["r0", "x0", "r1", "x1", "cost"]), draw.choice(NAMES)
    for it in places(lines):
        words = [other if word == name else word for word in lines[it].split()]
        if name in lines[it].split():
            lines[it] = " " + " ".join(words)


def another_number(draw, lines):
    at = one_of(draw, places(lines, draw.choice(["COLUMNS", "RHS", "RANGES", "BOUNDS"])), lines)
    words = lines[at].split() or ["5"]
    for pick in range(draw.randint(1, 2), len(words)):
        if words[pick][:1] in "+-.0123456789iI" or pick == len(words) - 1:
            words[pick] = draw.choice(NUMBERS)
            break
    lines[at] = " " + " ".join(words)


def pair_added(draw, lines):
    """A pair of RHS or RANGES more, of any row."""
    section, name = draw.choice(["RHS", "RANGES"]), draw.choice(["cost", "free", "r0", "r1", "r2", "nobody"])
    found = [at for at in heads(lines) if lines[at].split()[0] == section]
    end = [at for at in heads(lines) if lines[at].split()[0] in ("BOUNDS", "ENDATA")]
    at = found[0] + 1 if found else (end or [len(lines)])[0]
    head = [] if found else [section]
    words = [name, draw.choice(NUMBERS + ["3", "-4", "0"])]
    lines[at:at] = head + [" " + " ".join(draw.choice([[], [], ["set"]]) + words)]


def bound_added(draw, lines):
    """One or two lines of BOUNDS more, of any type; often crossed ones."""
    found = [at for at in heads(lines) if lines[at].split()[0] == "BOUNDS"]
    at = draw.choice([at for at in heads(lines) if lines[at].split()[0] == "ENDATA"] or [len(lines)])
    new = [] if found else ["BOUNDS"]
    for _ in range(draw.randint(1, 2)):
        name, value = draw.choice(["x0", "x0", "x1", "nobody"]), draw.choice(NUMBERS + ["1", "-1", "5", "-5"] * 6)
        words = [draw.choice(BOUNDS[:6] * 4 + BOUNDS), draw.choice(["", "bnd"]), name, draw.choice([value, value, ""])]
        new.append(" " + " ".join(word for word in words if word))
    if draw.random() < 0.3:
        low, high = draw.choice([("5", "4"), ("1e-38", "0"), ("0", "-1"), ("1e19", "1e18")])
        new += draw.choice([[" LO x0 " + low, " UP x0 " + high], [" FX x0 " + low, " UP x0 " + high]])
    lines[at:at] = new


def line_ends(draw, lines):
    at = draw.randrange(len(lines))
    lines[at] += draw.choice(["\r", "\r\r", " \r", "\r "])


def comment(draw, lines):
    new = draw.choice(["*", "* x\x01", " * x", "", "   ", "\t", "*\x7f", "\x0c", "$ x", "* \xe9"])
    lines.insert(draw.randint(0, len(lines)), new)


DAMAGES = [
    another_number, section_word, count_of_words, bound_added, another_name, pair_added, line_twice, section_moved, row_type,
    bad_byte, another_number, line_moved, count_of_words, bound_added, another_name, pair_added, sense, marker, section_added,
    blank_in_front, line_ends, comment, another_number, bound_added,
]


def cut(draw, data):
    """The text ends early, often in a section of its own choice."""
    word = draw.choice(SECTIONS).encode()
    begin = data.find(b"\n" + word)
    return data[:draw.randint(max(begin, 0), len(data))]


def at_limit(draw):
    """A text at one of the limits, or one past it, and perhaps a fault before or behind that."""
    rows, columns = draw.choice([255, 256, 257, 258]), draw.choice([4095, 4096, 4097])
    lines = draw.choice([
        lambda: fault_texts.many_rows(rows),
        lambda: fault_texts.many_columns(columns),
        lambda: fault_texts.many_entries(draw.choice(["0", "1", "0.0", "-1e-38", "1e-39", "x"])),
    ])()
    if draw.random() < 0.3:
        lines.insert(draw.randint(3, len(lines)), draw.choice([" N more", " L r0", " x0 r0 1", "RHS", " x\x01", ""]))
    return fault_texts.bytes_of([*lines, "ENDATA"])


def drawn(seed, number):
    """The bytes of a damaged file."""
    draw = random.Random(f"fault {seed} {number}")
    if number % 97 == 96:
        return at_limit(draw)
    model = draw.choice([draw_models.bounded, draw_models.bounded, draw_models.without_ends, draw_models.ties])(draw)
    if draw.random() < 0.3:
        model.turn()
    text = draw_models.mps(draw, model)
    end = "\r\n" if "\r\n" in text else "\n"
    lines = text.split(end)[:-1]
    DAMAGES[number % len(DAMAGES)](draw, lines)
    if draw.random() < 0.25:
        draw.choice(DAMAGES)(draw, lines)
    data = (end.join(lines) + draw.choice([end, end, end, ""])).encode("latin-1")
    return cut(draw, data) if draw.random() < 0.06 else data


def write_all(seed, count, folder):
    """Writes the files, and answers their names."""
    written = []
    for number in range(count):
        name = f"f{number:04d}.mps"
        with open(os.path.join(folder, name), "wb") as file:
            file.write(drawn(seed, number))
        written.append(name)
    return written


def main():
    parser = argparse.ArgumentParser(description=__doc__.split("\n")[0])
    parser.add_argument("--seed", type=int, required=True)
    parser.add_argument("--count", type=int, required=True)
    parser.add_argument("folder")
    given = parser.parse_args()
    os.makedirs(given.folder, exist_ok=True)
    write_all(given.seed, given.count, given.folder)


if __name__ == "__main__":
    main()
