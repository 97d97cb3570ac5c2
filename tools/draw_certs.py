#!/usr/bin/env python3
"""Draws texts that should be certificates of a model, most of them damaged, from the text that `solve` wrote for it.

A module of compare_checks.py, which has the models and their texts. The kind of change of case I is the one at place I of KINDS,
over and over, so each kind has a fixed share. Which verdict a text gets isn't known here.
"""
import re
from fractions import Fraction

HEAD = re.compile(r"^certificate 1 (\S+)$")
# The largest number that fits, and some around it and above it.
LARGEST = 2**127 - 1
WIDE = [str(LARGEST), str(-LARGEST), f"1/{LARGEST}", f"-1/{LARGEST}", f"{LARGEST}/{LARGEST - 1}", str(LARGEST + 1),
        str(-LARGEST - 1), f"1/{LARGEST + 1}", str(2**64), f"1/{2**64}", str(2**126 + 1), str(10**38), f"1/{10**38}", str(10**39)]
# Texts of numbers that no number is printed as.
FAULTY = ["", "-", "-0", "0/5", "4/2", "3/1", "+3", "03", "1.5", "3e0", "1/0", "1/-2", "--1", "wide", "inf", "1/", "/2",
          "1/2/3", "x"]


def parts(text):
    """The lines before the certificate, its lines up to `end`, and those behind. Without one all lines are before it."""
    lines = text.split("\n")
    for at, line in enumerate(lines):
        if HEAD.match(line):
            end = next((k for k in range(at, len(lines)) if lines[k] == "end"), len(lines) - 1)
            return lines[:at], lines[at:end + 1], lines[end + 1:]
    return lines, [], []


def joined(before, certificate, behind):
    return "\n".join(before + certificate + behind)


def numbered(certificate):
    """Places (line, word) of the numbers of a certificate."""
    places = [(i, 1) for i, line in enumerate(certificate) if line.startswith("objective ")]
    for i, line in enumerate(certificate):
        words = line.split(" ")
        if words[0] in ("x", "r"):
            places += [(i, k) for k in range(2, len(words))]
    return places


def put(certificate, place, word):
    lines = list(certificate)
    words = lines[place[0]].split(" ")
    words[place[1]] = word
    lines[place[0]] = " ".join(words)
    return lines


def value_at(certificate, place):
    """The number that stands there; 0 where none does, as an earlier change may have left no number."""
    try:
        return Fraction(certificate[place[0]].split(" ")[place[1]])
    except (ValueError, ZeroDivisionError):
        return Fraction(0)


# ---- changes of a certificate's lines: each takes the drawing and the lines, and answers lines

def another_number(draw, lines):
    places = numbered(lines)
    if not places:
        return lines
    place = draw.choice(places)
    value = value_at(lines, place)
    near = [value + 1, value - 1, -value, value * 2, value / 2, Fraction(0), value + Fraction(1, draw.randint(2, 9))]
    return put(lines, place, str(draw.choice(near)))


def no_number(draw, lines):
    places = numbered(lines)
    return put(lines, draw.choice(places), draw.choice(FAULTY)) if places else lines


def wide_numbers(draw, lines):
    places = numbered(lines)
    for place in draw.sample(places, min(len(places), draw.choice([1, 1, 2, 3]))):
        lines = put(lines, place, draw.choice(WIDE))
    return lines


def exchanged_numbers(draw, lines):
    places = numbered(lines)
    if len(places) < 2:
        return lines
    first, second = draw.sample(places, 2)
    words = [lines[i].split(" ")[k] for i, k in (first, second)]
    return put(put(lines, first, words[1]), second, words[0])


def exchanged_lines(draw, lines):
    if len(lines) < 2:
        return lines
    lines = list(lines)
    i, k = draw.sample(range(len(lines)), 2)
    lines[i], lines[k] = lines[k], lines[i]
    return lines


def dropped_line(draw, lines):
    if not lines:
        return lines
    at = draw.randrange(len(lines))
    return lines[:at] + lines[at + 1:]


def doubled_line(draw, lines):
    if not lines:
        return lines
    at = draw.randrange(len(lines))
    return lines[:at + 1] + lines[at:]


def wide_objective(draw, lines):
    return ["objective wide" if line.startswith("objective ") else line for line in lines]


def another_objective(draw, lines):
    change = draw.choice([1, -1, Fraction(1, 7)])
    return [f"objective {value_at(lines, (i, 1)) + change}" if line.startswith("objective ") else line
            for i, line in enumerate(lines)]


def zeros(draw, lines):
    """All numbers are 0, or all dual values."""
    last = draw.random() < 0.5
    for place in numbered(lines):
        if not last or place[1] == 3:
            lines = put(lines, place, "0")
    return lines


def negated(draw, lines):
    """The numbers at one place of all lines with the other sign."""
    column = draw.choice([2, 3])
    for place in numbered(lines):
        if place[1] == column:
            lines = put(lines, place, str(-value_at(lines, place)))
    return lines


def scaled(draw, lines):
    factor = draw.choice([Fraction(2), Fraction(1, 3), Fraction(2**70), Fraction(1, 10**30)])
    for place in numbered(lines):
        lines = put(lines, place, str(factor * value_at(lines, place)))
    return lines


def another_claim(draw, lines):
    """The numbers of these lines as a certificate of another claim."""
    head = HEAD.match(lines[0]) if lines else None
    if not head:
        return lines
    claim = draw.choice([c for c in ("optimal", "infeasible", "dual-infeasible") if c != head[1]])
    out = [f"certificate 1 {claim}"]
    if claim == "optimal":
        out.append("objective 0")
    for line in lines[1:]:
        words = line.split(" ")
        if words[0] == "x" and claim == "infeasible" or words[0] not in ("x", "r"):
            continue
        numbers = words[2:] + ["0"]
        count = 2 if claim == "optimal" else 1
        out.append(" ".join(words[:2] + (numbers[::-1] if draw.random() < 0.3 else numbers)[:count]))
    return out + ["end"]


def another_name(draw, lines):
    named = [i for i, line in enumerate(lines) if line.split(" ")[0] in ("x", "r")]
    if not named:
        return lines
    at = draw.choice(named)
    words = lines[at].split(" ")
    words[1] = draw.choice([words[1] + "0", words[1][:-1], words[1].upper(), "", lines[draw.choice(named)].split(" ")[1]])
    return lines[:at] + [" ".join(words)] + lines[at + 1:]


def other_words(draw, lines):
    """A blank, a word or another byte too much or too little in one line."""
    if not lines:
        return lines
    at = draw.randrange(len(lines))
    line = lines[at]
    blank = line.find(" ")
    line = draw.choice([
        line + " ", " " + line, line.replace(" ", "  ", 1), line.replace(" ", "\t", 1), line + " 0", line + "\r", line + "\r\r",
        line[:blank] if blank > 0 else line + "s", line.upper(), "", line.replace("certificate 1", "certificate 2"),
        line.replace("certificate 1 ", "certificate 1  "), "certificate 1 ", "certificate 1",
    ])
    return lines[:at] + [line] + lines[at + 1:]


# ---- changes of a whole text: each takes the drawing, the text, another model's text and the model, and answers a text

def of_lines(change):
    def changed(draw, text, other, model):
        before, certificate, behind = parts(text)
        return joined(before, change(draw, certificate), behind)
    changed.__name__ = change.__name__
    return changed


def own(draw, text, other, model):
    return text


def of_another(draw, text, other, model):
    return other


def cut_lines(draw, text, other, model):
    lines = text.split("\n")
    return "\n".join(lines[:draw.randrange(len(lines))]) + draw.choice(["", "\n"])


def cut_bytes(draw, text, other, model):
    return text[:draw.randrange(len(text) + 1)]


def one_byte(draw, text, other, model):
    at = draw.randrange(len(text)) if text else 0
    return text[:at] + draw.choice(["", " ", "\n", "\r", "0", "1", "-", "/", "x", "é"]) + text[at + 1:]


def in_front(draw, text, other, model):
    before, certificate, behind = parts(text)
    front = draw.choice([[], ["certificate 1"], ["certificate 1 best"], ["x"], [" certificate 1 optimal"], parts(other)[1]])
    return joined(front, certificate, draw.choice([[""], ["rubbish"], behind]))


def both(draw, text, other, model):
    """Two changes of lines, one behind the other."""
    return draw.choice(LINE_CHANGES)(draw, draw.choice(LINE_CHANGES)(draw, text, other, model), other, model)


def entries_of(model):
    """The entries of an MPS text's columns by row, N rows left out."""
    section, free, entries = "", set(), {}
    for line in model.splitlines():
        words = line.split()
        if not words or line.startswith("*"):
            continue
        if line[0] not in " \t":
            section = words[0]
        elif section == "ROWS" and words[0] == "N":
            free.add(words[1])
        elif section == "COLUMNS":
            for row, value in zip(words[1::2], words[2::2]):
                if row not in free:
                    entries.setdefault(words[0], {})[row] = Fraction(value)
    return entries


def other_duals(draw, text, other, model):
    """Another dual value of a row or two, with the reduced costs that go with it; and perhaps another objective."""
    before, lines, behind = parts(text)
    if not lines or lines[0] != "certificate 1 optimal":
        return text
    entries = entries_of(model)
    rows = [i for i, line in enumerate(lines) if line.startswith("r ")]
    for at in draw.sample(rows, min(len(rows), draw.choice([1, 1, 2]))):
        row = lines[at].split(" ")[1]
        change = draw.choice([Fraction(1), Fraction(-1), Fraction(1, 3), -value_at(lines, (at, 3))])
        lines = put(lines, (at, 3), str(value_at(lines, (at, 3)) + change))
        for i, line in enumerate(lines):
            if line.startswith("x "):
                entry = entries.get(line.split(" ")[1], {}).get(row, 0)
                lines = put(lines, (i, 3), str(value_at(lines, (i, 3)) - change * entry))
    return joined(before, another_objective(draw, lines) if draw.random() < 0.2 else lines, behind)


LINE_CHANGES = [of_lines(change) for change in (
    another_number, no_number, wide_numbers, exchanged_numbers, exchanged_lines, dropped_line, doubled_line, wide_objective,
    another_objective, zeros, negated, scaled, another_claim, another_name, other_words)]
KINDS = [own, of_another, cut_lines, cut_bytes, one_byte, in_front, both, other_duals, other_duals, other_duals]
KINDS += LINE_CHANGES + LINE_CHANGES[:3]


def draw_text(draw, number, text, other, model):
    """The text of case `number` from a model's own and another's text, and the name of its kind."""
    kind = KINDS[number % len(KINDS)]
    return kind(draw, text, other, model), kind.__name__
