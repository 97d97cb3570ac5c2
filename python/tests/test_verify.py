"""The readers and the checker of this package beside the program's: drawn models and certificates, valid and broken."""

from __future__ import annotations

import collections
import random
import subprocess
import sys
from concurrent.futures import ThreadPoolExecutor
from fractions import Fraction
from pathlib import Path

import pami
import pytest
from pami.verify import verify

TOOLS = Path(__file__).resolve().parents[2] / "tools"
sys.path.insert(0, str(TOOLS))
sys.dont_write_bytecode = True

import compare_checks  # noqa: E402
import fault_texts  # noqa: E402

SECONDS = 30
MODELS, CERTIFICATES, SEED = 40, 1200, 23
BITS = 127


def said(program: str, *words: str | Path) -> str:
    return subprocess.run([program, *words], capture_output=True, timeout=SECONDS, check=False).stdout.decode()


def test_drawn_certificates(program: str, tmp_path: Path) -> None:
    """Both checkers say the same of each certificate, but for what the program leaves unchecked."""
    kinds: collections.Counter[str] = collections.Counter()
    with ThreadPoolExecutor(1) as pool:
        names, texts = compare_checks.solved([program], SEED, MODELS, str(tmp_path), pool)
    for (_, *files), change in compare_checks.write_certs(SEED, CERTIFICATES, str(tmp_path), names, texts):
        model, certificate = (tmp_path / name for name in files)
        due = said(program, "check", model, certificate).rstrip("\n")
        if due.startswith("refused"):
            continue
        found = str(verify(model, certificate, bits=BITS))
        kinds[due.split()[0]] += 1
        if due.startswith("unchecked"):
            assert found.split()[0] in ("valid", "invalid")
        else:
            assert found == due, f"{change}:\n{model.read_text()}\n{certificate.read_bytes().decode()}"
    # The seed draws some of each verdict.
    assert all(kinds[kind] for kind in ("valid", "invalid", "unchecked", "malformed"))


def test_read_texts(program: str, tmp_path: Path) -> None:
    """Texts of both formats that look faulty and aren't: their certificates hold for what is read here."""
    texts = [("mps", *row) for row in fault_texts.GOOD] + [("lp", *row) for row in fault_texts.LP_GOOD]
    judged = 0
    for form, text, why in texts:
        path = tmp_path / f"model.{form}"
        path.write_bytes(text if isinstance(text, bytes) else "".join(f"{line}\n" for line in text).encode("latin-1"))
        answer = tmp_path / "answer.txt"
        answer.write_bytes(subprocess.run([program, "solve", str(path)], stdout=subprocess.PIPE, check=False).stdout)
        if b"\ncertificate 1 " in answer.read_bytes():
            assert str(verify(path, answer)) == "valid", why
            judged += 1
    assert judged > 20


def drawn_lp(draw: random.Random) -> str:
    """An LP text with the forms that its profile has: signs, labels, terms twice, two sides, bounds of each kind."""
    names = [draw.choice(["x%d", "y_%d", "e%d", "_%d.a", "end%d"]) % at for at in range(draw.randint(1, 5))]

    def number() -> str:
        return draw.choice(["1", "2", "7", ".5", "3.25", "1e1", "2.5E-1", "12.", "0"])

    def term(first: bool) -> str:
        sign = draw.choice(["+", "-", "- -", "+ -"]) if not first or draw.random() < 0.5 else ""
        return f"{sign} {number() if draw.random() < 0.8 else ''} {draw.choice(names)}"

    def total() -> str:
        return " ".join(term(at == 0) for at in range(draw.randint(1, 5)))

    def relation() -> str:
        return draw.choice(["<", "<=", "=<", ">", ">=", "=>", "="])

    lines = [draw.choice(["Minimize", "MAXIMUM", "min", "Maximise"]), draw.choice(["", " cost: "]) + total()]
    lines += [draw.choice(["+ 3", "- 1.5", ""]), draw.choice(["st", "S.T.", "Subject To", "such that"])]
    for at in range(draw.randint(1, 4)):
        label = draw.choice(["", f"row{at}: ", f"st{at}:"])
        low, high = sorted((draw.randint(-9, 20), draw.randint(-9, 20)))
        forms = [f"{total()} {relation()} {low}", f"{low} <= {total()} <= {high}", f"{high} >= {total()}"]
        row = draw.choice([*forms, f"{high} => {total()} > {low}", f"{total()} <= inf"]).strip()
        # Behind a row that ends with a term, a sign would go on with it.
        lines.append(f" {label or 'c%d: ' % at if row[0] in '+-' else label}{row}")
    if draw.random() < 0.8:
        lines.append(draw.choice(["Bounds", "BOUND"]))
        for name in draw.sample(names, draw.randint(0, len(names))):
            forms = ["%s <= 9", "-3 <= %s <= 4", "%s = 2.5", "%s free", "%s >= -8", "%s <= -2", "-inf <= %s", "8 >= %s"]
            lines.append(" " + draw.choice(forms) % name)
    return "\n".join([*lines, "End", ""])


def test_drawn_lp(program: str, tmp_path: Path) -> None:
    statuses: collections.Counter[str] = collections.Counter()
    for number in range(150):
        text = drawn_lp(random.Random(f"lp {SEED} {number}"))
        path = tmp_path / "model.lp"
        path.write_text(text)
        try:
            result = pami.solve(path, program=program)
        except pami.Refused as error:
            assert error.kind in ("crossed", "infinite", "wide"), text
            continue
        statuses[result.status] += 1
        if "certificate" in result.text:
            assert verify(path, result).is_valid, f"{text}\n{result.text}"
        if result.objective is not None and result.model is not None:
            assert result.objective == result.model.objective([column.value for column in result.columns])
    assert all(statuses[kind] > 10 for kind in ("optimal", "infeasible", "dual-infeasible"))


MODEL = "NAME\nROWS\n N cost\n G row\nCOLUMNS\n x cost 2 row 3\nRHS\n s row 6\nENDATA\n"
HELD = "certificate 1 optimal\nobjective 4\nx x 2 0\nr row 6 2/3\nend\n"


@pytest.mark.parametrize(
    ("old", "new", "due"),
    [
        ("", "", "valid"),
        ("objective 4", "objective wide", "valid"),
        ("objective 4", "objective 5", "invalid objective -"),
        ("x x 2 0", "x x -1 0", "invalid bound x:x"),
        ("x x 2 0", "x x 3 0", "invalid row r:row"),
        ("x x 2 0\nr row 6", "x x 1 0\nr row 3", "invalid bound r:row"),
        ("r row 6 2/3", "r row 6 1", "invalid reduced x:x"),
        ("x x 2 0\nr row 6 2/3", "x x 2 -1\nr row 6 1", "invalid sign x:x"),
        ("x x 2 0\nr row 6 2/3", "x x 3 0\nr row 9 2/3", "invalid sign r:row"),
        ("x x 2 0", "x y 2 0", "malformed 3 name"),
        ("x x 2 0", "x x 2.0 0", "malformed 3 number"),
        ("end\n", "", "malformed 5 end-missing"),
        ("certificate", "Certificate", "malformed 6 none"),
        ("r row", "row", "malformed 4 word"),
    ],
)
def test_verdicts(old: str, new: str, due: str) -> None:
    """Worked out by hand: 3 x is at least 6, each x costs 2, so x is 2, and a unit of the row costs 2/3."""
    assert str(verify(MODEL, HELD.replace(old, new, 1))) == due


def test_no_width() -> None:
    """Numbers that the program has no room for are judged here."""
    wide = 10**60
    model = MODEL.replace("row 3", "row 1e-30").replace("row 6", "row 1e30")
    held = f"certificate 1 optimal\nobjective {2 * wide}\nx x {wide} 0\nr row {10**30} {2 * 10**30}\nend\n"
    assert verify(model, held).is_valid is False  # 1e30 counts as infinite where a row's side is read
    model = MODEL.replace("row 3", "row 1e-30").replace("row 6", "row 1e19").replace("cost 2", f"cost {10**30}")
    held = f"certificate 1 optimal\nobjective {10**79}\nx x {10**49} 0\nr row {10**19} {10**60}\nend\n"
    assert verify(model, held).is_valid
    assert str(verify(model, held, bits=BITS)) == "malformed 2 number"


@pytest.mark.parametrize(
    ("text", "line"),
    [
        ("NAME\nROWS\n N cost\n G row\nCOLUMNS\n x cost 1 other 1\nENDATA\n", 6),
        ("NAME\nROWS\n N cost\nCOLUMNS\n m 'MARKER' 'INTORG'\nENDATA\n", 5),
        ("NAME\nCOLUMNS\nROWS\nENDATA\n", 3),
        ("NAME\nROWS\n N cost\nCOLUMNS\n x cost 1/2\nENDATA\n", 5),
        ("NAME\nROWS\n", 3),
        ("Minimize\n x\nst\n 2 x y >= 1\nEnd\n", 4),
        ("Minimize\n x\nst\n x >= 1\nGeneral\n x\nEnd\n", 5),
        ("Minimize\n x[1]\nst\n x >= 1\nEnd\n", 2),
    ],
)
def test_models_that_are_not_read(text: str, line: int) -> None:
    with pytest.raises(pami.ModelFault) as caught:
        pami.read_model(text)
    assert caught.value.line == line


def test_infinite_exponents() -> None:
    model = pami.read_model("Minimize\n x\nst\n c: x <= 1e999999999\n d: x >= 0e999999999\nEnd\n")
    assert (model.row_high[0], model.row_low[1]) == (None, Fraction(0))
