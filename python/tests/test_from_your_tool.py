"""What docs/FROM_YOUR_TOOL.md says of files: of texts that are read otherwise than meant or refused, and of what tools
write.

The expectations are those of the page and of docs/FORMATS.md, worked out by hand. A tool that is missing is skipped,
and so is one of another version than the page speaks of.
"""

from __future__ import annotations

import gzip
import importlib
import shutil
import subprocess
import sys
from pathlib import Path
from typing import Any

import pytest

SECONDS = 60


def answer(program: str, path: Path, *words: str) -> list[str]:
    """The lines that the program writes for a file."""
    ran = subprocess.run([program, "solve", str(path), *words], capture_output=True, timeout=SECONDS, check=False)
    return ran.stdout.decode().splitlines()


def names(lines: list[str]) -> list[str]:
    return [line.split()[1] for line in lines if line.startswith("x ")]


def objective(lines: list[str]) -> str:
    return next((line.split()[1] for line in lines if line.startswith("objective ")), lines[-1])


MPS = "NAME\nROWS\n N cost\n G row\nCOLUMNS\n x cost 1 row %s\nRHS\n set row 1\n%sENDATA\n"

# The name of a file, its text, and the line that it is refused with.
REFUSED = [
    ("own.lp", "max: 3x+2y;\nc: x+y<=4;\n", "refused 1 syntax"),
    ("mark.mps", "\ufeff" + MPS % ("1", ""), "refused 1 section"),
    ("mark.lp", "\ufeffMinimize\n x\nst\n x >= 1\nEnd\n", "refused 1 byte"),
    ("empty_general.lp", "Minimize\n x\nst\n c: 2 x >= 1\nGeneral\nEnd\n", "refused 5 integer"),
    ("binary.lp", "Minimize\n x\nst\n c: 2 x >= 1\nBinary\n x\nEnd\n", "refused 5 integer"),
    ("semi.lp", "Minimize\n x\nst\n c: 2 x >= 1\nSemi-Continuous\n x\nEnd\n", "refused 5 integer"),
    ("bv.mps", MPS % ("1", "BOUNDS\n BV set x\n"), "refused 10 integer"),
    ("li.mps", MPS % ("1", "BOUNDS\n LI set x 3\n"), "refused 10 integer"),
    ("sc.mps", MPS % ("1", "BOUNDS\n SC set x 3\n"), "refused 10 integer"),
    ("sos.mps", MPS % ("1", "SOS\n"), "refused 9 section"),
    ("third.mps", MPS % ("1/3", ""), "refused 6 number"),
    ("comma.mps", MPS % ("1,5", ""), "refused 6 number"),
    ("blank.mps", "NAME\nROWS\n N cost\n G iron ore\nCOLUMNS\n x cost 1\nRHS\nENDATA\n", "refused 4 words"),
    ("brackets.lp", "Minimize\n x[1]\nst\n c: 2 x[1] >= 1\nEnd\n", "refused 2 byte"),
    ("square.lp", "Minimize\n x\nst\n c: x^2 <= 4\nEnd\n", "refused 4 byte"),
    ("right.lp", "Minimize\n x\nst\n c: 2 x >= y + 1\nEnd\n", "refused 4 syntax"),
    ("sum.lp", "Minimize\n x\nst\n c: 2 x >= 1 + 2\nEnd\n", "refused 5 syntax"),
    ("ranges.lp", "Minimize\n x\nst\n c: 2 x >= 1\nranges\n c: 1\nEnd\n", "refused 6 syntax"),
    ("lazy.lp", "Minimize\n x\nst\n c: x >= 1\nlazy constraints\n x >= 3\nEnd\n", "refused 5 syntax"),
    ("many.lp", "Minimize\nmultiobjectives\n x\nst\n c: x >= 1\nEnd\n", "refused 3 syntax"),
    ("late.mps", MPS % ("1", "OBJSENSE\n MAX\n"), "refused 9 order"),
    ("objname.mps", "NAME\nOBJNAME\n cost\nROWS\n N cost\nCOLUMNS\nENDATA\n", "refused 2 section"),
    ("quotient.lp", "Minimize\n x\nst\n x >= 7/2\nEnd\n", "refused 5 syntax"),
    ("number.lp", "Minimize\n x\nst\n c: 3e1 + x >= 1\nEnd\n", "refused 4 syntax"),
    ("st.lp", "Minimize\n x + st\nst\n c: 2 x >= 1\nBounds\nst <= 4\nEnd\n", "refused 6 order"),
    ("general.lp", "Maximize\ngeneral + x\nst\n c: x <= 1\nEnd\n", "refused 2 integer"),
    ("infinite.lp", "Minimize\n x\nst\n c: x >= 1e20\nEnd\n", "refused 4 infinite"),
]

# The name of a file, its text, the names of the columns that are read, and the objective or the last line.
READ = [
    ("parentheses.lp", "Minimize\n x\nst\n c: 2 (x + y) >= 1\nEnd\n", ["x", "(x", "y)"], "0"),
    ("round.lp", "Minimize\n x(1)\nst\n c: 2 x(1) >= 1\nEnd\n", ["x(1)"], "1/2"),
    ("quotient.lp", "Minimize\n x\nst\n c: x >= 7/2\n + x >= 1\nEnd\n", ["x", "/2"], "7"),
    ("comma.lp", "Minimize\n x\nst\n c: x >= 1,5\n + x >= 1\nEnd\n", ["x", ",5"], "1"),
    ("exponent.lp", "Minimize\n x\nst\n c: x >= 1D5\n + x >= 1\nEnd\n", ["x", "D5"], "1"),
    ("right.lp", "Maximize\n x\nst\n c: x <= 4 y\n + x >= 3\nEnd\n", ["x", "y"], "4"),
    ("joined.lp", "Minimize\n x\nst\n 4 >= x\n - y >= 1\nEnd\n", ["x", "y"], "1"),
    ("labelled.lp", "Minimize\n x\nst\n 4 >= x\n c: - y >= -1\nEnd\n", ["x", "y"], "0"),
    ("name.lp", "Minimize\n 3 e1\nst\n c: 2 e1 >= 1\nEnd\n", ["e1"], "3/2"),
    ("constant.lp", "Minimize\n 3e1 + x\nst\n c: 2 x >= 1\nEnd\n", ["x"], "61/2"),
    ("end.lp", "Minimize\n x + end\nst\n c: 2 x + end >= 1\nEnd\n", ["x", "end"], "1/2"),
    ("label.lp", "Minimize\n x\nst\nmin: x >= 1\nst: x >= 3\nEnd\n", ["x"], "3"),
    (
        "freed.lp",
        "Minimize\n x + y\nst\n c: x - y >= 0\n d: y <= 9\nBounds\n x <= -3\n x free\n y free\nEnd\n",
        ["x", "y"],
        "end",
    ),
    ("below.lp", "Minimize\n x\nst\n c: x + y >= -7\nBounds\n x <= -3\n y <= 1\nEnd\n", ["x", "y"], "-8"),
    ("below.mps", (MPS % ("1", "BOUNDS\n UP set x -3\n")).replace(" set row 1", " set row -7"), ["x"], "-7"),
    ("open.lp", "Minimize\n x\nst\n c: x >= -1e30\n d: x <= 1e20\nEnd\n", ["x"], "0"),
    ("signs.lp", "Minimize\n + -3 x\nst\n c: x <= 2\nEnd\n", ["x"], "-6"),
    ("comment.mps", "*SENSE:Maximize\n" + MPS % ("1", ""), ["x"], "1"),
    (
        "two.mps",
        "NAME\nROWS\n N cost\n N other\n G row\nCOLUMNS\n x cost 1 row 1\n x other -9\nRHS\n s row 2\nENDATA\n",
        ["x"],
        "2",
    ),
]


@pytest.mark.parametrize(("name", "text", "due"), REFUSED, ids=[row[0] for row in REFUSED])
def test_refused(program: str, tmp_path: Path, name: str, text: str, due: str) -> None:
    path = tmp_path / name
    path.write_text(text, encoding="utf-8")
    assert answer(program, path) == [due]


@pytest.mark.parametrize(("name", "text", "columns", "due"), READ, ids=[row[0] for row in READ])
def test_read(program: str, tmp_path: Path, name: str, text: str, columns: list[str], due: str) -> None:
    path = tmp_path / name
    path.write_text(text, encoding="utf-8")
    lines = answer(program, path)
    assert names(lines) == columns
    assert objective(lines) == due


def test_packed(program: str, tmp_path: Path) -> None:
    path = tmp_path / "packed.mps.gz"
    path.write_bytes(gzip.compress((MPS % ("1", "")).encode()))
    assert answer(program, path) == ["refused 1 byte"]


# The versions that the page speaks of, and the words that print them.
VERSIONS = {
    "glpsol": ("Solver 5.0", "--version"),
    "lp_solve": ("5.5.2.5", "-h"),
    "cbc": ("2.10.8", "-quit"),
    "clp": ("1.17.6", "-quit"),
}
MODULES = {"pulp": "2.6.0", "optlang": "1.5.2", "cvxopt": "1.3.0"}


def run(*words: str, cwd: Path) -> None:
    if shutil.which(words[0]) is None:
        pytest.skip(f"{words[0]} is missing")
    version, word = VERSIONS[words[0]]
    told = subprocess.run([words[0], word], cwd=cwd, stdin=subprocess.DEVNULL, capture_output=True, timeout=SECONDS)
    if version not in (told.stdout + told.stderr).decode(errors="replace"):
        pytest.skip(f"{words[0]} isn't of version {version}")
    subprocess.run(words, cwd=cwd, stdin=subprocess.DEVNULL, capture_output=True, timeout=SECONDS, check=False)


def module(name: str, part: str = "") -> Any:
    """A module of Python, or a part of it, in the version that the page speaks of."""
    whole = pytest.importorskip(name, reason=f"{name} is missing (Debian package python3-{name})")
    if not whole.__version__.startswith(MODULES[name]):
        pytest.skip(f"{name} isn't of version {MODULES[name]}")
    return importlib.import_module(name + part)


# max 3 x + 7.25 with x <= 7/2 by a row and a range -1 <= x - one <= 9: 10.5 + 7.25 = 71/4.
MATHPROG = """var one, = 1; var x >= 0;
maximize cost: 3*x + %s;
s.t. c: 2*x <= 7;
s.t. w: -1 <= x - one <= 9;
solve; end;
"""


def test_glpsol(program: str, tmp_path: Path) -> None:
    for name, constant in (("plain", "7.25"), ("kept", "7.25*one")):
        (tmp_path / (name + ".mod")).write_text(MATHPROG % constant)
        run(
            "glpsol",
            "--check",
            "--math",
            name + ".mod",
            "--wlp",
            name + ".lp",
            "--wfreemps",
            name + ".mps",
            cwd=tmp_path,
        )
    # The constant is a comment, and a range is a column more; as a column the constant is kept.
    assert "constant term = 7.25" in (tmp_path / "plain.lp").read_text()
    assert objective(answer(program, tmp_path / "plain.lp")) == "21/2"
    lines = answer(program, tmp_path / "kept.lp")
    assert objective(lines) == "71/4"
    assert "~r_3" in names(lines)
    # The sense is lost in MPS, and two lines bring it back.
    text = (tmp_path / "kept.mps").read_text()
    assert objective(answer(program, tmp_path / "kept.mps")) == "29/4"
    (tmp_path / "mended.mps").write_text(text.replace("ROWS\n", "OBJSENSE\n    MAX\nROWS\n", 1))
    assert objective(answer(program, tmp_path / "mended.mps")) == "71/4"


def test_lp_solve(program: str, tmp_path: Path) -> None:
    for name, goal in (("most", "max: 3x + 7.25;"), ("least", "min: 3x + 7.25;")):
        (tmp_path / (name + ".lp")).write_text(goal + "\nc: 2 x >= 1;\nd: x <= 3.5;\n")
        run(
            "lp_solve",
            "-S1",
            "-parse_only",
            name + ".lp",
            "-wfmps",
            name + ".mps",
            "-wmps",
            name + ".fixed.mps",
            cwd=tmp_path,
        )
    assert answer(program, tmp_path / "most.lp") == ["refused 1 syntax"]
    assert objective(answer(program, tmp_path / "most.mps")) == "71/4"
    # The other format negates the costs and not the constant; in a minimum the constant has the other sign.
    assert objective(answer(program, tmp_path / "most.fixed.mps")) == "-13/4"
    assert objective(answer(program, tmp_path / "least.mps")) == "-23/4"


# max 3 x + 7.25 with x <= 7/2, and a column that is fixed.
FIXED_MPS = """NAME          MODEL
ROWS
 N  cost
 L  c
COLUMNS
    x         cost                 3
    x         c                    2
    fixed     c                    1
RHS
    RHS       cost             -7.25
    RHS       c                    8
BOUNDS
 FX BND       fixed                1
ENDATA
"""


@pytest.mark.parametrize("tool", ["cbc", "clp"])
def test_coin(program: str, tmp_path: Path, tool: str) -> None:
    (tmp_path / "model.mps").write_text(FIXED_MPS)
    run(tool, "model.mps", "-maximize", "-presolve", "off", "-export", "out.mps", "-quit", cwd=tmp_path)
    run(tool, "model.mps", "-presolve", "on", "-export", "presolved.mps", "-quit", cwd=tmp_path)
    path = tmp_path / "out.mps"
    if not path.exists():
        path.write_bytes(gzip.decompress((tmp_path / "out.mps.gz").read_bytes()))
    # The true objective is 71/4. CBC negates costs and not the constant, 2 * 29/4 - 71/4; Clp drops the sense.
    assert objective(answer(program, path)) == ("-13/4" if tool == "cbc" else "29/4")
    assert "fixed" in names(answer(program, path))
    assert "fixed" not in (tmp_path / "presolved.mps").read_text()


def test_clp_has_no_lp(program: str, tmp_path: Path) -> None:
    (tmp_path / "model.mps").write_text(FIXED_MPS)
    run("clp", "model.mps", "-presolve", "off", "-export", "out.lp", "-quit", cwd=tmp_path)
    assert answer(program, tmp_path / "out.lp") == ["refused 1 syntax"]
    assert objective(answer(program, tmp_path / "out.lp", "--format", "mps")) == "29/4"


def test_table(program: str, tmp_path: Path) -> None:
    """The script on the page, and the table that it is shown with. By hand: energy by bread alone takes 7.2 of it, too
    much fat; milk alone does both, 12 of it for 240.
    """
    page = (Path(__file__).parents[2] / "docs" / "FROM_YOUR_TOOL.md").read_text()
    script = page.split("```python\n")[1].split("```")[0]
    shown = page.split("$ cat diet.csv\n")[1].split("    $ python3")[0]
    table = "".join(line.strip() + "\n" for line in shown.splitlines())
    ran = subprocess.run(
        [sys.executable, "-c", script], input=table.encode(), capture_output=True, timeout=SECONDS, check=True
    )
    (tmp_path / "diet.lp").write_bytes(ran.stdout)
    lines = answer(program, tmp_path / "diet.lp")
    assert objective(lines) == "240"
    assert names(lines) == ["bread", "milk"]


def test_pulp(program: str, tmp_path: Path) -> None:
    pulp = module("pulp")
    for name in ("plain", "kept"):
        problem = pulp.LpProblem("model", pulp.LpMaximize)
        x, one = pulp.LpVariable("x[1]", 0), pulp.LpVariable("one", 1, 1)
        problem += 3 * x + (7.25 if name == "plain" else 7.25 * one)
        problem += 2 * x <= 7
        problem += x >= 1 / 3
        problem.writeLP(str(tmp_path / (name + ".lp")))
        problem.writeMPS(str(tmp_path / (name + ".mps")))
    assert objective(answer(program, tmp_path / "plain.lp")) == "21/2"
    lines = answer(program, tmp_path / "kept.lp")
    assert objective(lines) == "71/4"
    assert names(lines) == ["one", "x_1_"]
    assert "x_1_ >= 0.333333333333\n" in (tmp_path / "kept.lp").read_text()
    # In MPS the sense is lost, and the constant too.
    assert "*SENSE:Maximize" in (tmp_path / "plain.mps").read_text()
    assert objective(answer(program, tmp_path / "plain.mps")) == "9999999999999/10000000000000"


def test_pulp_words(program: str, tmp_path: Path) -> None:
    pulp = module("pulp")
    problem = pulp.LpProblem("model", pulp.LpMinimize)
    problem += pulp.LpVariable("x", 0) + pulp.LpVariable("st", 0, 4) >= 1
    problem.writeLP(str(tmp_path / "model.lp"))
    text = (tmp_path / "model.lp").read_text()
    assert " st <= 4\n" in text
    assert "__dummy = 0" in text
    (line,) = answer(program, tmp_path / "model.lp")
    assert line == f"refused {text.splitlines().index(' st <= 4') + 1} order"


def test_optlang(program: str, tmp_path: Path) -> None:
    glpk = module("optlang", ".glpk_interface")
    model, x, y = glpk.Model(name="model"), glpk.Variable("x", lb=0), glpk.Variable("y", lb=0)
    model.add([glpk.Constraint(2 * x + y, ub=7, name="c"), glpk.Constraint(x - y, lb=-1, ub=9, name="w")])
    model.objective = glpk.Objective(3 * x + y + 7.25, direction="max")
    (tmp_path / "model.lp").write_text(model.to_lp())
    lines = answer(program, tmp_path / "model.lp")
    assert objective(lines) == "21/2"
    assert "constant" not in model.to_lp()
    assert "~r_2" in names(lines)


def test_cvxopt(program: str, tmp_path: Path) -> None:
    modeling = module("cvxopt", ".modeling")
    x = modeling.variable(1, "x")
    modeling.op(3 * x + 7.25, [3 * x >= 1 / 3, x >= 0]).tofile(str(tmp_path / "model.mps"))
    lines = answer(program, tmp_path / "model.mps")
    assert names(lines) == ["x_0"]
    assert objective(lines) == "333333/1000000"
