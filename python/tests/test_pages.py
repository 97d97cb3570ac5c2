"""Pages about answers. Expected numbers are those of docs/FORMATS.md, or worked out by hand."""

from __future__ import annotations

from html.parser import HTMLParser
from pathlib import Path

import pami
import pytest
from pami.__main__ import main
from test_pictures import hide
from test_replay import DIET, ONE

# Names that a page may not take for anything else.
NAMES = "NAME\nROWS\n N cost\n G <b>&$_$\nCOLUMNS\n <script>\"'--> cost 1 <b>&$_$ 2\nRHS\n s <b>&$_$ 3\nENDATA\n"
NAMED = """pami 1
model 1 1 1
phase 2
major 1 full 0
pivot 1 0 r:<b>&$_$ L x:<script>"'--> 1/2
answer optimal
certificate 1 optimal
objective 3/2
x <script>"'--> 3/2 0
r <b>&$_$ 3 1/2
end
basis B L
"""


@pytest.fixture
def writes() -> None:
    pytest.importorskip("jinja2", reason="python3-jinja2 isn't installed")


class Words(HTMLParser):
    """The words of a page, and the tags that are open at its end."""

    def __init__(self, page: str) -> None:
        super().__init__()
        self.words: list[str] = []
        self.open: list[str] = []
        self.feed(page)

    def handle_starttag(self, tag: str, attributes: object) -> None:
        if tag not in ("meta", "input", "path", "use", "rect"):
            self.open.append(tag)

    def handle_endtag(self, tag: str) -> None:
        if tag not in ("path", "use", "rect"):
            assert self.open.pop() == tag

    def handle_data(self, data: str) -> None:
        self.words += data.split()

    def __str__(self) -> str:
        return " ".join(self.words)


@pytest.mark.usefixtures("writes")
def test_page_of_a_plan(examples: Path) -> None:
    page = Words(pami.report(DIET, examples / "diet.mps"))
    assert page.open == []
    for told in (
        "227.5 = 455/2, to be made small",
        "cheese 0 0 20 at the lower bound",
        "fat 6 6 -10 at the upper bound",
    ):
        assert told in str(page)
    assert "bread 5.25 21/4 0 0 in the basis" in str(page)
    assert "r:calcium is dropped" in str(page)
    assert "valid, as the package judges it" in str(page)


@pytest.mark.usefixtures("writes")
def test_pages_of_others(program: str, examples: Path) -> None:
    """The numbers are those of docs/FORMATS.md."""
    for name, limit, told in (
        (
            "bakery.mps",
            None,
            ["at least 19", "oven 0.5 bake_bread + 0.25 bake_rolls + 1.5 bake_cake − extra_hours ≤ 40 -1"],
        ),
        ("exchange.lp", None, ["~0.010909 = 3/275", "euros_sold ~0.909091 10/11 0 no bound"]),
        ("diet.mps", 0, ["energy 0 18 18 too little in the basis"]),
        ("farm.lp", 1, ["Stopped at the limit"]),
        ("wide.mps", None, [f"div of {ONE} and 10"]),
    ):
        page = Words(pami.report(pami.solve(examples / name, limit=limit, program=program)))
        assert page.open == []
        for it in told:
            assert it in str(page), str(page)


@pytest.mark.usefixtures("writes")
def test_bounds_in_the_story(program: str) -> None:
    """x is at most 4 and y at least -2, so x - 2 y is at most 8, and at least 9 is asked."""
    model = "Minimize\n x\nst\n c: x - 2 y >= 9\nBounds\n x <= 4\n y >= -2\nEnd\n"
    page = str(Words(pami.report(pami.solve(model, format="lp", program=program))))
    for told in (
        "add up to at least 9",
        "add up to x − 2 y",
        "x x ≤ 4 1 4",
        "y y ≥ -2 -2 4",
        "at most 8",
        "missing is 1",
    ):
        assert told in page.replace("left-hand sides add", "add"), page


@pytest.mark.usefixtures("writes")
def test_names_on_a_page(tmp_path: Path) -> None:
    out = tmp_path / "run.html"
    assert pami.report(NAMED, NAMES, out=out).encode() == out.read_bytes()
    page = Words(out.read_text())
    assert page.open == []
    assert "<script>\"'--> 1.5 3/2 0 0 in the basis" in str(page)


@pytest.mark.usefixtures("writes")
def test_page_without_a_picture(examples: Path, monkeypatch: pytest.MonkeyPatch) -> None:
    hide(monkeypatch, "matplotlib")
    page = pami.report(DIET, examples / "diet.mps")
    assert "<svg" not in page
    assert "python3-matplotlib" in page


@pytest.mark.usefixtures("writes")
def test_command(examples: Path, tmp_path: Path) -> None:
    text, out = tmp_path / "run.txt", tmp_path / "run.html"
    text.write_text(DIET)
    assert main(["report", str(text), str(examples / "diet.mps"), "-o", str(out), "--digits", "1"]) == 0
    assert "vegetables 1.5 3/2" in str(Words(out.read_text()))
    assert "bread ~5.3 21/4" in str(Words(out.read_text()))


def test_no_package(examples: Path, monkeypatch: pytest.MonkeyPatch) -> None:
    hide(monkeypatch, "jinja2")
    with pytest.raises(pami.PackageMissing, match="python3-jinja2"):
        pami.report(DIET, examples / "diet.mps")
