"""A picture of a run by matplotlib: the objective and what is missed over the pivots, and what happened beside them."""

from __future__ import annotations

import io
import math
import os
import re
import textwrap
import warnings
from collections import Counter
from collections.abc import Sequence
from fractions import Fraction
from pathlib import Path
from typing import Any

from .answer import Result, Status
from .decimals import decimal
from .errors import PackageMissing, UnknownPicture, WriteFault
from .model import Format, Model
from .replay import Mark, Point, Round, Trace, trace
from .source import ENCODING, ERRORS, Source

FORMATS = {".svg": "svg", ".png": "png"}
# The kinds of marks from the top of their panel: what each is called there, what it means, its shape and its colour.
MARKS = {
    "flip": ("flips", "a variable goes from one of its bounds to the other without a pivot", "^", "#117733"),
    "drop": ("drops", "a row that the major had chosen is left to a later one", "v", "#882255"),
    "rollback": ("rollbacks", "nothing is kept of a major, as a number didn't fit", "X", "#000000"),
    "none": ("stuck", "it is out of its bounds, and no variable can enter for it, so there is no plan", "s", "#CC3311"),
}
OBJECTIVE, MISSED, BAND = "#0072B2", "#B34700", "#E4E8EC"
# Up to so many points have a marker each, so many majors a number each; so many marks of a kind are drawn large.
POINTS, NUMBERS, LARGE = 60, 24, 40
# So many letters fit into a line below the panels; a letter above them is as wide as this part of the picture.
LETTERS, LETTER = 160, 0.008
# A number past this, on either side of 0, is drawn there. Past this ratio of the largest to the least number above 0
# the scale is logarithmic.
EDGE, WIDE = Fraction(10) ** 200, 2000
# So many numbers stand beside a logarithmic scale.
TICKS = 8
# What a run in phase 2 came to, where that isn't said by its marks.
ENDS = {
    Status.OPTIMAL: "The last point is the best plan.",
    Status.INFEASIBLE: "Here that never comes.",
    Status.LIMIT: "Here the limit of pivots came first.",
    Status.OVERFLOW: "Here a number that doesn't fit came first.",
}
# Letters are drawn in an SVG, so that it looks the same everywhere; a name is never a formula; and the same run gives
# the same bytes.
STYLE = {
    "svg.fonttype": "path",
    "svg.hashsalt": "pami",
    "text.parse_math": False,
    "axes.spines.top": False,
    "axes.spines.right": False,
    "font.size": 10,
}
# What no XML may have.
NO_XML = re.compile("[^\t\n -\ud7ff\ue000-\ufffd\U00010000-\U0010ffff]")


def plot(
    answer: Source | Result,
    model: Source | Model | None = None,
    *,
    out: str | os.PathLike[str],
    format: Format | None = None,
    every: int = 1,
) -> Trace:
    """Draws a run to a file, as SVG or as PNG by the end of its name, and gives what was drawn.

    `answer` is a result, or a text of `solve` with its model. With `every` the basis is solved at each so many pivots
    alone, for runs that are long or large.
    """
    form = picture_format(out)
    load_matplotlib()
    run = trace(answer, model, format=format, every=every)
    write(out, picture(run, form))
    return run


def write(out: str | os.PathLike[str], told: bytes) -> None:
    try:
        Path(out).write_bytes(told)
    except OSError as error:
        raise WriteFault(f"{os.fspath(out)} can't be written: {error.strerror or error}") from None


def picture_format(out: str | os.PathLike[str]) -> str:
    end = Path(out).suffix.lower()
    if end not in FORMATS:
        raise UnknownPicture(f"{os.fspath(out)} ends in none of {' and '.join(FORMATS)}, which say the format")
    return FORMATS[end]


def load_matplotlib() -> Any:
    """The package that draws."""
    try:
        import matplotlib
        import matplotlib.backends.backend_agg
        import matplotlib.backends.backend_svg
    except ImportError as error:
        raise PackageMissing(
            f"pictures need matplotlib ({error}). Install it: `apt install python3-matplotlib` on Debian, else "
            "`pip install matplotlib`"
        ) from None
    return matplotlib


def picture(run: Trace, form: str = "svg") -> bytes:
    """The picture of a run in a format, `svg` or `png`."""
    told = io.BytesIO()
    about = {"Date": None, "Title": headline(run)[0]} if form == "svg" else None
    with load_matplotlib().rc_context(STYLE), warnings.catch_warnings():
        # A name may have letters that the font lacks: they are drawn as boxes.
        warnings.filterwarnings("ignore", message="Glyph")
        _Picture(run).draw().savefig(told, format=form, dpi=150, metadata=about)
    return told.getvalue()


def readable(text: str) -> str:
    """A name as it can be shown: bytes that are no letter, and what no XML may have, as a mark."""
    return NO_XML.sub("\ufffd", text.encode(ENCODING, ERRORS).decode(ENCODING, "replace"))


def headline(run: Trace) -> tuple[str, str]:
    """What a run came to, and over what model."""
    result = run.result
    told = {
        Status.OPTIMAL: "a best plan",
        Status.INFEASIBLE: "no plan keeps all rules",
        Status.DUAL_INFEASIBLE: "the objective gets better without end",
        Status.LIMIT: "stopped at the limit, without an answer",
        Status.OVERFLOW: "stopped, as a number didn't fit",
    }[result.status]
    if result.is_optimal and result.objective is not None:
        told += f", objective {_short(result.objective)}"
    rows, columns, entries = result.sizes
    sense = "minimum" if result.sense == "min" else "maximum"
    sizes = f"a {sense} over {counted(rows, 'row')}, {counted(columns, 'column')} and {counted(entries, 'entry')}"
    return f"{readable(run.name)}: {told}" if run.name else told[0].upper() + told[1:], sizes


def counted(number: int, word: str) -> str:
    """A number of things, as `1 entry` and `2 entries`."""
    many = word[:-1] + "ies" if word.endswith("y") else word + "s"
    return f"{number} {word if number == 1 else many}"


def _short(value: Fraction) -> str:
    """A decimal of a length that fits into a picture."""
    told = decimal(value, 4)
    return told if len(told) <= 14 and (told != "~0" or not value) else f"~{_float(value):.5g}"


def _tick(value: float, _: object = None) -> str:
    return f"{value:.10g}" if 1e-4 <= abs(value) < 1e9 else f"{value:.4g}"


def _float(value: Fraction) -> float:
    return float(min(max(value, -EDGE), EDGE))


class _Picture:
    """One column of panels for each phase: the objective, what is missed, and the marks."""

    def __init__(self, run: Trace) -> None:
        self.run = run
        self.kinds = [kind for kind in MARKS if any(mark.kind == kind for mark in run.marks)]

    def draw(self) -> Any:
        from matplotlib.backends.backend_agg import FigureCanvasAgg
        from matplotlib.figure import Figure

        run, phases = self.run, self.run.phases
        strip = 0.45 * len(self.kinds)
        figure = Figure(figsize=(11, 6.6 + strip), constrained_layout=True)
        FigureCanvasAgg(figure)
        figure.suptitle(headline(run)[0], fontsize=14, fontweight="bold")
        told = "\n".join(textwrap.fill(it, LETTERS) for it in self.caption())
        figure.supxlabel(told, fontsize=9, x=0.01, ha="left")
        if not phases:
            axes = figure.add_subplot()
            axes.set_axis_off()
            axes.text(0.5, 0.5, "No pivot was tried, so there is nothing to show.", ha="center", va="center")
            return figure
        lengths = [self.ends(phase)[1] - self.ends(phase)[0] for phase in phases]
        ratios = [max(length, 0.4 * max(lengths), 1) for length in lengths]
        heights = [3.0, 2.0, *([strip + 0.15] if self.kinds else [])]
        grid = figure.add_gridspec(len(heights), len(phases), width_ratios=ratios, height_ratios=heights)
        for at, phase in enumerate(phases):
            panels = [figure.add_subplot(grid[row, at]) for row in range(len(heights))]
            self.phase(phase, panels, ratios[at] / sum(ratios))
        return figure

    def caption(self) -> list[str]:
        """What the lines, marks and bands mean, in sentences."""
        run, phases = self.run, self.run.phases
        size, side, way = ("smaller", "below", "rises") if run.result.sense == "min" else ("larger", "above", "falls")
        told = []
        if 1 in phases:
            told.append(
                "Phase 1 looks for a start: its numbers are those of boxes, not of the model. Its objective comes to 0 "
                f"where there is a start, and stays {side} 0 where the model's gets better without end."
            )
        if 2 in phases:
            told.append(
                f"{'In phase 2 the' if 1 in phases else 'The'} objective is a bound: no plan has a {size} one. "
                f"It {way}, or stays, until nothing is missed any more. {ENDS.get(run.result.status, '')}".rstrip()
            )
        for kind in self.kinds:
            word, meaning, _, _ = MARKS[kind]
            name = next(mark.what for mark in run.marks if mark.kind == kind)
            told.append(f"{f'Stuck at {readable(name)}' if kind == 'none' else word.capitalize()}: {meaning}.")
        steps = f"{counted(run.result.pivots, 'pivot')} in {counted(len(run.rounds), 'major')}"
        last = f"The model is {headline(run)[1]}; {steps}."
        if run.rounds:
            group = self.group()
            last += f" A band is {'a major, its number' if group == 1 else f'{group} majors, their numbers'} above."
        if run.every > 1:
            last += f" The basis was solved at each {run.every} pivots alone."
        return [*told, last]

    def group(self) -> int:
        """How many majors share a band."""
        return -(-len(self.run.rounds) // NUMBERS) or 1

    def ends(self, phase: int) -> tuple[int, int]:
        points = self.run.at(phase)
        return points[0].pivots, points[-1].pivots

    def phase(self, phase: int, panels: Sequence[Any], share: float) -> None:
        """The panels of a phase, which have this share of the picture's width."""
        from matplotlib.ticker import FuncFormatter, MaxNLocator

        points, sense = self.run.at(phase), self.run.result.sense
        goal = "to be made small" if sense == "min" else "to be made large"
        top = f"objective, {goal}" if phase == 2 else "objective in the boxes"
        self.line(panels[0], points, [it.objective for it in points], OBJECTIVE, "o")
        panels[0].set_ylabel(top)
        if self.run.phases != (2,):
            panels[0].set_title(f"Phase {phase}", pad=18, fontsize=11)
        self.note(panels[0], points)
        missed = [it.infeasibility for it in points]
        self.line(panels[1], points, missed, MISSED, "D")
        has_wide_scale = self.scale(panels[1], missed)
        for axes in panels[:2]:
            axes.yaxis.set_major_formatter(FuncFormatter(_tick))
        panels[1].set_ylabel(f"missed, added up\n(sum of infeasibilities{', log' if has_wide_scale else ''})")
        first, last = self.ends(phase)
        room = max(0.04 * (last - first), 0.3)
        letter = LETTER * (last - first + 2 * room) / share
        self.shade(phase, panels, letter)
        if self.kinds:
            self.marks(phase, panels[2], letter)
        for at, axes in enumerate(panels):
            axes.set_xlim(first - room, last + room)
            axes.xaxis.set_major_locator(MaxNLocator(integer=True, nbins=10, min_n_ticks=1))
            axes.tick_params(labelbottom=at == len(panels) - 1)
        panels[-1].set_xlabel("pivots made")

    def line(self, axes: Any, points: Sequence[Point], values: Sequence[Fraction], colour: str, shape: str) -> None:
        is_short = len(points) <= POINTS
        axes.plot(
            [it.pivots for it in points],
            [_float(it) for it in values],
            color=colour,
            marker=shape if is_short else None,
            markersize=5,
            linewidth=1.6,
            zorder=3,
            clip_on=False,
        )
        axes.margins(y=0.2)
        axes.grid(axis="y", color="#BBBBBB", linewidth=0.5, zorder=1)

    def note(self, axes: Any, points: Sequence[Point]) -> None:
        """The number of the last point, and what the run ended with there."""
        last, result = points[-1], self.run.result
        is_best = last is self.run.points[-1] and result.status is Status.OPTIMAL
        axes.annotate(
            f"{'best: ' if is_best else ''}{_short(last.objective)}",
            (last.pivots, _float(last.objective)),
            # The line comes from the other side.
            xytext=(4, 12 if result.sense == "min" else -12),
            textcoords="offset points",
            ha="right",
            va="center",
            fontweight="bold",
            color=OBJECTIVE,
            zorder=5,
        )

    def scale(self, axes: Any, values: Sequence[Fraction]) -> bool:
        """Whether the scale is logarithmic, as it is made where numbers differ much, with a linear piece down to 0."""
        above = [_float(it) for it in values if it]
        if not above:
            axes.set_yticks([0])
            axes.set_ylim(0, 1)
            return False
        is_wide = 0 < min(above) * WIDE < max(above)
        if is_wide:
            least = math.floor(math.log10(min(above)))
            decades = math.log10(max(above)) - least
            axes.set_yscale("symlog", linthresh=10.0**least, linscale=max(1.0, decades / TICKS))
            axes.yaxis.get_major_locator().set_params(numticks=TICKS)
        axes.set_ylim(bottom=0)
        return is_wide

    def shade(self, phase: int, panels: Sequence[Any], letter: float) -> None:
        """Bands behind the majors, every second one grey, and their numbers above the panels, as far as they have room:
        `letter` is how many pivots are as wide as one.
        """
        rounds = [it for it in self.run.rounds if it.phase == phase]
        group = self.group()
        ticks: list[tuple[float, str]] = []
        free = -math.inf
        for at in range(0, len(rounds), group):
            part: list[Round] = rounds[at : at + group]
            first, last = part[0].first, part[-1].last
            if first < last and (at // group) % 2 == 0:
                for axes in panels:
                    axes.axvspan(first, last, color=BAND, linewidth=0, zorder=0)
            told = str(part[0].number) if len(part) == 1 else f"{part[0].number}\u2013{part[-1].number}"
            middle, half = (first + last) / 2, letter * (len(told) + 1) / 2
            if first < last and middle - half > free:
                ticks.append((middle, told))
                free = middle + half
        axes = panels[0].secondary_xaxis("top")
        axes.set_xticks([at for at, _ in ticks], [told for _, told in ticks], fontsize=8)
        axes.tick_params(length=0, pad=1)
        axes.spines["top"].set_visible(False)

    def marks(self, phase: int, axes: Any, letter: float) -> None:
        """A line of marks for each kind, with their number above where more than one stand at a pivot, as far as there
        is room.
        """
        marks = [it for it in self.run.marks if it.phase == phase]
        for height, kind in enumerate(reversed(self.kinds)):
            _, _, shape, colour = MARKS[kind]
            counts = Counter(it.pivots for it in marks if it.kind == kind)
            axes.scatter(
                list(counts),
                [height] * len(counts),
                s=45 if len(counts) <= LARGE else 14,
                marker=shape,
                color=colour,
                linewidths=0,
                zorder=3,
            )
            free = -math.inf
            for pivots, count in sorted(counts.items()):
                half = letter * (len(str(count)) + 1) / 2
                if count > 1 and pivots - half > free:
                    at = (pivots, height)
                    axes.annotate(
                        str(count), at, (0, 6), textcoords="offset points", ha="center", fontsize=8, color=colour
                    )
                    free = pivots + half
        names = [f"{MARKS[kind][0]} ({_total(marks, kind)})" for kind in reversed(self.kinds)]
        axes.set_yticks(range(len(self.kinds)), names, fontsize=9)
        axes.set_ylim(-0.6, len(self.kinds) - 0.4)
        axes.tick_params(axis="y", length=0)


def _total(marks: Sequence[Mark], kind: str) -> int:
    return sum(1 for mark in marks if mark.kind == kind)
