"""python -m pami: shows answers, judges certificates, tells what contradicts, draws runs. `python -m pami --help` has
the words.
"""

from __future__ import annotations

import argparse
import sys
from pathlib import Path

from .answer import Result, read_result
from .certify import certify
from .errors import PamiError
from .page import report
from .picture import plot
from .program import solve
from .source import ENCODING, ERRORS, read_model, read_text
from .table import table
from .verdict import Verdict
from .verify import verify

# The statuses of `verify` are those of `pami check`.
STATUSES = {"valid": 0, "invalid": 20, "unchecked": 21, "malformed": 22}


def count(word: str) -> int:
    """A number of pivots that is at least 1."""
    value = int(word)
    if value < 1:
        raise ValueError
    return value


def words() -> argparse.ArgumentParser:
    parser = argparse.ArgumentParser(prog="python -m pami", description="Shows and judges the answers of pami.")
    commands = parser.add_subparsers(dest="command", required=True)
    show = commands.add_parser(
        "show", help="a table of an answer: decimals, fractions, prices in the sense of the file"
    )
    json = commands.add_parser("json", help="the same as JSON")
    for command in (show, json):
        command.add_argument("file", metavar="FILE", help="the text of an answer, or a model, which is solved")
        command.add_argument(
            "--model", metavar="MODEL", help="the model of an answer's text: for its sense, and for what is infeasible"
        )
    show.add_argument("--digits", type=int, default=6, metavar="N", help="digits behind the point (6)")
    judge = commands.add_parser(
        "verify", help="judges a certificate as `pami check` does, with unbounded fractions, in plain Python"
    )
    judge.add_argument("file", metavar="FILE", help="the model")
    judge.add_argument("certificate", metavar="CERT", help="the text with the certificate")
    other = commands.add_parser(
        "certify", help="has another exact solver solve a model, and `pami check` judge its answer"
    )
    other.add_argument("file", metavar="MODEL", help="the model")
    other.add_argument("--with", dest="solver", choices=("esolver",), default="esolver", help="QSopt_ex (esolver)")
    other.add_argument("-o", dest="out", metavar="CERT", help="where the certificate is written")
    draw = commands.add_parser("plot", help="a picture of a run: the objective and what is missed over its pivots")
    page = commands.add_parser(
        "report", help="a page of HTML about an answer: the plan and its prices, or why there is none, and the run"
    )
    for command, out in ((draw, "the picture, .svg or .png"), (page, "the page")):
        command.add_argument("file", metavar="TEXT", help="the text that `pami solve` wrote")
        command.add_argument("model", metavar="MODEL", help="the model that it is of")
        command.add_argument("-o", dest="out", metavar="OUT", required=True, help=out)
        command.add_argument(
            "--every", type=count, default=1, metavar="N", help="solve the basis again at each N pivots alone (1)"
        )
    page.add_argument("--digits", type=int, default=6, metavar="N", help="digits behind the point (6)")
    for command in (show, json, judge, other, draw, page):
        command.add_argument(
            "--format", choices=("mps", "lp"), help="the format of the model, if its name doesn't say it"
        )
    for command in (show, json):
        command.add_argument("--batch", type=int, metavar="S", help="the most rows of a batch")
        command.add_argument("--refactor", type=int, metavar="R", help="the most pivots that a factor is kept for")
        command.add_argument("--limit", type=int, metavar="K", help="how many pivots are allowed")
        command.add_argument("--ranging", action="store_true", help="how far costs and bounds may be moved")
    for command in (show, json, other):
        command.add_argument("--program", metavar="PATH", help="the program, if it isn't on the path nor named by PAMI")
    return parser


def result_of(given: argparse.Namespace) -> Result:
    """The result in a text, or that of a model."""
    text = read_text(given.file)
    if text.startswith("pami "):
        return read_result(text, read_model(given.model, given.format) if given.model is not None else None)
    return solve(
        given.file,
        format=given.format,
        batch=given.batch,
        refactor=given.refactor,
        limit=given.limit,
        ranging=given.ranging,
        program=given.program,
    )


def judged(given: argparse.Namespace) -> Verdict:
    """The verdict on a certificate that is given, or on the one that another solver's answer makes."""
    if given.command == "verify":
        return verify(given.file, given.certificate, format=given.format)
    found = certify(given.file, format=given.format, solver=given.solver, program=given.program)
    if given.out is not None:
        Path(given.out).write_bytes(found.text.encode(ENCODING, ERRORS))
    print(f"{given.solver}: {found.claim}")
    return found.verdict


def main(arguments: list[str] | None = None) -> int:
    given = words().parse_args(arguments)
    try:
        if given.command in ("verify", "certify"):
            verdict = judged(given)
            print(verdict)
            return STATUSES[verdict.kind]
        if given.command == "plot":
            plot(given.file, given.model, out=given.out, format=given.format, every=given.every)
            return 0
        if given.command == "report":
            options = {"every": given.every, "digits": given.digits}
            report(given.file, given.model, out=given.out, format=given.format, **options)
            return 0
        result = result_of(given)
        print(result.to_json(indent=2) if given.command == "json" else table(result, max(given.digits, 0)))
    except PamiError as error:
        print(f"pami: {error}", file=sys.stderr)
        return 1
    return 0


if __name__ == "__main__":
    sys.exit(main())
