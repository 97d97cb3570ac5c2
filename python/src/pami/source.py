"""Models and texts by the name of a file, or as they stand. A `str` with a line end in it is a text, any other the name
of a file.
"""

from __future__ import annotations

import os
from pathlib import Path

from .errors import MissingFile, ReadFault
from .lp import read_lp
from .model import Format, Model
from .mps import BLANKS, SECTIONS, read_mps

Source = str | os.PathLike[str]
# Names in a file may have any bytes; so each text is taken into Python and given back as the same bytes.
ENCODING, ERRORS = "utf-8", "surrogateescape"
HINT = "there is no such file. (A model or answer that is given as text has a line end in it.)"


def is_text(source: Source) -> bool:
    return isinstance(source, str) and "\n" in source


def read_text(source: Source) -> str:
    """A text as it stands, or that of a file."""
    name = os.fspath(source)
    if is_text(source):
        return name
    try:
        return Path(name).read_bytes().decode(ENCODING, ERRORS)
    except FileNotFoundError:
        raise MissingFile(name, HINT) from None
    except OSError as error:
        raise ReadFault(name, error.strerror or str(error)) from None


def guess_format(source: Source) -> Format:
    """That of the end of a file's name, as the program has it; a text that begins with a section of MPS is MPS, any
    other LP.
    """
    if not is_text(source):
        return "lp" if os.fspath(source).lower().endswith(".lp") else "mps"
    for line in os.fspath(source).split("\n"):
        words = [word for word in BLANKS.split(line.removesuffix("\r")) if word]
        if words and not line.startswith("*"):
            return "mps" if words[0] in SECTIONS and line[0] not in " \t" else "lp"
    return "mps"


def read_model(source: Source, format: Format | None = None) -> Model:
    """A model, read by this package's own readers in unbounded fractions."""
    text = read_text(source)
    return read_lp(text) if (format or guess_format(source)) == "lp" else read_mps(text)
