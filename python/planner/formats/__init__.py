"""Seas in files: a table, a chart's bytes, CSV or TSPLIB. Which of them a file holds is told by what stands in it.

Reading and writing a chart's bytes are the library's calls. The text forms are read and written here.
"""
from __future__ import annotations

import os
import re
import stat
import sys
from pathlib import Path

from ..faults import Faults, shown
from ..library import VERTICES, Graph, Refused, check, read, write
from .commas import commas_text, first_line, read_commas
from .table import read_table, table_text
from .tsplib import KEYWORDS, SECTIONS, read_tsplib, tsplib_text

LONGEST = 1 << 20  # bytes that are read of a file: no text of 190 legs needs as many, and longer bytes are refused by their header
TEXTS = {"table": read_table, "csv": read_commas, "tsplib": read_tsplib}
ENDINGS = {".chart": "chart", ".csv": "csv", ".tsp": "tsplib", ".txt": "table"}
FORMS = ("table", "chart", "csv", "tsplib")
CONTROL = bytes({*range(32), 127} - {*b"\t\n\v\f\r"})


def contents(path: str | os.PathLike[str], longest: int = LONGEST) -> bytes:
    """The bytes of a file, or of standard input for '-'; of one that is too long one byte too many."""
    try:
        if os.fspath(path) == "-":
            return sys.stdin.buffer.read(longest + 1) if sys.stdin else b""
        with open(path, "rb") as file:
            return file.read(longest + 1)
    except (OSError, ValueError) as error:
        raise Faults(f"{shown_path(path)}: {getattr(error, 'strerror', None) or error}") from None


def shown_path(path: str | os.PathLike[str]) -> str:
    """A file's name as a fault shows it: whole, but on one line."""
    name = "standard input" if str(path) == "-" else str(path)
    try:
        name = os.fsencode(name).decode("utf-8", "replace")  # whatever encoding the system is said to have
    except UnicodeEncodeError:
        pass
    return "".join(letter if letter.isprintable() else "?" for letter in name)


def text_of(data: bytes, errors: str = "replace") -> str:
    """The text in the bytes of a file, with ends of lines of every system as one."""
    return data.decode("utf-8-sig", errors).replace("\r\n", "\n").replace("\r", "\n")


def form_of(data: bytes, name: str) -> str:
    """Which form the bytes of a file have. A chart's second byte is zero, which no text has.

    Only where the contents fit nothing does the name count: a file named .chart is then a chart that is damaged.
    """
    if any(byte in CONTROL for byte in data):
        return "chart"
    line = first_line(text_of(data)).upper()
    found = re.match(r"([A-Z_0-9]+)\s*(:|$)", line)
    if found and (found[1] in KEYWORDS or found[1] in SECTIONS):
        return "tsplib"
    if re.match(r"\"?A\"?\s*[,;\t]", line):
        return "csv"
    if line.split()[:1] == ["BUOYS"]:
        return "table"
    named = ENDINGS.get(Path(name).suffix.lower(), "table")
    return "csv" if named == "table" and "," in line else named


def is_named_chart(name: str) -> bool:
    """Whether a name says that the file is a chart."""
    return name.lower().endswith(".chart")


def read_bytes(data: bytes, name: str) -> Graph:
    """The graph in a chart's bytes, or Refused. Of what is neither named nor headed like a chart it is said that it is no text either."""
    try:
        return read(data[:LONGEST])
    except Refused as refused:
        if is_named_chart(name) or (len(data) > 1 and data[0] in VERTICES and data[1] == 0):
            raise
        wide = data.startswith((b"\xff\xfe", b"\xfe\xff"))
        raise Faults(f"{name}: " + ("a text in UTF-16; save it in UTF-8" if wide else f"no text; as a chart's bytes {refused}")) from None


def parse(data: bytes, name: str) -> Graph:
    """The graph in the contents of a file of this name; or Refused, or Faults."""
    if not data and not is_named_chart(name):
        raise Faults(f"{name}: the file is empty; allowed is a sea as a table, a chart's bytes, CSV or TSPLIB")
    form = form_of(data, name)
    if form == "chart":
        return read_bytes(data, name)
    if len(data) > LONGEST:
        raise Faults(f"{name}: the text is longer than {LONGEST} bytes; no sea is")
    return TEXTS[form](text_of(data), name)


def load(path: str | os.PathLike[str]) -> Graph:
    """The graph in a file of any form; or Refused, or Faults."""
    return parse(contents(path), shown_path(path))


def form_to_write(path: str, wanted: str | None) -> str:
    """The form that a file is written in: as wanted, or as its name says."""
    if wanted:
        return wanted
    if path == "-":
        return "table"
    ending = Path(path).suffix.lower()
    if ending not in ENDINGS:
        endings = ", ".join(f"{ending} ({form})" for ending, form in ENDINGS.items())
        raise Faults(f"{shown_path(path)}: the name does not say the form; allowed are {endings}, or --to FORM")
    return ENDINGS[ending]


def written(graph: Graph, form: str, name: str = "sea") -> bytes:
    """The contents of a file that holds the graph in this form; Refused where the graph breaks the rules."""
    if form not in FORMS:
        raise Faults(f"the form '{shown(form)}' is unknown; allowed are {', '.join(FORMS)}")
    check(graph)
    if form == "chart":
        return write(graph)
    text = {"table": table_text, "csv": commas_text}[form](graph) if form != "tsplib" else tsplib_text(graph, name)
    return text.encode("utf-8", "replace")


def same_file(path: str, other: str) -> bool:
    """Whether both names lead to one file; '-' is what standard input comes from."""
    try:
        one, another = os.stat(path), os.fstat(0) if other == "-" else os.stat(other)
        return stat.S_ISREG(one.st_mode) and os.path.samestat(one, another)
    except (OSError, ValueError):
        return False


def save(graph: Graph, path: str | os.PathLike[str], form: str | None = None) -> None:
    """Writes the graph to a file, in the form that its name says or that is asked for."""
    data = written(graph, form_to_write(str(path), form), Path(path).stem)
    Path(path).write_bytes(data)
