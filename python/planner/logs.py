"""A season's log in a file: a line an entry, its leg and its time, parted by a comma, a semicolon, a tab or spaces.

A first line 'leg,time' is a header; '#' begins a comment. A log may be of any length. Whatever fits the library's number types is sent as it
is, and the library refuses.
"""
from __future__ import annotations

import re
import sys
from array import array
from collections.abc import Iterable, Iterator
from typing import NamedTuple

from .faults import MOST_LINES, Faults, whole_number
from .formats import LONGEST, shown_path
from .library import INT32, UINT64

HEADER = ["leg", "time"]
PARTED = re.compile(r"\s*[,;\t]\s*|\s+")


class Log(NamedTuple):
    """The entries in order: their legs, their times, and the line where each stands."""

    edges: array[int]
    times: array[int]
    lines: array[int]


def cells_of(line: bytes) -> list[str]:
    """The cells of a line, comments, quotes and empty cells at its end left out."""
    text = line.decode("utf-8-sig", "replace").split("#")[0].strip()
    cells = [cell.strip('" ') for cell in PARTED.split(text)] if text else []
    while cells and not cells[-1]:
        cells.pop()
    return cells


def entry(cells: list[str]) -> tuple[int, int]:
    """The leg and the time that a line says."""
    if len(cells) != 2:
        raise Faults(f"a line has {len(cells)} cells; allowed are a leg and a time, as in '3,17'")
    return whole_number(cells[0], "leg", UINT64), whole_number(cells[1], "time", INT32)


def entries(lines: Iterable[bytes], name: str) -> Log:
    """The log in the lines of a file, or what is wrong with them."""
    log, faults, begun = Log(array("Q"), array("i"), array("Q")), [], False
    for number, line in enumerate(lines, 1):
        cells = cells_of(line)
        header = not begun and [cell.lower() for cell in cells] == HEADER
        begun = begun or bool(cells)
        if not cells or header:
            continue
        try:
            edge, time = entry(cells)
        except Faults as fault:
            faults.append(f"{name}:{number}: {fault}")
            if len(faults) > MOST_LINES:
                break
            continue
        log.edges.append(edge)
        log.times.append(time)
        log.lines.append(number)
    if faults:
        raise Faults(*faults)
    return log


def lines_of(path: str) -> Iterator[bytes]:
    """The lines of a file or, for '-', of standard input; each is read when it is wanted."""
    try:
        if path == "-":
            yield from iter(lambda: sys.stdin.buffer.readline(LONGEST), b"") if sys.stdin else ()
            return
        with open(path, "rb") as file:
            yield from iter(lambda: file.readline(LONGEST), b"")
    except (OSError, ValueError) as error:
        raise Faults(f"{shown_path(path)}: {getattr(error, 'strerror', None) or error}") from None


def read_log(path: str) -> Log:
    """The log in a file."""
    return entries(lines_of(path), shown_path(path))
