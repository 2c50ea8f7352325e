"""The CSV form: a header 'a,b,cost,mark' (or 'a,b,cost'), then a row a leg; the mark is free, required, struck, 0, 1, 2 or empty.

The number of buoys is the highest that a leg names, or what a line '# buoys N' in front says. Cells are parted by what parts those of the
header: commas, or semicolons or tabs, as spreadsheets write them where numbers have commas.
"""
from __future__ import annotations

import csv
import io
import re
from collections.abc import Iterable, Iterator

from ..faults import Faults, shown, span
from ..library import FREE, MARKS, VERTICES, Edge, Graph
from .legs import Legs, vertex_count

HEADER = ["a", "b", "cost", "mark"]
COUNT = re.compile(r"#\s*buoys\s+(\S+)\s*")


def first_line(text: str) -> str:
    """The first line that says something, comments aside."""
    return next((line.strip() for line in text.split("\n") if line.split("#")[0].strip()), "")


def rows(text: str, name: str) -> Iterator[tuple[int, list[str]]]:
    """The rows of a CSV text with the line where each ends; empty rows, and empty cells at the end of a row, left out."""
    parting = re.search(r"[,;\t]", first_line(text))
    reader = csv.reader(io.StringIO(text, newline=""), delimiter=parting[0] if parting else ",", skipinitialspace=True)
    try:
        for row in reader:
            filled = [place for place, cell in enumerate(row, 1) if cell.strip()]
            if filled:
                yield reader.line_num, row[: filled[-1]]
    except csv.Error as error:
        raise Faults(f"{name}:{reader.line_num}: not a row of CSV: {error}") from None


def mark_cell(word: str) -> int:
    """The mark in a cell."""
    words = {"": FREE, **{str(mark): mark for mark in range(len(MARKS))}, **{word: mark for mark, word in enumerate(MARKS)}}
    if word.lower() not in words:
        raise Faults(f"mark '{shown(word)}' is unknown; allowed are 'free', 'required', 'struck', 0, 1, 2 or nothing")
    return words[word.lower()]


def count_line(text: str, name: str) -> int | None:
    """The number of buoys where a comment says it."""
    for line, content in enumerate(text.split("\n"), 1):
        if found := COUNT.fullmatch(content.lstrip().rstrip(",; \t")):
            try:
                return vertex_count(found[1])
            except Faults as fault:
                raise Faults(f"{name}:{line}: {fault}") from None
    return None


def highest(edges: Iterable[Edge]) -> int:
    """The highest buoy that a leg names."""
    return max((edge.b for edge in edges), default=0)


def take_row(legs: Legs, line: int, cells: list[str], n: int) -> None:
    """One row."""
    if len(cells) not in (3, 4):
        raise Faults(f"a row has {len(cells)} cells; allowed are a, b, cost and at most a mark")
    a, b, cost, mark = (*cells, "")[:4]
    legs.take(line, (a, b), cost, mark_cell(mark), n)


def read_commas(text: str, name: str) -> Graph:
    """The graph in a CSV text, or every fault in it."""
    found = [(line, [cell.strip() for cell in row]) for line, row in rows(text, name) if not row[0].startswith("#")]
    faults, legs = [], Legs()
    if not found or [cell.lower() for cell in found[0][1]] not in (HEADER, HEADER[:3]):
        line = found[0][0] if found else 1
        raise Faults(f"{name}:{line}: the header is missing; allowed is a first row 'a,b,cost,mark' or 'a,b,cost'")
    said = count_line(text, name)
    for line, cells in found[1:]:
        try:
            take_row(legs, line, cells, said or VERTICES[-1])
        except Faults as fault:
            faults.append(f"{name}:{line}: {fault}")
    n = said or highest(legs.edges)
    if not faults and n not in VERTICES:
        faults.append(f"{name}: the legs name {n} buoys; allowed is {span(VERTICES)}, or a line '# buoys N' before the legs")
    if faults:
        raise Faults(*faults)
    return Graph(n, legs.edges)


def commas_text(graph: Graph) -> str:
    """The CSV of a graph; buoys without a leg at the end of their numbers need the line that says how many there are."""
    out = io.StringIO()
    if graph.n != highest(graph.edges):
        out.write(f"# buoys {graph.n}\n")
    writer = csv.writer(out, lineterminator="\n")
    writer.writerow(HEADER)
    writer.writerows((edge.a, edge.b, edge.cost, MARKS[edge.mark]) for edge in graph.edges)
    return out.getvalue()
