"""Recorded costs of cheapest rounds, held to the proved library.

A folder has charts of any form (*.txt, *.chart, *.csv, *.tsp) and the record: costs.txt, a line 'NAME COST' or 'NAME none' a chart (a name
that a '#' or quotes would spoil stands in double quotes), or costs.csv, with the header 'name,cost'.
"""
from __future__ import annotations

import csv
import io
import os
import re
import unicodedata
from collections import Counter
from collections.abc import Callable, Collection, Iterable, Iterator
from dataclasses import asdict, dataclass
from pathlib import Path

from .ashore import ashore_list
from .faults import Faults, whole_number
from .formats import ENDINGS, contents, load, shown_path, text_of
from .formats.commas import rows
from .library import CEILINGS, HIGHEST_TOUR, Graph, Refused
from .search import LONG, Answer, Climb, Progress

LISTS = ("costs.txt", "costs.csv")
LONGEST_LIST = 1 << 26  # bytes
GRADES = ("right", "too dear", "too cheap", "wrong none", "no round", "undecided", "refused", "not read", "no record", "no chart")
COLUMNS = ("name", "grade", "recorded", "cheapest", "difference", "says")
ALLOWED = "allowed is 'NAME COST' or 'NAME none'"
RECORD = re.compile(r'\s*("(?:[^"]|"")*"|\S.*?)\s+(none|-?[0-9]+)\s*(#.*)?', re.IGNORECASE)

Records = dict[str, "int | None"]


@dataclass(frozen=True)
class Grade:
    """What is said of one chart. None of the cheapest means that it is not known, or that there is no round."""

    name: str
    grade: str
    says: str
    recorded: int | str | None = None
    cheapest: int | None = None
    difference: int | None = None

    def line(self) -> str:
        """As a line for a person."""
        return f"{shown_path(self.name)}: {self.grade}{' ' if self.grade == 'refused' else ': '}{self.says}"

    def fields(self) -> dict[str, object]:
        """As fields for a program."""
        return asdict(self)

    def status(self) -> int:
        """The exit status that this chart calls for: wrong records, then what cannot be read, then what is undecided."""
        return {"right": 0, "undecided": 3, "refused": 2, "not read": 2}.get(self.grade, 1)


# The record


def read_text_record(text: str) -> Iterator[tuple[int, str, str]]:
    """The lines of costs.txt: line, name and cost. The name is all before the last word; in quotes it may hold anything."""
    for number, line in enumerate(text.split("\n"), 1):
        if not line.strip() or line.lstrip().startswith("#"):
            continue
        found = RECORD.fullmatch(line.strip())
        name, cost = (found[1], found[2]) if found else rough_record(line)
        if len(name) > 1 and name[0] == name[-1] == '"':
            name = name[1:-1].replace('""', '"')
        yield number, name, cost


def rough_record(line: str) -> tuple[str, str]:
    """Name and cost of a line whose cost is none, or is no cost."""
    words = re.split(r"(?:^|\s)#", line)[0].rsplit(None, 1)
    return (words[0].strip(), words[1]) if len(words) == 2 else ("", "")


def read_csv_record(text: str, path: str) -> Iterator[tuple[int, str, str]]:
    """The rows of costs.csv: line, name and cost."""
    found = list(rows(text, path))
    if not found or [cell.strip().lower() for cell in found[0][1]] != ["name", "cost"]:
        raise Faults(f"{path}:{found[0][0] if found else 1}: the header is missing; allowed is a first row 'name,cost'")
    for line, cells in found[1:]:
        yield line, *((cells[0], cells[1].strip()) if len(cells) == 2 else ("", ""))


def read_records(path: Path) -> Records:
    """The recorded cost, or None for 'none', of each name."""
    shown, data = shown_path(path), contents(path, LONGEST_LIST)
    if len(data) > LONGEST_LIST:
        raise Faults(f"{shown}: longer than {LONGEST_LIST} bytes")
    text = text_of(data, "surrogateescape")
    records: Records = {}
    faults = []
    for line, name, cost in read_csv_record(text, shown) if path.suffix == ".csv" else read_text_record(text):
        try:
            if not name:
                raise Faults(ALLOWED)
            name = os.fsdecode(name.encode("utf-8", "surrogateescape"))  # as the system has the names of files
            if name in records:
                raise Faults(f"'{shown_path(name)}' stands twice; allowed is one line for a chart")
            records[name] = None if cost.lower() == "none" else whole_number(cost, "cost", CEILINGS)
        except Faults as fault:
            faults.append(f"{shown}:{line}: {fault}")
    if faults:
        raise Faults(*faults)
    if not records:
        raise Faults(f"{shown}: no chart is named; {ALLOWED}, a line a chart")
    return records


def list_of(folder: Path) -> Path:
    """The file that has the record of a folder."""
    found = [folder / name for name in LISTS if (folder / name).exists()]
    if len(found) > 1:
        raise Faults(f"{shown_path(folder)}: has {' and '.join(LISTS)}; allowed is one of them")
    if not found:
        missing = "no such folder" if not folder.exists() else "not a folder" if not folder.is_dir() else f"has no {' and no '.join(LISTS)}"
        raise Faults(f"{shown_path(folder)}: {missing}")
    return found[0]


# Judging


class Judge:
    """Judges the record of one chart."""

    def __init__(self, name: str, graph: Graph, nodes: int = LONG, progress: Progress | None = None, ashore: Collection[int] = ()):
        self.name, self.cheapest = name, Climb(graph, nodes, progress, ashore_list(graph, ashore)).cheapest

    def judge(self, recorded: int | None) -> Grade:
        """The grade of a record."""
        if recorded is None:
            return self.judge_none()
        answer = self.cheapest(recorded)
        if answer.verdict == "going on":
            return self.undecided(recorded, answer)
        if answer.cost is None:
            return self.judge_too_cheap(recorded)
        if answer.cost == recorded:
            return Grade(self.name, "right", f"{recorded}", recorded, recorded, 0)
        return self.compared("too dear", f"recorded {recorded}, cheapest", recorded, answer.cost)

    def compared(self, grade: str, words: str, recorded: int, cost: int) -> Grade:
        """The grade where both costs are known and differ."""
        return Grade(self.name, grade, f"{words} {cost}, difference {recorded - cost}", recorded, cost, recorded - cost)

    def undecided(self, recorded: int | str, answer: Answer) -> Grade:
        """The grade where the search is going on."""
        return Grade(self.name, "undecided", f"recorded {recorded}; {going_on(answer)}, no round costs {answer.above} or less", recorded)

    def judge_none(self) -> Grade:
        """The record says that there is no round."""
        answer = self.cheapest(HIGHEST_TOUR)
        if answer.verdict == "none":
            return Grade(self.name, "right", "none", "none")
        if answer.verdict == "cost":
            return Grade(self.name, "wrong none", f"recorded none, cheapest {answer.cost}", "none", answer.cost)
        return self.undecided("none", answer)

    def judge_too_cheap(self, recorded: int) -> Grade:
        """No round costs the recorded cost or less. What does the cheapest cost?"""
        impossible = f"recorded {recorded}, impossible: no round costs that little"
        answer = self.cheapest(HIGHEST_TOUR, recorded) if recorded < HIGHEST_TOUR else Answer("none", 0)
        if answer.cost is not None:
            return self.compared("too cheap", f"{impossible}; cheapest", recorded, answer.cost)
        if answer.verdict == "none":
            return Grade(self.name, "no round", f"recorded {recorded}, there is no round", recorded)
        return Grade(self.name, "too cheap", f"{impossible}; cheapest not known, {going_on(answer)}, above {answer.above}", recorded)


def going_on(answer: Answer) -> str:
    """How far an undecided search went."""
    return f"going on after {answer.nodes} nodes"


def grade(folder: Path, name: str, records: Records, judged: Callable[[str, Graph], Judge], source: str) -> Grade:
    """The grade of one name, in the record or in the folder."""
    if name not in records:
        return Grade(name, "no record", f"no line in {source}")
    recorded = "none" if records[name] is None else records[name]
    if not os.path.isfile(folder / name):
        return Grade(name, "no chart", f"no such file, but a line in {source}", recorded)
    try:
        return judged(name, load(folder / name)).judge(records[name])
    except Faults as faults:
        return Grade(name, "not read", "; ".join(faults.lines), recorded)
    except Refused as refused:
        return Grade(name, "refused", str(refused).removeprefix("refused "), recorded)


def under_names_of_files(records: Records, names: Collection[str]) -> Records:
    """The record under the names that the files have: a letter such as ü may be one character in a list and two in the name of a file."""
    files = {unicodedata.normalize("NFC", name): name for name in names}

    def name_of_file(name: str) -> str:
        """The file's own name; a name that has a file or a line of its own stays as it is."""
        other = files.get(unicodedata.normalize("NFC", name), name)
        return name if name in names or other in records else other

    return {name_of_file(name): cost for name, cost in records.items()}


def regrade(folder: Path, nodes: int = LONG, progress: Progress | None = None, ashore: Collection[int] = ()) -> Iterator[Grade]:
    """The grade of every chart in a folder and of every name in its record; rounds leave out the buoys ashore, in all charts the same."""
    source = list_of(folder)
    records = read_records(source)
    try:
        names = {path.name for path in folder.iterdir() if path.suffix.lower() in ENDINGS and not path.is_dir()} - set(LISTS)
    except OSError as error:
        raise Faults(f"{shown_path(folder)}: {error.strerror}") from None
    records = under_names_of_files(records, names)
    for name in sorted(names | records.keys()):
        yield grade(folder, name, records, lambda name, graph: Judge(name, graph, nodes, progress, ashore), source.name)


def summary(grades: Iterable[Grade]) -> str:
    """How many there are of each grade."""
    counts = Counter(grade.grade for grade in grades)
    return f"{counts.total()} in all: " + ", ".join(f"{counts[grade]} {grade}" for grade in GRADES if counts[grade])


def row(cells: Iterable[object]) -> str:
    """A row of CSV."""
    out = io.StringIO()
    csv.writer(out, lineterminator="\n").writerow("" if cell is None else cell for cell in cells)
    return out.getvalue()
