"""Legs as words: what the table and the CSV form ask of a leg alike, and the collector that both fill."""
from __future__ import annotations

import re

from ..faults import Faults, shown, whole_number
from ..library import COSTS, MARKS, REQUIRED, VERTICES, Edge

POSITION = re.compile(r"-?[0-9]{1,12}(\.[0-9]{1,12})?")


class Legs:
    """Takes legs one by one; keeps them and the line where each pair stands."""

    def __init__(self) -> None:
        self.edges: list[Edge] = []
        self.lines: dict[tuple[int, int], int] = {}

    def take(self, line: int, ends: tuple[str, str], cost: str, mark: int, n: int) -> None:
        """One more leg, or what is wrong with it."""
        a, b = (whole_number(end, "buoy", range(1, n + 1)) for end in ends)
        if a >= b:
            raise Faults(f"leg {a}-{b} does not name the smaller buoy first; allowed is a-b with a below b")
        edge = Edge(a, b, whole_number(cost, "cost", COSTS), mark)
        if (a, b) in self.lines:
            raise Faults(f"leg {a}-{b} stands twice, first on line {self.lines[a, b]}; allowed is one leg for a pair of buoys")
        self.lines[a, b] = line
        self.edges.append(edge)


def vertex_count(word: str) -> int:
    """The number of buoys that a word says."""
    return whole_number(word, "number of buoys", VERTICES)


def mark_word(word: str) -> int:
    """The mark that a word says: 'required' or 'struck'."""
    if word.lower() not in MARKS[REQUIRED:]:
        raise Faults(f"mark '{shown(word)}' is unknown; allowed are 'required', 'struck', or none for a free leg")
    return MARKS.index(word.lower())


def position_text(value: float) -> str:
    """A coordinate as a table has it."""
    text = f"{value:.12f}".rstrip("0").rstrip(".")
    return "0" if text in ("-0", "") else text
