"""TSPLIB's form (G. Reinelt, TSPLIB 95): symmetric problems of 3 to 20 cities, by coordinates or by a matrix.

Distances are those that TSPLIB 95 states, to the rounding. Of GEO its text has nint for the degrees, but its own code, the answers to
questions beside it and its optimal lengths have the whole part, so that is what stands here.
"""
from __future__ import annotations

import math
import re
from collections.abc import Callable
from typing import NamedTuple

from ..faults import Faults, shown, whole_number
from ..library import COSTS, EXCLUDED, FREE, REQUIRED, VERTICES, Edge, Graph
from .legs import position_text

Point = tuple[float, float]
REAL = re.compile(r"[-+]?([0-9]{1,18}(\.[0-9]{0,18})?|\.[0-9]{1,18})([eE][-+]?[0-9]{1,2})?")
FARTHEST = 1e12  # of a coordinate
KEYWORD = re.compile(r"\s*([A-Z][A-Z_0-9]*)\s*(?::\s*(.*?))?\s*", re.IGNORECASE)

# The keywords that are read, and the values allowed where not all are.
KEYWORDS: dict[str, tuple[str, ...]] = {
    "NAME": (),
    "COMMENT": (),
    "TYPE": ("TSP",),
    "DIMENSION": (),
    "EDGE_WEIGHT_TYPE": ("EUC_2D", "CEIL_2D", "ATT", "GEO", "EXPLICIT"),
    "EDGE_WEIGHT_FORMAT": ("FUNCTION", "FULL_MATRIX", "UPPER_ROW", "LOWER_DIAG_ROW"),
    "NODE_COORD_TYPE": ("TWOD_COORDS", "NO_COORDS"),
    "DISPLAY_DATA_TYPE": ("COORD_DISPLAY", "TWOD_DISPLAY", "NO_DISPLAY"),
}
SECTIONS = ("NODE_COORD_SECTION", "EDGE_WEIGHT_SECTION", "DISPLAY_DATA_SECTION", "FIXED_EDGES_SECTION")


class Word(NamedTuple):
    """A word of a section and its line."""

    line: int
    text: str


# Distances


def nint(value: float) -> int:
    """TSPLIB's nearest integer of what is not negative."""
    return int(value + 0.5)


def euc_2d(p: Point, q: Point) -> int:
    """Euclidean, to the nearest."""
    return nint(math.sqrt((p[0] - q[0]) ** 2 + (p[1] - q[1]) ** 2))


def ceil_2d(p: Point, q: Point) -> int:
    """Euclidean, rounded up."""
    return math.ceil(math.sqrt((p[0] - q[0]) ** 2 + (p[1] - q[1]) ** 2))


def att(p: Point, q: Point) -> int:
    """Pseudo-Euclidean."""
    exact = math.sqrt(((p[0] - q[0]) ** 2 + (p[1] - q[1]) ** 2) / 10.0)
    near = nint(exact)
    return near + 1 if near < exact else near


def geo(p: Point, q: Point) -> int:
    """Kilometres on TSPLIB's globe; coordinates are DDD.MM, latitude and longitude."""

    def radians(value: float) -> float:
        """An angle of degrees and minutes."""
        degrees = int(value)
        return 3.141592 * (degrees + 5.0 * (value - degrees) / 3.0) / 180.0

    (latitude, longitude), (other_latitude, other_longitude) = (tuple(map(radians, point)) for point in (p, q))
    q1 = math.cos(longitude - other_longitude)
    q2 = math.cos(latitude - other_latitude)
    q3 = math.cos(latitude + other_latitude)
    cosine = 0.5 * ((1.0 + q1) * q2 - (1.0 - q1) * q3)
    return int(6378.388 * math.acos(max(-1.0, min(1.0, cosine))) + 1.0)


DISTANCES: dict[str, Callable[[Point, Point], int]] = {"EUC_2D": euc_2d, "CEIL_2D": ceil_2d, "ATT": att, "GEO": geo}


# Reading


class Problem:
    """The keywords and the sections of a TSPLIB text, each with its line."""

    def __init__(self, text: str, name: str):
        self.name = name
        self.keywords: dict[str, Word] = {}
        self.sections: dict[str, list[Word]] = {}
        self.section: list[Word] | None = None
        for line, content in enumerate(text.split("\n"), 1):
            if content.strip().upper() == "EOF":
                break
            if content.strip():
                self.take(line, content)

    def fault(self, line: int, words: object) -> Faults:
        """What is wrong on a line."""
        return Faults(f"{self.name}:{line}: {words}")

    def take(self, line: int, content: str) -> None:
        """One line: of the section that is open, or a keyword."""
        found = KEYWORD.fullmatch(content)
        if not found:
            if self.section is None:
                raise self.fault(line, f"'{shown(content.strip())}' is no line of TSPLIB; allowed is 'KEYWORD: VALUE' or a section")
            self.section += [Word(line, word) for word in content.split()]
        elif found[1].upper().endswith("_SECTION") and not found[2]:
            self.open_section(line, found[1].upper())
        else:
            self.take_keyword(line, found[1].upper(), found[2])

    def open_section(self, line: int, keyword: str) -> None:
        """The head of a section."""
        if keyword not in SECTIONS:
            raise self.fault(line, f"section {shown(keyword)} is not read; allowed are {', '.join(SECTIONS)}")
        if keyword in self.sections:
            raise self.fault(line, f"{keyword} stands twice; allowed is one")
        self.section = self.sections[keyword] = []

    def take_keyword(self, line: int, keyword: str, value: str | None) -> None:
        """A line 'KEYWORD: VALUE'."""
        if keyword not in KEYWORDS:
            raise self.fault(line, f"keyword {shown(keyword)} is not read; allowed are {', '.join(KEYWORDS)}")
        if value is None:
            raise self.fault(line, f"{keyword} has no value; allowed is '{keyword}: VALUE'")
        allowed = KEYWORDS[keyword]
        if allowed and value.upper() not in allowed:
            raise self.fault(line, f"{keyword} '{shown(value)}' is not read; allowed is {' or '.join(allowed)}")
        if keyword in self.keywords and keyword != "COMMENT":
            raise self.fault(line, f"{keyword} stands twice; allowed is one")
        self.keywords[keyword], self.section = Word(line, value.upper() if allowed else value), None

    def value(self, keyword: str) -> Word:
        """The value of a keyword that must be there."""
        if keyword not in self.keywords:
            raise Faults(f"{self.name}: the line '{keyword}: ..' is missing")
        return self.keywords[keyword]

    def number(self, word: Word, what: str, allowed: range) -> int:
        """A whole number."""
        try:
            return whole_number(word.text, what, allowed)
        except Faults as fault:
            raise self.fault(word.line, fault) from None

    def real(self, word: Word) -> float:
        """A coordinate."""
        if not REAL.fullmatch(word.text) or abs(float(word.text)) > FARTHEST:
            raise self.fault(word.line, f"coordinate '{shown(word.text)}' is not a number; allowed are numbers such as 120, -4.25 or 6.5e+02")
        return float(word.text)

    def words(self, section: str, count: int) -> list[Word]:
        """The words of a section, of which there must be so many."""
        if section not in self.sections:
            raise Faults(f"{self.name}: {section} is missing")
        found = self.sections[section]
        if len(found) != count:
            line = found[-1].line if found else 1
            raise self.fault(line, f"{section} has {len(found)} numbers; allowed are {count} here")
        return found

    def points(self, section: str, n: int) -> dict[int, Point]:
        """The coordinates of each city."""
        words, points = self.words(section, 3 * n), {}
        for place in range(0, 3 * n, 3):
            city = self.number(words[place], "city", range(1, n + 1))
            if city in points:
                raise self.fault(words[place].line, f"city {city} stands twice; allowed is one line for each")
            points[city] = (self.real(words[place + 1]), self.real(words[place + 2]))
        return points


def matrix(problem: Problem, n: int) -> dict[tuple[int, int], int]:
    """The weight of each pair, from a matrix in one of the formats."""
    form = problem.value("EDGE_WEIGHT_FORMAT")
    cells = {
        "FULL_MATRIX": [(i, j) for i in range(1, n + 1) for j in range(1, n + 1)],
        "UPPER_ROW": [(i, j) for i in range(1, n + 1) for j in range(i + 1, n + 1)],
        "LOWER_DIAG_ROW": [(i, j) for i in range(1, n + 1) for j in range(1, i + 1)],
    }
    if form.text not in cells:
        raise problem.fault(form.line, f"EDGE_WEIGHT_FORMAT {form.text} does not go with EXPLICIT; allowed is {' or '.join(cells)}")
    weights: dict[tuple[int, int], int] = {}
    for (i, j), word in zip(cells[form.text], problem.words("EDGE_WEIGHT_SECTION", len(cells[form.text]))):
        pair = (min(i, j), max(i, j))
        if i == j:
            continue  # from a city to itself: of no meaning, and often 0 or 9999
        weight = problem.number(word, "weight", COSTS)
        if weights.setdefault(pair, weight) != weight:
            both = f"{weights[pair]} one way and {weight} the other between {pair[0]} and {pair[1]}"
            raise problem.fault(word.line, f"the matrix has {both}; a leg costs the same both ways")
    return weights


def measured(problem: Problem, n: int, kind: str) -> dict[tuple[int, int], int]:
    """The weight of each pair, from coordinates."""
    points, distance = problem.points("NODE_COORD_SECTION", n), DISTANCES[kind]
    weights = {}
    for pair in ((a, b) for a in range(1, n + 1) for b in range(a + 1, n + 1)):
        weights[pair] = distance(points[pair[0]], points[pair[1]])
        if weights[pair] not in COSTS:
            raise Faults(f"{problem.name}: cities {pair[0]} and {pair[1]} lie {shown(weights[pair])} apart; allowed is at most {COSTS[-1]}")
    return weights


def fixed_edges(problem: Problem, n: int) -> set[tuple[int, int]]:
    """The pairs of FIXED_EDGES_SECTION, which ends with -1: required edges."""
    words = problem.sections.get("FIXED_EDGES_SECTION", [])
    if words and words[-1].text == "-1":
        words = words[:-1]
    if len(words) % 2:
        raise problem.fault(words[-1].line, "FIXED_EDGES_SECTION has an odd number of cities; allowed are pairs, then -1")
    pairs = set()
    for place in range(0, len(words), 2):
        a, b = (problem.number(word, "city", range(1, n + 1)) for word in words[place : place + 2])
        if a == b:
            raise problem.fault(words[place].line, f"a fixed edge from {a} to itself; allowed are two cities")
        pairs.add((min(a, b), max(a, b)))
    return pairs


def placed(problem: Problem, n: int, kind: str) -> dict[int, Point]:
    """Where a drawing puts the cities, if the text says so; GEO has the latitude first."""
    if "DISPLAY_DATA_SECTION" in problem.sections:
        return problem.points("DISPLAY_DATA_SECTION", n)
    if "NODE_COORD_SECTION" in problem.sections:
        points = problem.points("NODE_COORD_SECTION", n)
        return {city: (y, x) for city, (x, y) in points.items()} if kind == "GEO" else points
    return {}


def read_tsplib(text: str, name: str) -> Graph:
    """The graph in a TSPLIB text: an edge for every pair, in the order 1-2, 1-3, .., fixed ones required; or what is wrong."""
    problem = Problem(text, name)
    n = problem.number(problem.value("DIMENSION"), "DIMENSION", VERTICES)
    kind = problem.value("EDGE_WEIGHT_TYPE").text
    weights = matrix(problem, n) if kind == "EXPLICIT" else measured(problem, n, kind)
    fixed = fixed_edges(problem, n)
    edges = (Edge(*pair, weight, REQUIRED if pair in fixed else FREE) for pair, weight in sorted(weights.items()))
    return Graph(n, edges, placed(problem, n, kind))


# Writing


def whole_graph(graph: Graph) -> list[Edge]:
    """The edges in the order of their pairs, where every pair has one that is not struck."""
    edges = {(edge.a, edge.b): edge for edge in graph.edges}
    found = []
    for pair in ((a, b) for a in range(1, graph.n + 1) for b in range(a + 1, graph.n + 1)):
        edge = edges.get(pair)
        if edge is None or edge.mark == EXCLUDED:
            what = "missing" if edge is None else "struck"
            raise Faults(f"leg {pair[0]}-{pair[1]} is {what}, which TSPLIB cannot say: there every pair of cities has a free or a fixed edge")
        found.append(edge)
    return found


def tsplib_text(graph: Graph, name: str) -> str:
    """The TSPLIB text of a graph in which every pair has an edge that is not struck. Edges are then numbered by their pairs."""
    edges = whole_graph(graph)
    whole = len(graph.positions) == graph.n
    lines = [f"NAME: {shown(name)}", "TYPE: TSP", f"DIMENSION: {graph.n}", "EDGE_WEIGHT_TYPE: EXPLICIT", "EDGE_WEIGHT_FORMAT: UPPER_ROW"]
    lines += ["DISPLAY_DATA_TYPE: TWOD_DISPLAY" if whole else "DISPLAY_DATA_TYPE: NO_DISPLAY", "EDGE_WEIGHT_SECTION"]
    for vertex in range(1, graph.n):
        lines.append(" ".join(str(edge.cost) for edge in edges if edge.a == vertex))
    if whole:
        lines.append("DISPLAY_DATA_SECTION")
        lines += [f"{vertex} {position_text(x)} {position_text(y)}" for vertex, (x, y) in sorted(graph.positions.items())]
    if any(edge.mark == REQUIRED for edge in edges):
        lines.append("FIXED_EDGES_SECTION")
        lines += [*(f"{edge.a} {edge.b}" for edge in edges if edge.mark == REQUIRED), "-1"]
    return "\n".join([*lines, "EOF", ""])
