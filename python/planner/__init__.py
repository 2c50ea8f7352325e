"""The proved route planner for Python: the cheapest closed tour of 3 to 20 vertices.

    import planner
    answer = planner.solve("examples/sea.txt")      # a file, or a planner.Graph
    answer.cost, answer.tour, planner.order(graph, answer.tour)

Every cost, ruling and refusal comes from proved calls of the library. A refusal is the exception Refused, with number, place and meaning;
what is wrong with a text file is the exception Faults, a line a fault.
"""
from __future__ import annotations

import os
from collections.abc import Iterable, Sequence

from . import ceilings as _ceilings
from . import library as _library
from . import search as _search
from .ashore import Ashore, ashore_list
from .ceilings import Falling
from .faults import Faults
from .formats import load, parse, save
from .library import (
    EXCLUDED, FREE, MARKS, REQUIRED, RULINGS, Dispatcher, Edge, Graph, Ran, Refused, Rulings, Sailing, Search, Shelf, Told, Tree, check, read, write,
)  # fmt: skip
from .search import LONG, Answer, Progress, order

Chart = Graph | str | os.PathLike[str]


def graph_of(chart: Chart) -> Graph:
    """A graph as it is, or the one in a file."""
    return chart if isinstance(chart, Graph) else load(chart)


def solve(chart: Chart, ceiling: int | None = None, nodes: int = LONG, progress: Progress | None = None, ashore: Ashore = None) -> Answer:
    """The first of the cheapest tours, or that there is none (with a ceiling: none of at most so much), or that so many nodes did not decide it.

    `ashore`, here and below, has a byte for each vertex, 1 ashore and 0 afloat (ashore_list makes it): tours and 1-trees are over those afloat.
    """
    return _search.solve(graph_of(chart), ceiling, nodes, progress, ashore)


def tree(chart: Chart, multipliers: Sequence[int] | None = None, denominator: int = 1, ashore: Ashore = None) -> Tree | None:
    """The least 1-tree, or None for 'no tree'.

    Multipliers and the bound count in parts of a minute, so many to the minute as the denominator says (1 to 1,000), here and below.
    """
    return _library.tree(graph_of(chart), multipliers, denominator=denominator, ashore=ashore)


def preview(
    chart: Chart, edge: int, mark: int, multipliers: Sequence[int] | None = None, denominator: int = 1, ashore: Ashore = None
) -> Tree | None:
    """The least 1-tree if this free edge were required (mark 1) or struck (mark 2), or None for 'no tree'. The chart is untouched."""
    return _library.preview(graph_of(chart), edge, mark, multipliers, denominator=denominator, ashore=ashore)


def rule(chart: Chart, ceiling: int, multipliers: Sequence[int] | None = None, denominator: int = 1, ashore: Ashore = None) -> Rulings | None:
    """The rulings under a ceiling, in minutes, or None for 'dead'."""
    return _library.rule(graph_of(chart), ceiling, multipliers, denominator=denominator, ashore=ashore)


def recent_costs(chart: Chart, last: int, log: Iterable[tuple[int, int]]) -> Graph:
    """The sea in which each leg costs the greatest of its last so many times (1 to 32) in a log of (leg, time) entries, the oldest first.

    A leg with fewer entries uses those it has, one with none keeps its cost.
    """
    entries = list(log)
    return _library.recent_costs(graph_of(chart), last, [edge for edge, _ in entries], [time for _, time in entries])


def falling(
    chart: Chart, high: int, low: int, multipliers: Sequence[int] | None = None, denominator: int = 1, ashore: Ashore = None
) -> Falling | None:
    """Which rulings appear where the ceiling falls from `high` to `low`; None where the sea is dead at `high`."""
    return _ceilings.falling(graph_of(chart), high, low, multipliers, denominator, ashore)


def simulate(chart: Chart, edges: Sequence[int], student: int, spread: int) -> Sailing:
    """A tour sailed edge by edge, its edges in sailing order from vertex 1: each one's time, the total and the last state."""
    return _library.simulate(graph_of(chart), edges, student, spread)


def compare(
    chart: Chart, ceiling: int, budget: int, pairs: Sequence[tuple[int, int]], multipliers: Sequence[int] | None = None, denominator: int = 1,
    lifting: bool = False, ashore: Ashore = None,
) -> tuple[int, ...]:  # fmt: skip
    """For each pair of sweeps and step the count of nodes with which a search finishes, or 0 if it is still going on after the budget.

    With lifting each edge that a pass keeps is tried again under multipliers lifted for it alone.
    """
    return _library.compare(graph_of(chart), ceiling, budget, pairs, multipliers, denominator, lifting, ashore)


__all__ = [
    "EXCLUDED", "FREE", "MARKS", "REQUIRED", "RULINGS",
    "Answer", "Dispatcher", "Edge", "Falling", "Faults", "Graph", "Ran", "Refused", "Rulings", "Sailing", "Search", "Shelf", "Told", "Tree",
    "ashore_list", "check", "compare", "falling", "graph_of", "load", "order", "parse", "preview", "read", "recent_costs", "rule", "save", "simulate", "solve",
    "tree", "write",
]  # fmt: skip
