"""Buoys that are ashore: the list of bytes that calls take, from the numbers that a person says; the legs that are out of every round with them."""
from __future__ import annotations

from collections.abc import Collection, Sequence

from .faults import Faults, shown, span
from .library import RULINGS, Graph, Rulings

KINDS = (*RULINGS, "ashore")  # what a leg is said to be: for one that touches a buoy ashore the rule call says 'struck'
OUT = KINDS.index("ashore")
Ashore = Sequence[int] | None  # a byte for each vertex, 1 ashore and 0 afloat; None where none is ashore


def ashore_list(graph: Graph, vertices: Collection[int]) -> list[int]:
    """The list for these vertices. Each has to be one of the graph; that vertex 1 and at least three are afloat is the library's to judge."""
    for vertex in vertices:
        if vertex not in range(1, graph.n + 1):
            raise Faults(f"buoy {shown(vertex)} is out of range; allowed ashore are buoys {span(range(2, graph.n + 1))}")
    return [int(vertex in vertices) for vertex in range(1, graph.n + 1)]


def afloat(graph: Graph, ashore: Ashore) -> list[int]:
    """The vertices afloat."""
    return [vertex for vertex in range(1, graph.n + 1) if not (ashore and ashore[vertex - 1])]


def touching(graph: Graph, ashore: Ashore) -> set[int]:
    """The numbers of the edges that touch a vertex ashore."""
    return {number for number, edge in enumerate(graph.edges, 1) if ashore and (ashore[edge.a - 1] or ashore[edge.b - 1])}


def marked(found: Rulings | None, touched: Collection[int]) -> Rulings | None:
    """The rulings with a number of their own (KINDS has the words) for edges that touch a vertex ashore."""
    if found is None or not touched:
        return found
    return Rulings(found.bound, tuple(OUT if number in touched else ruling for number, ruling in enumerate(found.rulings, 1)))
