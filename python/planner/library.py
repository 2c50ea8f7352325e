"""The proved library by ctypes: its structs, its calls, and its refusals as exceptions.

Names use the field's words (graph, vertex, edge, tour, multipliers); what is printed has the documents' (sea, buoy, leg, round, dues).
Nothing here decides anything: whatever fits the library's number types is sent as it is, and the library refuses.
"""
from __future__ import annotations

import ctypes
import os
from array import array
from collections.abc import Callable, Iterable, Iterator, Mapping, Sequence
from ctypes import POINTER, c_int32, c_int64, c_size_t, c_uint8, c_uint32, c_uint64
from dataclasses import dataclass, field
from functools import cache, cached_property
from operator import index
from pathlib import Path
from typing import NamedTuple, TypeVar

from .faults import Faults, span

MOST_VERTICES, MOST_EDGES, MOST_NODES, PLACES = 20, 190, 22, 8  # the room that the library's structs have
ROW_WORDS = 3  # of 64 bits, one bit for each edge; a node has two rows
VERTICES = range(3, MOST_VERTICES + 1)
COSTS = range(-100_000_000, 100_000_001)
MULTIPLIERS = range(-1_000_000, 1_000_001)
CEILINGS = range(-5_000_000_000, 5_000_000_001)
SWEEPS, STEPS = range(16), range(10_001)
DENOMINATORS = range(1, 1_001)  # dues, step and bounds count in such parts of a minute
WINDOWS = range(1, 33)  # how many of a leg's last times its recent cost may look at
HIGHEST_TOUR = MOST_VERTICES * COSTS[-1]
FREE, REQUIRED, EXCLUDED = range(3)
MARKS = ("free", "required", "struck")
RULINGS = ("keep", "force", "bar", "required", "struck")

BYTE, INT32, INT64 = range(2**8), range(-(2**31), 2**31), range(-(2**63), 2**63)
UINT32, UINT64 = range(2**32), range(2**64)

NONE, GOING_ON, FINISHED, NO_TOUR, BEST, IDLE = range(1000, 1006)  # what a call answers that is no refusal
MOST_LENT = 1 << 20  # bytes: no list as long as this has a right length, so that none is read or written
PIECE = 1_000  # nodes: some hundredths of a second at 20 vertices

MEANINGS = {
    1: "under 8 bytes",
    2: "n not 3 to 20",
    3: "a header zero byte not zero",
    4: "record count over 1,000, or length not 8 + 12 x record count",
    5: "head or next above the record count",
    6: "record met before",
    7: "not 1 <= a < b <= n",
    8: "mark above 2 or a zero byte not zero",
    9: f"cost out of range; allowed is {span(COSTS)}",
    10: "pair met before",
    11: "a list of wrong length",
    12: f"a due out of range, or the first not 0; allowed is {span(MULTIPLIERS)}",
    13: f"ceiling out of range; allowed is {span(CEILINGS)}",
    14: f"sweeps or step out of range; allowed is {span(SWEEPS)} and {span(STEPS)}",
    15: "a chart that breaks the rules of legs and marks",
    20: "no hunt is open",
    21: "a hunt is open already",
    22: "show while the hunt is going on",
    23: "show after 'none'",
    24: "the record fails its check",
    30: "no such leg, or a new mark that is not 1 or 2",
    31: "the leg is not free",
    32: "the denominator is not 1 to 1,000",
    33: "no such name; names are 1 to 8",
    34: "nothing is saved under the name",
    35: "the list of buoys ashore; allowed is that each byte is 0 or 1, buoy 1 is afloat, and at least three buoys are",
    36: "the legs are not a round of all buoys in sailing order from buoy 1",
    37: "the student number or the spread is out of range",
    38: "the number of last times not 1 to 32",
    39: "a log entry that names no leg, or a time outside the cost range",
    40: "a turn of 0 nodes",
    41: "a ninth hunt while eight are held",
    42: f"a place that is not 1 to {PLACES}",
}


class Refused(Exception):
    """Document 01's refusal: a number, a place, and what the number means."""

    def __init__(self, number: int, place: int = 0):
        self.number, self.place = number, place
        self.meaning = MEANINGS.get(number, "not known here")
        super().__init__(f"refused {number} at {place}: {self.meaning}")


# The library's structs, as include/planner.h has them


class CReply(ctypes.Structure):
    _fields_ = [("number", c_uint32), ("place", c_uint64), ("value", c_int64), ("nodes", c_uint64)]


class CGraph(ctypes.Structure):
    _fields_ = [
        ("cost", c_int32 * MOST_EDGES),
        ("a", c_uint8 * MOST_EDGES),
        ("b", c_uint8 * MOST_EDGES),
        ("mark", c_uint8 * MOST_EDGES),
        ("n", c_uint8),
        ("m", c_uint8),
    ]


class CSettings(ctypes.Structure):
    _fields_ = [("ceiling", c_int64), ("sweeps", c_uint32), ("step", c_uint32), ("denominator", c_uint64), ("lifting", c_uint64)]


class CSailed(ctypes.Structure):
    _fields_ = [("number", c_uint32), ("place", c_uint64), ("total", c_int64), ("state", c_uint64)]


class CTerms(ctypes.Structure):
    _fields_ = [("ceiling", c_int64), ("budget", c_uint64), ("denominator", c_uint64), ("lifting", c_uint64)]


class CSearch(ctypes.Structure):
    _fields_ = [
        ("settings", CSettings),
        ("upper", c_int64),
        ("count", c_uint64),
        ("stack", c_uint64 * (MOST_NODES * 2 * ROW_WORDS)),
        ("depth", c_uint64),
        ("graph", CGraph),
        ("multipliers", c_int32 * MOST_VERTICES),
        ("carried", c_int32 * (MOST_NODES * MOST_VERTICES)),
        ("best", c_uint8 * MOST_EDGES),
        ("ashore", c_uint8 * MOST_VERTICES),
        ("open", c_uint8),
        ("has_best", c_uint8),
    ]


class CShelf(ctypes.Structure):
    _fields_ = [("places", CSearch * PLACES)]


class CDispatcher(ctypes.Structure):
    _fields_ = [("last", c_size_t), ("places", CSearch * PLACES)]


Reply = TypeVar("Reply", CReply, CSailed)

for struct, size in ((CReply, 32), (CGraph, 1_332), (CSettings, 32), (CSailed, 32), (CTerms, 32), (CSearch, 4_496)):
    assert ctypes.sizeof(struct) == size, f"{struct.__name__} is not as the library has it"

_BYTES, _RECORD, _SHELF, _DISPATCHER = POINTER(c_uint8), POINTER(CSearch), POINTER(CShelf), POINTER(CDispatcher)
_LISTS = (POINTER(c_int32), c_size_t, _BYTES, c_size_t)  # the multipliers, and who is ashore
_PAIR = (POINTER(c_uint32), c_size_t)
_CALLS = {
    "planner_check": (CReply, (CGraph,)),
    "planner_read": (CReply, (POINTER(CGraph), _BYTES, c_size_t)),
    "planner_write": (CReply, (CGraph, _BYTES, c_size_t)),
    "planner_tree": (CReply, (CGraph, *_LISTS, c_uint64, _BYTES, c_size_t)),
    "planner_preview": (CReply, (CGraph, *_LISTS, c_uint64, c_size_t, c_uint32, _BYTES, c_size_t)),
    "planner_rule": (CReply, (CGraph, *_LISTS, c_int64, c_uint64, _BYTES, c_size_t)),
    "planner_recent": (CReply, (POINTER(CGraph), c_size_t, POINTER(c_size_t), c_size_t, POINTER(c_int32), c_size_t)),
    "planner_simulate": (CSailed, (CGraph, POINTER(c_size_t), c_size_t, c_uint64, c_uint64, POINTER(c_int64), c_size_t)),
    "planner_compare": (CReply, (CGraph, *_LISTS, CTerms, *_PAIR, *_PAIR, POINTER(c_uint64), c_size_t)),
    "planner_fresh": (CSearch, ()),
    "planner_open": (CReply, (_RECORD, CGraph, *_LISTS, CSettings)),
    "planner_run": (CReply, (_RECORD, c_uint64)),
    "planner_tell": (CReply, (_RECORD,)),
    "planner_show": (CReply, (_RECORD, _BYTES, c_size_t)),
    "planner_close": (CReply, (_RECORD,)),
    "planner_fresh_shelf": (CShelf, ()),
    "planner_save": (CReply, (_SHELF, _RECORD, c_size_t)),
    "planner_back": (CReply, (_RECORD, _SHELF, c_size_t)),
    "planner_fresh_dispatcher": (CDispatcher, ()),
    "planner_add": (CReply, (_DISPATCHER, CGraph, *_LISTS, CSettings)),
    "planner_turn": (CReply, (_DISPATCHER, c_uint64)),
    "planner_tell_at": (CReply, (_DISPATCHER, c_size_t)),
    "planner_show_at": (CReply, (_DISPATCHER, c_size_t, _BYTES, c_size_t)),
    "planner_close_at": (CReply, (_DISPATCHER, c_size_t)),
}


# Where the library is

FILE = "libplanner.so"


def _places() -> Iterator[Path]:
    """Where the library may stand: as the environment says, beside the installed package, or where `make` puts it."""
    if named := os.environ.get("PLANNER_LIBRARY"):
        yield Path(named)
        return
    package = Path(__file__).resolve().parent
    top = package.parent.parent
    if not (top / "crates.txt").exists():
        # Installed: PREFIX/lib is some folders above the package, as PREFIX/lib/python3/site-packages/planner has it.
        for folder in (package, *package.parents[:5]):
            yield folder / FILE
            yield folder / "lib" / FILE
    yield top / "build" / FILE


@cache
def library() -> ctypes.CDLL:
    """The library, loaded once, its calls typed."""
    path = next((path for path in _places() if path.is_file()), None)
    if path is None:
        raise Faults(f"the library {os.environ.get('PLANNER_LIBRARY') or 'build/' + FILE} is missing: run make")
    try:
        loaded = ctypes.CDLL(str(path.resolve()))
        for name, (result, arguments) in _CALLS.items():
            call = getattr(loaded, name)
            call.restype, call.argtypes = result, arguments
    except (OSError, AttributeError) as error:
        raise Faults(f"the library {path} cannot be used, run make: {error}") from None
    return loaded


def _accepted(said: Reply) -> Reply:
    """What was said, where that is no refusal."""
    if 0 < said.number < NONE:
        raise Refused(said.number, said.place)
    return said


def _fits(value: int, allowed: range, what: str) -> int:
    """A value that the library's number type holds; ctypes itself would cut it without a word."""
    if index(value) not in allowed:
        raise ValueError(f"{what} {value} does not fit the library's number type")
    return index(value)


def _list(right: int, length: int | None = None) -> tuple[ctypes.Array[c_uint8], int]:
    """A list of bytes to lend and the length that is told: the right one if no other is asked for.

    No list of another length than the right one is read or written, so huge ones need no memory.
    """
    told = right if length is None else _fits(length, UINT64, "length")
    return (c_uint8 * max(1, min(told, MOST_LENT)))(), told


def _lists(
    graph: Graph, multipliers: Sequence[int] | None, ashore: Sequence[int] | None
) -> tuple[ctypes.Array[c_int32], int, ctypes.Array[c_uint8], int]:
    """Multipliers and the list ashore to lend, each of any length, with their lengths; zeros where none are said."""
    dues = [0] * graph.n if multipliers is None else [_fits(value, INT32, "due") for value in multipliers]
    out = [0] * graph.n if ashore is None else [_fits(value, BYTE, "byte of the list ashore") for value in ashore]
    return (c_int32 * max(1, len(dues)))(*dues), len(dues), (c_uint8 * max(1, len(out)))(*out), len(out)


# Graphs


class Edge(NamedTuple):
    """A leg: the buoys that it joins, its cost and its mark (FREE, REQUIRED, EXCLUDED)."""

    a: int
    b: int
    cost: int
    mark: int = FREE


@dataclass(frozen=True, init=False)
class Graph:
    """A sea: n buoys and its legs in order. It may hold anything; the library's calls refuse what breaks the rules.

    Positions (of a buoy: x, y) are for drawings, and no part of the chart.
    """

    n: int
    edges: tuple[Edge, ...] = ()
    positions: Mapping[int, tuple[float, float]] = field(default_factory=dict, compare=False)

    def __init__(self, n: int, edges: Iterable[Sequence[int]] = (), positions: Mapping[int, tuple[float, float]] | None = None):
        object.__setattr__(self, "n", n)
        object.__setattr__(self, "edges", tuple(Edge(*edge) for edge in edges))
        object.__setattr__(self, "positions", dict(positions or {}))

    @property
    def m(self) -> int:
        """The number of edges."""
        return len(self.edges)

    def recosted(self, costs: Iterable[int]) -> Graph:
        """The same graph with other costs."""
        return Graph(self.n, (edge._replace(cost=cost) for edge, cost in zip(self.edges, costs)), self.positions)

    @cached_property
    def c(self) -> CGraph:
        """The library's struct. Past 190 edges there is no room, but m says how many there are, so that the library refuses."""
        made = CGraph(n=_fits(self.n, BYTE, "number of buoys"), m=_fits(self.m, BYTE, "number of legs"))
        for place, edge in enumerate(self.edges):
            values = [_fits(value, BYTE, what) for value, what in ((edge.a, "buoy"), (edge.b, "buoy"), (edge.mark, "mark"))]
            cost = _fits(edge.cost, INT32, "cost")
            if place < MOST_EDGES:
                made.a[place], made.b[place], made.mark[place] = values
                made.cost[place] = cost
        return made


def check(graph: Graph) -> None:
    """Refused 15 where the graph breaks the rules."""
    _accepted(library().planner_check(graph.c))


def read(data: bytes) -> Graph:
    """The graph in the bytes of a chart file, or Refused 1 to 10."""
    found = CGraph()
    lent = (c_uint8 * max(1, len(data))).from_buffer_copy(data or b"\0")
    _accepted(library().planner_read(found, lent, len(data)))
    return Graph(found.n, zip(found.a[: found.m], found.b[: found.m], found.cost[: found.m], found.mark[: found.m]))


def write(graph: Graph) -> bytes:
    """The chart file of a graph, in the writer's form."""
    out, length = _list(8 + 12 * graph.m)
    _accepted(library().planner_write(graph.c, out, length))
    return bytes(out)


# Trees and rulings


class Tree(NamedTuple):
    """The least 1-tree: its bound, in parts of a minute as the denominator says, and the numbers of its edges, ascending."""

    bound: int
    edges: tuple[int, ...]


class Rulings(NamedTuple):
    """The bound, in such parts too, and a ruling for each edge: 0 keep, 1 force, 2 bar, 3 already required, 4 already struck or touching a vertex
    ashore (RULINGS has the words)."""

    bound: int
    rulings: tuple[int, ...]


def _chosen(out: ctypes.Array[c_uint8], m: int) -> tuple[int, ...]:
    """The numbers of the edges that are in."""
    return tuple(number for number, byte in enumerate(out[:m], 1) if byte)


def tree(
    graph: Graph, multipliers: Sequence[int] | None = None, length: int | None = None, denominator: int = 1, ashore: Sequence[int] | None = None
) -> Tree | None:
    """The least 1-tree, or None for 'no tree'. The length is that of the list lent; the right one is m.

    Multipliers and the bound count in parts of a minute, so many to the minute as the denominator says. The list ashore has a byte for each vertex,
    1 ashore and 0 afloat; if it is not said, none is ashore. Trees and rounds are over the vertices afloat.
    """
    out, told = _list(graph.m, length)
    lent, q = _lists(graph, multipliers, ashore), _fits(denominator, UINT64, "denominator")
    said = _accepted(library().planner_tree(graph.c, *lent, q, out, told))
    return None if said.number == NONE else Tree(said.value, _chosen(out, graph.m))


def preview(
    graph: Graph, edge: int, mark: int, multipliers: Sequence[int] | None = None, length: int | None = None, denominator: int = 1,
    ashore: Sequence[int] | None = None,
) -> Tree | None:  # fmt: skip
    """The least 1-tree of a copy in which this free edge has this mark (1 required, 2 struck), or None for 'no tree'."""
    out, told = _list(graph.m, length)
    lent = _lists(graph, multipliers, ashore)
    edge, mark, q = _fits(edge, UINT64, "leg"), _fits(mark, UINT32, "mark"), _fits(denominator, UINT64, "denominator")
    said = _accepted(library().planner_preview(graph.c, *lent, q, edge, mark, out, told))
    return None if said.number == NONE else Tree(said.value, _chosen(out, graph.m))


def rule(
    graph: Graph, ceiling: int, multipliers: Sequence[int] | None = None, length: int | None = None, denominator: int = 1,
    ashore: Sequence[int] | None = None,
) -> Rulings | None:  # fmt: skip
    """The rulings under a ceiling, in minutes, or None for 'dead'. The length is that of the list lent; the right one is m."""
    out, told = _list(graph.m, length)
    lent = _lists(graph, multipliers, ashore)
    ceiling, q = _fits(ceiling, INT64, "ceiling"), _fits(denominator, UINT64, "denominator")
    said = _accepted(library().planner_rule(graph.c, *lent, ceiling, q, out, told))
    return None if said.number == NONE else Rulings(said.value, tuple(out[: graph.m]))


# Recent costs


def recent_costs(graph: Graph, last: int, edges: Iterable[int], times: Iterable[int]) -> Graph:
    """The graph with each edge's cost the greatest of its last so many times in a log, entry i of which is edges[i] with times[i].

    An edge with fewer times uses those it has, one with none keeps its cost. Refused 39 has the place of the first bad entry, from 1.
    """
    legs = array("Q", (_fits(edge, UINT64, "leg") for edge in edges))
    lasted = array("i", (_fits(time, INT32, "time") for time in times))
    lent = (c_size_t * max(1, len(legs))).from_buffer(legs or array("Q", [0]))
    lent_times = (c_int32 * max(1, len(lasted))).from_buffer(lasted or array("i", [0]))
    made = CGraph.from_buffer_copy(graph.c)
    _accepted(library().planner_recent(made, _fits(last, UINT64, "number of last times"), lent, len(legs), lent_times, len(lasted)))
    return graph.recosted(made.cost[: graph.m])


# Simulated sailings


class Sailing(NamedTuple):
    """A simulated sailing: each leg's time in sailing order, their total, and the last state."""

    times: tuple[int, ...]
    total: int
    state: int


def simulate(graph: Graph, edges: Sequence[int], student: int, spread: int) -> Sailing:
    """A tour sailed edge by edge: its edges in sailing order from vertex 1."""
    legs = (c_size_t * max(1, len(edges)))(*(_fits(edge, UINT64, "leg") for edge in edges))
    times = (c_int64 * max(1, graph.n))()
    student, spread = _fits(student, UINT64, "student"), _fits(spread, UINT64, "spread")
    said = _accepted(library().planner_simulate(graph.c, legs, len(edges), student, spread, times, graph.n))
    return Sailing(tuple(times[: graph.n]), said.total, said.state)


def compare(
    graph: Graph, ceiling: int, budget: int, pairs: Sequence[tuple[int, int]], multipliers: Sequence[int] | None = None, denominator: int = 1,
    lifting: bool = False, ashore: Sequence[int] | None = None,
) -> tuple[int, ...]:  # fmt: skip
    """For each pair of sweeps and step the count with which a search finishes, or 0 if it is still going on after the whole budget."""
    lent = _lists(graph, multipliers, ashore)
    size, room = len(pairs), max(1, len(pairs))
    sweeps = (c_uint32 * room)(*(_fits(pair[0], UINT32, "sweeps") for pair in pairs))
    steps = (c_uint32 * room)(*(_fits(pair[1], UINT32, "step") for pair in pairs))
    report = (c_uint64 * room)()
    terms = CTerms(
        _fits(ceiling, INT64, "ceiling"), _fits(budget, UINT64, "budget"), _fits(denominator, UINT64, "denominator"), _fits(lifting, UINT64, "lifting")
    )
    _accepted(library().planner_compare(graph.c, *lent, terms, sweeps, size, steps, size, report, size))
    return tuple(report[:size])


# Searches


class Ran(NamedTuple):
    """What run says: whether the search is finished, and how many nodes were opened."""

    finished: bool
    nodes: int


class Told(NamedTuple):
    """What tell says: 'going on', 'none' or 'cost', how many nodes were opened, and the cost."""

    verdict: str
    nodes: int
    cost: int | None = None


def _told(said: CReply) -> Told:
    """What a tell says."""
    _accepted(said)
    if said.number == BEST:
        return Told("cost", said.nodes, said.value)
    return Told("none" if said.number == NO_TOUR else "going on", said.nodes)


def _settings(ceiling: int, sweeps: int, step: int, denominator: int, lifting: int) -> CSettings:
    """What an opening takes beside the graph and the multipliers."""
    return CSettings(
        _fits(ceiling, INT64, "ceiling"), _fits(sweeps, UINT32, "sweeps"), _fits(step, UINT32, "step"), _fits(denominator, UINT64, "denominator"),
        _fits(lifting, UINT64, "lifting"),
    )  # fmt: skip


class Search:
    """A search record with the calls on it. Each call answers, or raises Refused and leaves the record as it was.

    Where tours cost more in the graph that is searched than in the one that is meant, `more` says how much; only best_so_far takes it off.
    """

    def __init__(self, more: int = 0) -> None:
        self.record: CSearch = library().planner_fresh()
        self.more = more

    def open(
        self, graph: Graph, ceiling: int, sweeps: int = 0, step: int = 0, multipliers: Sequence[int] | None = None, denominator: int = 1,
        lifting: bool = False, ashore: Sequence[int] | None = None,
    ) -> None:  # fmt: skip
        """Opens a search. Multipliers and step count in parts of a minute, as the denominator says; the ceiling in minutes.

        With lifting each edge that a pass keeps is tried again under multipliers lifted for it alone: as a rule the search opens fewer nodes,
        and each takes longer; the verdict and the cost are the same. Tours are over the vertices afloat, those whose byte of the list is 0.
        """
        lent = _lists(graph, multipliers, ashore)
        _accepted(library().planner_open(self.record, graph.c, *lent, _settings(ceiling, sweeps, step, denominator, lifting)))

    def run(self, budget: int, progress: Callable[[Search], None] | None = None) -> Ran:
        """Opens at most so many nodes, in pieces, so that a program can be interrupted and see how far it is.

        A piece that opens fewer nodes than it may is the last: the search is finished, or its count is at the end of its range.
        """
        left = _fits(budget, UINT64, "budget")
        while True:
            piece, before = min(left, PIECE), self.record.count
            said = _accepted(library().planner_run(self.record, piece))
            left -= piece
            if said.number == FINISHED or left == 0 or said.nodes < before + piece:
                return Ran(said.number == FINISHED, said.nodes)
            if progress:
                progress(self)

    def tell(self) -> Told:
        """The verdict, the count of nodes and, where there is one, the least cost."""
        return _told(library().planner_tell(self.record))

    def show(self, length: int | None = None) -> tuple[int, ...]:
        """The numbers of the best tour's edges. The length is that of the list lent; the right one is m."""
        m = self.record.graph.m
        out, told = _list(m, length)
        _accepted(library().planner_show(self.record, out, told))
        return _chosen(out, m)

    def close(self) -> None:
        """Makes the record fresh again."""
        _accepted(library().planner_close(self.record))

    def back(self, shelf: Shelf, name: int) -> None:
        """Brings back what the shelf has under a name, 1 to 8, whatever is open here."""
        _accepted(library().planner_back(self.record, shelf.record, _fits(name, UINT64, "name")))
        self.more = shelf.more.get(name, 0)

    def best_so_far(self) -> int | None:
        """What the best tour met so far costs. It need not be the cheapest: only tell says that."""
        return self.record.upper - self.more if self.record.has_best else None

    def tour_so_far(self) -> tuple[int, ...]:
        """The numbers of its edges; none where no tour was met. It need not be the first of its cost: only show gives that."""
        return _chosen(self.record.best, self.record.graph.m)


class Shelf:
    """Searches saved under the names 1 to 8. A call answers, or raises Refused and leaves the shelf as it was."""

    def __init__(self) -> None:
        self.record: CShelf = library().planner_fresh_shelf()
        self.more: dict[int, int] = {}

    def save(self, search: Search, name: int) -> None:
        """Saves an open search under a name, in place of what stood there."""
        _accepted(library().planner_save(self.record, search.record, _fits(name, UINT64, "name")))
        self.more[name] = search.more


# A dispatcher


class Dispatcher:
    """Up to eight searches that take turns, at places 1 to 8. Each call answers, or raises Refused and leaves everything as it was."""

    def __init__(self) -> None:
        self.record: CDispatcher = library().planner_fresh_dispatcher()

    def add(
        self, graph: Graph, ceiling: int, sweeps: int = 0, step: int = 0, multipliers: Sequence[int] | None = None, denominator: int = 1,
        lifting: bool = False, ashore: Sequence[int] | None = None,
    ) -> int:  # fmt: skip
        """Opens a search, as that of Search does, at the free place with the smallest number, which is answered."""
        lent = _lists(graph, multipliers, ashore)
        return _accepted(library().planner_add(self.record, graph.c, *lent, _settings(ceiling, sweeps, step, denominator, lifting))).place

    def turn(self, nodes: int) -> int | None:
        """At most so many nodes for the next unfinished search after the one last served; its place, or None where there is none."""
        said = _accepted(library().planner_turn(self.record, _fits(nodes, UINT64, "nodes")))
        return None if said.number == IDLE else said.place

    def tell(self, place: int) -> Told:
        """The verdict at a place, the count of nodes and, where there is one, the least cost."""
        return _told(library().planner_tell_at(self.record, _fits(place, UINT64, "place")))

    def show(self, place: int, length: int | None = None) -> tuple[int, ...]:
        """The numbers of the best tour's edges at a place. The length is that of the list lent; the right one is m."""
        m = self.record.places[place - 1].graph.m if 1 <= place <= PLACES else 0
        out, told = _list(m, length)
        _accepted(library().planner_show_at(self.record, _fits(place, UINT64, "place"), out, told))
        return _chosen(out, m)

    def close(self, place: int) -> None:
        """Ends the search at a place, which is free again."""
        _accepted(library().planner_close_at(self.record, _fits(place, UINT64, "place")))
