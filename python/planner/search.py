"""The cheapest tour without a ceiling at hand: guesswork for a first ceiling, an ascent of multipliers, a climb of ceilings.

What is chosen here, ceilings, multipliers, sweeps, step and lifting, decides how long a search takes. Every answer is the library's: that a cost is the
least, that a tour is the first of those that cost it, or that there is no tour, is proved for every choice. Where many tours cost the same a search
that has met a cheapest one goes on to the first, often for long; a ceiling one below its cost settles the cost sooner. Where costs lie further apart than
multipliers reach, it is asked about the same graph with levelled costs (`levelled`), and about the graph itself what the tour found costs.
Where vertices are ashore, all that is chosen looks at those afloat and the edges between them; the library is sent the list too.
"""
from __future__ import annotations

from collections.abc import Callable, Iterable
from dataclasses import dataclass, replace
from functools import cached_property

from .ashore import Ashore, afloat, touching
from .guess import cheap_tour_weight
from .library import (
    CEILINGS, COSTS, EXCLUDED, HIGHEST_TOUR, MOST_VERTICES, MULTIPLIERS, REQUIRED, STEPS, SWEEPS, VERTICES, Graph, Search, rule, tree,
)  # fmt: skip

LONG = 1_000_000  # nodes that a search opens at most
SHORT = 10_000  # nodes that it opens where another ceiling may be quicker
TREES = 1_000  # of the ascent

# Steps are shares of the costs' spread. An ascent comes first: 15 sweeps are too few to bring multipliers near their best values, and with zero
# multipliers complete graphs of 20 vertices, distances with clusters among them, took more than 20,000 nodes. First steps of spread / 4 to spread / 8 did
# alike; one of 64 or more helps where all costs are equal. A node goes on from the multipliers of the one above it, so that a step that is too large moves
# them off on the way down: with sweeps of spread / 20 costs of 1 and 9 by the vertices' remainders by 2 and by 3 were going on after 20,000 nodes, with
# spread / 100 they took 237 and 475; with spread / 1,000 five graphs of costs from 1 to 100 took 4,229 instead of 103.
FIRST_SHARE, LEAST_FIRST, SWEEP_SHARE = 4, 64, 100

# Where costs lie near together, on average within 100 of their mean, whole minutes are too coarse for such steps, and multipliers count in hundredths.
# Chosen among denominators 1 to 1,000, 0 to 15 sweeps and those three shares, on such graphs. Then, on others: complete graphs of 20 vertices, 25 each of
# random costs up to 1, 2, 3, 5, 10, 30, 100, 300 and 1,000 and of distances up to 5, 10, 30, 100, 300 and 1,000, took at most 213 nodes, equal costs 271; of 25 with
# costs up to 100,000,000, levelled, one took 12,826. In whole minutes costs from 1 to 3 were going on after 200,000 in 7 of 8.
FINE, NEAR = 100, 100

# Multipliers end at 1,000,000. With them alone six complete graphs of 20 vertices, costs from 1 to 100,000,000, were undecided after 200,000 nodes;
# levelled they took 1 node each. Random costs over the whole range, six graphs each of 16 and of 20 vertices, then took at most 10,000.
FAR_APART = MULTIPLIERS[-1] // 4

# With lifting a search opens as a rule half as many nodes or fewer, and each takes 2 to 3 times as long. After such an ascent that pays where edges are few:
# 1,200 graphs of 16 to 20 vertices with 2 to 3.5 edges a vertex, a tour among them, at random or between near places, costs up to 3, 30 and 1,000, took 150,554
# nodes without and 27,900 with it, in 14.2 and 11.5 seconds with the ascents, at most 1.16 and 0.48 for one. With more edges searches took up to 2.5 times as
# long with it; below 16 vertices, where edges are few, it is a matter of tenths of a millisecond.
LIFTED, FEW = range(16, MOST_VERTICES + 1), 7  # vertices, and edges that meet at one, on average

Progress = Callable[[Search], None]


@dataclass(frozen=True)
class Answer:
    """A verdict ('cost', 'none' or 'going on'), the count of nodes, and where there is a tour its cost and the numbers of its edges.

    Where the verdict is 'going on', no tour costs `above` or less. `first` says whether the tour is known to be the first of those that cost as
    little: of two, the one that lacks the highest-numbered edge in which they differ.
    """

    verdict: str
    nodes: int
    cost: int | None = None
    tour: tuple[int, ...] = ()
    above: int | None = None
    first: bool = False


def within(value: int, allowed: range) -> int:
    """The value, held to what is allowed."""
    return max(allowed[0], min(allowed[-1], value))


def spread(graph: Graph, denominator: int = 1) -> int:
    """How far costs, in such parts of a minute, lie from their mean, on average. Where all rise alike it stays as it is, and so does the search."""
    costs = [denominator * edge.cost for edge in graph.edges if edge.mark != EXCLUDED]
    if not costs:
        return 0
    mean = sum(costs) // len(costs)
    return sum(abs(cost - mean) for cost in costs) // len(costs)


def lifts(graph: Graph, ashore: Ashore = None) -> bool:
    """Whether searches of such graphs are sooner finished with lifting: many vertices and few edges."""
    present, n = sum(edge.mark != EXCLUDED for edge in graph.edges), len(afloat(graph, ashore))
    return n in LIFTED and 2 * present <= FEW * n


def between_afloat(graph: Graph, ashore: Ashore) -> Graph:
    """The graph with the edges that touch a vertex ashore excluded, as the calls count them."""
    touched = touching(graph, ashore)
    edges = (edge._replace(mark=EXCLUDED) if number in touched else edge for number, edge in enumerate(graph.edges, 1))
    return Graph(graph.n, edges, graph.positions) if touched else graph


class Ascent:
    """Held and Karp's ascent: of the multipliers on its way, those with the highest bound.

    A vertex that the tree touches more than twice becomes dearer, one that it touches once cheaper. The step is halved after n trees that
    are no better. The way does not depend on a ceiling, so that a higher one goes on where a lower one stopped. Multipliers, step and bounds
    count in parts of a minute, as the denominator says; ceilings in minutes.
    """

    def __init__(self, graph: Graph, step: int, denominator: int = 1, ashore: Ashore = None):
        self.graph, self.step, self.denominator, self.ashore = graph, step, denominator, ashore
        self.vertices = afloat(graph, ashore)
        self.present, self.best = [0] * graph.n, [0] * graph.n
        self.highest: int | None = None
        self.trees = self.worse = 0

    def reach(self, ceiling: int) -> list[int]:
        """The best multipliers. At a bound above the ceiling the ascent stops: one node will do."""
        while self.trees < TREES and self.step > 0 and (self.highest is None or self.highest <= self.denominator * ceiling):
            found = tree(self.graph, self.present, denominator=self.denominator, ashore=self.ashore)
            if found is None:
                self.step = 0
                break
            self.trees += 1
            self.compare(found.bound)
            self.move(found.edges)
        return self.best

    def compare(self, bound: int) -> None:
        """Keeps the multipliers where the bound is higher than before."""
        if self.highest is None or bound > self.highest:
            self.highest, self.best, self.worse = bound, list(self.present), 0
        elif self.worse + 1 == len(self.vertices):
            self.step, self.worse = self.step // 2, 0
        else:
            self.worse += 1

    def move(self, edges: Iterable[int]) -> None:
        """The multipliers for the next tree; the first stays 0, and so do those ashore."""
        degrees = [0] * (self.graph.n + 1)
        for number in edges:
            a, b, *_ = self.graph.edges[number - 1]
            degrees[a] += 1
            degrees[b] += 1
        for vertex in self.vertices[1:]:
            if degrees[vertex] != 2:
                moved = self.present[vertex - 1] + self.step * (degrees[vertex] - 2)
                self.present[vertex - 1] = within(moved, MULTIPLIERS)


def ascent_of(graph: Graph, ashore: Ashore = None) -> Ascent:
    """An ascent with a denominator and a first step that fit the graph between those afloat."""
    denominator = FINE if spread(graph) < NEAR else 1
    first = spread(graph, denominator) // FIRST_SHARE
    return Ascent(graph, within(first, MULTIPLIERS[MULTIPLIERS.index(LEAST_FIRST) :]), denominator, ashore)


def levelled(graph: Graph, ashore: Ashore = None) -> tuple[Graph, int]:
    """The graph with costs that lie nearer together, and how much more every tour costs there; itself where they are near enough.

    An edge costs more by what both its ends are charged, and less by one number for all. A tour has two edges at each vertex, so that all
    tours change alike: the cheapest stay the cheapest. The charges are multipliers of the graph with all costs divided, times the divisor.
    An edge that is then too dear for a cost is as dear as a cost can be: a tour with it may seem cheaper than it is, and none seems dearer.
    """
    divisor = spread(graph) // FAR_APART
    if divisor == 0:
        return graph, 0
    divided = graph.recosted(edge.cost // divisor for edge in graph.edges)
    charges = [divisor * multiplier for multiplier in ascent_of(divided, ashore).reach(HIGHEST_TOUR)]
    costs = [edge.cost + charges[edge.a - 1] + charges[edge.b - 1] for edge in graph.edges]
    less = min(cost for cost, edge in zip(costs, graph.edges) if edge.mark != EXCLUDED) - COSTS[0]
    return graph.recosted(within(cost - less, COSTS) for cost in costs), 2 * sum(charges) - len(afloat(graph, ashore)) * less


class Solver:
    """Searches one graph at any ceiling, with sweeps and multipliers that fit it, lifted where that pays."""

    def __init__(self, graph: Graph, progress: Progress | None = None, ashore: Ashore = None):
        self.whole, self.progress, self.ashore = graph, progress, ashore

    @cached_property
    def graph(self) -> Graph:
        """The graph with the edges excluded that the calls count so. Made, as all else here, when it is known to be fit."""
        return between_afloat(self.whole, self.ashore)

    @cached_property
    def asked(self) -> tuple[Ascent, int]:
        """An ascent on the graph that the library is asked about, and how much more tours cost there."""
        graph, more = levelled(self.graph, self.ashore)
        return ascent_of(graph, self.ashore), more

    def ask(self, ceiling: int, limit: int) -> Answer:
        """What a search answers after at most so many nodes; while it is going on, the best tour that it has met and its cost, if any."""
        ascent, more = self.asked
        search = Search(more)
        there = within(ceiling + more, CEILINGS)  # beyond them no tour has its cost
        step = within(spread(self.graph, ascent.denominator) // SWEEP_SHARE, STEPS[1:])
        lifting = lifts(ascent.graph, self.ashore)
        search.open(ascent.graph, there, SWEEPS[-1], step, ascent.reach(there), ascent.denominator, lifting, self.ashore)
        search.run(limit, self.progress)
        told = search.tell()
        if told.verdict != "cost":
            met = search.tour_so_far()
            return Answer(told.verdict, told.nodes, cost_of(self.graph, met, self.ashore) if met else None, met)
        tour = search.show()
        cost = told.cost if ascent.graph is self.graph else cost_of(self.graph, tour, self.ashore)
        if cost + more != told.cost:
            # It only seemed so cheap. The graph itself is asked about from now on.
            self.asked = ascent_of(self.graph, self.ashore), 0
            return self.ask(ceiling, limit)
        return Answer(told.verdict, told.nodes, cost, tour, first=True)


def cost_of(graph: Graph, tour: Iterable[int], ashore: Ashore = None) -> int:
    """What a tour costs, by the library: where all its edges are required, the least 1-tree is the tour."""
    chosen = set(tour)
    edges = (edge._replace(mark=REQUIRED) if number in chosen else edge for number, edge in enumerate(graph.edges, 1))
    return tree(Graph(graph.n, edges), ashore=ashore).bound


NOTHING = Answer("none", 0)  # where nothing need be asked


def guessed_cost(graph: Graph, ashore: Ashore = None) -> int | None:
    """The cost of an allowed tour found by guesswork, or None."""
    heavy = 10**12  # beyond every tour
    place = {vertex: at for at, vertex in enumerate(afloat(graph, ashore))}
    if len(place) < VERTICES[0]:
        return None
    edges = [edge for edge in between_afloat(graph, ashore).edges if edge.mark != EXCLUDED]
    table = [[heavy] * len(place) for _ in place]
    for a, b, cost, mark in edges:
        table[place[a]][place[b]] = table[place[b]][place[a]] = cost - heavy if mark == REQUIRED else cost
    cost = cheap_tour_weight(table) + heavy * sum(edge.mark == REQUIRED for edge in edges)
    return cost if cost <= HIGHEST_TOUR else None


def some_tour(graph: Graph, progress: Progress | None = None, ashore: Ashore = None) -> Answer:
    """A tour and its cost, or 'none' where there is no tour: the same graph has one of cost 0 when all costs are 0."""
    solver = Solver(graph.recosted([0] * graph.m), progress, ashore)
    answer = solver.ask(0, SHORT // 100)
    if answer.verdict == "going on" and not answer.tour:
        answer = solver.ask(0, SHORT)
    cost = sum(graph.edges[number - 1].cost for number in answer.tour)
    return replace(answer, verdict="cost", cost=cost) if answer.tour else answer


class Climb:
    """Searches at ceilings that rise until one finds a tour.

    The lower the ceiling, the shorter the search; and the first that finds a tour tells the least cost as well as the highest would.
    Searches open at most `long` nodes, and `short` ones where another ceiling may be quicker.
    """

    def __init__(self, graph: Graph, long: int = LONG, progress: Progress | None = None, ashore: Ashore = None):
        self.graph, self.progress, self.ashore = graph, progress, ashore
        self.long, self.short = long, min(long, SHORT)
        self.ask = Solver(graph, progress, ashore).ask

    def cheapest(self, high: int, low: int | None = None) -> Answer:
        """The cheapest tour of at most high. None costs low or less, or else less than the bound."""
        found = rule(self.graph, high, ashore=self.ashore)
        if low is None:
            low = high if found is None else found.bound - 1
        if low >= high:
            return NOTHING
        first = guessed_cost(self.graph, self.ashore)
        if first is None:
            tour = some_tour(self.graph, self.progress, self.ashore)
            if tour.verdict == "none":
                return tour
            first = low + 1 if tour.cost is None else tour.cost
        return self.climb(low, high, first)

    def climb(self, low: int, high: int, first: int) -> Answer:
        """Asks above low and up to high, beginning with first.

        Steps double from 1. Where a short search is going on and has met a tour, the ceilings below its cost decide. Where it has met none the rest
        is halved, and long searches go on from there.
        """
        top, ceiling, step, answer, stuck, best = high, max(low + 1, min(first, high)), 1, NOTHING, False, None
        while low < high:
            answer = self.ask(ceiling, self.short)
            if answer.verdict == "cost":
                return answer
            if answer.verdict == "none":
                low = ceiling
            elif met(answer, ceiling):
                best, high = answer, answer.cost - 1
                top, step = high, high - low
            else:
                stuck, high = True, ceiling - 1
            step = (high - low + 1) // 2 if stuck else 2 * step
            ceiling = low + min(step, high - low)
        return self.climb_on(low, top, first, best) if stuck else settled(best, answer)

    def climb_on(self, low: int, high: int, first: int, best: Answer | None = None) -> Answer:
        """As climb, by long searches, until one is going on and has met no tour; none but those of the best one's cost are above high."""
        step, answer = 1, NOTHING
        while low < high:
            ceiling = low + min(step, (first if low < first < high else high) - low)
            answer = self.ask(ceiling, self.long)
            if answer.verdict == "cost":
                return answer
            if answer.verdict == "none":
                low, step = ceiling, 2 * step
            elif met(answer, ceiling):
                best, high = answer, answer.cost - 1
            else:
                return Answer("going on", answer.nodes, above=low)
        return settled(best, answer)

    def first(self, answer: Answer) -> Answer:
        """The first of the cheapest tours, where so many nodes find it at their cost; otherwise the one at hand."""
        if answer.verdict != "cost" or answer.first:
            return answer
        found = self.ask(answer.cost, self.long)
        return found if found.verdict == "cost" else replace(answer, nodes=found.nodes)


def met(answer: Answer, ceiling: int) -> bool:
    """Whether a search that is going on has met a tour of at most the ceiling. (With levelled costs one may only seem so cheap.)"""
    return answer.cost is not None and answer.cost <= ceiling


def settled(best: Answer | None, answer: Answer) -> Answer:
    """The answer where no tour costs less than the best one met; the last search's where none was met."""
    return answer if best is None else replace(best, verdict="cost")


def solve(graph: Graph, ceiling: int | None = None, nodes: int = LONG, progress: Progress | None = None, ashore: Ashore = None) -> Answer:
    """The first of the cheapest tours, or that there is none (with a ceiling: none of at most so much), or that so many nodes did not decide it."""
    climb = Climb(graph, nodes, progress, ashore)
    return climb.first(climb.cheapest(HIGHEST_TOUR if ceiling is None else ceiling))


def order(graph: Graph, tour: Iterable[int], ashore: Ashore = None) -> list[int]:
    """The vertices along a tour, from vertex 1 towards the lower of its neighbours and back to 1; ValueError where it is no tour of those afloat."""
    beside: dict[int, list[int]] = {vertex: [] for vertex in afloat(graph, ashore)}
    for number in tour:
        if number not in range(1, graph.m + 1):
            raise ValueError(f"there is no edge {number}")
        a, b, *_ = graph.edges[number - 1]
        if a not in beside or b not in beside:
            raise ValueError(f"edge {number} touches a vertex ashore")
        beside[a].append(b)
        beside[b].append(a)
    if any(len(neighbours) != 2 for neighbours in beside.values()):
        raise ValueError("these edges are no tour: it has two at each vertex")
    way = [1, min(beside[1])]
    while way[-1] != 1:
        following, other = beside[way[-1]]
        way.append(other if following == way[-2] else following)
    if len(way) != len(beside) + 1:
        raise ValueError("these edges are several circles and no tour")
    return way
