"""Up to eight seas on one machine: their hunts take turns on a dispatcher, and each is told as soon as it is finished.

Every answer is the library's. What is chosen here, ceilings, dues, sweeps, step, denominator and lifting, decides how long a hunt takes: see search.py.
"""
from __future__ import annotations

from collections.abc import Callable, Iterator, Sequence
from typing import NamedTuple

from .ashore import Ashore
from .library import HIGHEST_TOUR, STEPS, SWEEPS, Dispatcher, Graph
from .search import SWEEP_SHARE, Answer, ascent_of, between_afloat, guessed_cost, lifts, spread, within

TURN = 1_000  # nodes of a turn: some hundredths of a second at 20 vertices


class Hunt(NamedTuple):
    """A sea of the class: its number among the files, the sea, the ceiling that is asked about, and who is ashore."""

    number: int
    graph: Graph
    ceiling: int
    ashore: Ashore = None


def add(dispatcher: Dispatcher, hunt: Hunt) -> int:
    """A hunt with dues, sweeps, step, denominator and lifting that fit its sea; its place."""
    graph, ashore = between_afloat(hunt.graph, hunt.ashore), hunt.ashore
    ascent = ascent_of(graph, ashore)
    step = within(spread(graph, ascent.denominator) // SWEEP_SHARE, STEPS[1:])
    dues = ascent.reach(hunt.ceiling)
    return dispatcher.add(hunt.graph, hunt.ceiling, SWEEPS[-1], step, dues, ascent.denominator, lifts(graph, ashore), ashore)


class Class:
    """The dispatcher, and which sea stands at which place."""

    def __init__(self) -> None:
        self.dispatcher = Dispatcher()
        self.hunts: dict[int, Hunt] = {}

    def join(self, number: int, graph: Graph, ceiling: int | None, ashore: Ashore = None) -> None:
        """One more sea. Without a ceiling a round found by guesswork gives the first one."""
        guess = guessed_cost(graph, ashore) if ceiling is None else ceiling
        hunt = Hunt(number, graph, HIGHEST_TOUR if guess is None else guess, ashore)
        self.hunts[add(self.dispatcher, hunt)] = hunt

    def answers(self, turn: int, nodes: int, only: bool, progress: Callable[[int, int], None]) -> Iterator[tuple[int, Answer]]:
        """Each sea's number and answer, as soon as its hunt is finished or has opened so many nodes; `only` says that the ceiling was asked for.

        Where no round was within a guessed ceiling, the sea is asked about without one.
        """
        while (place := self.dispatcher.turn(turn)) is not None:
            told, hunt = self.dispatcher.tell(place), self.hunts[place]
            if told.verdict == "going on" and told.nodes < nodes:
                progress(len(self.hunts), told.nodes)
                continue
            tour: Sequence[int] = self.dispatcher.show(place) if told.verdict == "cost" else ()
            self.dispatcher.close(place)
            del self.hunts[place]
            if told.verdict == "none" and not only and hunt.ceiling < HIGHEST_TOUR:
                again = hunt._replace(ceiling=HIGHEST_TOUR)
                self.hunts[add(self.dispatcher, again)] = again
            else:
                yield hunt.number, Answer(told.verdict, told.nodes, told.cost, tuple(tour))
