"""What a page shows of a sea: every ceiling at which a ruling changes, both previews of every free leg, the bound. All of it is answered by proved calls."""
from __future__ import annotations

from collections.abc import Iterator, Sequence
from dataclasses import dataclass
from functools import cached_property
from typing import NamedTuple

from .ashore import Ashore, marked, touching
from .ceilings import changes
from .library import CEILINGS, FREE, Graph, Rulings, preview, rule, tree

FORCE, BAR = 1, 2  # rulings that a lower ceiling adds


class Stop(NamedTuple):
    """A ceiling, what the rule call says there (None for 'dead'), and the numbers of the edges whose ruling is new there."""

    ceiling: int
    found: Rulings | None
    new: tuple[int, ...]


class Previews(NamedTuple):
    """The bound if a free edge were required, and if it were struck; None for 'no tree'."""

    required: int | None
    struck: int | None


@dataclass(frozen=True)
class Showing:
    """What there is to show of a graph, for one set of multipliers and of vertices ashore. Bounds count in parts of a minute, as the denominator says."""

    graph: Graph
    multipliers: Sequence[int] | None = None
    denominator: int = 1
    ashore: Ashore = None

    def rule(self, ceiling: int) -> Rulings | None:
        """The rule call, edges that touch a vertex ashore told apart."""
        return marked(rule(self.graph, ceiling, self.multipliers, denominator=self.denominator, ashore=self.ashore), self.touched)

    @cached_property
    def touched(self) -> set[int]:
        """The edges that touch a vertex ashore."""
        return touching(self.graph, self.ashore)

    @cached_property
    def bound(self) -> int | None:
        """The bound, or None for 'no tree'."""
        found = tree(self.graph, self.multipliers, denominator=self.denominator, ashore=self.ashore)
        return found.bound if found else None

    @cached_property
    def previews(self) -> dict[int, Previews]:
        """Both previews of every free edge that a mark could change anything about."""
        free = (number for number, edge in enumerate(self.graph.edges, 1) if edge.mark == FREE and number not in self.touched)
        return {number: Previews(*self.both(number)) for number in free}

    def both(self, number: int) -> Iterator[int | None]:
        """The bounds with this edge required and with it struck."""
        found = (preview(self.graph, number, mark, self.multipliers, denominator=self.denominator, ashore=self.ashore) for mark in (1, 2))
        return (each.bound if each else None for each in found)

    @cached_property
    def turns(self) -> list[tuple[int, Rulings | None]]:
        """The highest ceiling there is, and each below it at which the rule call says something else, with what it says."""
        highest, lowest = CEILINGS[-1], CEILINGS[0]
        return [(highest, self.rule(highest)), *changes(self.rule, highest, lowest)]

    @cached_property
    def ruled(self) -> dict[int, tuple[int, int]]:
        """For each edge that some ceiling forces or bars: the ruling, and the highest ceiling with it. It stays, so that these say all."""
        first: dict[int, tuple[int, int]] = {}
        for ceiling, found in self.turns:
            for number, ruling in enumerate(found.rulings if found else (), 1):
                if ruling in (FORCE, BAR):
                    first.setdefault(number, (ruling, ceiling))
        return first

    @property
    def fullest(self) -> Rulings | None:
        """The rulings at the lowest ceiling that is not dead, which are those of every ceiling together; None where all are dead."""
        alive = [found for _, found in self.turns if found]
        return alive[-1] if alive else None

    def ends(self, high: int | None, low: int | None) -> tuple[int, int]:
        """The ceilings to show, where they are not said: from just above the first change, where a class sees nothing ruled that a lower
        ceiling rules, down to the first at which the sea is dead."""
        below = [ceiling for ceiling, _ in self.turns[1:]] or [CEILINGS[-1]]
        top = min(below[0] + 1, CEILINGS[-1])
        if high is None:
            high = top if low is None else max(top, low)
        return high, min(below[-1], high) if low is None else low

    def stops(self, high: int, low: int) -> list[Stop]:
        """The ceiling `high`, each change below it down to `low`, and `low`. Between two of them all is as at the upper one."""
        met = [(high, self.rule(high)), *((ceiling, found) for ceiling, found in self.turns[1:] if low <= ceiling < high)]
        if met[-1][0] != low:
            met.append((low, self.rule(low)))
        before = [met[0][1], *(found for _, found in met)]
        return [Stop(ceiling, found, new_edges(was, found)) for was, (ceiling, found) in zip(before, met)]


def new_edges(was: Rulings | None, now: Rulings | None) -> tuple[int, ...]:
    """The edges that are ruled otherwise than before."""
    if was is None or now is None:
        return ()
    pairs = enumerate(zip(was.rulings, now.rulings), 1)
    return tuple(number for number, (old, new) in pairs if old != new)
