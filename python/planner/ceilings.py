"""Which rulings appear where a ceiling falls."""
from __future__ import annotations

from collections.abc import Callable, Iterator, Sequence
from typing import NamedTuple, TypeVar

from .ashore import Ashore
from .library import Graph, Rulings, rule

T = TypeVar("T")


class Appearance(NamedTuple):
    """A ruling that is new at a ceiling: the ceiling, the edge's number, and the ruling (1 force, 2 bar)."""

    ceiling: int
    edge: int
    ruling: int


class Falling(NamedTuple):
    """The bound, the rulings in the order in which they appear, and the ceiling from which on the sea is dead, if it is."""

    bound: int
    appear: tuple[Appearance, ...]
    dead: int | None


def changes(answer: Callable[[int], T], high: int, low: int) -> Iterator[tuple[int, T]]:
    """Each ceiling below `high`, down to `low`, at which the answer is another than at the one above it, with its answer.

    What a lower ceiling adds stays at every ceiling below it (docs/PROOFS.md, C-15), so bisection finds the next change.
    """
    here, last = answer(high), answer(low)
    above = high
    while here != last:
        below = low
        while above - below > 1:
            middle = (above + below) // 2
            above, below = (middle, below) if answer(middle) == here else (above, middle)
        above, here = below, answer(below)
        yield above, here


def falling(
    graph: Graph, high: int, low: int, multipliers: Sequence[int] | None = None, denominator: int = 1, ashore: Ashore = None
) -> Falling | None:
    """What the rule call says from the ceiling `high` down to `low`; None where the sea is dead at `high`."""

    def answer(ceiling: int) -> Rulings | None:
        """The call at one ceiling."""
        return rule(graph, ceiling, multipliers, denominator=denominator, ashore=ashore)

    before = answer(high)
    if before is None:
        return None
    appear = [Appearance(high, edge, ruling) for edge, ruling in enumerate(before.rulings, 1) if ruling in (1, 2)]
    for ceiling, found in changes(answer, high, low):
        if found is None:
            return Falling(before.bound, tuple(appear), ceiling)
        pairs = enumerate(zip(before.rulings, found.rulings), 1)
        appear += [Appearance(ceiling, edge, now) for edge, (was, now) in pairs if was != now]
        before = found
    return Falling(before.bound, tuple(appear), None)
