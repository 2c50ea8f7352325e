"""Where things stand in a drawing: vertices that do not overlap, edges that go round other vertices, costs that nothing hides."""
from __future__ import annotations

import math
from collections.abc import Iterable, Iterator, Mapping, Sequence
from dataclasses import dataclass
from functools import cached_property
from typing import NamedTuple

from .faults import Faults

Point = tuple[float, float]
RADIUS = 15  # of a vertex
MARGIN = 48  # round the field of vertices
APART = 2 * RADIUS + 8  # between the centres of two vertices, at least
CLEAR = RADIUS + 4  # between an edge and a vertex that it does not touch, at least
SPOTS = (0.5, 0.46, 0.54, 0.42, 0.58, 0.38, 0.62, 0.34, 0.66, 0.3, 0.7, 0.26, 0.74, 0.22, 0.78)  # where on its edge a cost may stand
ASIDE = ((0,), (16, -16), (25, -25), (34, -34))  # how far beside it, where there is no room nearer
BENDS = (0, 24, -24, 48, -48, 72, -72, 110, -110)  # how far an edge may swing out
LETTER, HEIGHT = 7.8, 17  # of a cost, in points


# Vertices


def circle(order: Sequence[int]) -> dict[int, Point]:
    """The vertices in this order on a circle, from the top clockwise."""
    angles = {vertex: 2 * math.pi * place / len(order) for place, vertex in enumerate(order)}
    return {vertex: (math.sin(angle), math.cos(angle)) for vertex, angle in angles.items()}


def scaled(positions: Mapping[int, Point], n: int, field: tuple[int, int]) -> dict[int, Point]:
    """Where each vertex stands in the field: scaled alike both ways, y upwards."""
    missing = [vertex for vertex in range(1, n + 1) if vertex not in positions]
    if missing:
        raise Faults(f"buoy {missing[0]} has no line 'at'; allowed are positions for all buoys or for none")
    lows, highs = ([pick(place[axis] for place in positions.values()) for axis in (0, 1)] for pick in (min, max))
    scale = min((field[axis] - 2 * MARGIN) / ((highs[axis] - lows[axis]) or 1) for axis in (0, 1))
    shift = [(field[axis] - scale * (highs[axis] - lows[axis])) / 2 for axis in (0, 1)]
    return {
        vertex: (shift[0] + scale * (x - lows[0]), field[1] - shift[1] - scale * (y - lows[1]))
        for vertex, (x, y) in sorted(positions.items())
    }


def separated(places: Mapping[int, Point], field: tuple[int, int]) -> dict[int, Point]:
    """The places, those that are too near to each other pushed apart within the field."""
    moved = dict(places)
    for _ in range(400):
        near = [(i, j) for i, j in pairs(moved) if math.dist(moved[i], moved[j]) < APART - 0.01]
        if not near:
            break
        for i, j in near:
            distance = math.dist(moved[i], moved[j])
            angle = math.atan2(moved[j][1] - moved[i][1], moved[j][0] - moved[i][0]) if distance > 0.01 else 0.4 + i
            push = (APART - distance) / 2
            for vertex, sign in ((i, -1), (j, 1)):
                x, y = (moved[vertex][axis] + sign * push * turn(angle) for axis, turn in enumerate((math.cos, math.sin)))
                moved[vertex] = (min(max(x, MARGIN), field[0] - MARGIN), min(max(y, MARGIN), field[1] - MARGIN))
    return moved


def pairs(places: Iterable[int]) -> Iterator[tuple[int, int]]:
    """Every two of them."""
    numbers = sorted(places)
    return ((i, j) for place, i in enumerate(numbers) for j in numbers[place + 1 :])


def together(positions: Mapping[int, Point]) -> list[list[int]]:
    """The vertices that share a position, group by group."""
    groups: dict[Point, list[int]] = {}
    for vertex, place in sorted(positions.items()):
        groups.setdefault(place, []).append(vertex)
    return [group for group in groups.values() if len(group) > 1]


# Edges


def distance_to_line(point: Point, start: Point, end: Point) -> float:
    """How far a point is from a stretch."""
    (x, y), (x1, y1), (x2, y2) = point, start, end
    dx, dy = x2 - x1, y2 - y1
    share = min(1.0, max(0.0, ((x - x1) * dx + (y - y1) * dy) / (dx * dx + dy * dy or 1)))
    return math.hypot(x - x1 - share * dx, y - y1 - share * dy)


@dataclass(frozen=True)
class Line:
    """An edge as drawn: straight, or bent by a point in its middle that pulls it aside."""

    start: Point
    end: Point
    bend: float = 0

    @cached_property
    def pull(self) -> Point:
        """The point that pulls, on the middle's normal; a bend of 24 brings the line 12 aside."""
        x, y = self.normal
        return ((self.start[0] + self.end[0]) / 2 + self.bend * x, (self.start[1] + self.end[1]) / 2 + self.bend * y)

    @cached_property
    def normal(self) -> Point:
        """Across the line."""
        length = math.dist(self.start, self.end) or 1
        return ((self.start[1] - self.end[1]) / length, (self.end[0] - self.start[0]) / length)

    def at(self, share: float, aside: float = 0) -> Point:
        """The point at a share of the way, so far beside it."""
        rest = 1 - share
        x, y = (
            rest * rest * self.start[axis] + 2 * rest * share * self.pull[axis] + share * share * self.end[axis] + aside * self.normal[axis]
            for axis in (0, 1)
        )
        return x, y

    @cached_property
    def stretches(self) -> list[tuple[Point, Point]]:
        """The line as straight stretches."""
        marks = [self.at(share / 8) for share in range(9)] if self.bend else [self.start, self.end]
        return list(zip(marks, marks[1:]))

    def distance(self, point: Point) -> float:
        """How far a point is from the line."""
        return min(distance_to_line(point, *stretch) for stretch in self.stretches)


def lines(places: Mapping[int, Point], ends: Iterable[tuple[int, int]]) -> list[Line]:
    """Each edge straight, or bent as little as keeps it clear of the vertices that it does not touch."""
    return [clear_line(places, a, b) for a, b in ends]


def clear_line(places: Mapping[int, Point], a: int, b: int) -> Line:
    """One edge."""
    others = [place for vertex, place in places.items() if vertex not in (a, b)]
    best, most = Line(places[a], places[b]), -1.0
    for bend in BENDS:
        line = Line(places[a], places[b], bend)
        room = min((line.distance(place) for place in others), default=CLEAR)
        if room >= CLEAR:
            return line
        if room > most + 0.001:
            best, most = line, room
    return best


# Costs


class Box(NamedTuple):
    """The room of a cost: its middle and its width."""

    middle: Point
    width: float

    def reaches(self, point: Point) -> float:
        """How far a point is from the box."""
        beside = max(0.0, abs(point[0] - self.middle[0]) - self.width / 2)
        return math.hypot(beside, max(0.0, abs(point[1] - self.middle[1]) - HEIGHT / 2))

    def meets(self, other: Box) -> bool:
        """Whether two boxes touch."""
        beside, above = (abs(self.middle[axis] - other.middle[axis]) for axis in (0, 1))
        return beside < (self.width + other.width) / 2 + 2 and above < HEIGHT + 1


def cost_boxes(drawn: Sequence[Line], costs: Mapping[int, str], places: Mapping[int, Point], field: tuple[int, int]) -> dict[int, Box]:
    """For each edge with a cost to write a box on it or beside it, clear of vertices and of other boxes; none where there is no room."""
    boxes: dict[int, Box] = {}
    for k, cost in costs.items():
        for asides in ASIDE:
            tries = (Box(drawn[k].at(share, aside), LETTER * len(cost) + 7) for aside in asides for share in SPOTS)
            free = [box for box in tries if is_free(box, places, boxes.values(), field)]
            if free:
                others = [line for i, line in enumerate(drawn) if i != k]
                boxes[k] = max(free, key=lambda box: clearance(box, drawn[k], others))
                break
    return boxes


def is_free(box: Box, places: Mapping[int, Point], boxes: Iterable[Box], field: tuple[int, int]) -> bool:
    """Whether a box is inside the field and hides nothing."""
    (x, y), half = box.middle, box.width / 2
    inside = half + 2 <= x <= field[0] - half - 2 and HEIGHT / 2 <= y <= field[1] - HEIGHT / 2
    return inside and all(box.reaches(place) > RADIUS + 3 for place in places.values()) and not any(box.meets(other) for other in boxes)


def clearance(box: Box, own: Line, others: Iterable[Line]) -> float:
    """How well a cost stands: away from other edges, near the middle of its own."""
    away = min((line.distance(box.middle) for line in others), default=99.0)
    off = math.dist(box.middle, own.at(0.5)) / (math.dist(own.start, own.end) or 1)
    return round(min(away / 13, 1) - 0.2 * off, 6)
