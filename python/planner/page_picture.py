"""The picture of a page: the sea as `draw` draws it, in layers whose look a script can change."""
from __future__ import annotations

from collections.abc import Callable, Iterable, Sequence

from .ashore import KINDS
from .drawing import MOST_COSTS, STYLES, Drawing, stroke, text
from .layout import HEIGHT, RADIUS
from .library import Rulings

AROUND = 38  # between what is drawn and the picture's edge
RANKS = ("dead", *STYLES)  # what lies on top of what


def kinds_of(found: Rulings | None, m: int) -> list[str]:
    """What each edge is under these rulings, None being 'dead'."""
    return [KINDS[ruling] for ruling in found.rulings] if found else ["dead"] * m


class Picture(Drawing):
    """A drawing that shows any of several rulings. Its field is smaller, so that all that is written in it is larger on a screen."""

    with_positions = (600, 430)
    on_a_circle = (440, 26)

    def inside(self, now: Rulings | None, says: str) -> str:
        """The SVG with these rulings, None for 'dead'."""
        x, y, width, height = self.frame()
        kinds = kinds_of(now, self.graph.m)
        crowd = " many" if self.graph.m > MOST_COSTS else ""
        parts = [
            f'<svg id="sea" class="{"alive" if now else "dead"}{crowd}" viewBox="{x} {y} {width} {height}" role="img" aria-label="{says}">',
            f'<rect class="water" x="{x}" y="{y}" width="{width}" height="{height}" rx="10"/>',
            *self.layer("bands", sorted(self.tour), lambda k: f'id="band-{k + 1}" class="band"'),
            *self.layer("halos", range(self.graph.m), lambda k: f'id="halo-{k + 1}" class="halo"'),
            *self.layer("lines", self.ranked(kinds), lambda k: f'id="line-{k + 1}" class="line {kinds[k]}"'),
            *self.layer("cores", [k for k, kind in enumerate(self.kinds) if kind == "required"], lambda k: 'class="core"'),
            *self.layer("hits", range(self.graph.m), lambda k: f'id="leg-{k + 1}" class="hit" data-leg="{k + 1}"'),
            '<g class="buoys" aria-hidden="true">', *self.draw_vertices(), "</g>",
            '<g class="costs" aria-hidden="true">', *self.draw_costs(), "</g>",
            text(x + 12, y + 30, "DEAD", 'class="stamp" aria-hidden="true"'),
            "</svg>",
        ]  # fmt: skip
        return "\n".join(parts)

    def frame(self) -> tuple[int, int, int, int]:
        """Left, top, width and height of what is drawn and a margin: no room is given away, so that it is large."""
        points = [*self.places.values(), *(line.at(share / 8) for line in self.lines for share in range(9))]
        points += [(x + side * width / 2, y) for (x, y), width in self.boxes.values() for side in (-1, 1)]
        lows, highs = ([int(pick(point[axis] for point in points)) for axis in (0, 1)] for pick in (min, max))
        return lows[0] - AROUND, lows[1] - AROUND, highs[0] - lows[0] + 2 * AROUND, highs[1] - lows[1] + 2 * AROUND

    def layer(self, name: str, numbers: Iterable[int], look: Callable[[int], str]) -> list[str]:
        """The strokes of these edges, with what a style and a script know them by."""
        hidden = "" if name == "hits" else ' aria-hidden="true"'
        return [f'<g id="{name}"{hidden}>', *(stroke(self.lines[k], look(k)) for k in numbers), "</g>"]

    def ranked(self, kinds: Sequence[str]) -> list[int]:
        """The edges in the order drawn: what is ruled in lies on top."""
        return sorted(range(self.graph.m), key=lambda k: RANKS.index(kinds[k]))

    def draw_vertices(self) -> list[str]:
        """The vertices with their numbers."""
        drawn = []
        for vertex, (x, y) in sorted(self.places.items()):
            out = " out" if vertex in self.out else ""
            drawn.append(f'<circle class="buoy{out}" cx="{x:.1f}" cy="{y:.1f}" r="{RADIUS}"/>')
            drawn.append(text(x, y + 5, vertex, f'class="number{out}" text-anchor="middle"'))
        return drawn

    def draw_costs(self) -> list[str]:
        """The costs, each on its box, by which its edge can be pointed at too."""
        drawn = []
        for k, ((x, y), width) in sorted(self.boxes.items()):
            corner = f'x="{x - width / 2:.1f}" y="{y - HEIGHT / 2:.1f}"'
            leg = f'data-leg="{k + 1}"'
            drawn.append(f'<g id="cost-{k + 1}" class="cost"><rect {leg} {corner} width="{width:.1f}" height="{HEIGHT}" rx="4"/>')
            drawn.append(text(x, y + 4.5, self.graph.edges[k].cost, f'{leg} text-anchor="middle"') + "</g>")
        return drawn
