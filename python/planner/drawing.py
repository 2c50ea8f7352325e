"""A sea as SVG: its legs and costs, what a ceiling rules, the cheapest round, buoys that are ashore."""
from __future__ import annotations

import textwrap
from html import escape

from .ashore import KINDS, Ashore, afloat, marked, touching
from .faults import shown
from .layout import HEIGHT, MARGIN, RADIUS, Box, Line, Point, circle, cost_boxes, lines, scaled, separated, together
from .library import MARKS, Graph, Rulings
from .search import Answer, order

HEADING, LEGEND = 44, 262
LONGEST_NAME = 40  # letters in the heading, whose letters are some 12 wide
MOST_COSTS = 60  # beyond so many edges only the costs of the tour and of required and forced ones are written

# What an edge is, in the order drawn: words for the legend, and how it looks. Dash and width say it too, and blue and orange are told apart by
# whoever cannot tell red from green.
STYLES = {
    "ashore": ("to a buoy ashore", 'stroke="#7b8896" stroke-width="1.2" stroke-dasharray="9 3 1.5 3"'),
    "struck": ("struck", 'stroke="#6f7c8b" stroke-width="1.3" stroke-dasharray="1.5 4" stroke-linecap="round"'),
    "bar": ("barred", 'stroke="#b8430a" stroke-width="1.8" stroke-dasharray="8 5"'),
    "free": ("free", 'stroke="#5f7890" stroke-width="1.8"'),
    "keep": ("kept", 'stroke="#5f7890" stroke-width="1.8"'),
    "force": ("forced", 'stroke="#0063b1" stroke-width="4"'),
    "required": ("required", 'stroke="#14213d" stroke-width="6"'),
}
TOUR = 'stroke="#fbcb5b" stroke-width="15" stroke-linecap="round"'
BUOY = 'fill="#fff" stroke="#14213d" stroke-width="2.5"'
HAULED_OUT = 'fill="#e8f2f9" stroke="#7b8896" stroke-width="1.8" stroke-dasharray="4 3"'  # hollow: as the water is
FAINT = ("ashore", "struck", "bar", "free", "keep")
THIN = ' stroke-opacity="0.3"'  # of faint edges where there are many


def buoys(graph: Graph, ashore: Ashore) -> str:
    """How many vertices there are, and how many of them are ashore."""
    out = graph.n - len(afloat(graph, ashore))
    return f"{graph.n} buoys" + (f", {out} ashore" if out else "")


def text(x: float, y: float, words: object, look: str) -> str:
    """Words in the drawing."""
    return f'<text x="{x:.1f}" y="{y:.1f}" {look}>{escape(str(words))}</text>'


def stroke(line: Line, look: str) -> str:
    """An edge in the drawing."""
    (x1, y1), (x2, y2) = line.start, line.end
    if not line.bend:
        return f'<line x1="{x1:.1f}" y1="{y1:.1f}" x2="{x2:.1f}" y2="{y2:.1f}" {look}/>'
    x, y = line.pull
    return f'<path d="M{x1:.1f} {y1:.1f} Q{x:.1f} {y:.1f} {x2:.1f} {y2:.1f}" fill="none" {look}/>'


class Drawing:
    """All that is drawn of a graph."""

    with_positions = (720, 560)  # the field, without heading and legend
    on_a_circle = (560, 42)  # the field's side: at least so much, and so much for each vertex

    def __init__(
        self, name: str, graph: Graph, answer: Answer | None, rulings: Rulings | None, ceiling: int | None, ashore: Ashore = None
    ):
        self.name, self.graph, self.ashore = shown(name), graph, ashore
        self.out, touched = set(range(1, graph.n + 1)).difference(afloat(graph, ashore)), touching(graph, ashore)
        ruled = marked(rulings, touched)
        self.kinds = [KINDS[byte] for byte in ruled.rulings] if ruled else [
            "ashore" if number in touched else MARKS[edge.mark] for number, edge in enumerate(graph.edges, 1)
        ]  # fmt: skip
        self.tour = {number - 1 for number in answer.tour} if answer else set()
        self.told = [f"rulings at ceiling {ceiling}", f"bound {rulings.bound}"] if rulings else []
        self.notes: list[str] = []  # on the drawing itself
        if answer:
            self.told.append({"cost": f"cheapest round: cost {answer.cost}", "none": "there is no round"}.get(answer.verdict, "round not found yet"))
        one_place = len(graph.positions) == graph.n and len(set(graph.positions.values())) == 1
        self.positions = {} if one_place else graph.positions
        if one_place:
            self.notes.append("all positions are one place: drawn on a circle")
        least, each = self.on_a_circle
        self.field = self.with_positions if self.positions else (max(least, each * graph.n),) * 2
        self.places = self.placed(answer)
        self.lines = lines(self.places, ((edge.a, edge.b) for edge in graph.edges))
        self.boxes = self.costs()

    def placed(self, answer: Answer | None) -> dict[int, Point]:
        """Where the vertices stand: as the positions say, or on a circle in the order of the tour, those ashore last. What was moved is noted."""
        positions = self.positions
        if not positions:
            tour = answer.tour if answer else ()
            positions = circle([*order(self.graph, tour, self.ashore)[:-1], *sorted(self.out)] if tour else range(1, self.graph.n + 1))
        exact = scaled(positions, self.graph.n, self.field)
        moved = separated(exact, self.field)
        shared = together(self.positions)
        for group in shared:
            self.notes.append(f"buoys {', '.join(map(str, group[:-1]))} and {group[-1]} are at one place, drawn side by side")
        aside = [str(vertex) for vertex in exact if moved[vertex] != exact[vertex] and not any(vertex in group for group in shared)]
        if aside:
            self.notes.append(f"drawn a little aside, to be seen: {', '.join(aside)}")
        return moved

    def costs(self) -> dict[int, Box]:
        """Where costs are written; those that have no room are noted."""
        everything = range(self.graph.m)
        few = self.graph.m <= MOST_COSTS
        wanted = everything if few else [k for k in everything if k in self.tour or self.kinds[k] not in FAINT]
        first = sorted(wanted, key=lambda k: (k not in self.tour, self.kinds[k] in FAINT, k))
        written = {k: str(self.graph.edges[k].cost) for k in first}
        boxes = cost_boxes(self.lines, written, self.places, self.field)
        if not few:
            self.notes.append("of so many legs only the costs of the round and of required and forced legs are written")
        left = [self.graph.edges[k] for k in sorted(set(wanted) - boxes.keys())]
        if left:
            self.notes.append("costs without room: " + ", ".join(f"{edge.a}-{edge.b}:\N{NO-BREAK SPACE}{edge.cost}" for edge in left))
        return boxes

    def svg(self) -> str:
        """The whole SVG."""
        legend, depth = self.legend()
        width, height = self.field[0] + LEGEND, max(self.field[1] + HEADING, depth + 24)
        name = self.name if len(self.name) <= LONGEST_NAME else self.name[: LONGEST_NAME - 2] + ".."
        heading = f"{name}: {buoys(self.graph, self.ashore)}, {self.graph.m} legs"
        parts = [
            f'<svg xmlns="http://www.w3.org/2000/svg" width="{width}" height="{height}" viewBox="0 0 {width} {height}" '
            'font-family="DejaVu Sans, Verdana, Helvetica, Arial, sans-serif">',
            f"<title>{escape(self.name)}</title>",
            f'<rect width="{width}" height="{height}" rx="14" fill="#e8f2f9"/>',
            text(MARGIN - RADIUS, 38, heading, 'font-size="18" font-weight="bold" fill="#14213d"'),
            f'<g transform="translate(0 {HEADING})">',
            *self.draw_edges(),
            *self.draw_vertices(),
            *self.draw_costs(),
            "</g>",
            *legend,
            "</svg>",
        ]
        return "\n".join(parts) + "\n"

    def draw_edges(self) -> list[str]:
        """The edges, faint ones first; over them the tour as a band, with its own edges on top of it."""
        thin = THIN if self.graph.m > MOST_COSTS else ""
        looks = [STYLES[kind][1] + (thin if kind in FAINT and k not in self.tour else "") for k, kind in enumerate(self.kinds)]
        ranked = sorted(range(self.graph.m), key=lambda k: list(STYLES).index(self.kinds[k]))
        drawn = [stroke(self.lines[k], looks[k]) for k in ranked if k not in self.tour]
        drawn += [stroke(self.lines[k], TOUR) for k in ranked if k in self.tour]
        return drawn + [stroke(self.lines[k], looks[k]) for k in ranked if k in self.tour]

    def draw_vertices(self) -> list[str]:
        """The vertices with their numbers."""
        drawn = []
        for vertex, (x, y) in sorted(self.places.items()):
            look, words = (HAULED_OUT, 'fill="#56697c"') if vertex in self.out else (BUOY, 'font-weight="bold" fill="#14213d"')
            drawn.append(f'<circle cx="{x:.1f}" cy="{y:.1f}" r="{RADIUS}" {look}/>')
            drawn.append(text(x, y + 5, vertex, f'font-size="14" {words} text-anchor="middle"'))
        return drawn

    def draw_costs(self) -> list[str]:
        """The costs, each on its box."""
        drawn = []
        for k, ((x, y), width) in sorted(self.boxes.items()):
            corner = f'x="{x - width / 2:.1f}" y="{y - HEIGHT / 2:.1f}"'
            drawn.append(f'<rect {corner} width="{width:.1f}" height="{HEIGHT}" rx="5" fill="#fff" fill-opacity="0.92"/>')
            drawn.append(text(x, y + 4.3, self.graph.edges[k].cost, 'font-size="12" fill="#33415c" text-anchor="middle"'))
        return drawn

    def legend(self) -> tuple[list[str], int]:
        """A sample of each kind of edge with how many there are, then the notes; and how far down it goes."""
        x, y, drawn = self.field[0] + 14, HEADING + 40, []
        rows = [(look, f"{words}: {self.kinds.count(kind)}") for kind, (words, look) in reversed(STYLES.items()) if kind in self.kinds]
        rows += [(TOUR, "cheapest round")] if self.tour else []
        for look, words in rows:
            inset = 7 if look == TOUR else 0
            drawn.append(stroke(Line((x + inset, y), (x + 46 - inset, y)), look))
            drawn.append(text(x + 62, y + 4.5, words, 'font-size="14" fill="#14213d"'))
            y += 30
        if self.out:
            drawn.append(f'<circle cx="{x + 23}" cy="{y}" r="{RADIUS - 4}" {HAULED_OUT}/>')
            drawn.append(text(x + 62, y + 4.5, f"buoy ashore: {len(self.out)}", 'font-size="14" fill="#14213d"'))
            y += 30
        for note in self.told + self.notes:
            for words in textwrap.wrap(note, 32, break_on_hyphens=False):
                drawn.append(text(x, y + 12, words, 'font-size="13" fill="#33415c"'))
                y += 19
            y += 5
        return drawn, y
