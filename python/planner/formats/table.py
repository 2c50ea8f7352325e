"""The table: 'buoys N', a line a leg ('1-2 40', '1-2 40 required', '1-2 40 struck'), lines 'at BUOY X Y' for drawings, comments '# ..'."""
from __future__ import annotations

import re

from ..faults import Faults, shown, span, whole_number
from ..library import FREE, MARKS, VERTICES, Graph
from .legs import POSITION, Legs, mark_word, position_text, vertex_count

LINES = "a line is 'buoys N', a leg as '1-2 40', 'at BUOY X Y' or a comment '# ..'"


class TableReader:
    """Takes a table line by line."""

    def __init__(self) -> None:
        self.n = 0
        self.legs = Legs()
        self.positions: dict[int, tuple[float, float]] = {}

    def take(self, line: int, words: list[str]) -> None:
        """One line that is neither empty nor a comment."""
        first = words[0].lower()
        if first == "buoys":
            self.take_vertices(words)
        elif not self.n:
            raise Faults(f"the line 'buoys N' is missing; it stands before all other lines, N is {span(VERTICES)}")
        elif first == "at":
            self.take_position(words)
        else:
            self.take_edge(line, words)

    def take_vertices(self, words: list[str]) -> None:
        """The line 'buoys N'."""
        if self.n:
            raise Faults("'buoys' stands twice; allowed is one such line")
        if len(words) != 2:
            raise Faults("'buoys' needs one number, as in 'buoys 9'")
        self.n = vertex_count(words[1])

    def take_position(self, words: list[str]) -> None:
        """A line 'at BUOY X Y'."""
        if len(words) != 4:
            raise Faults("'at' needs a buoy and two numbers, as in 'at 3 120 45.5'")
        vertex = whole_number(words[1], "buoy", range(1, self.n + 1))
        if vertex in self.positions:
            raise Faults(f"buoy {vertex} has a position already; allowed is one")
        for word in words[2:]:
            if not POSITION.fullmatch(word):
                raise Faults(f"position '{shown(word)}' is not a number; allowed are numbers such as 120 or -4.25")
        self.positions[vertex] = (float(words[2]), float(words[3]))

    def take_edge(self, line: int, words: list[str]) -> None:
        """A leg."""
        found = re.fullmatch(r"([0-9]+)-([0-9]+)", words[0])
        if not found:
            raise Faults(f"'{shown(words[0])}' is unknown; {LINES}")
        if len(words) not in (2, 3):
            raise Faults(f"leg {shown(words[0])} has {len(words) - 1} words behind it; allowed are a cost and at most one mark")
        mark = mark_word(words[2]) if len(words) == 3 else FREE
        self.legs.take(line, (found[1], found[2]), words[1], mark, self.n)


def read_table(text: str, name: str) -> Graph:
    """The graph in a table, or every fault in it. A 191st edge is a pair twice, so needs no fault of its own."""
    reader, faults = TableReader(), []
    for line, content in enumerate(text.split("\n"), 1):
        words = content.split("#")[0].split()
        try:
            if words:
                reader.take(line, words)
        except Faults as fault:
            faults.append(f"{name}:{line}: {fault}")
            if not reader.n:
                break
    if not reader.n and not faults:
        faults.append(f"{name}: the line 'buoys N' is missing; N is {span(VERTICES)}")
    if faults:
        raise Faults(*faults)
    return Graph(reader.n, reader.legs.edges, reader.positions)


def table_text(graph: Graph) -> str:
    """The table of a graph: what read_table reads back as the same graph."""
    lines = [f"buoys {graph.n}"]
    for vertex, (x, y) in sorted(graph.positions.items()):
        lines.append(f"at {vertex} {position_text(x)} {position_text(y)}")
    for edge in graph.edges:
        lines.append(f"{edge.a}-{edge.b} {edge.cost}" + (f" {MARKS[edge.mark]}" if edge.mark else ""))
    return "\n".join(lines) + "\n"
