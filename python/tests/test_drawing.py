"""Drawings: what is in them, that nothing hides a cost or a buoy, and what is said of it."""
import itertools
import math
import random
import re
import tempfile
import unittest
from pathlib import Path
from xml.etree import ElementTree

import planner
from planner.drawing import STYLES, TOUR, Drawing
from planner.faults import Faults
from planner.layout import HEIGHT, RADIUS
from support import EXAMPLES, ROOT, SEAS, full_graph, planner as command, random_graph


def drawing(graph, ceiling=None, name="t"):
    """A drawing with the round, and with rulings where a ceiling is given."""
    return Drawing(name, graph, planner.solve(graph), None if ceiling is None else planner.rule(graph, ceiling), ceiling)


def notes(svg):
    """All words in a drawing."""
    return " ".join(text.text for text in ElementTree.fromstring(svg).iter("{http://www.w3.org/2000/svg}text")).replace("\N{NO-BREAK SPACE}", " ")


class Pictures(unittest.TestCase):
    def drawn(self, *words):
        """What is written, or said."""
        with tempfile.TemporaryDirectory() as folder:
            _, said, status = command("draw", *words[:1], f"{folder}/out.svg", *words[1:])
            return said if status else Path(folder, "out.svg").read_text("utf-8")

    def test_example(self):
        expected = (ROOT / "docs/sea.svg").read_text("utf-8")
        self.assertEqual(self.drawn("examples/sea.txt", "--ceiling", 350), expected)
        self.assertEqual(command("draw", "examples/sea.txt", "--ceiling", 350), (expected, "", 0))
        # One line a leg and one in the legend for each kind: 8 barred, 3 forced, 14 kept, 1 required, 1 struck, none to a buoy ashore; 11 in the round.
        self.assertEqual([expected.count(look) - 1 for _, look in STYLES.values()], [-1, 1, 8, 14, 14, 3, 1])
        self.assertEqual(expected.count(TOUR) - 1, 11)

    def test_names_of_other_forms(self):
        """A drawing does not take the place of another sea, and is no PNG."""
        with tempfile.TemporaryDirectory() as folder:
            for name in ("b.txt", "b.chart", "B.CSV", "b.tsp", "b.png", "b.pdf"):
                said = command("draw", "examples/four.txt", f"{folder}/{name}")
                self.assertEqual(said, ("", f"{folder}/{name}: the name says another form; a drawing is SVG, named .svg\n", 2))
                self.assertFalse(Path(folder, name).exists())

    def test_a_long_name(self):
        """The heading ends before the drawing does."""
        svg = drawing(full_graph(3, lambda *_: 1), name="W" * 200).svg()
        heading = next(text.text for text in ElementTree.fromstring(svg).iter("{http://www.w3.org/2000/svg}text"))
        self.assertEqual(heading, "W" * 38 + "..: 3 buoys, 3 legs")

    def test_without_a_round(self):
        svg = self.drawn("examples/sea.txt", "--no-round")
        self.assertNotIn(TOUR, svg)
        self.assertNotIn("cheapest", svg)

    def test_answers(self):
        """No round and an undecided one are drawn without, and the status says so; 'dead' is not drawn."""
        with tempfile.TemporaryDirectory() as folder:
            out = Path(folder, "out.svg")
            self.assertEqual(command("draw", "examples/regrade/split.txt", out)[1:],
                ("examples/regrade/split.txt: there is no round; drawn without one\n", 1))
            self.assertIn("there is no round", notes(out.read_text("utf-8")))
            said = command("draw", "examples/regrade/gulf.txt", out, "--nodes", 0)[1:]
            self.assertEqual(said, ("examples/regrade/gulf.txt: going on after 0 nodes; drawn without one\n", 3))
            out.unlink()
            said = command("draw", "examples/sea.txt", out, "--ceiling", 300)[1:]
            self.assertEqual(said, ("examples/sea.txt: dead: no 1-tree is within ceiling 300, so no round is\n", 1))
            self.assertEqual(command("draw", "examples/regrade/loop.chart", out)[1:],
                ("examples/regrade/loop.chart: refused 6 at 3: record met before\n", 2))
            self.assertFalse(out.exists())

    def test_positions_for_all_or_none(self):
        with self.assertRaisesRegex(Faults, "buoy 2 has no line 'at'"):
            drawing(planner.Graph(3, [], {1: (0.0, 0.0), 3: (1.0, 1.0)}))
        with self.assertRaisesRegex(Faults, "buoy 1 has no line 'at'"):
            drawing(planner.Graph(3, [], {2: (0.0, 0.0)}))

    def test_names(self):
        svg = drawing(planner.Graph(3), name="a<b>&\x07" + "c" * 500).svg()
        self.assertEqual(ElementTree.fromstring(svg).findtext("{*}title"), "a<b>&?" + "c" * 52 + "..")


class Layout(unittest.TestCase):
    def held(self, picture):
        """No buoy overlaps another or leaves the picture; no cost is hidden by a buoy, by another cost or by the edge of the picture."""
        width, height = picture.field
        for p, q in itertools.combinations(picture.places.values(), 2):
            self.assertGreater(math.dist(p, q), 2 * RADIUS + 4)
        for x, y in picture.places.values():
            self.assertTrue(RADIUS < x < width - RADIUS and RADIUS < y < height - RADIUS)
        for box in picture.boxes.values():
            for place in picture.places.values():
                self.assertGreater(box.reaches(place), RADIUS + 2)
            self.assertTrue(box.width / 2 <= box.middle[0] <= width - box.width / 2 and HEIGHT / 2 <= box.middle[1] <= height - HEIGHT / 2)
        for one, other in itertools.combinations(picture.boxes.values(), 2):
            self.assertFalse(one.meets(other))
        svg = picture.svg()
        ElementTree.fromstring(svg)
        return notes(svg)

    def test_no_overlaps(self):
        """Every cost is written where it can be read, or said to have no room."""
        source = random.Random(14)
        for turn in range(40):
            graph = random_graph(source, costs=source.choice((9, 1000, 1_000_000, 100_000_000)))
            if turn % 2:
                places = {vertex: (source.randint(0, 12), source.randint(0, 9)) for vertex in range(1, graph.n + 1)}
                graph = planner.Graph(graph.n, graph.edges, places)
            picture = drawing(graph)
            said = self.held(picture)
            unwritten = [edge for k, edge in enumerate(graph.edges) if k not in picture.boxes]
            if graph.m <= 60:
                for edge in unwritten:
                    self.assertIn(f"{edge.a}-{edge.b}: {edge.cost}", said)

    def test_twenty_on_a_circle(self):
        """In the order of the round, so that its legs are the rim; each of its costs is written."""
        source = random.Random(15)
        for cost in (99, 1_000_000, 100_000_000):
            graph = full_graph(20, lambda *_: source.randint(-cost, cost))
            picture = drawing(graph)
            said = self.held(picture)
            self.assertIn("only the costs of the round and of required and forced legs are written", said)
            self.assertEqual(picture.boxes.keys(), picture.tour)
            way = planner.order(graph, [k + 1 for k in picture.tour])
            rim = {round(math.dist(picture.places[a], picture.places[b]), 3) for a, b in zip(way, way[1:])}
            self.assertEqual(len(rim), 1)

    def test_buoys_at_one_place(self):
        edges = [(a, b, 10 * a + b) for a, b in itertools.combinations(range(1, 6), 2)]
        graph = planner.Graph(5, edges, {1: (0, 0), 2: (9, 0), 3: (9, 0), 4: (0, 9), 5: (0.1, 9)})
        said = self.held(drawing(graph))
        self.assertIn("buoys 2 and 3 are at one place, drawn side by side", said)
        self.assertIn("drawn a little aside, to be seen: 4, 5", said)
        said = self.held(drawing(planner.Graph(5, edges, {vertex: (7, 7) for vertex in range(1, 6)})))
        self.assertIn("all positions are one place: drawn on a circle", said)

    def test_legs_go_round_buoys(self):
        """Three in a row: the long leg swings out, so that it is not taken for the two short ones."""
        graph = planner.Graph(3, [(1, 2, 1), (1, 3, 2), (2, 3, 3)], {1: (0, 0), 2: (1, 0), 3: (2, 0)})
        picture = drawing(graph)
        self.held(picture)
        self.assertEqual([bool(line.bend) for line in picture.lines], [False, True, False])
        self.assertGreater(picture.lines[1].distance(picture.places[2]), RADIUS + 3)

    def test_files(self):
        for path in (EXAMPLES / "regrade/gulf.txt", EXAMPLES / "four.txt", SEAS / "burma14.tsp", SEAS / "gr17.tsp"):
            self.held(drawing(planner.load(path)))
        burma = drawing(planner.load(SEAS / "burma14.tsp")).places
        self.assertLess(burma[5][1], burma[10][1])  # the north is up
        self.assertLess(burma[3][0], burma[10][0])  # and the west left

    def test_legend_is_inside(self):
        graph = planner.Graph(8, [(a, b, -100_000_000) for a, b in itertools.combinations(range(1, 9), 2)], {k: (k, 0) for k in range(1, 9)})
        svg = drawing(graph).svg()
        height = int(re.search(r'height="(\d+)"', svg)[1])
        self.assertTrue(all(float(y) < height for y in re.findall(r'<text x="[\d.]+" y="([\d.]+)"', svg)))
