"""Previews: document 02's examples, against the tree call on a copy, what they say of rulings, and both bounds of every free leg."""
import json
import random
import unittest

import planner
from support import FOUR, planner as command, random_graph


def marked(graph, edge, mark):
    """A copy with one mark changed."""
    return planner.Graph(graph.n, [leg._replace(mark=mark) if number == edge else leg for number, leg in enumerate(graph.edges, 1)])


class Previews(unittest.TestCase):
    def test_four(self):
        """Bounds and legs as the definitions have them, by enumeration."""
        self.assertEqual(planner.preview(FOUR, 1, 2), (11, (2, 3, 4, 6)))
        self.assertEqual(planner.preview(FOUR, 5, 1), (14, (1, 2, 5, 6)))
        self.assertEqual(planner.preview(FOUR, 6, 2), (15, (1, 2, 4, 5)))
        two = marked(marked(FOUR, 1, 1), 3, 1)
        self.assertIsNone(planner.preview(two, 2, 1))
        for edge, mark, number in ((0, 1, 30), (7, 1, 30), (2, 0, 30), (2, 3, 30), (1, 2, 31), (1, 0, 30), (3, 1, 31)):
            with self.subTest((edge, mark)), self.assertRaises(planner.Refused) as caught:
                planner.preview(two, edge, mark)
            self.assertEqual((caught.exception.number, caught.exception.place), (number, 0))

    def test_copies(self):
        """As the tree call on a copy; and a ceiling bars or forces a leg exactly where the preview is beyond it."""
        source = random.Random(11)
        seen = {0: 0, 1: 0, 2: 0}
        for _ in range(60):
            graph = random_graph(source, most=9, costs=20)
            dues, q = [0] + [source.randint(-5, 5) for _ in range(graph.n - 1)], source.choice((1, 1, 2, 7))
            now = planner.tree(graph, dues, q)
            ceiling = 0 if now is None else now.bound // q + source.randint(0, 12)
            ruled = planner.rule(graph, ceiling, dues, q)
            for edge, leg in enumerate(graph.edges, 1):
                if leg.mark != planner.FREE:
                    continue
                one, two = (planner.preview(graph, edge, mark, dues, q) for mark in (1, 2))
                self.assertEqual([one, two], [planner.tree(marked(graph, edge, mark), dues, q) for mark in (1, 2)])
                if ruled:
                    beyond = [found is None or found.bound > q * ceiling for found in (one, two)]
                    ruling = ruled.rulings[edge - 1]
                    self.assertEqual(beyond, [ruling == 2, ruling == 1])
                    seen[ruling] += 1
        self.assertTrue(all(count > 50 for count in seen.values()), seen)

    def test_every_free_leg(self):
        out, complaints, status = command("preview", "examples/four.txt")
        self.assertEqual((complaints, status), ("", 0))
        lines = [f"{k} {leg.a}-{leg.b} required {planner.preview(FOUR, k, 1).bound} struck {planner.preview(FOUR, k, 2).bound}" for k, leg in enumerate(FOUR.edges, 1)]
        self.assertEqual(out, "\n".join(["bound 10", *lines]) + "\n")
        rows = [{"leg": k, "required": planner.preview(FOUR, k, 1).bound, "struck": planner.preview(FOUR, k, 2).bound} for k in range(1, 7)]
        out, _, status = command("preview", "examples/four.txt", "--json")
        self.assertEqual((json.loads(out), status), ({"file": "examples/four.txt", "bound": 10, "previews": rows}, 0))
        given = "buoys 3\n1-2 1 required\n1-3 1\n2-3 1\n"
        self.assertEqual(command("preview", "-", given=given), ("bound 3\n2 1-3 required 3 struck no tree\n3 2-3 required 3 struck no tree\n", "", 0))
        self.assertEqual(command("preview", "-", given="buoys 3\n1-2 1\n"), ("no tree\n1 1-2 required no tree struck no tree\n", "", 1))

    def test_json(self):
        out, _, status = command("preview", "examples/four.txt", 1, "struck", "--json")
        self.assertEqual((json.loads(out), status), ({"file": "examples/four.txt", "leg": 1, "mark": 2, "bound": 11, "legs": [2, 3, 4, 6]}, 0))

    def test_calls(self):
        """A line of a script; the list set for it serves it alone."""
        script = "sea 4 1-2:4 1-3:3 1-4:5 2-3:2 2-4:6 3-4:1\npreview 1 2\nlist 5\npreview 1 2\npreview 0 1\ndues 0 0 1 -1\npreview 5 1\n"
        self.assertEqual(command("calls", given=script), ("bound 11 legs 2 3 4 6\nrefused 11 at 0\nrefused 30 at 0\nbound 14 legs 1 2 5 6\n", "", 0))
