"""Which rulings appear where a ceiling falls: against the rule call at every ceiling, and as the command prints it."""
import json
import random
import unittest

import planner
from planner.ceilings import changes
from support import FOUR, planner as command, random_graph

FOUR_FALLS = (
    "bound 10 ceilings 20 9\n14: 6 3-4 force\n13: 4 2-3 force\n13: 5 2-4 bar\n11: 2 1-3 force\n10: 1 1-2 force\n10: 3 1-4 bar\n9: dead\n"
)


def by_every_ceiling(graph, high, low, dues, q):
    """The same, by the rule call at each ceiling from high to low."""
    appear, before = [], None
    for ceiling in range(high, low - 1, -1):
        found = planner.rule(graph, ceiling, dues, q)
        if found is None:
            return None if before is None else (before.bound, tuple(appear), ceiling)
        was = before.rulings if before else [0] * graph.m
        pairs = enumerate(zip(was, found.rulings), 1)
        appear += [(ceiling, edge, now) for edge, (old, now) in pairs if old != now and now in (1, 2)]
        before = found
    return before.bound, tuple(appear), None


class Falls(unittest.TestCase):
    def test_every_ceiling(self):
        """On small costs, where every ceiling can be asked."""
        generator = random.Random(15)
        seen = {"none": 0, "dead": 0, "alive": 0}
        for _ in range(150):
            graph = random_graph(generator, most=7, costs=9)
            dues = [0] + [generator.randint(-3, 3) for _ in range(graph.n - 1)]
            high, low = generator.randint(-20, 90), generator.randint(-60, 20)
            high, low = max(high, low), min(high, low)
            q = generator.choice((1, 1, 2, 7))
            wanted = by_every_ceiling(graph, high, low, dues, q)
            self.assertEqual(planner.falling(graph, high, low, dues, q), wanted)
            seen["none" if wanted is None else "alive" if wanted[2] is None else "dead"] += 1
        self.assertTrue(all(count > 5 for count in seen.values()), seen)

    def test_changes(self):
        """Bisection finds each change of any answer that never comes back, the ends included."""
        for turns in ((), (5,), (0,), (9,), (0, 1, 2), (3, 8, 9)):
            answer = lambda ceiling: sum(ceiling <= turn for turn in turns)
            below = [turn for turn in sorted(turns, reverse=True) if turn < 9]
            self.assertEqual([ceiling for ceiling, _ in changes(answer, 9, 0)], below, turns)
        self.assertEqual(list(changes(lambda ceiling: ceiling, 3, 3)), [])

    def test_command(self):
        words = ("rule", "examples/four.txt", "--ceilings")
        self.assertEqual(command(*words, 20, 9), (FOUR_FALLS, "", 0))
        self.assertEqual(command(*words, 12, 12), ("bound 10 ceilings 12 12\n12: 4 2-3 force\n12: 5 2-4 bar\n12: 6 3-4 force\n", "", 0))
        self.assertEqual(command(*words, 9, -9), ("dead\n", "", 1))
        self.assertEqual(command(*words, 9, 20), ("", "--ceilings 9 20: the higher ceiling comes first\n", 2))
        for ends in ((5_000_000_001, 9), (20, -5_000_000_001)):
            said = "examples/four.txt: refused 13 at 0: ceiling out of range; allowed is -5000000000 to 5000000000\n"
            self.assertEqual(command(*words, *ends), ("", said, 2))
        both = command("rule", "examples/four.txt", "--ceiling", 12, "--ceilings", 20, 9)
        self.assertEqual(both, command("rule", "examples/four.txt"))
        self.assertEqual(both[2], 2)

    def test_json(self):
        out, complaints, status = command("rule", "examples/four.txt", "--ceilings", 14, 13, "--json")
        self.assertEqual((complaints, status), ("", 0))
        appear = [{"ceiling": 14, "leg": 6, "ruling": "force"}, {"ceiling": 13, "leg": 4, "ruling": "force"},
                  {"ceiling": 13, "leg": 5, "ruling": "bar"}]  # fmt: skip
        self.assertEqual(json.loads(out), {"file": "examples/four.txt", "ceilings": [14, 13], "bound": 10, "appear": appear, "dead": None})
        out, _, status = command("rule", "examples/four.txt", "--ceilings", 9, 1, "--json")
        self.assertEqual((json.loads(out), status), ({"file": "examples/four.txt", "ceilings": [9, 1], "verdict": "dead"}, 1))

    def test_required_and_struck_stay_unsaid(self):
        """They are marks of the chart and appear nowhere."""
        graph = planner.Graph(4, [(edge.a, edge.b, edge.cost, mark) for edge, mark in zip(FOUR.edges, (1, 0, 0, 0, 2, 0))])
        self.assertTrue(all(edge not in (1, 5) for _, edge, _ in planner.falling(graph, 30, 10).appear))
