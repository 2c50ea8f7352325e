"""Simulated sailings and compared settings: document 02's examples, every tour of small seas, and students apart."""
import json
import random
import unittest

import planner
from support import FOUR, planner as command, random_graph


def following(state):
    """The state that a leg makes."""
    return (1_664_525 * state + 1_013_904_223) % 2**32


class Sailings(unittest.TestCase):
    def test_four(self):
        """Document 01's sea, in both directions; and the refusals in their order."""
        self.assertEqual(planner.simulate(FOUR, [1, 4, 6, 3], 0, 2), ((2, 1, 2, 7), 12, 2868466484))
        self.assertEqual(planner.simulate(FOUR, [3, 6, 4, 1], 0, 0), ((5, 1, 2, 4), 12, 2868466484))
        wrong = (
            ([4, 6, 3, 1], 65_536, 2, 36), ([1, 4, 6, 6], 0, 2, 36), ([1, 6, 4, 3], 0, 2, 36), ([1, 4, 6], 65_536, 2, 11), ([], 0, 2, 11),
            ([1, 4, 6, 3], 65_536, 2, 37), ([1, 4, 6, 3], 0, 1_001, 37), ([1, 4, 6, 2**32 + 3], 0, 2, 36),
        )
        for legs, student, spread, number in wrong:
            with self.subTest(legs=legs, student=student), self.assertRaises(planner.Refused) as caught:
                planner.simulate(FOUR, legs, student, spread)
            self.assertEqual((caught.exception.number, caught.exception.place), (number, 0))

    def test_rounds(self):
        """The cheapest round can be sailed both ways; each time is the cost and the delay of its state."""
        source = random.Random(21)
        for _ in range(40):
            graph = random_graph(source, most=9, costs=50)
            answer = planner.solve(graph)
            if answer.verdict != "cost":
                continue
            stops = planner.order(graph, answer.tour)
            pairs = {frozenset((leg.a, leg.b)): number for number, leg in enumerate(graph.edges, 1)}
            legs = [pairs[frozenset(pair)] for pair in zip(stops, stops[1:])]
            student, spread = source.randrange(65_536), source.randrange(1_001)
            for way in (legs, legs[::-1]):
                state, times = student, []
                for leg in way:
                    state = following(state)
                    times.append(graph.edges[leg - 1].cost + state // 65_536 % (2 * spread + 1) - spread)
                self.assertEqual(planner.simulate(graph, way, student, spread), (tuple(times), sum(times), state))
                self.assertEqual(planner.simulate(graph, way, student, 0).total, answer.cost)

    def test_compare(self):
        """Each pair as a hunt of its own."""
        pairs = [(0, 0), (0, 10_000), (1, 1), (2, 1), (15, 1), (15, 10)]
        self.assertEqual(planner.compare(FOUR, 12, 5, pairs), (5, 5, 3, 1, 1, 1))
        self.assertEqual(planner.compare(FOUR, 16, 5, pairs), (0, 0, 3, 1, 1, 5))
        source = random.Random(22)
        for _ in range(20):
            graph, q, lifting = random_graph(source, most=8, costs=30), source.choice((1, 2, 10, 1_000)), source.choice((False, True))
            chosen = [(source.choice((0, 1, 3, 15)), source.choice((0, 1, 20))) for _ in range(source.randint(1, 16))]
            counts = []
            for sweeps, step in chosen:
                search = planner.Search()
                search.open(graph, 300, sweeps, step, denominator=q, lifting=lifting)
                ran = search.run(20)
                counts.append(ran.nodes if ran.finished else 0)
            self.assertEqual(planner.compare(graph, 300, 20, chosen, denominator=q, lifting=lifting), tuple(counts))
        for wrong, number in (([], 11), ([(0, 0)] * 17, 11), ([(0, 0), (16, 0)], 14), ([(0, 0), (0, 10_001)], 14)):
            with self.subTest(wrong), self.assertRaises(planner.Refused) as caught:
                planner.compare(FOUR, 12, 5, wrong)
            self.assertEqual(caught.exception.number, number)

    def test_commands(self):
        """What is printed, as lines and as objects."""
        out, _, status = command("simulate", "examples/four.txt", "--round", "1,4,6,3", "--student", 0, "--spread", 2, "--json")
        wanted = {"file": "examples/four.txt", "legs": [1, 4, 6, 3], "times": [2, 1, 2, 7], "total": 12, "state": 2868466484}
        self.assertEqual((json.loads(out), status), (wanted, 0))
        out, _, status = command("compare", "examples/four.txt", "--ceiling", 12, "--pairs", "0/0,2/1", "--json")
        rows = [{"sweeps": 0, "step": 0, "nodes": 5}, {"sweeps": 2, "step": 1, "nodes": 1}]
        self.assertEqual((json.loads(out), status), ({"file": "examples/four.txt", "pairs": rows}, 0))
        out, _, status = command("compare", "examples/four.txt", "--ceiling", 12, "--pairs", "0/0", "--lifting", "yes", "--json")
        rows = [{"sweeps": 0, "step": 0, "nodes": 3}]
        self.assertEqual((json.loads(out), status), ({"file": "examples/four.txt", "lifting": True, "pairs": rows}, 0))
        for word, nodes in (("yes", 3), ("no", 5)):
            said = command("compare", "examples/four.txt", "--ceiling", 12, "--pairs", "0/0", "--lifting", word)
            self.assertEqual(said, (f"sweeps  step  nodes\n     0     0  {nodes}\n", "", 0))
        self.assertEqual(command("compare", "examples/four.txt", "--pairs", "0/0", "--allowance", 1),
                         ("sweeps  step  nodes\n     0     0  going on\n", "", 3))
        for words in (("--round", "1,4", "--student", 0, "--spread", 2), ("--round", "4,6,3,1", "--student", 0, "--spread", 2)):
            self.assertEqual(command("simulate", "examples/four.txt", *words)[2], 2)
        self.assertEqual(command("compare", "examples/four.txt", "--pairs", "3")[2], 2)
