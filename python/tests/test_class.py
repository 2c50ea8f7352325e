"""The dispatcher: document 02's rules on document 01's sea, hunts against hunts alone, and the command `planner class`."""
import json
import os
import pty
import random
import subprocess
import sys
import unittest

import planner
from planner.library import CDispatcher
from support import FOUR, ROOT, planner as command, random_graph


def refused(call, *arguments):
    """The number of a refusal, which leaves the dispatcher as it was."""
    try:
        call(*arguments)
    except planner.Refused as refusal:
        return refusal.number
    return None


class Dispatchers(unittest.TestCase):
    def test_four(self):
        """Places, turns and refusals in their order."""
        class_ = planner.Dispatcher()
        self.assertEqual(refused(class_.turn, 0), 40)
        self.assertIsNone(class_.turn(3))
        self.assertEqual([class_.add(FOUR, 12) for _ in range(3)], [1, 2, 3])
        self.assertEqual([class_.turn(1) for _ in range(4)], [1, 2, 3, 1])
        class_.close(2)
        self.assertEqual(class_.add(FOUR, 12), 2)
        self.assertEqual([class_.turn(1) for _ in range(2)], [2, 3])
        self.assertEqual([class_.turn(9) for _ in range(4)], [1, 2, 3, None])
        self.assertEqual([class_.tell(place) for place in (1, 2, 3)], [("cost", 5, 12)] * 3)
        self.assertEqual(class_.show(2), (1, 3, 4, 6))
        self.assertEqual([refused(class_.close, place) for place in (4, 0, 9)], [20, 42, 42])
        self.assertEqual([refused(class_.show, 1, 5), refused(class_.tell, 2**64 - 1)], [11, 42])
        self.assertEqual([class_.add(FOUR, 12) for _ in range(5)], [4, 5, 6, 7, 8])
        self.assertEqual(refused(class_.add, FOUR, 5_000_000_001), 41)
        class_.close(8)
        self.assertEqual(refused(class_.add, FOUR, 5_000_000_001), 13)
        before = bytes(class_.record)
        class_.record.places[7].count = 1
        self.assertEqual([refused(class_.turn, 0), refused(class_.tell, 9), refused(class_.add, FOUR, 12)], [24] * 3)
        class_.record.places[7].count = 0
        self.assertEqual(bytes(class_.record), before)

    def test_alone(self):
        """Each hunt is, to the byte, one that is run alone with its own calls; nobody waits past eight turns."""
        source = random.Random(24)
        for _ in range(40):
            class_, alone, waited = planner.Dispatcher(), {}, {}
            for _ in range(60):
                kind, place = source.random(), source.randint(1, 8)
                if kind < 0.2:
                    graph, lifting = random_graph(source, most=7), source.choice((False, True))
                    try:
                        place = class_.add(graph, 300, lifting=lifting)
                    except planner.Refused as refusal:
                        self.assertEqual((refusal.number, len(alone)), (41, 8))
                        continue
                    alone[place] = planner.Search()
                    alone[place].open(graph, 300, lifting=lifting)
                    waited = dict.fromkeys(alone, 0)
                elif kind < 0.3 and place in alone:
                    class_.close(place)
                    del alone[place]
                    waited = dict.fromkeys(alone, 0)
                else:
                    nodes = source.choice((1, 1, 2, 5))
                    served = class_.turn(nodes)
                    going_on = [place for place, hunt in alone.items() if hunt.record.depth]
                    self.assertEqual(served is None, not going_on)
                    if served is not None:
                        alone[served].run(nodes)
                        waited = {place: 0 if place == served else waited[place] + 1 for place in going_on}
                    self.assertTrue(all(turns < 8 for turns in waited.values()))
            for place in range(1, 9):
                hunt = alone.get(place, planner.Search())
                self.assertEqual(bytes(class_.record.places[place - 1]), bytes(hunt.record))

    def test_size(self):
        """Eight records and a number, and nothing between them."""
        record = planner.Search().record
        self.assertEqual(len(bytes(CDispatcher())), 8 + 8 * len(bytes(record)))


class Command(unittest.TestCase):
    def test_lines(self):
        """A line for each sea, as solve answers it; a small hunt is not kept waiting by a large one."""
        files = [f"examples/regrade/{name}" for name in ("bay.txt", "cape.txt", "four.txt", "ring.txt", "strait.txt")] + ["examples/sea.txt"]
        said, complaints, status = command("class", *files, "--turn", 5)
        self.assertEqual(complaints, "")
        answers = {file: planner.solve(ROOT / file) for file in files}
        told = dict(line.split(": ") for line in said.splitlines())
        self.assertEqual(set(told), set(files))
        for file, answer in answers.items():
            words = f"cost {answer.cost} round" if answer.verdict == "cost" else answer.verdict
            self.assertTrue(told[file].startswith(words), (file, told[file], words))
        self.assertEqual(status, 0 if all(answer.verdict == "cost" for answer in answers.values()) else 1)

    def test_ends(self):
        """With a ceiling, with too few nodes, with nine seas, with a turn of 0, as JSON."""
        said, _, status = command("class", "examples/four.txt", "examples/sea.txt", "--ceiling", 11)
        self.assertEqual(([line.split(" nodes")[0] for line in said.splitlines()], status), (["examples/four.txt: none", "examples/sea.txt: none"], 1))
        said, complaints, status = command("class", *["examples/four.txt"] * 9)
        self.assertEqual((said, status), ("", 2))
        self.assertIn("refused 41 at 0", complaints)
        _, complaints, status = command("class", "examples/four.txt", "--turn", 0)
        self.assertEqual((complaints.split(":")[1].strip(), status), ("refused 40 at 0", 2))
        said, _, status = command("class", "examples/four.txt", "--json")
        self.assertEqual(json.loads(said)["round"], [1, 2, 3, 4, 1])
        equal = planner.Graph(9, [(a, b, 1) for a in range(1, 10) for b in range(a + 1, 10)])
        data = planner.write(equal)
        said, _, status = command("class", "-", "--ceiling", 9, "--nodes", 1, "--turn", 1, given=data)
        self.assertIn((said.split(": ")[1].split()[0], status), (("going", 3), ("cost", 0)))
        _, complaints, status = command("class", "examples/none.txt")
        self.assertEqual((status, complaints.count("\n")), (2, 1))

    def test_terminal(self):
        """On a terminal the answers stand alone once it is over."""
        shown, end = pty.openpty()
        done = subprocess.run([sys.executable, ROOT / "planner", "class", "examples/four.txt"], cwd=ROOT, stdout=subprocess.PIPE, stderr=end, check=False)
        os.close(end)
        os.close(shown)
        self.assertEqual(done.stdout.decode(), "examples/four.txt: cost 12 round 1-2-3-4-1 nodes 1\n")
