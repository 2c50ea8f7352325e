"""Recent costs: document 02's sentences worked out afresh, logs in files, and hunts of the sea so made."""
import json
import random
import tempfile
import unittest
from pathlib import Path

import planner
from planner import library
from planner.library import COSTS, WINDOWS
from support import EXAMPLES, FOUR, ROOT, planner as command, random_graph

SEASON = [(1, 9), (1, -3), (4, 2), (1, 7), (1, 1), (1, 0), (4, -5), (4, -8), (4, -6)]


def afresh(graph, last, log):
    """Each leg's cost: the greatest of its last times, or its own where it has none."""
    times = [[time for leg, time in log if leg == number] for number in range(1, graph.m + 1)]
    return [max(found[-last:]) if found else edge.cost for edge, found in zip(graph.edges, times)]


def costs(graph):
    """The costs of a graph."""
    return [edge.cost for edge in graph.edges]


class Costs(unittest.TestCase):
    def test_four(self):
        """After each entry, by hand."""
        by_two = ((4, 2), (9, 2), (9, 2), (9, 2), (7, 2), (7, 2), (1, 2), (1, 2), (1, -5), (1, -6))
        for entries, (one, four) in enumerate(by_two):
            made = planner.recent_costs(FOUR, 2, SEASON[:entries])
            self.assertEqual(costs(made), [one, 3, 5, four, 6, 1])
        self.assertEqual(costs(planner.recent_costs(FOUR, 1, SEASON)), [0, 3, 5, -6, 6, 1])
        self.assertEqual(costs(planner.recent_costs("examples/four.txt", 3, SEASON)), [7, 3, 5, -5, 6, 1])

    def test_afresh(self):
        """Any log, after every entry; marks stay, and the answers are those of the sea so made."""
        source = random.Random(22)
        for _ in range(40):
            graph = random_graph(source, most=7)
            last = source.choice((1, 2, 3, 32, source.choice(WINDOWS)))
            spread = source.choice((2, 50, COSTS[-1]))
            log = [(source.randint(1, graph.m), source.randint(-spread, spread)) for _ in range(source.randint(0, 90))]
            for entries in range(len(log) + 1):
                made = planner.recent_costs(graph, last, log[:entries])
                self.assertEqual(costs(made), afresh(graph, last, log[:entries]))
            self.assertEqual([edge.mark for edge in made.edges], [edge.mark for edge in graph.edges])
            self.assertEqual(planner.solve(made), planner.solve(graph.recosted(afresh(graph, last, log))))

    def test_refusals(self):
        """15, 11, 38, then 39 with the first bad entry's place, from 1."""
        high = COSTS[-1] + 1
        for edges, times, last, said in (
            ((1, 2), (1,), 33, (11, 0)), ((), (1,), 0, (11, 0)), ((7,), (1,), 0, (38, 0)), ((7,), (1,), 33, (38, 0)), ((), (), 2**64 - 1, (38, 0)),
            ((1, 7, 0), (1, 1, 1), 2, (39, 2)), ((0,), (0,), 1, (39, 1)), ((1, 2, 6), (1, high - 1, high), 1, (39, 3)),
            ((1, 1), (-high, -high), 32, (39, 1)), ((2**64 - 1,), (0,), 1, (39, 1)), ((257, 1), (0, 0), 1, (39, 1)),
        ):  # fmt: skip
            with self.subTest((edges, times, last)), self.assertRaises(planner.Refused) as caught:
                library.recent_costs(FOUR, last, edges, times)
            self.assertEqual((caught.exception.number, caught.exception.place), said)
        with self.assertRaises(planner.Refused) as caught:
            planner.recent_costs(planner.Graph(2, [(1, 2, 4)]), 0, [(7, 1)])
        self.assertEqual(caught.exception.number, 15)
        for last, log in ((2**64, ()), (1, [(-1, 0)]), (1, [(1, 2**31)])):
            with self.assertRaises(ValueError):
                planner.recent_costs(FOUR, last, log)

    def test_a_season(self):
        """A million entries; and a refusal at the last of them."""
        source = random.Random(1)
        graph = random_graph(source, most=20)
        log = [(source.randint(1, graph.m), source.randint(-99, 99)) for _ in range(1_000_000)]
        self.assertEqual(costs(planner.recent_costs(graph, 32, log)), afresh(graph, 32, log[-50_000:]))
        log[-1] = (0, 0)
        with self.assertRaises(planner.Refused) as caught:
            planner.recent_costs(graph, 32, log)
        self.assertEqual((caught.exception.number, caught.exception.place), (39, 1_000_000))


class Command(unittest.TestCase):
    def run_on(self, text, *words, name="log.csv"):
        """The command on document 01's sea and a log of this text."""
        with tempfile.TemporaryDirectory() as folder:
            path = Path(folder, name)
            path.write_bytes(text if isinstance(text, bytes) else text.encode())
            out, said, status = command("recent", "examples/four.txt", path, *words)
            return out, said.replace(f"{folder}/", ""), status

    def test_written(self):
        """The sea on standard output and what changed beside it; or the sea in a file, and what changed on standard output."""
        changes = "entries 9 changed 2\n1 1-2 was 4 now 1\n4 2-3 was 2 now -6\n"
        table = "buoys 4\n1-2 1\n1-3 3\n1-4 5\n2-3 -6\n2-4 6\n3-4 1\n"
        self.assertEqual(command("recent", "examples/four.txt", "examples/season.csv", "--last", 2), (table, changes, 0))
        with tempfile.TemporaryDirectory() as folder:
            out = Path(folder, "new.chart")
            self.assertEqual(command("recent", "examples/four.txt", "examples/season.csv", out, "--last", 2), (changes, "", 0))
            self.assertEqual(planner.load(out), planner.recent_costs(FOUR, 2, SEASON))
            said, _, status = command("recent", "examples/four.txt", "examples/season.csv", out, "--last", 3, "--json")
            self.assertEqual((planner.load(out), status), (planner.recent_costs(FOUR, 3, SEASON), 0))
        self.assertEqual(json.loads(said), {
            "file": "examples/four.txt", "entries": 9, "costs": [7, 3, 5, -5, 6, 1],
            "changed": [{"leg": 1, "was": 4, "now": 7}, {"leg": 4, "was": 2, "now": -5}],
        })  # fmt: skip

    def test_forms_of_a_log(self):
        """Commas, semicolons, tabs, spaces; a header or none; quotes, comments, empty lines and cells, ends of lines of every system."""
        whole = command("recent", "examples/four.txt", "examples/season.csv", "--last", 2)
        for parting in (",", ";", "\t", " ", " , "):
            for end in ("\n", "\r\n"):
                for header in ("", "leg,time", "Leg;Time", "# a log"):
                    lines = [header, *(f"{leg}{parting}{time}" for leg, time in SEASON), "", "# the end"]
                    self.assertEqual(self.run_on(end.join(lines), "--last", 2), whole)
        self.assertEqual(self.run_on("\ufeff\"leg\",\"time\",\n" + "".join(f'"{leg}","{time}",,\n' for leg, time in SEASON), "--last", 2), whole)
        text = (EXAMPLES / "season.csv").read_text()
        self.assertEqual(command("recent", "examples/four.txt", "-", "--last", 2, given=text), whole)
        self.assertEqual(self.run_on("", "--last", 2)[1:], ("entries 0 changed 0\n", 0))

    def test_what_is_wrong(self):
        """Each line with its number; a refused entry with its line and its place."""
        wide = "allowed is -2147483648 to 2147483647"
        text = "leg,time\n1,9\nx,1\n1\n1,2,3\n1,1.5\n2,2147483648\nleg,time\n"
        self.assertEqual(self.run_on(text, "--last", 2), ("", "".join((
            "log.csv:3: leg 'x' is not a whole number; allowed is 0 to 18446744073709551615\n",
            "log.csv:4: a line has 1 cells; allowed are a leg and a time, as in '3,17'\n",
            "log.csv:5: a line has 3 cells; allowed are a leg and a time, as in '3,17'\n",
            f"log.csv:6: time '1.5' is not a whole number; {wide}\n",
            f"log.csv:7: time 2147483648 is out of range; {wide}\n",
            "log.csv:8: leg 'leg' is not a whole number; allowed is 0 to 18446744073709551615\n",
        )), 2))  # fmt: skip
        meaning = "a log entry that names no leg, or a time outside the cost range"
        self.assertEqual(self.run_on("leg,time\n1,9\n\n7,1\n", "--last", 2), ("", f"log.csv:4: refused 39 at 2: {meaning}\n", 2))
        said = "examples/four.txt: refused 38 at 0: the number of last times not 1 to 32\n"
        self.assertEqual(self.run_on("7,1\n", "--last", 33), ("", said, 2))
        self.assertEqual(command("recent", "-", "-", "--last", 2, given="buoys 3\n")[2], 2)
        self.assertEqual(self.run_on("", "examples/four.txt", "--last", 2)[1:], ("examples/four.txt: the file that is read; name another one to write\n", 2))
        self.assertEqual(command("recent", "examples/four.txt", "no such log", "--last", 2)[1:], ("no such log: No such file or directory\n", 2))
        many = self.run_on("x\n" * 500, "--last", 2)[1].splitlines()
        self.assertLess(len(many), 150)
        self.assertEqual((ROOT / "examples/four.txt").read_text().splitlines()[1], "buoys 4")
