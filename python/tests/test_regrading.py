"""Recorded costs held to the library: grades, lists of any kind, names of any kind, statuses."""
import csv
import io
import json
import os
import random
import re
import tempfile
import time
import unicodedata
import unittest
from collections import Counter
from pathlib import Path
from unittest import mock

import planner
from planner import regrading, search
from planner.regrading import Judge
from planner.search import LONG, SHORT, Answer
from support import EXAMPLES, FOUR, allowed_tours, planner as command, planted, random_graph


class Judging(unittest.TestCase):
    def test_against_every_order(self):
        source, seen = random.Random(4), Counter()
        for _ in range(150):
            graph = random_graph(source, most=6, costs=12)
            costs = allowed_tours(graph).values()
            least = min(costs, default=None)
            recorded = source.choice((None, source.randint(-80, 80), (least or 0) + source.randint(-2, 2), least))
            grade = Judge("x", graph).judge(recorded)
            if recorded == least:
                expected = "right"
            elif least is None or recorded is None:
                expected = "no round" if least is None else "wrong none"
            else:
                expected = "too dear" if recorded > least else "too cheap"
            self.assertEqual(grade.grade, expected, (graph, recorded))
            if least is not None:
                self.assertIn(str(least), re.findall(r"-?\d+", grade.says))
                self.assertEqual(grade.cheapest, least)
                self.assertEqual(grade.difference, None if recorded is None else recorded - least)
            seen[grade.grade] += 1
        self.assertEqual(len(seen), 5, seen)

    def judged(self, recorded, least, limit):
        """The grade where searches at ceilings above the limit do not end."""

        def ask(_, ceiling, nodes):
            if ceiling > limit:
                return Answer("going on", nodes)
            return Answer("cost", 1, least) if least is not None and ceiling >= least else Answer("none", 1)

        unknown = mock.patch.object(search, "some_tour", lambda *_: Answer("going on", SHORT))
        with unknown, mock.patch.object(search.Solver, "ask", ask), mock.patch.object(search, "rule", lambda *_, **__: planner.Rulings(10, ())):
            grade = Judge("x", planner.Graph(3)).judge(recorded)
        return grade.grade, grade.says

    def test_going_on(self):
        going_on = f"going on after {LONG} nodes"
        for recorded, least, limit, said in (
            (500, 60, 80, ("too dear", "recorded 500, cheapest 60, difference 440")),
            (500, 100, 80, ("undecided", f"recorded 500; {going_on}, no round costs 80 or less")),
            (81, None, 80, ("undecided", f"recorded 81; {going_on}, no round costs 80 or less")),
            (None, 60, 80, ("wrong none", "recorded none, cheapest 60")),
            (None, None, 80, ("undecided", f"recorded none; {going_on}, no round costs 80 or less")),
            (30, 60, 80, ("too cheap", "recorded 30, impossible: no round costs that little; cheapest 60, difference -30")),
            (30, 90, 80, ("too cheap", f"recorded 30, impossible: no round costs that little; cheapest not known, {going_on}, above 80")),
        ):
            self.assertEqual(self.judged(recorded, least, limit), said)


class Folders(unittest.TestCase):
    def setUp(self):
        held = tempfile.TemporaryDirectory()
        self.addCleanup(held.cleanup)
        self.folder = Path(held.name)

    def put(self, name, text):
        Path(self.folder, name).write_text(text, encoding="utf-8")

    def regraded(self, *words):
        out, complaints, status = command("regrade", self.folder, *words)
        return out + complaints, status

    def test_example(self):
        self.assertEqual(command("regrade", "examples/regrade"), ((EXAMPLES / "regrade.stdout").read_text("utf-8"), "", 1))

    def test_twenty_vertices(self):
        """Records of a sea of 20 vertices and all edges, right and wrong, are judged at once."""
        graph, least = planted(random.Random(12), 20, 1000)
        records = ((least, "right"), (least - 1, "too cheap"), (least + 1, "too dear"), (5 * least, "too dear"), (None, "wrong none"))
        for number, _ in enumerate(records):
            planner.save(graph, self.folder / f"{number}.chart")
        self.put("costs.txt", "".join(f"{k}.chart {'none' if recorded is None else recorded}\n" for k, (recorded, _) in enumerate(records)))
        start = time.monotonic()
        said, _ = self.regraded()
        self.assertLess(time.monotonic() - start, 10)
        self.assertEqual([line.split(": ")[1] for line in said.splitlines()[:-1]], [grade for _, grade in records])
        self.assertTrue(all(str(least) in line for line in said.splitlines()[:-1]), said)

    def test_records(self):
        record, chart = self.folder / "costs.txt", self.folder / "a.txt"
        self.assertEqual(self.regraded(), (f"{self.folder}: has no costs.txt and no costs.csv\n", 2))
        self.put("a.txt", "buoys 3\n1-2 1\n1-3 1\n2-3 1\n")
        self.put("costs.txt", "a.txt 3\n")
        self.assertEqual(self.regraded(), ("a.txt: right: 3\n1 in all: 1 right\n", 0))
        self.put("costs.txt", "b.txt 3 # lost\n")
        missing = "a.txt: no record: no line in costs.txt\nb.txt: no chart: no such file, but a line in costs.txt\n"
        self.assertEqual(self.regraded(), (missing + "2 in all: 1 no record, 1 no chart\n", 1))
        self.put("costs.txt", "a.txt 3\na.txt 4\nb.txt x\nb.txt\nc.txt 5000000001\n")
        self.assertEqual(self.regraded(), (
            f"{record}:2: 'a.txt' stands twice; allowed is one line for a chart\n"
            f"{record}:3: cost 'x' is not a whole number; allowed is -5000000000 to 5000000000\n"
            f"{record}:4: allowed is 'NAME COST' or 'NAME none'\n"
            f"{record}:5: cost 5000000001 is out of range; allowed is -5000000000 to 5000000000\n", 2))  # fmt: skip
        self.put("costs.txt", "a.txt 3\n")
        self.put("a.txt", "buoys 3\n1-2\n")
        fault = f"{chart}:2: leg 1-2 has 0 words behind it; allowed are a cost and at most one mark"
        self.assertEqual(self.regraded(), (f"a.txt: not read: {fault}\n1 in all: 1 not read\n", 2))

    def test_an_empty_list_is_no_success(self):
        for text in ("", "\n\n", "# nothing yet\n"):
            self.put("costs.txt", text)
            said = f"{self.folder}/costs.txt: no chart is named; allowed is 'NAME COST' or 'NAME none', a line a chart\n"
            self.assertEqual(self.regraded(), (said, 2))
        Path(self.folder, "costs.txt").unlink()
        self.put("costs.csv", "")
        self.assertEqual(self.regraded(), (f"{self.folder}/costs.csv:1: the header is missing; allowed is a first row 'name,cost'\n", 2))
        self.put("costs.csv", "name,cost\n")
        self.assertEqual(self.regraded()[1], 2)
        self.put("costs.txt", "a.txt 3\n")
        self.assertEqual(self.regraded(), (f"{self.folder}: has costs.txt and costs.csv; allowed is one of them\n", 2))

    NAMES = ("my sea.txt", "sea #3.txt", "#first.txt", 'the "best".txt', " edge .txt", "a#1.txt", "12 13.txt", "sea 3 #4.txt", "Zürich ☂.txt",
        "comma, sea.csv")

    def test_names(self):
        """Names with spaces, # and quotes, in both kinds of list; in costs.txt quotes help where a name would be misread."""
        for name in self.NAMES:
            planner.save(FOUR, self.folder / name)
        plain = ["my sea.txt", "sea #3.txt", "a#1.txt", "12 13.txt", "Zürich ☂.txt", "comma, sea.csv"]
        lines = [f"{name} 12" for name in plain]
        lines += ['"{}" 12'.format(name.replace('"', '""')) for name in self.NAMES if name not in plain]
        right = "".join(f"{name}: right: 12\n" for name in sorted(self.NAMES)) + f"{len(self.NAMES)} in all: {len(self.NAMES)} right\n"
        for comment in ("", " # so it is", "#so it is"):
            self.put("costs.txt", "# a list\n" + "".join(f"{line}{comment}\n" for line in lines))
            self.assertEqual(self.regraded(), (right, 0))
        Path(self.folder, "costs.txt").unlink()
        with open(self.folder / "costs.csv", "w", encoding="utf-8", newline="") as file:
            csv.writer(file, quoting=csv.QUOTE_ALL).writerows([("name", "cost"), *((name, 12) for name in self.NAMES)])
        self.assertEqual(self.regraded(), (right, 0))

    def test_names_that_are_no_text(self):
        name = b"b\xff\n.txt"
        Path(os.fsdecode(bytes(self.folder) + b"/" + name)).write_bytes(b"buoys 3\n")
        self.put("costs.txt", "a.txt 3\n")
        said, status = self.regraded()
        self.assertEqual((said.count("\n"), status), (3, 1))
        out, _, _ = command("regrade", self.folder, "--json")
        self.assertEqual([json.loads(line)["grade"] for line in out.splitlines()], ["no chart", "no record"])

    def test_what_is_no_chart(self):
        """A folder named like a chart is none; links are followed; a name that no file can have is a line without a chart."""
        planner.save(FOUR, self.folder / "four.txt")
        Path(self.folder, "old.txt").mkdir()
        Path(self.folder, "link.txt").symlink_to("four.txt")
        Path(self.folder, "broken.txt").symlink_to("nowhere")
        long = "x" * 300 + ".txt"
        self.put("costs.txt", f"four.txt 12\nlink.txt 12\n{long} 12\n")
        said, status = self.regraded()
        self.assertEqual(status, 1)
        self.assertEqual(said, "broken.txt: no record: no line in costs.txt\nfour.txt: right: 12\nlink.txt: right: 12\n"
            f"{long}: no chart: no such file, but a line in costs.txt\n4 in all: 2 right, 1 no record, 1 no chart\n")

    def test_letters_of_two_parts(self):
        """A ü is one character in a list and two in a file's name, as some systems write it; two lines of both kinds stay two."""
        one, two = (unicodedata.normalize(form, "Zürich.txt") for form in ("NFC", "NFD"))
        for name, listed in ((one, two), (two, one)):
            with self.subTest(name):
                planner.save(FOUR, self.folder / name)
                self.put("costs.txt", f"{listed} 12\n")
                self.assertEqual(self.regraded(), (f"{name}: right: 12\n1 in all: 1 right\n", 0))
                self.put("costs.txt", f"{listed} 12\n{name} 12\n")
                self.assertEqual(self.regraded()[0].splitlines()[-1], "2 in all: 1 right, 1 no chart")
                Path(self.folder, name).unlink()

    def test_lists_of_other_systems(self):
        """Ends of lines of any system, 'None' in capitals, semicolons and empty columns as spreadsheets write them."""
        planner.save(FOUR, self.folder / "my four.txt")
        planner.save(planner.Graph(3), self.folder / "b.txt")
        right = ("b.txt: right: none\nmy four.txt: right: 12\n2 in all: 2 right\n", 0)
        for end in ("\n", "\r\n", "\r"):
            for name, text in (
                ("costs.txt", "\ufeffmy four.txt\t12\nb.txt None"), ("costs.csv", "\ufeffName;Cost;;\nmy four.txt;12;;\n;;;\nb.txt;NONE;;"),
                ("costs.csv", 'name,cost\n"my four.txt","12"\n"b.txt",none\n'),
            ):  # fmt: skip
                Path(self.folder, name).write_bytes(text.replace("\n", end).encode())
                self.assertEqual(self.regraded(), right)
                Path(self.folder, name).unlink()

    def test_long_lists(self):
        """A list of 60,000 lines is read to its end."""
        self.put("costs.txt", "".join(f"a chart with a long name {number}.txt 12\n" for number in range(60_000)))
        out, _, status = command("regrade", self.folder)
        self.assertEqual((out.splitlines()[-1], status), ("60000 in all: 60000 no chart", 1))

    def test_all_forms(self):
        for name in ("a.txt", "b.chart", "c.csv", "d.tsp"):
            planner.save(FOUR, self.folder / name)
        self.put("costs.csv", "name,cost\na.txt,12\nb.chart,13\nc.csv,none\nd.tsp,12\n")
        said, status = self.regraded()
        self.assertEqual((said.splitlines()[-1], status), ("4 in all: 2 right, 1 too dear, 1 wrong none", 1))

    def test_csv_and_json(self):
        out, _, status = command("regrade", "examples/regrade", "--csv")
        rows = list(csv.DictReader(io.StringIO(out)))
        self.assertEqual((len(rows), status), (10, 1))
        bay, *_, ring = (rows[0], rows[5])
        self.assertEqual(bay, {"name": "bay.txt", "grade": "too dear", "recorded": "61", "cheapest": "58", "difference": "3",
                               "says": "recorded 61, cheapest 58, difference 3"})  # fmt: skip
        self.assertEqual((ring["grade"], ring["recorded"], ring["cheapest"]), ("wrong none", "none", "11"))
        out, _, status = command("regrade", "examples/regrade", "--json")
        objects = [json.loads(line) for line in out.splitlines()]
        for found, cells in zip(objects, rows, strict=True):
            self.assertEqual({key: "" if value is None else str(value) for key, value in found.items()}, cells)

    def test_csv_or_json(self):
        self.assertEqual(command("regrade", "examples/regrade", "--csv", "--json"), ("", "--json and --csv: allowed is one of them\n", 2))

    def test_statuses(self):
        """Wrong records count before what cannot be read, and that before what is undecided."""
        hard = planner.Graph(12, [(a, b, (a * b) % 7) for a in range(1, 13) for b in range(a + 1, 13)])
        planner.save(hard, self.folder / "hard.txt")
        planner.save(FOUR, self.folder / "four.txt")
        bad = (EXAMPLES / "regrade/loop.chart").read_bytes()
        for records, loop, status in ((("four.txt 12", "hard.txt 99"), False, 3), (("four.txt 12", "hard.txt 99"), True, 2),
            (("four.txt 13", "hard.txt 99"), True, 1)):
            if loop:
                Path(self.folder, "loop.chart").write_bytes(bad)
                records += ("loop.chart 12",)
            self.put("costs.txt", "\n".join(records))
            self.assertEqual(self.regraded("--nodes", "1")[1], status)

    def test_folders(self):
        self.assertEqual(command("regrade", self.folder / "none")[1:], (f"{self.folder}/none: no such folder\n", 2))
        self.put("a.txt", "")
        self.assertEqual(command("regrade", self.folder / "a.txt")[1:], (f"{self.folder}/a.txt: not a folder\n", 2))
        Path(self.folder, "costs.txt").mkdir()
        self.assertEqual(command("regrade", self.folder)[1:], (f"{self.folder}/costs.txt: Is a directory\n", 2))

    def test_line(self):
        self.assertEqual(regrading.Grade("a", "refused", "6 at 3: met").line(), "a: refused 6 at 3: met")
