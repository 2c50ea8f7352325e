"""The library's calls from Python: answers, refusals, what a refusal leaves, where the library is found."""
import ctypes
import itertools
import os
import random
import shutil
import subprocess
import sys
import tempfile
import unittest
from collections import Counter
from pathlib import Path

import planner
from planner import library
from support import FOUR, HUNT, ROOT, RULINGS, chain_fault, damaged, program, random_graph


def refusal(call, *words, **named):
    """The number and the place of a refusal."""
    try:
        call(*words, **named)
    except planner.Refused as refused:
        assert str(refused) == f"refused {refused.number} at {refused.place}: {refused.meaning}" and refused.meaning
        return refused.number, refused.place
    return None


class Calls(unittest.TestCase):
    def test_four_buoys(self):
        """Document 01's examples."""
        self.assertEqual(planner.tree(FOUR), (10, (1, 2, 4, 6)))
        self.assertEqual(planner.tree(FOUR, [0, 0, 1, -1]), (12, (1, 2, 4, 6)))
        self.assertEqual(planner.rule(FOUR, 14), (10, (0, 0, 0, 0, 0, 1)))
        self.assertEqual(planner.rule(FOUR, 10), (10, (1, 1, 2, 1, 2, 1)))
        self.assertIsNone(planner.rule(FOUR, 9))
        self.assertIsNone(planner.tree(planner.Graph(3)))
        self.assertIsNone(planner.tree(planner.Graph(4, [edge if edge.a > 1 else (*edge[:3], 1) for edge in FOUR.edges])))

    def test_fractions(self):
        """Document 02, C-17: d(3) and d(4) of half a minute; bounds in halves, ceilings and costs in minutes."""
        dues = [0, 0, 1, -1]
        self.assertEqual(planner.tree(FOUR, dues, 2), (22, (1, 2, 4, 6)))
        self.assertIsNone(planner.rule(FOUR, 10, dues, 2))
        self.assertEqual(planner.rule(FOUR, 11, dues, 2), (22, (1, 1, 2, 1, 2, 1)))
        self.assertEqual(planner.preview(FOUR, 1, 2, dues, 2), (23, (2, 3, 4, 6)))
        self.assertEqual(planner.falling(FOUR, 11, 10, dues, 2).dead, 10)
        for q in (1, 2, 3, 7, 1_000):
            search = planner.Search()
            search.open(FOUR, 12, 2, 1, dues, q)
            search.run(99)
            self.assertEqual((search.tell().verdict, search.tell().cost, search.best_so_far(), search.record.upper), ("cost", 12, 12, 12))

    def test_fractions_by_copies(self):
        """As the same sea with each cost multiplied, where that fits; and with denominator 1 as without."""
        source = random.Random(17)
        for _ in range(200):
            graph, q = random_graph(source, most=9, costs=source.choice((3, 60, 1_000))), source.choice((1, 2, 3, 7, 1_000))
            dues = [0, *(source.choice((source.randint(-9, 9), 1_000_000, -1_000_000)) for _ in range(graph.n - 1))]
            copy = graph.recosted(q * edge.cost for edge in graph.edges)
            found, ceiling = planner.tree(graph, dues, q), source.randint(-200, 400)
            ceiling = source.choice((ceiling, found.bound // q, found.bound // q + 1)) if found else ceiling
            self.assertEqual(found, planner.tree(copy, dues))
            self.assertEqual(planner.rule(graph, ceiling, dues, q), planner.rule(copy, q * ceiling, dues))
            edge, mark = source.randint(1, max(1, graph.m)), source.choice((1, 2))
            asked = [(refusal(planner.preview, *words) or planner.preview(*words)) for words in ((graph, edge, mark, dues, q), (copy, edge, mark, dues))]
            self.assertEqual(asked[0], asked[1])
            self.assertEqual(planner.tree(graph, dues, 1), planner.tree(graph, dues))

    def test_search(self):
        search = planner.Search()
        for ceiling, sweeps, told in ((12, 0, ("cost", 5, 12)), (11, 0, ("none", 3, None))):
            search.open(FOUR, ceiling, sweeps)
            self.assertEqual(search.tell(), ("going on", 0, None))
            self.assertEqual(search.run(2), (False, 2))
            self.assertEqual(search.run(2**64 - 1), (True, told[1]))
            self.assertEqual(search.tell(), told)
            if told[2]:
                self.assertEqual(search.show(), (1, 3, 4, 6))
                self.assertEqual(search.best_so_far(), 12)
            search.close()
        self.assertEqual(bytes(search.record), bytes(planner.Search().record))

    def test_lifting(self):
        """Document 02, C-13: fewer nodes; what a finished search tells and shows is the same, and any number but 0 is yes."""
        source, nodes, seen = random.Random(13), Counter(), Counter()
        for _ in range(200):
            graph, ceiling = random_graph(source, most=9, costs=source.choice((3, 60))), source.choice((0, 60, 500))
            sweeps, step, q = source.choice(((0, 0), (3, 1), (15, 40))) + (source.choice((1, 1, 7)),)
            searches = {lifting: planner.Search() for lifting in (False, True)}
            for lifting, search in searches.items():
                search.open(graph, ceiling, sweeps, step, denominator=q, lifting=lifting)
                self.assertEqual(search.record.settings.lifting, lifting)
                self.assertTrue(search.run(1_000_000).finished)
                nodes[lifting] += search.tell().nodes
            plain, lifted = searches.values()
            self.assertEqual((plain.tell().verdict, plain.tell().cost), (lifted.tell().verdict, lifted.tell().cost))
            if plain.tell().verdict == "cost":
                self.assertEqual(plain.show(), lifted.show())
            seen[plain.tell().verdict, plain.tell().nodes == lifted.tell().nodes] += 1
        self.assertLess(nodes[True], nodes[False])
        self.assertGreater(min(seen.values()), 10, seen)
        opened = planner.Search()
        opened.open(FOUR, 12, lifting=True)
        for number in (2, 255, 2**8, 2**32, 2**63, 2**64 - 1):
            search, shelf, class_ = planner.Search(), planner.Shelf(), planner.Dispatcher()
            search.open(FOUR, 12, lifting=number)
            self.assertEqual(bytes(search.record), bytes(opened.record))
            shelf.save(search, 2)
            self.assertEqual(bytes(shelf.record.places[1]), bytes(opened.record))
            class_.add(FOUR, 12, lifting=number)
            self.assertEqual(bytes(class_.record.places[0]), bytes(opened.record))
            self.assertEqual(planner.compare(FOUR, 12, 9, [(0, 0)], lifting=number), (3,))
        self.assertEqual(planner.compare(FOUR, 12, 9, [(0, 0)], lifting=0), (5,))

    def test_shelf(self):
        """What is saved comes back to the byte, through closing and another opening; the refusals in their order; 24 at any place."""
        search, shelf = planner.Search(), planner.Shelf()
        self.assertEqual(refusal(lambda: shelf.save(search, 9)), (20, 0))
        self.assertEqual(refusal(lambda: search.back(shelf, 9)), (33, 0))
        self.assertEqual(refusal(lambda: search.back(shelf, 1)), (34, 0))
        search.open(FOUR, 12)
        self.assertEqual(refusal(lambda: shelf.save(search, 0)), (33, 0))
        search.run(3)
        saved = bytes(search.record)
        shelf.save(search, 8)
        search.run(9)
        search.close()
        search.open(FOUR, 11)
        search.back(shelf, 8)
        self.assertEqual(bytes(search.record), saved)
        shelf.record.places[6].open = 2
        before = bytes(shelf.record)
        for call in (lambda: shelf.save(search, 1), lambda: search.back(shelf, 8), lambda: search.back(shelf, 9)):
            self.assertEqual(refusal(call), (24, 0))
        self.assertEqual((bytes(search.record), bytes(shelf.record)), (saved, before))

    def test_refusals_leave_the_record(self):
        search, two = planner.Search(), planner.Graph(2)
        steps = (
            (20, lambda: search.run(1)), (20, search.tell), (20, search.show), (20, search.close),
            (15, lambda: search.open(two, 12)), (11, lambda: search.open(FOUR, 12, 0, 0, [0] * 3)),
            (12, lambda: search.open(FOUR, 12, 0, 0, [1, 0, 0, 0])),
            (13, lambda: search.open(FOUR, 5_000_000_001)), (14, lambda: search.open(FOUR, 12, 16)), (14, lambda: search.open(FOUR, 12, 0, 10_001)),
            (32, lambda: search.open(FOUR, 12, denominator=0)), (32, lambda: search.open(FOUR, 12, denominator=1_001)),
            (14, lambda: search.open(FOUR, 12, 16, denominator=0)),
            (0, lambda: search.open(FOUR, 11)), (21, lambda: search.open(two, 11)), (22, search.show),
            (0, lambda: search.run(9)), (23, search.show),
        )  # fmt: skip
        for number, call in steps:
            before = bytes(search.record)
            self.assertEqual(refusal(call), (number, 0) if number else None)
            if number:
                self.assertEqual(bytes(search.record), before)
        search.record.count = 2**63
        for call in (search.tell, search.close, lambda: search.run(1), search.show, lambda: search.open(FOUR, 12)):
            self.assertEqual(refusal(call), (24, 0))
        for denominator, number in ((0, 24), (1, None), (1_000, None), (1_001, 24), (2**32 + 1, 24), (2**64 - 1, 24)):
            search = planner.Search()
            search.open(FOUR, 12, denominator=7)
            search.record.settings.denominator = denominator
            self.assertEqual(refusal(search.tell), number and (number, 0), denominator)
        for lifting, number in ((0, None), (1, None), (2, 24), (2**8, 24), (2**32 + 1, 24), (2**64 - 1, 24)):
            search = planner.Search()
            search.open(FOUR, 12)
            search.record.settings.lifting = lifting
            self.assertEqual(refusal(search.tell), number and (number, 0), lifting)
        search = planner.Search()
        search.record.settings.lifting = 1
        self.assertEqual(refusal(search.tell), (24, 0))

    def test_rows_of_a_node(self):
        """A node's required legs in one row of bits and its struck legs in another; 24 where a leg is in both, past m, or in a node that does not wait."""
        legs = [(a, b, 5, mark) for (a, b), mark in zip(itertools.combinations(range(1, 13), 2), itertools.cycle((0, 1, 0, 2, 0)))]
        search = planner.Search()
        search.open(planner.Graph(12, legs), 60)
        rows = [sum(1 << k for k, leg in enumerate(legs) if leg[3] == mark) for mark in (1, 2)]
        words = [row >> 64 * word & 2**64 - 1 for row in rows for word in range(3)]
        self.assertEqual(list(search.record.stack), words + [0] * (21 * 6))
        self.assertEqual((len(legs), search.record.depth), (66, 1))
        for word, bit in ((3, 1), (0, 3), (1, 2), (4, 2), (2, 63), (5, 0), (6, 0), (131, 63)):
            search.record.stack[word] ^= 1 << bit
            self.assertEqual(refusal(search.tell), (24, 0), (word, bit))
            search.record.stack[word] ^= 1 << bit
        self.assertEqual(search.tell().verdict, "going on")

    def test_refusals_of_values(self):
        """Whatever fits the number types is sent; the library refuses."""
        pairs = [(1, 2, 5)] * 255
        for number, call in (
            (15, lambda: planner.check(planner.Graph(4, [(2, 1, 3)]))),
            (15, lambda: planner.tree(planner.Graph(20, pairs[:191]))),
            (15, lambda: planner.tree(planner.Graph(20, pairs))),
            (15, lambda: planner.write(planner.Graph(4, [(1, 2, 100_000_001)]))),
            (15, lambda: planner.solve(planner.Graph(4, [(1, 2, 5, 3)]))),
            (15, lambda: planner.solve(planner.Graph(0, [(200, 100, 5, 3)]))),
            (13, lambda: planner.solve(FOUR, 5_000_000_001)),
            (13, lambda: planner.rule(FOUR, -(2**63))),
            (11, lambda: library.tree(FOUR, None, 5)),
            (11, lambda: library.rule(FOUR, 12, None, 2**64 - 1)),
            (11, lambda: planner.tree(FOUR, [])),
            (12, lambda: planner.tree(FOUR, [0, 2**31 - 1, 0, 0])),
            (32, lambda: planner.tree(FOUR, denominator=0)), (32, lambda: planner.rule(FOUR, 12, denominator=1_001)),
            (32, lambda: planner.preview(FOUR, 7, 3, denominator=2**64 - 1)), (32, lambda: planner.compare(FOUR, 12, 5, [(0, 0)], denominator=0)),
            (32, lambda: planner.falling(FOUR, 20, 9, denominator=0)),
        ):
            self.assertEqual(refusal(call), (number, 0))
        for call in (
            lambda: planner.tree(planner.Graph(256)), lambda: planner.tree(planner.Graph(4, [(1, 2, 2**31)])), lambda: planner.rule(FOUR, 2**63),
            lambda: planner.tree(planner.Graph(20, pairs * 2)), lambda: planner.tree(FOUR, [2**31]), lambda: planner.Search().run(-1),
            lambda: planner.tree(FOUR, denominator=-1), lambda: planner.Search().open(FOUR, 12, denominator=2**64),
            lambda: planner.compare(FOUR, 12, 5, [(0, 0)], lifting=-1), lambda: planner.Dispatcher().add(FOUR, 12, lifting=2**64),
        ):  # fmt: skip
            self.assertRaises(ValueError, call)
        for word in ("no", None, 0.0):
            self.assertRaises(TypeError, planner.Search().open, FOUR, 12, lifting=word)

    def test_search_in_pieces(self):
        """A run in pieces is the run, to the byte of the record."""
        source = random.Random(1)
        for _ in range(30):
            graph = random_graph(source, most=9)
            whole, pieces = planner.Search(), planner.Search()
            whole.open(graph, 100), pieces.open(graph, 100)
            library.library().planner_run(whole.record, 70)
            for budget in (0, 1, 20, 49):
                pieces.run(budget)
            self.assertEqual(bytes(whole.record), bytes(pieces.record))

    def test_count_at_its_end(self):
        """A count at 2^63 - 1 opens no more nodes, whatever the budget; the call ends."""
        search = planner.Search()
        search.open(FOUR, 12)
        search.record.count = 2**63 - 2
        self.assertEqual(search.run(2**64 - 1), (False, 2**63 - 1))
        self.assertEqual(search.run(2**64 - 1), (False, 2**63 - 1))

    def test_sizes(self):
        """The structs are those of the header, compiled."""
        with tempfile.TemporaryDirectory() as folder:
            lines = "".join(f'printf("%zu\\n", sizeof(planner_{name}));' for name in ("reply", "graph", "settings", "terms", "search", "shelf"))
            Path(folder, "s.c").write_text('#include <stdio.h>\n#include "planner.h"\nint main(void){' + lines + "}")
            if not shutil.which("cc"):
                self.skipTest("no C compiler")
            subprocess.run(["cc", f"-I{ROOT}/include", f"{folder}/s.c", "-o", f"{folder}/s"], check=True)
            said = subprocess.run([f"{folder}/s"], stdout=subprocess.PIPE, check=True).stdout.split()
        structs = (library.CReply, library.CGraph, library.CSettings, library.CTerms, library.CSearch, library.CShelf)
        self.assertEqual([int(size) for size in said], [ctypes.sizeof(struct) for struct in structs])


class Charts(unittest.TestCase):
    def test_round_trips(self):
        source = random.Random(2)
        for _ in range(300):
            graph = random_graph(source, costs=100_000_000)
            self.assertEqual(planner.read(planner.write(graph)), graph)

    def test_damaged_files(self):
        """1,500 files, held to document 01's order and, where it is built, to the program 'rulings'."""
        source, seen = random.Random(3), Counter()
        for _ in range(1500):
            data = damaged(source)
            said = refusal(planner.read, data)
            self.assertEqual(said or (0, 0), chain_fault(data), data.hex())
            self.assertEqual(refusal(planner.parse, data, "x.chart"), said)
            if RULINGS.exists():
                self.held_to_program(data, said)
            seen[said[0] if said else 0] += 1
        self.assertEqual(sorted(seen), list(range(11)))
        self.assertGreaterEqual(min(seen.values()), 5, seen)

    def held_to_program(self, data, said):
        lines = program(RULINGS, 0, data)
        if said:
            self.assertEqual(lines, [f"refused {said[0]} at {said[1]}"], data.hex())
        elif lines != ["dead"]:
            graph = planner.read(data)
            words = (planner.RULINGS[ruling] for ruling in planner.rule(graph, 0).rulings)
            rulings = (f"{number} {edge.a}-{edge.b} {word}" for number, (edge, word) in enumerate(zip(graph.edges, words), 1))
            self.assertEqual(lines[1:], list(rulings))
        else:
            self.assertIsNone(planner.rule(planner.read(data), 0))

    @unittest.skipUnless(HUNT.exists(), "target/bin/hunt is not built")
    def test_refusals_against_hunt(self):
        """The chart's faults come before the ceiling's."""
        source, seen = random.Random(7), Counter()
        for _ in range(500):
            data, ceiling = damaged(source), source.choice((0, 0, 0, 5_000_000_001, -5_000_000_001, 2**63 - 1, -(2**63)))
            said = refusal(lambda: planner.solve(planner.read(data), ceiling))
            first = program(HUNT, ceiling, data)[0]
            self.assertEqual(first if first.startswith("refused") else None, said and f"refused {said[0]} at {said[1]}", data.hex())
            seen[said[0] if said else 0] += 1
        self.assertEqual(sorted(seen), [*range(11), 13])

    @unittest.skipUnless(HUNT.exists(), "target/bin/hunt is not built")
    def test_searches_against_hunt(self):
        source, seen = random.Random(6), Counter()
        for _ in range(400):
            costs, marks = source.choice((1, 40, 1_000_000, 100_000_000)), source.choice(((0,), (0, 0, 0, 0, 0, 1, 2)))
            graph = random_graph(source, most=8, costs=costs, marks=marks)
            ceiling = source.choice((0, source.randint(-300, 300), 20_000_000, 5_000_000_000, -5_000_000_000))
            search = planner.Search()
            search.open(graph, ceiling)
            search.run(1_000_000)
            told = search.tell()
            answer = planner.solve(graph, ceiling)
            verdict = f"cost {told.cost}" if told.verdict == "cost" else told.verdict
            self.assertEqual(program(HUNT, ceiling, planner.write(graph)), [verdict, f"nodes {told.nodes}"])
            self.assertEqual((answer.verdict, answer.cost), (told.verdict, told.cost))
            seen[told.verdict] += 1
        self.assertGreater(min(seen["cost"], seen["none"]), 100, seen)


class Places(unittest.TestCase):
    """Where the library is looked for."""

    def said(self, folder, code="import planner; print(planner.tree(planner.Graph(3)))", **environment):
        kept = {name: value for name, value in os.environ.items() if name != "PLANNER_LIBRARY"}
        words = [sys.executable, "-B", "-c", f"import sys; sys.path.insert(0, {str(folder)!r}); {code}"]
        done = subprocess.run(words, env={**kept, **environment}, stdout=subprocess.PIPE, stderr=subprocess.STDOUT, check=False)
        return done.stdout.decode().splitlines()[-1]

    def test_places(self):
        file = Path(library.library()._name)
        with tempfile.TemporaryDirectory() as folder:
            top = Path(folder).resolve()
            for installed, place in (("a/lib/python3/site-packages", "a/lib"), ("b/lib/python", "b/lib"), ("c/python", "c/build"),
                ("d/x", "d/x/planner")):
                shutil.copytree(ROOT / "python/planner", top / installed / "planner", ignore=shutil.ignore_patterns("__pycache__"))
                missing = self.said(top / installed)
                self.assertIn("libplanner.so is missing: run make", missing)
                (top / place).mkdir(parents=True, exist_ok=True)
                shutil.copy(file, top / place / "libplanner.so")
                self.assertEqual(self.said(top / installed), "None")
                named = self.said(top / installed, PLANNER_LIBRARY=str(top / "none.so"))
                self.assertIn(f"{top}/none.so is missing: run make", named)

    def test_other_files(self):
        with tempfile.TemporaryDirectory() as folder:
            Path(folder, "text.so").write_text("no library")
            said = self.said(ROOT / "python", PLANNER_LIBRARY=f"{folder}/text.so")
            self.assertIn("cannot be used, run make", said)
