"""Buoys ashore (document 02, C-20): every call against the sea without them, the list's refusals, the record, the command, drawings and the page."""
import ctypes
import itertools
import json
import random
import re
import tempfile
import unittest
from collections import Counter
from pathlib import Path
from xml.etree import ElementTree

import planner
from planner import EXCLUDED, FREE, REQUIRED, library, search
from planner.ashore import KINDS, OUT, afloat, touching
from planner.drawing import HAULED_OUT, STYLES, Drawing
from planner.faults import Faults
from planner.page import Page
from planner.showing import Showing
from support import EXAMPLES, FOUR, allowed_tours, distances, planner as command, random_graph

FOURTH = [0, 0, 0, 1]
MEANING = "refused 35 at 0: the list of buoys ashore; allowed is that each byte is 0 or 1, buoy 1 is afloat, and at least three buoys are"
SVG = "{http://www.w3.org/2000/svg}"


def refusal(call, *words, **named):
    """The number of a refusal, or None."""
    try:
        call(*words, **named)
    except planner.Refused as refused:
        assert refused.place == 0
        return refused.number
    return None


def hauled_out(source, graph):
    """A list in which vertex 1 and at least two others are afloat."""
    count = source.randint(0, graph.n - 3)
    return planner.ashore_list(graph, source.sample(range(2, graph.n + 1), count))


def without(graph, ashore):
    """The graph without the vertices ashore and without the edges that touch them, and the number that each edge left had."""
    place = {vertex: at for at, vertex in enumerate((v for v in range(1, graph.n + 1) if not ashore[v - 1]), 1)}
    left = [(number, edge) for number, edge in enumerate(graph.edges, 1) if edge.a in place and edge.b in place]
    return planner.Graph(len(place), [(place[edge.a], place[edge.b], edge.cost, edge.mark) for _, edge in left]), [number for number, _ in left]


def cases(seed, count, **how):
    """Seas with some vertices ashore: the sea, the list, the sea without them, its edges' numbers, dues, and the dues of those afloat."""
    source = random.Random(seed)
    for _ in range(count):
        graph = random_graph(source, **how)
        ashore = hauled_out(source, graph)
        dues = [0] + [source.randint(-9, 9) for _ in range(graph.n - 1)]
        yield source, graph, ashore, *without(graph, ashore), dues, [due for due, out in zip(dues, ashore) if not out]


class Calls(unittest.TestCase):
    def test_four(self):
        """Document 01's sea with buoy 4 ashore: legs 1 2 4 and bound 9, also with leg 3 required or a due of 7 there."""
        required = planner.Graph(4, [edge._replace(mark=REQUIRED) if k == 3 else edge for k, edge in enumerate(FOUR.edges, 1)])
        for graph in (FOUR, required):
            for dues in (None, [0, 0, 0, 7], [0, 0, 0, -1_000_000]):
                self.assertEqual(planner.tree(graph, dues, ashore=FOURTH), (9, (1, 2, 4)))
                self.assertEqual(planner.rule(graph, 9, dues, ashore=FOURTH), (9, (1, 1, 4, 1, 4, 4)))
                self.assertIsNone(planner.rule(graph, 8, dues, ashore=FOURTH))
            answer = planner.solve(graph, ashore=FOURTH)
            self.assertEqual((answer.cost, answer.tour, planner.order(graph, answer.tour, FOURTH)), (9, (1, 2, 4), [1, 2, 3, 1]))
            self.assertEqual(planner.solve(graph, 8, ashore=FOURTH).verdict, "none")
        self.assertEqual(planner.compare(FOUR, 9, 5, [(0, 0), (15, 10)], ashore=FOURTH), (1, 1))
        self.assertEqual(planner.falling(FOUR, 10, 8, ashore=FOURTH), (9, ((10, 1, 1), (10, 2, 1), (10, 4, 1)), 8))

    def test_none_ashore(self):
        """A list of zeros is as no list."""
        source = random.Random(20)
        for _ in range(60):
            graph, ceiling = random_graph(source, most=9), source.choice((-20, 60, 300))
            zeros, dues = [0] * graph.n, [0] + [source.randint(-9, 9) for _ in range(graph.n - 1)]
            self.assertEqual(planner.tree(graph, dues, ashore=zeros), planner.tree(graph, dues))
            self.assertEqual(planner.rule(graph, ceiling, dues, ashore=zeros), planner.rule(graph, ceiling, dues))
            words = (graph, ceiling, 50, [(0, 0), (3, 2)], dues)
            self.assertEqual(planner.compare(*words, ashore=zeros), planner.compare(*words))
            records = []
            for ashore in (None, zeros):
                hunt = planner.Search()
                hunt.open(graph, ceiling, 3, 2, dues, ashore=ashore)
                hunt.run(7)
                records.append(bytes(hunt.record))
            self.assertEqual(*records)

    def test_trees_rulings_and_previews(self):
        """As in the sea without them; a leg that touches one is out of the tree, ruled 4, and a preview of it changes nothing."""
        seen = Counter()
        for source, graph, ashore, small, numbers, dues, few in cases(21, 300, most=10):
            q = source.choice((1, 1, 3, 1_000))
            found, wanted = planner.tree(graph, dues, q, ashore), planner.tree(small, few, q)
            self.assertEqual(found, wanted and (wanted.bound, tuple(numbers[k - 1] for k in wanted.edges)))
            ceiling = source.choice((-90, 60, 300, found.bound // q if found else 0, found.bound // q + source.randint(0, 9) if found else 0))
            ruled, wanted = planner.rule(graph, ceiling, dues, q, ashore), planner.rule(small, ceiling, few, q)
            self.assertEqual(ruled and ruled.bound, wanted and wanted.bound)
            if ruled:
                kept = dict(zip(numbers, wanted.rulings))
                self.assertEqual(ruled.rulings, tuple(kept.get(number, 4) for number in range(1, graph.m + 1)))
            for number, edge in enumerate(graph.edges, 1):
                mark = source.choice((1, 2))
                if edge.mark != FREE:
                    self.assertEqual(refusal(planner.preview, graph, number, mark, ashore=ashore), 31)
                    continue
                told = planner.preview(graph, number, mark, dues, q, ashore)
                if number in touching(graph, ashore):
                    self.assertEqual(told, found)
                else:
                    wanted = planner.preview(small, numbers.index(number) + 1, mark, few, q)
                    self.assertEqual(told, wanted and (wanted.bound, tuple(numbers[k - 1] for k in wanted.edges)))
            seen[found is None, ruled is None, small.n < graph.n] += 1
        self.assertGreater(min(seen[key] for key in ((True, True, True), (False, True, True), (False, False, True))), 15, seen)

    def test_hunts(self):
        """Node by node the hunt of the sea without them, with lifting too; in its record each node has the dues of those afloat, in their order."""
        seen = Counter()
        for source, graph, ashore, small, numbers, dues, few in cases(22, 150, most=9):
            sweeps, step, q = source.choice(((0, 0), (3, 1), (15, 40))) + (source.choice((1, 1, 7)),)
            words = (source.choice((60, 300)), sweeps, step)
            chosen, budget = {"denominator": q, "lifting": source.choice((False, True))}, source.choice((0, 1, 5, 10_000))
            whole, part, class_ = planner.Search(), planner.Search(), planner.Dispatcher()
            whole.open(graph, *words, dues, ashore=ashore, **chosen)
            part.open(small, *words, few, **chosen)
            self.assertEqual(whole.run(budget), part.run(budget))
            self.assertEqual(whole.tell(), part.tell())
            self.same_nodes(whole.record, part.record, numbers, graph.m)
            if whole.tell().verdict == "cost":
                self.assertEqual(whole.show(), tuple(numbers[k - 1] for k in part.show()))
            self.assertEqual((list(whole.record.ashore), list(whole.record.multipliers[: graph.n])), (ashore + [0] * (20 - graph.n), dues))
            place = class_.add(graph, *words, dues, ashore=ashore, **chosen)
            if budget and class_.turn(budget):
                self.assertEqual(bytes(class_.record.places[place - 1]), bytes(whole.record))
            one, other = ((sea, words[0], 50, [(sweeps, step)], each) for sea, each in ((graph, dues), (small, few)))
            self.assertEqual(planner.compare(*one, ashore=ashore, **chosen), planner.compare(*other, **chosen))
            seen[whole.tell().verdict, small.n < graph.n] += 1
        self.assertGreater(min(seen[verdict, True] for verdict in ("going on", "none", "cost")), 10, seen)

    def same_nodes(self, whole, part, numbers, m):
        """Each waiting node has the same marks, touching edges excluded, and carries the same dues."""
        self.assertEqual((whole.depth, whole.upper, list(whole.carried)), (part.depth, part.upper, list(part.carried)))
        for p in range(whole.depth):
            rows = [sum(word << 64 * place for place, word in enumerate(node.stack[6 * p + at : 6 * p + at + 3])) for node in (whole, part) for at in (0, 3)]
            marks = [EXCLUDED] * m
            for k, number in enumerate(numbers):
                marks[number - 1] = REQUIRED if rows[2] >> k & 1 else EXCLUDED if rows[3] >> k & 1 else FREE
            self.assertEqual(rows[:2], [sum(1 << k for k, each in enumerate(marks) if each == mark) for mark in (REQUIRED, EXCLUDED)])

    def test_refusals(self):
        """35 for a byte above 1, for buoy 1 and for fewer than three afloat; its length under 11; 35 after 32 and, of a preview, before 30."""
        wrong = ([0, 0, 0, 2], [0, 255, 0, 0], [1, 0, 0, 0], [0, 1, 0, 1], [1, 1, 1, 1])
        class_ = planner.Dispatcher()
        pairs = [(0, 0)]
        for bad in wrong:
            for q, number in ((1, 35), (0, 32)):
                chosen = {"denominator": q, "ashore": bad}
                for call in (
                    lambda: planner.tree(FOUR, **chosen), lambda: planner.rule(FOUR, 12, **chosen), lambda: planner.preview(FOUR, 9, 3, **chosen),
                    lambda: planner.compare(FOUR, 12, 5, pairs, **chosen), lambda: planner.Search().open(FOUR, 12, **chosen),
                    lambda: class_.add(FOUR, 12, **chosen), lambda: planner.falling(FOUR, 12, 9, **chosen),
                ):  # fmt: skip
                    self.assertEqual(refusal(call), number)
            self.assertEqual(refusal(planner.solve, FOUR, ashore=bad), 35)
            for number, call in (
                (13, lambda: planner.rule(FOUR, 5_000_000_001, ashore=bad)), (14, lambda: planner.Search().open(FOUR, 12, 16, ashore=bad)),
                (14, lambda: class_.add(FOUR, 12, 0, 10_001, ashore=bad)), (14, lambda: planner.compare(FOUR, 12, 5, [(16, 0)], ashore=bad)),
                (12, lambda: planner.tree(FOUR, [0, 0, 0, 1_000_001], ashore=bad)), (15, lambda: planner.tree(planner.Graph(2), ashore=bad)),
                (11, lambda: library.tree(FOUR, None, 5, ashore=bad)), (11, lambda: planner.tree(FOUR, [0], ashore=bad)),
            ):  # fmt: skip
                self.assertEqual(refusal(call), number)
        for short in ([], [0] * 3, [0] * 5, [1] * 21, [0] * 300):
            for call in (
                lambda: planner.tree(FOUR, [1, 0, 0, 0], ashore=short), lambda: planner.rule(FOUR, 5_000_000_001, ashore=short),
                lambda: planner.preview(FOUR, 9, 3, denominator=0, ashore=short), lambda: planner.compare(FOUR, 12, 5, pairs, ashore=short),
                lambda: planner.Search().open(FOUR, 12, 16, ashore=short), lambda: class_.add(FOUR, 12, ashore=short),
                lambda: planner.solve(FOUR, ashore=short),
            ):  # fmt: skip
                self.assertEqual(refusal(call), 11)
        marked = planner.Graph(4, [edge._replace(mark=REQUIRED) if k == 3 else edge for k, edge in enumerate(FOUR.edges, 1)])
        self.assertEqual(refusal(planner.preview, marked, 9, 1, ashore=FOURTH), 30)
        self.assertEqual(refusal(planner.preview, marked, 3, 1, ashore=FOURTH), 31)
        self.assertEqual(refusal(planner.tree, FOUR, [0, 0, 0, 1_000_001], ashore=FOURTH), 12)
        hunt = planner.Search()
        hunt.open(FOUR, 12)
        self.assertEqual(refusal(hunt.open, FOUR, 12, ashore=wrong[0]), 21)
        for _ in range(8):
            class_.add(FOUR, 12, ashore=FOURTH)
        self.assertEqual(refusal(class_.add, FOUR, 12, ashore=wrong[0]), 41)
        for value in (-1, 256):
            self.assertRaises(ValueError, planner.tree, FOUR, ashore=[0, 0, 0, value])
        self.assertRaises(TypeError, planner.tree, FOUR, ashore=[0, 0, 0, "1"])

    def test_record(self):
        """24 where the list would be refused or goes on past n, where a node keeps a leg that touches a buoy ashore, or carries a due past those afloat."""
        hunt = planner.Search()
        hunt.open(FOUR, 12, 0, 0, [0, 3, 4, 5], ashore=[0, 1, 0, 0])
        record = hunt.record
        self.assertEqual((list(record.carried[:5]), record.stack[3]), ([0, 4, 5, 0, 0], 0b011001))
        fresh = bytes(record)
        changes = (
            lambda: record.ashore.__setitem__(1, 2), lambda: record.ashore.__setitem__(1, 0), lambda: record.ashore.__setitem__(2, 1),
            lambda: record.ashore.__setitem__(0, 1), lambda: record.ashore.__setitem__(4, 1), lambda: record.ashore.__setitem__(19, 1),
            lambda: record.stack.__setitem__(3, 0b011000), lambda: record.stack.__setitem__(3, 0b001001), lambda: record.carried.__setitem__(3, 1),
            lambda: record.stack.__setitem__(0, 0b000001),
        )  # fmt: skip
        for place, change in enumerate(changes):
            with self.subTest(place):
                change()
                before = bytes(record)
                # With buoy 2 afloat nodes carry four dues, and any leg may be struck: such a record stands for another state.
                self.assertEqual(refusal(hunt.tell), None if place == 1 else 24)
                self.assertEqual(bytes(record), before)
            ctypes.memmove(ctypes.addressof(record), fresh, len(fresh))
        record.multipliers[1] = 1_000_001
        self.assertEqual(refusal(hunt.tell), 24)
        closed = planner.Search()
        closed.record.ashore[3] = 1
        self.assertEqual(refusal(closed.tell), 24)


class Solve(unittest.TestCase):
    def test_every_round(self):
        """Against every order of the buoys afloat, required and struck legs among them; the first of the cheapest."""
        seen = Counter()
        for _, graph, ashore, small, numbers, *_ in cases(23, 120, most=7, costs=9):
            tours = {tuple(sorted(numbers[k - 1] for k in tour)): cost for tour, cost in allowed_tours(small).items()}
            answer = planner.solve(graph, ashore=ashore)
            seen[answer.verdict, small.n < graph.n] += 1
            if not tours:
                self.assertEqual(answer.verdict, "none")
                continue
            least = min(tours.values())
            first = min((tour for tour, cost in tours.items() if cost == least), key=lambda tour: sorted(tour, reverse=True))
            self.assertEqual((answer.cost, answer.tour, answer.first), (least, first, True))
            way = planner.order(graph, answer.tour, ashore)
            self.assertEqual(sorted(way[1:]), [vertex for vertex in range(1, graph.n + 1) if not ashore[vertex - 1]])
            self.assertEqual(planner.solve(graph, least - 1, ashore=ashore).verdict, "none")
        self.assertGreater(min(seen[verdict, True] for verdict in ("none", "cost")), 10, seen)

    def test_large(self):
        """Of twenty buoys, and with costs so far apart that they are levelled: the cost is that of the sea without them."""
        source = random.Random(24)
        pairs = list(itertools.combinations(range(1, 21), 2))
        wide = planner.Graph(20, [(a, b, source.randint(-100_000_000, 100_000_000)) for a, b in pairs])
        few = planner.Graph(20, sorted((a, b, source.randint(1, 30)) for a, b in source.sample(pairs, 70)))
        for graph in (distances(source, 20, 999), wide, few):
            ashore = planner.ashore_list(graph, source.sample(range(2, 21), 4))
            small, numbers = without(graph, ashore)
            answer, wanted = planner.solve(graph, ashore=ashore), planner.solve(small)
            self.assertEqual((answer.verdict, answer.cost), (wanted.verdict, wanted.cost))
            if wanted.first and answer.first:
                self.assertEqual(answer.tour, tuple(numbers[k - 1] for k in wanted.tour))
            self.assertEqual(search.lifts(search.between_afloat(graph, ashore), ashore), search.lifts(small))
            self.assertEqual(search.spread(search.between_afloat(graph, ashore)), search.spread(small))
            self.assertEqual(search.guessed_cost(graph, ashore), search.guessed_cost(small))
            ascent = search.ascent_of(search.between_afloat(graph, ashore), ashore)
            dues = ascent.reach(library.HIGHEST_TOUR)
            self.assertEqual([due for due, out in zip(dues, ashore) if out], [0] * 4)
            self.assertEqual([due for due, out in zip(dues, ashore) if not out], search.ascent_of(small).reach(library.HIGHEST_TOUR))

    def test_order(self):
        self.assertEqual(planner.order(FOUR, (1, 2, 4), FOURTH), [1, 2, 3, 1])
        for tour, ashore in (((1, 2, 4), None), ((1, 3, 4, 6), FOURTH), ((1, 2), FOURTH)):
            self.assertRaises(ValueError, planner.order, FOUR, tour, ashore)

    def test_lists(self):
        self.assertEqual(planner.ashore_list(FOUR, [4]), FOURTH)
        self.assertEqual(planner.ashore_list(FOUR, ()), [0] * 4)
        self.assertEqual(planner.ashore_list(FOUR, [1, 3]), [1, 0, 1, 0])
        self.assertEqual((afloat(FOUR, FOURTH), afloat(FOUR, None)), ([1, 2, 3], [1, 2, 3, 4]))
        self.assertEqual((touching(FOUR, FOURTH), touching(FOUR, None)), ({3, 5, 6}, set()))
        for vertex in (0, 5, -1, 300):
            with self.assertRaisesRegex(Faults, rf"^buoy {vertex} is out of range; allowed ashore are buoys 2 to 4$"):
                planner.ashore_list(FOUR, [2, vertex])


class Command(unittest.TestCase):
    def test_text(self):
        for words, said in (
            (("solve", "examples/four.txt", "--ashore", 4), ("cost 9\nround 1-2-3-1\nlegs 1 2 4\nnodes 1\n", "", 0)),
            (("solve", "examples/four.txt", "--ashore", 4, "--ceiling", 8), ("none\nnodes 0\n", "", 1)),
            (("solve", "examples/four.txt", "--ashore", ""), ("cost 12\nround 1-2-3-4-1\nlegs 1 3 4 6\nnodes 1\n", "", 0)),
            (("tree", "examples/four.txt", "--ashore", 4), ("bound 9 ashore 4\n1 1-2 4\n2 1-3 3\n4 2-3 2\n", "", 0)),
            (("tree", "examples/four.txt", "--ashore", 4, "--dues", "0,0,1,7", "--denominator", 2),
                ("bound 18 denominator 2 ashore 4\n1 1-2 4\n2 1-3 3\n4 2-3 2\n", "", 0)),
            (("rule", "examples/four.txt", "--ceiling", 9, "--ashore", 4),
                ("bound 9 ceiling 9 ashore 4\n1 1-2 force\n2 1-3 force\n3 1-4 ashore\n4 2-3 force\n5 2-4 ashore\n6 3-4 ashore\n", "", 0)),
            (("rule", "examples/four.txt", "--ceiling", 8, "--ashore", 4), ("dead\n", "", 1)),
            (("rule", "examples/four.txt", "--ceilings", 10, 8, "--ashore", 4),
                ("bound 9 ceilings 10 8 ashore 4\n10: 1 1-2 force\n10: 2 1-3 force\n10: 4 2-3 force\n8: dead\n", "", 0)),
            (("preview", "examples/four.txt", "--ashore", 4),
                ("bound 9 ashore 4\n1 1-2 required 9 struck no tree\n2 1-3 required 9 struck no tree\n4 2-3 required 9 struck no tree\n", "", 0)),
            (("preview", "examples/four.txt", 3, "required", "--ashore", 4), ("bound 9 ashore 4\n1 1-2 4\n2 1-3 3\n4 2-3 2\n", "", 0)),
            (("compare", "examples/four.txt", "--ceiling", 12, "--pairs", "0/0", "--ashore", 4), ("sweeps  step  nodes\n     0     0  1\n", "", 0)),
            (("class", "examples/four.txt", "examples/four.txt", "--ashore", 4),
                ("examples/four.txt: cost 9 round 1-2-3-1 nodes 1\n" * 2, "", 0)),
        ):
            self.assertEqual(command(*words), said)
        self.assertEqual(command("tree", "examples/sea.txt", "--ashore", "7, 4")[0].splitlines()[0], "bound 314 ashore 4,7")

    def test_json(self):
        file = "examples/four.txt"
        for words, said in (
            (("solve",), {"verdict": "cost", "cost": 9, "round": [1, 2, 3, 1], "legs": [1, 2, 4], "first": True, "nodes": 1}),
            (("tree",), {"bound": 9, "legs": [1, 2, 4]}),
            (("rule", "--ceiling", 9), {"ceiling": 9, "bound": 9, "rulings": ["force", "force", "ashore", "force", "ashore", "ashore"]}),
            (("compare", "--ceiling", 9, "--pairs", "0/0"), {"pairs": [{"sweeps": 0, "step": 0, "nodes": 1}]}),
            (("class",), {"verdict": "cost", "cost": 9, "round": [1, 2, 3, 1], "legs": [1, 2, 4], "nodes": 1}),
        ):
            out, complaints, status = command(words[0], file, *words[1:], "--ashore", 4, "--json")
            self.assertEqual((json.loads(out), complaints, status), ({"file": file, "ashore": [4], **said}, "", 0))

    def test_faults(self):
        """Buoy 1, fewer than three afloat: the library says what is allowed; an unknown buoy, one twice, no number: the command does."""
        verbs = (("solve",), ("tree",), ("rule", "--ceiling", 9), ("preview",), ("compare",), ("class",), ("draw",), ("page",))
        for verb, *more in (*verbs, ("draw", "--no-round"), ("page", "--no-round")):
            wrong = (
                ("1", f"examples/four.txt: {MEANING}\n"), ("4,5", "examples/four.txt: buoy 5 is out of range; allowed ashore are buoys 2 to 4\n"),
                ("2,3", f"examples/four.txt: {MEANING}\n"), ("1,2,3,4", f"examples/four.txt: {MEANING}\n"),
                ("0", "examples/four.txt: buoy 0 is out of range; allowed ashore are buoys 2 to 4\n"),
                ("4,3,4", f"planner {verb}: argument --ashore: buoy 4 stands twice; allowed is each buoy once; see planner {verb} --help\n"),
                ("x", f"planner {verb}: argument --ashore: buoy 'x' is out of range; allowed is 2 to 20; see planner {verb} --help\n"),
                ("256", f"planner {verb}: argument --ashore: buoy '256' is out of range; allowed is 2 to 20; see planner {verb} --help\n"),
            )
            for buoys, said in wrong if verb == "solve" else wrong[:2]:
                self.assertEqual(command(verb, "examples/four.txt", *more, "--ashore", buoys), ("", said, 2), (verb, buoys))
        for verb, *more in (
            ("convert", "-"), ("simulate", "--round", "1,2,4", "--student", 0, "--spread", 0), ("recent", "examples/season.csv", "--last", 2), ("calls",),
        ):  # fmt: skip
            out, complaints, status = command(verb, "examples/four.txt", *more, "--ashore", 4)
            self.assertEqual((out, complaints, status), ("", "planner: unrecognized arguments: --ashore 4; see planner --help\n", 2))

    def test_regrade(self):
        """The record is held to rounds that leave out the buoys ashore, in every chart; of one without such a buoy that is said."""
        with tempfile.TemporaryDirectory() as folder:
            for name, buoys in (("four.txt", "4"), ("three.txt", "3")):
                legs = "1-2 4\n1-3 3\n2-3 2\n" + ("1-4 5\n2-4 6\n3-4 1 required\n" if buoys == "4" else "")
                Path(folder, name).write_text(f"buoys {buoys}\n{legs}")
            Path(folder, "costs.txt").write_text("four.txt 9\nthree.txt 9\n")
            out, _, status = command("regrade", folder, "--ashore", 4)
            wrong = "three.txt: not read: buoy 4 is out of range; allowed ashore are buoys 2 to 3"
            self.assertEqual((out.splitlines(), status), (["four.txt: right: 9", wrong, "2 in all: 1 right, 1 not read"], 2))
            out, _, status = command("regrade", folder, "--ashore", 3)
            self.assertEqual((out.splitlines()[1:], status), ([f"three.txt: {MEANING}", "2 in all: 1 too cheap, 1 refused"], 1))


class Pictures(unittest.TestCase):
    def test_marks(self):
        """A buoy ashore is hollow and dashed, its legs have a dash of their own whatever their mark, and the legend says so."""
        graph = planner.load(EXAMPLES / "sea.txt")
        ashore = planner.ashore_list(graph, [4, 7])
        touched = touching(graph, ashore)
        self.assertIn(3, touched)
        self.assertEqual(graph.edges[2].mark, REQUIRED)
        for ceiling in (None, 400):
            found = planner.rule(graph, ceiling, ashore=ashore) if ceiling else None
            picture = Drawing("t", graph, planner.solve(graph, ashore=ashore), found, ceiling, ashore)
            svg = picture.svg()
            root = ElementTree.fromstring(svg)
            self.assertEqual({k for k, kind in enumerate(picture.kinds, 1) if kind == "ashore"}, touched)
            self.assertEqual(svg.count(STYLES["ashore"][1]), len(touched) + 1)
            self.assertEqual(svg.count(HAULED_OUT), 3)
            said = [text.text for text in root.iter(f"{SVG}text")]
            for words in (f"to a buoy ashore: {len(touched)}", "buoy ashore: 2", "t: 11 buoys, 2 ashore, 27 legs"):
                self.assertIn(words, said)
            self.assertNotIn(STYLES["required"][1], svg)
        plain = Drawing("t", graph, planner.solve(graph), None, None).svg()
        self.assertEqual((plain.count(HAULED_OUT), plain.count(STYLES["ashore"][1]), "ashore" in plain), (0, 0, False))

    def test_on_a_circle(self):
        """Without positions those ashore stand behind the round's last buoy; without a round all in their order."""
        graph = planner.Graph(5, [(a, b, a * b) for a, b in itertools.combinations(range(1, 6), 2)])
        ashore = [0, 1, 0, 0, 0]
        answer = planner.solve(graph, ashore=ashore)
        places = Drawing("t", graph, answer, None, None, ashore).places
        self.assertEqual(places.keys(), set(range(1, 6)))
        order = planner.order(graph, answer.tour, ashore)
        self.assertNotIn(2, order)
        around = Drawing("t", graph, None, None, None, ashore).places
        self.assertEqual(places[2], around[5])

    def test_command(self):
        with tempfile.TemporaryDirectory() as folder:
            out = Path(folder, "sea.svg")
            self.assertEqual(command("draw", "examples/sea.txt", out, "--ashore", "4,7", "--ceiling", 400), ("", "", 0))
            self.assertEqual(out.read_text("utf-8").count(HAULED_OUT), 3)
            out = Path(folder, "sea.html")
            self.assertEqual(command("page", "examples/sea.txt", "-o", out, "--ashore", "4,7"), ("", "", 0))
            self.assertEqual(out.read_text("utf-8").count('class="buoy out"'), 3)

    def test_page(self):
        """A digit of its own for a leg that touches a buoy ashore at every ceiling; it has no previews, and the words say why."""
        graph = planner.load(EXAMPLES / "sea.txt")
        ashore = planner.ashore_list(graph, [4, 7])
        showing = Showing(graph, None, 1, ashore)
        page = Page("t", showing, planner.solve(graph, ashore=ashore), showing.stops(*showing.ends(None, None)))
        facts, touched = page.facts(), touching(graph, ashore)
        self.assertEqual((facts["kinds"], facts["words"][OUT]), (KINDS, "ashore"))
        for stop in facts["stops"]:
            found = planner.rule(graph, stop["ceiling"], ashore=ashore)
            digits = None if found is None else "".join(str(OUT if k in touched else ruling) for k, ruling in enumerate(found.rulings, 1))
            self.assertEqual(stop["rulings"], digits)
            self.assertEqual(stop["counts"], digits and [digits.count(str(kind)) for kind in range(len(KINDS))])
        for number, leg in enumerate(facts["legs"], 1):
            bounds = [leg["required"], leg["struck"]]
            if number in touched:
                self.assertEqual([leg["from"], *bounds], ["buoy ashore", "\N{EN DASH}", "\N{EN DASH}"])
            elif graph.edges[number - 1].mark == FREE:
                found = [planner.preview(graph, number, mark, ashore=ashore) for mark in (1, 2)]
                self.assertEqual(bounds, [str(each.bound) if each else "no tree" for each in found])
        html = page.html()
        self.assertIn("11 buoys, 2 ashore, 27 legs", html)
        self.assertIn(f'to a buoy ashore <b id="count-ashore">{len(touched)}</b>', html)
        self.assertIn("buoy ashore <b>2</b>", html)
        self.assertIn("<dt>ashore</dt>", html)
        self.assertEqual(len(re.findall(r'<path class="core"|<line [^>]*class="core"', html)), 0)
        plain = Showing(graph)
        html = Page("t", plain, None, plain.stops(*plain.ends(None, None))).html()
        self.assertFalse("<dt>ashore</dt>" in html or "to a buoy ashore" in html or "buoy out" in html)
