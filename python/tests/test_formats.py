"""Seas in files: tables, CSV, TSPLIB, a chart's bytes; faults by their messages; the form told by the contents."""
import itertools
import os
import random
import struct
import tempfile
import unittest
from collections import Counter
from pathlib import Path

import planner
from planner import formats
from planner.faults import Faults
from planner.formats import tsplib
from planner.formats.commas import commas_text, read_commas
from planner.formats.table import read_table, table_text
from planner.formats.tsplib import read_tsplib, tsplib_text
from support import EXAMPLES, FOUR, ROOT, SEAS, full_graph, random_graph


def faults(call, *words):
    """What is wrong, in lines."""
    try:
        call(*words)
    except Faults as found:
        return list(found.lines)
    return []


class Tables(unittest.TestCase):
    CASES = (
        ("", "t: the line 'buoys N' is missing; N is 3 to 20"),
        ("# c\n1-2 3", "t:2: the line 'buoys N' is missing; it stands before all other lines, N is 3 to 20"),
        ("buoys 2", "t:1: number of buoys 2 is out of range; allowed is 3 to 20"),
        ("buoys 21", "t:1: number of buoys 21 is out of range; allowed is 3 to 20"),
        ("buoys many", "t:1: number of buoys 'many' is not a whole number; allowed is 3 to 20"),
        ("buoys", "t:1: 'buoys' needs one number, as in 'buoys 9'"),
        ("buoys 3\nbuoys 3", "t:2: 'buoys' stands twice; allowed is one such line"),
        ("buoys 3\n1-4 5", "t:2: buoy 4 is out of range; allowed is 1 to 3"),
        ("buoys 3\n0-3 5", "t:2: buoy 0 is out of range; allowed is 1 to 3"),
        ("buoys 3\n3-1 5", "t:2: leg 3-1 does not name the smaller buoy first; allowed is a-b with a below b"),
        ("buoys 3\n2-2 5", "t:2: leg 2-2 does not name the smaller buoy first; allowed is a-b with a below b"),
        ("buoys 3\n1-2", "t:2: leg 1-2 has 0 words behind it; allowed are a cost and at most one mark"),
        ("buoys 3\n1-2 5 struck off", "t:2: leg 1-2 has 3 words behind it; allowed are a cost and at most one mark"),
        ("buoys 3\n1-2 5.5", "t:2: cost '5.5' is not a whole number; allowed is -100000000 to 100000000"),
        ("buoys 3\n1-2 100000001", "t:2: cost 100000001 is out of range; allowed is -100000000 to 100000000"),
        ("buoys 3\n1-2 -100000001", "t:2: cost -100000001 is out of range; allowed is -100000000 to 100000000"),
        ("buoys 3\n1-2 \u0665", "t:2: cost '\u0665' is not a whole number; allowed is -100000000 to 100000000"),
        ("buoys 3\n1-2 5 shut", "t:2: mark 'shut' is unknown; allowed are 'required', 'struck', or none for a free leg"),
        ("buoys 3\n1-2 5\n\n1-2 6", "t:4: leg 1-2 stands twice, first on line 2; allowed is one leg for a pair of buoys"),
        ("buoys 3\nleg 1 2", "t:2: 'leg' is unknown; a line is 'buoys N', a leg as '1-2 40', 'at BUOY X Y' or a comment '# ..'"),
        ("buoys 3\nat 1 2", "t:2: 'at' needs a buoy and two numbers, as in 'at 3 120 45.5'"),
        ("buoys 3\nat 4 2 2", "t:2: buoy 4 is out of range; allowed is 1 to 3"),
        ("buoys 3\nat 1 2 x", "t:2: position 'x' is not a number; allowed are numbers such as 120 or -4.25"),
        ("buoys 3\nat 1 2 2\nat 1 3 3", "t:3: buoy 1 has a position already; allowed is one"),
        ("buoys 3\n1-2 x\n1-3 5\n2-1 5", "t:2: cost 'x' is not a whole number; allowed is -100000000 to 100000000\n"
         "t:4: leg 2-1 does not name the smaller buoy first; allowed is a-b with a below b"),
    )

    def test_messages(self):
        for text, message in self.CASES:
            with self.subTest(text):
                self.assertEqual("\n".join(faults(read_table, text, "t")), message)

    def test_free_layout(self):
        text = "\ufeff# a sea\r\n\r\nbuoys 3 # three\r\n  at 2 1.5 -3\r\n1-3\t-7   struck# far\r\n"
        graph = formats.parse(text.encode(), "t")
        self.assertEqual((graph, graph.positions), (planner.Graph(3, [(1, 3, -7, 2)]), {2: (1.5, -3.0)}))

    def test_other_systems(self):
        """Ends of lines of any system, and words in capitals."""
        graph = planner.Graph(3, [(1, 2, 4, 1), (1, 3, 3, 2), (2, 3, 1)], {1: (1.0, 2.0)})
        text = "Buoys 3\nAt 1 1 2\n1-2 4 Required\n1-3 3 STRUCK\n2-3 1"
        for end in ("\n", "\r\n", "\r"):
            read = formats.parse(text.replace("\n", end).encode(), "t.txt")
            self.assertEqual((read, read.positions), (graph, graph.positions))

    def test_at_most_190_legs(self):
        full = full_graph(20, lambda a, b: 1)
        self.assertEqual(read_table(table_text(full), "t").m, 190)
        self.assertRegex(faults(read_table, table_text(full) + "7-9 3\n", "t")[0], "t:192: leg 7-9 stands twice")

    def test_long_input_is_not_echoed(self):
        """A fault says where and what, and shows some 60 characters at most, each on one line."""
        long, digits = "x" * 500_000, "1" * 500_000
        for text in (long, f"buoys {long}", f"buoys {digits}", f"buoys 3\n{long}", f"buoys 3\n1-2 {digits}", f"buoys 3\n{digits}-2 4",
            f"buoys 3\n1-2 4 {long}",
                     f"buoys 3\nat 1 2 {digits}", f"buoys 3\n1-2 {long}", "buoys 3\n1-2 4 " + "a " * 200_000, "buoys 3\n1-2 a\vb\x85c",
                     f"a,b,cost\n1,2,{long}",
                     f"a,b,cost\n1,2,3,{digits}", f"a,b,{long}", "a,b,cost\n" + "1," * 99_999, f"a,b,cost\n1,2,\"{long}\n", f"NAME: {long}",
                     f"TYPE: {long}", f"NAME: a\n{long}",
                     f"DIMENSION: {digits}", f"DIMENSION: 3\nEDGE_WEIGHT_TYPE: {long}", f"NAME: x\n{long.upper()}: 3",
                     f"{long.upper()}_SECTION"):  # fmt: skip
            found = faults(formats.parse, text.encode(), "t")
            self.assertTrue(found, text[:40])
            for line in found:
                self.assertLess(len(line), 260, line[:300])
                self.assertTrue(line.isprintable(), line[:300])

    def test_many_faults(self):
        found = faults(read_table, "buoys 3\n" + "x\n" * 100_000, "t")
        self.assertEqual((len(found), found[-1]), (101, "and 99900 more"))


class Commas(unittest.TestCase):
    def test_reading(self):
        text = '\ufeff"a","b","cost","mark"\r\n1,2,40\r\n\r\n2, 3 ,-5,required\r\n1,3,"7",2\r\n2,4,1,struck\r\n3,4,2,\r\n'
        graph = planner.Graph(4, [(1, 2, 40), (2, 3, -5, 1), (1, 3, 7, 2), (2, 4, 1, 2), (3, 4, 2, 0)])
        self.assertEqual(formats.parse(text.encode(), "t"), graph)
        self.assertEqual(read_commas("A,B,Cost\n1,2,3\n2,3,4\n", "t"), planner.Graph(3, [(1, 2, 3), (2, 3, 4)]))
        self.assertEqual(read_commas("# buoys 5\na,b,cost,mark\n1,2,3,free\n", "t"), planner.Graph(5, [(1, 2, 3)]))

    def test_spreadsheets(self):
        """Semicolons and tabs, empty columns, capitals, ends of lines of any system."""
        graph = planner.Graph(5, [(1, 2, 40), (2, 3, -5, 1), (1, 3, 7, 2)])
        text = "# buoys 5,,,\nA,B,Cost,Mark,,\n1,2,40,Free,,\n,,,,,\n2,3,-5,REQUIRED,,\n1,3,7,2,,\n"
        for comma, end in itertools.product(",;\t", ("\n", "\r\n", "\r")):
            self.assertEqual(formats.parse(text.replace(",", comma).replace("\n", end).encode(), "t"), graph)
        self.assertEqual(formats.parse(b'"a";"b";"cost"\n"1";"2";"3"\n2;3;4\n', "t"), planner.Graph(3, [(1, 2, 3), (2, 3, 4)]))

    def test_writing(self):
        self.assertEqual(commas_text(planner.Graph(3, [(1, 2, 3), (2, 3, 4, 1)])), "a,b,cost,mark\n1,2,3,free\n2,3,4,required\n")
        self.assertEqual(commas_text(planner.Graph(3)), "# buoys 3\na,b,cost,mark\n")

    def test_messages(self):
        head = "a,b,cost,mark\n"
        for text, message in (
            ("1,2,3\n", "t:1: the header is missing; allowed is a first row 'a,b,cost,mark' or 'a,b,cost'"),
            ("a,b\n1,2\n", "t:1: the header is missing; allowed is a first row 'a,b,cost,mark' or 'a,b,cost'"),
            (head, "t: the legs name 0 buoys; allowed is 3 to 20, or a line '# buoys N' before the legs"),
            (head + "1,2,3\n", "t: the legs name 2 buoys; allowed is 3 to 20, or a line '# buoys N' before the legs"),
            (head + "1,21,3\n", "t:2: buoy 21 is out of range; allowed is 1 to 20"),
            ("# buoys 4\n" + head + "1,5,3\n", "t:3: buoy 5 is out of range; allowed is 1 to 4"),
            ("# buoys 2\n" + head + "1,2,3\n", "t:1: number of buoys 2 is out of range; allowed is 3 to 20"),
            (head + "2,1,3\n", "t:2: leg 2-1 does not name the smaller buoy first; allowed is a-b with a below b"),
            (head + "1,2,x\n", "t:2: cost 'x' is not a whole number; allowed is -100000000 to 100000000"),
            (head + "1,2,3,shut\n", "t:2: mark 'shut' is unknown; allowed are 'free', 'required', 'struck', 0, 1, 2 or nothing"),
            (head + "1,2\n", "t:2: a row has 2 cells; allowed are a, b, cost and at most a mark"),
            (head + "1,2,3\n1,2,4\n", "t:3: leg 1-2 stands twice, first on line 2; allowed is one leg for a pair of buoys"),
        ):
            with self.subTest(text):
                self.assertEqual("\n".join(faults(read_commas, text, "t")), message)


HEAD = "NAME: t\nTYPE: TSP\nDIMENSION: 3\n"


class Tsplib(unittest.TestCase):
    def costs(self, text):
        return [edge.cost for edge in read_tsplib(text, "t").edges]

    def points(self, kind, *points):
        lines = "".join(f"{city} {x} {y}\n" for city, (x, y) in enumerate(points, 1))
        return f"NAME : t\nTYPE : TSP\nDIMENSION : {len(points)}\nEDGE_WEIGHT_TYPE : {kind}\nNODE_COORD_SECTION\n{lines}EOF\n"

    def test_planes(self):
        """By hand: 5; sqrt(1.25) = 1.118; from (3, 4) to (0.5, 1): sqrt(15.25) = 3.905. Halves go up: (0, 0) to (1.5, 2) is 2.5."""
        points = ((0, 0), (3, 4), (0.5, 1))
        self.assertEqual(self.costs(self.points("EUC_2D", *points)), [5, 1, 4])
        self.assertEqual(self.costs(self.points("CEIL_2D", *points)), [5, 2, 4])
        self.assertEqual(self.costs(self.points("EUC_2D", (0, 0), (1.5, 2), ("-3.0e+00", "+4.e0"))), [3, 5, 5])
        self.assertEqual(self.costs(self.points("CEIL_2D", (0, 0), (1.5, 2), (-3, 4))), [3, 5, 5])

    def test_att(self):
        """By hand: sqrt(10 / 10) = 1 and sqrt(40 / 10) = 2 stay; sqrt(25 / 10) = 1.58, nearest 2; sqrt(13 / 10) = 1.14, nearest 1 is below, so 2."""
        self.assertEqual(self.costs(self.points("ATT", (0, 0), (1, 3), (2, 6))), [1, 2, 1])
        self.assertEqual(self.costs(self.points("ATT", (0, 0), (3, 4), (2, 3))), [2, 2, 1])
        self.assertEqual(tsplib.att((6734, 1453), (2233, 10)), 1495)  # of att48: sqrt(22341250 / 10) = 1494.7
        self.assertEqual(tsplib.att((6734, 1453), (5530, 1424)), 381)  # sqrt(1450457 / 10) = 380.85

    def test_geo(self):
        """burma14's first row is known; by hand: 10 degrees on the equator are 3.141592 / 18 * 6378.388 = 1113.2, so 1114."""
        known = [153, 510, 706, 966, 581, 455, 70, 160, 372, 157, 567, 342, 398]
        self.assertEqual([edge.cost for edge in planner.load(SEAS / "burma14.tsp").edges[:13]], known)
        self.assertEqual(tsplib.geo((0, 0), (0, 10)), 1114)
        self.assertEqual(tsplib.geo((0, 0), (0, 0.30)), 56)  # half a degree: 55.66
        self.assertEqual(tsplib.geo((0, 0), (0, -0.30)), 56)
        self.assertEqual(tsplib.geo((12.34, 56.78), (12.34, 56.78)), 1)  # as TSPLIB's formula has it
        self.assertEqual(tsplib.geo((0, 0), (0, 180)), int(6378.388 * 3.141592 + 1))

    def test_optima(self):
        """The optimal lengths that TSPLIB states."""
        for name, length in (("burma14", 3323), ("ulysses16", 6859), ("gr17", 2085)):
            answer = planner.solve(SEAS / f"{name}.tsp")
            self.assertEqual((answer.verdict, answer.cost), ("cost", length))

    def test_matrices(self):
        for form, numbers in (
            ("FULL_MATRIX", "0 1 2\n1 0 3\n2 3 0"), ("FULL_MATRIX", "9999 1 2 1 9999 3 2\n3\n\n9999"),
            ("UPPER_ROW", "1 2\n3"), ("UPPER_ROW", "1\n2 3"), ("LOWER_DIAG_ROW", "0 1 0 2 3 0"),
            ("LOWER_DIAG_ROW", "0\n1 0\n2 3 0\nEOF\nanything"),
        ):  # fmt: skip
            text = f"{HEAD}EDGE_WEIGHT_TYPE: EXPLICIT\nEDGE_WEIGHT_FORMAT: {form}\nEDGE_WEIGHT_SECTION\n{numbers}\n"
            self.assertEqual(self.costs(text), [1, 2, 3], numbers)

    def test_other_systems(self):
        """Keywords and their values in small letters, ends of lines of any system, no EOF."""
        text = self.points("EUC_2D", (0, 0), (3, 4), (0.5, 1))
        for changed in (text.lower(), text.replace("EOF\n", ""), text.replace("TYPE :", "Type:"), text.lower().replace("\n", "\r")):
            self.assertEqual([edge.cost for edge in formats.parse(changed.encode(), "t").edges], [5, 1, 4])

    def test_positions_and_fixed_edges(self):
        text = f"{HEAD}EDGE_WEIGHT_TYPE: EXPLICIT\nEDGE_WEIGHT_FORMAT: UPPER_ROW\nDISPLAY_DATA_TYPE: TWOD_DISPLAY\n"
        text += "FIXED_EDGES_SECTION\n3 1\n-1\nEDGE_WEIGHT_SECTION\n1 2 3\n"
        graph = read_tsplib(text + "DISPLAY_DATA_SECTION\n1 0 0\n3 2 2\n2 1.5 -1\nEOF\n", "t")
        self.assertEqual(graph, planner.Graph(3, [(1, 2, 1), (1, 3, 2, 1), (2, 3, 3)]))
        self.assertEqual(graph.positions, {1: (0, 0), 2: (1.5, -1), 3: (2, 2)})
        self.assertEqual(planner.load(SEAS / "burma14.tsp").positions[1], (96.10, 16.47))

    def test_messages(self):
        explicit = HEAD + "EDGE_WEIGHT_TYPE: EXPLICIT\n"
        upper = explicit + "EDGE_WEIGHT_FORMAT: UPPER_ROW\nEDGE_WEIGHT_SECTION\n"
        full = explicit + "EDGE_WEIGHT_FORMAT: FULL_MATRIX\nEDGE_WEIGHT_SECTION\n"
        for text, message in (
            ("NAME: t\nTYPE: ATSP\n", "t:2: TYPE 'ATSP' is not read; allowed is TSP"),
            ("NAME: t\nDIMENSION: 22\n", "t:2: DIMENSION 22 is out of range; allowed is 3 to 20"),
            ("NAME: t\nDIMENSION: x\n", "t:2: DIMENSION 'x' is not a whole number; allowed is 3 to 20"),
            ("NAME: t\nTYPE: TSP\n", "t: the line 'DIMENSION: ..' is missing"),
            (HEAD, "t: the line 'EDGE_WEIGHT_TYPE: ..' is missing"),
            (HEAD + "DIMENSION: 3\n", "t:4: DIMENSION stands twice; allowed is one"),
            (HEAD + "EDGE_WEIGHT_TYPE: MAN_2D\n",
             "t:4: EDGE_WEIGHT_TYPE 'MAN_2D' is not read; allowed is EUC_2D or CEIL_2D or ATT or GEO or EXPLICIT"),
            (HEAD + "CAPACITY: 4\n",
             "t:4: keyword CAPACITY is not read; allowed are NAME, COMMENT, TYPE, DIMENSION, EDGE_WEIGHT_TYPE, EDGE_WEIGHT_FORMAT, "
             "NODE_COORD_TYPE, DISPLAY_DATA_TYPE"),
            (HEAD + "TOUR_SECTION\n",
             "t:4: section TOUR_SECTION is not read; allowed are NODE_COORD_SECTION, EDGE_WEIGHT_SECTION, DISPLAY_DATA_SECTION, "
             "FIXED_EDGES_SECTION"),
            (HEAD + "what is this\n", "t:4: 'what is this' is no line of TSPLIB; allowed is 'KEYWORD: VALUE' or a section"),
            (explicit, "t: the line 'EDGE_WEIGHT_FORMAT: ..' is missing"),
            (explicit + "EDGE_WEIGHT_FORMAT: LOWER_ROW\n",
             "t:5: EDGE_WEIGHT_FORMAT 'LOWER_ROW' is not read; allowed is FUNCTION or FULL_MATRIX or UPPER_ROW or LOWER_DIAG_ROW"),
            (explicit + "EDGE_WEIGHT_FORMAT: FUNCTION\n",
             "t:5: EDGE_WEIGHT_FORMAT FUNCTION does not go with EXPLICIT; allowed is FULL_MATRIX or UPPER_ROW or LOWER_DIAG_ROW"),
            (explicit + "EDGE_WEIGHT_FORMAT: UPPER_ROW\n", "t: EDGE_WEIGHT_SECTION is missing"),
            (upper + "1 2\n", "t:7: EDGE_WEIGHT_SECTION has 2 numbers; allowed are 3 here"),
            (upper + "1 2 3 4\n", "t:7: EDGE_WEIGHT_SECTION has 4 numbers; allowed are 3 here"),
            (upper + "1 2 3.5\n", "t:7: weight '3.5' is not a whole number; allowed is -100000000 to 100000000"),
            (upper + "1 2\n100000001\n", "t:8: weight 100000001 is out of range; allowed is -100000000 to 100000000"),
            (full + "0 1 2\n1 0 3\n2 4 0\n", "t:9: the matrix has 3 one way and 4 the other between 2 and 3; a leg costs the same both ways"),
            (upper + "1 2 3\nFIXED_EDGES_SECTION\n1 2 3\n-1\n",
                "t:9: FIXED_EDGES_SECTION has an odd number of cities; allowed are pairs, then -1"),
            (upper + "1 2 3\nFIXED_EDGES_SECTION\n2 2\n-1\n", "t:9: a fixed edge from 2 to itself; allowed are two cities"),
            (self.points("EUC_2D", (0, 0), (1, 1)), "t:3: DIMENSION 2 is out of range; allowed is 3 to 20"),
            (self.points("EUC_2D", (0, 0), (1, "x"), (2, 2)),
                "t:7: coordinate 'x' is not a number; allowed are numbers such as 120, -4.25 or 6.5e+02"),
            (self.points("EUC_2D", (0, 0), (1, "1e99"), (2, 2)),
                "t:7: coordinate '1e99' is not a number; allowed are numbers such as 120, -4.25 or 6.5e+02"),
            (self.points("EUC_2D", (0, 0), (0, 1), (100_000_001, 0)), "t: cities 1 and 3 lie 100000001 apart; allowed is at most 100000000"),
            (self.points("EUC_2D", (0, 0), (0, 1), (1, 0)).replace("3 1 0", "2 1 0"), "t:8: city 2 stands twice; allowed is one line for each"),
            (HEAD + "EDGE_WEIGHT_TYPE: EUC_2D\n", "t: NODE_COORD_SECTION is missing"),
        ):
            with self.subTest(text):
                self.assertEqual("\n".join(faults(read_tsplib, text, "t")), message)

    def test_writing(self):
        self.assertEqual(tsplib_text(planner.Graph(3, [(2, 3, 3, 1), (1, 2, 1), (1, 3, -2)]), "t"),
                         "NAME: t\nTYPE: TSP\nDIMENSION: 3\nEDGE_WEIGHT_TYPE: EXPLICIT\n"
                         "EDGE_WEIGHT_FORMAT: UPPER_ROW\nDISPLAY_DATA_TYPE: NO_DISPLAY\n"
                         "EDGE_WEIGHT_SECTION\n1 -2\n3\nFIXED_EDGES_SECTION\n2 3\n-1\nEOF\n")  # fmt: skip
        for edges, what in (([(1, 2, 1), (2, 3, 3)], "leg 1-3 is missing"), ([(1, 2, 1), (1, 3, 2, 2), (2, 3, 3)], "leg 1-3 is struck")):
            self.assertIn(f"{what}, which TSPLIB cannot say", faults(tsplib_text, planner.Graph(3, edges), "t")[0])


class Damaged(unittest.TestCase):
    """Files of every form with pieces lost, added and changed: a sea, a refusal or faults in short lines, and nothing else."""

    PIECES = (
        *(b"\n", b" ", b",", b"#", b":", b'"', b"-", b"\r", b"\0", b"\xff", b"\x85", b"\xc2\x85", b"-1", b"0", b"1", b"20", b"21", b"9" * 12,
            b"1e300", b"1e-99", b"nan"),
        *(b"EOF", b"buoys", b"at 1 2 3", b"a,b,cost", b"# buoys 5\n", b"DIMENSION: 3\n", b"EDGE_WEIGHT_TYPE: ATT\n", b"EDGE_WEIGHT_TYPE: GEO\n"),
        *(b"EDGE_WEIGHT_FORMAT: FULL_MATRIX\n", *(section.encode() for section in tsplib.SECTIONS)),
    )

    def file(self, source):
        """A file of any form, sound so far."""
        if source.random() < 0.2:
            return source.choice([path.read_bytes() for path in sorted(SEAS.iterdir())])
        whole = source.random() < 0.5
        graph = full_graph(source.randint(3, 12), lambda *_: source.randint(-99, 99)) if whole else random_graph(source, most=12)
        if source.random() < 0.5:
            graph = planner.Graph(graph.n, graph.edges, {v: (source.randint(0, 9), source.randint(0, 9)) for v in range(1, graph.n + 1)})
        return formats.written(graph, source.choice(formats.FORMS if whole else formats.FORMS[:3]))

    def damage(self, source, data):
        """Less, more or other bytes at one place."""
        place, piece = source.randrange(len(data) + 1), source.choice((b"", source.choice(self.PIECES), source.randbytes(3)))
        data[place : place + source.choice((0, 1, 1, 5, 50))] = piece

    def test_damaged(self):
        source, seen = random.Random(17), Counter()
        for _ in range(1500):
            data = bytearray(self.file(source))
            for _ in range(source.choice((0, 1, 1, 2, 5, 20))):
                self.damage(source, data)
            try:
                graph = formats.parse(bytes(data), source.choice(("a.txt", "a.chart", "a.csv", "a.tsp", "a")))
                planner.check(graph)
                self.assertEqual(read_table(table_text(graph), "t"), graph)
                seen["sea"] += 1
            except (Faults, planner.Refused) as error:
                self.assertTrue(all(line.isprintable() and len(line) < 260 for line in str(error).splitlines()), str(error)[:400])
                seen[type(error).__name__] += 1
        self.assertGreater(min(seen.values()), 100, seen)
        self.assertEqual(len(seen), 3)


class Forms(unittest.TestCase):
    def test_round_trips(self):
        """Between all forms: the same chart, and the same positions where a form has them."""
        source = random.Random(5)
        for turn in range(120):
            if turn % 2:
                graph = random_graph(source, costs=100_000_000)
            else:
                n = source.randint(3, 20)
                graph = full_graph(n, lambda *_: source.randint(-100_000_000, 100_000_000))
                graph = planner.Graph(n, [edge._replace(mark=source.choice((0, 0, 1))) for edge in graph.edges])
            positions = {vertex: (source.randint(-99, 99) / 4, source.uniform(-1e6, 1e6)) for vertex in range(1, graph.n + 1)}
            graph = planner.Graph(graph.n, graph.edges, positions)
            forms = formats.FORMS if turn % 2 == 0 else formats.FORMS[:3]
            for first, second in itertools.product(forms, forms):
                once = formats.parse(formats.written(graph, first), "x")
                twice = formats.parse(formats.written(once, second), "y")
                self.assertEqual((once, twice), (graph, graph))
            for form in {"table", "tsplib"} & set(forms):
                back = formats.parse(formats.written(graph, form), "x").positions
                for vertex, place in positions.items():
                    self.assertTrue(all(abs(p - q) < 1e-9 for p, q in zip(place, back[vertex])))

    def test_told_by_contents(self):
        """Whatever the name: a table named .chart, a chart named .txt, each form under each name."""
        with tempfile.TemporaryDirectory() as folder:
            for form, ending in itertools.product(formats.FORMS, (".txt", ".chart", ".csv", ".tsp", "")):
                path = Path(folder, f"a{ending}")
                path.write_bytes(formats.written(FOUR, form))
                self.assertEqual(planner.load(path), FOUR, (form, ending))

    def test_save(self):
        with tempfile.TemporaryDirectory() as folder:
            for ending, form in formats.ENDINGS.items():
                path = Path(folder, f"a{ending}")
                planner.save(FOUR, path)
                self.assertEqual(formats.form_of(path.read_bytes(), ""), form)
                planner.save(FOUR, path, "csv")
                self.assertEqual(path.read_text(), commas_text(FOUR))
            self.assertIn("the name does not say the form", faults(planner.save, FOUR, Path(folder, "a.dat"))[0])
            self.assertEqual(faults(planner.save, FOUR, path, "tape"), ["the form 'tape' is unknown; allowed are table, chart, csv, tsplib"])
            for edge in ((1, 2, 3, 7), (2, 1, 3), (1, 2, 100_000_001)):
                with self.subTest(edge), self.assertRaises(planner.Refused) as raised:
                    planner.save(planner.Graph(4, [edge]), Path(folder, "b.txt"))
                self.assertEqual(raised.exception.number, 15)
            self.assertFalse(Path(folder, "b.txt").exists())

    def test_examples(self):
        self.assertEqual(formats.written(planner.load(EXAMPLES / "sea.txt"), "chart"), (EXAMPLES / "sea.chart").read_bytes())
        self.assertEqual(planner.load(EXAMPLES / "four.txt"), FOUR)
        self.assertEqual(struct.pack("<q", 12) + formats.written(FOUR, "chart"), (ROOT / "crates/hunt/stdin").read_bytes())

    def test_what_is_no_sea(self):
        """Each in one line."""
        with tempfile.TemporaryDirectory() as folder:
            path = Path(folder, "a.txt")
            for data, message in (
                (b"", "the file is empty; allowed is a sea as a table, a chart's bytes, CSV or TSPLIB"),
                (b"\xff\xfe\0", "a text in UTF-16; save it in UTF-8"),
                ("buoys 3".encode("utf-16"), "a text in UTF-16; save it in UTF-8"),
                (b"\x7fELF\0\0", "no text; as a chart's bytes refused 1 at 0: under 8 bytes"),
                (b"\0" * 99, "no text; as a chart's bytes refused 2 at 0: n not 3 to 20"),
                (b"# " + b"x" * (1 << 20), "the text is longer than 1048576 bytes; no sea is"),
            ):
                path.write_bytes(data)
                self.assertEqual(faults(planner.load, path), [f"{path}: {message}"])
            self.assertEqual(faults(planner.load, folder), [f"{folder}: Is a directory"])
            self.assertEqual(faults(planner.load, f"{folder}/none"), [f"{folder}/none: No such file or directory"])
            self.assertEqual(faults(planner.load, "a\0b"), ["a?b: embedded null byte"])
            self.assertEqual(faults(planner.load, "/dev/zero"), ["/dev/zero: no text; as a chart's bytes refused 2 at 0: n not 3 to 20"])
            if os.getuid():
                path.chmod(0)
                self.assertEqual(faults(planner.load, path), [f"{path}: Permission denied"])

    def test_named_for_a_form(self):
        """Where the contents fit no form, the name says what is missing."""
        for name, message in (
            ("a.csv", "a.csv:1: the header is missing; allowed is a first row 'a,b,cost,mark' or 'a,b,cost'"),
            ("A.TSP", "A.TSP:1: 'hello sea' is no line of TSPLIB; allowed is 'KEYWORD: VALUE' or a section"),
            ("a.txt", "a.txt:1: the line 'buoys N' is missing; it stands before all other lines, N is 3 to 20"),
        ):
            self.assertEqual(faults(formats.parse, b"hello sea\n", name), [message])
        with self.assertRaises(TypeError):
            planner.load(5)  # and not whatever is open under that number

    def test_refusals_by_name_and_head(self):
        """What is named a chart, or begins like one, is refused by the library; Latin-1 in a comment is no hindrance."""
        for data, name, number in ((b"", "a.chart", 1), (b"hello, sea", "a.chart", 2), (b"\x04\0\x09\0\x06\0\0\0", "a.txt", 4),
            (b"\xff\xfe\0", "a.chart", 1),
                                   (b"\x04\0", "a.txt", 1), (b"\0" * (2 << 20), "a.chart", 2)):  # fmt: skip
            with self.assertRaises(planner.Refused) as raised:
                formats.parse(data, name)
            self.assertEqual(raised.exception.number, number, data[:20])
        self.assertEqual(formats.parse("# Überfahrt\nbuoys 3\n".encode("latin-1"), "t"), planner.Graph(3))
