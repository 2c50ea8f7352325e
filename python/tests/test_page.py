"""The page for a class: what is written in it against the calls, that it needs nothing else, and in a browser each look, word, key and number."""
import base64
import hashlib
import itertools
import json
import random
import re
import socket
import sys
import tempfile
import unittest
from fractions import Fraction
from html.parser import HTMLParser
from pathlib import Path
from unittest import mock

import planner
from browser import Browser, chromium
from planner.ashore import KINDS
from planner.drawing import STYLES
from planner.library import CEILINGS, MEANINGS
from planner.page import NOTHING, WORDS, Page, embedded
from planner.showing import Showing, Stop
from support import EXAMPLES, FOUR, ROOT, distances, planner as command, random_graph

SEA = planner.load(EXAMPLES / "sea.txt")
SAFE = 2**53 - 1  # whole numbers up to here are exact in a script


def page_of(graph, high=None, low=None, name="t.txt", dues=None, answer=None):
    """A page with its round."""
    showing = Showing(graph, dues)
    return Page(name, showing, answer or planner.solve(graph), showing.stops(*showing.ends(high, low)))


def words_at(graph, ceiling, dues=None):
    """What the rule call says of each leg, in the page's words."""
    found = planner.rule(graph, ceiling, dues)
    return [WORDS[planner.RULINGS[ruling]] for ruling in found.rulings] if found else ["dead"] * graph.m


def bounds(graph, number, dues=None):
    """Both previews of a leg in words."""
    if graph.edges[number - 1].mark != planner.FREE:
        return [NOTHING, NOTHING]
    found = [planner.preview(graph, number, mark, dues) for mark in (1, 2)]
    return [str(each.bound) if each else "no tree" for each in found]


def seas(source, count):
    """Small seas of all kinds, with dues or without."""
    for turn in range(count):
        graph = random_graph(source, most=7, costs=12, marks=source.choice(((0,), (0, 0, 0, 1, 2), (1, 2))))
        yield graph, [0] + [source.randint(-3, 3) for _ in range(graph.n - 1)] if turn % 3 == 0 else None


class Elements(HTMLParser):
    """The elements of a page with their attributes, and the text of each that has an id or is a cell."""

    def __init__(self, page):
        super().__init__()
        self.met, self.texts, self.cells, self.open = [], {}, [], []
        self.feed(page)

    def handle_starttag(self, tag, attributes):
        self.met.append((tag, dict(attributes)))
        if tag == "tr":
            self.cells.append([])
        elif tag in ("td", "th"):
            self.cells[-1].append("")
        if tag not in ("meta", "input", "path", "line", "rect", "circle"):
            self.open.append((tag, dict(attributes).get("id") or tag))

    def handle_startendtag(self, tag, attributes):
        self.met.append((tag, dict(attributes)))

    def handle_endtag(self, tag):
        while self.open and self.open.pop()[0] != tag:
            pass

    def handle_data(self, data):
        for _, name in self.open[-1:]:
            self.texts[name] = self.texts.get(name, "") + data
        if self.open and self.open[-1][0] in ("td", "th"):
            self.cells[-1][-1] += data

    @property
    def facts(self):
        """What the script looks up."""
        return json.loads(self.texts["facts"])


class Facts(unittest.TestCase):
    def test_every_ceiling(self):
        """Looked up at every ceiling from high to low it is what the rule call says, and what is new is what differs."""
        source = random.Random(31)
        seen = {"dead": 0, "force": 0, "bar": 0, "keep": 0}
        for graph, dues in seas(source, 60):
            showing = Showing(graph, dues)
            high, low = showing.ends(source.choice((None, source.randint(-20, 60))), None)
            low -= source.randint(0, 3)
            facts = Page("t", showing, None, showing.stops(high, low)).facts()
            stops, before = facts["stops"], planner.rule(graph, high, dues)
            self.assertEqual((stops[0]["ceiling"], stops[-1]["ceiling"]), (high, low))
            for ceiling in range(high, low - 1, -1) if high - low < 400 else ():
                stop = [stop for stop in stops if stop["ceiling"] >= ceiling][-1]
                found = planner.rule(graph, ceiling, dues)
                self.assertEqual(stop["rulings"], "".join(map(str, found.rulings)) if found else None)
                if stop["ceiling"] == ceiling:
                    new = [k for k in range(graph.m) if before and found and before.rulings[k] != found.rulings[k]]
                    self.assertEqual(list(stop["new"]), [k + 1 for k in new])
                    self.assertEqual(stop["counts"], [found.rulings.count(kind) for kind in range(len(KINDS))] if found else None)
                before = found
            seen["dead"] += stops[-1]["rulings"] is None
            for ruling, kind in enumerate(planner.RULINGS[:3]):
                seen[kind] += sum(str(ruling) in (stop["rulings"] or "") for stop in stops)
        self.assertTrue(all(count > 20 for count in seen.values()), seen)

    def test_no_change_is_missed(self):
        """On large seas: just above each change all is as at the change before it."""
        source = random.Random(37)
        for graph in (distances(source, 20, 999), random_graph(source, costs=1_000_000), SEA):
            stops = page_of(graph).stops
            for stop, following in zip(stops, stops[1:]):
                self.assertEqual(planner.rule(graph, following.ceiling + 1), stop.found)
                self.assertEqual(planner.rule(graph, following.ceiling), following.found)
            self.assertGreater(len(stops), 10)

    def test_legs(self):
        """Costs and both previews of every leg; and the ceilings at which it is ruled, by the call on both sides of the line."""
        source = random.Random(32)
        for graph, dues in seas(source, 30):
            page = page_of(graph, dues=dues)
            now = planner.tree(graph, dues)
            self.assertEqual(page.showing.bound, now.bound if now else None)
            for number, leg in enumerate(page.facts()["legs"], 1):
                edge = graph.edges[number - 1]
                self.assertEqual((leg["name"], leg["cost"]), (f"{edge.a}-{edge.b}", str(edge.cost)))
                self.assertEqual([leg["required"], leg["struck"]], bounds(graph, number, dues))
                if found := re.fullmatch(r"(forced|barred) ≤ (-?\d+)", leg["from"]):
                    at = int(found[2])
                    self.assertEqual([words_at(graph, ceiling, dues)[number - 1] for ceiling in (at + 1, at)], ["kept", found[1]])
                elif leg["from"] == "in the chart":
                    self.assertNotEqual(edge.mark, planner.FREE)
                elif leg["from"].endswith(" always"):
                    self.assertEqual(words_at(graph, CEILINGS[-1], dues)[number - 1], leg["from"].split()[0])
                else:
                    self.assertEqual(leg["from"], "never" if now else NOTHING)
                    self.assertEqual(words_at(graph, now.bound, dues)[number - 1] if now else "dead", "kept" if now else "dead")

    def test_fractions(self):
        """With a denominator: ceilings as the rule call has them, bounds as fractions of a minute."""
        source = random.Random(38)
        for graph, dues in seas(source, 30):
            q = source.choice((2, 3, 7, 1_000))
            showing = Showing(graph, dues, q)
            high, low = showing.ends(None, None)
            page = Page("t", showing, None, showing.stops(high, low))
            for ceiling in range(high, low - 1, -1) if high - low < 200 else ():
                stop = [stop for stop in page.stops if stop.ceiling >= ceiling][-1]
                self.assertEqual(stop.found, planner.rule(graph, ceiling, dues, q))
            now = planner.tree(graph, dues, q)
            self.assertEqual(showing.bound, now.bound if now else None)
            for number, edge in enumerate(graph.edges, 1):
                if edge.mark == planner.FREE:
                    found = [planner.preview(graph, number, mark, dues, q) for mark in (1, 2)]
                    words = [str(Fraction(each.bound, q)) if each else "no tree" for each in found]
                    self.assertEqual(list(page.previewed(number)), words)
        page = Page("t", Showing(FOUR, [0, 0, 1, 0], 2), None, Showing(FOUR, [0, 0, 1, 0], 2).stops(11, 10))
        self.assertEqual(page.says(page.stops[-1]), "Dead: the bound 21/2 is above the ceiling, so no round costs so little.")

    def test_ends(self):
        """By itself a page begins where the next ceiling rules something, as much ruled as at the highest, and ends where the sea is dead."""
        for graph, _ in seas(random.Random(33), 40):
            showing = Showing(graph)
            high, low = showing.ends(None, None)
            highest = planner.rule(graph, CEILINGS[-1])
            self.assertEqual(planner.rule(graph, high), highest)
            if highest is None:
                self.assertEqual((high, low), (CEILINGS[-1], CEILINGS[-1]))
            else:
                self.assertNotEqual(planner.rule(graph, high - 1), highest)
                self.assertEqual([planner.rule(graph, ceiling) is None for ceiling in (low + 1, low)], [False, True])
        self.assertEqual(Showing(FOUR).ends(None, None), (15, 9))
        self.assertEqual(Showing(FOUR).ends(20, None), (20, 9))
        self.assertEqual(Showing(FOUR).ends(5, None), (5, 5))
        self.assertEqual(Showing(FOUR).ends(None, 30), (30, 30))
        with mock.patch("planner.showing.CEILINGS", range(-70, 71)):
            self.assertEqual(Showing(planner.Graph(3)).ends(None, None), (70, 70))

    def test_words(self):
        page = page_of(FOUR)
        first, *_, last = map(page.says, page.stops)
        self.assertEqual(first, "0 forced, 0 barred, 6 kept.")
        self.assertEqual(last, "Dead: the bound 10 is above the ceiling, so no round costs so little.")
        self.assertEqual([page.news(stop) for stop in page.stops],
            ["", "New: forced 3-4.", "New: forced 2-3; barred 2-4.", "New: forced 1-3.", "New: forced 1-2; barred 1-4.", ""])  # fmt: skip
        page = page_of(planner.Graph(3))
        self.assertEqual(page.says(page.stops[0]), "Dead: there is no 1-tree, so there is no round.")
        full = planner.Graph(20, [(a, b, 5 if a == 1 else 1) for a, b in itertools.combinations(range(1, 21), 2)])
        page = page_of(full)
        self.assertLess(max(len(page.news(stop)) for stop in page.stops), 200)


class Files(unittest.TestCase):
    def test_needs_nothing(self):
        """One file: nothing is fetched, and its own policy forbids it; style and script are those that the policy knows."""
        for graph in (FOUR, SEA, planner.Graph(3)):
            page = page_of(graph).html()
            for word in ("http:", "https:", "url(", "@import", "src=", "import(", "fetch", "XMLHttp", "eval("):
                self.assertNotIn(word, page)
            self.assertEqual(re.findall(r'(?:href|action|data|poster|srcset)="([^"]*)"', page), ["#table"])
            elements = Elements(page)
            self.assertLessEqual({tag for tag, _ in elements.met}, set(
                "html head meta title style body a div header h1 h2 p input button form label figure svg rect g line path circle text ul li span b main "
                "aside section select option dl dt dd table caption thead tbody tr th td noscript footer script".split()))  # fmt: skip
            names = {name for _, attributes in elements.met for name in attributes}
            self.assertFalse([name for name in names if name == "style" or name.startswith("on")])
            policy = next(attributes["content"] for _, attributes in elements.met if "http-equiv" in attributes)
            look, does = (base64.b64encode(hashlib.sha256(elements.texts[tag].encode()).digest()).decode() for tag in ("style", "script"))
            self.assertEqual(policy,
                f"default-src 'none'; style-src 'sha256-{look}'; script-src 'sha256-{does}'; base-uri 'none'; form-action 'none'")  # fmt: skip

    def test_names(self):
        """Whatever a file is called, it is shown and ends nothing."""
        name = "</script><!--<b>&\"'.txt"
        page = page_of(FOUR, name=name).html()
        elements = Elements(page)
        self.assertEqual(elements.texts["h1"], name)
        self.assertEqual(page.count("</script>"), 2)
        self.assertEqual(elements.facts["stops"][0]["ceiling"], 15)
        self.assertFalse(set("<>&") & set(embedded(name)))
        self.assertEqual(json.loads(embedded(name)), name)
        self.assertEqual(Elements(page_of(FOUR, name="W" * 300).html()).texts["h1"], "W" * 58 + "..")

    def test_without_scripts(self):
        """The table and the picture stand in the file, at the highest ceiling."""
        source = random.Random(34)
        for graph, dues in seas(source, 20):
            page = page_of(graph, dues=dues)
            html = page.html()
            elements, high = Elements(html), page.stops[0].ceiling
            rows = elements.cells[1:]
            self.assertEqual([row[3] for row in rows], words_at(graph, high, dues))
            self.assertEqual([row[5:7] for row in rows], [bounds(graph, number, dues) for number in range(1, graph.m + 1)])
            drawn = {int(number): kind for number, kind in re.findall(r'id="line-(\d+)" class="line (\w+)"', html)}
            self.assertEqual([WORDS[drawn[number]] for number in range(1, graph.m + 1)], words_at(graph, high, dues))
            answer = planner.solve(graph)
            self.assertEqual({number for number, row in enumerate(rows, 1) if row[7:] == ["yes"]}, set(answer.tour))

    def test_numbers(self):
        """Numbers in it are exact in a script, and ten digits are no trouble."""
        limit = 5_000_000_000
        stops = [Stop(limit, planner.rule(FOUR, 20), ()), Stop(limit - 1, planner.rule(FOUR, 14), (6,)), Stop(-limit, None, ())]
        facts = Page("t", Showing(FOUR), None, stops).facts()
        self.assertEqual([stop["ceiling"] for stop in facts["stops"]], [limit, limit - 1, -limit])
        self.assertTrue(all(abs(end) <= SAFE for end in (CEILINGS[0], CEILINGS[-1], limit)))

    def test_command(self):
        """The same file each time; on standard output too."""
        with tempfile.TemporaryDirectory() as folder:
            out = Path(folder, "sea.html")
            self.assertEqual(command("page", "examples/sea.txt", "-o", out), ("", "", 0))
            written = out.read_text("utf-8")
            self.assertEqual(command("page", "examples/sea.txt"), (written, "", 0))
            self.assertEqual(command("page", "-", given=(EXAMPLES / "sea.txt").read_text("utf-8"))[0], written.replace("sea.txt", "standard input"))
            stops = Elements(written).facts["stops"]
            self.assertEqual((stops[0]["ceiling"], stops[-1]["ceiling"], stops[-1]["rulings"]), (380, 333, None))
            self.assertEqual(command("page", "examples/sea.txt", "-o", out, "--high", 350, "--low", 340, "--no-round"), ("", "", 0))
            elements = Elements(out.read_text("utf-8"))
            self.assertEqual([stop["ceiling"] for stop in elements.facts["stops"]], [350, 349, 347, 345, 343, 340])
            self.assertEqual((elements.facts["round"], "lay" in elements.texts), (None, False))
            self.assertEqual(command("page", "examples/four.txt", "-o", out, "--dues", "0,0,1,-1")[2], 0)
            self.assertEqual(Elements(out.read_text("utf-8")).texts["bound"], "12")
            self.assertEqual(command("page", "examples/four.txt", "-o", out, "--dues", "0,0,1,-1", "--denominator", 2)[2], 0)
            self.assertEqual(Elements(out.read_text("utf-8")).texts["bound"], "11")

    def test_picture_of_it(self):
        """README shows one, and it is small."""
        self.assertTrue("](docs/page.png)" in (ROOT / "README.md").read_text("utf-8"))
        picture = (ROOT / "docs/page.png").read_bytes()
        self.assertEqual((picture[:8], len(picture) < 150_000), (b"\x89PNG\r\n\x1a\n", True))

    def test_faults(self):
        with tempfile.TemporaryDirectory() as folder:
            for name in ("b.txt", "b.chart", "B.CSV", "b.tsp", "b.png", "b.pdf", "b.svg"):
                said = command("page", "examples/four.txt", "-o", f"{folder}/{name}")
                self.assertEqual(said, ("", f"{folder}/{name}: the name says another form; a page is HTML, named .html\n", 2))
                self.assertFalse(Path(folder, name).exists())
            own = Path(folder, "own.html")
            own.write_text("buoys 3\n1-2 1\n1-3 1\n2-3 1\n", "utf-8")
            self.assertEqual(command("page", own, "-o", own), ("", f"{own}: the file that is read; name another one to write\n", 2))
            out = Path(folder, "out.html")
            for words, said in (
                (("--high", 9, "--low", 20), "--high 9 --low 20: allowed is a lowest ceiling that is not above the highest\n"),
                (("--high", CEILINGS[-1] + 1), f"examples/four.txt: refused 13 at 0: {MEANINGS[13]}\n"),
                (("--low", CEILINGS[0] - 1), f"examples/four.txt: refused 13 at 0: {MEANINGS[13]}\n"),
                (("--dues", "1,0,0,0"), f"examples/four.txt: refused 12 at 0: {MEANINGS[12]}\n"),
                (("--high", "x"), f"planner page: argument --high: ceiling 'x' is not a whole number; allowed is {-2**63} to {2**63 - 1}; "
                    "see planner page --help\n"),
            ):  # fmt: skip
                self.assertEqual(command("page", "examples/four.txt", "-o", out, *words), ("", said, 2))
                self.assertFalse(out.exists())
            said = command("page", "examples/regrade/loop.chart", "-o", out)[1:]
            self.assertEqual(said, ("examples/regrade/loop.chart: refused 6 at 3: record met before\n", 2))
            said = command("page", "-", "-o", out, given="buoys 3\nat 1 0 0\n1-2 1\n1-3 1\n2-3 1\n")[1:]
            self.assertEqual(said, ("standard input: buoy 2 has no line 'at'; allowed are positions for all buoys or for none\n", 2))
            self.assertFalse(out.exists())

    def test_answers(self):
        """No round, an undecided one and a sea that is dead at once are written, and the status says so."""
        with tempfile.TemporaryDirectory() as folder:
            out = Path(folder, "out.html")
            for name, words, said, status, in_it in (
                ("regrade/split", (), "there is no round; written without one", 1, "there is no round"),
                ("regrade/gulf", ("--nodes", 0), "going on after 0 nodes; written without one", 3, "none costs 412 or less"),
                ("four", ("--high", 9), "dead at ceiling 9 already; written so", 1, "Dead: the bound 10 is above the ceiling"),
            ):
                file = f"examples/{name}.txt"
                self.assertEqual(command("page", file, *words, "-o", out), ("", f"{file}: {said}\n", status))
                self.assertIn(in_it, out.read_text("utf-8"))
                out.unlink()


# In a browser

# All that is seen of every leg, and what is said.
SEEN = """(() => {
  const at = (id) => document.getElementById(id), text = (id) => at(id).textContent;
  const legs = [...document.querySelectorAll("tbody tr")].map((row) => {
    const number = row.dataset.leg;
    return [at("line-" + number).getAttribute("class"), row.className.split(" ")[0], row.querySelector(".ruling").textContent,
            at("leg-" + number).getAttribute("aria-label"), at("halo-" + number).classList.contains("new")];
  });
  return { legs, ceiling: text("ceiling"), caption: text("at"), says: text("says"), news: text("news"), slider: at("slider").value,
           dead: at("sea").classList.contains("dead"), spoken: at("slider").getAttribute("aria-valuetext") };
})()"""


class InABrowser(unittest.TestCase):
    @classmethod
    def setUpClass(cls):
        if chromium() is None:
            cls.leave("no Chromium here, and none can be installed")
        try:
            cls.browser = Browser()
        except (OSError, TimeoutError) as error:
            cls.leave(f"Chromium does not start here ({error})")
        cls.addClassCleanup(cls.browser.close)
        cls.folder = tempfile.TemporaryDirectory()
        cls.addClassCleanup(cls.folder.cleanup)

    @staticmethod
    def leave(why):
        """One line, and no test."""
        print(f"{why}: the page is not tried in a browser", file=sys.stderr)
        raise unittest.SkipTest(why)

    def show(self, page):
        """Opens a page in a window as large as a projector's picture."""
        path = Path(self.folder.name, "page.html")
        path.write_text(page if isinstance(page, str) else page.html(), "utf-8")
        self.browser.size(1280, 720)
        self.browser.open(path)
        self.path = path

    def quiet(self):
        """No request but for the file itself, and no complaint."""
        self.assertEqual((self.browser.requests, self.browser.complaints), ([self.path.as_uri()], []))

    def look(self, words, ceiling, new=()):
        """What is seen and said is what the rule call says at this ceiling."""
        seen = self.browser.run(SEEN)
        kinds = {word: kind for kind, word in WORDS.items() if kind != "free"}
        names = [leg["name"] for leg in self.facts["legs"]]
        wanted = [[f"line {kinds[word]}", kinds[word], word, f"leg {k}, {name}, {word}", k in new] for k, (name, word) in enumerate(zip(names, words), 1)]
        self.assertEqual(seen["legs"], wanted)
        self.assertEqual((seen["ceiling"], seen["caption"], seen["spoken"]), (str(ceiling), str(ceiling), f"ceiling {ceiling}"))
        self.assertEqual((seen["dead"], seen["says"].startswith("Dead")), (words[:1] == ["dead"],) * 2 if words else (seen["dead"],) * 2)
        return seen

    def box(self, what):
        """Where something stands in the window: left, top, width, height."""
        return self.browser.run(f"(({{ left, top, width, height }}) => [left, top, width, height])(document.querySelector({what!r}).getBoundingClientRect())")

    def text(self, name):
        """The words of an element."""
        return self.browser.run(f"document.getElementById({name!r}).textContent")

    def over_every_change(self, page, said):
        """The slider over every change, down and up again; `said` is what the rule call says at a ceiling."""
        self.show(page)
        self.facts = page.facts()
        self.browser.run("document.getElementById('slider').focus()")
        for place, stop in enumerate(page.stops):
            if place:
                self.browser.key("ArrowRight" if place % 2 else "ArrowDown")
            seen = self.look(said(stop.ceiling), stop.ceiling, stop.new)
            self.assertEqual((seen["slider"], seen["news"]), (str(place), page.news(stop)))
        self.browser.key("ArrowDown")
        self.look(said(stop.ceiling), stop.ceiling, stop.new)
        for place, stop in reversed(list(enumerate(page.stops[:-1]))[-8:]):
            self.browser.key("ArrowLeft" if place % 2 else "ArrowUp")
            self.look(said(stop.ceiling), stop.ceiling, stop.new)
        self.quiet()

    def by_command(self, path):
        """The rulings as `planner rule` prints them."""

        def said(ceiling):
            out, _, _ = command("rule", path, "--ceiling", ceiling)
            return [WORDS[line.split()[2]] for line in out.splitlines()[1:]] if out != "dead\n" else ["dead"] * planner.load(path).m

        return said

    def test_every_change(self):
        """On the examples as the command `rule` prints it; on other seas as the call says it."""
        for path in (EXAMPLES / "sea.txt", EXAMPLES / "four.txt"):
            self.over_every_change(page_of(planner.load(path)), self.by_command(path))
        source = random.Random(35)
        ring = planner.Graph(4, [(1, 2, 3, 1), (2, 3, -4, 1), (3, 4, 5, 1), (1, 4, 6, 1), (1, 3, 1, 2)])
        for graph in (*(graph for graph, _ in seas(source, 6)), planner.Graph(3), planner.Graph(4, [(1, 2, 5)]), ring):
            self.over_every_change(page_of(graph), lambda ceiling: words_at(graph, ceiling))

    def test_twenty_buoys(self):
        """190 legs, some 150 changes."""
        graph = distances(random.Random(36), 20, 999)
        self.over_every_change(page_of(graph), lambda ceiling: words_at(graph, ceiling))

    def test_buoys_ashore(self):
        """Their legs look and are said so at every ceiling; they are hollow, and their legs have no previews."""
        for buoys in ([4], [4, 7, 9]):
            showing = Showing(SEA, None, 1, planner.ashore_list(SEA, buoys))
            page = Page("t.txt", showing, planner.solve(SEA, ashore=showing.ashore), showing.stops(*showing.ends(None, None)))

            def said(ceiling):
                found = showing.rule(ceiling)
                return [WORDS[KINDS[ruling]] for ruling in found.rulings] if found else ["dead"] * SEA.m

            self.over_every_change(page, said)
            self.assertEqual(self.browser.run("document.querySelectorAll('#sea .buoy.out').length"), len(buoys))
            self.browser.key("Home")
            number = min(showing.touched)
            self.browser.run(f"document.getElementById('leg-{number}').focus()")
            told = [self.text(f"shown-{what}") for what in ("ruling", "from", "required", "struck")]
            self.assertEqual(told, ["ashore", "buoy ashore", NOTHING, NOTHING])
            dash = self.browser.run("getComputedStyle(document.querySelector('#sea .buoy.out')).strokeDasharray")
            self.assertEqual(dash, "4px, 3px")

    def test_looks(self):
        """Each ruling has its dash, its width and its colour, and what is ruled in lies on top."""
        self.show(page_of(SEA, 350))
        script = "(() => { const s = getComputedStyle(document.querySelector('.line.%s')); return [s.strokeDasharray, s.strokeWidth] })()"
        for kind in planner.RULINGS:
            wanted = dict(re.findall(r'([a-z-]+)="([^"]*)"', STYLES[kind][1]))
            dash = ", ".join(f"{part}px" for part in wanted["stroke-dasharray"].split()) if "stroke-dasharray" in wanted else "none"
            self.assertEqual(self.browser.run(script % kind), [dash, wanted["stroke-width"] + "px"])
        order = self.browser.run("[...document.querySelectorAll('#lines .line')].map((line) => line.classList[1])")
        self.assertEqual(order, sorted(order, key=list(STYLES).index))

    def test_slider_by_pointer(self):
        page = page_of(SEA)
        self.show(page)
        self.facts = page.facts()
        left, top, width, height = self.box("#slider")
        places = set()
        for share in (0.98, 0.5, 0.02):
            self.browser.pointer(left + share * width, top + height / 2, click=True)
            stop = page.stops[int(self.browser.run("document.getElementById('slider').value"))]
            self.look(words_at(page.graph, stop.ceiling), stop.ceiling, stop.new)
            places.add(stop.ceiling)
        self.assertEqual((len(places), max(places), min(places)), (3, 380, 333))
        for name, ceiling in (("lower", 379), ("higher", 380), ("higher", 380)):
            self.browser.run(f"document.getElementById({name!r}).click()")
            self.assertEqual(self.text("ceiling"), str(ceiling))

    def typed(self, text):
        """Types a ceiling and sends it by Enter."""
        self.browser.run("document.getElementById('wanted').select(), document.getElementById('wanted').focus()")
        self.browser.write_text(text)
        self.browser.key("Enter")

    def test_typed_ceilings(self):
        """Every ceiling from high to low, and what is none."""
        page = page_of(FOUR, 20, 5)
        self.show(page)
        self.facts = page.facts()
        for ceiling in range(20, 4, -1):
            self.typed(str(ceiling))
            stop = [stop for stop in page.stops if stop.ceiling >= ceiling][-1]
            seen = self.look(words_at(FOUR, ceiling), ceiling, stop.new if stop.ceiling == ceiling else ())
            if stop.ceiling != ceiling:
                self.assertEqual(seen["news"], f"As at ceiling {stop.ceiling}.")
        self.typed("12")
        for text in ("21", "4", "x", "", "1e1", "9" * 30):
            self.typed(text)
            self.assertEqual((self.text("ceiling"), self.text("fault")), ("12", "Allowed is 5 to 20."))
        self.browser.run("document.activeElement.blur()")
        self.browser.key("ArrowUp")
        self.assertEqual((self.text("ceiling"), self.text("fault")), ("13", ""))
        self.quiet()

    def test_ten_digits(self):
        """Ceilings beyond 32 bits."""
        limit = 5_000_000_000
        stops = [Stop(limit, planner.rule(FOUR, 20), ()), Stop(limit - 1, planner.rule(FOUR, 14), (6,)), Stop(-limit, None, ())]
        page = Page("t", Showing(FOUR), None, stops)
        self.show(page)
        self.facts = page.facts()
        self.typed(str(limit - 2))
        self.look(words_at(FOUR, 14), limit - 2)
        self.browser.run("document.activeElement.blur()")
        self.browser.key("End")
        self.look(["dead"] * 6, -limit)
        self.assertLessEqual(*self.browser.run("[document.documentElement.scrollWidth, innerWidth]"))

    def test_keys(self):
        self.show(page_of(SEA))
        for key, ceiling in (("End", 333), ("PageUp", 337), ("Home", 380), ("PageDown", 379), ("ArrowRight", 368), ("ArrowLeft", 379),
                             ("ArrowDown", 368), ("ArrowUp", 379)):  # fmt: skip
            self.browser.key(key)
            self.assertEqual(self.text("ceiling"), str(ceiling), key)
        self.browser.key("ArrowDown", modifiers=2)
        for name in ("table", "wanted", "pick"):
            self.browser.run(f"document.getElementById({name!r}).focus()")
            for key in ("ArrowDown", "End") if name == "table" else ("ArrowDown", "End", "r"):
                self.browser.key(key)
        self.assertEqual((self.text("ceiling"), self.browser.run("document.documentElement.className")), ("379", "live"))
        self.browser.run("document.activeElement.blur(), document.getElementById('keys').click()")
        for key in ("ArrowDown", "End", "r"):
            self.browser.key(key)
        self.assertEqual((self.text("ceiling"), self.browser.run("document.documentElement.className")), ("379", "live"))
        self.browser.run("document.getElementById('slider').focus()")
        self.browser.key("ArrowDown")
        self.assertEqual(self.text("ceiling"), "368")
        self.quiet()

    def shown(self):
        """What is shown of one leg."""
        return [self.text(f"shown-{what}") for what in ("name", "ruling", "required", "struck")]

    def test_legs_by_key(self):
        """Tab from leg to leg, each with its cost and both previews; Enter and the space bar choose it, Escape lets it go."""
        graph = SEA
        self.show(page_of(graph, 350))
        words = words_at(graph, 350)
        self.browser.run("document.getElementById('lay').focus()")
        for number, edge in enumerate(graph.edges, 1):
            self.browser.key("Tab")
            self.assertEqual(self.browser.run("document.activeElement.id"), f"leg-{number}")
            wanted = [f"Leg {number}: {edge.a}-{edge.b}, cost {edge.cost}", words[number - 1], *bounds(graph, number)]
            self.assertEqual(self.shown(), wanted)
        pressed = "[...document.querySelectorAll('[aria-pressed=true]')].map((leg) => leg.id).concat(document.getElementById('pick').value)"
        for key in ("Enter", " "):
            self.browser.key(key)
            self.assertEqual(self.browser.run(pressed), ["leg-27", "27"])
            self.assertEqual(self.browser.run("document.querySelector('tr.shown').id"), "row-27")
            self.browser.key("Tab", modifiers=8)
            self.assertEqual(self.shown()[0], "Leg 26: 9-11, cost 33")
            self.browser.key("Tab")
            self.browser.key("Escape")
            self.assertEqual(self.browser.run(pressed), ["0"])
        self.assertEqual(self.browser.run("scrollY"), 0)

    def test_legs_by_pointer(self):
        """A leg under the pointer is shown, also by its cost; a click keeps it, so does a click on its row and the list."""
        graph = SEA
        self.show(page_of(graph))
        nobody = self.shown()[0]
        self.assertEqual(self.displayed("#shown-name", "#facts-of-leg"), ["#shown-name"])

        def point(number, click=False):
            left, top, width, height = self.box(f"#cost-{number} rect")
            self.browser.pointer(left + width / 2, top + height / 2, click)

        for number in (1, 3, 24):
            edge = graph.edges[number - 1]
            point(number)
            wanted = [f"Leg {number}: {edge.a}-{edge.b}, cost {edge.cost}", words_at(graph, 380)[number - 1], *bounds(graph, number)]
            self.assertEqual(self.shown(), wanted)
        point(5, click=True)
        self.browser.pointer(5, 5)
        self.assertEqual(self.shown()[0], "Leg 5: 2-3, cost 88")
        self.browser.key("PageDown")
        self.assertEqual(self.shown()[1], "barred")
        self.browser.run("document.getElementById('row-7').click()")
        self.assertEqual(self.shown()[0], "Leg 7: 2-5, cost 33")
        self.browser.run("document.getElementById('row-7').click()")
        self.assertEqual(self.shown()[0], nobody)
        self.browser.run("document.getElementById('pick').value = 9, document.getElementById('pick').dispatchEvent(new Event('change'))")
        self.assertEqual(self.shown()[0], "Leg 9: 3-4, cost 30")

    def test_round(self):
        """R and the button lay the cheapest round and take it away, in the picture and in the table."""
        self.show(page_of(SEA))
        bands = "getComputedStyle(document.getElementById('bands')).display"
        for press in (lambda: self.browser.key("r"), lambda: self.browser.run("document.getElementById('lay').click()")):
            self.assertEqual(self.browser.run(bands), "none")
            press()
            self.assertNotEqual(self.browser.run(bands), "none")
            self.assertEqual(self.text("laid"), "cheapest round: cost 348.")
            legs = [1, 3, 7, 9, 10, 17, 19, 21, 22, 25, 26]
            self.assertEqual(self.browser.run("[...document.querySelectorAll('.band')].map((band) => Number(band.id.slice(5)))"), legs)
            rows = "[...document.querySelectorAll('tbody tr')].filter((row) => row.lastChild.offsetWidth && row.lastChild.textContent === 'yes')"
            self.assertEqual(self.browser.run(f"{rows}.map((row) => Number(row.dataset.leg))"), legs)
            press()
        self.assertEqual(self.browser.run(bands), "none")
        self.browser.key("r")
        for ceiling, words in ((380, ""), (348, ""), (347, ", above this ceiling"), (333, ", above this ceiling")):
            self.typed(str(ceiling))
            self.assertEqual(self.text("above"), words)

    def test_no_request_can_leave(self):
        """What a page could ask for is stopped by its policy before it comes to anything: nobody calls at a port that listens."""
        self.show(page_of(FOUR))
        with socket.create_server(("127.0.0.1", 0)) as server:
            server.settimeout(0.3)
            place = f"http://127.0.0.1:{server.getsockname()[1]}/"
            script = """new Promise((done) => {
                const stopped = [];
                document.addEventListener("securitypolicyviolation", (event) => {
                    stopped.push(event.effectiveDirective);
                    if (stopped.length === 3) done(stopped.sort());
                });
                fetch("%s").catch(() => {});
                const image = new Image(); image.src = "%s";
                const script = document.createElement("script"); script.src = "%s"; document.body.append(script);
                setTimeout(() => done(stopped.sort()), 5000);
            })""" % (place, place, place)
            self.assertEqual(self.browser.run(script), ["connect-src", "img-src", "script-src-elem"])
            with self.assertRaises(TimeoutError):
                server.accept()

    def displayed(self, *parts):
        """Those of these parts that are shown."""
        return self.browser.run(f"{list(parts)}.filter((what) => getComputedStyle(document.querySelector(what)).display !== 'none')")

    def test_without_scripts(self):
        """The table and the picture at the highest ceiling, the round laid, and no control that does nothing."""
        graph = SEA
        self.browser.scripts(False)
        try:
            self.show(page_of(graph, 350))
            rulings = self.browser.run("[...document.querySelectorAll('td.ruling')].map((cell) => cell.textContent)")
            self.assertEqual(rulings, words_at(graph, 350))
            self.assertEqual(self.displayed(".controls", ".card", "#sea", "#table", "noscript", "#bands"), ["#sea", "#table", "noscript", "#bands"])
        finally:
            self.browser.scripts(True)

    def test_print(self):
        """On paper: the picture and the whole table at the present ceiling, and no control."""
        self.show(page_of(SEA))
        self.browser.key("PageDown", 5)
        self.browser.ask("Emulation.setEmulatedMedia", media="print")
        try:
            self.assertEqual(self.displayed(".controls", ".card", ".keys", "#sea", "#table"), ["#sea", "#table"])
            self.assertEqual(self.browser.run("getComputedStyle(document.getElementById('table')).overflow"), "visible")
            self.assertEqual(self.text("ceiling"), "356")
        finally:
            self.browser.ask("Emulation.setEmulatedMedia", media="")
        self.assertTrue(self.browser.printed().startswith(b"%PDF"))

    def test_sizes(self):
        """On a projector all of it is in the window and large enough to be read; a narrow window scrolls down and not aside."""
        graph = SEA
        self.show(page_of(graph))
        sizes = """['.number', '.cost text', '#says', 'td', '#ceiling'].map((what) => {
            const part = document.querySelector(what), scale = part.getScreenCTM ? part.getScreenCTM().a : 1;
            return scale * parseFloat(getComputedStyle(part).fontSize);
        })"""
        for width, height in ((1280, 720), (1024, 768), (1920, 1080)):
            self.browser.size(width, height)
            for key in ("Home", "r", "End", "r"):
                self.browser.key(key)
                whole = self.browser.run("document.getElementById('table').scrollWidth <= document.getElementById('table').clientWidth")
                self.assertTrue(whole or width == 1024, (width, height, key))
                for part in ("#sea", "#ceiling", "#says", "#pick", "#table", "#slider", "#lay", ".legend"):
                    left, top, wide, high = self.box(part)
                    self.assertTrue(left >= 0 and top >= 0 and left + wide <= width and top + high <= height, (width, height, key, part))
            for least, size in zip((16, 14, 15, 12.5, 36), self.browser.run(sizes)):
                self.assertGreater(size, least)
        for width in (320, 480, 800, 1280):
            self.browser.size(width, 600)
            self.assertLessEqual(*self.browser.run("[document.documentElement.scrollWidth, innerWidth]"), width)

    def test_everything_has_a_name(self):
        """Whatever can be operated says what it is to who cannot see it."""
        self.show(page_of(SEA))
        nodes = self.browser.ask("Accessibility.getFullAXTree")["nodes"]
        roles = {"button": 0, "slider": 0, "textbox": 0, "combobox": 0, "checkbox": 0, "region": 0, "table": 0, "status": 0}
        for node in nodes:
            role = node.get("role", {}).get("value")
            if role in roles:
                roles[role] += 1
                self.assertTrue(role == "status" or node.get("name", {}).get("value"), node)
        self.assertEqual(roles["button"], 27 + 4)
        self.assertTrue(all(roles.values()), roles)
