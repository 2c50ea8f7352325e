"""A script of calls, one answer a line: what a line says is sent to the library as it is, and the library judges it.

One search record, one shelf of saved searches and one dispatcher serve the whole script. Settings print nothing: the current chart ('sea',
'chart'), the dues, the length of the next list that is lent ('list'), the denominator, lifting, who is ashore. Calls print one line: tree, preview,
rule, recent, simulate, compare, open, run, tell, show, close, save, back, add, turn, tellat, showat, closeat.
"""
from __future__ import annotations

import re
from collections.abc import Callable, Iterator
from typing import IO

from .faults import Faults, shown, whole_number, yes_or_no
from .formats import LONGEST, load
from .library import (
    BYTE, EXCLUDED, FREE, INT32, INT64, REQUIRED, UINT32, UINT64, Dispatcher, Edge, Graph, Refused, Search, Shelf, Told, Tree, compare, preview,
    recent_costs, rule, simulate, tree,
)  # fmt: skip
from .output import Progress, complain, listed

LEG = re.compile(r"([0-9]+)-([0-9]+):(-?[0-9]+)(?:([rs])|m([0-9]+))?")
ENTRY = re.compile(r"([0-9]+):(-?[0-9]+)")
FORMS = {
    "tree": "tree",
    "preview": "preview LEG MARK",
    "rule": "rule CEILING",
    "recent": "recent W LEG:TIME ..",
    "simulate": "simulate STUDENT E LEG ..",
    "compare": "compare CEILING BUDGET SWEEPS/STEP ..",
    "open": "open CEILING SWEEPS STEP",
    "run": "run BUDGET",
    "tell": "tell",
    "show": "show",
    "close": "close",
    "save": "save NAME",
    "back": "back NAME",
    "add": "add CEILING SWEEPS STEP",
    "turn": "turn P",
    "tellat": "tellat K",
    "showat": "showat K",
    "closeat": "closeat K",
}
Answer = tuple[str, dict[str, object]]  # the line, and the same as fields


class Script:
    """The current settings, the search record, the shelf and the dispatcher; makes the calls."""

    def __init__(self) -> None:
        self.search, self.shelf, self.dispatcher = Search(), Shelf(), Dispatcher()
        self.use(Graph(0))
        self.settings: dict[str, Callable[[list[str]], None]] = {
            "sea": self.sea, "dues": self.set_dues, "list": self.set_list, "denominator": self.set_denominator,
            "lifting": self.set_lifting, "ashore": self.set_ashore,
        }  # fmt: skip
        self.calls: dict[str, Callable[..., Answer]] = {name: getattr(self, name) for name in FORMS}

    # Settings

    def use(self, graph: Graph) -> None:
        """A chart becomes the current one, and every other setting what it is at first."""
        self.graph, self.dues, self.ashore = graph, [0] * graph.n, [0] * graph.n
        self.length: int | None = None
        self.denominator, self.lifting = 1, False

    def sea(self, words: list[str]) -> None:
        """The chart that a line says."""
        if not words:
            raise Faults("allowed is 'sea N LEG ..'")
        n = whole_number(words[0], "number of buoys", BYTE)
        graph = Graph(n, map(leg, words[1:]))
        whole_number(str(graph.m), "number of legs", BYTE)
        self.use(graph)

    def chart(self, path: str) -> None:
        """The chart in a file."""
        if not path:
            raise Faults("allowed is 'chart PATH'")
        try:
            self.use(load("./-" if path == "-" else path))  # standard input is the script's
        except Refused as refused:
            raise Faults(f"{shown(path)}: {refused}") from None
        except Faults as faults:
            more = len(faults.lines) - 1
            raise Faults(faults.lines[0] + (f"; and {more} more" if more else "")) from None

    def set_dues(self, words: list[str]) -> None:
        """Dues, any number of them."""
        self.dues = [whole_number(word, "due", INT32) for word in words]

    def set_list(self, words: list[str]) -> None:
        """The length of the next list that is lent."""
        (word,) = taken(words, "list K")
        self.length = whole_number(word, "length", UINT64)

    def set_denominator(self, words: list[str]) -> None:
        """How many parts of a minute dues, step and bounds count in."""
        (word,) = taken(words, "denominator Q")
        self.denominator = whole_number(word, "denominator", UINT64)

    def set_lifting(self, words: list[str]) -> None:
        """Whether hunts try each leg that a pass keeps again under dues lifted for it alone."""
        (word,) = taken(words, "lifting yes|no")
        self.lifting = yes_or_no(word, "lifting")

    def set_ashore(self, words: list[str]) -> None:
        """Who is ashore: bytes, any number of them."""
        self.ashore = [whole_number(word, "byte", BYTE) for word in words]

    def next_length(self) -> int:
        """The length of the list for this call; a length said serves one call."""
        length = self.graph.m if self.length is None else self.length
        self.length = None
        return length

    # Calls

    def tree(self) -> Answer:
        """The least 1-tree."""
        return said_tree(tree(self.graph, self.dues, self.next_length(), self.denominator, self.ashore))

    def preview(self, leg: str, mark: str) -> Answer:
        """The least 1-tree if a leg had a mark."""
        number, byte = whole_number(leg, "leg", UINT64), whole_number(mark, "mark", UINT32)
        return said_tree(preview(self.graph, number, byte, self.dues, self.next_length(), self.denominator, self.ashore))

    def rule(self, ceiling: str) -> Answer:
        """The rulings under a ceiling."""
        number = whole_number(ceiling, "ceiling", INT64)
        found = rule(self.graph, number, self.dues, self.next_length(), self.denominator, self.ashore)
        if found is None:
            return "dead", {"verdict": "dead"}
        return f"bound {found.bound} rulings {listed(found.rulings)}", {"bound": found.bound, "rulings": found.rulings}

    def recent(self, last: str, *entries: str) -> Answer:
        """The costs that a log makes; the current chart then has them."""
        number = whole_number(last, "number of last times", UINT64)
        log = [entry(word) for word in entries]
        self.graph = recent_costs(self.graph, number, [edge for edge, _ in log], [time for _, time in log])
        costs = [edge.cost for edge in self.graph.edges]
        return " ".join(["costs", *map(str, costs)]), {"costs": costs}

    def simulate(self, student: str, spread: str, *legs: str) -> Answer:
        """A round sailed leg by leg."""
        numbers = [whole_number(word, "leg", UINT64) for word in legs]
        sailed = simulate(self.graph, numbers, whole_number(student, "student", UINT64), whole_number(spread, "spread", UINT64))
        line = f"times {listed(sailed.times)} total {sailed.total} state {sailed.state}"
        return line, {"times": sailed.times, "total": sailed.total, "state": sailed.state}

    def compare(self, ceiling: str, budget: str, *pairs: str) -> Answer:
        """A hunt for each pair of sweeps and step."""
        read = [pair(word) for word in pairs]
        top, allowance = whole_number(ceiling, "ceiling", INT64), whole_number(budget, "budget", UINT64)
        counts = compare(self.graph, top, allowance, read, self.dues, self.denominator, self.lifting, self.ashore)
        return f"nodes {listed(counts)}", {"nodes": counts}

    def open(self, ceiling: str, sweeps: str, step: str) -> Answer:
        """An opening."""
        number, passes, gain = whole_number(ceiling, "ceiling", INT64), whole_number(sweeps, "sweeps", UINT32), whole_number(step, "step", UINT32)
        self.search.open(self.graph, number, passes, gain, self.dues, self.denominator, self.lifting, self.ashore)
        return "accepted", {"verdict": "accepted"}

    def run(self, budget: str) -> Answer:
        """A run."""
        number, progress = whole_number(budget, "budget", UINT64), Progress()
        try:
            ran = self.search.run(number, progress)
        finally:
            progress.end()
        verdict = "finished" if ran.finished else "going on"
        return f"{verdict} nodes {ran.nodes}", {"verdict": verdict, "nodes": ran.nodes}

    def tell(self) -> Answer:
        """The verdict."""
        return said_verdict(self.search.tell())

    def show(self) -> Answer:
        """The best tour."""
        tour = self.search.show(self.next_length())
        return f"legs {listed(tour)}", {"legs": tour}

    def close(self) -> Answer:
        """Closing."""
        self.search.close()
        return "accepted", {"verdict": "accepted"}

    def save(self, name: str) -> Answer:
        """The open hunt, saved under a name."""
        self.shelf.save(self.search, whole_number(name, "name", UINT64))
        return "accepted", {"verdict": "accepted"}

    def back(self, name: str) -> Answer:
        """The hunt under a name, brought back."""
        self.search.back(self.shelf, whole_number(name, "name", UINT64))
        return "accepted", {"verdict": "accepted"}

    def add(self, ceiling: str, sweeps: str, step: str) -> Answer:
        """A hunt more for the dispatcher."""
        numbers = whole_number(ceiling, "ceiling", INT64), whole_number(sweeps, "sweeps", UINT32), whole_number(step, "step", UINT32)
        place = self.dispatcher.add(self.graph, *numbers, self.dues, self.denominator, self.lifting, self.ashore)
        return f"place {place}", {"place": place}

    def turn(self, nodes: str) -> Answer:
        """A turn of the dispatcher."""
        place = self.dispatcher.turn(whole_number(nodes, "nodes", UINT64))
        return ("idle", {"verdict": "idle"}) if place is None else (f"place {place}", {"place": place})

    def tellat(self, place: str) -> Answer:
        """The verdict at a place."""
        return said_verdict(self.dispatcher.tell(whole_number(place, "place", UINT64)))

    def showat(self, place: str) -> Answer:
        """The best tour at a place."""
        tour = self.dispatcher.show(whole_number(place, "place", UINT64), self.next_length())
        return f"legs {listed(tour)}", {"legs": tour}

    def closeat(self, place: str) -> Answer:
        """Closing at a place."""
        self.dispatcher.close(whole_number(place, "place", UINT64))
        return "accepted", {"verdict": "accepted"}

    # Lines

    def take(self, line: str) -> Answer | None:
        """The answer to one line, None where it says nothing; Faults where it cannot be read."""
        words = line.split()
        if not words or words[0].startswith("#"):
            return None
        name, *rest = words
        if name == "chart":
            self.chart(line.strip()[len(name) :].strip())
            return None
        if name in self.settings:
            self.settings[name](rest)
            return None
        if name not in self.calls:
            raise Faults(f"'{shown(name)}' is unknown; allowed are sea, chart, dues, list, denominator, lifting, ashore, {', '.join(FORMS)}")
        try:
            return self.calls[name](*taken(rest, FORMS[name]))
        except Refused as refused:
            fields = {"refused": refused.number, "place": refused.place, "meaning": refused.meaning}
            return f"refused {refused.number} at {refused.place}", fields


def said_tree(found: Tree | None) -> Answer:
    """What the tree call and the preview say."""
    if found is None:
        return "no tree", {"verdict": "no tree"}
    return f"bound {found.bound} legs {listed(found.edges)}", {"bound": found.bound, "legs": found.edges}


def said_verdict(told: Told) -> Answer:
    """What a tell says."""
    if told.verdict == "cost":
        return f"cost {told.cost} nodes {told.nodes}", {"verdict": "cost", "cost": told.cost, "nodes": told.nodes}
    return f"{told.verdict} nodes {told.nodes}", {"verdict": told.verdict, "nodes": told.nodes}


def taken(words: list[str], allowed: str) -> list[str]:
    """The words behind a name, of which there must be as many as the form has; '..' at its end stands for any number of those before it."""
    form = allowed.split()[1:]
    least, most = (len(form) - 2, len(words)) if form[-1:] == [".."] else (len(form), len(form))
    if not least <= len(words) <= most:
        raise Faults(f"too {'few' if len(words) < least else 'many'} words; allowed is {allowed}")
    return words


def pair(word: str) -> tuple[int, int]:
    """Sweeps and step, as the line 'compare' has them."""
    sweeps, slash, step = word.partition("/")
    if not slash:
        raise Faults(f"'{shown(word)}' is no pair; allowed is SWEEPS/STEP")
    return whole_number(sweeps, "sweeps", UINT32), whole_number(step, "step", UINT32)


def leg(word: str) -> Edge:
    """A leg as the line 'sea' has it."""
    found = LEG.fullmatch(word)
    if not found:
        raise Faults(f"'{shown(word)}' is no leg; allowed is A-B:COST, with r, s or mK behind it")
    a, b, cost, kind, byte = found.groups()
    mark = whole_number(byte, "mark", BYTE) if byte else {None: FREE, "r": REQUIRED, "s": EXCLUDED}[kind]
    return Edge(whole_number(a, "buoy", BYTE), whole_number(b, "buoy", BYTE), whole_number(cost, "cost", INT32), mark)


def entry(word: str) -> tuple[int, int]:
    """A log's entry as the line 'recent' has it."""
    found = ENTRY.fullmatch(word)
    if not found:
        raise Faults(f"'{shown(word)}' is no entry; allowed is LEG:TIME")
    return whole_number(found[1], "leg", UINT64), whole_number(found[2], "time", INT32)


def lines_of(file: IO[bytes]) -> Iterator[bytes]:
    """The lines of a script, each as soon as it is there; of one that is too long the beginning."""
    while line := file.readline(LONGEST):
        rest = line
        while len(rest) == LONGEST and not rest.endswith(b"\n"):
            rest = file.readline(LONGEST)
        yield line


def run_script(file: IO[bytes], answered: Callable[[int, str, Answer], None]) -> bool:
    """Takes each line of a script, hands on each answer, and says whether every line could be read."""
    script, sound = Script(), True
    for number, line in enumerate(lines_of(file), 1):
        text = line.decode("utf-8-sig" if number == 1 else "utf-8", "surrogateescape")
        try:
            if len(line) == LONGEST:
                raise Faults(f"the line has {LONGEST} bytes or more")
            answer = script.take(text)
            if answer is not None:
                answered(number, text.split()[0], answer)
        except Faults as fault:
            complain(f"error: line {number}: {fault}")
            sound = False
    return sound
