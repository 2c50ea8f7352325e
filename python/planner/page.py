"""A sea as one page for a class. The file has all that it needs and fetches nothing; every number in it was answered by a proved call before it was
written, and its script only looks up."""
from __future__ import annotations

import hashlib
import json
from base64 import b64encode
from collections.abc import Iterable, Sequence
from fractions import Fraction
from html import escape

from .ashore import KINDS
from .drawing import STYLES, buoys
from .faults import shown
from .library import CEILINGS, MARKS, RULINGS
from .page_picture import RANKS, Picture, kinds_of
from .page_script import SCRIPT
from .page_style import style
from .search import Answer
from .showing import BAR, FORCE, Showing, Stop

WORDS = {**{kind: words for kind, (words, _) in STYLES.items()}, "ashore": "ashore", "dead": "dead"}
MOST_NEW = 12  # legs named of those that become forced or barred at one ceiling
NOTHING = "\N{EN DASH}"
COLUMNS = (
    ("leg", "Leg"), ("name", "Buoys"), ("cost", "Cost"), ("ruling", "Ruling"), ("from", "Ruled"),
    ("required", "If required"), ("struck", "If struck"),
)  # fmt: skip
MEANINGS = {
    "bound": "no round costs less",
    "forced": "every round within the ceiling has this leg",
    "barred": "no round within the ceiling has it",
    "kept": "the 1-trees show neither",
    "required, struck": "as the chart has it",
    "ashore": "a buoy that is hauled out: rounds leave it out, and a leg that touches it has no part in any",
    "dead": "no round is within the ceiling",
    "no tree": "with that mark there would be no 1-tree, so no round",
}
KEYS = {
    "arrows, Page Up, Page Down": "the ceiling, change by change (in the table they scroll it)",
    "Home, End": "the highest and the lowest ceiling",
    "Tab, then Enter": "from leg to leg; choose one, or let it go",
    "R": "lay the cheapest round, or take it away",
    "Escape": "let go of the chosen leg",
}


def embedded(facts: object) -> str:
    """JSON that may stand in a page: nothing in it ends the script or begins a comment."""
    text = json.dumps(facts, separators=(",", ":"))
    return text.replace("&", "\\u0026").replace("<", "\\u003c").replace(">", "\\u003e")


def digest(text: str) -> str:
    """What the page's own policy knows a script or a style by."""
    return f"'sha256-{b64encode(hashlib.sha256(text.encode()).digest()).decode()}'"


def element(tag: str, inside: str, **attributes: object) -> str:
    """An element; `class_` and `for_` are attributes whose names Python has for itself, None is no attribute."""
    named = ((name.rstrip("_").replace("_", "-"), escape(str(value))) for name, value in attributes.items() if value is not None)
    opening = " ".join([tag, *(f'{name}="{value}"' for name, value in named)])
    return f"<{opening}>{inside}</{tag}>"


def defined(pairs: dict[str, str]) -> str:
    """A list of words and what they mean."""
    return element("dl", "".join(element("dt", escape(word)) + element("dd", escape(meaning)) for word, meaning in pairs.items()))


def some(names: list[str]) -> str:
    """The names, or the first of them and how many more there are."""
    more = f" and {len(names) - MOST_NEW} more" if len(names) > MOST_NEW else ""
    return ", ".join(names[:MOST_NEW]) + more


def unbroken(text: str) -> str:
    """A text whose lines end between words and not within a leg's name."""
    return " ".join(element("span", escape(word), class_="word") if "-" in word else escape(word) for word in text.split(" "))


class Page:
    """All that is written of a graph: these ceilings from high to low, and the answer of a search where one was asked."""

    def __init__(self, name: str, showing: Showing, answer: Answer | None, stops: Sequence[Stop]):
        self.name, self.showing, self.answer = shown(name), showing, answer
        self.graph, self.stops = showing.graph, stops
        self.round = answer if answer and answer.verdict == "cost" else None  # that can be laid
        # At the lowest living ceiling everything is ruled that any ceiling rules, so that each cost that is ever wanted has its room.
        self.picture = Picture(name, self.graph, answer, showing.fullest, None, showing.ashore)
        self.names = [f"{edge.a}-{edge.b}" for edge in self.graph.edges]
        self.costs = [str(edge.cost) for edge in self.graph.edges]

    # What is said

    def minutes(self, bound: int) -> str:
        """A bound in minutes, as ceilings and costs are: a whole number or a fraction."""
        return str(Fraction(bound, self.showing.denominator))

    def says(self, stop: Stop) -> str:
        """A ceiling in words."""
        if stop.found is None:
            if self.showing.bound is None:
                return "Dead: there is no 1-tree, so there is no round."
            return f"Dead: the bound {self.minutes(self.showing.bound)} is above the ceiling, so no round costs so little."
        forced, barred, kept = self.counted(stop, (FORCE, BAR, 0))
        return f"{forced} forced, {barred} barred, {kept} kept."

    def counted(self, stop: Stop, rulings: Iterable[int]) -> list[int]:
        """How many edges have each of these rulings."""
        return [stop.found.rulings.count(ruling) if stop.found else 0 for ruling in rulings]

    def news(self, stop: Stop) -> str:
        """What is new at a ceiling, in words."""
        if stop.found is None or not stop.new:
            return ""
        parts = []
        for ruling in (FORCE, BAR):
            new = [self.names[number - 1] for number in stop.new if stop.found.rulings[number - 1] == ruling]
            parts += [f"{WORDS[RULINGS[ruling]]} {some(new)}"] if new else []
        return f"New: {'; '.join(parts)}."

    def ruled(self, number: int) -> str:
        """At which ceilings an edge is ruled, in words."""
        mark = MARKS[self.graph.edges[number - 1].mark]
        if number in self.showing.touched:
            return "buoy ashore"
        if mark != "free":
            return "in the chart"
        if number not in self.showing.ruled:
            return "never" if self.showing.fullest else NOTHING
        ruling, ceiling = self.showing.ruled[number]
        word = WORDS[RULINGS[ruling]]
        return f"{word} always" if ceiling == CEILINGS[-1] else f"{word} \N{LESS-THAN OR EQUAL TO} {ceiling}"

    def previewed(self, number: int) -> tuple[str, str]:
        """Both previews of an edge in words."""
        if number not in self.showing.previews:
            return NOTHING, NOTHING
        required, struck = ("no tree" if bound is None else self.minutes(bound) for bound in self.showing.previews[number])
        return required, struck

    def round_words(self) -> str:
        """The answer of the search in words."""
        if self.answer is None:
            return ""
        if self.answer.verdict == "going on":
            return f"round not found yet; none costs {self.answer.above} or less"
        return f"cheapest round: cost {self.answer.cost}" if self.answer.verdict == "cost" else "there is no round"

    # What the script looks up

    def facts(self) -> dict[str, object]:
        """All of it."""
        return {
            "kinds": KINDS,
            "words": [WORDS[kind] for kind in KINDS],
            "ranks": RANKS,
            "stops": [self.stop_facts(stop) for stop in self.stops],
            "legs": [self.leg_facts(number) for number in range(1, self.graph.m + 1)],
            "round": self.round.cost if self.round else None,
            "laid": f"{self.round_words()}.",
        }

    def stop_facts(self, stop: Stop) -> dict[str, object]:
        """A ceiling: a digit for each leg, as the rule call has them, one of its own where a buoy is ashore; or null for 'dead'."""
        return {
            "ceiling": stop.ceiling,
            "rulings": "".join(map(str, stop.found.rulings)) if stop.found else None,
            "counts": self.counted(stop, range(len(KINDS))) if stop.found else None,
            "new": stop.new,
            "says": self.says(stop),
            "news": self.news(stop),
        }

    def leg_facts(self, number: int) -> dict[str, str]:
        """A leg, in words."""
        required, struck = self.previewed(number)
        return {
            "name": self.names[number - 1], "cost": self.costs[number - 1], "from": self.ruled(number), "required": required, "struck": struck,
        }  # fmt: skip

    # What is seen without it

    def html(self) -> str:
        """The whole page."""
        look = style()
        policy = f"default-src 'none'; style-src {digest(look)}; script-src {digest(SCRIPT)}; base-uri 'none'; form-action 'none'"
        return "\n".join([
            "<!DOCTYPE html>", '<html lang="en">', "<head>", '<meta charset="utf-8">',
            f'<meta http-equiv="Content-Security-Policy" content="{policy}">',
            '<meta name="viewport" content="width=device-width, initial-scale=1">',
            element("title", f"{escape(self.name)}: what each ceiling rules"),
            element("style", look), "</head>", "<body>",
            '<a class="skip" href="#table">To the table</a>',
            '<div class="screen">', self.strip(), "<main>", self.figure(), self.aside(), "</main>", "</div>", self.about(),
            element("script", embedded(self.facts()), type="application/json", id="facts"),
            element("script", SCRIPT), "</body>", "</html>", "",
        ])  # fmt: skip

    def strip(self) -> str:
        """The heading and the controls."""
        heading = element("h1", escape(self.name)) + element("p", f"{buoys(self.graph, self.showing.ashore)}, {self.graph.m} leg{'' if self.graph.m == 1 else 's'}")
        last = len(self.stops) - 1
        mover = "".join([
            element("button", "&#9664;", type="button", id="higher", aria_label="higher ceiling", title="higher ceiling"),
            f'<input type="range" id="slider" min="0" max="{last}" step="1" value="0" aria-label="ceiling, from high to low"{"" if last else " disabled"}>',
            element("button", "&#9654;", type="button", id="lower", aria_label="lower ceiling", title="lower ceiling"),
        ])  # fmt: skip
        wanted = '<input class="field" id="wanted" inputmode="numeric" autocomplete="off" size="11" aria-describedby="fault">'
        typed = element("label", "Ceiling", for_="wanted") + wanted + element("button", "Set") + element("p", "", class_="fault", id="fault", role="alert")
        lay = element("button", "Cheapest round (R)", type="button", id="lay", aria_pressed="false") if self.round else ""
        controls = element("div", mover, class_="mover") + element("form", typed, class_="typed", id="typed") + lay
        return element("div", element("header", heading) + element("div", controls, class_="controls"), class_="strip")

    def figure(self) -> str:
        """The picture, its legend and what is to be said of it."""
        first = self.stops[0]
        says = f"The sea at ceiling {first.ceiling}. The table has the same facts."
        met = [kind for kind in reversed(STYLES) if any(kind in kinds_of(stop.found, self.graph.m) for stop in self.stops)]
        rows = [self.sample(kind, f'{STYLES[kind][0]} <b id="count-{kind}">{self.count(first, kind)}</b>') for kind in met]
        if self.picture.out:
            rows.append(self.hauled_out())
        if self.round:
            rows.append(self.sample("round", f'{escape(self.round_words())}<span id="above"></span>', "in-round"))
        notes = [*([self.round_words()] if self.answer and not self.round else []), *self.picture.notes]
        said = element("div", "".join(element("p", unbroken(note)) for note in notes), class_="notes") if notes else ""
        return element("figure", self.picture.inside(first.found, says) + element("ul", "".join(rows), class_="legend") + said)

    def count(self, stop: Stop, kind: str) -> object:
        """How many edges are of a kind."""
        return self.counted(stop, [KINDS.index(kind)])[0] if stop.found else NOTHING

    def sample(self, kind: str, words: str, class_: str | None = None) -> str:
        """A line of the legend."""
        core = '<path class="core" d="M4 10H56"/>' if kind == "required" else ""
        line = f'<path class="sample {kind}" d="{"M10 10H50" if kind == "round" else "M4 10H56"}"/>'
        drawn = element("svg", line + core, viewBox="0 0 60 20", aria_hidden="true")
        return element("li", drawn + element("span", words), class_=class_)

    def hauled_out(self) -> str:
        """A line of the legend for the buoys ashore."""
        drawn = element("svg", '<circle class="buoy out" cx="30" cy="10" r="8"/>', viewBox="0 0 60 20", aria_hidden="true")
        return element("li", drawn + element("span", f"buoy ashore <b>{len(self.picture.out)}</b>"))

    def aside(self) -> str:
        """Beside the picture: the ceiling in words, the leg that is pointed at, the table."""
        first = self.stops[0]
        bound = NOTHING if self.showing.bound is None else self.minutes(self.showing.bound)
        big = f'<span>Ceiling <b id="ceiling">{first.ceiling}</b></span><span class="second">Bound <b id="bound">{bound}</b></span>'
        says = element("p", escape(self.says(first)), id="says", class_=None if first.found else "dead-word")
        words = element("p", big, class_="big") + says + element("p", escape(self.news(first)), id="news")
        state = element("section", words, class_="state", role="status", aria_atomic="true")
        return element("aside", state + element("p", "", id="laid", role="status", class_="unseen") + self.card() + self.table())

    def card(self) -> str:
        """The leg that is pointed at or chosen."""
        options = "".join(element("option", f"{number}: {name}", value=number) for number, name in enumerate(self.names, 1))
        pick = element("select", '<option value="0">choose a leg</option>' + options, id="pick", class_="pick", aria_label="choose a leg")
        name = element("p", "Point at a leg, or Tab to one and press Enter.", id="shown-name", class_="name")
        rows = {"ruling": "here", "from": "ruled", "required": "bound if required", "struck": "bound if struck"}
        told = "".join(element("div", element("dt", words) + element("dd", "", id=f"shown-{what}")) for what, words in rows.items())
        inside = pick + element("div", name + element("dl", told, id="facts-of-leg", hidden=""), role="status", aria_atomic="true")
        return element("section", inside, class_="card", aria_label="The leg shown")

    def table(self) -> str:
        """The same facts for those who cannot see the picture."""
        first = self.stops[0]
        kinds = kinds_of(first.found, self.graph.m)
        head = "".join(element("th", words, scope="col", class_=what) for what, words in COLUMNS)
        head += element("th", "Round", scope="col", class_="in-round") if self.round else ""
        rows = "".join(self.row(number, kind) for number, kind in enumerate(kinds, 1))
        caption = f'Every leg at ceiling <span id="at">{first.ceiling}</span>, and the bound if it were required or struck'
        without = "<noscript><p>Without scripts the page stays at its highest ceiling; the column 'Ruled' says what lower ones do.</p></noscript>"
        table = element("table", element("caption", caption) + element("thead", element("tr", head)) + element("tbody", rows))
        return without + element("div", table, class_="table", id="table", role="region", tabindex="0", aria_label="Every leg, as a table")

    def row(self, number: int, kind: str) -> str:
        """A leg in the table."""
        leg = self.leg_facts(number)
        cells = element("th", str(number), scope="row")
        for what, _ in COLUMNS[1:]:
            cells += element("td", escape(WORDS[kind] if what == "ruling" else leg[what]), class_=what)
        if self.round:
            cells += element("td", "yes" if number in self.round.tour else NOTHING, class_="in-round")
        return element("tr", cells, id=f"row-{number}", class_=kind, data_leg=number)

    def about(self) -> str:
        """What the words and the keys mean, and where the numbers come from."""
        source = "Bounds, rulings and the round were answered by proved calls of the planner's library when this page was written; it computes none of them."
        switch = '<label><input type="checkbox" id="keys" checked> Keys work wherever the focus is</label>'
        keys = element("h2", "Keys") + defined({key: does for key, does in KEYS.items() if self.round or key != "R"}) + element("p", switch)
        low, high = self.stops[-1].ceiling, self.stops[0].ceiling
        reach = f"Ceilings {low} to {high} can be shown. What is ruled stays ruled under every lower ceiling, until the sea is dead."
        meanings = {word: meaning for word, meaning in MEANINGS.items() if self.picture.out or word != "ashore"}
        words = element("h2", "Words") + defined(meanings)
        return element("footer", words + element("div", keys, class_="keys") + element("p", escape(reach)) + element("p", escape(source)), class_="about")
