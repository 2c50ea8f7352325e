"""The command `planner`: what it takes, and how it ends: never with a traceback, and never with success where output is lost."""
from __future__ import annotations

import argparse
import signal
import sys
import traceback
from collections.abc import Callable, Sequence
from pathlib import Path
from typing import Any, NamedTuple, NoReturn

from . import formats
from .calls import pair
from .classroom import TURN
from .faults import Faults, shown, span, whole_number, yes_or_no
from .library import BYTE, DENOMINATORS, HIGHEST_TOUR, INT32, INT64, MOST_VERTICES, UINT32, UINT64, WINDOWS
from .output import OutputLost, complain, say, silence
from .search import LONG
from .subcommands import (
    LOST, WRONG, on_graph, run_calls, run_class, run_compare, run_convert, run_draw, run_page, run_preview, run_recent, run_regrade, run_rule, run_simulate,
    run_solve, run_tree,
)  # fmt: skip

ABOUT = "The cheapest round of a sea of 3 to 20 buoys, every answer by proved calls of the library. docs/USING.md walks through all of it."
STATUSES = "Exit status: 0 answered; 1 'none', 'no tree', 'dead' or a wrong record; 2 bad usage or refused; 3 undecided; 4 output lost."


class Parser(argparse.ArgumentParser):
    """A parser whose help is not lost without a word, and whose complaint is one line."""

    def print_help(self, file: object = None) -> None:
        """Help is an answer like others."""
        say(self.format_help(), end="")

    def error(self, message: str) -> NoReturn:
        """The complaint, not long: it may hold words of the command line."""
        text = "".join(letter if letter.isprintable() else "?" for letter in message)
        complain(f"{self.prog}: {text if len(text) <= 160 else text[:158] + '..'}; see {self.prog} --help")
        self.exit(WRONG)


def number_of(what: str, allowed: range, said: range | None = None) -> Callable[[str], int]:
    """Reads a number of the command line. Whatever fits the library's number type passes: the library refuses.

    Of a word that does not pass, what is said to be allowed is the number type, or what is to be said instead.
    """

    def read(word: str) -> int:
        """The number."""
        try:
            return whole_number(word, what, allowed)
        except Faults as fault:
            told = fault if said is None else f"{what} '{shown(word)}' is out of range; allowed is {span(said)}"
            raise argparse.ArgumentTypeError(str(told)) from None

    return read


def mark(word: str) -> int:
    """A mark of the command line, by word or number."""
    return {"required": 1, "struck": 2}.get(word) or number_of("mark", UINT32)(word)


def legs(text: str) -> list[int]:
    """Legs of the command line: 1,4,6,3."""
    read = number_of("leg", UINT64)
    return [read(word) for word in text.replace(",", " ").split()]


def pairs(text: str) -> list[tuple[int, int]]:
    """Pairs of the command line: 0/0,15/10."""
    try:
        return [pair(word) for word in text.replace(",", " ").split()]
    except Faults as fault:
        raise argparse.ArgumentTypeError(str(fault)) from None


def lifting(word: str) -> bool:
    """A yes or no of the command line."""
    try:
        return yes_or_no(word, "lifting")
    except Faults as fault:
        raise argparse.ArgumentTypeError(str(fault)) from None


def dues(text: str) -> list[int]:
    """Dues of the command line: 0,0,1,-1."""
    read = number_of("due", INT32)
    return [read(word) for word in text.replace(",", " ").split()]


def ashore(text: str) -> tuple[int, ...]:
    """Buoys of the command line: 4,7. Which of them there are in a sea is known when it is read."""
    read = number_of("buoy", BYTE, range(2, MOST_VERTICES + 1))
    buoys = sorted(read(word) for word in text.replace(",", " ").split())
    for buoy, following in zip(buoys, buoys[1:]):
        if buoy == following:
            raise argparse.ArgumentTypeError(f"buoy {buoy} stands twice; allowed is each buoy once")
    return tuple(buoys)


class Command(NamedTuple):
    """A subcommand: its name, what it does, in code and in words, its arguments, and an example."""

    name: str
    act: Callable[[argparse.Namespace], int]
    meaning: str
    arguments: dict[str, dict[str, Any]]
    example: str


FILE = {"file": {"metavar": "FILE", "help": "a table, a chart's bytes, CSV or TSPLIB, told by what stands in it; '-' is standard input"}}
CEILING = {"metavar": "C", "type": number_of("ceiling", INT64)}
MOST = {"metavar": "N", "type": number_of("nodes", UINT64), "default": LONG, "help": f"open at most so many nodes in one search ({LONG})"}
DUES = {
    "--dues": {"metavar": "D,D,..", "type": dues, "help": "a due for each buoy, the first 0; zeros if not said"},
    "--denominator": {
        "metavar": "Q", "type": number_of("denominator", UINT64, DENOMINATORS), "default": 1,
        "help": f"dues, step and bounds count in Q-ths of a minute, Q {DENOMINATORS[0]} to {DENOMINATORS[-1]:,} (1)",
    },
}  # fmt: skip
ASHORE = {
    "--ashore": {
        "metavar": "B,B,..", "type": ashore, "default": (),
        "help": "buoys that are ashore, not buoy 1: rounds call at the others, and legs that touch these count as struck",
    },
}  # fmt: skip
JSON = {"--json": {"action": "store_true", "help": "print one JSON object a line"}}

PAIRS_SAID = "0/0,1/1,2/1,5/2,15/1,15/10"
PAIRS = pairs(PAIRS_SAID)

COMMANDS = (
    Command(
        "solve", on_graph(run_solve), "the cheapest round, its cost and its legs",
        {**FILE, "--ceiling": {**CEILING, "help": "only rounds that cost at most this"}, **ASHORE, "--nodes": MOST, **JSON},
        "solve examples/sea.txt",
    ),
    Command(
        "rule", on_graph(run_rule), "what a ceiling forces and bars, leg by leg",
        {
            **FILE, "--ceiling": {**CEILING, "help": "the highest cost of interest"},
            "--ceilings": {**CEILING, "nargs": 2, "metavar": ("HIGH", "LOW"), "help": "instead: which rulings appear where as the ceiling falls"},
            **DUES, **ASHORE, **JSON,
        },
        "rule examples/four.txt --ceiling 12",
    ),
    Command(
        "tree", on_graph(run_tree), "the cheapest 1-tree, its bound and its legs",
        {**FILE, **DUES, **ASHORE, **JSON},
        "tree examples/four.txt --dues 0,0,1,-1",
    ),
    Command(
        "preview", on_graph(run_preview), "what requiring or striking a free leg would do to the bound",
        {
            **FILE, "leg": {"metavar": "LEG", "nargs": "?", "type": number_of("leg", UINT64), "help": "its number; every free leg if not said"},
            "mark": {"metavar": "MARK", "nargs": "?", "type": mark, "help": "required or struck, 1 or 2"}, **DUES, **ASHORE,
            **JSON,
        },
        "preview examples/four.txt 1 struck",
    ),
    Command(
        "recent", on_graph(run_recent), "make each leg's cost the greatest of its last times in a log",
        {
            **FILE, "log": {"metavar": "LOG", "help": "lines 'LEG,TIME', the oldest first; '-' is standard input"},
            "out": {"metavar": "OUT", "nargs": "?", "default": "-", "help": "the file to write; standard output if not said"},
            "--last": {
                "metavar": "W", "type": number_of("number of last times", UINT64), "required": True,
                "help": f"how many of a leg's last times count, {WINDOWS[0]} to {WINDOWS[-1]}",
            },
            "--to": {"choices": formats.FORMS, "help": "the form, whatever the name"}, **JSON,
        },
        "recent examples/four.txt examples/season.csv --last 2",
    ),
    Command(
        "simulate", on_graph(run_simulate), "sail a round leg by leg, with a student's own delays",
        {
            **FILE, "--round": {"metavar": "L,L,..", "type": legs, "required": True, "help": "its legs in sailing order from buoy 1"},
            "--student": {"metavar": "S", "type": number_of("student", UINT64), "required": True, "help": "the student's number, 0 to 65,535"},
            "--spread": {"metavar": "E", "type": number_of("spread", UINT64), "required": True, "help": "delays are -E to E minutes, E 0 to 1,000"},
            **JSON,
        },
        "simulate examples/four.txt --round 1,4,6,3 --student 0 --spread 2",
    ),
    Command(
        "compare", on_graph(run_compare), "how many nodes a hunt opens with each of some settings",
        {
            **FILE, "--pairs": {"metavar": "S/P,..", "type": pairs, "default": PAIRS, "help": f"sweeps and step, 1 to 16 pairs ({PAIRS_SAID})"},
            "--ceiling": {**CEILING, "default": HIGHEST_TOUR, "help": "only rounds that cost at most this"},
            "--allowance": {"metavar": "N", "type": number_of("allowance", UINT64), "default": 10_000, "help": "nodes for each pair (10,000)"},
            **DUES, **ASHORE,
            "--lifting": {
                "metavar": "yes|no", "type": lifting, "default": False,
                "help": "yes: try each leg that a pass keeps again under dues lifted for it alone; as a rule fewer nodes, each takes longer (no)",
            },
            **JSON,
        },
        "compare examples/four.txt --ceiling 12",
    ),
    Command(
        "class", run_class, "the cheapest rounds of up to eight seas, whose hunts take turns",
        {
            "files": {"metavar": "FILE", "nargs": "+", "help": FILE["file"]["help"]},
            "--turn": {"metavar": "P", "type": number_of("nodes of a turn", UINT64), "default": TURN, "help": f"nodes of a turn ({TURN:,})"},
            "--ceiling": {**CEILING, "help": "only rounds that cost at most this"},
            "--ashore": {**ASHORE["--ashore"], "help": "buoys that are ashore in every sea, not buoy 1: rounds call at the others"},
            "--nodes": MOST, **JSON,
        },
        "class examples/four.txt examples/sea.txt",
    ),
    Command(
        "regrade", run_regrade, "hold the recorded costs of a folder of charts to the library",
        {
            "folder": {"metavar": "FOLDER", "help": "charts, and costs.txt (lines 'NAME COST' or 'NAME none') or costs.csv (name,cost)"},
            "--ashore": {**ASHORE["--ashore"], "help": "buoys that are ashore in every chart, not buoy 1: rounds call at the others"},
            "--csv": {"action": "store_true", "help": "print CSV"}, "--nodes": MOST, **JSON,
        },
        "regrade examples/regrade",
    ),
    Command(
        "convert", on_graph(run_convert), "write a sea in another form",
        {
            **FILE, "out": {"metavar": "OUT", "help": "the name's end says the form: .txt, .chart, .csv or .tsp; '-' is standard output"},
            "--to": {"choices": formats.FORMS, "help": "the form, whatever the name"},
        },
        "convert examples/sea.txt sea.csv",
    ),
    Command(
        "draw", on_graph(run_draw), "draw a sea with its cheapest round, as SVG",
        {
            **FILE, "out": {"metavar": "OUT", "nargs": "?", "default": "-", "help": "the file to write; standard output if not said"},
            "--ceiling": {**CEILING, "help": "also show what this ceiling forces and bars"}, **ASHORE,
            "--no-round": {"action": "store_true", "help": "leave the round out"}, "--nodes": MOST,
        },
        "draw examples/sea.txt sea.svg --ceiling 350",
    ),
    Command(
        "page", on_graph(run_page), "write one page for a class: a ceiling that falls, what it rules, previews",
        {
            **FILE, "-o": {"dest": "out", "metavar": "OUT", "default": "-", "help": "the file to write, .html; standard output if not said"},
            "--high": {**CEILING, "help": "the highest ceiling to show; just above the first that rules something if not said"},
            "--low": {**CEILING, "help": "the lowest; the first at which the sea is dead if not said"},
            **DUES, **ASHORE, "--no-round": {"action": "store_true", "help": "leave the round out"}, "--nodes": MOST,
        },
        "page examples/sea.txt -o sea.html",
    ),
    Command(
        "calls", run_calls, "make the calls of a script, one answer a line",
        {"script": {"metavar": "SCRIPT", "nargs": "?", "default": "-", "help": "the script; standard input if not said"}, **JSON},
        "calls examples/refusals.calls",
    ),
)  # fmt: skip


def parser() -> Parser:
    """The whole command line."""
    top = Parser(prog="planner", description=ABOUT, epilog=STATUSES)
    added = top.add_subparsers(required=True, metavar="COMMAND")
    for command in COMMANDS:
        words = command.meaning[0].upper() + command.meaning[1:] + "."
        example = f"Example: planner {command.example}"
        one = added.add_parser(command.name, help=command.meaning, description=words, epilog=example, allow_abbrev=False)
        one.set_defaults(act=command.act)
        for name, how in command.arguments.items():
            one.add_argument(name, **how)
    return top


def run(words: Sequence[str] | None) -> int:
    """Does what the command line says; the status."""
    if sys.stdout is None:
        raise OutputLost("standard output", "closed")
    try:
        arguments = parser().parse_args(words)
        status: int = arguments.act(arguments)
        return status
    except SystemExit as ended:
        return ended.code if isinstance(ended.code, int) else WRONG
    except Faults as faults:
        complain(str(faults))
        return WRONG


def main(words: Sequence[str] | None = None) -> int:
    """The command: never a traceback, and never success where output is lost."""
    if signal.getsignal(signal.SIGINT) is signal.default_int_handler:
        signal.signal(signal.SIGINT, signal.SIG_DFL)  # Ctrl-C ends the command by the signal, quietly
    try:
        status = run(words)
    except OutputLost as lost:
        complain(f"planner: {lost}" if str(lost) else "")
        status = LOST
    except Exception as error:  # a mistake in these lines, or no memory: said in one line too, with where it came up
        place = traceback.extract_tb(error.__traceback__)[-1]
        complain(f"planner: {type(error).__name__} at {Path(place.filename).name}:{place.lineno}: {shown(error)}")
        status = WRONG
    if status == LOST:
        silence(sys.stdout)
    return status
