"""What each subcommand asks of the library, prints, and ends with."""
from __future__ import annotations

import argparse
import json
import sys
from collections.abc import Callable, Iterator, Sequence
from contextlib import contextmanager
from pathlib import Path

from . import formats
from .ashore import KINDS, Ashore, ashore_list, marked, touching
from .calls import run_script
from .ceilings import falling
from .classroom import Class
from .drawing import Drawing
from .faults import Faults
from .library import FREE, RULINGS, Graph, Refused, Tree, compare, preview, recent_costs, rule, simulate, tree
from .logs import read_log
from .output import Progress, complain, listed, say, write_file
from .page import Page
from .regrading import COLUMNS, Grade, regrade, row, summary
from .search import Answer, order, solve
from .showing import Showing

ANSWERED, NEGATIVE, WRONG, UNDECIDED, LOST = range(5)  # exit statuses
NO_SVG = (*formats.ENDINGS, ".png", ".jpg", ".jpeg", ".gif", ".pdf")  # ends of names that no drawing has
NO_PAGE = (*NO_SVG, ".svg")  # and no page


# What is printed


def say_json(**fields: object) -> None:
    """Prints an answer as one object."""
    say(json.dumps(fields))


def refuse(name: str, refused: Refused, as_json: bool) -> int:
    """Prints a refusal."""
    if as_json:
        say_json(file=name, refused=refused.number, place=refused.place, meaning=refused.meaning)
    else:
        complain(f"{name}: {refused}")
    return WRONG


# The subcommands


def on_graph(act: Callable[[argparse.Namespace, str, Graph], int]) -> Callable[[argparse.Namespace], int]:
    """A subcommand on the sea in FILE: what is refused, in reading or later, is said."""

    def run(arguments: argparse.Namespace) -> int:
        """The subcommand."""
        name = formats.shown_path(arguments.file)
        try:
            return act(arguments, name, formats.load(arguments.file))
        except Refused as refused:
            return refuse(name, refused, getattr(arguments, "json", False))

    return run


@contextmanager
def faults_of(name: str) -> Iterator[None]:
    """What is wrong with a sea is said with the file's name."""
    try:
        yield
    except Faults as faults:
        raise Faults(*(f"{name}: {line}" for line in faults.lines)) from None


def ashore_of(arguments: argparse.Namespace, name: str, graph: Graph) -> Ashore:
    """Who is ashore, as a list for the calls on this sea; None where nobody is."""
    with faults_of(name):
        return ashore_list(graph, arguments.ashore) if arguments.ashore else None


def solved(graph: Graph, ceiling: int | None, nodes: int, ashore: Ashore) -> Answer:
    """The cheapest round, with progress on a terminal."""
    progress = Progress()
    try:
        return solve(graph, ceiling, nodes, progress, ashore)
    finally:
        progress.end()


def run_solve(arguments: argparse.Namespace, name: str, graph: Graph) -> int:
    """planner solve"""
    ashore = ashore_of(arguments, name, graph)
    answer = solved(graph, arguments.ceiling, arguments.nodes, ashore)
    fields: dict[str, object] = {"verdict": answer.verdict}
    if answer.verdict == "cost":
        fields |= {"cost": answer.cost, "round": order(graph, answer.tour, ashore), "legs": answer.tour, "first": answer.first}
    elif answer.verdict == "going on":
        fields |= {"above": answer.above}
    if arguments.json:
        say_json(file=name, **out_of(arguments), **fields, nodes=answer.nodes)
    else:
        say_answer(graph, answer, ashore)
    return {"cost": ANSWERED, "none": NEGATIVE, "going on": UNDECIDED}[answer.verdict]


def say_answer(graph: Graph, answer: Answer, ashore: Ashore) -> None:
    """The cheapest round in lines."""
    lines = [answer.verdict]
    if answer.verdict == "cost":
        lines = [f"cost {answer.cost}", f"round {listed(order(graph, answer.tour, ashore), '-')}", f"legs {listed(answer.tour)}"]
        lines += [] if answer.first else ["another round of this cost may come first"]
    elif answer.verdict == "going on":
        lines.append(f"no round costs {answer.above} or less")
    say("\n".join([*lines, f"nodes {answer.nodes}"]))


def out_of(arguments: argparse.Namespace) -> dict[str, tuple[int, ...]]:
    """What is said beside an answer where buoys are ashore."""
    return {"ashore": arguments.ashore} if arguments.ashore else {}


def terms(arguments: argparse.Namespace) -> dict[str, object]:
    """What is said beside a bound: that it does not count in minutes, that buoys are ashore."""
    return {**({} if arguments.denominator == 1 else {"denominator": arguments.denominator}), **out_of(arguments)}


def bound_line(bound: int, **beside: object) -> str:
    """The first line of an answer: the bound, and what is said beside it."""
    words = ((name, listed(value, ",") if isinstance(value, tuple) else value) for name, value in beside.items())
    return " ".join([f"bound {bound}", *(f"{name} {value}" for name, value in words)])


def run_tree(arguments: argparse.Namespace, name: str, graph: Graph) -> int:
    """planner tree"""
    found = tree(graph, arguments.dues, denominator=arguments.denominator, ashore=ashore_of(arguments, name, graph))
    return say_tree(arguments, graph, found, {"file": name})


def say_tree(arguments: argparse.Namespace, graph: Graph, found: Tree | None, fields: dict[str, object]) -> int:
    """A 1-tree in lines, or as one object that has these fields too."""
    if arguments.json:
        say_json(**fields, **terms(arguments), **({"bound": found.bound, "legs": found.edges} if found else {"verdict": "no tree"}))
    elif found:
        legs = ((number, graph.edges[number - 1]) for number in found.edges)
        say("\n".join([bound_line(found.bound, **terms(arguments)), *(f"{number} {leg.a}-{leg.b} {leg.cost}" for number, leg in legs)]))
    else:
        say("no tree")
    return ANSWERED if found else NEGATIVE


def run_preview(arguments: argparse.Namespace, name: str, graph: Graph) -> int:
    """planner preview"""
    if arguments.leg is None:
        return preview_all(arguments, name, graph)
    if arguments.mark is None:
        raise Faults("planner preview: allowed is FILE, or FILE LEG MARK; see planner preview --help")
    ashore = ashore_of(arguments, name, graph)
    found = preview(graph, arguments.leg, arguments.mark, arguments.dues, denominator=arguments.denominator, ashore=ashore)
    return say_tree(arguments, graph, found, {"file": name, "leg": arguments.leg, "mark": arguments.mark})


def preview_all(arguments: argparse.Namespace, name: str, graph: Graph) -> int:
    """planner preview without a leg: both bounds for every free leg, those left out that touch a buoy ashore and change nothing"""
    dues, q, ashore = arguments.dues, arguments.denominator, ashore_of(arguments, name, graph)
    now, touched = tree(graph, dues, denominator=q, ashore=ashore), touching(graph, ashore)
    free = [(number, leg) for number, leg in enumerate(graph.edges, 1) if leg.mark == FREE and number not in touched]
    both = ([preview(graph, number, mark, dues, denominator=q, ashore=ashore) for mark in (1, 2)] for number, _ in free)
    bounds = [[found.bound if found else None for found in pair] for pair in both]
    if arguments.json:
        rows = [{"leg": number, "required": one, "struck": two} for (number, _), (one, two) in zip(free, bounds)]
        say_json(file=name, **terms(arguments), **({"bound": now.bound} if now else {"verdict": "no tree"}), previews=rows)
    else:
        words = [["no tree" if bound is None else str(bound) for bound in pair] for pair in bounds]
        lines = [f"{number} {leg.a}-{leg.b} required {one} struck {two}" for (number, leg), (one, two) in zip(free, words)]
        say("\n".join([bound_line(now.bound, **terms(arguments)) if now else "no tree", *lines]))
    return ANSWERED if now else NEGATIVE


def run_rule(arguments: argparse.Namespace, name: str, graph: Graph) -> int:
    """planner rule"""
    if (arguments.ceiling is None) == (arguments.ceilings is None):
        raise Faults("planner rule: allowed is one of --ceiling C and --ceilings HIGH LOW; see planner rule --help")
    return rule_at(arguments, name, graph) if arguments.ceilings is None else rule_falling(arguments, name, graph)


def rule_falling(arguments: argparse.Namespace, name: str, graph: Graph) -> int:
    """planner rule --ceilings"""
    high, low = arguments.ceilings
    if high < low:
        raise Faults(f"--ceilings {high} {low}: the higher ceiling comes first")
    found = falling(graph, high, low, arguments.dues, arguments.denominator, ashore_of(arguments, name, graph))
    if arguments.json:
        new = [{"ceiling": at, "leg": leg, "ruling": RULINGS[ruling]} for at, leg, ruling in found.appear] if found else []
        answer = {"bound": found.bound, "appear": new, "dead": found.dead} if found else {"verdict": "dead"}
        say_json(file=name, ceilings=[high, low], **terms(arguments), **answer)
    elif found:
        legs = ((at, number, graph.edges[number - 1], RULINGS[ruling]) for at, number, ruling in found.appear)
        lines = [f"{at}: {number} {leg.a}-{leg.b} {word}" for at, number, leg, word in legs]
        first = bound_line(found.bound, ceilings=f"{high} {low}", **terms(arguments))
        say("\n".join([first, *lines, *([] if found.dead is None else [f"{found.dead}: dead"])]))
    else:
        say("dead")
    return ANSWERED if found else NEGATIVE


def rule_at(arguments: argparse.Namespace, name: str, graph: Graph) -> int:
    """planner rule --ceiling"""
    ashore = ashore_of(arguments, name, graph)
    found = rule(graph, arguments.ceiling, arguments.dues, denominator=arguments.denominator, ashore=ashore)
    found = marked(found, touching(graph, ashore))
    if arguments.json:
        rulings = [KINDS[ruling] for ruling in found.rulings] if found else []
        answer = {"bound": found.bound, "rulings": rulings} if found else {"verdict": "dead"}
        say_json(file=name, ceiling=arguments.ceiling, **terms(arguments), **answer)
    elif found:
        legs = zip(graph.edges, found.rulings)
        lines = (f"{number} {leg.a}-{leg.b} {KINDS[ruling]}" for number, (leg, ruling) in enumerate(legs, 1))
        say("\n".join([bound_line(found.bound, ceiling=arguments.ceiling, **terms(arguments)), *lines]))
    else:
        say("dead")
    return ANSWERED if found else NEGATIVE


def run_simulate(arguments: argparse.Namespace, name: str, graph: Graph) -> int:
    """planner simulate"""
    sailed = simulate(graph, arguments.round, arguments.student, arguments.spread)
    if arguments.json:
        say_json(file=name, legs=arguments.round, times=sailed.times, total=sailed.total, state=sailed.state)
        return ANSWERED
    legs = ((number, graph.edges[number - 1], time) for number, time in zip(arguments.round, sailed.times))
    lines = [f"{number} {leg.a}-{leg.b} cost {leg.cost} delay {time - leg.cost} time {time}" for number, leg, time in legs]
    say("\n".join([*lines, f"total {sailed.total}", f"state {sailed.state}"]))
    return ANSWERED


def run_compare(arguments: argparse.Namespace, name: str, graph: Graph) -> int:
    """planner compare"""
    lifting, ashore = {"lifting": True} if arguments.lifting else {}, ashore_of(arguments, name, graph)
    counts = compare(graph, arguments.ceiling, arguments.allowance, arguments.pairs, arguments.dues, arguments.denominator, ashore=ashore, **lifting)
    rows = [(sweeps, step, count) for (sweeps, step), count in zip(arguments.pairs, counts)]
    if arguments.json:
        told = [{"sweeps": sweeps, "step": step, "nodes": count} for sweeps, step, count in rows]
        say_json(file=name, **terms(arguments), **lifting, pairs=told)
    else:
        say("\n".join(["sweeps  step  nodes", *(f"{sweeps:6} {step:5}  {count or 'going on'}" for sweeps, step, count in rows)]))
    return ANSWERED if all(counts) else UNDECIDED


def run_class(arguments: argparse.Namespace) -> int:
    """planner class"""
    hunts, seas = Class(), []
    for number, file in enumerate(arguments.files):
        name = formats.shown_path(file)
        try:
            graph = formats.load(file)
            ashore = ashore_of(arguments, name, graph)
            hunts.join(number, graph, arguments.ceiling, ashore)
        except Refused as refused:
            return refuse(name, refused, arguments.json)
        seas.append((name, graph, ashore))
    progress, statuses = Progress(), []
    try:
        told = hunts.answers(
            arguments.turn, arguments.nodes, arguments.ceiling is not None,
            lambda left, nodes: progress.line(lambda: f"{left} hunts are going on, the one just served after {nodes} nodes"),
        )  # fmt: skip
        for number, answer in told:
            progress.end()
            statuses.append(say_hunt(arguments, *seas[number], answer))
    except Refused as refused:
        progress.end()
        return refuse("planner class", refused, arguments.json)
    progress.end()
    return max(statuses, key=(ANSWERED, UNDECIDED, NEGATIVE).index)


def say_hunt(arguments: argparse.Namespace, name: str, graph: Graph, ashore: Ashore, answer: Answer) -> int:
    """One hunt of a class, on one line; its status."""
    found = answer.verdict == "cost"
    if arguments.json:
        round_found = {"cost": answer.cost, "round": order(graph, answer.tour, ashore), "legs": answer.tour} if found else {}
        say_json(file=name, **out_of(arguments), verdict=answer.verdict, **round_found, nodes=answer.nodes)
    else:
        words = f"cost {answer.cost} round {listed(order(graph, answer.tour, ashore), '-')}" if found else answer.verdict
        say(f"{name}: {words} nodes {answer.nodes}")
    return {"cost": ANSWERED, "none": NEGATIVE, "going on": UNDECIDED}[answer.verdict]


def not_over_input(out: str, read: str) -> None:
    """The file that is read is never written over."""
    if out != "-" and formats.same_file(out, read):
        raise Faults(f"{formats.shown_path(out)}: the file that is read; name another one to write")


def run_convert(arguments: argparse.Namespace, name: str, graph: Graph) -> int:
    """planner convert"""
    not_over_input(arguments.out, arguments.file)
    form = formats.form_to_write(arguments.out, arguments.to)
    with faults_of(name):
        data = formats.written(graph, form, Path(name).stem)
    write_file(arguments.out, data)
    pairs = [(edge.a, edge.b) for edge in graph.edges]
    if form == "tsplib" and pairs != sorted(pairs):
        complain(f"{name}: legs are numbered anew: TSPLIB has them in the order 1-2, 1-3, ..")
    return ANSWERED


def run_recent(arguments: argparse.Namespace, name: str, graph: Graph) -> int:
    """planner recent"""
    if arguments.file == arguments.log == "-":
        raise Faults("planner recent: FILE and LOG cannot both be standard input")
    not_over_input(arguments.out, arguments.file)
    not_over_input(arguments.out, arguments.log)
    form = formats.form_to_write(arguments.out, arguments.to)
    log = read_log(arguments.log)
    try:
        made = recent_costs(graph, arguments.last, log.edges, log.times)
    except Refused as refused:
        if not refused.place:
            raise
        return refuse(f"{formats.shown_path(arguments.log)}:{log.lines[refused.place - 1]}", refused, arguments.json)
    with faults_of(name):
        data = formats.written(made, form, Path(name).stem)
    changed = [(number, old, new.cost) for number, (old, new) in enumerate(zip(graph.edges, made.edges), 1) if old.cost != new.cost]
    if not arguments.json or arguments.out != "-":
        write_file(arguments.out, data)
    if arguments.json:
        rows = [{"leg": number, "was": old.cost, "now": cost} for number, old, cost in changed]
        say_json(file=name, entries=len(log.edges), costs=[edge.cost for edge in made.edges], changed=rows)
    else:
        lines = [f"{number} {old.a}-{old.b} was {old.cost} now {cost}" for number, old, cost in changed]
        (complain if arguments.out == "-" else say)("\n".join([f"entries {len(log.edges)} changed {len(changed)}", *lines]))
    return ANSWERED


def not_named(out: str, endings: Sequence[str], form: str) -> None:
    """A file is not given another form's name, so that no sea is written over."""
    if Path(out).suffix.lower() in endings:
        raise Faults(f"{formats.shown_path(out)}: the name says another form; {form}")


def run_draw(arguments: argparse.Namespace, name: str, graph: Graph) -> int:
    """planner draw"""
    not_over_input(arguments.out, arguments.file)
    not_named(arguments.out, NO_SVG, "a drawing is SVG, named .svg")
    ashore = ashore_of(arguments, name, graph)
    if ashore:
        tree(graph, ashore=ashore)  # refuses the list where no other call is made
    found = rule(graph, arguments.ceiling, ashore=ashore) if arguments.ceiling is not None else None
    if arguments.ceiling is not None and found is None:
        complain(f"{name}: dead: no 1-tree is within ceiling {arguments.ceiling}, so no round is")
        return NEGATIVE
    answer = None if arguments.no_round else solved(graph, None, arguments.nodes, ashore)
    with faults_of(name):
        drawing = Drawing(Path(name).name, graph, answer, found, arguments.ceiling, ashore)
    write_file(arguments.out, drawing.svg().encode("utf-8", "replace"))
    return without_round(name, answer, "drawn")


def without_round(name: str, answer: Answer | None, made: str) -> int:
    """Where a round was asked for and none is shown, that is said."""
    if answer is None or answer.verdict == "cost":
        return ANSWERED
    complain(f"{name}: {'there is no round' if answer.verdict == 'none' else f'going on after {answer.nodes} nodes'}; {made} without one")
    return NEGATIVE if answer.verdict == "none" else UNDECIDED


def run_page(arguments: argparse.Namespace, name: str, graph: Graph) -> int:
    """planner page"""
    not_over_input(arguments.out, arguments.file)
    not_named(arguments.out, NO_PAGE, "a page is HTML, named .html")
    if None not in (arguments.high, arguments.low) and arguments.high < arguments.low:
        raise Faults(f"--high {arguments.high} --low {arguments.low}: allowed is a lowest ceiling that is not above the highest")
    showing = Showing(graph, arguments.dues, arguments.denominator, ashore_of(arguments, name, graph))
    high, low = showing.ends(arguments.high, arguments.low)
    stops = showing.stops(high, low)
    answer = None if arguments.no_round else solved(graph, None, arguments.nodes, showing.ashore)
    with faults_of(name):
        page = Page(Path(name).name, showing, answer, stops)
    write_file(arguments.out, page.html().encode("utf-8", "replace"))
    status = without_round(name, answer, "written")
    if status == ANSWERED and stops[0].found is None:
        complain(f"{name}: dead at ceiling {high} already; written so")
        return NEGATIVE
    return status


def run_regrade(arguments: argparse.Namespace) -> int:
    """planner regrade"""
    if arguments.json and arguments.csv:
        raise Faults("--json and --csv: allowed is one of them")
    progress = Progress()
    grades: list[Grade] = []
    for grade in regrade(Path(arguments.folder), arguments.nodes, progress, arguments.ashore):
        progress.end()
        if arguments.csv and not grades:
            say(row(COLUMNS), end="")
        grades.append(grade)
        if arguments.json:
            say_json(**grade.fields())
        elif arguments.csv:
            say(row(grade.fields()[column] for column in COLUMNS), end="")
        else:
            say(grade.line())
    if not arguments.json and not arguments.csv:
        say(summary(grades))
    return max((grade.status() for grade in grades), key=(ANSWERED, UNDECIDED, WRONG, NEGATIVE).index)


def run_calls(arguments: argparse.Namespace) -> int:
    """planner calls"""

    def answered(line: int, call: str, answer: tuple[str, dict[str, object]]) -> None:
        """Prints one answer."""
        if arguments.json:
            say_json(line=line, call=call, **answer[1])
        else:
            say(answer[0])

    if arguments.script == "-":
        return ANSWERED if sys.stdin is None or run_script(sys.stdin.buffer, answered) else WRONG
    try:
        with open(arguments.script, "rb") as script:
            return ANSWERED if run_script(script, answered) else WRONG
    except (OSError, ValueError) as error:
        raise Faults(f"{formats.shown_path(arguments.script)}: {getattr(error, 'strerror', None) or error}") from None
