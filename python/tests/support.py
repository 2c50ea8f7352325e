"""What several tests use: the command, seas of all kinds, damaged files, answers found by other means."""
from __future__ import annotations

import itertools
import math
import os
import random
import struct
import subprocess
import sys
from collections.abc import Callable, Sequence
from pathlib import Path

from planner import EXCLUDED, REQUIRED, Graph

ROOT = Path(__file__).resolve().parents[2]
EXAMPLES, SEAS = ROOT / "examples", Path(__file__).resolve().parent / "seas"
FOUR = Graph(4, [(1, 2, 4), (1, 3, 3), (1, 4, 5), (2, 3, 2), (2, 4, 6), (3, 4, 1)])
RULINGS, HUNT = ROOT / "target/bin/rulings", ROOT / "target/bin/hunt"


# The command


def shell(command: str, **environment: str) -> tuple[str, int]:
    """What a command prints, errors included, and its exit status."""
    done = subprocess.run(
        ["bash", "-c", command], cwd=ROOT, stdout=subprocess.PIPE, stderr=subprocess.STDOUT, check=False, env={**os.environ, **environment}
    )
    return done.stdout.decode("utf-8", "surrogateescape"), done.returncode


def planner(*words: object, given: str | bytes = b"") -> tuple[str, str, int]:
    """What the command prints as answers and as complaints, and its exit status."""
    data = given.encode() if isinstance(given, str) else given
    done = subprocess.run([sys.executable, ROOT / "planner", *map(str, words)], cwd=ROOT, input=data, capture_output=True, check=False)
    return done.stdout.decode("utf-8", "surrogateescape"), done.stderr.decode("utf-8", "surrogateescape"), done.returncode


def program(path: Path, ceiling: int, data: bytes) -> list[str]:
    """What 'rulings' or 'hunt' prints of a ceiling and a chart's bytes."""
    done = subprocess.run([path], input=struct.pack("<q", ceiling) + data, stdout=subprocess.PIPE, check=True)
    return done.stdout.decode().splitlines()


# Seas


def random_graph(source: random.Random, most: int = 20, costs: int = 60, marks: Sequence[int] = (0, 0, 0, 0, 0, 1, 2)) -> Graph:
    """A sea with half or more of all legs, in any order."""
    n = source.randint(3, most)
    pairs = list(itertools.combinations(range(1, n + 1), 2))
    source.shuffle(pairs)
    share = source.choice((0.5, 0.8, 1))
    return Graph(n, [(a, b, source.randint(-costs, costs), source.choice(marks)) for a, b in pairs[: int(share * len(pairs))]])


def full_graph(n: int, cost: Callable[[int, int], int]) -> Graph:
    """A sea with all legs."""
    return Graph(n, [(a, b, cost(a, b)) for a, b in itertools.combinations(range(1, n + 1), 2)])


def distances(source: random.Random, n: int, most: int) -> Graph:
    """A sea with all legs, costs as between places in a square."""
    places = [(source.random(), source.random()) for _ in range(n + 1)]
    return full_graph(n, lambda a, b: round(most / 1.5 * math.dist(places[a], places[b])))


def planted(source: random.Random, n: int, most: int) -> tuple[Graph, int]:
    """A sea with all legs and the cost of its cheapest round: each leg costs the shares of its ends, and off one round some more."""
    share = [source.randint(0, most) for _ in range(n + 1)]
    order = source.sample(range(1, n + 1), n)
    tour = {frozenset(pair) for pair in zip(order, order[1:] + order[:1])}
    graph = full_graph(n, lambda a, b: share[a] + share[b] + (0 if frozenset((a, b)) in tour else source.randint(1, most // 3)))
    return graph, 2 * sum(share[1:])


# Answers found by other means


def allowed_tours(graph: Graph) -> dict[frozenset[int], int]:
    """The numbers of the edges of all allowed tours with their costs, by going through every order of the vertices."""
    numbers = {(edge.a, edge.b): k for k, edge in enumerate(graph.edges, 1) if edge.mark != EXCLUDED}
    required = {k for k, edge in enumerate(graph.edges, 1) if edge.mark == REQUIRED}
    found = {}
    for order in itertools.permutations(range(2, graph.n + 1)):
        steps = zip((1, *order), (*order, 1))
        edges = frozenset(numbers.get((min(step), max(step))) for step in steps)
        if None not in edges and required <= edges:
            found[edges] = sum(graph.edges[k - 1].cost for k in edges)
    return found


def held_karp(graph: Graph) -> int:
    """The least cost of a tour of a graph with all edges free, by Held and Karp's dynamic programme over sets of vertices."""
    cost = {}
    for edge in graph.edges:
        cost[edge.a - 2, edge.b - 2] = cost[edge.b - 2, edge.a - 2] = edge.cost
    others = range(graph.n - 1)  # vertices 2 to n; vertex 1 is -1
    least = {(1 << v, v): cost[-1, v] for v in others}
    for members in range(1, 1 << (graph.n - 1)):
        inside = [v for v in others if members >> v & 1]
        for v in inside if len(inside) > 1 else ():
            least[members, v] = min(least[members ^ 1 << v, u] + cost[u, v] for u in inside if u != v)
    return min(least[(1 << (graph.n - 1)) - 1, v] + cost[v, -1] for v in others)


def is_tour(graph: Graph, numbers: Sequence[int]) -> bool:
    """Whether these edges are one closed walk through all vertices, with every required edge and no excluded one."""
    required = {k for k, edge in enumerate(graph.edges, 1) if edge.mark == REQUIRED}
    chosen = [graph.edges[k - 1] for k in numbers]
    if len(set(numbers)) != graph.n or not required <= set(numbers) or any(edge.mark == EXCLUDED for edge in chosen):
        return False
    left, at, met = set(chosen), 1, 0
    while left:
        following = next((edge for edge in left if at in edge[:2]), None)
        if following is None:
            return False
        left.remove(following)
        at, met = sum(following[:2]) - at, met + 1
        if at == 1:
            break
    return met == graph.n


# Chart files


def any_form(source: random.Random, graph: Graph) -> bytearray:
    """A file of the chart in any form: its chain in any order of records, with records of any contents off it."""
    count = graph.m + source.choice((0, 0, 1, 5))
    places = source.sample(range(1, count + 1), graph.m)
    data = bytearray(struct.pack("<BBHHH", graph.n, 0, places[0] if places else 0, count, 0) + source.randbytes(12 * count))
    for edge, place, following in zip(graph.edges, places, [*places[1:], 0]):
        struct.pack_into("<BBBBiHH", data, 12 * place - 4, edge.a, edge.b, edge.mark, 0, edge.cost, following, 0)
    return data


def damage(source: random.Random, data: bytearray) -> None:
    """One fault: another length, or another byte, most often one of the header's or one that decides something in a record."""
    kind = source.randrange(7)
    if kind == 0:
        del data[source.choice((source.randrange(9), source.randrange(len(data)))) :]
    elif kind == 1:
        data += source.randbytes(source.choice((1, 12)))
    elif kind == 2:
        data[source.randrange(min(len(data), 8))] = source.choice((0, 1, 2, 21, 255))
    elif kind == 3 or len(data) < 20:
        data[source.randrange(len(data))] = source.randrange(256)
    else:
        count = (len(data) - 8) // 12
        byte = source.choice((0, 1, 0, 1, 2, 3, 6, 7, 8, 8, 8, 9, 10, 11))
        data[8 + 12 * source.randrange(count) + byte] = source.choice((0, 1, 2, 3, 4, source.randrange(256), 255))


def damaged(source: random.Random) -> bytes:
    """A chart file with no fault, one or two."""
    data = any_form(source, random_graph(source, most=9, costs=100_000_000))
    for _ in range(source.choice((0, 1, 1, 2))):
        if data:
            damage(source, data)
    return bytes(data)


def chain_fault(data: bytes) -> tuple[int, int]:
    """Document 01's refusal of a chart file, number and place; (0, 0) where there is none. Written from its text, for comparison."""
    if len(data) < 8:
        return 1, 0
    n, zero, place, count, zeros = struct.unpack_from("<BBHHH", data)
    if not 3 <= n <= 20:
        return 2, 0
    if zero or zeros:
        return 3, 0
    if count > 1000 or len(data) != 8 + 12 * count:
        return 4, 0
    met, pairs = set(), set()
    while place:
        if place > count:
            return 5, place
        if place in met:
            return 6, place
        met.add(place)
        a, b, mark, zero, cost, following, zeros = struct.unpack_from("<BBBBiHH", data, 12 * place - 4)
        faults = ((7, not 1 <= a < b <= n), (8, mark > 2 or zero or zeros), (9, abs(cost) > 100_000_000), (10, (a, b) in pairs))
        if number := next((number for number, wrong in faults if wrong), 0):
            return number, place
        pairs.add((a, b))
        place = following
    return 0, 0
