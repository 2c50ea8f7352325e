"""A cheap tour by guesswork: nearest neighbours from each vertex, then 2-opt. Its weight is a first ceiling and decides nothing."""
from __future__ import annotations


def cheap_tour_weight(table: list[list[int]]) -> int:
    """The weight of a cheap tour of 3 vertices or more; table[i][j] is the weight between i and j."""
    n = len(table)
    return min(weight(table, exchanged(table, nearest(table, start))) for start in range(n))


def weight(table: list[list[int]], tour: list[int]) -> int:
    """The weight of a tour."""
    return sum(table[tour[i - 1]][tour[i]] for i in range(len(tour)))


def nearest(table: list[list[int]], start: int) -> list[int]:
    """The tour that always goes on to the nearest vertex left."""
    tour, left = [start], set(range(len(table))) - {start}
    while left:
        row = table[tour[-1]]
        tour.append(min(left, key=lambda vertex: (row[vertex], vertex)))
        left.remove(tour[-1])
    return tour


def exchanged(table: list[list[int]], tour: list[int]) -> list[int]:
    """The tour after reversing parts of it as long as that makes it cheaper."""
    n = len(tour)
    parts = [(i, j) for i in range(n - 2) for j in range(i + 2, n if i else n - 1)]
    better = True
    while better:
        better = False
        for i, j in parts:
            a, b, c, d = tour[i], tour[i + 1], tour[j], tour[(j + 1) % n]
            if table[a][c] + table[b][d] < table[a][b] + table[c][d]:
                tour[i + 1 : j + 1] = reversed(tour[i + 1 : j + 1])
                better = True
    return tour
