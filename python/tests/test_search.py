"""The cheapest round without a ceiling: against every order, against dynamic programming; how a ceiling is come to."""
import random
import unittest
from collections import Counter
from unittest import mock

import planner
from planner import search
from planner.search import LONG, SHORT, Answer, Ascent, Climb, cost_of, guessed_cost, levelled, some_tour
from support import EXAMPLES, FOUR, allowed_tours, distances, full_graph, held_karp, is_tour, planted, random_graph


class Solve(unittest.TestCase):
    def solved(self, graph, ceiling=None):
        """The answer, its tour held to the graph."""
        answer = planner.solve(graph, ceiling)
        self.assertNotEqual(answer.verdict, "going on")
        if answer.verdict == "cost":
            self.assertTrue(is_tour(graph, answer.tour), (graph, answer))
            self.assertEqual(sum(graph.edges[number - 1].cost for number in answer.tour), answer.cost)
        return answer

    def test_examples(self):
        self.assertEqual(planner.solve(EXAMPLES / "sea.txt").cost, 348)
        self.assertEqual(planner.solve(str(EXAMPLES / "regrade/gulf.txt")).cost, 456)
        answer = planner.solve(FOUR)
        self.assertEqual((answer.verdict, answer.cost, answer.tour), ("cost", 12, (1, 3, 4, 6)))
        self.assertEqual(planner.order(FOUR, answer.tour), [1, 2, 3, 4, 1])
        self.assertEqual(planner.solve(planner.Graph(3)).verdict, "none")

    def test_order_of_no_tour(self):
        circles = planner.Graph(6, [(1, 2, 1), (2, 3, 1), (1, 3, 1), (4, 5, 1), (5, 6, 1), (4, 6, 1)])
        for graph, edges, said in (
            (FOUR, (), "two at each"), (FOUR, (1, 3, 4), "two at each"), (FOUR, (1, 2, 4, 6), "two at each"), (FOUR, (1, 3, 4, 7), "no edge 7"),
            (FOUR, (0, 3, 4, 6), "no edge 0"), (circles, range(1, 7), "several circles"),
        ):  # fmt: skip
            with self.subTest(edges), self.assertRaisesRegex(ValueError, said):
                planner.order(graph, edges)

    def test_against_every_order(self):
        source, seen = random.Random(5), Counter()
        for _ in range(300):
            graph = random_graph(source, most=7, costs=source.choice((2, 12, 1_000_000, 100_000_000)))
            tours = allowed_tours(graph)
            least = min(tours.values(), default=None)
            for ceiling in (None, source.randint(-60, 60), *((least, least - 1) if tours else (0,))):
                answer = self.solved(graph, ceiling)
                expected = least if least is not None and (ceiling is None or least <= ceiling) else None
                self.assertEqual(answer.cost, expected, (graph, ceiling))
                if answer.tour:
                    cheapest = [sorted(tour, reverse=True) for tour, cost in tours.items() if cost == least]
                    self.assertEqual((sorted(answer.tour, reverse=True), answer.first), (min(cheapest), True), (graph, ceiling))
                    way = planner.order(graph, answer.tour)
                    self.assertEqual((way[0], way[-1], sorted(way[1:])), (1, 1, list(range(1, graph.n + 1))))
                    self.assertLess(way[1], way[-2])
                seen[answer.verdict, ceiling is None] += 1
        self.assertGreater(min(seen.values()), 60, seen)

    def test_held_karp(self):
        source = random.Random(8)
        for n, most in ((9, 40), (9, 100_000_000), (10, 1000), (11, 1_000_000), (12, 1000)):
            for graph in (distances(source, n, most), full_graph(n, lambda *_: source.randint(-most // 2, most))):
                least = held_karp(graph)
                self.assertEqual(self.solved(graph).cost, least)
                self.assertEqual(self.solved(graph, least).cost, least)
                self.assertEqual(self.solved(graph, least - 1).verdict, "none")

    def test_twenty_vertices(self):
        source = random.Random(9)
        for most in (1000, 300_000, 30_000_000):
            graph, least = planted(source, 20, most)
            self.assertEqual(self.solved(graph).cost, least)
            for graph in (graph, distances(source, 20, most), full_graph(20, lambda *_: source.randint(1, most))):
                least = self.solved(graph).cost
                self.assertEqual(self.solved(graph, least - 1).verdict, "none")

    def test_first_of_many(self):
        """All rounds cost the same: the first, where the nodes suffice; otherwise the cost, and a round of it."""
        graph = full_graph(7, lambda *_: 1)
        answer = self.solved(graph)
        self.assertEqual((answer.cost, answer.first), (7, True))
        self.assertEqual(sorted(answer.tour, reverse=True), min(sorted(tour, reverse=True) for tour in allowed_tours(graph)))
        graph = full_graph(12, lambda *_: 1)
        answer = planner.solve(graph, nodes=300)
        self.assertEqual((answer.verdict, answer.cost, answer.first, is_tour(graph, answer.tour)), ("cost", 12, False, True))

    def test_lifting(self):
        """Where legs are few; an answer is the same either way."""
        source, opened = random.Random(13), []
        full = full_graph(20, lambda *_: source.randint(1, 1000))
        few = [planner.Graph(n, sorted(source.sample(full_graph(n, lambda *_: source.randint(1, 30)).edges, 3 * n))) for n in (15, 16, 18, 20)]
        struck = planner.Graph(20, [edge if source.random() < 0.3 else edge._replace(mark=2) for edge in full.edges])
        plain = planner.Search.open
        for graph, lifting in ((full, False), (few[0], False), *((graph, True) for graph in few[1:]), (struck, True), (FOUR, False)):
            self.assertEqual(search.lifts(graph), lifting)
            with mock.patch.object(planner.Search, "open", lambda *words: opened.append(words[-2]) or plain(*words)):
                answer = self.solved(graph)
            with mock.patch.object(search, "lifts", lambda *_, lifting=lifting: not lifting):
                self.assertEqual(self.solved(graph).cost, answer.cost)
            self.assertEqual(set(opened), {lifting})
            opened.clear()
        many = planner.Graph(16, sorted(source.sample(full_graph(16, lambda *_: 1).edges, 57)))
        self.assertEqual([search.lifts(planner.Graph(16, many.edges[:count])) for count in (56, 57)], [True, False])

    def test_limit(self):
        graph = full_graph(12, lambda a, b: (a * b) % 7)
        answer = planner.solve(graph, nodes=0)
        self.assertEqual((answer.verdict, answer.nodes, answer.tour), ("going on", 0, ()))
        self.assertEqual(answer.above, planner.tree(graph).bound - 1)

    def test_progress(self):
        """Told between pieces: nodes rise, and the best so far falls to the answer or is none yet."""
        source, seen = random.Random(13), []
        graph = full_graph(14, lambda *_: source.randint(1, 3))
        planner.Search().open(graph, 60)
        searcher = planner.Search()
        searcher.open(graph, 60)
        searcher.run(10_500, lambda at: seen.append((at.record.count, at.best_so_far())))
        self.assertEqual([count for count, _ in seen], list(range(1000, 10_001, 1000))[: len(seen)])
        costs = [cost for _, cost in seen if cost is not None]
        self.assertEqual(costs, sorted(costs, reverse=True))


class Ceilings(unittest.TestCase):
    """How a ceiling is come to: guesswork, whether there is a tour, the climb."""

    def test_guesses_against_every_order(self):
        source, found = random.Random(10), Counter()
        for _ in range(150):
            graph = random_graph(source, most=6, costs=12)
            costs = allowed_tours(graph).values()
            guessed, some = guessed_cost(graph), some_tour(graph)
            self.assertIn(guessed, [None, *costs])
            self.assertEqual(some.verdict, "cost" if costs else "none")
            if costs:
                self.assertIn(some.cost, costs)
            found[bool(costs), guessed is not None] += 1
        self.assertGreater(found[True, True], 3 * found[True, False], found)

    def test_no_tour_of_twenty_vertices(self):
        """9 vertices have edges to 11 and there are no others, so there is no tour; at the highest ceiling no search would end."""
        source = random.Random(11)
        graph = planner.Graph(20, [(a, b, source.randint(1, 100_000_000)) for a in range(1, 10) for b in range(10, 21)])
        self.assertEqual(planner.solve(graph).verdict, "none")

    def test_ascent(self):
        """Bounds rise; a higher ceiling goes on where a lower one stopped, and comes to the same."""
        source = random.Random(12)
        graph = distances(source, 15, 1000)
        once, step = Ascent(graph, 100), Ascent(graph, 100)
        bound = planner.tree(graph).bound
        once.reach(bound + 10**6)
        for ceiling in range(bound, bound + 400, 40):
            step.reach(ceiling)
        self.assertEqual(step.reach(bound + 10**6), once.best)
        self.assertEqual(planner.tree(graph, once.best).bound, once.highest)
        self.assertGreater(once.highest, bound)

    def climbed(self, least, short, long, first):
        """The climb from 10 to 1000 where searches at ceilings above short, or above long, do not end."""

        def ask(ceiling, limit):
            self.assertTrue(10 < ceiling <= 1000)
            if ceiling > (short if limit == SHORT else long):
                return Answer("going on", limit)
            return Answer("cost", 1, least) if least and ceiling >= least else Answer("none", 1)

        climb = Climb(FOUR)
        climb.ask = ask
        answer = climb.climb(10, 1000, first)
        return answer.verdict, answer.cost, answer.nodes, answer.above

    def test_climb_below_a_tour(self):
        """Searches that have met a tour and go on: the cost is settled below it, by short searches or by long ones."""
        for costs, long_from, said in (
            ((60,), 1000, ("cost", 60, (1,), False)),
            ((60, 40), 1000, ("cost", 40, (1,), False)),
            ((11,), 1000, ("cost", 11, (1,), False)),
            ((60,), 50, ("cost", 60, (1,), False)),
        ):

            def ask(ceiling, limit, costs=costs, long_from=long_from):
                self.assertTrue(10 < ceiling <= 1000)
                for cost in costs:
                    if cost <= ceiling:
                        return Answer("going on", limit, cost, (1,))
                return Answer("going on", limit) if long_from <= ceiling and limit == SHORT else Answer("none", 1)

            for first in (11, 60, 500, 1000):
                climb = Climb(FOUR)
                climb.ask = ask
                answer = climb.climb(10, 1000, first)
                self.assertEqual((answer.verdict, answer.cost, answer.tour, answer.first), said)

    def test_climb(self):
        for least, short, long, said in (
            (60, 1000, 1000, ("cost", 60)),
            (60, 60, 60, ("cost", 60)),
            (61, 60, 61, ("cost", 61)),
            (70, 60, 1000, ("cost", 70)),
            (62, 60, 61, ("going on", None, LONG, 61)),
            (62, 60, 60, ("going on", None, LONG, 60)),
            (None, 60, 1000, ("none", None, 1, None)),
            (None, 1000, 1000, ("none", None, 1, None)),
        ):
            for first in (3, 11, 60, 61, 62, 63, 70, 500, 1000, 2000):
                self.assertEqual(self.climbed(least, short, long, first)[: len(said)], said)

    def test_levelled(self):
        """Every tour costs alike more, or seems to cost less where it has an edge at the end of the range; near costs stay as they are."""
        source, seen = random.Random(13), Counter()
        for turn in range(200):
            most = source.choice((20, 300_000, 20_000_000, 100_000_000))
            graph = random_graph(source, most=7, costs=most)
            if turn % 4 == 0:
                graph = graph.recosted(source.choice((-most, most)) for _ in graph.edges)
            other, more = levelled(graph)
            planner.check(other)
            tours, others = allowed_tours(graph), allowed_tours(other)
            self.assertEqual(tours.keys(), others.keys())
            dear = {number for number, edge in enumerate(other.edges, 1) if edge.cost == 100_000_000}
            for tour, cost in tours.items():
                seen["dear"] += bool(dear & tour)
                (self.assertLessEqual if dear & tour else self.assertEqual)(others[tour], cost + more)
            self.assertEqual([edge.mark for edge in other.edges], [edge.mark for edge in graph.edges])
            for tour, cost in tours.items():
                self.assertEqual(cost_of(graph, tour), cost)
            if most == 20:
                self.assertIs(other, graph)
            seen[other is graph, bool(tours)] += 1
        self.assertGreater(min(seen.values()), 10, seen)

    def test_what_only_seemed_cheap(self):
        """A tour with an edge that was too dear to be levelled: the graph itself is asked about."""
        source, again = random.Random(15), 0
        for _ in range(150):
            graph = random_graph(source, most=7)
            graph = graph.recosted(source.choice((-100_000_000, 100_000_000)) for _ in graph.edges)
            climb = Climb(graph)
            answer = climb.cheapest(search.HIGHEST_TOUR)
            self.assertEqual(answer.cost, min(allowed_tours(graph).values(), default=None), graph)
            again += climb.ask.__self__.asked[0].graph is graph and levelled(graph)[0] is not graph
        self.assertGreater(again, 5)

    def test_best_so_far(self):
        search = planner.Search(5)
        search.open(FOUR, 12)
        search.run(9)
        self.assertEqual((search.tell().cost, search.best_so_far()), (12, 7))

    def test_spread(self):
        self.assertEqual(search.spread(planner.Graph(3)), 0)
        raised = FOUR.recosted(edge.cost + 1000 for edge in FOUR.edges)
        self.assertEqual(search.spread(FOUR), search.spread(raised))
