"""Document 01's four-buoy sea from Python: its least 1-tree, its rulings, its cheapest round, one with a buoy ashore. Run with PYTHONPATH=python."""
import planner

graph = planner.Graph(4, [(1, 2, 4), (1, 3, 3), (1, 4, 5), (2, 3, 2), (2, 4, 6), (3, 4, 1)])
print(planner.tree(graph))
print(planner.rule(graph, 12))
answer = planner.solve(graph)  # or planner.solve("examples/four.txt")
print(answer.cost, planner.order(graph, answer.tour))
ashore = [0, 0, 0, 1]  # a byte a buoy: buoy 4 is ashore
print(planner.solve(graph, ashore=ashore).tour, planner.tree(graph, ashore=ashore))

search = planner.Search()  # the calls on a record, as methods
search.open(graph, ceiling=12)
print(search.run(1_000_000), search.tell(), search.show())
search.close()
try:
    search.tell()
except planner.Refused as refused:
    print(refused.number, refused.place, refused.meaning)

search.record.count = 1  # a record in which somebody wrote
try:
    search.tell()
except planner.Refused as refused:
    print(refused)
