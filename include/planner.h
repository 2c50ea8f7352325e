/* The route planner for C and C++. `make` builds build/libplanner.a and build/libplanner.so; installed, `pkg-config --cflags --libs planner`
 * says how to compile and link.
 *
 * Every call takes any values, answers and ends. It answers a planner_reply (planner_simulate a planner_sailed): `number` is 0 where the call is
 * accepted, a code from 1000 on, or the number of a refusal with its `place`; `value` and `nodes` are what the call says they are. A field without
 * a value is 0. A refusal leaves everything lent as it was. What each call promises is proved: see crates/ffi/specs. The proofs take for granted
 * what C cannot check: no pointer is null, not even with length 0, each leads to as much memory as the call is told, and no two parts that are
 * lent overlap.
 *
 * Refusals. Reading: 1 under 8 bytes; 2 n not 3 to 20; 3 a header zero byte not zero; 4 r over 1,000 or a wrong length; 5 head or next above
 * r; 6 record met before; 7 not 1 <= a < b <= n; 8 mark above 2 or a zero byte not zero; 9 cost not -100,000,000 to 100,000,000; 10 pair met
 * before.
 * Other calls: 15 a graph that breaks the rules, those of costs as in 9; 11 a list of wrong length; 12 a multiplier not -1,000,000 to 1,000,000,
 * or the first not 0; 13 ceiling not -5,000,000,000 to 5,000,000,000; 14 sweeps not 0 to 15, or step not 0 to 10,000; 32 the denominator is not
 * 1 to 1,000; 35 a byte of the list ashore above 1, vertex 1 ashore, or fewer than three vertices afloat; 30 a preview of no edge, or of a mark
 * that is not 1 or 2; 31 of an edge that is not free; 36 edges that are not a tour of all vertices in sailing order from vertex 1; 37 a student
 * number not 0 to 65,535, or a spread not 0 to 1,000; 38 a window that is not 1 to 32; 39 a log entry that names no edge or a time that is no cost
 * as in 9, with its place from 1. Of a record: 24 it fails its check; 20 no search is open; 21 one is open; 22 show while going on; 23 show after
 * 'none'. Of a shelf: 24 a place fails its check; 33 a name that is not 1 to 8; 34 nothing stands under the name. Of a dispatcher: 24 it fails its
 * check; 40 a turn of 0 nodes; 41 a ninth search; 42 a place that is not 1 to 8; 20 a place that holds no search.
 *
 * The list ashore, where a call takes one, has a byte for each vertex, 1 ashore and 0 afloat. Tours and 1-trees are over the vertices afloat alone
 * and have as many edges; an edge that touches a vertex ashore counts as excluded, whatever its mark, and the vertex's multiplier as 0 (it must be
 * one that 12 allows all the same). With n zeros no vertex is ashore.
 */
#ifndef PLANNER_H
#define PLANNER_H

#include <stddef.h>
#include <stdint.h>

#ifdef __cplusplus
extern "C" {
#endif

enum {
    PLANNER_VERTICES = 20,   /* at most */
    PLANNER_EDGES = 190,     /* at most */
    PLANNER_NODES = 22,      /* a search has at most n + 2 nodes waiting */
    PLANNER_ROW = 3,         /* words of a node's row of bits, a bit for each edge */
    PLANNER_PLACES = 8,      /* of a shelf, and of a dispatcher */
    PLANNER_WINDOW = 32,     /* at most */
    PLANNER_PAIRS = 16,      /* at most, in a comparison */
    PLANNER_STUDENT = 65535, /* at most */
    PLANNER_SPREAD = 1000,   /* at most */
    PLANNER_DENOMINATOR = 1000, /* at most */
    PLANNER_NONE = 1000,     /* tree, preview: no tree; rule: no 1-tree is within the ceiling */
    PLANNER_GOING_ON = 1001, /* run, tell */
    PLANNER_FINISHED = 1002, /* run */
    PLANNER_NO_TOUR = 1003,  /* tell: finished, and there is no tour within the ceiling */
    PLANNER_BEST = 1004,     /* tell: finished, the best cost is told */
    PLANNER_IDLE = 1005      /* turn: no unfinished search is held */
};

/* What a call answers. */
typedef struct {
    uint32_t number;
    uint64_t place;
    int64_t value;
    uint64_t nodes;
} planner_reply;

/* A graph: vertices 1 to n, edges 1 to m; edge k stands at place k - 1 and joins a and b. Marks: 0 free, 1 required, 2 excluded. What
 * stands past m counts for nothing. */
typedef struct {
    int32_t cost[PLANNER_EDGES];
    uint8_t a[PLANNER_EDGES], b[PLANNER_EDGES], mark[PLANNER_EDGES];
    uint8_t n, m;
} planner_graph;

/* What an opening takes beside the graph and the multipliers. Multipliers, step and bounds count in parts of a cost's unit, as many to the unit as
 * the denominator says (1 to PLANNER_DENOMINATOR; with 1 they count as costs do). Ceilings and the costs of tours count in the unit itself. With
 * lifting (0 no, 1 yes; any other number but 0 is yes) each edge that a pass keeps is tried again under multipliers lifted for it alone: as a
 * rule a search opens fewer nodes, and each takes longer; the verdict and the cost are the same. */
typedef struct {
    int64_t ceiling;
    uint32_t sweeps, step;
    uint64_t denominator;
    uint64_t lifting;
} planner_settings;

/* What a simulation answers: 0 with the total and the last state, or a refusal. */
typedef struct {
    uint32_t number;
    uint64_t place;
    int64_t total;
    uint64_t state;
} planner_sailed;

/* What every search of a comparison has alike; lifting as in planner_settings. */
typedef struct {
    int64_t ceiling;
    uint64_t budget;
    uint64_t denominator;
    uint64_t lifting;
} planner_terms;

/* A search record (docs/RECORD.md). Begin with planner_fresh; write nothing in it. A node of the stack is two rows of bits, that of its required
 * edges and then that of its excluded ones: edge k is bit (k - 1) % 64 of a row's word (k - 1) / 64. A node's multipliers are those of the vertices
 * afloat alone, in their order: the node at place p has them from carried[20 * p] on. */
typedef struct {
    planner_settings settings;
    int64_t upper;
    uint64_t count;
    uint64_t stack[PLANNER_NODES * 2 * PLANNER_ROW];
    uint64_t depth;
    planner_graph graph;
    int32_t multipliers[PLANNER_VERTICES];
    int32_t carried[PLANNER_NODES * PLANNER_VERTICES];
    uint8_t best[PLANNER_EDGES];
    uint8_t ashore[PLANNER_VERTICES];
    uint8_t open, has_best;
} planner_search;

/* A shelf of searches saved under the names 1 to PLANNER_PLACES (docs/RECORD.md): name k stands at places[k - 1]. Begin with
 * planner_fresh_shelf; write nothing in it. */
typedef struct {
    planner_search places[PLANNER_PLACES];
} planner_shelf;

/* A dispatcher (docs/RECORD.md): the place last served, 0 where none was, and the record of each place. It is large: keep it off a small stack.
 * Begin with planner_fresh_dispatcher; write nothing in it. */
typedef struct {
    size_t last;
    planner_search places[PLANNER_PLACES];
} planner_dispatcher;

/* 0 where the graph keeps to the rules, else 15. */
planner_reply planner_check(planner_graph g);

/* The graph in the bytes of a chart file into *g, zero at the places past its edges; 0, or 1 to 10 with place. */
planner_reply planner_read(planner_graph *g, const uint8_t *bytes, size_t length);

/* The chart file of a graph into out, of 8 + 12 * m bytes; 0, 15 or 11. */
planner_reply planner_write(planner_graph g, uint8_t *out, size_t length);

/* The least 1-tree: 0 with its bound as value, in parts as the denominator says, and in out a byte for each edge, 1 in, 0 out; or PLANNER_NONE,
 * which leaves out as it was; 15, 11, 12, 32 or 35. */
planner_reply planner_tree(planner_graph g, const int32_t *multipliers, size_t multipliers_length, const uint8_t *ashore, size_t ashore_length,
                          uint64_t denominator, uint8_t *out, size_t length);

/* The least 1-tree of a copy of the graph in which the free edge (1 to m) has the mark 1 or 2, as planner_tree answers; 15, 11, 12, 32, 35,
 * 30 or 31. The edge is free by its mark in the graph, even where it touches a vertex ashore. */
planner_reply planner_preview(planner_graph g, const int32_t *multipliers, size_t multipliers_length, const uint8_t *ashore, size_t ashore_length,
                             uint64_t denominator, size_t edge, uint32_t mark, uint8_t *out, size_t length);

/* The rulings: 0 with the bound as value, in parts as the denominator says, and in out a byte for each edge, 0 keep, 1 force, 2 bar, 3 already
 * required, 4 already excluded or touching a vertex ashore; or PLANNER_NONE, which leaves out as it was; 15, 11, 12, 13, 32 or 35. */
planner_reply planner_rule(planner_graph g, const int32_t *multipliers, size_t multipliers_length, const uint8_t *ashore, size_t ashore_length,
                          int64_t ceiling, uint64_t denominator, uint8_t *out, size_t length);

/* Each edge's cost becomes the greatest of its last w times (1 to PLANNER_WINDOW) in a log, entry i of which is edges[i] (1 to m) with times[i]; an
 * edge with fewer times uses those it has, one with none keeps its cost. Nothing else in *g changes; 0, or 15, 11, 38, or 39 with the place of the
 * first entry that is refused, from 1. */
planner_reply planner_recent(planner_graph *g, size_t w, const size_t *edges, size_t edges_length, const int32_t *times, size_t times_length);

/* A tour sailed edge by edge: the n edges in sailing order from vertex 1, numbered from 1; a student number, and a spread of delays. Each edge's
 * time into times, of n numbers; 15, 11, 36 or 37. */
planner_sailed planner_simulate(planner_graph g, const size_t *edges, size_t edges_length, uint64_t student, uint64_t spread, int64_t *times,
                                size_t length);

/* A search without a record for each pair of sweeps and step, of 1 to 16 pairs, each with the whole budget: into report, of one number a pair, the
 * count with which it finishes, or 0 if it is still going on; 0, 15, 11, 12, 13, 14, 32 or 35. */
planner_reply planner_compare(planner_graph g, const int32_t *multipliers, size_t multipliers_length, const uint8_t *ashore, size_t ashore_length,
                             planner_terms terms, const uint32_t *sweeps, size_t sweeps_length, const uint32_t *steps, size_t steps_length,
                             uint64_t *report, size_t length);

/* A fresh record. */
planner_search planner_fresh(void);

/* Opens a search; 0, 24, 21, 15, 11, 12, 13, 14, 32 or 35. */
planner_reply planner_open(planner_search *s, planner_graph g, const int32_t *multipliers, size_t multipliers_length, const uint8_t *ashore,
                          size_t ashore_length, planner_settings settings);

/* Opens at most budget nodes; PLANNER_GOING_ON or PLANNER_FINISHED with the count as nodes; 24 or 20. */
planner_reply planner_run(planner_search *s, uint64_t budget);

/* PLANNER_GOING_ON, PLANNER_NO_TOUR, or PLANNER_BEST with the cost as value; each with the count as nodes; 24 or 20. */
planner_reply planner_tell(planner_search *s);

/* The best tour into out, a byte for each edge: of the cheapest the first, which of two is the one that lacks the highest-numbered edge in which
   they differ; 0, 24, 20, 22, 23 or 11. */
planner_reply planner_show(planner_search *s, uint8_t *out, size_t length);

/* Makes the record fresh again; 0, 24 or 20. */
planner_reply planner_close(planner_search *s);

/* A shelf with nothing saved. */
planner_shelf planner_fresh_shelf(void);

/* The open search of *s under a name, in place of what stood there; *s is only read. 0, 24 (either record, any place), 20 or 33. */
planner_reply planner_save(planner_shelf *shelf, const planner_search *s, size_t name);

/* The search under a name into *s, whatever *s held; the shelf is only read. 0, 24 (either record, any place), 33 or 34. */
planner_reply planner_back(planner_search *s, const planner_shelf *shelf, size_t name);

/* A dispatcher that holds no search. */
planner_dispatcher planner_fresh_dispatcher(void);

/* Opens a search at the free place with the smallest number; 0 with that place; 24, 41, 15, 11, 12, 13, 14, 32 or 35. */
planner_reply planner_add(planner_dispatcher *d, planner_graph g, const int32_t *multipliers, size_t multipliers_length, const uint8_t *ashore,
                         size_t ashore_length, planner_settings settings);

/* Opens at most p nodes of the next unfinished search after the place last served, in cyclic order; 0 with its place, or PLANNER_IDLE where
 * there is none and nothing changes; 24 or 40. */
planner_reply planner_turn(planner_dispatcher *d, uint64_t p);

/* As planner_tell, planner_show and planner_close, of the search at a place, 1 to 8; 24, 42, 20, and show also 22, 23 or 11. */
planner_reply planner_tell_at(planner_dispatcher *d, size_t place);
planner_reply planner_show_at(planner_dispatcher *d, size_t place, uint8_t *out, size_t length);
planner_reply planner_close_at(planner_dispatcher *d, size_t place);

#ifdef __cplusplus
}
#endif

/* No byte of what is lent stands between fields, so that every byte has a meaning and a promise: docs/RECORD.md. */
#if defined(__cplusplus) && __cplusplus >= 201103L
#define PLANNER_ASSERT(fact) static_assert(fact, #fact)
#elif !defined(__cplusplus) && defined(__STDC_VERSION__) && __STDC_VERSION__ >= 201112L
#define PLANNER_ASSERT(fact) _Static_assert(fact, #fact)
#endif
#ifdef PLANNER_ASSERT
PLANNER_ASSERT(sizeof(planner_graph) == 1332);
PLANNER_ASSERT(offsetof(planner_graph, cost) == 0 && offsetof(planner_graph, a) == 760 && offsetof(planner_graph, b) == 950);
PLANNER_ASSERT(offsetof(planner_graph, mark) == 1140 && offsetof(planner_graph, n) == 1330 && offsetof(planner_graph, m) == 1331);
PLANNER_ASSERT(sizeof(planner_settings) == 32);
PLANNER_ASSERT(offsetof(planner_settings, ceiling) == 0 && offsetof(planner_settings, sweeps) == 8);
PLANNER_ASSERT(offsetof(planner_settings, step) == 12 && offsetof(planner_settings, denominator) == 16);
PLANNER_ASSERT(offsetof(planner_settings, lifting) == 24);
PLANNER_ASSERT(sizeof(planner_search) == 4496);
PLANNER_ASSERT(offsetof(planner_search, settings) == 0 && offsetof(planner_search, upper) == 32 && offsetof(planner_search, count) == 40);
PLANNER_ASSERT(offsetof(planner_search, stack) == 48 && offsetof(planner_search, depth) == 1104 && offsetof(planner_search, graph) == 1112);
PLANNER_ASSERT(offsetof(planner_search, multipliers) == 2444 && offsetof(planner_search, carried) == 2524);
PLANNER_ASSERT(offsetof(planner_search, best) == 4284 && offsetof(planner_search, ashore) == 4474);
PLANNER_ASSERT(offsetof(planner_search, open) == 4494 && offsetof(planner_search, has_best) == 4495);
PLANNER_ASSERT(sizeof(planner_shelf) == PLANNER_PLACES * sizeof(planner_search));
PLANNER_ASSERT(sizeof(planner_dispatcher) == sizeof(size_t) + PLANNER_PLACES * sizeof(planner_search));
PLANNER_ASSERT(offsetof(planner_dispatcher, last) == 0 && offsetof(planner_dispatcher, places) == sizeof(size_t));
PLANNER_ASSERT(sizeof(planner_reply) == 32 && offsetof(planner_reply, number) == 0 && offsetof(planner_reply, place) == 8);
PLANNER_ASSERT(offsetof(planner_reply, value) == 16 && offsetof(planner_reply, nodes) == 24);
PLANNER_ASSERT(sizeof(planner_sailed) == 32 && offsetof(planner_sailed, number) == 0 && offsetof(planner_sailed, place) == 8);
PLANNER_ASSERT(offsetof(planner_sailed, total) == 16 && offsetof(planner_sailed, state) == 24);
PLANNER_ASSERT(sizeof(planner_terms) == 32 && offsetof(planner_terms, ceiling) == 0 && offsetof(planner_terms, budget) == 8);
PLANNER_ASSERT(offsetof(planner_terms, denominator) == 16 && offsetof(planner_terms, lifting) == 24);
#undef PLANNER_ASSERT
#endif

#endif
