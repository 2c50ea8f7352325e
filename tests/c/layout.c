/* What C and C++ see of include/planner.h: the sizes, where each field stands, and that calls fill every field which they should. It prints
 * how much it compared. Build and run: see .ci/run. */
#include "planner.h"
#include <stdio.h>
#include <string.h>

#ifdef __cplusplus
#define CLAIM(claim) static_assert(claim, #claim)
#else
#define CLAIM(claim) _Static_assert(claim, #claim)
#endif
#define AT(kind, field, offset) CLAIM(offsetof(kind, field) == (offset))
#define FOUR_WORDS(kind, a, b, c, d) CLAIM(sizeof(kind) == 32); AT(kind, a, 0); AT(kind, b, 8); AT(kind, c, 16); AT(kind, d, 24)

FOUR_WORDS(planner_reply, number, place, value, nodes);
FOUR_WORDS(planner_sailed, number, place, total, state);
FOUR_WORDS(planner_terms, ceiling, budget, denominator, lifting);

CLAIM(sizeof(planner_settings) == 32);
AT(planner_settings, ceiling, 0); AT(planner_settings, sweeps, 8); AT(planner_settings, step, 12);
AT(planner_settings, denominator, 16); AT(planner_settings, lifting, 24);

CLAIM(sizeof(planner_graph) == 1332);
AT(planner_graph, cost, 0); AT(planner_graph, a, 760); AT(planner_graph, b, 950);
AT(planner_graph, mark, 1140); AT(planner_graph, n, 1330); AT(planner_graph, m, 1331);

CLAIM(sizeof(planner_search) == 4496);
AT(planner_search, settings, 0); AT(planner_search, upper, 32); AT(planner_search, count, 40);
AT(planner_search, stack, 48); AT(planner_search, depth, 1104); AT(planner_search, graph, 1112);
AT(planner_search, multipliers, 2444); AT(planner_search, carried, 2524); AT(planner_search, best, 4284);
AT(planner_search, ashore, 4474); AT(planner_search, open, 4494); AT(planner_search, has_best, 4495);

CLAIM(sizeof(planner_dispatcher) == sizeof(size_t) + 8 * sizeof(planner_search));
AT(planner_dispatcher, last, 0);
AT(planner_dispatcher, places, sizeof(size_t));

static int passed, failed;

static void expect(const char *what, int holds) {
    if (holds) {
        passed++;
        return;
    }
    failed++;
    printf("layout: %s\n", what);
}

static void said_so(const char *what, planner_reply said, uint32_t number, uint64_t place, int64_t value, uint64_t nodes) {
    expect(what, said.number == number && said.place == place && said.value == value && said.nodes == nodes);
}

/* Whether these are the bytes of a record from an offset on. */
static int stands(const planner_search *s, size_t offset, const void *bytes, size_t length) {
    return memcmp((const unsigned char *)s + offset, bytes, length) == 0;
}

/* A graph of 7 vertices with all edges but one: different costs, and marks of all three kinds. Its file goes into bytes. */
enum { N = 7, M = 20, FILE_LENGTH = 8 + 12 * M };

static planner_graph sample(uint8_t bytes[FILE_LENGTH]) {
    planner_graph g;
    int k = 0;
    memset(&g, 0, sizeof g);
    memset(bytes, 0, FILE_LENGTH);
    for (int a = 1; a <= N; a++) {
        for (int b = a + 1; b <= N && k < M; b++, k++) {
            g.cost[k] = 99000000 + (a * 7919 + b * 104729) % 5000 + k;
            g.a[k] = (uint8_t)a;
            g.b[k] = (uint8_t)b;
            g.mark[k] = k == 3 ? 1 : k == 4 ? 2 : 0;
            uint8_t *r = bytes + 8 + 12 * k;
            r[0] = g.a[k];
            r[1] = g.b[k];
            r[2] = g.mark[k];
            for (int i = 0; i < 4; i++) r[4 + i] = (uint8_t)(g.cost[k] >> (8 * i));
            r[8] = (uint8_t)(k + 1 == M ? 0 : k + 2);
        }
    }
    g.n = bytes[0] = N;
    g.m = bytes[4] = M;
    bytes[2] = 1;
    return g;
}

/* Whether edge k + 1 has its bit set in a row. */
static int bit(const uint64_t *row, size_t k) { return (int)(row[k / 64] >> (k % 64) & 1); }

/* The rows of a node: no edge in both, none past the edges in use, and how many are required. */
static int rows_fit(const uint64_t *node, size_t used, size_t *required) {
    int fit = 1;
    *required = 0;
    for (size_t k = 0; k < 64 * PLANNER_ROW; k++) {
        int in = bit(node, k), out = bit(node + PLANNER_ROW, k);
        *required += (size_t)in;
        if ((in && out) || (k >= used && (in || out))) fit = 0;
    }
    return fit;
}

/* Whether edge k + 1 touches a vertex ashore. */
static int touches(const planner_graph *g, const uint8_t *ashore, size_t k) { return ashore[g->a[k] - 1] || ashore[g->b[k] - 1]; }

/* Whether a node's rows are the marks of a graph, the edges that touch a vertex ashore being excluded. */
static int rows_are(const uint64_t *node, const planner_graph *g, const uint8_t *ashore) {
    int same = 1;
    for (size_t k = 0; k < M; k++) {
        int mark = touches(g, ashore, k) ? 2 : g->mark[k];
        if (bit(node, k) != (mark == 1) || bit(node + PLANNER_ROW, k) != (mark == 2)) same = 0;
    }
    return same;
}

/* Puts the multipliers of the vertices afloat into a list, in their order, and tells how many they are. */
static size_t of_afloat(int32_t *list, const int32_t *multipliers, const uint8_t *ashore) {
    size_t afloat = 0;
    for (size_t v = 0; v < N; v++) {
        if (!ashore[v]) list[afloat++] = multipliers[v];
    }
    return afloat;
}

/* What an opening takes beside its settings. */
typedef struct {
    planner_graph g;
    const int32_t *multipliers;
    const uint8_t *ashore;
} given;

/* Each field of a record of an open search, by name and at its offset; the marks of the waiting nodes are the caller's to judge. */
static void record(const planner_search *s, const given *of, planner_settings settings, int64_t upper, uint64_t count) {
    int32_t padded[PLANNER_VERTICES] = {0}, own[N];
    uint8_t zeros[PLANNER_EDGES] = {0}, list[PLANNER_VERTICES] = {0};
    uint64_t depth = s->depth;
    size_t afloat = of_afloat(own, of->multipliers, of->ashore);
    memcpy(padded, of->multipliers, N * sizeof *of->multipliers);
    memcpy(list, of->ashore, N);
    expect("settings", stands(s, 0, &settings, sizeof settings) && s->settings.ceiling == settings.ceiling
                           && s->settings.sweeps == settings.sweeps && s->settings.step == settings.step
                           && s->settings.denominator == settings.denominator && s->settings.lifting == settings.lifting);
    expect("upper", stands(s, 32, &upper, 8) && s->upper == upper);
    expect("count", stands(s, 40, &count, 8) && s->count == count);
    expect("depth", stands(s, 1104, &depth, 8) && 0 < depth && depth <= afloat + 2);
    expect("graph", stands(s, 1112, &of->g, sizeof of->g));
    expect("multipliers", stands(s, 2444, padded, sizeof padded));
    expect("best past m", stands(s, 4284 + M, zeros, PLANNER_EDGES - M));
    expect("ashore", stands(s, 4474, list, sizeof list) && memcmp(s->ashore, list, sizeof list) == 0);
    expect("open", stands(s, 4494, "\1", 1) && s->open == 1);
    for (size_t p = 0; p < PLANNER_NODES; p++) {
        const uint64_t *node = s->stack + 2 * PLANNER_ROW * p;
        size_t required = 0;
        expect("a node", stands(s, 48 + 16 * PLANNER_ROW * p, node, 16 * PLANNER_ROW));
        expect("a node's rows", rows_fit(node, p < depth ? M : 0, &required) && (p >= depth || required >= p));
        const int32_t *carried = s->carried + PLANNER_VERTICES * p;
        size_t vertices = p < depth ? afloat : 0;
        int struck = 1;
        expect("what a node carries", stands(s, 2524 + 4 * PLANNER_VERTICES * p, carried, 4 * PLANNER_VERTICES) && carried[0] == 0);
        expect("carried past those afloat", memcmp(carried + vertices, zeros, 4 * (PLANNER_VERTICES - vertices)) == 0);
        for (size_t k = 0; k < M && p < depth; k++) {
            if (touches(&of->g, of->ashore, k) && !bit(node + PLANNER_ROW, k)) struck = 0;
        }
        expect("what touches a vertex ashore", struck);
    }
}

int main(void) {
    static planner_search s, fresh;
    static uint8_t bytes[FILE_LENGTH], out[FILE_LENGTH];
    int32_t multipliers[N] = {0, 10, -20, 30, -40, 50, 60}, own[N];
    const uint8_t afloat[N] = {0}, ashore[N] = {0, 0, 0, 1, 0, 0, 0};
    planner_settings settings = {INT64_C(4900000000), 4, 370, 7, 0}; /* a ceiling wider than 4 bytes */
    planner_graph g = sample(bytes), read;
    given with = {g, multipliers, ashore}, without = {g, multipliers, afloat};
    planner_reply said;
    uint64_t nodes = 0;
    int64_t cost = 0;

    memset(&read, 0xa5, sizeof read);
    said_so("read", planner_read(&read, bytes, FILE_LENGTH), 0, 0, 0, 0);
    expect("the graph that was read", memcmp(&read, &g, sizeof g) == 0);
    bytes[8 + 12 * 5] = 99;
    said_so("a refusal's place", planner_read(&read, bytes, FILE_LENGTH), 7, 6, 0, 0);
    expect("a refusal leaves the graph", memcmp(&read, &g, sizeof g) == 0);
    said_so("check", planner_check(g), 0, 0, 0, 0);
    said_so("write", planner_write(g, out, FILE_LENGTH), 0, 0, 0, 0);
    bytes[8 + 12 * 5] = g.a[5];
    expect("the file that was written", memcmp(out, bytes, FILE_LENGTH) == 0);

    {
        const size_t edges[5] = {2, M, 2, 2, M + 1};
        const int32_t times[5] = {900, -7, 300, 200, 1};
        planner_graph made = g;
        read = g;
        made.cost[1] = 300;
        made.cost[M - 1] = -7;
        said_so("recent costs", planner_recent(&read, 2, edges, 4, times, 4), 0, 0, 0, 0);
        expect("the graph that a log makes", memcmp(&read, &made, sizeof made) == 0);
        said_so("a bad entry's place", planner_recent(&read, PLANNER_WINDOW, edges, 5, times, 5), 39, 5, 0, 0);
        said_so("lists of two lengths", planner_recent(&read, 2, edges, 4, times, 5), 11, 0, 0, 0);
        said_so("a window too long", planner_recent(&read, PLANNER_WINDOW + 1, edges, 4, times, 4), 38, 0, 0, 0);
        expect("a refused log leaves the graph", memcmp(&read, &made, sizeof made) == 0);
    }

    {
        /* Each argument where the call looks for it: the same tree with each denominator, its bound so many times as high. */
        planner_terms terms = {settings.ceiling, 1, 1001, 0};
        const uint32_t pair[1] = {0};
        uint64_t report[1] = {9};
        uint8_t one[M], ten[M];
        const int32_t zeros[N] = {0};
        int64_t bound = planner_tree(g, zeros, N, afloat, N, 1, one, M).value;
        said_so("a bound in tenths", planner_tree(g, zeros, N, afloat, N, 10, ten, M), 0, 0, 10 * bound, 0);
        expect("the same tree", memcmp(one, ten, M) == 0);
        said_so("rulings in tenths", planner_rule(g, zeros, N, afloat, N, settings.ceiling, 10, ten, M), 0, 0, 10 * bound, 0);
        expect("a preview in tenths", planner_preview(g, zeros, N, afloat, N, 10, 1, 2, ten, M).value
                                          == 10 * planner_preview(g, zeros, N, afloat, N, 1, 1, 2, one, M).value);
        said_so("a tree's denominator", planner_tree(g, zeros, N, afloat, N, 1001, ten, M), 32, 0, 0, 0);
        said_so("rulings' denominator", planner_rule(g, zeros, N, afloat, N, settings.ceiling, 0, ten, M), 32, 0, 0, 0);
        said_so("a preview's denominator", planner_preview(g, zeros, N, afloat, N, 0, 0, 0, ten, M), 32, 0, 0, 0);
        said_so("a comparison's denominator", planner_compare(g, zeros, N, afloat, N, terms, pair, 1, pair, 1, report, 1), 32, 0, 0, 0);
        terms.denominator = PLANNER_DENOMINATOR;
        said_so("a comparison", planner_compare(g, zeros, N, afloat, N, terms, pair, 1, pair, 1, report, 1), 0, 0, 0, 0);
        expect("a report of 'going on'", report[0] == 0);
    }

    {
        /* The list ashore, where each call looks for it: document 01's sea with buoy 4 ashore has the legs 1 2 4, bound 9, and no others. */
        const planner_graph four = {{4, 3, 5, 2, 6, 1}, {1, 1, 1, 2, 2, 3}, {2, 3, 4, 3, 4, 4}, {0, 0, 1, 0, 0, 0}, 4, 6};
        const uint8_t list[4] = {0, 0, 0, 1}, two[4] = {0, 0, 1, 1}, tree[6] = {1, 1, 0, 1, 0, 0}, rulings[6] = {1, 1, 4, 1, 4, 4};
        const int32_t dues[4] = {0, 0, 0, 7};
        const uint32_t pair[1] = {0};
        uint8_t got[6];
        uint64_t report[1] = {9};
        planner_terms terms = {9, 9, 1, 0};
        planner_settings opened = {9, 0, 0, 1, 0};
        said_so("a tree ashore", planner_tree(four, dues, 4, list, 4, 1, got, 6), 0, 0, 9, 0);
        expect("its legs", memcmp(got, tree, 6) == 0);
        said_so("rulings ashore", planner_rule(four, dues, 4, list, 4, 9, 1, got, 6), 0, 0, 9, 0);
        expect("each of them", memcmp(got, rulings, 6) == 0);
        said_so("a preview ashore", planner_preview(four, dues, 4, list, 4, 1, 5, 1, got, 6), 0, 0, 9, 0);
        said_so("a preview of a required leg", planner_preview(four, dues, 4, list, 4, 1, 3, 1, got, 6), 31, 0, 0, 0);
        said_so("a comparison ashore", planner_compare(four, dues, 4, list, 4, terms, pair, 1, pair, 1, report, 1), 0, 0, 0, 0);
        expect("one node", report[0] == 1);
        said_so("two afloat", planner_tree(four, dues, 4, two, 4, 1, got, 6), 35, 0, 0, 0);
        said_so("two afloat, rulings", planner_rule(four, dues, 4, two, 4, 9, 1, got, 6), 35, 0, 0, 0);
        said_so("two afloat, a preview", planner_preview(four, dues, 4, two, 4, 1, 0, 0, got, 6), 35, 0, 0, 0);
        said_so("two afloat, a comparison", planner_compare(four, dues, 4, two, 4, terms, pair, 1, pair, 1, report, 1), 35, 0, 0, 0);
        said_so("a short list", planner_tree(four, dues, 4, list, 3, 1, got, 6), 11, 0, 0, 0);
        s = planner_fresh();
        said_so("two afloat, an opening", planner_open(&s, four, dues, 4, two, 4, opened), 35, 0, 0, 0);
        said_so("an opening ashore", planner_open(&s, four, dues, 4, list, 4, opened), 0, 0, 0, 0);
        said_so("a run ashore", planner_run(&s, 5), PLANNER_FINISHED, 0, 0, 1);
        said_so("the cost ashore", planner_tell(&s), PLANNER_BEST, 0, 9, 1);
    }

    {
        /* Lifting, where each call looks for it and in all of its bytes: document 01's sea takes 5 nodes without and 3 with it. Any number but 0
         * is yes, and the record then has 1. */
        const planner_graph four = {{4, 3, 5, 2, 6, 1}, {1, 1, 1, 2, 2, 3}, {2, 3, 4, 3, 4, 4}, {0}, 4, 6};
        const uint64_t yes[3] = {1, 2, UINT64_C(1) << 32};
        const int32_t zeros[4] = {0};
        const uint32_t pair[1] = {0};
        uint64_t report[1] = {9};
        planner_terms terms = {12, 9, 1, 0};
        planner_settings lifted = {settings.ceiling, 4, 370, 7, 1};
        said_so("compare without lifting", planner_compare(four, zeros, 4, afloat, 4, terms, pair, 1, pair, 1, report, 1), 0, 0, 0, 0);
        expect("nodes without lifting", report[0] == 5);
        for (int k = 0; k < 3; k++) {
            planner_settings opened = lifted;
            opened.lifting = terms.lifting = yes[k];
            said_so("compare with lifting", planner_compare(four, zeros, 4, afloat, 4, terms, pair, 1, pair, 1, report, 1), 0, 0, 0, 0);
            expect("nodes with lifting", report[0] == 3);
            s = planner_fresh();
            said_so("open with lifting", planner_open(&s, g, multipliers, N, afloat, N, opened), 0, 0, 0, 0);
            record(&s, &without, lifted, lifted.ceiling, 0);
            s.settings.lifting = UINT64_C(1) << 32;
            said_so("a record's lifting", planner_tell(&s), 24, 0, 0, 0);
        }
    }

    memset(&s, 0xa5, sizeof s);
    s = planner_fresh();
    expect("a fresh record is zero", memcmp(&s, &fresh, sizeof s) == 0);
    settings.denominator = 1001;
    said_so("an opening's denominator", planner_open(&s, g, multipliers, N, ashore, N, settings), 32, 0, 0, 0);
    settings.denominator = 7;
    said_so("open", planner_open(&s, g, multipliers, N, ashore, N, settings), 0, 0, 0, 0);
    record(&s, &with, settings, settings.ceiling, 0);
    expect("the opening's node", s.depth == 1 && rows_are(s.stack, &g, ashore)
                                     && memcmp(s.carried, own, of_afloat(own, multipliers, ashore) * sizeof *own) == 0);
    while (s.depth > 0 && s.has_best == 0 && failed == 0) {
        said = planner_run(&s, 1);
        nodes++;
        said_so("run", said, s.depth > 0 ? PLANNER_GOING_ON : PLANNER_FINISHED, 0, 0, nodes);
    }

    for (int k = 0; k < M; k++) cost += s.best[k] * g.cost[k];
    record(&s, &with, settings, cost, nodes);
    expect("an incumbent while nodes wait", s.depth > 0 && s.has_best == 1 && stands(&s, 4495, "\1", 1) && nodes > 1);
    said_so("tell", planner_tell(&s), PLANNER_GOING_ON, 0, 0, nodes);
    said = planner_run(&s, 1000000);
    said_so("finished", said, PLANNER_FINISHED, 0, 0, s.count);
    said_so("the best cost", planner_tell(&s), PLANNER_BEST, 0, s.upper, s.count);
    said_so("show", planner_show(&s, out, M), 0, 0, 0, 0);
    expect("the tour", stands(&s, 4284, out, M) && s.depth == 0);
    said_so("close", planner_close(&s), 0, 0, 0, 0);
    expect("closed, a record is fresh", memcmp(&s, &fresh, sizeof s) == 0);

    {
        static planner_dispatcher d, empty;
        memset(&d, 0xa5, sizeof d);
        d = planner_fresh_dispatcher();
        expect("a fresh dispatcher is zero", memcmp(&d, &empty, sizeof d) == 0);
        said_so("an empty dispatcher's turn", planner_turn(&d, 1), PLANNER_IDLE, 0, 0, 0);
        said_so("add", planner_add(&d, g, multipliers, N, afloat, N, settings), 0, 1, 0, 0);
        said_so("add another", planner_add(&d, g, multipliers, N, ashore, N, settings), 0, 2, 0, 0);
        record(&d.places[0], &without, settings, settings.ceiling, 0);
        record(&d.places[1], &with, settings, settings.ceiling, 0);
        said_so("a turn", planner_turn(&d, 1), 0, 1, 0, 0);
        expect("the place last served", d.last == 1 && d.places[0].count == 1 && d.places[1].count == 0);
        said_so("another turn", planner_turn(&d, 1000000), 0, 2, 0, 0);
        said_so("tell at a place", planner_tell_at(&d, 1), PLANNER_GOING_ON, 0, 0, 1);
        said_so("show at a place", planner_show_at(&d, 2, out, M), 0, 0, 0, 0);
        expect("the tour at a place", memcmp(d.places[1].best, out, M) == 0);
        said_so("an empty place", planner_tell_at(&d, 3), 20, 0, 0, 0);
        said_so("no place", planner_close_at(&d, PLANNER_PLACES + 1), 42, 0, 0, 0);
        said_so("a turn of no nodes", planner_turn(&d, 0), 40, 0, 0, 0);
        said_so("close at a place", planner_close_at(&d, 2), 0, 0, 0, 0);
        expect("a closed place is fresh", memcmp(&d.places[1], &fresh, sizeof fresh) == 0);
    }

    printf("layout: %d passed, %d failed\n", passed, failed);
    return failed != 0;
}
