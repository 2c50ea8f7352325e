/* Document 01's four-vertex sea: its least 1-tree, its rulings, its cheapest tour, and the same tree with vertex 4 ashore. Build and run: see README. */
#include "planner.h"
#include <stdio.h>

int main(void) {
    static planner_search s;
    planner_graph g = {{4, 3, 5, 2, 6, 1}, {1, 1, 1, 2, 2, 3}, {2, 3, 4, 3, 4, 4}, {0}, 4, 6};
    planner_settings settings = {12, 0, 0, 1, 0}; /* ceiling, sweeps, step, denominator, lifting */
    int32_t multipliers[4] = {0};
    uint8_t ashore[4] = {0}; /* a byte for each vertex: 0 afloat */
    uint8_t out[6];

    planner_reply said = planner_tree(g, multipliers, 4, ashore, 4, settings.denominator, out, 6);
    if (said.number != 0) return 1;
    printf("tree %lld:", (long long)said.value);
    for (int k = 0; k < 6; k++) printf(" %d", out[k]);
    if (planner_rule(g, multipliers, 4, ashore, 4, settings.ceiling, settings.denominator, out, 6).number != 0) return 1;
    printf("\nrulings at 12:");
    for (int k = 0; k < 6; k++) printf(" %d", out[k]);

    s = planner_fresh();
    if (planner_open(&s, g, multipliers, 4, ashore, 4, settings).number != 0) return 1;
    if (planner_run(&s, 1000000).number != PLANNER_FINISHED) return 1;
    said = planner_tell(&s);
    if (said.number != PLANNER_BEST) return 1;
    if (planner_show(&s, out, 6).number != 0) return 1;
    printf("\ncost %lld after %llu nodes:", (long long)said.value, (unsigned long long)said.nodes);
    for (int k = 0; k < 6; k++) printf(" %d", out[k]);
    if (planner_close(&s).number != 0) return 1;

    ashore[3] = 1;
    said = planner_tree(g, multipliers, 4, ashore, 4, settings.denominator, out, 6);
    if (said.number != 0) return 1;
    printf("\nwith 4 ashore tree %lld:", (long long)said.value);
    for (int k = 0; k < 6; k++) printf(" %d", out[k]);
    printf("\n");
    return 0;
}
