// Document 01's four-vertex sea from C++: its least 1-tree, its rulings, its cheapest tour, and the same tree with vertex 4 ashore. Build and run: see README.
#include "planner.h"
#include <array>
#include <cstdint>
#include <iostream>

using Bytes = std::array<std::uint8_t, 6>;

static void print(const Bytes &bytes) {
    for (int byte : bytes) std::cout << ' ' << byte;
    std::cout << '\n';
}

int main() {
    const planner_graph g = {{4, 3, 5, 2, 6, 1}, {1, 1, 1, 2, 2, 3}, {2, 3, 4, 3, 4, 4}, {}, 4, 6};
    const planner_settings settings = {12, 0, 0, 1, 0}; // ceiling, sweeps, step, denominator, lifting
    const std::array<std::int32_t, 4> multipliers = {};
    std::array<std::uint8_t, 4> ashore = {}; // a byte for each vertex: 0 afloat
    Bytes out = {};

    const auto tree = [&] {
        return planner_tree(g, multipliers.data(), multipliers.size(), ashore.data(), ashore.size(), settings.denominator, out.data(), out.size());
    };
    planner_reply said = tree();
    if (said.number != 0) return 1;
    std::cout << "tree " << said.value << ':';
    print(out);
    said = planner_rule(g, multipliers.data(), multipliers.size(), ashore.data(), ashore.size(), settings.ceiling, settings.denominator, out.data(),
                        out.size());
    if (said.number != 0) return 1;
    std::cout << "rulings at " << settings.ceiling << ':';
    print(out);

    planner_search s = planner_fresh();
    if (planner_open(&s, g, multipliers.data(), multipliers.size(), ashore.data(), ashore.size(), settings).number != 0) return 1;
    if (planner_run(&s, 1000000).number != PLANNER_FINISHED) return 1;
    said = planner_tell(&s);
    if (said.number != PLANNER_BEST || planner_show(&s, out.data(), out.size()).number != 0) return 1;
    std::cout << "cost " << said.value << " after " << said.nodes << " nodes:";
    print(out);
    if (planner_close(&s).number != 0) return 1;

    ashore[3] = 1;
    said = tree();
    if (said.number != 0) return 1;
    std::cout << "with 4 ashore tree " << said.value << ':';
    print(out);
    return 0;
}
