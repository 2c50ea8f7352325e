//! The reference's three ways to the least 1-tree, against each other: all sets of edges on small
//! graphs, Kruskal and Prim on all.

use crate::bends;
use crate::document::ashore::{dues, haul};
use crate::document::graph::Graph;
use crate::document::law::Law;
use crate::document::tree::{is_one_tree, least, Method};
use crate::generate;
use crate::random::Random;
use crate::report::{Outcome, Suite, Tally};

pub const SUITE: Suite = Suite {
    name: "own trees",
    run,
    bends: &[
        bends::HIGHER_NUMBERED_FIRST,
        bends::MULTIPLIERS_OFF_ONCE,
        bends::REQUIRED_LEFT_OUT,
        bends::MULTIPLIERS_TIMES,
        bends::LEGS_OF_ALL,
    ],
};

/// A small graph for going through all sets of edges, or any graph.
pub fn graph_for(random: &mut Random, small: bool) -> Graph {
    if small {
        return generate::small_graph(random, 6, 12);
    }
    let n = 3 + random.below(18);
    let most = n * (n - 1) / 2;
    let least = (n + random.below(3)).min(most);
    let m = least + random.below(most - least + 1);
    generate::graph_of(random, n, m)
}

/// A small graph or any, some of whose vertices may be ashore, and multipliers.
pub fn sea_for(random: &mut Random, small: bool) -> (Graph, Vec<i32>) {
    let graph = graph_for(random, small);
    let ashore = generate::ashore(random, graph.n);
    let multipliers = generate::multipliers(random, graph.n);
    let written = &Law::AS_WRITTEN;
    let sea = haul(written, &graph, &ashore);
    (sea, dues(written, &multipliers, &ashore))
}

fn run(law: &Law, tally: &mut Tally) -> Outcome {
    let random = &mut Random::new(0x74_7265_6573);
    for round in 0..20_000 {
        let small = round % 2 == 0;
        let (graph, multipliers) = sea_for(random, small);
        let q = generate::denominator(random);
        let input = || format!("{graph:?}, multipliers {multipliers:?}, denominator {q}");
        let written = &Law::AS_WRITTEN;
        let got = least(law, Method::Kruskal, &graph, &multipliers, q);
        let prim = least(written, Method::Prim, &graph, &multipliers, q);
        tally.compare("Prim and Kruskal", input, &prim, &got)?;
        if small {
            let all = least(written, Method::Definition, &graph, &multipliers, q);
            tally.compare("definition and Kruskal", input, &all, &got)?;
        }
        let is_tree = got.is_none_or(|tree| is_one_tree(written, &graph, &tree.edges));
        tally.compare("it is a 1-tree", input, &true, &is_tree)?;
    }
    Ok(())
}
