//! The reference's two ways to rulings, against each other: all 1-trees on small graphs, on all
//! graphs each edge marked and the tree found again, by Kruskal and by Prim.

use super::own_trees::sea_for;
use crate::bends;
use crate::document::graph::{Graph, EXCLUDED, REQUIRED};
use crate::document::law::Law;
use crate::document::rulings::rule;
use crate::document::tree::{least, Method};
use crate::generate;
use crate::random::Random;
use crate::report::{Outcome, Suite, Tally};

pub const SUITE: Suite = Suite {
    name: "own rulings",
    run,
    bends: &[
        bends::CEILING_NOT_WITHIN,
        bends::REQUIRED_SWAPPED_OUT,
        bends::MULTIPLIERS_OFF_ONCE,
        bends::CHEAP_NO_REPLACEMENT,
        bends::CEILING_NOT_SCALED,
        bends::PARTS_NOT_COMPARED,
        bends::LEGS_OF_ALL,
    ],
};

/// A ceiling at which a ruling may turn: the bound with some edge marked, in whole minutes, or near it.
pub fn turning_ceiling(random: &mut Random, graph: &Graph, multipliers: &[i32], q: u64) -> i64 {
    let mut marked = graph.clone();
    if graph.m > 0 && !random.one_in(3) {
        let mark = random.pick(&[REQUIRED, EXCLUDED]);
        marked.mark[random.below(graph.m)] = mark;
    }
    let tree = least(&Law::AS_WRITTEN, Method::Kruskal, &marked, multipliers, q);
    let bound = tree.map_or(0, |tree| tree.bound);
    generate::ceiling(random, bound.div_euclid(q as i64))
}

fn run(law: &Law, tally: &mut Tally) -> Outcome {
    let random = &mut Random::new(0x7275_6c69_6e67);
    for round in 0..12_000 {
        let small = round % 4 != 0;
        let (graph, multipliers) = sea_for(random, small);
        let q = generate::denominator(random);
        let ceiling = turning_ceiling(random, &graph, &multipliers, q);
        let input = || {
            format!("{graph:?}, multipliers {multipliers:?}, denominator {q}, ceiling {ceiling}")
        };
        let got = rule(law, Method::Kruskal, &graph, &multipliers, q, ceiling);
        let method = if small {
            Method::Definition
        } else {
            Method::Prim
        };
        let other = rule(&Law::AS_WRITTEN, method, &graph, &multipliers, q, ceiling);
        let case = format!("{method:?} and Kruskal");
        tally.compare(&case, input, &other, &got)?;
    }
    Ok(())
}
