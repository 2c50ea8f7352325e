//! The tree call: against all sets of edges on small graphs, against Kruskal and Prim on all.

use super::own_trees::graph_for;
use super::rule::Arguments;
use crate::bends;
use crate::document::law::Law;
use crate::document::tree::{self, Given, Method};
use crate::ffi::trees::tree;
use crate::ffi::{bound, only, Reply};
use crate::generate;
use crate::random::Random;
use crate::report::{Hex, Outcome, Suite, Tally};
use planner::raw::NONE;

pub const SUITE: Suite = Suite {
    name: "tree",
    run,
    bends: &bends::joined::<24>(&[
        &bends::OF_LIST,
        &[
            bends::HIGHER_NUMBERED_FIRST,
            bends::MULTIPLIERS_OFF_ONCE,
            bends::REQUIRED_LEFT_OUT,
            bends::HIGHER_MULTIPLIER,
            bends::FIRST_MULTIPLIER_FREE,
            bends::LENGTH_BEFORE_VALUE,
            bends::BOUND_DIVIDED,
            bends::MULTIPLIERS_TIMES,
            bends::RANGE_IN_MINUTES,
            bends::DENOMINATOR_OF_ZERO,
            bends::HIGHER_DENOMINATOR,
            bends::DENOMINATOR_BEFORE_MULTIPLIERS,
            bends::ASHORE_BEFORE_MULTIPLIERS,
            bends::ASHORE_BEFORE_DENOMINATOR,
            bends::DUES_ASHORE_NOT_JUDGED,
            bends::TOUCHED_STAY,
            bends::TOUCHED_REQUIRED_STAY,
            bends::TOUCHED_IN_TREE,
            bends::DUE_ASHORE_COUNTS,
            bends::LEGS_OF_ALL,
        ],
    ]),
};

pub fn expected(law: &Law, method: Method, given: &Given, length: usize) -> Reply {
    let (said, out) = match tree::call(law, method, given, length) {
        Ok(Some(tree)) => (bound(tree.bound), Some(Hex(tree.edges))),
        Ok(None) => (only(NONE), None),
        Err(refusal) => (only(refusal.number), None),
    };
    Reply {
        said,
        out,
        margins_kept: true,
    }
}

/// What the call takes, a ceiling beside it; where `wrong`, with one fault or more.
pub fn arguments(random: &mut Random, small: bool, wrong: bool) -> Arguments {
    let mut graph = graph_for(random, small);
    if random.one_in(2) {
        generate::junk_past_m(random, &mut graph);
    }
    let mut multipliers = generate::multipliers(random, graph.n);
    let mut ashore = generate::ashore(random, graph.n);
    let mut denominator = generate::denominator(random);
    let mut length = graph.m;
    for _ in 0..if wrong { 1 + random.below(2) } else { 0 } {
        match random.below(7) {
            0 => generate::break_value(random, &mut graph),
            1 => multipliers.resize(generate::length(random, graph.n.min(30), true), 0),
            2 => generate::break_multipliers(random, &mut multipliers),
            3 => denominator = generate::wrong_denominator(random),
            4 => generate::break_ashore(random, &mut ashore),
            5 => ashore.resize(generate::length(random, graph.n.min(30), true), 0),
            _ => length = generate::length(random, length, true),
        }
    }
    Arguments {
        graph,
        multipliers,
        ashore,
        denominator,
        ceiling: 0,
        length,
    }
}

fn run(law: &Law, tally: &mut Tally) -> Outcome {
    let random = &mut Random::new(0x7472_6565);
    for round in 0..30_000 {
        let small = round % 2 == 0;
        let wrong = round % 6 >= 4;
        let arguments = arguments(random, small, wrong);
        let (given, length) = (arguments.given(), arguments.length);
        let input = || arguments.shown();
        let reply = tree(&given, length);
        let methods = if small && given.graph.m <= 16 {
            &[Method::Definition, Method::Kruskal, Method::Prim][..]
        } else {
            &[Method::Kruskal, Method::Prim][..]
        };
        for method in methods {
            let wanted = expected(law, *method, &given, length);
            tally.compare(&format!("{method:?}"), input, &wanted, &reply)?;
        }
    }
    Ok(())
}
