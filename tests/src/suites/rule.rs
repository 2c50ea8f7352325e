//! The rule call: against all 1-trees on small graphs, on larger ones against each edge marked and
//! the tree found again.

use super::own_rulings::turning_ceiling;
use super::own_trees::graph_for;
use crate::bends;
use crate::document::graph::Graph;
use crate::document::law::Law;
use crate::document::rulings::{self, Ruled};
use crate::document::tree::{Given, Method};
use crate::ffi::trees::rule;
use crate::ffi::{bound, only, Reply};
use crate::generate;
use crate::random::Random;
use crate::report::{Hex, Outcome, Suite, Tally};
use planner::raw::NONE;

pub const SUITE: Suite = Suite {
    name: "rule",
    run,
    bends: &bends::joined::<32>(&[
        &bends::OF_LIST,
        &bends::OF_PARTS,
        &[
            bends::CEILING_NOT_WITHIN,
            bends::REQUIRED_SWAPPED_OUT,
            bends::MULTIPLIERS_OFF_ONCE,
            bends::HIGHER_CEILING,
            bends::LOWER_CEILING,
            bends::FORMER_CEILING,
            bends::FORMER_COST,
            bends::CHEAP_NO_REPLACEMENT,
            bends::HIGHER_MULTIPLIER,
            bends::LENGTH_BEFORE_VALUE,
            bends::NO_REPLACEMENT_OF_ONE,
            bends::DENOMINATOR_OF_ZERO,
            bends::HIGHER_DENOMINATOR,
            bends::DENOMINATOR_BEFORE_MULTIPLIERS,
            bends::DENOMINATOR_BEFORE_CEILING,
            bends::ASHORE_BEFORE_MULTIPLIERS,
            bends::ASHORE_BEFORE_CEILING,
            bends::ASHORE_BEFORE_DENOMINATOR,
            bends::TOUCHED_STAY,
            bends::TOUCHED_REQUIRED_STAY,
            bends::TOUCHED_RULED_BY_MARK,
            bends::DUE_ASHORE_COUNTS,
            bends::LEGS_OF_ALL,
        ],
    ]),
};

pub struct Arguments {
    pub graph: Graph,
    pub multipliers: Vec<i32>,
    pub ashore: Vec<u8>,
    pub denominator: u64,
    pub ceiling: i64,
    pub length: usize,
}

impl Arguments {
    pub fn given(&self) -> Given<'_> {
        Given {
            graph: &self.graph,
            multipliers: &self.multipliers,
            ashore: &self.ashore,
            q: self.denominator,
        }
    }

    pub fn shown(&self) -> String {
        let (ceiling, length) = (self.ceiling, self.length);
        format!(
            "{:?}, ceiling {ceiling}, a list of {length} bytes",
            self.given()
        )
    }
}

pub fn expected(law: &Law, method: Method, given: &Given, ceiling: i64, length: usize) -> Reply {
    let ruled = rulings::call(law, method, given, ceiling, length);
    let (said, out) = match ruled {
        Ok(Ruled::Bound {
            bound: least,
            rulings,
        }) => (bound(least), Some(Hex(rulings))),
        Ok(Ruled::Infeasible) => (only(NONE), None),
        Err(refusal) => (only(refusal.number), None),
    };
    Reply {
        said,
        out,
        margins_kept: true,
    }
}

pub fn arguments(random: &mut Random, small: bool, wrong: bool) -> Arguments {
    let mut graph = graph_for(random, small);
    let mut multipliers = generate::multipliers(random, graph.n);
    let mut ashore = generate::ashore(random, graph.n);
    let mut denominator = generate::denominator(random);
    let (sea, dues) = Given {
        graph: &graph,
        multipliers: &multipliers,
        ashore: &ashore,
        q: denominator,
    }
    .sea(&Law::AS_WRITTEN);
    let mut ceiling = turning_ceiling(random, &sea, &dues, denominator);
    let mut length = graph.m;
    if random.one_in(2) {
        generate::junk_past_m(random, &mut graph);
    }
    for _ in 0..if wrong { 1 + random.below(2) } else { 0 } {
        match random.below(8) {
            0 => generate::break_value(random, &mut graph),
            1 => multipliers.resize(generate::length(random, graph.n.min(30), true), 0),
            2 => generate::break_multipliers(random, &mut multipliers),
            3 => ceiling = generate::wrong_ceiling(random),
            4 => denominator = generate::wrong_denominator(random),
            5 => generate::break_ashore(random, &mut ashore),
            6 => ashore.resize(generate::length(random, graph.n.min(30), true), 0),
            _ => length = generate::length(random, length, true),
        }
    }
    Arguments {
        graph,
        multipliers,
        ashore,
        denominator,
        ceiling,
        length,
    }
}

fn run(law: &Law, tally: &mut Tally) -> Outcome {
    let random = &mut Random::new(0x7275_6c65);
    for round in 0..24_000 {
        let small = round % 4 != 0;
        let wrong = round % 6 >= 4;
        let arguments = arguments(random, small, wrong);
        let given = arguments.given();
        let (ceiling, length) = (arguments.ceiling, arguments.length);
        let input = || arguments.shown();
        let reply = rule(&given, ceiling, length);
        let small = small && given.graph.m <= 16;
        let methods = if small {
            &[Method::Definition, Method::Kruskal][..]
        } else {
            &[Method::Kruskal][..]
        };
        for method in methods {
            let wanted = expected(law, *method, &given, ceiling, length);
            tally.compare(&format!("{method:?}"), input, &wanted, &reply)?;
        }
    }
    Ok(())
}
