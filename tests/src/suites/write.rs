//! The write call: number, place, bytes; where refused, no byte of the lent list changed.

use crate::bends;
use crate::document::chart;
use crate::document::graph::Graph;
use crate::document::law::Law;
use crate::ffi::{only, refused, write, Reply};
use crate::generate;
use crate::random::Random;
use crate::report::{Hex, Outcome, Suite, Tally};

pub const SUITE: Suite = Suite {
    name: "write",
    run,
    bends: &[
        bends::LENGTH_BEFORE_VALUE,
        bends::LAST_NEXT_NOT_ZERO,
        bends::LOWER_COST,
        bends::PAIR_TWICE,
        bends::PAST_M_JUDGED,
    ],
};

/// What the call must answer.
pub fn expected(law: &Law, graph: &Graph, length: usize) -> Reply {
    let (said, out) = match chart::write(law, graph, length) {
        Ok(bytes) => (only(0), Some(Hex(bytes))),
        Err(refusal) => (refused(refusal), None),
    };
    Reply {
        said,
        out,
        margins_kept: true,
    }
}

fn run(law: &Law, tally: &mut Tally) -> Outcome {
    let random = &mut Random::new(0x77_7269_7465);
    for round in 0..12_000 {
        let broken = round % 3 == 1;
        let wrong = round % 3 == 2 || (broken && random.one_in(2));
        let graph = generate::graph_value(random, broken);
        let right = 8 + 12 * graph.m.min(191);
        let length = generate::length(random, right, wrong);
        let input = || format!("{graph:?}, a list of {length} bytes");
        let case = match (broken, wrong) {
            (false, false) => "a fit graph",
            (false, true) => "a list of wrong length",
            _ => "a broken graph",
        };
        let reply = write(&graph, length);
        tally.compare(case, input, &expected(law, &graph, length), &reply)?;
    }
    Ok(())
}
