//! The read call: number, place, graph; where refused, no part of the lent graph changed.

use crate::bends;
use crate::chart_cases::every_file;
use crate::document::chart;
use crate::document::law::Law;
use crate::ffi::{only, read, refused, ReadReply};
use crate::report::{hex, Outcome, Suite, Tally};

pub const SUITE: Suite = Suite {
    name: "read",
    run,
    bends: &[
        bends::HIGHER_COST,
        bends::MORE_VERTICES,
        bends::TOO_MANY_RECORDS,
        bends::LENGTH_BEFORE_ZERO_BYTES,
        bends::NEXT_JUDGED_FIRST,
        bends::PAIR_BEFORE_COST,
        bends::FIRST_PAIR_NAMED,
        bends::EQUAL_ENDS,
        bends::MARK_THREE,
        bends::PAST_M_NOT_ZERO,
    ],
};

/// What the call must answer.
pub fn expected(law: &Law, bytes: &[u8]) -> ReadReply {
    let (said, graph) = match chart::read(law, bytes) {
        Ok(graph) => (only(0), Some(graph)),
        Err(refusal) => (refused(refusal), None),
    };
    ReadReply {
        said,
        graph,
        margins_kept: true,
    }
}

fn run(law: &Law, tally: &mut Tally) -> Outcome {
    every_file(&mut |case, bytes, _| {
        tally.compare(case, || hex(bytes), &expected(law, bytes), &read(bytes))
    })
}
