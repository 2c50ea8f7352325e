//! The reference reader and writer alone: against what is known of each file by construction, and
//! against each other.

use crate::bends;
use crate::chart_cases::{every_file, Known};
use crate::document::chart::{has_writers_form, read, write};
use crate::document::graph::Graph;
use crate::document::law::Law;
use crate::document::Refusal;
use crate::report::{hex, Outcome, Suite, Tally};

pub const SUITE: Suite = Suite {
    name: "own charts",
    run,
    bends: &[
        bends::NEXT_JUDGED_FIRST,
        bends::PAIR_BEFORE_COST,
        bends::FORM_WITHOUT_ORDER,
    ],
};

fn run(law: &Law, tally: &mut Tally) -> Outcome {
    every_file(&mut |case, bytes, known| {
        let got = read(law, bytes);
        let input = || hex(bytes);
        let expected: Option<Result<Graph, Refusal>> = match known {
            Known::Nothing => None,
            Known::Graph(graph) => Some(Ok(*graph)),
            Known::Refused(refusal) => Some(Err(refusal)),
        };
        if let Some(expected) = expected {
            tally.compare(case, input, &expected, &got)?;
        }
        let again = got
            .ok()
            .and_then(|graph| write(law, &graph, 8 + 12 * graph.m).ok());
        let same = again.is_some_and(|again| again == bytes);
        let form = has_writers_form(law, bytes);
        tally.compare("written again", input, &form, &same)
    })
}
