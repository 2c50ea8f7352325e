//! Reading what was written, and writing what was read, by the library alone.

use crate::bends;
use crate::chart_cases::every_file;
use crate::document::chart::has_writers_form;
use crate::document::graph::{Graph, PLACES};
use crate::document::law::Law;
use crate::ffi::{read, write};
use crate::generate;
use crate::random::Random;
use crate::report::{hex, Outcome, Suite, Tally};

pub const SUITE: Suite = Suite {
    name: "round trips",
    run,
    bends: &[bends::FORM_WITHOUT_ORDER, bends::FORM_WITHOUT_HEAD],
};

/// The graph's file, unless writing is refused.
fn written(graph: &Graph) -> Option<Vec<u8>> {
    let reply = write(graph, 8 + 12 * graph.m.min(PLACES));
    reply
        .out
        .filter(|_| reply.said.number == 0)
        .map(|out| out.0)
}

fn run(law: &Law, tally: &mut Tally) -> Outcome {
    let random = &mut Random::new(0x74_7269_7073);
    for _ in 0..8000 {
        let graph = generate::graph_value(random, false);
        let input = || format!("{graph:?}");
        let file = written(&graph).unwrap_or_default();
        let form = has_writers_form(&Law::AS_WRITTEN, &file);
        tally.compare("written in the writer's form", input, &true, &form)?;
        let again = read(&file).graph;
        let same = again.is_some_and(|again| again.same(&graph));
        tally.compare("written, then read", input, &true, &same)?;
    }
    every_file(&mut |case, bytes, _| {
        let file = read(bytes).graph.and_then(|graph| written(&graph));
        let same = file.is_some_and(|file| file == bytes);
        let form = has_writers_form(law, bytes);
        let case = format!("read, then written: {case}");
        tally.compare(&case, || hex(bytes), &form, &same)
    })
}
