//! The simulator and the comparison of settings.

use super::lent::{Lent, Lists};
use super::{by_value, call, terms};
use crate::document::graph::Graph;
use crate::document::sailing::{Asked, Trial};
use planner::raw::{planner_compare, planner_simulate, Reply as Numbers, Sailed};

/// What a simulation answers, and what became of the lent times.
#[derive(PartialEq, Eq, Debug)]
pub struct SailedReply {
    pub said: Sailed,
    /// none if no byte changed
    pub times: Option<Vec<i64>>,
    pub margins_kept: bool,
}

fn eights(bytes: &[u8]) -> impl Iterator<Item = [u8; 8]> + '_ {
    bytes
        .chunks_exact(8)
        .map(|word| word.try_into().expect("eight bytes"))
}

pub fn simulate(graph: &Graph, asked: &Asked) -> SailedReply {
    let g = by_value(graph);
    let legs = || Lent::words(asked.legs.iter().map(|leg| leg.to_ne_bytes()));
    let (mut given, mut times) = (legs(), Lent::new(8 * asked.length));
    let (list, out) = (given.pointer(), times.pointer());
    let (student, spread) = (asked.student, asked.spread);
    let said = call!(planner_simulate(
        g,
        list,
        asked.legs.len(),
        student,
        spread,
        out,
        asked.length
    ));
    SailedReply {
        said,
        times: times
            .changed()
            .map(|bytes| eights(&bytes).map(i64::from_ne_bytes).collect()),
        margins_kept: given.kept(&legs()) && times.margins_kept(),
    }
}

/// What a comparison answers, and what became of the lent report.
#[derive(PartialEq, Eq, Debug)]
pub struct ComparedReply {
    pub said: Numbers,
    /// none if no byte changed
    pub report: Option<Vec<u64>>,
    pub margins_kept: bool,
}

pub fn compare(trial: &Trial) -> ComparedReply {
    let g = by_value(&trial.graph);
    let words = |list: &[u32]| Lent::words(list.iter().map(|x| x.to_ne_bytes()));
    let mut given = Lists::new(&trial.multipliers, &trial.ashore);
    let (mut sweeps, mut steps) = (words(&trial.sweeps), words(&trial.steps));
    let mut report = Lent::new(8 * trial.length);
    let (d, ashore) = given.pointers();
    let (first, second, out) = (sweeps.pointer(), steps.pointer(), report.pointer());
    let said = call!(planner_compare(
        g,
        d,
        trial.multipliers.len(),
        ashore,
        trial.ashore.len(),
        terms(trial),
        first,
        trial.sweeps.len(),
        second,
        trial.steps.len(),
        out,
        trial.length
    ));
    let read =
        given.kept() && sweeps.kept(&words(&trial.sweeps)) && steps.kept(&words(&trial.steps));
    ComparedReply {
        said,
        report: report
            .changed()
            .map(|bytes| eights(&bytes).map(u64::from_ne_bytes).collect()),
        margins_kept: read && report.margins_kept(),
    }
}
