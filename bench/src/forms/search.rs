//! The search: the core by value. It relies on the tree part's promise alone.

use super::check::{ceiling_fits, graph_fits, multipliers_fit, record_fits, sweeps_fit};
use super::lift::{Lifting, Off, On};
use super::record::{Answer, Record, Step, Wanted};
use super::rows::{excluding, lowest_free, packed, requiring, unpack, Rows, ROW};
use super::tree::{self, Tree, Work};
use super::{Marks, Multipliers};
use crate::inputs::{Graph, MAX_MULTIPLIER, PLACES, REQUIRED, VERTICES};

/// Run opens no node beyond.
const MOST: u64 = (1 << 63) - 1;

/// The refusal of opening's arguments, 0 where there is none.
fn fault(graph: &Graph, d: &[i32], wanted: &Wanted) -> u32 {
    match () {
        _ if !graph_fits(graph) => 15,
        _ if d.len() != graph.n() => 11,
        _ if !multipliers_fit(d) => 12,
        _ if !ceiling_fits(wanted.ceiling) => 13,
        _ if !sweeps_fit(wanted.sweeps, wanted.step) => 14,
        _ => 0,
    }
}

#[inline(always)]
pub fn open(mut step: Step, graph: &Graph, d: &[i32], wanted: Wanted) -> Step {
    let record = &mut step.record;
    let refusal = match () {
        _ if !record_fits(record) => 24,
        _ if record.open == 1 => 21,
        _ => fault(graph, d, &wanted),
    };
    if refusal != 0 {
        step.answer = Answer::Refused(refusal);
        return step;
    }
    let m = graph.m();
    record.open = 1;
    (record.graph.n, record.graph.m) = (graph.n, graph.m);
    record.graph.a[..m].copy_from_slice(&graph.a[..m]);
    record.graph.b[..m].copy_from_slice(&graph.b[..m]);
    record.graph.cost[..m].copy_from_slice(&graph.cost[..m]);
    record.graph.mark[..m].copy_from_slice(&graph.mark[..m]);
    record.multipliers[..d.len()].copy_from_slice(d);
    (record.ceiling, record.upper) = (wanted.ceiling, wanted.ceiling);
    (record.sweeps, record.step) = (wanted.sweeps, wanted.step);
    record.denominator = 1;
    record.lifting = (wanted.lifting != 0) as u64;
    record.stack[0] = packed(&record.graph.mark, m);
    record.carried[0] = record.multipliers;
    record.depth = 1;
    step.answer = Answer::Accepted;
    step
}

/// The refusal of a call that wants an open search, 0 where there is none.
fn unopened(record: &Record) -> u32 {
    match () {
        _ if !record_fits(record) => 24,
        _ if record.open == 0 => 20,
        _ => 0,
    }
}

pub fn tell(record: &Record) -> Answer {
    match unopened(record) {
        0 if record.depth > 0 => Answer::GoingOn(record.count),
        0 if record.has_best == 0 => Answer::None(record.count),
        0 => Answer::Best(cost(&record.graph, &record.best), record.count),
        refusal => Answer::Refused(refusal),
    }
}

fn cost(graph: &Graph, tour: &Marks) -> i64 {
    let both = graph.cost.iter().zip(tour);
    both.map(|(cost, byte)| *cost as i64 * *byte as i64).sum()
}

pub fn show(record: &Record, out: &mut [u8]) -> Answer {
    let refusal = match unopened(record) {
        0 if record.depth > 0 => 22,
        0 if record.has_best == 0 => 23,
        0 if out.len() != record.graph.m() => 11,
        refusal => refusal,
    };
    if refusal != 0 {
        return Answer::Refused(refusal);
    }
    out.copy_from_slice(&record.best[..record.graph.m()]);
    Answer::Accepted
}

#[inline(always)]
pub fn close(mut step: Step) -> Step {
    step.answer = match unopened(&step.record) {
        0 => {
            step.record = Record::fresh();
            Answer::Accepted
        }
        refusal => Answer::Refused(refusal),
    };
    step
}

#[inline(always)]
pub fn run(mut step: Step, budget: u64) -> Step {
    let record = &mut step.record;
    step.answer = match unopened(record) {
        0 => {
            let left = budget.min(MOST - record.count);
            if left > 0 && record.depth > 0 {
                match record.lifting {
                    0 => open_nodes(record, left, Off),
                    _ => open_nodes(record, left, On::blank()),
                }
            }
            match record.depth {
                0 => Answer::Finished(record.count),
                _ => Answer::GoingOn(record.count),
            }
        }
        refusal => Answer::Refused(refusal),
    };
    step
}

/// Opens nodes. The one that a split puts on top stays in hand, its marks are not copied.
fn open_nodes(record: &mut Record, mut left: u64, lifting: impl Lifting) {
    let mut node = Node {
        graph: record.graph.clone(),
        rows: [0; 2 * ROW],
        work: Work::blank(lifting),
        rulings: [0; PLACES],
        multipliers: record.multipliers,
    };
    let (mut highest, mut in_hand) = (record.waiting(), false);
    while left > 0 && (in_hand || record.depth > 0) {
        left -= 1;
        record.count += 1;
        if !in_hand {
            record.depth -= 1;
            node.rows = record.stack[record.waiting()];
            unpack(&node.rows, node.graph.m(), &mut node.graph.mark);
            node.multipliers = record.carried[record.waiting()];
        }
        node.work.order.list(&node.graph, &node.rows);
        in_hand = node.passes(record) && split(record, &mut node);
        highest = highest.max(record.waiting());
    }
    if in_hand {
        record.stack[record.waiting()] = node.rows;
        record.carried[record.waiting()] = node.multipliers;
        record.depth += 1;
    }
    let waiting = record.waiting();
    if highest > waiting {
        record.stack[waiting..highest].fill([0; 2 * ROW]);
        record.carried[waiting..highest].fill([0; VERTICES]);
    }
}

/// The node that is open: its marks are those of the graph. The rows are of its marks as it was opened, and again after a split.
struct Node<L> {
    graph: Graph,
    rows: Rows,
    work: Work<L>,
    rulings: Marks,
    /// those of the last pass
    multipliers: Multipliers,
}

impl<L: Lifting> Node<L> {
    /// All passes; whether the node is still open.
    fn passes(&mut self, record: &mut Record) -> bool {
        let mut d = self.multipliers;
        for sweep in 0..=record.sweeps {
            let (graph, work) = (&self.graph, &mut self.work);
            match tree::pass(graph, &d, record.upper, work, &mut self.rulings) {
                tree::Answer::Infeasible => return false,
                tree::Answer::Within(tree) => {
                    if is_tour(&tree, graph.n()) {
                        improve(record, &tree);
                        return false;
                    }
                    self.apply();
                    if sweep < record.sweeps {
                        adjust(&mut d, &tree, self.graph.n(), record.step as i32);
                    }
                }
            }
        }
        self.multipliers = d;
        true
    }

    /// Applies all rulings together, sixteen at a time; the last ones may come twice.
    fn apply(&mut self) {
        for start in (0..self.graph.m()).step_by(16) {
            let start = start.min(PLACES - 16);
            let marks: &mut [u8; 16] = self.graph.mark[start..].first_chunk_mut().expect("sixteen");
            let rulings: &[u8; 16] = self.rulings[start..].first_chunk().expect("sixteen");
            for (mark, ruling) in marks.iter_mut().zip(rulings) {
                let changed = ((*ruling < 3) as u8).wrapping_neg();
                *mark = (*ruling & changed) | (*mark & !changed);
            }
        }
    }
}

/// Connected, so a tour as soon as every degree is two.
fn is_tour(tree: &Tree, n: usize) -> bool {
    let degrees = tree.degree[1..=n].iter();
    degrees.fold(true, |all, degree| all & (*degree == 2))
}

/// The tour is the best where there is none, where it costs less, or where it costs as much and comes first; U is its cost.
fn improve(record: &mut Record, tree: &Tree) {
    let mut found = [0; PLACES];
    for k in &tree.edges[..record.graph.n()] {
        found[*k as usize] = 1;
    }
    // A tour's multipliers cancel out: its bound is its cost. With a best tour U is that one's cost, and this one is within it.
    let cheaper = record.has_best == 0 || tree.bound < record.upper;
    if cheaper || comes_first(&found, &record.best) {
        record.best = found;
    }
    record.has_best = 1;
    record.upper = tree.bound;
}

/// "of two, the one that lacks the highest-numbered leg in which they differ"
fn comes_first(one: &Marks, other: &Marks) -> bool {
    one.iter().rev().lt(other.iter().rev())
}

/// "each d(i), i ≥ 2, gains step × (g − 2) [..] and is held to its range"
fn adjust(d: &mut Multipliers, tree: &Tree, n: usize, step: i32) {
    for (d, degree) in d[1..n].iter_mut().zip(&tree.degree[2..=n]) {
        *d = (*d + step * (*degree as i32 - 2)).clamp(-MAX_MULTIPLIER, MAX_MULTIPLIER);
    }
}

/// Piles the node with its lowest-numbered free edge excluded and makes that edge required, both with the multipliers of the last pass; false
/// where none is free.
fn split<L>(record: &mut Record, node: &mut Node<L>) -> bool {
    let graph = &mut node.graph;
    let (rows, waiting) = (packed(&graph.mark, graph.m()), record.waiting());
    let Some(k) = lowest_free(&rows, graph.m()) else {
        return false;
    };
    record.stack[waiting] = excluding(rows, k);
    record.carried[waiting] = node.multipliers;
    record.depth += 1;
    node.rows = requiring(rows, k);
    graph.mark[k] = REQUIRED;
    true
}
