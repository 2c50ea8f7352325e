//! The checks of the input and of the record. Without early exits inside a list, so that the
//! compiler takes many places at a time.

use super::record::{Record, NODES};
use super::rows::{fit, Rows};
use super::Multipliers;
use crate::inputs::{Graph, EXCLUDED, MAX_CEILING, MAX_COST, MAX_MULTIPLIER, PLACES, VERTICES};

/// Document 01, 'Legs and marks'.
pub fn graph_fits(graph: &Graph) -> bool {
    let (n, m) = (graph.n(), graph.m());
    if !(3..=VERTICES).contains(&n) || m > PLACES {
        return false;
    }
    let (a, b) = (&graph.a[..m], &graph.b[..m]);
    let fits = |all: bool, (a, b): (&u8, &u8)| all & (1 <= *a) & (a < b) & (*b <= n as u8);
    let ends = a.iter().zip(b).fold(true, fits);
    let marks = graph.mark[..m].iter();
    ends && small(&graph.cost[..m], MAX_COST)
        && marks.fold(0, |most, mark| most.max(*mark)) <= EXCLUDED
        && pairs_differ(n, a, b)
}

/// Whether each is from -most to most.
#[inline(always)]
fn small(values: &[i32], most: i32) -> bool {
    let fits = |all: bool, value: &i32| all & (value.wrapping_add(most) as u32 <= 2 * most as u32);
    values.iter().fold(true, fits)
}

/// As many pairs met as there are edges.
fn pairs_differ(n: usize, a: &[u8], b: &[u8]) -> bool {
    let mut met = [[0u8; VERTICES]; VERTICES];
    for (a, b) in a.iter().zip(b) {
        met[*a as usize - 1][*b as usize - 1] = 1;
    }
    let sum = |row: &[u8; VERTICES]| row.iter().sum::<u8>() as usize;
    met[..n].iter().map(sum).sum::<usize>() == a.len()
}

pub fn multipliers_fit(d: &[i32]) -> bool {
    d[0] == 0 && small(d, MAX_MULTIPLIER)
}

pub fn ceiling_fits(ceiling: i64) -> bool {
    ceiling.unsigned_abs() <= MAX_CEILING as u64
}

pub fn sweeps_fit(sweeps: u32, step: u32) -> bool {
    sweeps <= 15 && step <= 10_000
}

fn zero(bytes: &[u8]) -> bool {
    bytes.iter().fold(0, |any, byte| any | byte) == 0
}

fn zero_numbers(numbers: &[i32]) -> bool {
    numbers.iter().fold(0, |any, number| any | number) == 0
}

fn zero_words(words: &[u64]) -> bool {
    words.iter().fold(0, |any, word| any | word) == 0
}

/// docs/RECORD.md.
pub fn record_fits(record: &Record) -> bool {
    let graph = &record.graph;
    let flags = record.open <= 1 && record.has_best <= 1;
    let used = if record.open == 1 {
        graph_fits(graph)
            && multipliers_fit(&record.multipliers[..graph.n()])
            && ceiling_fits(record.ceiling)
            && sweeps_fit(record.sweeps, record.step)
            && record.denominator == 1
            && record.lifting <= 1
            && ceiling_fits(record.upper)
            && record.waiting() <= graph.n() + 2
            && nodes_fit(&record.stack[..record.waiting()], graph.m())
            && carried_fits(&record.carried[..record.waiting()], graph.n())
            && record.best.iter().fold(0, |most, byte| most.max(*byte)) <= 1
            && record.count < 1 << 63
    } else {
        closed(record)
    };
    flags && used && unused(record)
}

/// Nodes from the bottom: rows of different edges, none past m, and at place p at least p required ones.
fn nodes_fit(nodes: &[Rows], m: usize) -> bool {
    nodes.iter().enumerate().all(|(p, node)| fit(node, m, p))
}

/// What nodes carry: multipliers, zero past n.
fn carried_fits(nodes: &[Multipliers], n: usize) -> bool {
    let fits = |node: &Multipliers| multipliers_fit(&node[..n]) && zero_numbers(&node[n..]);
    nodes.iter().all(fits)
}

/// The numbers of a record without a search are zero.
fn closed(record: &Record) -> bool {
    let graph = &record.graph;
    graph.n() == 0
        && graph.m() == 0
        && record.ceiling == 0
        && record.sweeps == 0
        && record.step == 0
        && record.denominator == 0
        && record.lifting == 0
        && record.upper == 0
        && record.depth == 0
        && record.count == 0
        && record.has_best == 0
}

/// What is not in use is zero.
fn unused(record: &Record) -> bool {
    let graph = &record.graph;
    let (n, m, depth) = (graph.n(), graph.m(), record.waiting());
    let best = if record.has_best == 1 { m } else { 0 };
    debug_assert!(n <= VERTICES && m <= PLACES && depth <= NODES);
    zero(&graph.a[m..])
        && zero(&graph.b[m..])
        && zero_numbers(&graph.cost[m..])
        && zero(&graph.mark[m..])
        && zero_numbers(&record.multipliers[n..])
        && zero_words(record.stack[depth..].as_flattened())
        && zero_numbers(record.carried[depth..].as_flattened())
        && zero(&record.best[best..])
        && zero(&record.ashore)
}
