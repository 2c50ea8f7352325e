//! The tree call and the rule call on one graph, with the checks of the input that document 01 asks
//! for (refusals 15, 11, 12 and 13).

use super::dense::Dense;
use crate::inputs::{Graph, EXCLUDED, MAX_CEILING, MAX_COST, MAX_MULTIPLIER, PLACES, VERTICES};

/// Whether document 01 accepts the graph, the multipliers and the length of the list. Without early
/// exits, so that the compiler takes many edges at a time.
fn fit(graph: &Graph, d: &[i32], length: usize) -> bool {
    if !(3..=VERTICES).contains(&graph.n()) || graph.m() > PLACES {
        return false;
    }
    let (a, b) = (&graph.a[..graph.m()], &graph.b[..graph.m()]);
    let n = graph.n() as u8;
    let ends = a.iter().zip(b);
    let mut fits = ends.fold(true, |all, (a, b)| all & (1 <= *a) & (a < b) & (*b <= n));
    fits &= small(&graph.cost[..graph.m()], MAX_COST);
    let marks = graph.mark[..graph.m()].iter();
    fits &= marks.fold(true, |all, mark| all & (*mark <= EXCLUDED));
    fits && pairs_differ(graph.n(), a, b)
        && d.len() == graph.n()
        && length == graph.m()
        && d[0] == 0
        && small(d, MAX_MULTIPLIER)
}

/// Whether each is from -most to most.
#[inline(always)]
fn small(values: &[i32], most: i32) -> bool {
    let fits = |all: bool, value: &i32| all & (value.unsigned_abs() <= most as u32);
    values.iter().fold(true, fits)
}

/// As many pairs met as there are edges.
fn pairs_differ(n: usize, a: &[u8], b: &[u8]) -> bool {
    let mut met = [0u8; VERTICES * VERTICES];
    for (a, b) in a.iter().zip(b) {
        met[(*a as usize - 1) * VERTICES + *b as usize - 1] = 1;
    }
    let met = &met[..n * VERTICES];
    met.iter().map(|met| *met as u32).sum::<u32>() as usize == a.len()
}

/// The bound of the least 1-tree, whose bytes are then in `out`; none is 'no tree'.
pub fn tree(graph: &Graph, d: &[i32], out: &mut [u8]) -> Option<i64> {
    assert!(fit(graph, d, out.len()), "unfit");
    let mut dense = Dense::blank();
    let bound = dense.tree(graph, d)?;
    out.copy_from_slice(&dense.chosen[..graph.m()]);
    Some(bound)
}

/// The bound, and the rulings in `out`; none is 'dead'.
pub fn rule(graph: &Graph, d: &[i32], ceiling: i64, out: &mut [u8]) -> Option<i64> {
    assert!(fit(graph, d, out.len()), "unfit");
    assert!((-MAX_CEILING..=MAX_CEILING).contains(&ceiling), "unfit");
    let mut dense = Dense::blank();
    let bound = dense.tree(graph, d).filter(|bound| *bound <= ceiling)?;
    dense.rule(graph, ceiling - bound, out);
    Some(bound)
}
