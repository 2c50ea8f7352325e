//! The reference: document 01's machine as an expert would write it without proofs, for speed.
//! It shares no code with the library.

mod calls;
mod dense;
mod lift;
mod pass;
mod search;

pub use calls::{rule, tree};
pub use search::{Search, Verdict};

use crate::inputs::{Graph, OFFSET};

/// Room for every edge number that a byte holds: an index by a byte needs no check.
const NUMBERS: usize = 256;

/// Free edges in a list; one more place for a sentinel.
const ROOM: usize = 192;

/// Vertices, rounded up so that an index masked by `LANES - 1` needs no check.
const LANES: usize = 32;

/// Lanes that hold vertices.
const USED: usize = 20;

#[derive(Clone, Copy, Default)]
struct Edge {
    a: u8,
    b: u8,
    cost: i32,
}

/// The edges by number, both counted from 0; vertex 1 is vertex 0 here.
type Edges = [Edge; NUMBERS];

fn edges_of(graph: &Graph) -> Edges {
    let mut edges = [Edge::default(); NUMBERS];
    for (k, edge) in edges.iter_mut().enumerate().take(graph.m()) {
        edge.a = graph.a[k] - 1;
        edge.b = graph.b[k] - 1;
        edge.cost = graph.cost[k];
    }
    edges
}

/// Charged cost above, number below: keys differ, and their order is the one in which Kruskal must
/// go so that of two trees with equal bound the one without the highest-numbered edge comes out. They
/// are positive, above 255.
type Key = u64;

#[inline(always)]
fn key(edge: Edge, number: usize, multipliers: &[i32; LANES]) -> Key {
    let d = |vertex: u8| multipliers[vertex as usize % LANES] as i64;
    ((edge.cost as i64 + d(edge.a) + d(edge.b) + OFFSET) as Key) << 8 | number as Key
}

#[inline(always)]
fn number(key: Key) -> usize {
    (key & 255) as usize
}
