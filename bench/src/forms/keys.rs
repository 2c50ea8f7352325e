//! Keys of edges: what Kruskal sorts.

use super::Multipliers;
use crate::inputs::{Graph, OFFSET, VERTICES};

/// Edges in a list, rounded up to whole vectors.
pub const ROOM: usize = 192;

/// Room for vertices 1 to 20: an index masked by it needs no check.
pub const LANES: usize = 32;

/// Multipliers by vertex, counted from 1.
pub type Lanes = [i32; LANES];

pub fn lanes(d: &Multipliers) -> Lanes {
    let mut lanes = [0; LANES];
    lanes[1..=VERTICES].copy_from_slice(d);
    lanes
}

/// Above the charged cost, 0 where the edge is required; in the lowest 24 bits the number and both ends.
/// In ascending order Kruskal takes the required edges first, and finds, of two trees with equal
/// bound, the one without the highest-numbered edge in which they differ.
pub type Key = u64;

/// No edge: above every key.
pub const FAR: Key = Key::MAX;

/// The bits below the charged cost.
pub const BELOW: u32 = 24;
pub const LOWER: Key = (1 << BELOW) - 1;

/// The key of a required edge.
#[inline(always)]
pub fn uncharged(graph: &Graph, k: usize) -> Key {
    (k as Key) << 16 | (graph.a[k] as Key) << 8 | graph.b[k] as Key
}

/// The key with the cost that these multipliers charge.
#[inline(always)]
pub fn charged(graph: &Graph, key: Key, d: &Lanes) -> Key {
    let (a, b) = ends(key);
    let charge = graph.cost[number(key)] as i64 + d[a] as i64 + d[b] as i64 + OFFSET;
    (charge as Key) << BELOW | key & LOWER
}

#[inline(always)]
pub fn number(key: Key) -> usize {
    (key >> 16 & 255) as usize
}

/// Both ends.
#[inline(always)]
pub fn ends(key: Key) -> (usize, usize) {
    (key as usize >> 8 & 31, key as usize & 31)
}

/// The dearest key that a tree edge with this key can be swapped with, `slack` being what the bound
/// may gain, above the lowest bits.
#[inline(always)]
pub fn limit(key: Key, slack: Key) -> Key {
    (key | LOWER) + slack
}
