//! One graph by itself: no order of the edges is known from before, and most are free, so Prim over
//! a matrix beats sorting them. Loops over vertices are written for the compiler to take four at a
//! time.

#![allow(clippy::needless_range_loop)] // one index into several arrays

use super::{key, Edge, Edges, LANES, NUMBERS, USED};
use crate::inputs::{Graph, FREE, PLACES, REQUIRED, WIDEST};

/// No edge, or a vertex that is reached already: above every key.
const FAR: i64 = i64::MAX;

type Lanes = [i64; LANES];

/// The least 1-tree of a graph, and what the rulings need of it.
pub struct Dense {
    n: usize,
    edges: Edges,
    /// by number; a required edge's key is its number alone, below every other; none: `FAR`
    keys: [i64; NUMBERS],
    bound: i64,
    /// by number, 1 in, 0 out
    pub chosen: [u8; NUMBERS],
    /// free tree edges beside vertex 0 in ascending order of keys, then `FAR`
    tree: Lanes,
    /// by number, the bit of a free tree edge beside vertex 0: its place in `tree`
    bit: [u32; NUMBERS],
    /// bits between each vertex and vertex 1
    path: [u32; LANES],
    /// keys at vertex 0, ascending: the two of the tree and the next
    first: [i64; 3],
}

/// Prim's steps: the keys, and the vertices that each joined, the new one last.
struct Steps {
    keys: Lanes,
    ends: [(u8, u8); LANES],
    len: usize,
}

impl Dense {
    /// Nothing of a graph yet; made where it is used, for a move would cost as much as Prim.
    pub fn blank() -> Dense {
        Dense {
            n: 0,
            edges: [Edge::default(); NUMBERS],
            keys: [FAR; NUMBERS],
            bound: 0,
            chosen: [0; NUMBERS],
            tree: [FAR; LANES],
            bit: [0; NUMBERS],
            path: [0; LANES],
            first: [FAR; 3],
        }
    }

    /// Finds the least 1-tree, if there is one.
    pub fn tree(&mut self, graph: &Graph, d: &[i32]) -> Option<i64> {
        let mut multipliers = [0; LANES];
        multipliers[..d.len()].copy_from_slice(d);
        self.n = graph.n();
        for k in 0..graph.m() {
            let (a, b) = (graph.a[k] - 1, graph.b[k] - 1);
            let cost = graph.cost[k];
            let edge = Edge { a, b, cost };
            let free = key(edge, k, &multipliers) as i64;
            self.edges[k] = edge;
            self.keys[k] = match graph.mark[k] {
                FREE => free,
                REQUIRED => k as i64,
                _ => FAR,
            };
        }
        self.grow(graph, &multipliers).then_some(self.bound)
    }

    /// Vertices, rounded up to whole blocks of four.
    fn lanes(&self) -> usize {
        self.n.next_multiple_of(4).min(USED)
    }

    fn number(key: i64) -> usize {
        (key & 255) as usize
    }

    fn is_required(key: i64) -> bool {
        key < 256
    }

    /// Finds the tree, if there is one.
    fn grow(&mut self, graph: &Graph, multipliers: &[i32; LANES]) -> bool {
        self.first = self.three_at_first(graph.m());
        let steps = self.prim(graph.m());
        if self.first[1] == FAR || steps.len < self.n - 2 {
            return false;
        }
        let tree = self.first[..2].iter().chain(&steps.keys[..steps.len]);
        for key in tree {
            let k = Dense::number(*key);
            let edge = self.edges[k];
            let d = multipliers[edge.a as usize] + multipliers[edge.b as usize];
            self.chosen[k] = 1;
            self.bound += edge.cost as i64 + d as i64;
        }
        self.bound -= 2 * multipliers.iter().sum::<i32>() as i64;
        self.number_bits(&steps);
        // A required edge that is left out would close a circle, or be a third at vertex 0.
        let marks = graph.mark[..graph.m()].iter().zip(&self.chosen);
        marks.fold(true, |all, (mark, chosen)| {
            all & ((*mark != REQUIRED) | (*chosen == 1))
        })
    }

    /// The three least keys at vertex 0.
    fn three_at_first(&self, m: usize) -> [i64; 3] {
        let mut least = [FAR; 3];
        for k in 0..m {
            if self.edges[k].a == 0 {
                let key = self.keys[k];
                least[2] = least[2].min(key.max(least[1]));
                least[1] = least[1].min(key.max(least[0]));
                least[0] = least[0].min(key);
            }
        }
        least
    }

    /// The key of each pair of vertices.
    fn matrix(&self, m: usize) -> [[i64; USED]; USED] {
        let mut rows = [[FAR; USED]; USED];
        for k in 0..m {
            let (a, b) = (self.edges[k].a as usize, self.edges[k].b as usize);
            rows[a][b] = self.keys[k];
            rows[b][a] = self.keys[k];
        }
        rows
    }

    /// From vertex 1, again and again the least key that leaves the vertices reached.
    fn prim(&self, m: usize) -> Steps {
        let rows = self.matrix(m);
        let lanes = self.lanes();
        let numbers: Lanes = std::array::from_fn(|vertex| vertex as i64);
        let mut done = [0; LANES];
        done[0] = FAR;
        let mut nearest = [FAR; LANES];
        let mut steps = Steps {
            keys: [FAR; LANES],
            ends: [(0, 0); LANES],
            len: 0,
        };
        let (mut reached, mut new) = (0u32, 1usize);
        for step in 0..self.n - 2 {
            reached |= 1 << new;
            let row = &rows[new];
            let mut least = FAR;
            for v in 0..lanes {
                let is_new = -((numbers[v] == new as i64) as i64);
                done[v] |= is_new & FAR;
                nearest[v] = nearest[v].min(row[v]) | done[v];
                least = least.min(nearest[v]);
            }
            if least == FAR {
                break;
            }
            let edge = self.edges[Dense::number(least)];
            let inward = reached >> edge.b & 1 == 1;
            let (from, to) = if inward {
                (edge.b, edge.a)
            } else {
                (edge.a, edge.b)
            };
            steps.keys[step] = least;
            steps.ends[step] = (from, to);
            steps.len += 1;
            new = to as usize;
        }
        steps
    }

    /// Gives the free edges among the steps their bits, by counting for each the keys below it, and
    /// each vertex its path.
    fn number_bits(&mut self, steps: &Steps) {
        let lanes = self.lanes();
        let required = steps.keys[..lanes]
            .iter()
            .filter(|key| Dense::is_required(**key))
            .count();
        for step in 0..steps.len {
            let key = steps.keys[step];
            let (from, to) = steps.ends[step];
            let mut bit = 0;
            if !Dense::is_required(key) {
                let place = count_below(&steps.keys[..lanes], key) - required;
                self.tree[place % LANES] = key;
                bit = 1 << place;
                self.bit[Dense::number(key)] = bit;
            }
            self.path[to as usize % LANES] = self.path[from as usize % LANES] | bit;
        }
    }

    /// The rulings, of a graph whose bound is `slack` below the ceiling.
    pub fn rule(&self, graph: &Graph, slack: i64, out: &mut [u8]) {
        let slack = slack.min(WIDEST + 1) << 8;
        let raise = |key: i64| (key | 255).saturating_add(slack).min(FAR - 1);
        // The dearest key that each tree edge can be swapped with; always below `FAR`.
        let limit: Lanes = self.tree.map(raise);
        let lanes = self.lanes();
        let (mut swapped, mut rulings) = (0u32, [0u8; NUMBERS]);
        for k in 0..graph.m() {
            let edge = self.edges[k];
            let path = self.path[edge.a as usize % LANES] ^ self.path[edge.b as usize % LANES];
            let dearest = 31 - (path | 1).leading_zeros() as usize;
            if path == 0 || limit[dearest] < self.keys[k] {
                rulings[k] = 2;
            } else if edge.a != 0 {
                let from = count_below(&limit[..lanes], self.keys[k]);
                swapped |= path & !self.bit[k] & (u32::MAX << from);
            }
        }
        for k in 0..graph.m() {
            let kept = self.bit[k] & swapped != 0;
            let forced = (self.bit[k] != 0) & !kept;
            rulings[k] = if forced { 1 } else { rulings[k] };
        }
        self.rule_first(graph.m(), raise, &mut rulings);
        for (k, out) in out.iter_mut().enumerate() {
            let mark = graph.mark[k];
            *out = if mark == FREE { rulings[k] } else { mark + 2 };
        }
    }

    /// At vertex 0: swaps with the dearest free tree edge there, and with the cheapest outside.
    fn rule_first(&self, m: usize, raise: impl Fn(i64) -> i64, rulings: &mut [u8; NUMBERS]) {
        let [_, dearest, next] = self.first;
        for k in (0..m).filter(|k| self.edges[*k].a == 0) {
            let key = self.keys[k];
            rulings[k] = if self.chosen[k] == 1 {
                (next == FAR || next > raise(key)) as u8
            } else if Dense::is_required(dearest) || key > raise(dearest) {
                2
            } else {
                0
            };
        }
    }
}

/// How many of the lanes are below `value`.
#[inline(always)]
fn count_below(lanes: &[i64], value: i64) -> usize {
    let mut counts = [0; 4];
    for block in lanes.chunks_exact(4) {
        for i in 0..4 {
            counts[i] += (block[i] < value) as i64;
        }
    }
    (counts[0] + counts[1] + counts[2] + counts[3]) as usize
}

const _: () = assert!(PLACES <= NUMBERS && 18 < USED);
