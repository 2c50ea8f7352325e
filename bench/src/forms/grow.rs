//! The least 1-tree by Kruskal.

use super::keys::{charged, ends, number, uncharged, Key, Lanes, FAR, LANES, ROOM};
use super::order::Order;
use crate::inputs::{Graph, FREE, REQUIRED, VERTICES};

/// To which part of the tree each vertex belongs.
pub type Labels = [u8; LANES];

/// A 1-tree.
pub struct Grown {
    /// numbers of its edges: beside vertex 1 the required, then the free; then those at vertex 1
    pub edges: [u8; LANES],
    pub required: usize,
    /// how many edges each vertex has
    pub degree: [u8; LANES],
    /// the part to which the required edges join each vertex, named after one of its vertices
    pub part: Labels,
    /// beside vertex 1, for the free edges of the tree: neighbours of a part, a bit each, and the edge
    /// between two parts
    pub near: [u32; LANES],
    pub between: [[u8; VERTICES]; VERTICES],
    /// keys of the free tree edges beside vertex 1, by number
    pub key: [Key; 256],
    /// keys beside vertex 1 that were refused, ascending, and how many free ones were looked at
    refused: [Key; ROOM],
    refusals: usize,
    looked_at: usize,
    /// free keys at vertex 1; the least of them, and how many of those are in the tree
    pub first: [Key; LANES],
    pub firsts: usize,
    pub least: [Key; 3],
    pub taken: usize,
}

impl Grown {
    #[inline(always)]
    pub fn blank() -> Grown {
        Grown {
            edges: [0; LANES],
            required: 0,
            degree: [0; LANES],
            part: [0; LANES],
            near: [0; LANES],
            between: [[0; VERTICES]; VERTICES],
            key: [0; 256],
            refused: [0; ROOM],
            refusals: 0,
            looked_at: 0,
            first: [FAR; LANES],
            firsts: 0,
            least: [FAR; 3],
            taken: 0,
        }
    }

    /// Grows the least 1-tree; its bound, or none.
    pub fn grow(&mut self, graph: &Graph, d: &Lanes, order: &Order) -> Option<i64> {
        (self.degree, self.near) = ([0; LANES], [0; LANES]);
        let cost = self.kruskal(graph, order)? + self.find_first(graph, d, order.first())?;
        Some(self.bound(cost, d))
    }

    /// The free edges beside vertex 1 that are not in the tree: those refused, and those not looked at.
    pub fn outside<'a>(&'a self, order: &'a Order) -> [&'a [Key]; 2] {
        let refused = &self.refused[..self.refusals];
        [refused, &order.free()[self.looked_at..]]
    }

    /// Joins the vertices beside vertex 1; the cost, or none where it cannot be done.
    fn kruskal(&mut self, graph: &Graph, order: &Order) -> Option<i64> {
        let mut label = std::array::from_fn(|vertex| vertex as u8);
        let cost = self.take_required(graph, order.required(), &mut label)?;
        self.part = label;
        Some(cost + self.take_free(graph, order.free(), &mut label)?)
    }

    /// All required edges; none where they close a circle.
    #[inline(always)]
    fn take_required(&mut self, graph: &Graph, keys: &[Key], label: &mut Labels) -> Option<i64> {
        if keys.len() > graph.n() - 2 {
            return None;
        }
        let mut cost = 0;
        for (i, key) in keys.iter().enumerate() {
            let (a, b) = ends(*key);
            let (to, from) = (label[a], label[b]);
            if to == from {
                return None;
            }
            cost += self.take(graph, i, *key);
            relabel(label, from, to);
        }
        self.required = keys.len();
        Some(cost)
    }

    /// Free edges until the tree is whole; none where they do not suffice.
    #[inline(always)]
    fn take_free(&mut self, graph: &Graph, keys: &[Key], label: &mut Labels) -> Option<i64> {
        let (mut len, mut refusals, mut looked_at) = (self.required, 0, 0);
        let mut cost = 0;
        while len < graph.n() - 2 {
            let key = *keys.get(looked_at)?;
            let (a, b) = ends(key);
            let (to, from) = (label[a], label[b]);
            looked_at += 1;
            if to == from {
                self.refused[refusals] = key;
                refusals += 1;
            } else {
                cost += self.join(graph, len, key);
                len += 1;
                relabel(label, from, to);
            }
        }
        (self.refusals, self.looked_at) = (refusals, looked_at);
        Some(cost)
    }

    /// Takes a free edge beside vertex 1, and notes what hanging the tree up will ask; while labels are
    /// waited for, this costs little.
    #[inline(always)]
    fn join(&mut self, graph: &Graph, place: usize, key: Key) -> i64 {
        let k = number(key);
        let (a, b) = self.parts(key);
        self.key[k] = key;
        self.near[a] |= 1 << b;
        self.near[b] |= 1 << a;
        self.between[a - 1][b - 1] = k as u8;
        self.between[b - 1][a - 1] = k as u8;
        self.take(graph, place, key)
    }

    /// The parts of both ends.
    #[inline(always)]
    pub fn parts(&self, key: Key) -> (usize, usize) {
        let (a, b) = ends(key);
        (self.part[a] as usize % LANES, self.part[b] as usize % LANES)
    }

    /// Takes an edge as this one of the tree; its cost.
    #[inline(always)]
    fn take(&mut self, graph: &Graph, place: usize, key: Key) -> i64 {
        let k = number(key);
        let (a, b) = ends(key);
        self.edges[place % LANES] = k as u8;
        self.degree[a] += 1;
        self.degree[b] += 1;
        graph.cost[k] as i64
    }

    /// Takes two edges at vertex 1, required or least; the cost, or none where it cannot be done.
    fn find_first(&mut self, graph: &Graph, d: &Lanes, edges: &[u8]) -> Option<i64> {
        let mut least = [FAR; 3];
        let (mut required, mut firsts, mut cost) = (0, 0, 0);
        let place = graph.n() - 2;
        for k in edges.iter().map(|k| *k as usize) {
            let key = uncharged(graph, k);
            if graph.mark[k] == FREE {
                let key = charged(graph, key, d);
                self.first[firsts % LANES] = key;
                firsts += 1;
                note(&mut least, key);
            } else if graph.mark[k] == REQUIRED {
                cost += self.take(graph, place + required, key);
                required += 1;
            }
        }
        if required > 2 || required + firsts < 2 {
            return None;
        }
        for (i, key) in least[..2 - required].iter().enumerate() {
            cost += self.take(graph, place + required + i, *key);
        }
        (self.firsts, self.least, self.taken) = (firsts, least, 2 - required);
        Some(cost)
    }

    /// Costs, and each multiplier as often as its vertex has more than two edges.
    fn bound(&self, cost: i64, d: &Lanes) -> i64 {
        let pairs = d[..24].iter().zip(&self.degree[..24]);
        let extra: i32 = pairs.map(|(d, degree)| d * (*degree as i32 - 2)).sum();
        cost + extra as i64
    }
}

/// Keeps the three least keys.
#[inline(always)]
fn note(least: &mut [Key; 3], key: Key) {
    least[2] = least[2].min(key.max(least[1]));
    least[1] = least[1].min(key.max(least[0]));
    least[0] = least[0].min(key);
}

/// Part `from` becomes part of `to`; all vertices at once.
#[inline(always)]
fn relabel(label: &mut Labels, from: u8, to: u8) {
    for label in label {
        *label = if *label == from { to } else { *label };
    }
}
