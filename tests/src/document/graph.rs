//! 'Legs and marks'.

use super::law::Law;
use std::fmt;

/// Places for edges in a graph value: "m legs, 0 to 190".
pub const PLACES: usize = 190;

pub const FREE: u8 = 0;
pub const REQUIRED: u8 = 1;
pub const EXCLUDED: u8 = 2;

/// One leg.
#[derive(Clone, Copy, PartialEq, Eq, Debug)]
pub struct Edge {
    pub a: u8,
    pub b: u8,
    pub cost: i32,
    pub mark: u8,
}

/// A chart value, with any contents. Edge k stands at place k - 1. What a call's list ashore makes of it (ashore.rs) is one too.
#[derive(Clone, PartialEq, Eq)]
pub struct Graph {
    pub n: usize,
    pub m: usize,
    pub a: [u8; PLACES],
    pub b: [u8; PLACES],
    pub cost: [i32; PLACES],
    pub mark: [u8; PLACES],
    /// Document 02's C-20: "some buoys are ashore", a bit each, that of buoy v being bit v. No chart says so.
    pub ashore: u32,
}

impl Graph {
    /// The graph with these edges, zeros past them.
    pub fn from_edges(n: usize, edges: &[Edge]) -> Graph {
        let mut graph = Graph {
            n,
            m: edges.len(),
            a: [0; PLACES],
            b: [0; PLACES],
            cost: [0; PLACES],
            mark: [0; PLACES],
            ashore: 0,
        };
        for (k, edge) in edges.iter().enumerate() {
            graph.set(k, *edge);
        }
        graph
    }

    pub fn edge(&self, k: usize) -> Edge {
        Edge {
            a: self.a[k],
            b: self.b[k],
            cost: self.cost[k],
            mark: self.mark[k],
        }
    }

    pub fn set(&mut self, k: usize, edge: Edge) {
        self.a[k] = edge.a;
        self.b[k] = edge.b;
        self.cost[k] = edge.cost;
        self.mark[k] = edge.mark;
    }

    /// The edges 1 to m; at most 190 of them.
    pub fn edges(&self) -> Vec<Edge> {
        (0..self.m.min(PLACES)).map(|k| self.edge(k)).collect()
    }

    pub fn is_afloat(&self, vertex: usize) -> bool {
        self.ashore >> vertex & 1 == 0
    }

    /// The vertices that are afloat.
    pub fn afloat(&self) -> impl Iterator<Item = usize> + '_ {
        (1..=self.n).filter(|vertex| self.is_afloat(*vertex))
    }

    /// Whether edge k touches a vertex ashore.
    pub fn touches_ashore(&self, k: usize) -> bool {
        !self.is_afloat(self.a[k].into()) || !self.is_afloat(self.b[k].into())
    }

    pub fn marks(&self) -> Vec<u8> {
        self.edges().iter().map(|edge| edge.mark).collect()
    }

    pub fn with_marks(&self, marks: &[u8]) -> Graph {
        let mut graph = self.clone();
        graph.mark[..marks.len()].copy_from_slice(marks);
        graph
    }

    pub fn with_mark(&self, k: usize, mark: u8) -> Graph {
        let mut graph = self.clone();
        graph.mark[k] = mark;
        graph
    }

    /// "Two charts are the same when n, m and legs 1 to m agree".
    pub fn same(&self, other: &Graph) -> bool {
        self.n == other.n && self.m == other.m && self.edges() == other.edges()
    }
}

impl fmt::Debug for Graph {
    fn fmt(&self, f: &mut fmt::Formatter) -> fmt::Result {
        write!(f, "graph n {} m {} (a-b cost mark):", self.n, self.m)?;
        if self.ashore != 0 {
            let ashore = (1..=self.n).filter(|vertex| !self.is_afloat(*vertex));
            write!(f, " ashore {:?};", ashore.collect::<Vec<_>>())?;
        }
        for edge in self.edges() {
            write!(f, " {}-{} {} {};", edge.a, edge.b, edge.cost, edge.mark)?;
        }
        let zero = Edge {
            a: 0,
            b: 0,
            cost: 0,
            mark: 0,
        };
        for k in self.m.min(PLACES)..PLACES {
            let edge = self.edge(k);
            if edge != zero {
                write!(f, " past m, place {}: {edge:?};", k + 1)?;
            }
        }
        Ok(())
    }
}

/// Whether a value meets 'Legs and marks'; refusal 15 where it does not.
pub fn fits(law: &Law, graph: &Graph) -> bool {
    if graph.n < 3 || graph.n > law.max_vertices || graph.m > PLACES {
        return false;
    }
    let last = if law.past_m_ignored { graph.m } else { PLACES };
    (0..last).all(|k| {
        let edge = graph.edge(k);
        ends_fit(law, graph.n, edge.a, edge.b)
            && cost_fits(law, edge.cost)
            && edge.mark <= law.max_mark
            && (!law.pairs_differ || !(0..k).any(|j| same_pair(&graph.edge(j), &edge)))
    })
}

/// "1 ≤ a < b ≤ n".
pub fn ends_fit(law: &Law, n: usize, a: u8, b: u8) -> bool {
    1 <= a && (a < b || (!law.ends_differ && a == b)) && b as usize <= n
}

pub fn cost_fits(law: &Law, cost: i32) -> bool {
    -law.max_cost <= cost as i64 && cost as i64 <= law.max_cost
}

pub fn same_pair(one: &Edge, other: &Edge) -> bool {
    one.a == other.a && one.b == other.b
}
