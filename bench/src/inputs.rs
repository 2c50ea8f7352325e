//! Seeded graphs: every run measures the same ones.

use planner::raw;
pub use planner::raw::{EDGES as PLACES, VERTICES};
pub use planner_tests::generate::{MAX_CEILING, MAX_COST, MAX_MULTIPLIER};
pub use planner_tests::random::Random;
use std::ops::{Deref, DerefMut};

pub const FREE: u8 = 0;
pub const REQUIRED: u8 = 1;
pub const EXCLUDED: u8 = 2;

/// Added to a charged cost, a cost and two multipliers, it gives a number from 1 on.
pub const OFFSET: i64 = MAX_COST as i64 + 2 * MAX_MULTIPLIER as i64 + 1;

/// No two charged costs are further apart.
pub const WIDEST: i64 = 2 * OFFSET;

/// A graph as the library takes it: vertices 1 to n, edge k at place k - 1.
#[derive(Clone)]
pub struct Graph(pub raw::Graph);

impl Deref for Graph {
    type Target = raw::Graph;

    fn deref(&self) -> &raw::Graph {
        &self.0
    }
}

impl DerefMut for Graph {
    fn deref_mut(&mut self) -> &mut raw::Graph {
        &mut self.0
    }
}

impl Graph {
    pub fn empty(n: usize) -> Graph {
        Graph(raw::Graph {
            cost: [0; PLACES],
            a: [0; PLACES],
            b: [0; PLACES],
            mark: [FREE; PLACES],
            n: n as u8,
            m: 0,
        })
    }

    #[inline(always)]
    pub fn n(&self) -> usize {
        self.n.into()
    }

    #[inline(always)]
    pub fn m(&self) -> usize {
        self.m.into()
    }

    pub fn add(&mut self, a: u8, b: u8, cost: i32, mark: u8) {
        let k = self.m();
        (self.a[k], self.b[k]) = (a, b);
        (self.cost[k], self.mark[k]) = (cost, mark);
        self.m += 1;
    }
}

/// Where the costs come from.
#[derive(Clone, Copy, PartialEq, Eq)]
pub enum Kind {
    /// rounded distances of points in a square of side 1000
    Euclidean,
    /// each cost drawn from 1 to 1000
    RandomCosts,
}

impl Kind {
    pub const ALL: [Kind; 2] = [Kind::Euclidean, Kind::RandomCosts];

    pub fn name(self) -> &'static str {
        match self {
            Kind::Euclidean => "euclidean",
            Kind::RandomCosts => "random",
        }
    }
}

/// The complete graph whose edge a-b (both counted from 1) costs `cost(a, b)`, numbered row by row.
fn complete(n: usize, mut cost: impl FnMut(usize, usize) -> i32) -> Graph {
    let mut graph = Graph::empty(n);
    for a in 1..n {
        for b in a + 1..=n {
            graph.add(a as u8, b as u8, cost(a, b), FREE);
        }
    }
    graph
}

/// The graph of this kind, size and number.
pub fn graph(kind: Kind, n: usize, number: u64) -> Graph {
    let mut random = Random::new(number * 1000 + n as u64 * 2 + (kind == Kind::Euclidean) as u64);
    match kind {
        Kind::RandomCosts => complete(n, |_, _| random.between(1, 1000) as i32),
        Kind::Euclidean => {
            let mut coordinate = || random.between(0, 1000) as f64;
            let points: Vec<(f64, f64)> = (0..n).map(|_| (coordinate(), coordinate())).collect();
            complete(n, |a, b| {
                let (p, q) = (points[a - 1], points[b - 1]);
                (p.0 - q.0).hypot(p.1 - q.1).round() as i32
            })
        }
    }
}

/// Multipliers of the size that some passes of step 20 give.
pub fn multipliers(n: usize, number: u64) -> [i32; VERTICES] {
    let mut random = Random::new(number * 77 + n as u64);
    let mut all = [0; VERTICES];
    for d in &mut all[1..n] {
        *d = 20 * random.between(-5, 5) as i32;
    }
    all
}

/// The cost of the tour that always goes on to the nearest vertex not yet visited, from vertex 1.
pub fn nearest_neighbour(graph: &Graph) -> i64 {
    let mut cost = [[0i64; VERTICES]; VERTICES];
    for k in 0..graph.m() {
        let (a, b) = (graph.a[k] as usize - 1, graph.b[k] as usize - 1);
        cost[a][b] = graph.cost[k] as i64;
        cost[b][a] = cost[a][b];
    }
    let (mut at, mut visited, mut total) = (0, 1u32, 0);
    for _ in 1..graph.n() {
        let open = (0..graph.n()).filter(|v| visited >> v & 1 == 0);
        let next = open.min_by_key(|v| cost[at][*v]).expect("n - 1 steps");
        total += cost[at][next];
        visited |= 1 << next;
        at = next;
    }
    total + cost[at][0]
}
