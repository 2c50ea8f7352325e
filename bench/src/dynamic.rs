//! Held–Karp dynamic programming over subsets: the cost of the cheapest tour of a complete graph.

use crate::inputs::{Graph, MAX_COST, VERTICES};

/// The empty path. Costs are raised by their limit, so that none is negative; counted from the lowest
/// number, 20 of them fit in 32 bits.
const EMPTY: i32 = i32::MIN;

/// More than any path costs, and small enough to add a cost to.
const FAR: i32 = EMPTY.wrapping_add_unsigned(2 * MAX_COST as u32 * VERTICES as u32) + 1;

/// A row of the table: for each vertex but the first, in 20 lanes, the cost of the cheapest path
/// from the first vertex through a set and ending there, raised and counted from `EMPTY`; `FAR` where
/// the vertex is not in the set.
type Row = [i32; VERTICES];

/// The table, one row for each set. It can be used again for graphs of the same size: entries that
/// are not `FAR` are written anew.
pub struct Table {
    n: usize,
    rows: Vec<Row>,
}

impl Table {
    pub fn new(n: usize) -> Table {
        Table {
            n,
            rows: vec![[FAR; VERTICES]; 1 << (n - 1)],
        }
    }

    /// The cost of the cheapest tour. Sets come in ascending order, so a row is complete when it is
    /// read; it is then read once and extended to every vertex outside its set.
    pub fn optimum(&mut self, graph: &Graph) -> i64 {
        let (costs, first) = matrix(graph);
        let others = self.n - 1;
        for (end, cost) in first.iter().enumerate().take(others) {
            self.rows[1 << end][end] = EMPTY + *cost;
        }
        let full = (1usize << others) - 1;
        for set in 1..full {
            let row = self.rows[set];
            let mut outside = full & !set;
            while outside != 0 {
                let next = outside.trailing_zeros() as usize;
                outside &= outside - 1;
                self.rows[set | 1 << next][next] = cheapest(&row, &costs[next]);
            }
        }
        self.cost(cheapest(&self.rows[full], &first))
    }

    /// The same by the textbook's loops: for each set and each end in it, the best vertex before the end.
    pub fn textbook(&mut self, graph: &Graph) -> i64 {
        let (costs, first) = matrix(graph);
        let others = self.n - 1;
        let full = (1usize << others) - 1;
        for set in 1..=full {
            for end in (0..others).filter(|end| set >> end & 1 == 1) {
                let before = set & !(1 << end);
                let mut least = if before == 0 { EMPTY + first[end] } else { FAR };
                for last in (0..others).filter(|last| before >> last & 1 == 1) {
                    least = least.min(self.rows[before][last] + costs[last][end]);
                }
                self.rows[set][end] = least;
            }
        }
        self.cost(cheapest(&self.rows[full], &first))
    }

    /// What a tour costs, of its number in the table.
    fn cost(&self, tour: i32) -> i64 {
        tour as i64 - EMPTY as i64 - self.n as i64 * MAX_COST as i64
    }
}

/// The cheapest sum of two rows.
#[inline(always)]
fn cheapest(paths: &Row, costs: &Row) -> i32 {
    let mut least = FAR;
    for (path, cost) in paths.iter().zip(costs) {
        least = least.min(path + cost);
    }
    least
}

/// Costs between the vertices but the first, and from the first to each; raised.
fn matrix(graph: &Graph) -> ([Row; VERTICES], Row) {
    assert_eq!(
        graph.m(),
        graph.n() * (graph.n() - 1) / 2,
        "a complete graph"
    );
    let mut costs = [[0; VERTICES]; VERTICES];
    let mut first = [0; VERTICES];
    for k in 0..graph.m() {
        let (a, b) = (graph.a[k] as usize, graph.b[k] as usize);
        let cost = graph.cost[k] + MAX_COST;
        if a == 1 {
            first[b - 2] = cost;
        } else {
            costs[a - 2][b - 2] = cost;
            costs[b - 2][a - 2] = cost;
        }
    }
    (costs, first)
}

#[cfg(test)]
mod tests {
    use super::*;

    /// A complete graph at one cost, but for the tour 1, 2, .. n at another.
    fn two_costs(n: u8, tour: i32, rest: i32) -> Graph {
        let mut graph = Graph::empty(n.into());
        for a in 1..n {
            for b in a + 1..=n {
                let in_tour = b == a + 1 || (a, b) == (1, n);
                graph.add(a, b, if in_tour { tour } else { rest }, 0);
            }
        }
        graph
    }

    #[test]
    fn holds_at_the_ends_of_the_costs() {
        for n in [5, 12, VERTICES as u8] {
            let mut table = Table::new(n.into());
            for (tour, rest) in [(1, 1), (1, 0), (0, 1), (-1, -1), (-1, 1), (0, 0)] {
                let (tour, rest) = (tour * MAX_COST, rest * MAX_COST);
                let graph = two_costs(n, tour, rest);
                // Of five vertices, and of more, some tour takes none of these edges.
                let least = n as i64 * tour.min(rest) as i64;
                assert_eq!(table.optimum(&graph), least);
                if n < 20 {
                    assert_eq!(table.textbook(&graph), least);
                }
            }
        }
    }
}
