//! The rules before document 02's C-17, in short and by going through all sets of edges: no denominator, every number in minutes.
//! With q = 1 "every answer is the old one".

use super::graph::{Graph, EXCLUDED, FREE, REQUIRED};
use super::law::Law;
use super::tours::{cost, is_tour};
use super::tree::is_one_tree;

/// Every 1-tree, first the one of least bound and, of equals, the one "that lacks the highest-numbered leg in which they differ".
fn one_trees(graph: &Graph, dues: &[i32]) -> Vec<(i64, Vec<u8>)> {
    let due = |vertex: u8| i64::from(dues[vertex as usize - 1]);
    let all: i64 = dues.iter().map(|d| i64::from(*d)).sum();
    let bound = |edges: &Vec<u8>| -> i64 {
        let chosen = (0..graph.m).filter(|k| edges[*k] == 1);
        let costs = chosen.map(|k| i64::from(graph.cost[k]) + due(graph.a[k]) + due(graph.b[k]));
        costs.sum::<i64>() - 2 * all
    };
    let mut trees: Vec<(i64, Vec<u8>)> = (0..1u32 << graph.m)
        .map(|set| (0..graph.m).map(|k| (set >> k & 1) as u8).collect())
        .filter(|edges: &Vec<u8>| is_one_tree(&Law::AS_WRITTEN, graph, edges))
        .map(|edges| (bound(&edges), edges))
        .collect();
    // Sets were made in the order of ties, and this sort keeps it.
    trees.sort_by_key(|(bound, _)| *bound);
    trees
}

/// The tree call: the bound and the edges.
pub fn tree(graph: &Graph, dues: &[i32]) -> Option<(i64, Vec<u8>)> {
    one_trees(graph, dues).into_iter().next()
}

/// The rule call: the bound and the rulings; none is 'dead'.
pub fn rule(graph: &Graph, dues: &[i32], ceiling: i64) -> Option<(i64, Vec<u8>)> {
    let mut low = one_trees(graph, dues);
    low.retain(|(bound, _)| *bound <= ceiling);
    let (least, _) = low.first()?;
    let rulings = (0..graph.m).map(|k| {
        let with = low.iter().any(|(_, edges)| edges[k] == 1);
        let without = low.iter().any(|(_, edges)| edges[k] == 0);
        match graph.mark[k] {
            REQUIRED => 3,
            EXCLUDED => 4,
            _ if !with => 2,
            _ if !without => 1,
            _ => 0,
        }
    });
    Some((*least, rulings.collect()))
}

/// A whole hunt: what it has found, and how many nodes it opened.
pub struct Hunt {
    pub graph: Graph,
    pub sweeps: u32,
    pub step: u32,
    pub upper: i64,
    pub best: Option<Vec<u8>>,
    pub count: u64,
}

impl Hunt {
    /// Opens a node, and then all below it: the node on top first, "that leg required". Both have the dues of its last pass.
    pub fn open(&mut self, mut marks: Vec<u8>, mut dues: Vec<i32>) {
        self.count += 1;
        for pass in 0..=self.sweeps {
            let graph = self.graph.with_marks(&marks);
            let Some((_, edges)) = tree(&graph, &dues).filter(|(bound, _)| *bound <= self.upper)
            else {
                return;
            };
            if is_tour(&graph, &edges) {
                self.upper = cost(&graph, &edges);
                let before = |best: &Vec<u8>| {
                    let kept = cost(&graph, best);
                    // C-23: the first "lacks the highest-numbered leg in which they differ"
                    self.upper < kept
                        || self.upper == kept && edges.iter().rev().lt(best.iter().rev())
                };
                if self.best.as_ref().is_none_or(before) {
                    self.best = Some(edges);
                }
                return;
            }
            let (_, rulings) = rule(&graph, &dues, self.upper).expect("a tree within U");
            for (mark, ruling) in marks.iter_mut().zip(rulings) {
                *mark = match ruling {
                    1 => REQUIRED,
                    2 => EXCLUDED,
                    _ => *mark,
                };
            }
            if pass < self.sweeps {
                self.gain(&graph, &edges, &mut dues);
            }
        }
        if let Some(k) = marks.iter().position(|mark| *mark == FREE) {
            for mark in [REQUIRED, EXCLUDED] {
                marks[k] = mark;
                self.open(marks.clone(), dues.clone());
            }
        }
    }

    /// "each d(i), i ≥ 2, gains step × (g − 2) .. and is held to its range"
    fn gain(&self, graph: &Graph, edges: &[u8], dues: &mut [i32]) {
        for vertex in 2..=graph.n {
            let touches = |k: &usize| {
                let ends = [graph.a[*k] as usize, graph.b[*k] as usize];
                edges[*k] == 1 && ends.contains(&vertex)
            };
            let touching = (0..graph.m).filter(touches).count() as i32;
            let gained = dues[vertex - 1] + self.step as i32 * (touching - 2);
            dues[vertex - 1] = gained.clamp(-1_000_000, 1_000_000);
        }
    }
}
