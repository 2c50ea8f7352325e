//! The search: same nodes, same order, same count as document 01's machine, read with document 02's C-13 and C-16.

use super::lift::Lift;
use super::pass::{Changes, Keys, Pass, Required};
use super::{edges_of, key, number, Key, NUMBERS};
use crate::inputs::{Graph, EXCLUDED, FREE, PLACES, REQUIRED};
use crate::planner::Stored;

/// A set of edges by rank: place in the order of the opening's keys, those at vertex 0 last.
#[derive(Clone, Copy, PartialEq, Eq)]
struct Ranks([u64; 3]);

impl Ranks {
    fn set(&mut self, rank: u8, value: bool) {
        let bit = 1u64 << (rank % 64);
        let word = &mut self.0[rank as usize / 64];
        *word = if value { *word | bit } else { *word & !bit };
    }

    fn has(&self, rank: u8) -> bool {
        self.0[rank as usize / 64] >> (rank % 64) & 1 == 1
    }
}

/// A waiting node: excluded is what is neither free nor required.
#[derive(Clone, Copy)]
struct Node {
    free: Ranks,
    required: Ranks,
    parts: Required,
    /// no edge of a lower number is free
    lowest: u8,
    /// those of its parent's last pass; without sweeps always the opening's
    multipliers: [i32; super::LANES],
}

#[derive(Clone, Copy, PartialEq, Eq, Debug)]
pub enum Verdict {
    GoingOn,
    None,
    Cost(i64),
}

pub struct Search {
    m: usize,
    opening_multipliers: [i32; super::LANES],
    /// by rank
    opening_keys: [Key; NUMBERS],
    /// by edge number
    rank: [u8; NUMBERS],
    /// ranks below are of edges beside vertex 0
    others: usize,
    sweeps: u32,
    step: i32,
    upper: i64,
    stack: Vec<Node>,
    best: Option<[u8; PLACES]>,
    best_cost: i64,
    count: u64,
    pass: Pass,
    changes: Changes,
    /// where the opening turned lifting on
    lift: Option<Box<Lift>>,
}

impl Search {
    pub fn open(
        graph: &Graph,
        d: &[i32],
        ceiling: i64,
        sweeps: u32,
        step: u32,
        lifting: u64,
    ) -> Search {
        let mut search = Search {
            m: graph.m(),
            opening_multipliers: [0; super::LANES],
            opening_keys: [0; NUMBERS],
            rank: [0; NUMBERS],
            others: 0,
            sweeps,
            step: step as i32,
            upper: ceiling,
            stack: Vec::with_capacity(graph.n() + 2),
            best: None,
            best_cost: 0,
            count: 0,
            pass: Pass::new(graph.n(), edges_of(graph)),
            changes: Changes {
                forced: Keys::new(),
                barred: Keys::new(),
            },
            lift: (lifting != 0).then(|| Box::new(Lift::new())),
        };
        search.opening_multipliers[..d.len()].copy_from_slice(d);
        search.rank_edges();
        search.stack.push(search.root(&graph.mark[..graph.m()]));
        search
    }

    /// Sorts the edges by the opening's keys: at every node the free ones come in this order.
    fn rank_edges(&mut self) {
        let edges = &self.pass.edges;
        let keys = &mut self.opening_keys[..self.m];
        for (k, place) in keys.iter_mut().enumerate() {
            *place = key(edges[k], k, &self.opening_multipliers);
        }
        keys.sort_unstable_by_key(|key| (edges[number(*key)].a == 0, *key));
        self.others = keys.partition_point(|key| edges[number(*key)].a != 0);
        for (rank, key) in keys.iter().enumerate() {
            self.rank[number(*key)] = rank as u8;
        }
    }

    fn root(&self, marks: &[u8]) -> Node {
        let mut node = Node {
            free: Ranks([0; 3]),
            required: Ranks([0; 3]),
            parts: Required::none(),
            lowest: 0,
            multipliers: self.opening_multipliers,
        };
        for (k, mark) in marks.iter().enumerate() {
            node.free.set(self.rank[k], *mark == FREE);
            node.required.set(self.rank[k], *mark == REQUIRED);
            if *mark == REQUIRED {
                node.parts.add(self.pass.edges[k]);
            }
            debug_assert!(*mark <= EXCLUDED);
        }
        node
    }

    /// Whether the search is finished.
    pub fn run(&mut self, budget: u64) -> bool {
        let mut left = budget.min((1 << 63) - 1 - self.count);
        while left > 0 {
            let Some(node) = self.stack.pop() else {
                break;
            };
            self.count += 1;
            left -= 1;
            self.open_node(node);
        }
        self.stack.is_empty()
    }

    fn open_node(&mut self, mut node: Node) {
        self.pass.required = node.parts;
        self.pass.multipliers = self.opening_multipliers;
        self.list_free(&node.free);
        if self.sweeps > 0 && node.multipliers != self.opening_multipliers {
            self.pass.multipliers = node.multipliers;
            self.pass.renew();
        }
        for sweep in 0..=self.sweeps {
            if sweep > 0 {
                self.pass.adjust(self.step);
                self.pass.renew();
            }
            let Some(bound) = self.pass.grow().filter(|bound| *bound <= self.upper) else {
                return;
            };
            if self.pass.is_tour() {
                return self.improve(&node);
            }
            let slack = self.upper - bound;
            match &mut self.lift {
                None => self.pass.rule(slack, &mut self.changes),
                Some(lift) => self.pass.rule_lifted(slack, lift, &mut self.changes),
            }
            self.apply(&mut node);
        }
        self.split(node);
    }

    /// The free edges with their opening keys, in ascending order.
    fn list_free(&mut self, free: &Ranks) {
        let pass = &mut self.pass;
        (pass.first.len, pass.others.len) = (0, 0);
        for (i, word) in free.0.iter().enumerate() {
            let mut word = *word;
            while word != 0 {
                let rank = 64 * i + word.trailing_zeros() as usize;
                word &= word - 1;
                let list = if rank < self.others {
                    &mut pass.others
                } else {
                    &mut pass.first
                };
                list.push(self.opening_keys[rank]);
            }
        }
    }

    fn apply(&mut self, node: &mut Node) {
        for key in self.changes.barred.slice() {
            node.free.set(self.rank[number(*key)], false);
        }
        for key in self.changes.forced.slice() {
            let rank = self.rank[number(*key)];
            node.free.set(rank, false);
            node.required.set(rank, true);
        }
        self.changes.barred.len = 0;
        self.changes.forced.len = 0;
    }

    /// The tour is the best where there is none, where it costs less, or where it costs as much and comes first; U is its cost.
    fn improve(&mut self, node: &Node) {
        let mut best = [0; PLACES];
        for (k, byte) in best.iter_mut().enumerate().take(self.m) {
            *byte = node.required.has(self.rank[k]) as u8;
        }
        for k in self.pass.free_in_tree() {
            best[k] = 1;
        }
        self.upper = self.pass.tree_cost();
        let replaces = match &self.best {
            Some(kept) if self.upper == self.best_cost => best.iter().rev().lt(kept.iter().rev()),
            _ => true,
        };
        if replaces {
            self.best = Some(best);
        }
        self.best_cost = self.upper;
    }

    /// The lowest-numbered free edge excluded and, on top, required.
    fn split(&mut self, mut node: Node) {
        node.parts = self.pass.required;
        if self.sweeps > 0 {
            node.multipliers = self.pass.multipliers;
        }
        let mut k = node.lowest as usize;
        while k < self.m && !node.free.has(self.rank[k]) {
            k += 1;
        }
        if k == self.m {
            return;
        }
        node.lowest = k as u8 + 1;
        node.free.set(self.rank[k], false);
        self.stack.push(node);
        node.required.set(self.rank[k], true);
        node.parts.add(self.pass.edges[k]);
        self.stack.push(node);
    }

    pub fn stored(&self) -> Stored {
        let mark = |node: &Node, k: usize| match () {
            _ if node.free.has(self.rank[k]) => FREE,
            _ if node.required.has(self.rank[k]) => REQUIRED,
            _ => EXCLUDED,
        };
        let view = |node: &Node| {
            let marks = (0..self.m).map(|k| mark(node, k)).collect();
            (marks, node.multipliers[..self.pass.n].to_vec())
        };
        Stored {
            upper: self.upper,
            count: self.count,
            nodes: self.stack.iter().map(view).collect(),
            best: self.best.map(|best| best[..self.m].to_vec()),
        }
    }

    /// The upper bound and how many nodes wait.
    pub fn state(&self) -> (i64, usize) {
        (self.upper, self.stack.len())
    }

    pub fn tell(&self) -> (Verdict, u64) {
        let verdict = match self.best {
            _ if !self.stack.is_empty() => Verdict::GoingOn,
            None => Verdict::None,
            Some(_) => Verdict::Cost(self.best_cost),
        };
        (verdict, self.count)
    }

    /// Whether there is a best tour, whose bytes are then in `out`.
    pub fn show(&self, out: &mut [u8]) -> bool {
        if let Some(best) = &self.best {
            out.copy_from_slice(&best[..self.m]);
        }
        self.best.is_some()
    }
}
