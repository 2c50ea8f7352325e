//! Before anything is timed: all sides agree on graphs that the tables do not have, small and
//! sparse ones with marks of all three kinds, many equal costs, and costs, multipliers and ceilings
//! at their limits; and every node that waits is compared.

use crate::fast::Verdict;
use crate::forms::Forms;
use crate::inputs::{
    Graph, Random, EXCLUDED, FREE, MAX_CEILING, MAX_COST, MAX_MULTIPLIER, PLACES, REQUIRED,
    VERTICES,
};
use crate::ours::Ours;
use crate::planner::{Job, Planner, Reference, Stored};

/// How many graphs.
const CASES: u64 = 3_000;

/// A graph that lacks some edges, in an order of its own.
pub fn sparse(random: &mut Random) -> Graph {
    let n = random.between(3, VERTICES as i64) as usize;
    let (lacking, highest) = (
        random.between(0, 70),
        [1, 3, 50, 1_000_000, MAX_COST as i64][random.below(5)],
    );
    let (required, excluded) = ([0, 2, 8, 25][random.below(4)], random.between(0, 40));
    let mut pairs: Vec<(u8, u8)> = Vec::new();
    for a in 1..n as u8 {
        for b in a + 1..=n as u8 {
            if random.between(0, 99) >= lacking {
                pairs.insert(random.below(pairs.len() + 1), (a, b));
            }
        }
    }
    let mut graph = Graph::empty(n);
    for (a, b) in pairs {
        let mark = match random.between(0, 99) {
            x if x < required => REQUIRED,
            x if x < required + excluded => EXCLUDED,
            _ => FREE,
        };
        graph.add(a, b, random.between(-highest, highest) as i32, mark);
    }
    graph
}

pub fn any_multipliers(random: &mut Random, n: usize) -> Vec<i32> {
    let highest = [0, 2, 40, MAX_MULTIPLIER as i64][random.below(4)];
    let mut all: Vec<i32> = (0..n)
        .map(|_| random.between(-highest, highest) as i32)
        .collect();
    all[0] = 0;
    all
}

/// A ceiling at the bound, one below or above it by anything up to the whole range.
pub fn any_ceiling(random: &mut Random, bound: Option<i64>) -> i64 {
    let above = [0, 1, 7, 100, 3_000, 40_000_000, 1 << 32, 2 * MAX_CEILING][random.below(8)];
    let ceiling = bound.unwrap_or(0) + above - random.below(2) as i64;
    ceiling.clamp(-MAX_CEILING, MAX_CEILING)
}

/// Calls all sides with a list each; they must answer alike and leave alike lists.
fn same<T: PartialEq + std::fmt::Debug>(
    what: &str,
    mut call: impl FnMut(&mut dyn Planner, &mut [u8; PLACES]) -> T,
) -> T {
    let mut lists = [[9; PLACES]; 3];
    let ours = call(&mut Ours::new(), &mut lists[0]);
    let forms = call(&mut Forms::new(), &mut lists[1]);
    let free = call(&mut Reference::new(), &mut lists[2]);
    assert_eq!(ours, forms, "{what}: ours and the forms differ");
    assert_eq!(forms, free, "{what}: the two references differ");
    assert_eq!(lists[0], lists[1], "{what}: the lists differ");
    assert_eq!(lists[1], lists[2], "{what}: the references' lists differ");
    ours
}

/// Tree, rulings under ceilings about the bound, and a short search without lifting and with it.
fn one_graph(random: &mut Random) {
    let graph = sparse(random);
    let d = any_multipliers(random, graph.n());
    let m = graph.m();
    let bound = same("tree", |side, out| side.tree(&graph, &d, &mut out[..m]));
    let ceiling = any_ceiling(random, bound);
    same("rule", |side, out| {
        side.rule(&graph, &d, ceiling, &mut out[..m])
    });
    let mut job = Job {
        ceiling,
        sweeps: random.below(16) as u32,
        step: [0, 1, 20, 10_000][random.below(4)],
        lifting: 0,
        budget: random.below(60) as u64,
        multipliers: d,
        graph,
    };
    same("search", |side, out| search(side, &job, &mut out[..m]));
    job.lifting = [1, 2, u64::MAX][random.below(3)];
    same("lifted search", |side, out| {
        search(side, &job, &mut out[..m])
    });
}

fn search(side: &mut dyn Planner, job: &Job, out: &mut [u8]) -> (bool, Stored, (Verdict, u64)) {
    side.open(job);
    let finished = side.run(job.budget);
    (finished, side.stored(), side.finish(out))
}

pub fn check() {
    let mut random = Random::new(1);
    for _ in 0..CASES {
        one_graph(&mut random);
    }
    println!("All sides agree on {CASES} graphs with marks.");
}

#[test]
fn all_sides_agree() {
    check();
}
