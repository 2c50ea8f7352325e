//! Time per entry of a log, beside a queue for each edge that keeps only the times which may still become its greatest.

use crate::clock::time;
use crate::inputs::{self, Graph, Kind, PLACES};
use crate::lines::Options;
use crate::table::number;
use ::planner::raw::WINDOW;
use planner_tests::document::law::Law;
use planner_tests::random::Random;
use std::collections::VecDeque;
use std::hint::black_box;

const ENTRIES: usize = 1_000_000;

struct Log {
    edges: Vec<usize>,
    times: Vec<i32>,
}

/// A season of every edge alike: any times, or times that mostly fall, each of which waits in a queue until it is too old.
fn log(m: usize, falling: bool) -> Log {
    let mut random = Random::new(22);
    let time = |i: usize, random: &mut Random| match falling {
        true => 1000 - (i % 1000) as i32 - random.between(0, 3) as i32,
        false => random.between(-1000, 1000) as i32,
    };
    Log {
        edges: (0..ENTRIES).map(|_| 1 + random.below(m)).collect(),
        times: (0..ENTRIES).map(|i| time(i, &mut random)).collect(),
    }
}

/// The costs after the log, by monotone queues; the place of a bad entry, from 1, or 0.
fn by_queues(graph: &Graph, w: usize, log: &Log, costs: &mut [i32; PLACES]) -> usize {
    let mut queues = vec![VecDeque::with_capacity(WINDOW + 1); graph.m()];
    let mut counts = [0u64; PLACES];
    let limit = Law::AS_WRITTEN.max_cost as i32;
    for (i, (&edge, &time)) in log.edges.iter().zip(&log.times).enumerate() {
        if edge < 1 || edge > graph.m() || !(-limit..=limit).contains(&time) {
            return i + 1;
        }
        let k = edge - 1;
        let (queue, count) = (&mut queues[k], counts[k]);
        if queue.front().is_some_and(|&(_, at)| at + w as u64 <= count) {
            queue.pop_front();
        }
        while queue.back().is_some_and(|&(older, _)| older <= time) {
            queue.pop_back();
        }
        queue.push_back((time, count));
        counts[k] = count + 1;
        costs[k] = queue[0].0;
    }
    0
}

fn least(repeats: usize, mut work: impl FnMut() -> f64) -> f64 {
    (0..repeats).map(|_| work()).fold(f64::INFINITY, f64::min) / ENTRIES as f64
}

/// Prints the table; both sides must make the same costs.
pub fn lines(options: &Options) {
    println!("\n## Time per entry of a log of {ENTRIES} entries\n");
    println!("| line | ours, ns | monotone queues, ns | ratio |\n|---|---:|---:|---:|");
    let graph = inputs::graph(Kind::RandomCosts, 20, 1);
    let repeats = if options.quick { 3 } else { 15 };
    for (kind, falling) in [("any", false), ("falling", true)] {
        let log = log(graph.m(), falling);
        for w in [1, 2, 8, WINDOW] {
            let name = format!("recent w{w} {kind}");
            if options.wants(&name) {
                let (mut ours, mut queued) = (graph.0, [0; PLACES]);
                let proved = least(repeats, || {
                    ours = graph.0;
                    let (edges, times) = (black_box(&log.edges), black_box(&log.times));
                    let work = || ::planner::recent_costs(&mut ours, w, edges, times);
                    let (spent, said) = time(work);
                    assert_eq!(said, Ok(()), "refused");
                    spent
                });
                let plain = least(repeats, || {
                    queued = graph.cost;
                    let (spent, place) =
                        time(|| by_queues(&graph, w, black_box(&log), &mut queued));
                    assert_eq!(place, 0, "refused");
                    spent
                });
                assert_eq!(ours.cost, queued, "two sides differ");
                let figures = [(proved, 1), (plain, 1), (proved / plain, 2)];
                let cells = figures.map(|(figure, digits)| number(figure, digits));
                println!("| {name} | {} |", cells.join(" | "));
            }
        }
    }
}
