//! Random graphs, multipliers, ceilings and lists of calls.

use crate::document::graph::{Edge, Graph, EXCLUDED, FREE, PLACES, REQUIRED};
use crate::document::law::Law;
use crate::document::machine::Call;
use crate::random::Random;

/// The limits of the law as written; each range is from minus to plus its limit.
pub const MAX_COST: i32 = Law::AS_WRITTEN.max_cost as i32;
pub const MAX_MULTIPLIER: i32 = Law::AS_WRITTEN.max_multiplier as i32;
pub const MAX_CEILING: i64 = Law::AS_WRITTEN.max_ceiling;
pub const MAX_DENOMINATOR: u64 = Law::AS_WRITTEN.max_denominator;

/// How costs and multipliers are drawn: few values make ties, the ends of the range make extremes.
#[derive(Clone, Copy)]
pub enum Spread {
    Equal,
    Few,
    Some,
    /// of any number of digits
    Sized,
    Whole,
    Ends,
    Top,
}

pub const SPREADS: [Spread; 7] = [
    Spread::Equal,
    Spread::Few,
    Spread::Some,
    Spread::Sized,
    Spread::Whole,
    Spread::Ends,
    Spread::Top,
];

/// A number from -max to max.
pub fn number(random: &mut Random, spread: Spread, max: i32) -> i32 {
    let max = max as i64;
    let drawn = match spread {
        Spread::Equal => 7,
        Spread::Few => random.between(-2, 2),
        Spread::Some => random.between(-20, 100),
        Spread::Sized => {
            let size = 10i64.pow(random.below(10) as u32).min(max);
            random.between(-size, size)
        }
        Spread::Whole => random.between(-max, max),
        Spread::Ends => {
            let end = random.pick(&[-max, max]);
            end - end.signum() * random.between(0, 2)
        }
        Spread::Top => max - random.between(0, 2),
    };
    drawn as i32
}

/// One past a limit, on either side, or an end of the type.
pub fn past(random: &mut Random, max: i32) -> i32 {
    random.pick(&[max + 1, -max - 1, i32::MIN, i32::MAX])
}

/// A ceiling out of range.
pub fn wrong_ceiling(random: &mut Random) -> i64 {
    random.pick(&[MAX_CEILING + 1, -MAX_CEILING - 1, i64::MAX, i64::MIN])
}

/// Marks: all free, mostly free, or any.
pub fn mark(random: &mut Random, style: usize) -> u8 {
    match style {
        0 => FREE,
        1 if random.one_in(8) => REQUIRED,
        1 if random.one_in(6) => EXCLUDED,
        1 => FREE,
        2 if random.one_in(4) => EXCLUDED,
        2 => FREE,
        _ => random.pick(&[FREE, REQUIRED, EXCLUDED]),
    }
}

/// Every pair of n vertices, shuffled.
pub fn pairs(random: &mut Random, n: usize) -> Vec<(u8, u8)> {
    let n = n as u8;
    let mut pairs: Vec<(u8, u8)> = (1..=n)
        .flat_map(|a| (a + 1..=n).map(move |b| (a, b)))
        .collect();
    random.shuffle(&mut pairs);
    pairs
}

/// A fit graph with n vertices and m edges. Every second one has costs of the multipliers' range, whose
/// order multipliers can change.
pub fn graph_of(random: &mut Random, n: usize, m: usize) -> Graph {
    let spread = random.pick(&SPREADS);
    let max = random.pick(&[MAX_COST, MAX_MULTIPLIER]);
    let style = random.below(4);
    let edges: Vec<Edge> = pairs(random, n)[..m]
        .iter()
        .map(|(a, b)| Edge {
            a: *a,
            b: *b,
            cost: number(random, spread, max),
            mark: mark(random, style),
        })
        .collect();
    Graph::from_edges(n, &edges)
}

/// A fit graph: any number of edges, or nearly all.
pub fn graph(random: &mut Random) -> Graph {
    let n = 3 + random.below(18);
    let most = n * (n - 1) / 2;
    let m = match random.below(4) {
        0 => most - random.below(n.min(most + 1)),
        1 => random.below(most.min(8) + 1),
        _ => random.below(most + 1),
    };
    graph_of(random, n, m)
}

/// A fit graph with at most `most` edges: enough of them for a tree, as a rule.
pub fn small_graph(random: &mut Random, max_vertices: usize, most: usize) -> Graph {
    let n = 3 + random.below(max_vertices - 2);
    let most = most.min(n * (n - 1) / 2);
    let least = if random.one_in(5) { 0 } else { n.min(most) };
    let m = least + random.below(most - least + 1);
    graph_of(random, n, m)
}

/// The same graph with its edges in another order.
pub fn shuffled(random: &mut Random, graph: &Graph) -> Graph {
    let mut edges = graph.edges();
    random.shuffle(&mut edges);
    Graph::from_edges(graph.n, &edges)
}

/// Puts anything into the places past m.
pub fn junk_past_m(random: &mut Random, graph: &mut Graph) {
    for k in graph.m.min(PLACES)..PLACES {
        let edge = Edge {
            a: random.byte(),
            b: random.byte(),
            cost: random.word() as i32,
            mark: random.byte(),
        };
        graph.set(k, edge);
    }
}

/// Fit multipliers.
pub fn multipliers(random: &mut Random, n: usize) -> Vec<i32> {
    let spread = random.pick(&SPREADS);
    multipliers_of(random, n, spread)
}

/// Fit multipliers drawn one way; all 0 now and then.
pub fn multipliers_of(random: &mut Random, n: usize, spread: Spread) -> Vec<i32> {
    if random.one_in(5) {
        return vec![0; n];
    }
    let mut drawn: Vec<i32> = (0..n)
        .map(|_| number(random, spread, MAX_MULTIPLIER))
        .collect();
    drawn[0] = 0;
    drawn
}

/// A denominator; 1 every third time.
pub fn denominator(random: &mut Random) -> u64 {
    match random.below(6) {
        0 | 1 => 1,
        2 => 1 + random.below(1_000) as u64,
        3 => MAX_DENOMINATOR - random.below(2) as u64,
        _ => random.pick(&[2, 3, 7, 10, 60, MAX_DENOMINATOR]),
    }
}

/// A list of which of n buoys are ashore: none every second time, otherwise any but buoy 1, three at least being afloat.
pub fn ashore(random: &mut Random, n: usize) -> Vec<u8> {
    let mut list = vec![0; n];
    if n > 3 && random.one_in(2) {
        let mut others: Vec<usize> = (1..n).collect();
        random.shuffle(&mut others);
        let most = random.pick(&[1, 2, n - 3, n - 3]).min(n - 3);
        let hauled = &others[..1 + random.below(most)];
        hauled.iter().for_each(|place| list[*place] = 1);
    }
    list
}

/// Breaks a list ashore: a byte above 1, buoy 1 ashore, or fewer than three afloat.
pub fn break_ashore(random: &mut Random, list: &mut [u8]) {
    if list.is_empty() {
        return;
    }
    let place = random.below(list.len());
    match random.below(6) {
        0 | 1 => list[0] = 1,
        2 | 3 => list[place] = random.pick(&[2, 2, 2, 3, 128, 255]),
        _ => {
            let afloat = list.len().min(1 + random.below(2));
            list[afloat..].fill(1);
        }
    }
}

/// Whether an opening lifts: no or yes, and every fourth yes as a number whose low bytes say no.
pub fn lifting(random: &mut Random) -> u64 {
    match random.below(8) {
        0 => random.pick(&[2, 3, 256, 1 << 32, 1 << 63, u64::MAX]),
        1..=3 => 1,
        _ => 0,
    }
}

/// A denominator out of range: one past each end, or one whose low bytes alone would do.
pub fn wrong_denominator(random: &mut Random) -> u64 {
    let past = MAX_DENOMINATOR + 1;
    random.pick(&[
        0,
        0,
        past,
        past,
        past + 1,
        1 << 16 | 1,
        1 << 32 | 2,
        u64::MAX,
    ])
}

/// A way to break 'Legs and marks', or none, at a random edge.
pub fn break_value(random: &mut Random, graph: &mut Graph) {
    let k = random.below(graph.m.clamp(1, PLACES));
    match random.below(14) {
        0 => graph.n = random.below(26),
        1 => graph.n = random.byte().into(),
        2 => graph.n = random.pick(&[0, 1, 2, 21, 22, 127, 128, 254, 255]),
        3 => graph.m = 191 + random.below(10),
        4 => graph.m = random.pick(&[191, 192, 254, 255]),
        5 => graph.b[k] = graph.a[k],
        6 => std::mem::swap(&mut graph.a[k], &mut graph.b[k]),
        7 => graph.a[k] = 0,
        8 => graph.b[k] = (graph.n as u8).wrapping_add(1 + random.below(3) as u8),
        9 => graph.b[k] = random.byte(),
        10 => {
            let j = random.below(graph.m.clamp(1, PLACES));
            graph.a[k] = graph.a[j];
            graph.b[k] = graph.b[j];
        }
        11 => {
            let near = MAX_COST + random.below(3) as i32;
            graph.cost[k] = random.pick(&[near, -near, i32::MIN, i32::MAX]);
        }
        12 => graph.mark[k] = random.byte(),
        _ => graph.mark[k] = 2 + random.below(2) as u8,
    }
}

/// A fit graph, a broken one now and then; junk past m every second time.
pub fn graph_value(random: &mut Random, broken: bool) -> Graph {
    let mut graph = graph(random);
    if random.one_in(2) {
        junk_past_m(random, &mut graph);
    }
    if broken {
        for _ in 0..1 + random.below(2) {
            break_value(random, &mut graph);
        }
    }
    graph
}

/// A ceiling, often at or beside `bound`, or beside a number that has the bound's low half.
pub fn ceiling(random: &mut Random, bound: i64) -> i64 {
    let size = 10i64.pow(random.below(10) as u32);
    let near = match random.below(10) {
        0 => bound - 1,
        1 | 2 => bound,
        3 => bound + 1,
        4 => bound + random.between(0, 20),
        5 => bound + random.between(0, size),
        6 => bound + random.pick(&[-1 << 32, 1 << 31, 1 << 32]) + random.between(-2, 2),
        7 => random.between(-MAX_CEILING, MAX_CEILING),
        8 => MAX_CEILING,
        _ => random.pick(&[-MAX_CEILING, 0, 20 * MAX_COST as i64]),
    };
    near.clamp(-MAX_CEILING, MAX_CEILING)
}

/// A length that is right, or wrong by a little or by much.
pub fn length(random: &mut Random, right: usize, wrong: bool) -> usize {
    if !wrong {
        return right;
    }
    match random.below(4) {
        0 => right + 1 + random.below(12),
        1 => right.saturating_sub(1 + random.below(12)),
        2 => 0,
        _ => random.below(3000),
    }
}

/// A list of calls on one record: most are in an order that makes sense.
pub fn calls(random: &mut Random, max_vertices: usize, most: usize) -> Vec<Call> {
    let count = 3 + random.below(14);
    calls_of(random, count, max_vertices, most)
}

/// A list of this many calls.
pub fn calls_of(random: &mut Random, count: usize, max_vertices: usize, most: usize) -> Vec<Call> {
    let mut list = Vec::new();
    let mut m = 0;
    if !random.one_in(8) {
        let open = opening(random, max_vertices, most, false);
        m = edges_of(&open);
        list.push(open);
    }
    while list.len() < count {
        let call = match random.below(12) {
            0 => Call::Close,
            1 | 2 => {
                let wrong = random.one_in(4);
                let open = opening(random, max_vertices, most, wrong);
                if random.one_in(2) {
                    m = edges_of(&open);
                }
                open
            }
            3 | 4 => Call::Tell,
            5..=7 => Call::Show {
                length: if random.one_in(4) {
                    random.below(192)
                } else {
                    m
                },
            },
            8 => Call::Run {
                budget: random.word(),
            },
            _ => Call::Run {
                budget: random.below(6) as u64,
            },
        };
        list.push(call);
    }
    list
}

fn edges_of(open: &Call) -> usize {
    match open {
        Call::Open { graph, .. } => graph.m,
        _ => 0,
    }
}

/// An opening; where `wrong`, with one fault or more.
pub fn opening(random: &mut Random, max_vertices: usize, most: usize, wrong: bool) -> Call {
    let mut graph = small_graph(random, max_vertices, most);
    let mut multipliers = multipliers(random, graph.n);
    let total: i64 = graph.edges().iter().map(|edge| edge.cost as i64).sum();
    let mean = total / (graph.m as i64).max(1);
    let mut ceiling = ceiling(random, mean * graph.n as i64);
    let mut sweeps = if random.one_in(3) {
        0
    } else {
        random.below(16) as u32
    };
    let mut step = random.pick(&[0, 1, 2, 10, 1_000, 10_000]);
    let mut denominator = denominator(random);
    let mut ashore = ashore(random, graph.n);
    let faults = if wrong { random.pick(&[1, 1, 2, 3]) } else { 0 };
    for _ in 0..faults {
        match random.below(8) {
            0 => break_value(random, &mut graph),
            1 => multipliers.resize(random.below(24), 0),
            2 => break_multipliers(random, &mut multipliers),
            3 => ceiling = wrong_ceiling(random),
            4 => denominator = wrong_denominator(random),
            5 => break_ashore(random, &mut ashore),
            6 => ashore.resize(random.below(24), 0),
            _ if random.one_in(2) => sweeps = random.pick(&[16, 16, 17, u32::MAX]),
            _ => step = random.pick(&[10_001, u32::MAX]),
        }
    }
    Call::Open {
        graph: Box::new(graph),
        multipliers,
        ashore,
        ceiling,
        sweeps,
        step,
        denominator,
        lifting: lifting(random),
    }
}

/// A multiplier out of range, or the first one not 0.
pub fn break_multipliers(random: &mut Random, multipliers: &mut [i32]) {
    if multipliers.is_empty() {
        return;
    }
    let i = random.below(multipliers.len());
    match random.below(3) {
        0 => multipliers[0] = random.pick(&[1, -1, MAX_MULTIPLIER]),
        1 => multipliers[i] = past(random, MAX_MULTIPLIER),
        _ => *multipliers.last_mut().expect("not empty") = past(random, MAX_MULTIPLIER),
    }
}
