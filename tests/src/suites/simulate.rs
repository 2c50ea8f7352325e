//! The simulator (document 02, C-21): document 01's sea, every tour of small graphs in both directions, and right and damaged input.

use super::facts::four;
use crate::bends;
use crate::document::graph::{Edge, Graph, FREE};
use crate::document::law::Law;
use crate::document::sailing::{self, next, Asked};
use crate::document::tours;
use crate::ffi::sailings::{simulate, SailedReply};
use crate::generate;
use crate::random::Random;
use crate::report::{Outcome, Suite, Tally};
use planner::raw::{Sailed, SPREAD, STUDENT};
use std::collections::BTreeSet;

pub const SUITE: Suite = Suite {
    name: "simulate",
    run,
    bends: &[
        bends::HIGHER_STUDENT,
        bends::HIGHER_SPREAD,
        bends::SET_OF_LEGS,
        bends::BUOY_MET_TWICE,
        bends::NUMBERS_BEFORE_ORDER,
        bends::REMAINDER_FIRST,
        bends::TWO_E,
        bends::DELAY_BEFORE_STEP,
        bends::LENGTH_BEFORE_VALUE,
    ],
};

pub fn expected(law: &Law, graph: &Graph, asked: &Asked) -> SailedReply {
    let (said, times) = match sailing::simulate(law, graph, asked) {
        Ok(sailing) => {
            let said = Sailed {
                number: 0,
                place: 0,
                total: sailing.total,
                state: sailing.state,
            };
            (said, Some(sailing.times))
        }
        Err(refusal) => {
            let said = Sailed {
                number: refusal.number,
                place: refusal.place,
                total: 0,
                state: 0,
            };
            (said, None)
        }
    };
    SailedReply {
        said,
        times,
        margins_kept: true,
    }
}

/// The legs of a tour in sailing order from buoy 1.
fn order(graph: &Graph, edges: &[u8]) -> Vec<usize> {
    let mut left: Vec<usize> = (0..graph.m).filter(|k| edges[*k] == 1).collect();
    let (mut at, mut legs) = (1, Vec::new());
    while !left.is_empty() {
        let touching = |k: &usize| usize::from(graph.a[*k]) == at || usize::from(graph.b[*k]) == at;
        let place = left.iter().position(touching).expect("a tour goes on");
        let k = left.remove(place);
        at = usize::from(graph.a[k]) + usize::from(graph.b[k]) - at;
        legs.push(k + 1);
    }
    legs
}

/// A student number, most of them such as are taken.
fn student(random: &mut Random) -> u64 {
    match random.below(12) {
        0 => STUDENT,
        1 => STUDENT + 1,
        2 => random.pick(&[1 << 32, u64::MAX, 65_536 + 7]),
        _ => random.word() % (STUDENT + 1),
    }
}

fn spread(random: &mut Random) -> u64 {
    match random.below(12) {
        0 => SPREAD,
        1 => SPREAD + 1,
        2 => random.pick(&[1 << 32, u64::MAX, 1 << 63]),
        3..=5 => random.below(4) as u64,
        _ => random.word() % (SPREAD + 1),
    }
}

/// A graph that has a tour, as a rule, and its legs in sailing order; then, where asked, one fault or more.
pub fn asked(random: &mut Random, wrong: bool) -> (Graph, Asked) {
    let mut graph = with_a_tour(random);
    let tour = first_tour(random, &graph);
    let mut asked = Asked {
        legs: tour,
        student: student(random),
        spread: spread(random),
        length: graph.n,
    };
    if random.one_in(2) {
        generate::junk_past_m(random, &mut graph);
    }
    for _ in 0..if wrong { 1 + random.below(3) } else { 0 } {
        damage(random, &mut graph, &mut asked);
    }
    (graph, asked)
}

/// A circle of all buoys in some order, and other legs beside it.
fn with_a_tour(random: &mut Random) -> Graph {
    let n = 3 + random.below(18);
    let mut circle: Vec<u8> = (1..=n as u8).collect();
    random.shuffle(&mut circle);
    let mut pairs: BTreeSet<(u8, u8)> = BTreeSet::new();
    for i in 0..n {
        let (x, y) = (circle[i], circle[(i + 1) % n]);
        pairs.insert((x.min(y), x.max(y)));
    }
    for pair in generate::pairs(random, n) {
        if random.one_in(3) {
            pairs.insert(pair);
        }
    }
    let style = random.below(4);
    let ends = random.pick(&generate::SPREADS);
    let mut edges: Vec<Edge> = Vec::new();
    for (a, b) in pairs {
        edges.push(Edge {
            a,
            b,
            cost: generate::number(random, ends, generate::MAX_COST),
            mark: generate::mark(random, style),
        });
    }
    random.shuffle(&mut edges);
    Graph::from_edges(n, &edges)
}

/// Some tour of the graph, found by going on to buoys that are new while there is one.
fn first_tour(random: &mut Random, graph: &Graph) -> Vec<usize> {
    for _ in 0..40 {
        let (mut at, mut met, mut legs) = (1, vec![1], Vec::new());
        loop {
            let mut ways: Vec<(usize, usize)> = (0..graph.m)
                .filter_map(|k| {
                    let (a, b) = (usize::from(graph.a[k]), usize::from(graph.b[k]));
                    let to = if a == at { b } else { a };
                    let last = legs.len() + 1 == graph.n && to == 1;
                    ((a == at || b == at) && (last || !met.contains(&to))).then_some((k + 1, to))
                })
                .collect();
            random.shuffle(&mut ways);
            let Some((leg, to)) = ways.pop() else {
                break;
            };
            legs.push(leg);
            met.push(to);
            at = to;
        }
        if legs.len() == graph.n {
            return legs;
        }
    }
    vec![1; graph.n]
}

fn damage(random: &mut Random, graph: &mut Graph, asked: &mut Asked) {
    let legs = &mut asked.legs;
    let n = legs.len();
    match random.below(10) {
        0 => generate::break_value(random, graph),
        1 => legs.resize(generate::length(random, n, true).min(60), 1),
        2 => asked.length = generate::length(random, n, true),
        3 if n > 0 => legs.rotate_left(random.below(n)),
        4 => random.shuffle(legs),
        5 if n > 1 => legs[n - 1] = legs[n - 2],
        6 if n > 0 => {
            let place = random.below(n);
            legs[place] = random.pick(&[
                0,
                graph.m + 1,
                190,
                191,
                legs[place].wrapping_add(256),
                usize::MAX,
            ]);
        }
        7 if n > 1 => legs.swap(0, 1),
        8 => asked.student = random.word(),
        _ => asked.spread = random.word(),
    }
}

fn run(law: &Law, tally: &mut Tally) -> Outcome {
    let random = &mut Random::new(0x7361_696c);
    facts(law, tally)?;
    for round in 0..20_000 {
        let (graph, asked) = asked(random, round % 3 == 2);
        one(law, tally, &graph, &asked)?;
    }
    for _ in 0..400 {
        let graph = generate::small_graph(random, 7, 16);
        for tour in tours::all(&graph) {
            either_way(law, tally, random, &graph, &tour)?;
        }
    }
    apart(tally)
}

fn one(law: &Law, tally: &mut Tally, graph: &Graph, asked: &Asked) -> Outcome {
    let input = || format!("{graph:?}, {asked:?}");
    let wanted = expected(law, graph, asked);
    tally.compare("simulate", input, &wanted, &simulate(graph, asked))
}

/// Every tour can be sailed from buoy 1 in both directions, and its total is its cost and the delays.
fn either_way(
    law: &Law,
    tally: &mut Tally,
    random: &mut Random,
    graph: &Graph,
    tour: &tours::Tour,
) -> Outcome {
    let mut legs = order(graph, &tour.edges);
    for _ in 0..2 {
        let asked = Asked {
            legs: legs.clone(),
            student: random.word() % (STUDENT + 1),
            spread: 0,
            length: graph.n,
        };
        one(law, tally, graph, &asked)?;
        let input = || format!("{graph:?}, {asked:?}");
        let said = simulate(graph, &asked).said;
        tally.compare("total", input, &(0, tour.cost), &(said.number, said.total))?;
        legs.reverse();
    }
    Ok(())
}

fn edge(a: u8, b: u8, cost: i32) -> Edge {
    Edge {
        a,
        b,
        cost,
        mark: FREE,
    }
}

/// Document 01's sea, and six buoys with two circles through buoy 1.
fn facts(law: &Law, tally: &mut Tally) -> Outcome {
    let four = four();
    let of = |legs: &[usize], student, spread, length| Asked {
        legs: legs.to_vec(),
        student,
        spread,
        length,
    };
    let sailed = of(&[1, 4, 6, 3], 0, 2, 4);
    one(law, tally, &four, &sailed)?;
    let wanted = SailedReply {
        said: Sailed {
            number: 0,
            place: 0,
            total: 12,
            state: 2_868_466_484,
        },
        times: Some(vec![2, 1, 2, 7]),
        margins_kept: true,
    };
    tally.compare(
        "fact",
        || format!("{sailed:?}"),
        &wanted,
        &simulate(&four, &sailed),
    )?;
    let six = Graph::from_edges(
        6,
        &[
            edge(1, 2, 1),
            edge(2, 3, 1),
            edge(1, 3, 1),
            edge(1, 4, 1),
            edge(4, 5, 1),
            edge(1, 5, 1),
        ],
    );
    let refused = [
        (&four, of(&[4, 6, 3, 1], 0, 2, 4), 36),
        (&four, of(&[1, 4, 6, 6], 0, 2, 4), 36),
        (&four, of(&[1, 6, 4, 3], 0, 2, 4), 36),
        (&six, of(&[1, 2, 3, 4, 5, 6], 0, 2, 6), 36),
        (&four, of(&[4, 6, 3, 1], 65_536, 2, 4), 36),
        (&four, of(&[4, 6, 3], 65_536, 2, 4), 11),
        (&four, of(&[1, 4, 6, 3], 65_536, 2, 3), 11),
        (&four, of(&[1, 4, 6, 3], 65_536, 2, 4), 37),
        (&four, of(&[1, 4, 6, 3], 0, 1_001, 4), 37),
    ];
    for (graph, asked, number) in refused {
        one(law, tally, graph, &asked)?;
        let got = simulate(graph, &asked);
        tally.compare(
            "refusal",
            || format!("{asked:?}"),
            &(number, None),
            &(got.said.number, got.times),
        )?;
    }
    Ok(())
}

/// "Students with different numbers never hold the same state after equally many legs": all of them, after each of 20 legs.
fn apart(tally: &mut Tally) -> Outcome {
    let mut states: Vec<u64> = (0..=STUDENT).collect();
    for legs in 1..=20 {
        states.iter_mut().for_each(|s| *s = next(*s));
        let different: BTreeSet<u64> = states.iter().copied().collect();
        tally.compare(
            "apart",
            || format!("{legs} legs"),
            &states.len(),
            &different.len(),
        )?;
    }
    Ok(())
}
