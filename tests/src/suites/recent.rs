//! Recent costs (document 02, C-22): the library's one pass against costs worked out afresh, after every entry of short logs, at every
//! number of a leg's times about the window, and over a season of a million entries.

use super::facts::four;
use crate::bends;
use crate::document::graph::Graph;
use crate::document::law::Law;
use crate::document::recent::{call, Log};
use crate::ffi::{only, recent, refused, RecentReply};
use crate::generate::{self, Spread, MAX_COST, SPREADS};
use crate::random::Random;
use crate::report::{Outcome, Suite, Tally};

pub const SUITE: Suite = Suite {
    name: "recent",
    run,
    bends: &[
        bends::WINDOW_OF_33,
        bends::ONE_TIME_MORE,
        bends::WINDOW_ALWAYS_32,
        bends::BEGINS_WITH_ZERO,
        bends::CHART_AS_A_TIME,
        bends::ENTRIES_FROM_ZERO,
        bends::ENTRIES_BEFORE_WINDOW,
        bends::LENGTH_BEFORE_VALUE,
        bends::HIGHER_COST,
    ],
};

/// Entries of the longest log.
const SEASON: usize = 1_000_000;

pub fn expected(law: &Law, graph: &Graph, log: &Log) -> RecentReply {
    let (said, graph) = match call(law, graph, log) {
        Ok(made) => (only(0), made),
        Err(refusal) => (refused(refusal), graph.clone()),
    };
    RecentReply {
        said,
        graph,
        margins_kept: true,
    }
}

/// A window, most often a short one, so that times are pushed out.
fn window(random: &mut Random) -> usize {
    match random.below(4) {
        0 => 1 + random.below(32),
        1 => random.pick(&[1, 31, 32]),
        _ => 1 + random.below(4),
    }
}

/// A log of so many entries of some of a graph's legs.
pub fn log(random: &mut Random, graph: &Graph, entries: usize) -> Log {
    let spread = random.pick(&SPREADS);
    let w = window(random);
    let some = 1 + random.below(graph.m.clamp(1, 190));
    let entries = if graph.m == 0 { 0 } else { entries };
    Log {
        w,
        legs: (0..entries).map(|_| 1 + random.below(some)).collect(),
        times: (0..entries)
            .map(|_| generate::number(random, spread, MAX_COST))
            .collect(),
    }
}

/// One fault of a log or more.
pub fn break_log(random: &mut Random, graph: &Graph, log: &mut Log) {
    for _ in 0..1 + random.below(2) {
        match random.below(5) {
            0 => log.w = random.pick(&[0, 33, 34, 64, 256, 257, usize::MAX]),
            1 => {
                log.legs.pop();
            }
            2 => log.times.push(0),
            3 if !log.legs.is_empty() => {
                let at = random.below(log.legs.len());
                log.legs[at] = random.pick(&[0, graph.m + 1, 191, 256, 257, 1 << 32, usize::MAX]);
            }
            _ if !log.times.is_empty() => {
                let at = random.below(log.times.len());
                log.times[at] = random.pick(&[-MAX_COST - 1, MAX_COST + 1, i32::MIN, i32::MAX]);
            }
            _ => {}
        }
    }
}

fn judge(law: &Law, tally: &mut Tally, case: &str, graph: &Graph, log: &Log) -> Outcome {
    let input = || format!("{graph:?}, {log:?}");
    let wanted = expected(law, graph, log);
    tally.compare(case, input, &wanted, &recent(graph, log))
}

fn run(law: &Law, tally: &mut Tally) -> Outcome {
    let random = &mut Random::new(0x7265_6365_6e74);
    examples(law, tally)?;
    for round in 0..12_000 {
        let mut graph = match round % 2 {
            0 => generate::small_graph(random, 6, 10),
            _ => generate::graph(random),
        };
        if random.one_in(2) {
            generate::junk_past_m(random, &mut graph);
        }
        let entries = random.below(200);
        let mut log = log(random, &graph, entries);
        if round % 3 == 2 {
            if random.one_in(6) {
                generate::break_value(random, &mut graph);
            }
            break_log(random, &graph, &mut log);
        }
        judge(law, tally, "a log", &graph, &log)?;
    }
    after_every_entry(law, tally, random)?;
    around_the_window(law, tally, random)?;
    season(law, tally, random)
}

/// A log worked out by hand: what legs 1 and 4 cost after each entry, by the last two times.
fn examples(law: &Law, tally: &mut Tally) -> Outcome {
    let graph = four();
    let legs = vec![1, 1, 4, 1, 1, 1, 4, 4, 4];
    let times = vec![9, -3, 2, 7, 1, 0, -5, -8, -6];
    let by_hand = |w: usize, entries: usize, costs: (i32, i32)| {
        let (legs, times) = (legs.clone(), times.clone());
        let so_far = Log { w, legs, times }.so_far(entries);
        let mut made = graph.clone();
        (made.cost[0], made.cost[3]) = costs;
        (so_far, made)
    };
    let two = [
        (4, 2),
        (9, 2),
        (9, 2),
        (9, 2),
        (7, 2),
        (7, 2),
        (1, 2),
        (1, 2),
        (1, -5),
        (1, -6),
    ];
    let after_each = two
        .iter()
        .enumerate()
        .map(|(i, costs)| by_hand(2, i, *costs));
    let ends = [by_hand(1, 9, (0, -6)), by_hand(3, 9, (7, -5))];
    for (log, made) in after_each.chain(ends) {
        let input = || format!("{log:?}");
        tally.compare("by hand", input, &made, &recent(&graph, &log).graph)?;
    }
    let number = |w: usize, legs: &[usize], times: &[i32]| {
        let (legs, times) = (legs.to_vec(), times.to_vec());
        let said = recent(&graph, &Log { w, legs, times }).said;
        (said.number, said.place)
    };
    let got = [
        number(33, &[1, 2], &[1]),
        number(0, &[7], &[1]),
        number(2, &[1, 7, 0], &[1, 1, 1]),
    ];
    let input = || "refusals by hand".to_string();
    tally.compare("by hand", input, &[(11, 0), (38, 0), (39, 2)], &got)?;
    judge(law, tally, "no entries", &graph, &by_hand(32, 0, (4, 2)).0)
}

/// "After every entry the costs equal those worked out afresh from the log so far."
fn after_every_entry(law: &Law, tally: &mut Tally, random: &mut Random) -> Outcome {
    for _ in 0..60 {
        let graph = generate::small_graph(random, 5, 6);
        let whole = log(random, &graph, 120);
        for entries in 0..=whole.legs.len() {
            judge(
                law,
                tally,
                "after every entry",
                &graph,
                &whole.so_far(entries),
            )?;
        }
    }
    Ok(())
}

/// One leg with 0, 1, 31, 32, 33 and more times, among those of others, for every w.
fn around_the_window(law: &Law, tally: &mut Tally, random: &mut Random) -> Outcome {
    for w in 1..=32 {
        for count in [0, 1, w - 1, w, w + 1, 31, 32, 33, 2 * w, 2 * w + 1, 64, 65] {
            let graph = generate::graph_of(random, 20, 190);
            let leg = random.pick(&[1, 2, 189, 190]);
            let mut legs = vec![leg; count];
            legs.extend((0..50).map(|_| 3 + random.below(180)));
            random.shuffle(&mut legs);
            let spread = random.pick(&[Spread::Few, Spread::Whole, Spread::Ends]);
            let times = legs
                .iter()
                .map(|_| generate::number(random, spread, MAX_COST))
                .collect();
            judge(
                law,
                tally,
                "about the window",
                &graph,
                &Log { w, legs, times },
            )?;
        }
    }
    Ok(())
}

/// A whole season, and one whose last entry is refused.
fn season(law: &Law, tally: &mut Tally, random: &mut Random) -> Outcome {
    let graph = generate::graph_of(random, 20, 190);
    for w in [1, 7, 32] {
        let mut log = log(random, &graph, SEASON);
        log.w = w;
        let input = || format!("{graph:?}, a season of w {w}");
        let wanted = expected(law, &graph, &log);
        tally.compare("a season", input, &wanted, &recent(&graph, &log))?;
        log.legs[SEASON - 1] = 0;
        let wanted = expected(law, &graph, &log);
        tally.compare("a season", input, &wanted, &recent(&graph, &log))?;
    }
    Ok(())
}
