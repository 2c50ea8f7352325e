//! Files for the read call, and graph values for the calls on a graph.

use super::{Kind, Numbered, Watch};
use crate::bends;
use crate::chart_cases::hostile;
use crate::document::chart;
use crate::document::graph::Graph;
use crate::document::law::Law;
use crate::document::tree::Method;
use crate::ffi::sailings::{self, ComparedReply, SailedReply};
use crate::ffi::{self, trees, ReadReply, RecentReply, Reply};
use crate::generate;
use crate::random::Random;
use crate::report::{hex, Outcome};
use crate::suites::rule::{arguments, Arguments};
use crate::suites::{check, compare, preview, read, recent, rule, simulate, tree, write};

pub const FILES: Kind = Kind {
    name: "files",
    run: files,
    share: 6,
    spawns: false,
    bends: &[
        bends::FIRST_PAIR_NAMED,
        bends::NEXT_JUDGED_FIRST,
        bends::LENGTH_BEFORE_ZERO_BYTES,
        bends::LAST_NEXT_NOT_ZERO,
        bends::PAST_M_NOT_ZERO,
    ],
};

pub const VALUES: Kind = Kind {
    name: "values",
    run: values,
    share: 6,
    spawns: false,
    bends: &[
        bends::LENGTH_BEFORE_VALUE,
        bends::HIGHER_NUMBERED_FIRST,
        bends::CEILING_NOT_WITHIN,
        bends::HIGHER_MULTIPLIER,
        bends::FORMER_COST,
        bends::FORMER_CEILING,
        bends::CHEAP_NO_REPLACEMENT,
        bends::PAST_M_JUDGED,
        bends::FREE_BEFORE_LEG,
        bends::PREVIEW_WITHOUT_MARK,
        bends::ENTRIES_FROM_ZERO,
        bends::ENTRIES_BEFORE_WINDOW,
        bends::WINDOW_ALWAYS_32,
        bends::SET_OF_LEGS,
        bends::NUMBERS_BEFORE_ORDER,
        bends::DELAY_BEFORE_STEP,
        bends::ONE_BUDGET,
        bends::BOUND_DIVIDED,
        bends::CEILING_NOT_SCALED,
        bends::HIGHER_DENOMINATOR,
        bends::DENOMINATOR_BEFORE_CEILING,
        bends::LEG_BEFORE_DENOMINATOR,
        bends::LIFTED_UNASKED,
        bends::FLAG_WITHOUT_EFFECT,
        bends::ASHORE_BYTE_OF_TWO,
        bends::ASHORE_OF_ANY_LENGTH,
        bends::ASHORE_BEFORE_DENOMINATOR,
        bends::LEG_BEFORE_ASHORE,
        bends::FREE_BY_LIST,
        bends::TOUCHED_REQUIRED_STAY,
        bends::TOUCHED_RULED_BY_MARK,
        bends::DUE_ASHORE_COUNTS,
        bends::LEGS_OF_ALL,
        bends::COMPARED_WITHOUT_LIST,
    ],
};

impl Numbered for Reply {
    fn number(&self) -> Option<u32> {
        Some(self.said.number)
    }
}

impl Numbered for RecentReply {
    fn number(&self) -> Option<u32> {
        Some(self.said.number)
    }
}

impl Numbered for SailedReply {
    fn number(&self) -> Option<u32> {
        Some(self.said.number)
    }
}

impl Numbered for ComparedReply {
    fn number(&self) -> Option<u32> {
        Some(self.said.number)
    }
}

impl Numbered for ReadReply {
    fn number(&self) -> Option<u32> {
        Some(self.said.number)
    }
}

/// Longer than any list that a call takes.
const OVER_LONG: usize = 100_000;

fn files(random: &mut Random, watch: &mut Watch) -> Outcome {
    let bytes = hostile(random);
    let input = || hex(&bytes);
    let expected = read::expected(watch.law, &bytes);
    watch.compare("read", input, expected, || ffi::read(&bytes))?;
    let Ok(graph) = chart::read(&Law::AS_WRITTEN, &bytes) else {
        return Ok(());
    };
    let right = 8 + 12 * graph.m;
    for length in [right, right - 1, right + 1, 0, OVER_LONG] {
        written(watch, &graph, length)?;
    }
    Ok(())
}

fn written(watch: &mut Watch, graph: &Graph, length: usize) -> Outcome {
    let input = || format!("{graph:?}, a list of {length} bytes");
    let expected = write::expected(watch.law, graph, length);
    watch.compare("write", input, expected, || ffi::write(graph, length))
}

fn values(random: &mut Random, watch: &mut Watch) -> Outcome {
    let (small, wrong) = (!random.one_in(4), random.one_in(3));
    let mut sent = arguments(random, small, wrong);
    exaggerate(random, &mut sent);
    let (graph, ceiling, length) = (&sent.graph, sent.ceiling, sent.length);
    let given = sent.given();
    let input = || sent.shown();
    let expected = check::expected(watch.law, graph);
    watch.compare("check", input, expected, || ffi::check(graph))?;
    written(watch, graph, length)?;
    let expected = tree::expected(watch.law, Method::Kruskal, &given, length);
    watch.compare("tree", input, expected, || trees::tree(&given, length))?;
    let asked = preview::asked(random, graph);
    let (law, method) = (watch.law, Method::Kruskal);
    let expected = preview::expected(law, method, &given, asked, length);
    watch.compare("preview", input, expected, || {
        trees::preview(&given, asked, length)
    })?;
    let expected = rule::expected(law, method, &given, ceiling, length);
    watch.compare("rule", input, expected, || {
        trees::rule(&given, ceiling, length)
    })?;
    logs(random, watch, graph)?;
    sailings(random, watch)
}

/// A log on a graph value, whatever it holds.
fn logs(random: &mut Random, watch: &mut Watch, graph: &Graph) -> Outcome {
    let entries = random.pick(&[0, 1, 31, 32, 33, 200]);
    let mut log = recent::log(random, graph, entries);
    if random.one_in(3) {
        recent::break_log(random, graph, &mut log);
    }
    let input = || format!("{graph:?}, {log:?}");
    let expected = recent::expected(watch.law, graph, &log);
    watch.compare("recent", input, expected, || ffi::recent(graph, &log))
}

/// A simulated sailing, and now and then a comparison.
fn sailings(random: &mut Random, watch: &mut Watch) -> Outcome {
    let wrong = random.one_in(2);
    let (graph, asked) = simulate::asked(random, wrong);
    let input = || format!("{graph:?}, {asked:?}");
    let expected = simulate::expected(watch.law, &graph, &asked);
    watch.compare("simulate", input, expected, || {
        sailings::simulate(&graph, &asked)
    })?;
    if !random.one_in(4) {
        return Ok(());
    }
    let wrong = random.one_in(2);
    let trial = compare::trial(random, wrong);
    let input = || format!("{trial:?}");
    let expected = compare::expected(watch.law, &trial);
    watch.compare("compare", input, expected, || sailings::compare(&trial))
}

/// The ends of every type, any contents at all, and lists that are wrong by one, empty or far too long.
fn exaggerate(random: &mut Random, given: &mut Arguments) {
    let graph = &mut given.graph;
    match random.below(20) {
        0 => {
            let end = random.pick(&[i32::MIN, i32::MAX, 0]);
            given.multipliers.iter_mut().for_each(|d| *d ^= end);
        }
        1 => given.multipliers = any_words(random, graph.n.min(20)),
        2 => given.ceiling = random.word() as i64,
        3 => graph.n = random.byte().into(),
        4 => graph.m = random.byte().into(),
        5 => graph.m = random.below(192),
        6 => {
            graph.a.iter_mut().for_each(|a| *a = random.byte());
            graph.b.iter_mut().for_each(|b| *b = random.byte());
        }
        7 => graph.cost = std::array::from_fn(|_| random.word() as i32),
        8 => graph.mark.fill(0xff),
        9 => {
            given.multipliers.pop();
        }
        10 => given.multipliers.push(0),
        11 => given.length = random.pick(&[given.length + 1, given.length.saturating_sub(1)]),
        12 => given.length = random.pick(&[0, OVER_LONG]),
        13 => generate::junk_past_m(random, graph),
        14 => given.denominator = random.word() >> random.below(64),
        15 => given.ashore = random.bytes(graph.n.min(20)),
        16 => {
            let length = random.pick(&[0, given.ashore.len() + 1, OVER_LONG]);
            given.ashore.resize(length, 1);
        }
        17 => given.ashore.fill(random.pick(&[0, 1, 0xff])),
        _ => {}
    }
}

fn any_words(random: &mut Random, count: usize) -> Vec<i32> {
    (0..count).map(|_| random.word() as i32).collect()
}
