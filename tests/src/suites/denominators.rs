//! C-17, dues in fractions of a minute: document 01's sea in halves, every q there is and those beside, the place of 32 in each call's
//! order, dues at both ends with bounds that are no multiple of q, hunts that agree whatever their q, and the former answers with q = 1.

use super::facts::four;
use super::former_rules::{hunt, of_one};
use super::own_rulings::turning_ceiling;
use super::searches::opening;
use super::{compare, preview, records, rule, tree};
use crate::bends;
use crate::document::ashore::haul;
use crate::document::former;
use crate::document::graph::{Graph, FREE, REQUIRED};
use crate::document::law::Law;
use crate::document::machine::{Answer, Call, Machine, Verdict};
use crate::document::sailing::Trial;
use crate::document::tours;
use crate::document::tree::{Given, Method};
use crate::ffi::{bound, only, sailings, trees, Reply};
use crate::generate::{self, Spread, MAX_CEILING, MAX_MULTIPLIER};
use crate::random::Random;
use crate::record::Record;
use crate::report::{Hex, Mismatch, Outcome, Suite, Tally};
use planner::raw::{Reply as Numbers, BEST, FINISHED, NONE, NO_TOUR};
use rule::Arguments;

pub const SUITE: Suite = Suite {
    name: "denominators",
    run,
    bends: &bends::joined::<21>(&[
        &bends::OF_PARTS,
        &[
            bends::STEP_TIMES,
            bends::UPPER_NOT_SCALED,
            bends::UPPER_IN_PARTS,
            bends::COSTS_IN_PARTS,
            bends::PREVIEW_NOT_SCALED,
            bends::DENOMINATOR_OF_ZERO,
            bends::HIGHER_DENOMINATOR,
            bends::DENOMINATOR_BEFORE_MULTIPLIERS,
            bends::DENOMINATOR_BEFORE_CEILING,
            bends::DENOMINATOR_BEFORE_STEP,
            bends::LEG_BEFORE_DENOMINATOR,
            bends::ASHORE_BEFORE_MULTIPLIERS,
            bends::ASHORE_BEFORE_CEILING,
            bends::ASHORE_BEFORE_STEP,
            bends::ASHORE_BEFORE_DENOMINATOR,
            bends::LEG_BEFORE_ASHORE,
        ],
    ]),
};

const QS: [u64; 5] = [1, 2, 3, 7, 1_000];

fn run(law: &Law, tally: &mut Tally) -> Outcome {
    let random = &mut Random::new(0x7172_6571_7561);
    halves(tally)?;
    every_q(law, tally)?;
    for faults in 0..1 << 11 {
        orders(law, tally, faults)?;
    }
    for round in 0..4_000 {
        ends(law, tally, random, QS[round % QS.len()])?;
    }
    for _ in 0..400 {
        agree(law, tally, random)?;
    }
    for _ in 0..1_500 {
        with_one(tally, random)?;
    }
    Ok(())
}

pub fn said(said: Numbers, out: Option<&[u8]>) -> Reply {
    Reply {
        said,
        out: out.map(|bytes| Hex(bytes.to_vec())),
        margins_kept: true,
    }
}

/// Document 01's sea, d(3) of half a minute and d(4) of minus half a minute: the bound is 11 minutes. Each number is found by hand.
fn halves(tally: &mut Tally) -> Outcome {
    let (four, dues) = (four(), [0, 0, 1, -1]);
    let input = || "document 01's sea, dues 0 0 1 -1, in halves".to_string();
    let (legs, struck) = ([1, 1, 0, 1, 0, 1], [0, 1, 1, 1, 0, 1]);
    let given = Given::afloat(&four, &dues, 2);
    let got = trees::tree(&given, 6);
    tally.compare("tree", input, &said(bound(22), Some(&legs)), &got)?;
    let got = trees::preview(&given, (1, 2), 6);
    tally.compare("preview", input, &said(bound(23), Some(&struck)), &got)?;
    let got = trees::rule(&given, 10, 6);
    tally.compare("ceiling 10", input, &said(only(NONE), None), &got)?;
    let got = trees::rule(&given, 11, 6);
    let rulings = [1, 1, 2, 1, 2, 1];
    tally.compare("ceiling 11", input, &said(bound(22), Some(&rulings)), &got)
}

/// The arguments of every call, and what is asked beside.
pub struct Case {
    pub given: Arguments,
    pub asked: (usize, u32),
    pub sweeps: u32,
    pub step: u32,
}

impl Case {
    pub fn four(denominator: u64) -> Case {
        Case {
            given: Arguments {
                graph: four(),
                multipliers: vec![0; 4],
                ashore: vec![0; 4],
                denominator,
                ceiling: 12,
                length: 6,
            },
            asked: (1, 2),
            sweeps: 1,
            step: 1,
        }
    }

    fn opening(&self) -> Call {
        Call::Open {
            graph: Box::new(self.given.graph.clone()),
            multipliers: self.given.multipliers.clone(),
            ashore: self.given.ashore.clone(),
            ceiling: self.given.ceiling,
            sweeps: self.sweeps,
            step: self.step,
            denominator: self.given.denominator,
            lifting: 0,
        }
    }

    fn trial(&self) -> Trial {
        Trial {
            graph: self.given.graph.clone(),
            multipliers: self.given.multipliers.clone(),
            ashore: self.given.ashore.clone(),
            ceiling: self.given.ceiling,
            budget: 40,
            denominator: self.given.denominator,
            lifting: 0,
            sweeps: vec![0, self.sweeps],
            steps: vec![0, self.step],
            length: 2,
        }
    }

    /// Each call's number, of the library, after it was held to the reference: tree, rule, preview, opening a fresh record, compare.
    pub fn numbers(&self, law: &Law, tally: &mut Tally) -> Result<[u32; 5], Mismatch> {
        let (given, ceiling, length) = (self.given.given(), self.given.ceiling, self.given.length);
        let input = || {
            let (asked, sweeps, step) = (self.asked, self.sweeps, self.step);
            let given = self.given.shown();
            format!("{given}, {asked:?}, sweeps {sweeps}, step {step}")
        };
        let method = Method::Kruskal;
        let one = trees::tree(&given, length);
        let wanted = tree::expected(law, method, &given, length);
        tally.compare("tree", input, &wanted, &one)?;
        let two = trees::rule(&given, ceiling, length);
        let wanted = rule::expected(law, method, &given, ceiling, length);
        tally.compare("rule", input, &wanted, &two)?;
        let three = trees::preview(&given, self.asked, length);
        let wanted = preview::expected(law, method, &given, self.asked, length);
        tally.compare("preview", input, &wanted, &three)?;
        let mut record = Record::made_fresh();
        let four = record.call(&self.opening());
        let mut machine = Machine::new(law, method);
        let wanted = records::reply(&machine.call(&self.opening()));
        tally.compare("open", input, &wanted, &four)?;
        tally.compare("record", input, &Record::of(&machine.search), &record)?;
        let five = sailings::compare(&self.trial());
        let wanted = compare::expected(law, &self.trial());
        tally.compare("compare", input, &wanted, &five)?;
        Ok([one.said, two.said, three.said, four.said, five.said].map(|said| said.number))
    }
}

/// Every q from 0 to 1,100 and some beyond: all calls take it exactly where it is 1 to 1,000.
fn every_q(law: &Law, tally: &mut Tally) -> Outcome {
    let beyond = [10_000, 65_536, 65_537, 1 << 32, (1 << 32) + 1, u64::MAX];
    for q in (0..=1_100).chain(beyond) {
        let taken = (1..=1_000).contains(&q);
        let input = || format!("document 01's sea, denominator {q}");
        let numbers = Case::four(q).numbers(law, tally)?;
        let wanted = if taken { 0 } else { 32 };
        tally.compare("taken", input, &[wanted; 5], &numbers)?;
        let value = if taken { 10 * q as i64 } else { 0 };
        let got = trees::tree(&Given::afloat(&four(), &[0; 4], q), 6)
            .said
            .value;
        tally.compare("bound", input, &value, &got)?;
    }
    Ok(())
}

/// The orders as the request has them; of an opening, what stands before 15 is the record's.
pub const ORDERS: [(&str, &[u32]); 5] = [
    ("tree", &[15, 11, 12, 32, 35]),
    ("rule", &[15, 11, 12, 13, 32, 35]),
    ("preview", &[15, 11, 12, 32, 35, 30, 31]),
    ("open", &[15, 11, 12, 13, 14, 32, 35]),
    ("compare", &[15, 11, 12, 13, 14, 32, 35]),
];

/// The calls' arguments with some of the faults, one a bit, and the numbers of those.
fn with_faults(faults: u32) -> (Case, Vec<u32>) {
    let has = |bit: u32| faults >> bit & 1 == 1;
    let mut case = Case::four(if has(0) { 2 } else { 3 });
    let mut present = Vec::new();
    let mut fault = |bit: u32, number: u32| {
        if has(bit) {
            present.push(number);
        }
        has(bit)
    };
    let given = &mut case.given;
    if fault(1, 32) {
        given.denominator = if has(0) { 0 } else { 1_001 };
    }
    if fault(2, 15) {
        given.graph.mark[5] = 3;
    }
    if fault(3, 12) {
        given.multipliers[3] = MAX_MULTIPLIER + 1;
    }
    if fault(4, 11) {
        match has(0) {
            true => given.multipliers.push(0),
            false => given.ashore.push(0),
        }
    }
    if fault(5, 13) {
        given.ceiling = MAX_CEILING + 1;
    }
    if fault(6, 31) {
        given.graph.mark[0] = REQUIRED;
    }
    if fault(7, 30) {
        case.asked.1 = 3;
    }
    if fault(8, 14) {
        case.sweeps = 16;
    }
    if fault(9, 14) {
        case.step = 10_001;
    }
    if fault(10, 35) {
        let unfit = [[0, 2, 0, 0], [1, 0, 0, 0], [0, 0, 1, 1]];
        let which = faults.count_ones() as usize % unfit.len();
        case.given.ashore[..4].copy_from_slice(&unfit[which]);
    }
    (case, present)
}

/// Some of the faults at once: each call tells the first in its order. Then the opening on a record that is open, and on one that fails
/// its check.
fn orders(law: &Law, tally: &mut Tally, faults: u32) -> Outcome {
    let (case, present) = with_faults(faults);
    let numbers = case.numbers(law, tally)?;
    for ((name, order), got) in ORDERS.iter().zip(numbers) {
        let first = order.iter().find(|number| present.contains(number));
        let input = || format!("{name} with the faults {present:?}");
        tally.compare("order", input, first.unwrap_or(&0), &got)?;
    }
    let (mut open, mut unfit) = (Record::made_fresh(), Record::fresh());
    open.call(&Case::four(7).opening());
    unfit.denominator = 1;
    for (record, number) in [(&mut open, 21), (&mut unfit, 24)] {
        let before = record.clone();
        let got = record.call(&case.opening());
        let input = || format!("an opening with the faults {present:?}");
        tally.compare("order", input, &said(only(number), None), &got)?;
        tally.compare("as it was", input, &before, record)?;
    }
    Ok(())
}

/// A due at an end of its range, or one off it.
fn end(random: &mut Random) -> i32 {
    random.pick(&[-1, 1]) * (MAX_MULTIPLIER - random.between(0, 1) as i32)
}

/// Dues at both ends of their range, with costs that they can outweigh: by definition, and at the ceilings between which the bound lies.
fn ends(law: &Law, tally: &mut Tally, random: &mut Random, q: u64) -> Outcome {
    let mut graph = generate::small_graph(random, 6, 12);
    let most = (2 * MAX_MULTIPLIER as i64 / q as i64) as i32;
    let spread = random.pick(&[Spread::Few, Spread::Sized, Spread::Whole, Spread::Ends]);
    for k in 0..graph.m {
        graph.cost[k] = generate::number(random, spread, most);
    }
    let mut multipliers: Vec<i32> = (0..graph.n).map(|_| end(random)).collect();
    multipliers[0] = 0;
    let ashore = generate::ashore(random, graph.n);
    let (graph, multipliers) = (&graph, &multipliers[..]);
    let given = Given {
        graph,
        multipliers,
        ashore: &ashore,
        q,
    };
    let input = || format!("{given:?}");
    let reply = trees::tree(&given, graph.m);
    let method = Method::Definition;
    let wanted = tree::expected(law, method, &given, graph.m);
    tally.compare("tree", input, &wanted, &reply)?;
    let below = reply.said.value.div_euclid(q as i64);
    let (sea, dues) = given.sea(&Law::AS_WRITTEN);
    let turn = turning_ceiling(random, &sea, &dues, q);
    for ceiling in [below - 1, below, below + 1, turn] {
        let got = trees::rule(&given, ceiling, graph.m);
        let wanted = rule::expected(law, method, &given, ceiling, graph.m);
        tally.compare("rule", input, &wanted, &got)?;
        let dead = reply.said.number == NONE || ceiling * (q as i64) < reply.said.value;
        tally.compare("dead", input, &dead, &(got.said.number == NONE))?;
    }
    Ok(())
}

/// One sea and one ceiling, its edges in another order each time and each q: every finished hunt tells the least cost of all rounds, or
/// 'none', in minutes.
fn agree(law: &Law, tally: &mut Tally, random: &mut Random) -> Outcome {
    let mut graph = generate::small_graph(random, 7, 16);
    if random.one_in(2) {
        let spread = random.pick(&[Spread::Few, Spread::Some]);
        for k in 0..graph.m {
            graph.cost[k] = generate::number(random, spread, MAX_MULTIPLIER);
        }
    }
    let ashore = generate::ashore(random, graph.n);
    let sea = haul(&Law::AS_WRITTEN, &graph, &ashore);
    let allowed = tours::all(&sea)
        .into_iter()
        .filter(|tour| tours::is_allowed(&sea, &tour.edges));
    let best = allowed.map(|tour| tour.cost).min();
    let ceiling = generate::ceiling(random, best.unwrap_or(0));
    let verdict = match best {
        Some(cost) if cost <= ceiling => (BEST, cost),
        _ => (NO_TOUR, 0),
    };
    let free = sea.marks().iter().filter(|mark| **mark == FREE).count();
    let budget = (1u64 << (free + 1)) - 1;
    for q in QS {
        let shuffled = generate::shuffled(random, &graph);
        let mut open = opening(random, &shuffled, &ashore, ceiling);
        if let Call::Open { denominator, .. } = &mut open {
            *denominator = q;
        }
        let input = || format!("{open:?}");
        let (mut record, mut machine) = (Record::made_fresh(), Machine::new(law, Method::Kruskal));
        for call in [open.clone(), Call::Run { budget }, Call::Tell] {
            let (got, wanted) = (record.call(&call), records::reply(&machine.call(&call)));
            tally.compare("answer", input, &wanted, &got)?;
        }
        tally.compare("record", input, &Record::of(&machine.search), &record)?;
        let ran = record.call(&Call::Run { budget: 0 }).said.number;
        tally.compare("finished", input, &FINISHED, &ran)?;
        let told = record.call(&Call::Tell).said;
        tally.compare("verdict", input, &verdict, &(told.number, told.value))?;
    }
    Ok(())
}

/// What a call says where the former rules found a bound with its bytes, or nothing.
fn answered(found: &Option<(i64, Vec<u8>)>) -> Reply {
    match found {
        Some((least, bytes)) => said(bound(*least), Some(bytes)),
        None => said(only(NONE), None),
    }
}

/// With q = 1 the library answers as the former rules do: a tree, rulings, some previews, and a whole hunt.
fn with_one(tally: &mut Tally, random: &mut Random) -> Outcome {
    let (graph, open): (Graph, Call) = of_one(random);
    let Call::Open {
        multipliers: dues,
        ceiling,
        ..
    } = &open
    else {
        unreachable!("an opening");
    };
    let input = || format!("{open:?}");
    let given = Given::afloat(&graph, dues, 1);
    let got = trees::tree(&given, graph.m);
    tally.compare("tree", input, &answered(&former::tree(&graph, dues)), &got)?;
    let got = trees::rule(&given, *ceiling, graph.m);
    let former = former::rule(&graph, dues, *ceiling);
    tally.compare("rule", input, &answered(&former), &got)?;
    for (place, mark) in (0..graph.m).flat_map(|place| [(place, 1), (place, 2)]) {
        if graph.mark[place] == FREE && random.one_in(8) {
            let got = trees::preview(&given, (place + 1, mark as u32), graph.m);
            let former = former::tree(&graph.with_mark(place, mark), dues);
            tally.compare("preview", input, &answered(&former), &got)?;
        }
    }
    hunted(tally, &graph, &open)
}

/// A whole hunt with q = 1: U, the best round, the count and the verdict.
fn hunted(tally: &mut Tally, graph: &Graph, open: &Call) -> Outcome {
    let input = || format!("{open:?}");
    let mut record = Record::made_fresh();
    record.call(open);
    record.call(&Call::Run { budget: u64::MAX });
    let former = hunt(open);
    let best = (record.has_best == 1).then(|| record.best[..graph.m].to_vec());
    let got = (record.upper, best, record.count);
    let cost = former.best.as_ref().map(|edges| tours::cost(graph, edges));
    let wanted = (former.upper, former.best, former.count);
    tally.compare("hunt", input, &wanted, &got)?;
    let verdict = cost.map_or(Verdict::None, Verdict::Cost);
    let count = former.count;
    let told = records::reply(&Answer::Told { verdict, count });
    tally.compare("told", input, &told, &record.call(&Call::Tell))
}
