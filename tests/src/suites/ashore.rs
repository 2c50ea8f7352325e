//! C-20, buoys hauled out, through the library: document 01's sea with buoy 4 ashore, found by hand; on small seas every list there is, by going
//! through all 1-trees and all rounds over the buoys that are afloat; larger seas against the reference; the same sea without these buoys; damaged
//! lists beside every other fault; and hunts with lists, compared, at a dispatcher's places, saved and brought back.

use super::denominators::{said, Case, ORDERS};
use super::facts::{four, free};
use super::library_searches::told_and_shown;
use super::own_rulings::turning_ceiling;
use super::records::{on_record, reply};
use super::searches::opening;
use super::shelves::Both;
use super::{preview, rule, tree};
use crate::bends;
use crate::document::ashore::{fits, haul};
use crate::document::graph::{Edge, Graph, EXCLUDED, FREE, REQUIRED};
use crate::document::law::Law;
use crate::document::machine::Call;
use crate::document::sailing::Trial;
use crate::document::shelf::{AnyCall, Shelved};
use crate::document::tree::{Given, Method};
use crate::document::{dispatcher, tours};
use crate::ffi::sailings::compare;
use crate::ffi::{bound, only, trees};
use crate::generate::{self, MAX_CEILING, MAX_MULTIPLIER};
use crate::random::Random;
use crate::record::{Dispatched, Record};
use crate::report::{Hex, Outcome, Suite, Tally};
use planner::raw::{ACCEPTED, BEST, FINISHED, NONE, NO_TOUR};

pub const SUITE: Suite = Suite {
    name: "ashore",
    run,
    bends: &bends::joined::<26>(&[
        &bends::OF_LIST,
        &[
            bends::ASHORE_BEFORE_MULTIPLIERS,
            bends::ASHORE_BEFORE_CEILING,
            bends::ASHORE_BEFORE_STEP,
            bends::ASHORE_BEFORE_DENOMINATOR,
            bends::LEG_BEFORE_ASHORE,
            bends::DUES_ASHORE_NOT_JUDGED,
            bends::TOUCHED_STAY,
            bends::TOUCHED_REQUIRED_STAY,
            bends::TOUCHED_RULED_BY_MARK,
            bends::TOUCHED_IN_TREE,
            bends::FREE_BY_LIST,
            bends::DUE_ASHORE_COUNTS,
            bends::DUE_ASHORE_GAINS,
            bends::LEGS_OF_ALL,
            bends::ROUND_OF_ALL,
            bends::AGREE_WHATEVER_LIST,
            bends::BUDGET_OF_TOUCHED,
            bends::SAVED_WITHOUT_LIST,
            bends::ADDED_WITHOUT_LIST,
            bends::COMPARED_WITHOUT_LIST,
            bends::LIFTED_WITHOUT_LIST,
            bends::CARRIED_OF_ALL,
        ],
    ]),
};

fn run(law: &Law, tally: &mut Tally) -> Outcome {
    for part in [by_hand, damaged, saved, eight, compared] {
        part(law, tally)?;
    }
    let random = &mut Random::new(0x0061_7368_6f72_65);
    for round in 0..60 {
        let graph = match round % 6 {
            0 => generate::graph_of(random, 6, 15),
            n => generate::small_graph(random, 2 + n.max(2), 11),
        };
        every_list(law, tally, random, &graph)?;
    }
    for _ in 0..2_000 {
        large(law, tally, random)?;
    }
    for _ in 0..1_500 {
        without(tally, random)?;
    }
    for _ in 0..400 {
        agree(law, tally, random)?;
    }
    Ok(())
}

/// An opening with a list, under zero dues and of one pass a node.
fn with(graph: &Graph, list: &[u8], ceiling: i64, lifting: u64) -> Call {
    Call::plain(graph, ceiling, 1, lifting).hauled(list)
}

/// Document 01's sea with buoy 4 ashore: legs 1 2 4, bound 9, whatever leg 3's mark and buoy 4's due are.
fn by_hand(law: &Law, tally: &mut Tally) -> Outcome {
    let (ashore, legs, rulings) = ([0, 0, 0, 1], [1, 1, 0, 1, 0, 0], [1, 1, 4, 1, 4, 4]);
    for mark in [FREE, REQUIRED, EXCLUDED] {
        for (due, q) in [
            (0, 1),
            (7, 1),
            (-MAX_MULTIPLIER, 1),
            (MAX_MULTIPLIER, 1_000),
        ] {
            let (graph, multipliers) = (four().with_mark(2, mark), [0, 0, 0, due]);
            let given = Given::afloat(&graph, &multipliers, q).hauled(&ashore);
            let input = || format!("{given:?}");
            let least = bound(9 * q as i64);
            let tree = said(least, Some(&legs));
            tally.compare("tree", input, &tree, &trees::tree(&given, 6))?;
            let got = trees::rule(&given, 9, 6);
            tally.compare("rule", input, &said(least, Some(&rulings)), &got)?;
            let got = trees::rule(&given, 8, 6);
            tally.compare("dead", input, &said(only(NONE), None), &got)?;
            let wanted = match mark {
                FREE => tree,
                _ => said(only(31), None),
            };
            for mark in [1, 2] {
                let got = trees::preview(&given, (3, mark), 6);
                tally.compare("preview", input, &wanted, &got)?;
            }
        }
    }
    hunted_by_hand(law, tally, &ashore, &legs)
}

/// A hunt of it: cost 9, one node.
fn hunted_by_hand(law: &Law, tally: &mut Tally, ashore: &[u8], legs: &[u8]) -> Outcome {
    let list = [
        Call::Run { budget: 1 },
        Call::Tell,
        Call::Show { length: 6 },
    ];
    for (ceiling, told, shown) in [(9, (BEST, 9), ACCEPTED), (8, (NO_TOUR, 0), 23)] {
        let whole = [&[with(&four(), ashore, ceiling, 0)], &list[..]].concat();
        let mut record = on_record(law, tally, &whole)?;
        let input = || format!("{whole:?}");
        let said = record.call(&list[1]).said;
        let got = (said.number, said.value, said.nodes);
        tally.compare("told", input, &(told.0, told.1, 1), &got)?;
        let out = (shown == ACCEPTED).then(|| Hex(legs.to_vec()));
        let got = record.call(&list[2]);
        tally.compare("shown", input, &(shown, out), &(got.said.number, got.out))?;
    }
    Ok(())
}

/// Every list of 0 and 1 for a small graph, those that are refused too: trees, rulings and previews by going through all 1-trees, and a whole hunt
/// by going through all rounds.
fn every_list(law: &Law, tally: &mut Tally, random: &mut Random, graph: &Graph) -> Outcome {
    let (n, m) = (graph.n, graph.m);
    for bits in 0..1u32 << n {
        let ashore: Vec<u8> = (0..n).map(|v| (bits >> v & 1) as u8).collect();
        let multipliers = generate::multipliers(random, n);
        let given = Given {
            graph,
            multipliers: &multipliers,
            ashore: &ashore,
            q: generate::denominator(random),
        };
        let method = Method::Definition;
        let input = || format!("{given:?}");
        let got = trees::tree(&given, m);
        tally.compare("tree", input, &tree::expected(law, method, &given, m), &got)?;
        let ceiling = ceiling(random, &given);
        let input = || format!("{given:?}, ceiling {ceiling}");
        let got = trees::rule(&given, ceiling, m);
        let wanted = rule::expected(law, method, &given, ceiling, m);
        tally.compare("rule", input, &wanted, &got)?;
        let asked = preview::asked(random, graph);
        let input = || format!("{given:?}, asked {asked:?}");
        let got = trees::preview(&given, asked, m);
        let wanted = preview::expected(law, method, &given, asked, m);
        tally.compare("preview", input, &wanted, &got)?;
        if fits(&Law::AS_WRITTEN, &ashore) {
            ended(law, tally, random, graph, &ashore)?;
        } else {
            on_record(law, tally, &[with(graph, &ashore, 0, 0), Call::Tell])?;
        }
    }
    Ok(())
}

/// One that turns a ruling where the list is such as a call accepts.
fn ceiling(random: &mut Random, given: &Given) -> i64 {
    match fits(&Law::AS_WRITTEN, given.ashore) {
        true => {
            let (sea, dues) = given.sea(&Law::AS_WRITTEN);
            turning_ceiling(random, &sea, &dues, given.q)
        }
        false => 0,
    }
}

/// The allowance is by the free legs that touch no buoy ashore: those of the first node.
fn budget(law: &Law, graph: &Graph, sea: &Graph) -> (usize, u64) {
    let counted = if law.budget_of_untouched { sea } else { graph };
    let marks = counted.marks();
    let k = marks.iter().filter(|mark| **mark == FREE).count();
    (k, (1u64 << (k + 1)) - 1)
}

/// A whole hunt with its allowance: it finishes, and shows the first of the cheapest rounds over the buoys that are afloat.
fn ended(
    law: &Law,
    tally: &mut Tally,
    random: &mut Random,
    graph: &Graph,
    ashore: &[u8],
) -> Outcome {
    let sea = haul(&Law::AS_WRITTEN, graph, ashore);
    let first = tours::first(&sea);
    let near = first.as_ref().map_or(0, |tour| tour.cost);
    let ceiling = generate::ceiling(random, near);
    let first = first.filter(|tour| tour.cost <= ceiling);
    let (k, budget) = budget(law, graph, &sea);
    let show = Call::Show { length: graph.m };
    let open = opening(random, graph, ashore, ceiling);
    let list = [open, Call::Run { budget }, Call::Tell, show];
    let mut record = on_record(law, tally, &list)?;
    let input = || format!("{list:?}");
    let mut opened = Record::made_fresh();
    opened.call(&list[0]);
    let free = opened.free(&Law::AS_WRITTEN, 0);
    tally.compare("free legs", input, &k, &free)?;
    let ran = record.call(&Call::Run { budget: 0 }).said.number;
    tally.compare("finished", input, &FINISHED, &ran)?;
    told_and_shown(tally, &mut record, graph.m, &first, input)
}

/// A sea of up to 20 buoys against the reference; and a hunt's first nodes.
fn large(law: &Law, tally: &mut Tally, random: &mut Random) -> Outcome {
    let arguments = rule::arguments(random, false, false);
    let (given, ceiling, m) = (arguments.given(), arguments.ceiling, arguments.length);
    let (input, method) = (|| arguments.shown(), Method::Prim);
    let got = trees::tree(&given, m);
    tally.compare("tree", input, &tree::expected(law, method, &given, m), &got)?;
    let got = trees::rule(&given, ceiling, m);
    let wanted = rule::expected(law, Method::Kruskal, &given, ceiling, m);
    tally.compare("rule", input, &wanted, &got)?;
    let asked = preview::asked(random, given.graph);
    let input = || format!("{asked:?} of {}", arguments.shown());
    let got = trees::preview(&given, asked, m);
    let wanted = preview::expected(law, method, &given, asked, m);
    tally.compare("preview", input, &wanted, &got)?;
    if !random.one_in(8) {
        return Ok(());
    }
    let open = opening(random, given.graph, given.ashore, ceiling);
    let open = open.swept(random.below(4) as u32, random.pick(&[1, 3, 50]));
    let run = Call::Run { budget: 1 };
    on_record(law, tally, &[open, run.clone(), run.clone(), run]).map(|_| ())
}

/// The graph of the vertices afloat alone, numbered anew in their order, without the edges that touch another; and which edges are left.
fn parted(graph: &Graph, ashore: &[u8]) -> (Graph, Vec<usize>) {
    let sea = haul(&Law::AS_WRITTEN, graph, ashore);
    let number = |vertex: u8| {
        (1..=usize::from(vertex))
            .filter(|v| sea.is_afloat(*v))
            .count() as u8
    };
    let left: Vec<usize> = (0..sea.m).filter(|k| !sea.touches_ashore(*k)).collect();
    let edges: Vec<Edge> = left
        .iter()
        .map(|k| Edge {
            a: number(graph.a[*k]),
            b: number(graph.b[*k]),
            ..graph.edge(*k)
        })
        .collect();
    (Graph::from_edges(sea.afloat().count(), &edges), left)
}

/// Of the library alone: a call with a list says what the call says of the sea without these buoys, and of no other leg.
fn without(tally: &mut Tally, random: &mut Random) -> Outcome {
    let small = random.one_in(2);
    let arguments = rule::arguments(random, small, false);
    let (given, ceiling, m) = (arguments.given(), arguments.ceiling, arguments.length);
    let (other, left) = parted(given.graph, given.ashore);
    let afloat = |place: &usize| given.ashore[*place] == 0;
    let places = (0..given.graph.n).filter(afloat);
    let dues: Vec<i32> = places.map(|place| given.multipliers[place]).collect();
    let alone = Given::afloat(&other, &dues, given.q);
    let spread = |out: &Option<Hex>, rest: u8| {
        let Hex(bytes) = out.as_ref()?;
        let mut all = vec![rest; m];
        let each = left.iter().zip(bytes);
        each.for_each(|(k, byte)| all[*k] = *byte);
        Some(all)
    };
    let input = || arguments.shown();
    let (got, same) = (trees::tree(&given, m), trees::tree(&alone, other.m));
    let wanted = said(same.said, spread(&same.out, 0).as_deref());
    tally.compare("tree", input, &wanted, &got)?;
    let got = trees::rule(&given, ceiling, m);
    let same = trees::rule(&alone, ceiling, other.m);
    let wanted = said(same.said, spread(&same.out, 4).as_deref());
    tally.compare("rule", input, &wanted, &got)?;
    hunted_without(tally, random, &[given, alone], ceiling)
}

/// Hunts of both: they open as many nodes and leave the same U, as many nodes and the same dues in them.
fn hunted_without(
    tally: &mut Tally,
    random: &mut Random,
    both: &[Given; 2],
    ceiling: i64,
) -> Outcome {
    let (sweeps, step) = (random.below(4) as u32, random.pick(&[0, 1, 3, 50]));
    let lifting = generate::lifting(random);
    let [one, other] = both.map(|given| Call::Open {
        graph: Box::new(given.graph.clone()),
        multipliers: given.multipliers.to_vec(),
        ashore: given.ashore.to_vec(),
        ceiling,
        sweeps,
        step,
        denominator: given.q,
        lifting,
    });
    let input = || format!("{one:?}");
    let (mut record, mut alone) = (Record::made_fresh(), Record::made_fresh());
    let (wanted, got) = (alone.call(&other).said, record.call(&one).said);
    tally.compare("open", input, &wanted, &got)?;
    for call in [Call::Run { budget: 12 }, Call::Tell] {
        let (wanted, got) = (alone.call(&call).said, record.call(&call).said);
        tally.compare("hunt", input, &wanted, &got)?;
    }
    let left = |record: &Record| (record.upper, record.depth, record.carried.clone());
    tally.compare("what is left", input, &left(&alone), &left(&record))
}

/// Lists that no call takes: the number that each is refused with.
fn unfit() -> Vec<(Vec<u8>, u32)> {
    let mut lists = vec![
        (vec![1, 0, 0, 0], 35),
        (vec![0, 0, 1, 1], 35),
        (vec![0, 1, 0, 1], 35),
        (vec![0, 1, 1, 1], 35),
        (vec![1, 1, 1, 1], 35),
        (vec![0, 0, 0], 11),
        (vec![0, 0, 0, 0, 0], 11),
        (vec![], 11),
        (vec![0; 20], 11),
        (vec![2, 1, 1, 1, 1], 11),
    ];
    for place in 0..4 {
        for byte in [2, 3, 128, 254, 255] {
            let mut list = vec![0; 4];
            list[place] = byte;
            lists.push((list, 35));
        }
    }
    lists
}

/// A fault: the number that it is refused with, and what brings it about.
type Fault = (u32, fn(&mut Case));

/// Each such list alone, and beside each other fault: every call tells the first in its order.
fn damaged(law: &Law, tally: &mut Tally) -> Outcome {
    let faults: [Fault; 10] = [
        (0, |_| {}),
        (32, |case| case.given.denominator = 0),
        (32, |case| case.given.denominator = 1_001),
        (12, |case| case.given.multipliers[3] = MAX_MULTIPLIER + 1),
        (12, |case| case.given.multipliers[0] = 1),
        (13, |case| case.given.ceiling = MAX_CEILING + 1),
        (14, |case| case.sweeps = 16),
        (15, |case| case.given.graph.mark[5] = 3),
        (30, |case| case.asked = (7, 1)),
        (31, |case| case.given.graph.mark[0] = REQUIRED),
    ];
    let fit = [(vec![0; 4], 0), (vec![0, 0, 0, 1], 0)];
    for (list, number) in unfit().into_iter().chain(fit) {
        for (fault, bring) in faults {
            let mut case = Case::four(1);
            (case.given.ashore, case.asked) = (list.clone(), (1, 1));
            bring(&mut case);
            let numbers = case.numbers(law, tally)?;
            let input = || format!("{list:?} beside {fault}");
            for ((name, order), got) in ORDERS.iter().zip(numbers) {
                let present = |told: &&u32| **told == fault || **told == number;
                let first = order.iter().find(present).unwrap_or(&0);
                tally.compare(name, input, first, &got)?;
            }
        }
        beside(tally, &list, number)?;
    }
    Ok(())
}

/// What comes before the list: 24 and 21 of a record, 24 and 41 of a dispatcher.
fn beside(tally: &mut Tally, list: &[u8], number: u32) -> Outcome {
    let open = with(&four(), list, 12, 0);
    let (mut opened, mut unfit) = (Record::made_fresh(), Record::fresh());
    opened.call(&Call::plain(&four(), 12, 1, 0));
    unfit.ashore[3] = 1;
    for (record, wanted) in [(&mut opened, 21), (&mut unfit, 24)] {
        let before = record.clone();
        let got = (record.call(&open).said.number, record.clone());
        tally.compare("open", || format!("{open:?}"), &(wanted, before), &got)?;
    }
    let full = Dispatched {
        last: 0,
        places: vec![opened.clone(); 8],
    };
    let mut broken = Dispatched::made_fresh();
    broken.places[7] = unfit;
    for (mut class, wanted) in [(Dispatched::made_fresh(), number), (full, 41), (broken, 24)] {
        let before = class.clone();
        let got = class.call(&dispatcher::Call::Add(open.clone())).said.number;
        tally.compare("add", || format!("{open:?}"), &wanted, &got)?;
        let kept = wanted == 0 || class == before;
        tally.compare("as it was", || format!("{open:?}"), &true, &kept)?;
    }
    Ok(())
}

/// Document 01's sea with a fifth buoy: its hunts differ by the list, which leaves the rounds of five buoys, of four or of three.
fn five() -> Graph {
    let more = free(5, &[(1, 5, 7), (2, 5, 3), (3, 5, 8), (4, 5, 2)]);
    Graph::from_edges(5, &[four().edges(), more.edges()].concat())
}

/// Lists for it.
const LISTS: [[u8; 5]; 8] = [
    [0, 0, 0, 0, 0],
    [0, 0, 0, 0, 1],
    [0, 0, 0, 1, 0],
    [0, 1, 0, 0, 0],
    [0, 0, 1, 1, 0],
    [0, 0, 0, 1, 1],
    [0, 1, 1, 0, 0],
    [0, 0, 1, 0, 0],
];

/// Hunts with several lists saved and brought back: each goes on as it would have.
fn saved(law: &Law, tally: &mut Tally) -> Outcome {
    let plain = AnyCall::Plain;
    let run = |budget| plain(Call::Run { budget });
    let mut list = Vec::new();
    for (name, ashore) in (1..).zip(LISTS) {
        let open = with(&five(), &ashore, 40, name as u64 % 2);
        list.extend([plain(open), AnyCall::Save(name), run(1)]);
        list.push(plain(Call::Close));
    }
    for name in [3, 8, 1, 6, 2, 5, 4, 7] {
        list.extend([AnyCall::Back(name), run(100), plain(Call::Tell)]);
        list.push(plain(Call::Show { length: 10 }));
    }
    let (mut state, mut both) = (Shelved::new(law), Both::made_fresh());
    for (i, call) in list.iter().enumerate() {
        let input = || format!("the first {} of {list:?}", i + 1);
        let (wanted, got) = (reply(&state.call(call)), both.call(call));
        tally.compare("answer", input, &wanted, &got)?;
        tally.compare("records", input, &Both::of(&state), &both)?;
    }
    Ok(())
}

/// Eight hunts of one sea, each with a list of its own, by turns: each comes to the cheapest round over its own buoys.
fn eight(law: &Law, tally: &mut Tally) -> Outcome {
    let mut state = dispatcher::Dispatcher::new(law, Method::Kruskal);
    let mut class = Dispatched::made_fresh();
    let add = |ashore: &[u8; 5]| dispatcher::Call::Add(with(&five(), ashore, 40, 0));
    let turns = (0..400).map(|_| dispatcher::Call::Turn { portion: 1 });
    let list: Vec<dispatcher::Call> = LISTS.iter().map(add).chain(turns).collect();
    for (i, call) in list.iter().enumerate() {
        let input = || format!("the first {} of {list:?}", i + 1);
        let wanted = super::dispatcher::said(&state.call(call));
        tally.compare("answer", input, &wanted, &class.call(call))?;
        tally.compare("dispatcher", input, &Dispatched::of(&state), &class)?;
    }
    for (place, ashore) in (1..).zip(LISTS) {
        let first = tours::first(&haul(&Law::AS_WRITTEN, &five(), &ashore));
        let wanted = first.map_or((NO_TOUR, 0), |tour| (BEST, tour.cost));
        let told = class.call(&dispatcher::Call::Tell { place }).said;
        let input = || format!("place {place}, {ashore:?}");
        tally.compare("told", input, &wanted, &(told.number, told.value))?;
    }
    Ok(())
}

/// A comparison gives every hunt the list: each pair's count is that of a record.
fn compared(law: &Law, tally: &mut Tally) -> Outcome {
    for (ashore, lifting) in LISTS.into_iter().flat_map(|list| [(list, 0), (list, 1)]) {
        let trial = Trial {
            graph: five(),
            multipliers: vec![0; 5],
            ashore: ashore.to_vec(),
            ceiling: 40,
            budget: 1_000,
            denominator: 1,
            lifting,
            sweeps: vec![0, 1, 15],
            steps: vec![0, 1, 10],
            length: 3,
        };
        let input = || format!("{trial:?}");
        let got = compare(&trial);
        let wanted = super::compare::expected(law, &trial);
        tally.compare("compare", input, &wanted, &got)?;
        let mut record = Record::made_fresh();
        record.call(&with(&five(), &ashore, 40, lifting));
        record.call(&Call::Run { budget: 1_000 });
        let count = got.report.and_then(|report| report.first().copied());
        tally.compare("a record's", input, &Some(record.count), &count)?;
    }
    Ok(())
}

/// "two hunts agree when their lists are the same": of one sea, its legs in another order, with dues, sweeps, steps, denominators and lifting of
/// their own.
fn agree(law: &Law, tally: &mut Tally, random: &mut Random) -> Outcome {
    let graph = generate::small_graph(random, 7, 14);
    let lists = [0, 1].map(|_| generate::ashore(random, graph.n));
    let sea = haul(&Law::AS_WRITTEN, &graph, &lists[0]);
    let near = tours::first(&sea).map_or(0, |tour| tour.cost);
    let ceiling = near + random.pick(&[-1, 0, 0, 1, 40]);
    let other = generate::shuffled(random, &graph);
    let list = match law.agree_by_list {
        true => &lists[0],
        false => &lists[1],
    };
    let mut told = Vec::new();
    for (graph, ashore) in [(&graph, &lists[0]), (&other, list)] {
        let open = opening(random, graph, ashore, ceiling);
        let mut record = Record::made_fresh();
        record.call(&open);
        record.call(&Call::Run { budget: 1 << 40 });
        let said = record.call(&Call::Tell).said;
        told.push((said.number, said.value));
    }
    let input = || format!("{graph:?}, {lists:?}, ceiling {ceiling}");
    tally.compare("agreement", input, &told[0], &told[1])
}
