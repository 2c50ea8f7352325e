//! C-13, lifted dues, through the library: the examples, with the rulings read from the record; every kind of number for yes or no, at opening and
//! in a record; what compares hunts, holds eight of them or saves them keeps it; passes at whose ceilings a ruling turns, each answer and every byte
//! of the record; and hunts with lifting and without, which end alike.

use super::facts::four;
use super::library_searches::told_and_shown;
use super::lifted_seas::{EXAMPLES, HUNTED, MISREAD};
use super::own_lifts::{minutes, turning_opening};
use super::records::{on_record, reply};
use super::searches::{free_legs, opening};
use super::shelves::Both;
use crate::bends;
use crate::document::ashore::haul;
use crate::document::dispatcher;
use crate::document::graph::{Graph, EXCLUDED, REQUIRED};
use crate::document::law::Law;
use crate::document::machine::Call;
use crate::document::rulings::{ALREADY_EXCLUDED, ALREADY_REQUIRED, BAR, FORCE, KEEP};
use crate::document::sailing::Trial;
use crate::document::shelf::{AnyCall, Shelved};
use crate::document::tours;
use crate::document::tree::Method;
use crate::ffi::only;
use crate::ffi::sailings::{compare, ComparedReply};
use crate::ffi::shelves::Shelf;
use crate::generate;
use crate::random::Random;
use crate::record::{Dispatched, Record};
use crate::report::{Outcome, Suite, Tally};
use planner::raw::{Reply as Numbers, ACCEPTED, BEST, FINISHED};

pub const SUITE: Suite = Suite {
    name: "lifting",
    run,
    bends: &bends::joined::<28>(&[
        &bends::OF_LIFTING,
        &[
            bends::LAST_PASS_LIFTS,
            bends::LIFTING_AS_SENT,
            bends::LIFTING_OF_TWO,
            bends::LIFTING_NOT_CHECKED,
        ],
    ]),
};

/// Numbers that say yes; of all but the first the lowest bit says no, of some the low bytes too.
const YES: [u64; 7] = [1, 2, 254, 256, 1 << 32, 1 << 63, u64::MAX - 1];

fn run(law: &Law, tally: &mut Tally) -> Outcome {
    for example in &EXAMPLES {
        for (lifting, rulings) in [(0, example.ordinary()), (1, example.lifted())] {
            let open = Call::plain(&example.graph(), example.ceiling, 1, lifting);
            first_pass(law, tally, example.name, &open, &rulings)?;
        }
    }
    for sea in &MISREAD {
        let open = Call::plain(&sea.graph(), sea.ceiling, 1, 1);
        first_pass(law, tally, sea.bend.what, &open, &sea.lifted())?;
    }
    for (lifting, nodes) in [(1, HUNTED.nodes[0]), (0, HUNTED.nodes[1])] {
        let whole = [HUNTED.opening(lifting), Call::Run { budget: 100 }];
        let record = on_record(law, tally, &whole)?;
        let input = || format!("{whole:?}");
        tally.compare("nodes", input, &(0, nodes), &(record.depth, record.count))?;
    }
    numbers(law, tally)?;
    in_records(law, tally)?;
    compared(law, tally)?;
    eight(law, tally)?;
    saved(law, tally)?;
    let random = &mut Random::new(0x6c_6966_7469_6e67);
    for round in 0..12_000 {
        let graph = match round % 4 {
            0 => generate::small_graph(random, 6, 11),
            _ => minutes(random),
        };
        turned(law, tally, random, &graph)?;
    }
    for _ in 0..400 {
        let graph = generate::graph(random);
        turned(law, tally, random, &graph)?;
    }
    for _ in 0..600 {
        alike(law, tally, random)?;
    }
    Ok(())
}

/// What the first pass of a node ruled, by the marks that its two branches have alike; none where it left no edge free.
fn ruled(graph: &Graph, record: &Record) -> Option<Vec<u8>> {
    let rulings = (0..graph.m).map(|k| match (record.mark(0, k), record.mark(1, k)) {
        (REQUIRED, REQUIRED) if graph.mark[k] == REQUIRED => ALREADY_REQUIRED,
        (EXCLUDED, EXCLUDED) if graph.mark[k] == EXCLUDED => ALREADY_EXCLUDED,
        (REQUIRED, REQUIRED) => FORCE,
        (EXCLUDED, EXCLUDED) => BAR,
        _ => KEEP,
    });
    (record.waiting() == 2).then(|| rulings.collect())
}

/// The rulings of a hunt's first pass, where it finds no round and leaves an edge free, and then the whole hunt.
fn first_pass(law: &Law, tally: &mut Tally, name: &str, open: &Call, rulings: &[u8]) -> Outcome {
    let Call::Open { graph, .. } = open else {
        unreachable!("an opening");
    };
    let input = || format!("{open:?}");
    let record = on_record(law, tally, &[open.clone(), Call::Run { budget: 1 }])?;
    let seen = rulings.contains(&KEEP) && record.has_best == 0;
    let wanted = seen.then(|| rulings.to_vec());
    tally.compare(name, input, &wanted, &ruled(graph, &record))?;
    let whole = [open.clone(), Call::Run { budget: 1 << 20 }, Call::Tell];
    on_record(law, tally, &whole).map(|_| ())
}

/// "A yes or no at opening": document 01's sea takes 5 nodes, and 3 where any number but 0 is sent, which the record has as 1.
fn numbers(law: &Law, tally: &mut Tally) -> Outcome {
    let told = |nodes| Numbers {
        value: 12,
        nodes,
        ..only(BEST)
    };
    for (lifting, nodes) in [(0, 5)].into_iter().chain(YES.map(|yes| (yes, 3))) {
        let open = Call::plain(&four(), 12, 1, lifting);
        let input = || format!("{open:?}");
        let bit = u64::from(lifting != 0);
        let record = on_record(law, tally, std::slice::from_ref(&open))?;
        tally.compare("kept", input, &bit, &record.lifting)?;
        let whole = [open.clone(), Call::Run { budget: 100 }, Call::Tell];
        let mut record = on_record(law, tally, &whole)?;
        let got = record.call(&Call::Tell).said;
        tally.compare("nodes", input, &told(nodes), &got)?;
        on_record(law, tally, &[&whole[..], &[Call::Close]].concat())?;
    }
    Ok(())
}

/// A record with any other number than 0 or 1 for lifting is refused 24, and so is one with no hunt open and not 0; by the calls on a hunt, by
/// those on a shelf and by those on a dispatcher.
fn in_records(law: &Law, tally: &mut Tally) -> Outcome {
    let mut open = Record::made_fresh();
    open.call(&Call::plain(&four(), 12, 1, 1));
    for first in [Record::made_fresh(), open.clone()] {
        for lifting in [0].into_iter().chain(YES).chain([3, u64::MAX]) {
            let mut record = first.clone();
            record.lifting = lifting;
            let fits = lifting <= u64::from(record.open);
            let input = || format!("{record:?}");
            tally.compare("the stated check", input, &fits, &record.passes(law))?;
            let calls = [
                Call::plain(&four(), 12, 1, 0),
                Call::Run { budget: 0 },
                Call::Tell,
                Call::Show { length: 6 },
                Call::Close,
            ];
            for call in calls {
                let refused = record.clone().call(&call).said.number == 24;
                tally.compare("24", input, &!fits, &refused)?;
            }
            let mut shelf = Shelf::fresh();
            let refused = shelf.save(&record, 1).said.number == 24;
            tally.compare("24 of save", input, &!fits, &refused)?;
            shelf.places[7] = record.clone();
            let refused = Record::fresh().back(&shelf, 1).said.number == 24;
            tally.compare("24 of back", input, &!fits, &refused)?;
            let mut class = Dispatched::made_fresh();
            class.places[7] = record.clone();
            let turn = dispatcher::Call::Turn { portion: 1 };
            let refused = class.call(&turn).said.number == 24;
            tally.compare("24 of a turn", input, &!fits, &refused)?;
        }
    }
    Ok(())
}

/// Document 01's sea, one pair: 3 nodes with lifting, whatever number says so, and 5 without.
fn compared(law: &Law, tally: &mut Tally) -> Outcome {
    for (lifting, nodes) in [(0, 5)].into_iter().chain(YES.map(|yes| (yes, 3))) {
        let trial = Trial {
            graph: four(),
            multipliers: vec![0; 4],
            ashore: vec![0; 4],
            ceiling: 12,
            budget: 5,
            denominator: 1,
            lifting,
            sweeps: vec![0, 0],
            steps: vec![0, 10_000],
            length: 2,
        };
        let input = || format!("{trial:?}");
        let wanted = ComparedReply {
            said: only(ACCEPTED),
            report: Some(vec![nodes, nodes]),
            margins_kept: true,
        };
        let got = compare(&trial);
        tally.compare("compare", input, &wanted, &got)?;
        let reference = super::compare::expected(law, &trial);
        tally.compare("the reference's", input, &reference, &wanted)?;
    }
    Ok(())
}

/// Eight hunts of document 01's sea, every second one lifted: each takes the nodes that it takes alone.
fn eight(law: &Law, tally: &mut Tally) -> Outcome {
    let mut state = dispatcher::Dispatcher::new(law, Method::Kruskal);
    let mut class = Dispatched::made_fresh();
    let adds = (0..8)
        .map(|i| dispatcher::Call::Add(Call::plain(&four(), 12, 1, [0, 1, 0, 1 << 63][i % 4])));
    let turns = (0..40).map(|_| dispatcher::Call::Turn { portion: 1 });
    let list: Vec<dispatcher::Call> = adds.chain(turns).collect();
    for (i, call) in list.iter().enumerate() {
        let input = || format!("the first {} of {list:?}", i + 1);
        let wanted = super::dispatcher::said(&state.call(call));
        tally.compare("answer", input, &wanted, &class.call(call))?;
        tally.compare("dispatcher", input, &Dispatched::of(&state), &class)?;
    }
    let input = || format!("{list:?}");
    let nodes: Vec<u64> = class.places.iter().map(|place| place.count).collect();
    tally.compare("nodes", input, &vec![5, 3, 5, 3, 5, 3, 5, 3], &nodes)
}

/// A lifted hunt that is saved and brought back over an unlifted one goes on as it would have.
fn saved(law: &Law, tally: &mut Tally) -> Outcome {
    let plain = AnyCall::Plain;
    let run = |budget| plain(Call::Run { budget });
    let list = [
        plain(Call::plain(&four(), 12, 1, 2)),
        run(1),
        AnyCall::Save(1),
        plain(Call::Close),
        plain(Call::plain(&four(), 12, 1, 0)),
        AnyCall::Save(8),
        run(1),
        AnyCall::Back(1),
        run(100),
        plain(Call::Tell),
        AnyCall::Back(8),
        run(100),
        plain(Call::Tell),
    ];
    let (mut state, mut both) = (Shelved::new(law), Both::made_fresh());
    let mut counts = Vec::new();
    for (i, call) in list.iter().enumerate() {
        let input = || format!("the first {} of {list:?}", i + 1);
        let got = both.call(call);
        if *call == plain(Call::Tell) {
            counts.push(got.said.nodes);
        }
        tally.compare("answer", input, &reply(&state.call(call)), &got)?;
        tally.compare("records", input, &Both::of(&state), &both)?;
    }
    let input = || format!("{list:?}");
    tally.compare("nodes", input, &vec![3, 5], &counts)
}

/// A hunt whose first pass has its ceiling where a ruling turns: a node at a time, then more.
fn turned(law: &Law, tally: &mut Tally, random: &mut Random, graph: &Graph) -> Outcome {
    let lifting = random.pick(&[0, 1, 1, 1, 1, 1 << 40]);
    let mut list = vec![turning_opening(random, graph, lifting)];
    let more = if graph.m > 16 { 1 } else { 4 };
    list.extend((0..more).map(|_| Call::Run { budget: 1 }));
    if graph.m <= 16 {
        list.push(Call::Run { budget: 40 });
        list.push(Call::Tell);
    }
    on_record(law, tally, &list).map(|_| ())
}

/// "A finished lifted hunt and a finished unlifted one, of one sea and one ceiling", and one list ashore, "must have the same verdict and cost": those
/// of the first of the cheapest rounds, found by going through all. The edges of one stand in another order too, so there the cost alone is the same.
fn alike(law: &Law, tally: &mut Tally, random: &mut Random) -> Outcome {
    let graph = match random.below(3) {
        0 => generate::small_graph(random, 8, 14),
        _ => minutes(random),
    };
    let ashore = generate::ashore(random, graph.n);
    let hauled = |graph: &Graph| haul(&Law::AS_WRITTEN, graph, &ashore);
    let near = tours::first(&hauled(&graph)).map_or(0, |tour| tour.cost);
    let ceiling = near + random.pick(&[-1, 0, 0, 1, 5, 40]);
    let budget = (1u64 << (free_legs(&hauled(&graph)) + 1)) - 1;
    for (order, lifting) in [(false, 0), (false, 1), (true, 1)] {
        let sea = match order {
            true => generate::shuffled(random, &graph),
            false => graph.clone(),
        };
        let first = tours::first(&hauled(&sea)).filter(|tour| tour.cost <= ceiling);
        let open = opening(random, &sea, &ashore, ceiling).lifted(lifting);
        let input = || format!("{open:?}");
        let show = Call::Show { length: sea.m };
        let list = [open.clone(), Call::Run { budget }, Call::Tell, show];
        let mut record = on_record(law, tally, &list)?;
        let ran = record.call(&Call::Run { budget: 0 }).said.number;
        tally.compare("finished", input, &FINISHED, &ran)?;
        told_and_shown(tally, &mut record, sea.m, &first, input)?;
    }
    Ok(())
}
