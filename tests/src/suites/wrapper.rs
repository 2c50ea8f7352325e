//! The safe wrapper for Rust against the reference: reading, writing, trees, rulings, and lists of calls on a search.

use super::dispatcher::call as a_call;
use super::recent::{break_log, log};
use super::rule::{arguments, Arguments};
use super::{compare, shelves, simulate};
use crate::bends;
use crate::chart_cases::every_file;
use crate::document::graph::{self, Graph, FREE, PLACES, REQUIRED};
use crate::document::law::Law;
use crate::document::machine::{self, Answer, Call};
use crate::document::recent;
use crate::document::rulings::{self, BAR, FORCE, KEEP};
use crate::document::shelf::{AnyCall, Shelved};
use crate::document::tree::{self, Method};
use crate::document::{chart, dispatcher, sailing, Refusal};
use crate::ffi::{by_value, settings, terms};
use crate::generate;
use crate::random::Random;
use crate::record::{Dispatched, Record, SIZE};
use crate::report::{hex, Outcome, Suite, Tally};
use planner::{
    Edge, Mark, Progress, Ruled, Ruling, Sailing, Search, Settings, Shelf, Told, Tree, Verdict,
};

pub const SUITE: Suite = Suite {
    name: "wrapper",
    run,
    bends: &[
        bends::HIGHER_COST,
        bends::NEXT_JUDGED_FIRST,
        bends::LAST_NEXT_NOT_ZERO,
        bends::HIGHER_NUMBERED_FIRST,
        bends::CEILING_NOT_WITHIN,
        bends::HIGHER_MULTIPLIER,
        bends::ENTRIES_FROM_ZERO,
        bends::UPPER_BELOW_COST,
        bends::MORE_SWEEPS,
        bends::BOUND_DIVIDED,
        bends::COSTS_IN_PARTS,
        bends::HIGHER_DENOMINATOR,
        bends::DENOMINATOR_BEFORE_STEP,
        bends::LEG_BEFORE_DENOMINATOR,
        bends::HIGHEST_FREE,
        bends::BACK_OF_NEXT_NAME,
        bends::FLAG_WITHOUT_EFFECT,
        bends::LIFTED_UNASKED,
        bends::LIFTING_AS_SENT,
        bends::ASHORE_BYTE_OF_TWO,
        bends::ASHORE_OF_ANY_LENGTH,
        bends::ASHORE_BEFORE_DENOMINATOR,
        bends::FREE_BY_LIST,
        bends::TOUCHED_RULED_BY_MARK,
        bends::TOUCHED_IN_TREE,
        bends::DUE_ASHORE_COUNTS,
        bends::COMPARED_WITHOUT_LIST,
        bends::SAVED_WITHOUT_LIST,
        bends::ADDED_WITHOUT_LIST,
    ],
};

fn run(law: &Law, tally: &mut Tally) -> Outcome {
    let random = &mut Random::new(0x77_7261_7070_6572);
    for round in 0..4_000 {
        trees(law, tally, random, round % 3 == 2)?;
    }
    for _ in 0..150 {
        dispatchers(law, tally, random)?;
    }
    for round in 0..2_000 {
        searches(law, tally, random)?;
        sailings(law, tally, random, round % 3 == 2)?;
    }
    let random = &mut Random::new(0x6c_6f67_73);
    for _ in 0..3_000 {
        logs(law, tally, random)?;
    }
    too_many(tally)?;
    files(law, tally)
}

fn mark(byte: u8) -> Mark {
    match byte {
        FREE => Mark::Free,
        REQUIRED => Mark::Required,
        _ => Mark::Excluded,
    }
}

/// The graph made of its edges, as a user makes it, and its edges again. Edges cannot say what breaks the rules of marks and sizes.
fn edges(tally: &mut Tally, graph: &Graph) -> Outcome {
    if graph.m > PLACES || graph.marks().iter().any(|mark| *mark > 2) {
        return Ok(());
    }
    let edge = |edge: &graph::Edge| Edge {
        a: edge.a,
        b: edge.b,
        cost: edge.cost,
        mark: mark(edge.mark),
    };
    let edges: Vec<Edge> = graph.edges().iter().map(edge).collect();
    let input = || format!("{graph:?}");
    let made = planner::Graph::from_edges(graph.n, &edges);
    let expected = by_value(&Graph::from_edges(graph.n, &graph.edges()));
    tally.compare("made of edges", input, &expected, &made)?;
    let again = (made.vertices(), made.edges());
    tally.compare("the edges again", input, &(graph.n, edges), &again)
}

fn refusal(refusal: Refusal) -> planner::Refusal {
    planner::Refusal {
        number: refusal.number,
        place: refusal.place,
    }
}

fn files(law: &Law, tally: &mut Tally) -> Outcome {
    every_file(&mut |case, bytes, _| {
        let read = chart::read(law, bytes);
        let expected = match &read {
            Ok(graph) => Ok(by_value(graph)),
            Err(refused) => Err(refusal(*refused)),
        };
        let got = planner::Graph::read(bytes);
        let input = || hex(bytes);
        tally.compare(case, input, &expected, &got)?;
        if let (Ok(graph), Ok(got)) = (read, got) {
            let expected = chart::write(law, &graph, 8 + 12 * graph.m).map_err(refusal);
            tally.compare("written", input, &expected, &got.write())?;
        }
        Ok(())
    })
}

fn bits(bytes: &[u8]) -> Vec<bool> {
    bytes.iter().map(|byte| *byte == 1).collect()
}

fn ruling(byte: u8) -> Ruling {
    match byte {
        KEEP => Ruling::Keep,
        FORCE => Ruling::Force,
        BAR => Ruling::Bar,
        rulings::ALREADY_REQUIRED => Ruling::Required,
        _ => Ruling::Excluded,
    }
}

/// A simulated sailing and a comparison; the lists that the wrapper lends have the right length.
fn sailings(law: &Law, tally: &mut Tally, random: &mut Random, wrong: bool) -> Outcome {
    let (graph, mut asked) = simulate::asked(random, wrong);
    asked.length = graph.n;
    let input = || format!("{graph:?}, {asked:?}");
    let wanted = sailing::simulate(law, &graph, &asked).map_err(refusal);
    let wanted = wanted.map(|sailed| Sailing {
        times: sailed.times,
        total: sailed.total,
        state: sailed.state,
    });
    let got = planner::simulate(&by_value(&graph), &asked.legs, asked.student, asked.spread);
    tally.compare("simulate", input, &wanted, &got)?;
    let mut trial = compare::trial(random, wrong);
    trial.steps.resize(trial.sweeps.len(), 0);
    trial.length = trial.sweeps.len();
    let pairs: Vec<(u32, u32)> = trial
        .sweeps
        .iter()
        .copied()
        .zip(trial.steps.iter().copied())
        .collect();
    let input = || format!("{trial:?}");
    let wanted = sailing::compare(law, Method::Kruskal, &trial).map_err(refusal);
    let wanted = wanted.map(|counts| {
        counts
            .iter()
            .map(|k| (*k != 0).then_some(*k))
            .collect::<Vec<_>>()
    });
    let graph = by_value(&trial.graph);
    let (dues, ashore) = (&trial.multipliers, &trial.ashore);
    let got = planner::compare(&graph, dues, ashore, terms(&trial), &pairs);
    tally.compare("compare", input, &wanted, &got)
}

/// What the tree call must answer; its list has the right length.
fn expected_tree(law: &Law, given: &Arguments) -> Result<Tree, planner::Refusal> {
    let m = given.graph.m;
    found(tree::call(law, Method::Kruskal, &given.given(), m))
}

fn found(answer: Result<Option<tree::Tree>, Refusal>) -> Result<Tree, planner::Refusal> {
    Ok(match answer.map_err(refusal)? {
        Some(tree) => Tree::Found {
            bound: tree.bound,
            edges: bits(&tree.edges),
        },
        None => Tree::None,
    })
}

/// What the rule call must answer; its list has the right length.
fn expected_rulings(law: &Law, given: &Arguments) -> Result<Ruled, planner::Refusal> {
    let (method, m) = (Method::Kruskal, given.graph.m);
    let ruled = rulings::call(law, method, &given.given(), given.ceiling, m);
    Ok(match ruled.map_err(refusal)? {
        rulings::Ruled::Bound { bound, rulings } => Ruled::Within {
            bound,
            rulings: rulings.iter().map(|byte| ruling(*byte)).collect(),
        },
        rulings::Ruled::Infeasible => Ruled::Infeasible,
    })
}

/// The check, the tree and the rulings of one graph; where `wrong`, with one fault or more.
fn trees(law: &Law, tally: &mut Tally, random: &mut Random, wrong: bool) -> Outcome {
    let small = random.one_in(2);
    let given = arguments(random, small, wrong);
    edges(tally, &given.graph)?;
    let graph = by_value(&given.graph);
    let (multipliers, ashore) = (&given.multipliers, &given.ashore);
    let (q, ceiling) = (given.denominator, given.ceiling);
    let input = || given.shown();
    let fits = graph::fits(law, &given.graph);
    tally.compare("check", input, &fits, &graph.check().is_ok())?;
    let got = planner::tree(&graph, multipliers, ashore, q);
    tally.compare("tree", input, &expected_tree(law, &given), &got)?;
    let edge = random.below(given.graph.m.min(190) + 2);
    let mark = random.pick(&[Mark::Required, Mark::Excluded, Mark::Free]);
    let (asked, m) = ((edge, mark as u32), given.graph.m);
    let method = Method::Kruskal;
    let wanted = tree::preview(law, method, &given.given(), asked, m);
    let got = planner::preview(&graph, multipliers, ashore, q, edge, mark);
    tally.compare("preview", input, &found(wanted), &got)?;
    let got = planner::rule(&graph, multipliers, ashore, ceiling, q);
    tally.compare("rule", input, &expected_rulings(law, &given), &got)
}

/// A log on one graph: the costs that it makes, or a refusal that leaves the graph.
fn logs(law: &Law, tally: &mut Tally, random: &mut Random) -> Outcome {
    let broken = random.one_in(8);
    let graph = &generate::graph_value(random, broken);
    let mut log = log(random, graph, 40);
    if random.one_in(3) {
        break_log(random, graph, &mut log);
    }
    let mut made = by_value(graph);
    let got = planner::recent_costs(&mut made, log.w, &log.legs, &log.times);
    let wanted = match recent::call(law, graph, &log) {
        Ok(made) => (by_value(&made), Ok(())),
        Err(refused) => (by_value(graph), Err(refusal(refused))),
    };
    let input = || format!("{graph:?}, {log:?}");
    tally.compare("recent costs", input, &wanted, &(made, got))
}

/// What the wrapper's call on a search must answer, in one type for all five.
#[derive(PartialEq, Eq, Debug)]
pub enum Said {
    Accepted,
    Ran(Progress),
    Told(Told),
    Shown(Vec<bool>),
}

fn said(answer: Answer) -> Result<Said, planner::Refusal> {
    Ok(match answer {
        Answer::Refused(refused) => return Err(refusal(refused)),
        Answer::Accepted => Said::Accepted,
        Answer::Ran { finished, count } => Said::Ran(match finished {
            true => Progress::Finished { nodes: count },
            false => Progress::GoingOn { nodes: count },
        }),
        Answer::Told { verdict, count } => Said::Told(Told {
            verdict: match verdict {
                machine::Verdict::GoingOn => Verdict::GoingOn,
                machine::Verdict::None => Verdict::NoTour,
                machine::Verdict::Cost(cost) => Verdict::Best(cost),
            },
            nodes: count,
        }),
        Answer::Shown(edges) => Said::Shown(bits(&edges)),
    })
}

pub fn answer(search: &mut Search, call: &Call) -> Result<Said, planner::Refusal> {
    match call {
        Call::Open {
            graph,
            multipliers,
            ashore,
            ..
        } => {
            let opened = search.open(&by_value(graph), multipliers, ashore, settings(call));
            opened.map(|()| Said::Accepted)
        }
        Call::Run { budget } => search.run(*budget).map(Said::Ran),
        Call::Tell => search.tell().map(Said::Told),
        Call::Show { .. } => search.show().map(Said::Shown),
        Call::Close => search.close().map(|()| Said::Accepted),
    }
}

/// The wrapper's record as the tests have it.
fn parts(record: &planner::Record) -> Record {
    // SAFETY: a record has no bytes but those of its numbers.
    let bytes = unsafe { std::mem::transmute::<planner::Record, [u8; SIZE]>(record.clone()) };
    Record::of_bytes(&bytes)
}

/// One list of calls; and at its end a record that fails its check.
fn searches(law: &Law, tally: &mut Tally, random: &mut Random) -> Outcome {
    let plain = generate::calls(random, 5, 10);
    let list = shelves::list_of(random, plain);
    let mut state = Shelved::new(law);
    let (mut search, mut shelf) = (Search::fresh(), Shelf::fresh());
    let fresh = || "a fresh record".to_string();
    let made = Record::made_fresh();
    tally.compare("fresh", fresh, &made, &parts(search.record()))?;
    for (i, call) in list.iter().enumerate() {
        let got = match call {
            AnyCall::Plain(call) => answer(&mut search, call),
            AnyCall::Save(name) => shelf.save(&search, *name).map(|()| Said::Accepted),
            AnyCall::Back(name) => search.back(&shelf, *name).map(|()| Said::Accepted),
        };
        let open = state.machine.search.as_ref();
        let length = open.map_or(0, |search| search.graph.m);
        let expected = said(match call {
            AnyCall::Plain(Call::Show { .. }) => state.call(&AnyCall::Plain(Call::Show { length })),
            _ => state.call(call),
        });
        let input = || format!("the first {} of {list:?}", i + 1);
        tally.compare("answer", input, &expected, &got)?;
        let record = parts(search.record());
        let left = Record::of(&state.machine.search);
        tally.compare("record", input, &left, &record)?;
    }
    for (saved, place) in state.saved.iter().zip(&shelf.places().places) {
        let input = || format!("{list:?}");
        tally.compare("place", input, &Record::of(saved), &parts(place))?;
    }
    let mut record = Box::new(search.record().clone());
    record.open = 2;
    let refused = Search::from_record(record).tell();
    let unfit = planner::Refusal {
        number: 24,
        place: 0,
    };
    let input = || "a record with the flag 2".to_string();
    tally.compare("24", input, &Err(unfit), &refused)
}

/// A list of calls on a dispatcher through the wrapper; the list that is lent to show has the right length.
fn dispatchers(law: &Law, tally: &mut Tally, random: &mut Random) -> Outcome {
    let list: Vec<dispatcher::Call> = (0..25).map(|_| a_call(random, true)).collect();
    let mut state = dispatcher::Dispatcher::new(law, Method::Kruskal);
    let mut class = planner::Dispatcher::fresh();
    for (i, call) in list.iter().enumerate() {
        let input = || format!("the first {} of {list:?}", i + 1);
        let got = on_dispatcher(&mut class, call);
        let call = match *call {
            dispatcher::Call::Show { place, .. } => {
                let held = state.places.get(place.wrapping_sub(1));
                let held = held.and_then(|machine| machine.search.as_ref());
                let length = held.map_or(0, |search| search.graph.m);
                dispatcher::Call::Show { place, length }
            }
            ref other => other.clone(),
        };
        let expected = match state.call(&call) {
            dispatcher::Answer::Refused(refused) => Err(refusal(refused)),
            dispatcher::Answer::Placed(place) => Ok(OnClass::Placed(place)),
            dispatcher::Answer::Served(place) => Ok(OnClass::Turned(Some(place))),
            dispatcher::Answer::Idle => Ok(OnClass::Turned(None)),
            dispatcher::Answer::Said(answer) => said(answer).map(OnClass::Said),
        };
        tally.compare("a dispatcher's answer", input, &expected, &got)?;
        let places = class.places();
        let found = Dispatched {
            last: places.last,
            places: places.places.iter().map(parts).collect(),
        };
        tally.compare("a dispatcher", input, &Dispatched::of(&state), &found)?;
    }
    let mut places = Box::new(class.places().clone());
    places.last = 9;
    let refused = planner::Dispatcher::from_places(places).turn(1);
    let unfit = planner::Refusal {
        number: 24,
        place: 0,
    };
    let input = || "a dispatcher that last served place 9".to_string();
    tally.compare("24", input, &Err(unfit), &refused)
}

/// What the wrapper's calls on a dispatcher give.
#[derive(PartialEq, Eq, Debug)]
enum OnClass {
    Placed(usize),
    Turned(Option<usize>),
    Said(Said),
}

fn on_dispatcher(
    class: &mut planner::Dispatcher,
    call: &dispatcher::Call,
) -> Result<OnClass, planner::Refusal> {
    match call {
        dispatcher::Call::Add(open) => {
            let Call::Open {
                graph,
                multipliers,
                ashore,
                ..
            } = open
            else {
                unreachable!("a search is added by an opening");
            };
            let placed = class.add(&by_value(graph), multipliers, ashore, settings(open));
            placed.map(OnClass::Placed)
        }
        dispatcher::Call::Turn { portion } => class.turn(*portion).map(OnClass::Turned),
        dispatcher::Call::Tell { place } => {
            let told = class.tell(*place);
            told.map(|told| OnClass::Said(Said::Told(told)))
        }
        dispatcher::Call::Show { place, .. } => {
            let shown = class.show(*place);
            shown.map(|edges| OnClass::Said(Said::Shown(edges)))
        }
        dispatcher::Call::Close { place } => {
            let closed = class.close(*place);
            closed.map(|()| OnClass::Said(Said::Accepted))
        }
    }
}

/// More edges than a graph has places for, or more vertices, are refused by every call, also where their last byte would do.
fn too_many(tally: &mut Tally) -> Outcome {
    let unfit = planner::Refusal {
        number: 15,
        place: 0,
    };
    let settings = Settings {
        ceiling: 0,
        sweeps: 0,
        step: 0,
        denominator: 1,
        lifting: 0,
    };
    for (n, m) in [
        (20, PLACES + 1),
        (20, 256),
        (20, 257),
        (20, 100_000),
        (260, 1),
    ] {
        let graph = planner::Graph::from_edges(n, &vec![Edge::free(1, 2, 0); m]);
        let got = [
            graph.check().err(),
            graph.write().err(),
            planner::tree(&graph, &[0; 20], &[0; 20], 1).err(),
            planner::rule(&graph, &[0; 20], &[0; 20], 0, 1).err(),
            Search::fresh()
                .open(&graph, &[0; 20], &[0; 20], settings)
                .err(),
        ];
        let input = || format!("{n} vertices, {m} edges");
        tally.compare("15", input, &[Some(unfit); 5], &got)?;
    }
    Ok(())
}
