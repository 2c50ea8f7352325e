//! C-13, lifted dues, in the reference alone: the examples that were found by hand and by enumeration; its ways to the rulings of a pass that
//! lifts against each other, on small graphs and on all; and hunts with lifting and without, which end alike.

use super::facts::four;
use super::lifted_seas::{Example, Misread, EXAMPLES, HUNTED, MISREAD};
use super::own_trees::graph_for;
use super::searches::opening;
use crate::bends;
use crate::document::ashore::{dues, haul};
use crate::document::graph::{Graph, EXCLUDED, FREE, REQUIRED};
use crate::document::law::Law;
use crate::document::lifting::{lift, Lifting, Pass};
use crate::document::machine::{Answer, Call, Machine, Verdict};
use crate::document::rulings::{rule, Ruled, KEEP};
use crate::document::tours;
use crate::document::tree::{least, multipliers_fit, Method};
use crate::generate::{self, Spread};
use crate::random::Random;
use crate::report::{Bend, Outcome, Suite, Tally};

pub const SUITE: Suite = Suite {
    name: "own lifts",
    run,
    bends: &bends::joined::<26>(&[
        &bends::OF_LIFTING,
        &[bends::RISES_FROM_ONE, bends::FALLS_TO_THREE],
    ]),
};

/// Readings that change no ruling. What may change places with an edge at its end i limits i's change by nothing where it is as good as the best of
/// them; an edge at vertex 1 changes places with others there alone, which have no other end in common. The first four leave the dues too, so no
/// suite can notice them; of the last two Δ counts the change no time.
const INDIFFERENT: [Bend; 6] = [
    bends::SECOND_LIMIT_AT_FIRST,
    bends::SUPPORT_MOVES,
    bends::HIGHEST_SUPPORT,
    bends::HIGHEST_REPLACEMENT,
    bends::RISES_FROM_ONE,
    bends::FALLS_TO_THREE,
];

const METHODS: [Method; 3] = [Method::Definition, Method::Kruskal, Method::Prim];

fn run(law: &Law, tally: &mut Tally) -> Outcome {
    for method in METHODS {
        for sea in &MISREAD {
            misread(tally, method, sea)?;
        }
        for example in &EXAMPLES {
            on_example(law, tally, method, example)?;
        }
        nodes(law, tally, method)?;
        hunted(tally, method)?;
    }
    let random = &mut Random::new(0x6c_6966_7473);
    for round in 0..24_000 {
        let small = round % 8 != 0;
        let graph = match round % 4 {
            0 => graph_for(random, small),
            _ => minutes(random),
        };
        one_pass(law, tally, random, &graph, small)?;
    }
    for _ in 0..1_500 {
        alike(law, tally, random)?;
    }
    Ok(())
}

/// The ordinary rulings of a pass under zero dues, and what it comes to with lifting; none where it is 'dead'.
fn both(
    law: &Law,
    method: Method,
    graph: &Graph,
    upper: i64,
) -> Option<(Vec<u8>, Option<Vec<u8>>)> {
    let multipliers = &vec![0; graph.n];
    let tree = least(law, method, graph, multipliers, 1)?;
    let ruled = rule(law, method, graph, multipliers, 1, upper);
    let Ruled::Bound { rulings, .. } = ruled else {
        return None;
    };
    let pass = Pass {
        law,
        method,
        graph,
        multipliers,
        q: 1,
        tree: &tree.edges,
        upper,
    };
    let lifted = lift(&pass, &rulings);
    Some((rulings, (!lifted.closes).then_some(lifted.rulings)))
}

/// As written, and as the misreading has it.
fn misread(tally: &mut Tally, method: Method, sea: &Misread) -> Outcome {
    let (graph, bend) = (sea.graph(), &sea.bend);
    let mut reading = Law::AS_WRITTEN;
    (bend.bend)(&mut reading);
    let input = || format!("{method:?}, {graph:?}, U {}, {}", sea.ceiling, bend.what);
    let lifted = |law: &Law| both(law, method, &graph, sea.ceiling).map(|both| both.1);
    let (wanted, got) = (Some(Some(sea.lifted())), lifted(&Law::AS_WRITTEN));
    tally.compare("as written", input, &wanted, &got)?;
    let (wanted, got) = (Some(sea.bent()), lifted(&reading));
    tally.compare("misread", input, &wanted, &got)
}

fn on_example(law: &Law, tally: &mut Tally, method: Method, example: &Example) -> Outcome {
    let graph = example.graph();
    let input = || format!("{method:?}, {graph:?}, ceiling {}", example.ceiling);
    let wanted = Some((example.ordinary(), Some(example.lifted())));
    let got = both(law, method, &graph, example.ceiling);
    tally.compare(example.name, input, &wanted, &got)
}

/// Document 01's sea: "leg 1 by d′(2) = −4; hunt at 12: 5 → 3 nodes", whatever number says yes.
fn nodes(law: &Law, tally: &mut Tally, method: Method) -> Outcome {
    let (graph, multipliers) = (four(), [0; 4]);
    let pass = Pass {
        law,
        method,
        graph: &graph,
        multipliers: &multipliers,
        q: 1,
        tree: &[1, 1, 0, 1, 0, 1],
        upper: 12,
    };
    let lifted = Lifting::new(&pass).lift(0);
    let input = || format!("{method:?}, document 01's sea");
    let wanted = vec![0, -4, 0, 0];
    tally.compare("leg 1's dues", input, &wanted, &lifted.multipliers)?;
    for (lifting, count) in [(0, 5), (1, 3), (2, 3), (1 << 63, 3)] {
        let mut machine = Machine::new(law, method);
        machine.call(&Call::plain(&graph, 12, 1, lifting));
        machine.call(&Call::Run { budget: 100 });
        let verdict = Verdict::Cost(12);
        let input = || format!("{method:?}, document 01's sea, lifting {lifting}");
        let got = machine.call(&Call::Tell);
        tally.compare("nodes", input, &Answer::Told { verdict, count }, &got)?;
    }
    Ok(())
}

/// How many nodes a hunt takes, by its readings.
fn hunted(tally: &mut Tally, method: Method) -> Outcome {
    let [lifted, plain] = HUNTED.nodes;
    let count = |law: &Law, lifting: u64| {
        let mut machine = Machine::new(law, method);
        machine.call(&HUNTED.opening(lifting));
        machine.call(&Call::Run { budget: 100 });
        machine
            .search
            .map(|search| (search.finished(), search.count))
    };
    let input = || format!("{method:?}, {:?}", HUNTED.opening(1));
    let got = [1, 0].map(|lifting| count(&Law::AS_WRITTEN, lifting));
    let wanted = [Some((true, lifted)), Some((true, plain))];
    tally.compare("nodes", input, &wanted, &got)?;
    for (bend, nodes) in HUNTED.misread {
        let mut reading = Law::AS_WRITTEN;
        (bend.bend)(&mut reading);
        let got = count(&reading, 1);
        tally.compare(bend.what, input, &Some((true, nodes)), &got)?;
    }
    Ok(())
}

/// A sea whose costs are some minutes, so that edges are kept by little and changes are limited by one edge or by another.
pub fn minutes(random: &mut Random) -> Graph {
    let mut graph = generate::small_graph(random, 6, 11);
    let most = random.pick(&[1, 2, 4, 9, 60]);
    let style = random.pick(&[0, 0, 1, 2]);
    for k in 0..graph.m {
        graph.cost[k] = random.between(0, most) as i32;
        graph.mark[k] = generate::mark(random, style);
    }
    graph
}

/// A ceiling at which the trial of some edge turns, or an ordinary ruling, or near it.
fn turning(random: &mut Random, pass: &Pass) -> i64 {
    let mut marked = pass.graph.clone();
    let mut dues = pass.multipliers.to_vec();
    let frees: Vec<usize> = (0..marked.m).filter(|k| marked.mark[*k] == FREE).collect();
    if !frees.is_empty() {
        let e = random.pick(&frees);
        marked.mark[e] = match pass.tree[e] {
            1 => EXCLUDED,
            _ => REQUIRED,
        };
        if !random.one_in(4) {
            dues = Lifting::new(pass).lift(e).multipliers;
        }
    }
    let tree = least(pass.law, Method::Kruskal, &marked, &dues, pass.q);
    let bound = tree.map_or(0, |tree| tree.bound).div_euclid(pass.q as i64);
    match random.below(4) {
        0 => generate::ceiling(random, bound),
        1 => bound,
        _ => bound - 1,
    }
}

/// Multipliers that are near each other, as a rule.
fn near(random: &mut Random, n: usize) -> Vec<i32> {
    let spread = random.pick(&[Spread::Equal, Spread::Few, Spread::Some]);
    match random.below(4) {
        0 => generate::multipliers(random, n),
        1 => vec![0; n],
        _ => generate::multipliers_of(random, n, spread),
    }
}

/// An opening whose first pass has its ceiling where a ruling turns.
pub fn turning_opening(random: &mut Random, graph: &Graph, lifting: u64) -> Call {
    let multipliers = near(random, graph.n);
    let ashore = generate::ashore(random, graph.n);
    let denominator = generate::denominator(random);
    let law = &Law::AS_WRITTEN;
    let method = Method::Kruskal;
    let sea = haul(law, graph, &ashore);
    let first = dues(law, &multipliers, &ashore);
    let tree = least(law, method, &sea, &first, denominator);
    let ceiling = tree.map_or(0, |tree| {
        let pass = Pass {
            law,
            method,
            graph: &sea,
            multipliers: &first,
            q: denominator,
            tree: &tree.edges,
            upper: 0,
        };
        turning(random, &pass)
    });
    Call::Open {
        graph: Box::new(graph.clone()),
        multipliers,
        ashore,
        ceiling: ceiling.clamp(-generate::MAX_CEILING, generate::MAX_CEILING),
        sweeps: random.pick(&[0, 0, 0, 1, 2, 5]),
        step: random.pick(&[0, 1, 1, 2, 7, 100]),
        denominator,
        lifting,
    }
}

/// One pass that lifts, with its ceiling where a ruling turns.
fn one_pass(
    law: &Law,
    tally: &mut Tally,
    random: &mut Random,
    graph: &Graph,
    small: bool,
) -> Outcome {
    let (written, kruskal) = (&Law::AS_WRITTEN, Method::Kruskal);
    let ashore = generate::ashore(random, graph.n);
    let graph = &haul(written, graph, &ashore);
    let multipliers = &dues(written, &near(random, graph.n), &ashore);
    let q = generate::denominator(random);
    let Some(tree) = least(written, kruskal, graph, multipliers, q) else {
        return Ok(());
    };
    let mut pass = Pass {
        law: written,
        method: kruskal,
        graph,
        multipliers,
        q,
        tree: &tree.edges,
        upper: 0,
    };
    pass.upper = turning(random, &pass);
    pass.method = match small {
        true => Method::Definition,
        false => Method::Prim,
    };
    let ruled = rule(written, pass.method, graph, multipliers, q, pass.upper);
    let Ruled::Bound { rulings, .. } = ruled else {
        return Ok(());
    };
    two_ways(law, tally, &pass, &rulings)?;
    indifferent(law, tally, random.pick(&INDIFFERENT), &pass, &rulings)
}

fn shown(pass: &Pass) -> String {
    let Pass {
        method,
        graph,
        multipliers,
        q,
        tree,
        upper,
        ..
    } = pass;
    format!("{graph:?}, multipliers {multipliers:?}, denominator {q}, U {upper}, tree {tree:?}, {method:?}")
}

/// The same pass under a law that may be bent, by Kruskal.
fn bent<'a>(law: &'a Law, pass: &Pass<'a>) -> Pass<'a> {
    Pass {
        law,
        method: Method::Kruskal,
        ..*pass
    }
}

/// The dues of every trial, and what comes of it, by Kruskal and in another way; and by the source's own test.
fn two_ways(law: &Law, tally: &mut Tally, pass: &Pass, rulings: &[u8]) -> Outcome {
    let by = bent(law, pass);
    let input = || shown(pass);
    let (one, other) = (Lifting::new(pass), Lifting::new(&by));
    for e in (0..rulings.len()).filter(|e| rulings[*e] == KEEP) {
        let (wanted, got) = (one.lift(e), other.lift(e));
        let dues = &wanted.multipliers;
        let fit = multipliers_fit(&Law::AS_WRITTEN, dues, pass.q);
        tally.compare("dues in range", input, &true, &fit)?;
        let case = format!("dues of leg {}", e + 1);
        tally.compare(&case, input, &wanted, &got)?;
        let case = format!("leg {} by Δ", e + 1);
        tally.compare(&case, input, &one.tried(e), &other.by_delta(e))?;
    }
    let (wanted, got) = (lift(pass, rulings), lift(&by, rulings));
    tally.compare("lifted", input, &wanted, &got)
}

/// A reading that changes no ruling.
fn indifferent(law: &Law, tally: &mut Tally, bend: Bend, pass: &Pass, rulings: &[u8]) -> Outcome {
    let mut reading = *law;
    (bend.bend)(&mut reading);
    let (wanted, got) = (lift(pass, rulings), lift(&bent(&reading, pass), rulings));
    tally.compare(bend.what, || shown(pass), &wanted, &got)
}

/// "A finished lifted hunt and a finished unlifted one, of one sea and one ceiling", and one list ashore, "must have the same verdict and cost", and
/// the same round (C-23), the first of all allowed ones.
fn alike(law: &Law, tally: &mut Tally, random: &mut Random) -> Outcome {
    let graph = match random.below(3) {
        0 => generate::small_graph(random, 8, 14),
        _ => minutes(random),
    };
    let ashore = generate::ashore(random, graph.n);
    let first = tours::first(&haul(&Law::AS_WRITTEN, &graph, &ashore));
    let near = first.as_ref().map_or(0, |tour| tour.cost);
    let ceiling = near + random.pick(&[-1, 0, 0, 1, 5, 40]);
    let first = first.filter(|tour| tour.cost <= ceiling);
    let verdict = first
        .as_ref()
        .map_or(Verdict::None, |tour| Verdict::Cost(tour.cost));
    for lifted in [0, 1] {
        let open = opening(random, &graph, &ashore, ceiling).lifted(lifted);
        let mut machine = Machine::new(law, Method::Kruskal);
        machine.call(&open);
        machine.call(&Call::Run { budget: u64::MAX });
        let input = || format!("{open:?}");
        let ended = machine.search.as_ref().map(|search| {
            let round = search.incumbent.clone();
            (search.finished(), search.verdict(), round)
        });
        let round = first.as_ref().map(|tour| tour.edges.clone());
        tally.compare("ended", input, &Some((true, verdict, round)), &ended)?;
    }
    Ok(())
}
