//! Document 02, C-23, through the library: of allowed tours of least cost a search shows the first, "With legs numbered alike, finished hunts
//! now agree on the round as well as its cost". Graphs whose tours cost the same as a rule, each searched with several multipliers, sweeps and
//! steps; the tour shown is the first of all, found by going through them, and every byte of the record is the reference machine's.

use super::facts::free;
use super::records::reply;
use crate::bends;
use crate::document::ashore::haul;
use crate::document::graph::{Edge, Graph};
use crate::document::law::Law;
use crate::document::machine::{Answer, Call, Machine};
use crate::document::tours;
use crate::document::tree::Method;
use crate::generate::{self, Spread};
use crate::random::Random;
use crate::record::Record;
use crate::report::{Bend, Hex, Outcome, Suite, Tally};

pub const SUITE: Suite = Suite {
    name: "first tours",
    run,
    bends: &[
        bends::UPPER_BELOW_COST,
        bends::UPPER_ABOVE_COST,
        bends::UPPER_NOT_LOWERED,
        bends::CLOSED_AT_UPPER,
        bends::EQUALS_NEVER_REPLACE,
        bends::EQUALS_ALWAYS_REPLACE,
        bends::LAST_OF_EQUALS,
        bends::LOWEST_LEG_DECIDES,
        bends::ROUND_OF_ALL,
    ],
};

const BUDGET: u64 = 1 << 40;

fn run(law: &Law, tally: &mut Tally) -> Outcome {
    separating(law, tally)?;
    let random = &mut Random::new(0x0066_6972_7374);
    for round in 0..1_200 {
        let n = if round % 12 == 0 {
            6
        } else {
            4 + random.below(2)
        };
        let graph = level(random, n);
        let searches = 2 + random.below(2);
        for _ in 0..searches {
            one(law, tally, &opening(random, &graph))?;
        }
    }
    Ok(())
}

/// Nearly all edges, of one cost or of two, in any order.
fn level(random: &mut Random, n: usize) -> Graph {
    let pairs = generate::pairs(random, n);
    let m = pairs.len() - random.below(3);
    let dear = random.pick(&[0, 0, 1, 1, 40]);
    let style = random.pick(&[0, 0, 1, 2]);
    let edges: Vec<Edge> = pairs[..m]
        .iter()
        .map(|(a, b)| Edge {
            a: *a,
            b: *b,
            cost: 5 + dear * random.below(2) as i32,
            mark: generate::mark(random, style),
        })
        .collect();
    Graph::from_edges(n, &edges)
}

fn opening(random: &mut Random, graph: &Graph) -> Call {
    let spread = random.pick(&[Spread::Equal, Spread::Few, Spread::Some]);
    Call::Open {
        graph: Box::new(graph.clone()),
        multipliers: generate::multipliers_of(random, graph.n, spread),
        ashore: generate::ashore(random, graph.n),
        ceiling: generate::MAX_CEILING,
        sweeps: random.pick(&[0, 0, 1, 2, 5]),
        step: random.pick(&[0, 1, 3, 50]),
        denominator: random.pick(&[1, 1, 2, 7, 1_000]),
        lifting: generate::lifting(random),
    }
}

/// One finished search: the tour shown, and the record, as the machine has it.
fn one(law: &Law, tally: &mut Tally, open: &Call) -> Outcome {
    let Call::Open { graph, ashore, .. } = open else {
        unreachable!("only openings come here");
    };
    let input = || format!("{open:?}");
    let show = Call::Show { length: graph.m };
    let mut machine = Machine::new(law, Method::Kruskal);
    let mut record = Record::made_fresh();
    for call in [open, &Call::Run { budget: BUDGET }, &Call::Tell, &show] {
        let expected = reply(&machine.call(call));
        let got = record.call(call);
        tally.compare("answer", input, &expected, &got)?;
    }
    tally.compare("record", input, &Record::of(&machine.search), &record)?;
    let sea = haul(&Law::AS_WRITTEN, graph, ashore);
    let first = tours::first(&sea).map(|tour| Hex(tour.edges));
    tally.compare("shown", input, &first, &record.call(&show).out)
}

/// Two seas on which each misreading shows another tour: 2 3 4 5 and 1 2 3 4 are the first.
fn separating(law: &Law, tally: &mut Tally) -> Outcome {
    let one_way = [(1, 2), (1, 3), (1, 4), (2, 3), (2, 4), (3, 4)];
    let other_way = [(3, 4), (2, 3), (1, 4), (1, 2), (2, 4), (1, 3)];
    let sea = |pairs: [(u8, u8); 6], costs: [i32; 6]| {
        let edges: Vec<(u8, u8, i32)> =
            (0..6).map(|k| (pairs[k].0, pairs[k].1, costs[k])).collect();
        Call::plain(&free(4, &edges), 100, 1, 0)
    };
    let early = sea(one_way, [2, 2, 1, 2, 1, 1]);
    let late = sea(other_way, [3, 1, 3, 0, 3, 1]);
    let cases: [(&Call, Option<Bend>, [u8; 6]); 8] = [
        (&early, None, [0, 1, 1, 1, 1, 0]),
        (&early, Some(bends::UPPER_BELOW_COST), [1, 1, 0, 0, 1, 1]),
        (
            &early,
            Some(bends::EQUALS_NEVER_REPLACE),
            [1, 1, 0, 0, 1, 1],
        ),
        (&early, Some(bends::CLOSED_AT_UPPER), [1, 1, 0, 0, 1, 1]),
        (&late, None, [1, 1, 1, 1, 0, 0]),
        (
            &late,
            Some(bends::EQUALS_ALWAYS_REPLACE),
            [1, 0, 0, 1, 1, 1],
        ),
        (&late, Some(bends::LAST_OF_EQUALS), [1, 0, 0, 1, 1, 1]),
        (&late, Some(bends::LOWEST_LEG_DECIDES), [1, 0, 0, 1, 1, 1]),
    ];
    for (open, bend, edges) in cases {
        let mut reading = Law::AS_WRITTEN;
        bend.iter().for_each(|bend| (bend.bend)(&mut reading));
        let mut machine = Machine::new(&reading, Method::Definition);
        machine.call(open);
        machine.call(&Call::Run { budget: BUDGET });
        let shown = machine.call(&Call::Show { length: 6 });
        let input = || {
            format!(
                "{open:?}, {}",
                bend.as_ref().map_or("as written", |bend| bend.what)
            )
        };
        tally.compare("shown", input, &Answer::Shown(edges.to_vec()), &shown)?;
    }
    one(law, tally, &early)?;
    one(law, tally, &late)
}
