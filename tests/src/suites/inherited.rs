//! Document 02, C-16, through the library: children start from their parent's multipliers. Lists of calls with sweeps and small budgets, so that
//! searches stop and go on between nodes; each answer, and after each call every byte of the record, the multipliers of each waiting node
//! among them, is the reference machine's. And a sea on which each misreading opens another number of nodes.

use super::facts::free;
use super::records::on_record;
use crate::bends;
use crate::document::graph::Graph;
use crate::document::law::Law;
use crate::document::machine::{Answer, Call, Machine, Verdict};
use crate::document::tree::Method;
use crate::generate::{self, Spread};
use crate::random::Random;
use crate::report::{Outcome, Suite, Tally};

pub const SUITE: Suite = Suite {
    name: "inherited",
    run,
    bends: &bends::joined::<10>(&[
        &bends::OF_INHERITED,
        &[
            bends::LAST_PASS_LIFTS,
            bends::LIFTED_DUES_STAY,
            bends::DUE_ASHORE_COUNTS,
            bends::DUE_ASHORE_GAINS,
        ],
    ]),
};

/// Steps that move bounds a little, or to the end of their range.
const STEPS: [u32; 6] = [1, 2, 3, 7, 400, 10_000];

fn run(law: &Law, tally: &mut Tally) -> Outcome {
    separating(law, tally)?;
    let random = &mut Random::new(0x0069_6e68_6572_6974);
    for round in 0..20_000 {
        let (vertices, most) = if round % 8 == 0 { (7, 14) } else { (6, 11) };
        let graph = generate::small_graph(random, vertices, most);
        let list = calls(random, &graph);
        on_record(law, tally, &list)?;
    }
    Ok(())
}

/// Every opening has sweeps, every budget is small; what comes between the runs changes nothing.
fn calls(random: &mut Random, graph: &Graph) -> Vec<Call> {
    let spread = random.pick(&[Spread::Equal, Spread::Few, Spread::Some]);
    let near = generate::multipliers_of(random, graph.n, spread);
    let far = generate::multipliers(random, graph.n);
    let open = Call::Open {
        graph: Box::new(graph.clone()),
        multipliers: if random.one_in(4) { far } else { near },
        ashore: generate::ashore(random, graph.n),
        ceiling: random.pick(&[generate::MAX_CEILING, 60, 30, 12]),
        sweeps: random.pick(&[1, 1, 1, 2, 3, 5]),
        step: random.pick(&STEPS),
        denominator: random.pick(&[1, 1, 2, 7]),
        lifting: generate::lifting(random),
    };
    let mut list = vec![open];
    for _ in 0..2 + random.below(8) {
        let budget = random.pick(&[0, 1, 1, 1, 2, 3, 5]);
        list.push(Call::Run { budget });
        match random.below(6) {
            0 => list.push(Call::Tell),
            1 => list.push(Call::Show { length: graph.m }),
            2 => list.push(list[0].clone()),
            _ => {}
        }
    }
    list
}

/// A sea on which each misreading opens another number of nodes: 11 as written, 15 with multipliers reset at each node, 9 with gains after the
/// last pass, 7 with one list for all nodes.
fn separating(law: &Law, tally: &mut Tally) -> Outcome {
    let legs = [
        (1, 2, 6),
        (1, 4, 8),
        (1, 5, 2),
        (2, 4, 5),
        (2, 5, 3),
        (3, 4, 8),
        (4, 5, 9),
    ];
    let open = Call::plain(&free(5, &legs), 40, 1, 0).swept(1, 2);
    let counts = [
        (Law::AS_WRITTEN, 11),
        (bent(bends::MULTIPLIERS_RESET), 15),
        (bent(bends::LAST_PASS_GAINS), 9),
        (bent(bends::ONE_LIST_FOR_BOTH), 7),
    ];
    let input = || format!("{open:?}");
    for (reading, count) in counts {
        let mut machine = Machine::new(&reading, Method::Definition);
        machine.call(&open);
        machine.call(&Call::Run { budget: 100 });
        let told = Answer::Told {
            verdict: Verdict::None,
            count,
        };
        tally.compare("nodes", input, &told, &machine.call(&Call::Tell))?;
    }
    let runs = [
        Call::Run { budget: 10 },
        Call::Tell,
        Call::Run { budget: 1 },
    ];
    let list = [vec![open.clone()], runs.to_vec(), vec![Call::Tell]].concat();
    on_record(law, tally, &list).map(|_| ())
}

fn bent(bend: crate::report::Bend) -> Law {
    let mut law = Law::AS_WRITTEN;
    (bend.bend)(&mut law);
    law
}
