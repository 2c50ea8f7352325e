//! C-17: "With q = 1 .. every answer is the old one": trees, rulings and whole hunts of the reference with q = 1, against the rules
//! before that request.

use super::own_rulings::turning_ceiling;
use super::searches::opening;
use crate::bends;
use crate::document::ashore::none;
use crate::document::former::{self, Hunt};
use crate::document::graph::Graph;
use crate::document::law::Law;
use crate::document::machine::{Call, Machine};
use crate::document::rulings::{self, Ruled};
use crate::document::tree::{self, Given, Method};
use crate::generate;
use crate::random::Random;
use crate::report::{Outcome, Suite, Tally};

pub const SUITE: Suite = Suite {
    name: "former rules",
    run,
    bends: &[
        bends::CEILING_NOT_WITHIN,
        bends::HIGHER_NUMBERED_FIRST,
        bends::MULTIPLIERS_OFF_ONCE,
        bends::REQUIRED_LEFT_OUT,
        bends::UPPER_BELOW_COST,
    ],
};

/// The hunt that an opening begins, to its end.
pub fn hunt(open: &Call) -> Hunt {
    let Call::Open {
        graph,
        multipliers,
        ceiling,
        sweeps,
        step,
        ..
    } = open
    else {
        unreachable!("an opening");
    };
    let mut hunt = Hunt {
        graph: (**graph).clone(),
        sweeps: *sweeps,
        step: *step,
        upper: *ceiling,
        best: None,
        count: 0,
    };
    hunt.open(graph.marks(), multipliers.clone());
    hunt
}

/// A graph of few edges, and an opening of it with q = 1 and without lifting.
pub fn of_one(random: &mut Random) -> (Graph, Call) {
    let graph = generate::small_graph(random, 5, 9);
    let near = turning_ceiling(random, &graph, &vec![0; graph.n], 1);
    let mut open = opening(random, &graph, none(&graph), near);
    if let Call::Open {
        denominator,
        lifting,
        ..
    } = &mut open
    {
        (*denominator, *lifting) = (1, 0);
    }
    (graph, open)
}

fn run(law: &Law, tally: &mut Tally) -> Outcome {
    let random = &mut Random::new(0x0066_6f72_6d65_7221);
    for _ in 0..4_000 {
        let graph = generate::small_graph(random, 6, 11);
        let multipliers = generate::multipliers(random, graph.n);
        let ceiling = turning_ceiling(random, &graph, &multipliers, 1);
        let input = || format!("{graph:?}, multipliers {multipliers:?}, ceiling {ceiling}");
        let given = Given::afloat(&graph, &multipliers, 1);
        let got = tree::call(law, Method::Kruskal, &given, graph.m);
        let got = got.map(|tree| tree.map(|tree| (tree.bound, tree.edges)));
        let former = Ok(former::tree(&graph, &multipliers));
        tally.compare("tree", input, &former, &got)?;
        let got = rulings::call(law, Method::Kruskal, &given, ceiling, graph.m);
        let got = got.map(|ruled| match ruled {
            Ruled::Bound { bound, rulings } => Some((bound, rulings)),
            Ruled::Infeasible => None,
        });
        let former = Ok(former::rule(&graph, &multipliers, ceiling));
        tally.compare("rule", input, &former, &got)?;
    }
    for _ in 0..1_200 {
        let (_, open) = of_one(random);
        let input = || format!("{open:?}");
        let mut machine = Machine::new(law, Method::Kruskal);
        machine.call(&open);
        machine.call(&Call::Run { budget: u64::MAX });
        let former = hunt(&open);
        let former = Some((former.upper, former.best, former.count));
        let got = machine
            .search
            .map(|search| (search.upper, search.incumbent, search.count));
        tally.compare("hunt", input, &former, &got)?;
    }
    Ok(())
}
