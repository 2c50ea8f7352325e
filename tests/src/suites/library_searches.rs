//! Searches through the library: the verdict and the tour shown against all tours of the vertices afloat; two searches of one graph and one list
//! ashore, with its edges in two orders,
//! other multipliers, sweeps, steps and denominators, lifted or not, agree.

use super::searches::{in_two_orders, Whole};
use crate::bends;
use crate::document::law::Law;
use crate::document::machine::{Call, Machine, Verdict};
use crate::document::tours::Tour;
use crate::document::tree::Method;
use crate::ffi::{only, Reply};
use crate::random::Random;
use crate::record::Record;
use crate::report::{Hex, Outcome, Suite, Tally};
use planner::raw::{ACCEPTED, BEST, FINISHED, GOING_ON, NO_TOUR};

pub const SUITE: Suite = Suite {
    name: "library searches",
    run,
    bends: &[
        bends::CLOSED_AT_UPPER,
        bends::MARKS_FROM_BELOW,
        bends::UPPER_BELOW_COST,
        bends::UPPER_NOT_SCALED,
        bends::LIFTED_AT_UPPER_RULED,
        bends::TOUCHED_REQUIRED_STAY,
        bends::LEGS_OF_ALL,
    ],
};

fn run(law: &Law, tally: &mut Tally) -> Outcome {
    let random = &mut Random::new(0x6c_6962_7261_7279);
    in_two_orders(random, 2_000, |random, whole| {
        one(law, tally, random, whole)
    })
}

/// One search with its budget in two runs; and the machine's verdict and count on the same opening.
fn one(law: &Law, tally: &mut Tally, random: &mut Random, whole: &Whole) -> Outcome {
    let (open, budget) = (&whole.open, whole.budget);
    let input = || format!("{open:?}");
    let first = random.word() % (budget + 1);
    let mut record = Record::made_fresh();
    tally.compare("opened", input, &0, &record.call(open).said.number)?;
    record.call(&Call::Run { budget: first });
    let ran = record.call(&Call::Run {
        budget: budget - first,
    });
    tally.compare("finished", input, &FINISHED, &ran.said.number)?;
    told_and_shown(tally, &mut record, whole.edges, &whole.first, input)?;
    let mut machine = Machine::new(law, Method::Kruskal);
    machine.call(open);
    machine.call(&Call::Run { budget });
    let search = machine.search.as_ref();
    let machine_told = search.map(|search| match search.verdict() {
        Verdict::Cost(cost) => (BEST, cost, search.count),
        Verdict::None => (NO_TOUR, 0, search.count),
        Verdict::GoingOn => (GOING_ON, 0, search.count),
    });
    let said = record.call(&Call::Tell).said;
    tally.compare(
        "the machine's verdict and count",
        input,
        &machine_told,
        &Some((said.number, said.value, said.nodes)),
    )
}

/// What a finished search on a record tells and shows: the first of the allowed tours within its ceiling, or that there is none.
pub fn told_and_shown(
    tally: &mut Tally,
    record: &mut Record,
    length: usize,
    first: &Option<Tour>,
    input: impl Fn() -> String,
) -> Outcome {
    let told = record.call(&Call::Tell).said;
    let verdict = match first {
        Some(tour) => (BEST, tour.cost),
        None => (NO_TOUR, 0),
    };
    tally.compare("verdict", &input, &verdict, &(told.number, told.value))?;
    let round = Reply {
        said: only(if first.is_some() { ACCEPTED } else { 23 }),
        out: first.as_ref().map(|tour| Hex(tour.edges.clone())),
        margins_kept: true,
    };
    let shown = record.call(&Call::Show { length });
    tally.compare("shown", &input, &round, &shown)
}
