//! The reference machine against all tours of the vertices afloat: two searches of one graph and one list ashore, with its edges in two orders,
//! other multipliers, sweeps, steps and denominators, lifted or not, both with the budget that must finish them. Each
//! shows the first of its cheapest tours.

use crate::bends;
use crate::document::ashore::haul;
use crate::document::graph::{Graph, FREE};
use crate::document::law::Law;
use crate::document::machine::{Answer, Call, Machine, Search, Verdict};
use crate::document::tours::{self, Tour};
use crate::document::tree::Method;
use crate::document::Refusal;
use crate::generate::{self, Spread};
use crate::random::Random;
use crate::report::{Outcome, Suite, Tally};

pub const SUITE: Suite = Suite {
    name: "searches",
    run,
    bends: &[
        bends::CEILING_NOT_WITHIN,
        bends::MULTIPLIERS_OFF_ONCE,
        bends::MARKS_FROM_BELOW,
        bends::UPPER_BELOW_COST,
        bends::CLOSED_AT_UPPER,
        bends::EQUALS_NEVER_REPLACE,
        bends::EQUALS_ALWAYS_REPLACE,
        bends::LAST_OF_EQUALS,
        bends::LOWEST_LEG_DECIDES,
        bends::UPPER_NOT_SCALED,
        bends::CEILING_NOT_SCALED,
        bends::LIFTED_AT_UPPER_RULED,
        bends::TOUCHED_STAY,
        bends::LEGS_OF_ALL,
        bends::ROUND_OF_ALL,
    ],
};

/// The most vertices and edges: where many tours cost the same, as C-23 reads the machine, a dense
/// graph of eight takes a million nodes.
const DENSE: (usize, usize) = (6, 15);
const SPARSE: (usize, usize) = (8, 14);

const STEPS: [u32; 6] = [0, 1, 3, 50, 1_000, 10_000];

fn run(law: &Law, tally: &mut Tally) -> Outcome {
    let random = &mut Random::new(0x73_6561_7263_6873);
    in_two_orders(random, 3_500, |random, whole| {
        one(law, tally, random, whole)
    })
}

/// A search that is to be finished: its opening, the budget that must do, and the first of the allowed tours within its ceiling.
pub struct Whole {
    pub open: Call,
    pub budget: u64,
    pub edges: usize,
    pub first: Option<Tour>,
}

impl Whole {
    /// The budget is 2^(k+1) − 1, k edges being free and touching no vertex ashore.
    fn new(random: &mut Random, graph: &Graph, ashore: &[u8], ceiling: i64) -> Whole {
        let sea = haul(&Law::AS_WRITTEN, graph, ashore);
        Whole {
            open: opening(random, graph, ashore, ceiling),
            budget: (1u64 << (free_legs(&sea) + 1)) - 1,
            edges: graph.m,
            first: tours::first(&sea).filter(|tour| tour.cost <= ceiling),
        }
    }
}

/// Searches of random graphs with lists ashore and ceilings, each of them once more with the edges in another order.
pub fn in_two_orders(
    random: &mut Random,
    rounds: usize,
    mut one: impl FnMut(&mut Random, &Whole) -> Outcome,
) -> Outcome {
    for round in 0..rounds {
        let (vertices, most) = if round % 2 == 0 { DENSE } else { SPARSE };
        let graph = generate::small_graph(random, vertices, most);
        let ashore = generate::ashore(random, graph.n);
        let best = tours::first(&haul(&Law::AS_WRITTEN, &graph, &ashore)).map(|tour| tour.cost);
        let ceiling = match random.below(4) {
            0 => generate::MAX_CEILING,
            _ => generate::ceiling(random, best.unwrap_or(0)),
        };
        let whole = Whole::new(random, &graph, &ashore, ceiling);
        one(random, &whole)?;
        let other = generate::shuffled(random, &graph);
        let whole = Whole::new(random, &other, &ashore, ceiling);
        one(random, &whole)?;
    }
    Ok(())
}

/// How many edges of a graph are free.
pub fn free_legs(graph: &Graph) -> usize {
    graph.marks().iter().filter(|mark| **mark == FREE).count()
}

/// An opening with multipliers, sweeps, step and denominator of its own. Far multipliers give poor bounds and
/// long searches: only graphs with few edges get them.
pub fn opening(random: &mut Random, graph: &Graph, ashore: &[u8], ceiling: i64) -> Call {
    let few = graph.m <= 12;
    let near = random.pick(&[Spread::Equal, Spread::Few, Spread::Some]);
    let multipliers = if few {
        generate::multipliers(random, graph.n)
    } else {
        generate::multipliers_of(random, graph.n, near)
    };
    Call::Open {
        graph: Box::new(graph.clone()),
        multipliers,
        ashore: ashore.to_vec(),
        ceiling,
        sweeps: random.pick(&[0, 0, 1, 2, 5, 15]),
        step: random.pick(if few { &STEPS } else { &STEPS[..4] }),
        denominator: generate::denominator(random),
        lifting: generate::lifting(random),
    }
}

/// Spends the whole budget in portions.
fn in_portions(machine: &mut Machine, random: &mut Random, budget: u64) {
    let mut left = budget;
    while left > 0 {
        let portion = match random.below(3) {
            0 => 1 + random.below(4) as u64,
            1 => left / 2,
            _ => left,
        };
        let budget = portion.min(left);
        machine.call(&Call::Run { budget });
        left -= budget;
    }
}

fn one(law: &Law, tally: &mut Tally, random: &mut Random, whole: &Whole) -> Outcome {
    let (open, budget, first) = (&whole.open, whole.budget, &whole.first);
    let expected = match first {
        Some(tour) => Verdict::Cost(tour.cost),
        None => Verdict::None,
    };
    let input = || format!("{open:?}");
    let mut machine = Machine::new(law, Method::Kruskal);
    machine.call(open);
    in_portions(&mut machine, random, budget);
    let opened = machine.search.is_some();
    tally.compare("opened", input, &true, &opened)?;
    let Some(search) = &machine.search else {
        unreachable!("opened above");
    };
    tally.compare("finished", input, &true, &search.finished())?;
    tally.compare("verdict", input, &expected, &search.verdict())?;
    let within = search.count <= budget;
    tally.compare("count within the budget", input, &true, &within)?;
    shown(tally, &mut machine.clone(), search, first, input)?;
    if random.one_in(3) {
        at_once(law, tally, open, budget, search)?;
    }
    Ok(())
}

/// What show gives is the first of the cheapest tours, or refusal 23.
fn shown(
    tally: &mut Tally,
    machine: &mut Machine,
    search: &Search,
    first: &Option<Tour>,
    input: impl Fn() -> String,
) -> Outcome {
    let length = search.graph.m;
    let wanted = match first {
        Some(tour) => Answer::Shown(tour.edges.clone()),
        None => Answer::Refused(Refusal {
            number: 23,
            place: 0,
        }),
    };
    let got = machine.call(&Call::Show { length });
    tally.compare("shown", &input, &wanted, &got)?;
    let same = machine.search.as_ref() == Some(search);
    tally.compare("show changes nothing", &input, &true, &same)
}

/// One run leaves what the portions left, and another changes nothing.
fn at_once(law: &Law, tally: &mut Tally, open: &Call, budget: u64, search: &Search) -> Outcome {
    let mut machine = Machine::new(law, Method::Kruskal);
    machine.call(open);
    machine.call(&Call::Run { budget });
    machine.call(&Call::Run { budget });
    let same = machine.search.as_ref() == Some(search);
    let input = || format!("{open:?}");
    tally.compare("in portions or at once", input, &true, &same)
}
