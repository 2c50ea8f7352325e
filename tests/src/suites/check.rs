//! The check of a graph value: 0 or 15.

use crate::bends;
use crate::document::graph::{fits, Edge, Graph, PLACES};
use crate::document::law::Law;
use crate::ffi::{check, only, Reply};
use crate::generate::{self, MAX_COST};
use crate::random::Random;
use crate::report::{Outcome, Suite, Tally};

pub const SUITE: Suite = Suite {
    name: "check",
    run,
    bends: &[
        bends::HIGHER_COST,
        bends::FORMER_COST,
        bends::MORE_VERTICES,
        bends::MARK_THREE,
        bends::EQUAL_ENDS,
        bends::PAIR_TWICE,
        bends::PAST_M_JUDGED,
    ],
};

fn run(law: &Law, tally: &mut Tally) -> Outcome {
    let random = &mut Random::new(0x63_6865_636b);
    for round in 0..20_000 {
        let graph = generate::graph_value(random, round % 4 != 0);
        judge(law, tally, "a value, fit or broken", &graph)?;
    }
    sizes(law, tally, random)?;
    pairs_twice(law, tally, random)?;
    each_field(law, tally, random)
}

/// What the call must answer.
pub fn expected(law: &Law, graph: &Graph) -> Reply {
    Reply {
        said: only(if fits(law, graph) { 0 } else { 15 }),
        out: None,
        margins_kept: true,
    }
}

fn judge(law: &Law, tally: &mut Tally, case: &str, graph: &Graph) -> Outcome {
    let expected = expected(law, graph);
    tally.compare(case, || format!("{graph:?}"), &expected, &check(graph))
}

/// Every n with every m, over a complete graph and over a small one.
fn sizes(law: &Law, tally: &mut Tally, random: &mut Random) -> Outcome {
    let whole = generate::graph_of(random, 20, 190);
    let small = generate::graph_of(random, 3, 3);
    for n in 0..256 {
        for m in 0..256 {
            for base in [&whole, &small] {
                let mut graph = base.clone();
                (graph.n, graph.m) = (n, m);
                judge(law, tally, "every n and m", &graph)?;
            }
        }
    }
    Ok(())
}

/// A pair twice at any two places, some of them past m.
fn pairs_twice(law: &Law, tally: &mut Tally, random: &mut Random) -> Outcome {
    for _ in 0..3000 {
        let mut graph = generate::graph_of(random, 20, 190);
        let (j, k) = (random.below(PLACES), random.below(PLACES));
        let edge = Edge {
            a: graph.a[j],
            b: graph.b[j],
            ..graph.edge(k)
        };
        graph.set(k, edge);
        let short = if random.one_in(2) { 3 } else { PLACES };
        graph.m = PLACES - random.below(short);
        judge(law, tally, "a pair twice", &graph)?;
    }
    Ok(())
}

/// Each field of one edge at each of its limits and past it.
fn each_field(law: &Law, tally: &mut Tally, random: &mut Random) -> Outcome {
    for _ in 0..200 {
        let base = generate::graph(random);
        if base.m == 0 {
            continue;
        }
        let any = random.below(base.m);
        let k = random.pick(&[0, base.m - 1, any]);
        for limit in [MAX_COST, MAX_COST + 1, i32::MAX] {
            for cost in [limit, -limit, -limit - 1] {
                let mut graph = base.clone();
                graph.cost[k] = cost;
                judge(law, tally, "a cost at or past its limit", &graph)?;
            }
        }
        for byte in 0..=255 {
            let mut graph = base.clone();
            graph.mark[k] = byte;
            judge(law, tally, "every mark", &graph)?;
        }
        for byte in (0..24).chain([127, 128, 255]) {
            let mut graph = base.clone();
            graph.a[k] = byte;
            judge(law, tally, "every end", &graph)?;
            let mut graph = base.clone();
            graph.b[k] = byte;
            judge(law, tally, "every end", &graph)?;
        }
    }
    Ok(())
}
