//! C-12, of the reference: at how many free legs the loop looks that ends early, against the definition,
//! and that it took what the loop over all legs takes.

use crate::bends;
use crate::document::graph::{Edge, Graph, EXCLUDED, FREE, REQUIRED};
use crate::document::law::Law;
use crate::document::tree::{least, looked, looked_by_definition, Method};
use crate::generate;
use crate::random::Random;
use crate::report::{Outcome, Suite, Tally};
use crate::suites::facts::four;
use crate::suites::own_trees::sea_for;

pub const SUITE: Suite = Suite {
    name: "own looks",
    run,
    bends: &[
        bends::STOP_ONE_TOO_EARLY,
        bends::STOP_ONE_TOO_LATE,
        bends::REQUIRED_LOOKED_AT,
    ],
};

fn sea(n: usize, legs: &[(u8, u8, i32, u8)]) -> Graph {
    let edge = |(a, b, cost, mark): &(u8, u8, i32, u8)| Edge {
        a: *a,
        b: *b,
        cost: *cost,
        mark: *mark,
    };
    Graph::from_edges(n, &legs.iter().map(edge).collect::<Vec<_>>())
}

/// Seas, at how many free legs the loop looks, and whether there is a tree.
fn examples() -> [(Graph, usize, bool); 4] {
    let mut required = four();
    (required.mark[3], required.mark[5]) = (REQUIRED, REQUIRED);
    let circle = [
        (1, 2, 4, FREE),
        (1, 3, 3, FREE),
        (2, 3, 2, REQUIRED),
        (2, 4, 6, REQUIRED),
        (3, 4, 1, REQUIRED),
        (2, 5, 9, FREE),
        (3, 5, 8, FREE),
        (4, 5, 7, FREE),
    ];
    let apart = [
        (1, 2, 1, FREE),
        (1, 3, 1, FREE),
        (2, 3, 1, FREE),
        (2, 4, 1, FREE),
        (3, 4, 1, FREE),
    ];
    [
        (four(), 2, true),
        (required, 0, true),
        (sea(5, &circle), 1, false),
        (sea(5, &apart), 3, false),
    ]
}

fn run(law: &Law, tally: &mut Tally) -> Outcome {
    for (graph, p, any) in examples() {
        let multipliers = vec![0; graph.n];
        let input = || format!("{graph:?}");
        tally.compare(
            "example",
            input,
            &p,
            &looked(law, &graph, &multipliers, 1).0,
        )?;
        let tree = least(law, Method::Kruskal, &graph, &multipliers, 1);
        tally.compare("example's tree", input, &any, &tree.is_some())?;
    }
    let random = &mut Random::new(0x6c6f_6f6b_7321);
    let (mut trees, mut none, mut early) = (0, 0, 0);
    for round in 0..20_000 {
        let (mut graph, multipliers) = sea_for(random, round % 2 == 0);
        // some seas fall apart, some have many required legs
        if round % 5 == 0 {
            for k in 0..graph.m {
                if random.below(3) == 0 {
                    graph.mark[k] = EXCLUDED;
                }
            }
        }
        let q = generate::denominator(random);
        let input = || format!("{graph:?}, multipliers {multipliers:?}, denominator {q}");
        let written = &Law::AS_WRITTEN;
        let (p, took) = looked(law, &graph, &multipliers, q);
        let expected = looked_by_definition(written, &graph, &multipliers, q);
        tally.compare("definition and loop", input, &expected, &p)?;
        match least(written, Method::Kruskal, &graph, &multipliers, q) {
            None => none += 1,
            Some(tree) => {
                trees += 1;
                let beside = (0..graph.m).filter(|k| graph.a[*k] != 1);
                let same = beside.clone().all(|k| took[k] == tree.edges[k]);
                tally.compare("what was taken", input, &true, &same)?;
                let free = beside.filter(|k| graph.mark[*k] == FREE).count();
                early += usize::from(p < free);
            }
        }
    }
    let met = [trees, none, early].map(|count| count > 2_000);
    tally.compare("trees, no trees, early ends", String::new, &[true; 3], &met)
}
