//! The ends of every range (document 02, C-14; with every limit of C-17's denominator): answers written down by hand, held to the library and, with
//! the bends, to the reference.

use super::facts::free;
use crate::bends;
use crate::document::graph::Graph;
use crate::document::law::Law;
use crate::document::machine::{Answer, Call, Machine, Verdict};
use crate::document::rulings::{self, Ruled};
use crate::document::tree::{self, Given, Method, Tree};
use crate::document::{chart, Refusal};
use crate::ffi::trees::{rule, tree};
use crate::ffi::{bound, check, only, read, refused, Reply};
use crate::record::Record;
use crate::report::{Hex, Outcome, Suite, Tally};
use crate::suites::records::reply;
use planner::raw::NONE;

pub const SUITE: Suite = Suite {
    name: "limits",
    run,
    bends: &bends::joined::<19>(&[
        &bends::OF_PARTS,
        &[
            bends::HIGHER_COST,
            bends::LOWER_COST,
            bends::FORMER_COST,
            bends::HIGHER_CEILING,
            bends::LOWER_CEILING,
            bends::FORMER_CEILING,
            bends::HIGHER_MULTIPLIER,
            bends::CHEAP_NO_REPLACEMENT,
            bends::CEILING_NOT_WITHIN,
            bends::MULTIPLIERS_OFF_ONCE,
            bends::NO_REPLACEMENT_OF_ONE,
            bends::COSTS_IN_PARTS,
            bends::UPPER_IN_PARTS,
            bends::UPPER_NOT_SCALED,
        ],
    ]),
};

const COST: i32 = 100_000_000;
const CEILING: i64 = 5_000_000_000;
const MULTIPLIER: i32 = 1_000_000;

/// What the rule call must say under a ceiling.
enum Says {
    Refused,
    Dead,
    /// the same ruling for every edge
    All(u8),
    Each(&'static [u8]),
}

use Says::{All, Dead, Each};

const KEEP: Says = All(0);
const FORCE: Says = All(1);

/// A graph with multipliers: the bound of its least 1-tree, and rulings under some ceilings.
struct Sea {
    what: &'static str,
    graph: Graph,
    multipliers: Vec<i32>,
    denominator: u64,
    /// in q-ths
    bound: i64,
    rulings: Vec<(i64, Says)>,
}

/// Every pair of vertices, each at this cost.
fn complete(n: u8, cost: i32) -> Graph {
    let pairs = (1..n).flat_map(|a| (a + 1..=n).map(move |b| (a, b, cost)));
    free(n.into(), &pairs.collect::<Vec<_>>())
}

/// One tour and nothing else.
fn ring(n: u8, cost: i32) -> Graph {
    let mut edges: Vec<(u8, u8, i32)> = (1..n).map(|a| (a, a + 1, cost)).collect();
    edges.push((1, n, cost));
    free(n.into(), &edges)
}

/// One 1-tree and nothing else: vertex 1 beside 2 and 3, and every other vertex beside 2.
fn star(n: u8, cost: i32) -> Graph {
    let mut edges = vec![(1, 2, cost), (1, 3, cost)];
    edges.extend((3..=n).map(|b| (2, b, cost)));
    free(n.into(), &edges)
}

/// 0, then the same multiplier for every other vertex.
fn others(n: usize, multiplier: i32) -> Vec<i32> {
    let mut all = vec![multiplier; n];
    all[0] = 0;
    all
}

/// The lowest ceiling that a bound in q-ths is not above.
fn up(bound: i64, q: i64) -> i64 {
    -(-bound).div_euclid(q)
}

fn seas(denominator: u64) -> Vec<Sea> {
    let mut seas = Vec::new();
    let q = denominator as i64;
    for cost in [0, COST, -COST] {
        let total = 3 * cost as i64;
        seas.push(Sea {
            what: "three edges and no other 1-tree",
            graph: ring(3, cost),
            multipliers: vec![0; 3],
            denominator,
            bound: q * total,
            rulings: vec![
                (CEILING, FORCE),
                (total, FORCE),
                (total - 1, Dead),
                (-CEILING, Dead),
            ],
        });
        let total = 20 * cost as i64;
        for multiplier in [0, MULTIPLIER, -MULTIPLIER] {
            seas.push(Sea {
                what: "every edge of 20 vertices",
                graph: complete(20, cost),
                multipliers: others(20, multiplier),
                denominator,
                bound: q * total,
                rulings: vec![(CEILING, KEEP), (total - 1, Dead), (-CEILING, Dead)],
            });
            seas.push(Sea {
                what: "a ring of 20",
                graph: ring(20, cost),
                multipliers: others(20, multiplier),
                denominator,
                bound: q * total,
                rulings: vec![(CEILING, FORCE), (total, FORCE), (total - 1, Dead)],
            });
        }
        // Vertex 2 has degree 19, those from 4 on have degree 1: 17 multipliers more and 17 fewer.
        for multiplier in [MULTIPLIER, -MULTIPLIER] {
            let mut multipliers = others(20, -multiplier);
            (multipliers[1], multipliers[2]) = (multiplier, 0);
            let bound = q * total + 34 * multiplier as i64;
            let lowest = up(bound, q);
            seas.push(Sea {
                what: "a star of 20",
                graph: star(20, cost),
                multipliers,
                denominator,
                bound,
                rulings: vec![(CEILING, FORCE), (lowest, FORCE), (lowest - 1, Dead)],
            });
        }
    }
    let ends = [
        (1, 2, -COST),
        (1, 3, -COST),
        (1, 4, COST),
        (2, 3, -COST),
        (2, 4, COST),
        (3, 4, -COST),
    ];
    seas.push(Sea {
        what: "both ends of the costs",
        graph: free(4, &ends),
        multipliers: vec![0; 4],
        denominator,
        bound: -400_000_000 * q,
        rulings: vec![
            (CEILING, KEEP),
            (-200_000_000, KEEP),
            (-200_000_001, Each(&[1, 1, 2, 1, 2, 1])),
            (-400_000_000, Each(&[1, 1, 2, 1, 2, 1])),
            (-400_000_001, Dead),
        ],
    });
    let (bound, turn) = (-400_000_000 * q - 2_000_000, -200_000_000 * q - 2_000_000);
    seas.push(Sea {
        what: "both ends of the costs and of the multipliers",
        graph: free(4, &ends),
        multipliers: vec![0, -MULTIPLIER, -MULTIPLIER, MULTIPLIER],
        denominator,
        bound,
        rulings: vec![
            (CEILING, KEEP),
            (-200_000_000, KEEP),
            (-200_000_001, Each(&[1, 1, 2, 1, 0, 0])),
            (up(turn, q), Each(&[1, 1, 2, 1, 0, 0])),
            (up(turn, q) - 1, Each(&[1, 1, 2, 1, 2, 1])),
            (up(bound, q), Each(&[1, 1, 2, 1, 2, 1])),
            (up(bound, q) - 1, Dead),
        ],
    });
    seas
}

/// What a search of one tour must come to: one node, and the tour where it is within the ceiling.
fn searches() -> Vec<(Graph, i64, Verdict)> {
    let mut all = Vec::new();
    for cost in [0, COST, -COST] {
        for graph in [ring(3, cost), ring(20, cost)] {
            let total = graph.n as i64 * cost as i64;
            for ceiling in [CEILING, total, total - 1, -CEILING] {
                let verdict = match total <= ceiling {
                    true => Verdict::Cost(total),
                    false => Verdict::None,
                };
                all.push((graph.clone(), ceiling, verdict));
            }
        }
    }
    all
}

fn run(law: &Law, tally: &mut Tally) -> Outcome {
    for sea in [1, 7, 1_000].into_iter().flat_map(seas) {
        bounds(law, tally, &sea)?;
        for (ceiling, says) in &sea.rulings {
            ruled(law, tally, &sea, *ceiling, says)?;
        }
        let past = CEILING + 1;
        for ceiling in [past, -past, i64::MAX, i64::MIN, i64::MIN + CEILING] {
            ruled(law, tally, &sea, ceiling, &Says::Refused)?;
        }
    }
    for (graph, ceiling, verdict) in searches() {
        for q in [1, 7, 1_000] {
            searched(law, tally, &graph, q, ceiling, verdict)?;
        }
    }
    beyond(law, tally)
}

fn shown(sea: &Sea, ceiling: Option<i64>) -> String {
    let Sea {
        what,
        graph,
        multipliers,
        denominator,
        ..
    } = sea;
    format!("{what}: {graph:?}, multipliers {multipliers:?}, denominator {denominator}, ceiling {ceiling:?}")
}

/// A reply that changes the whole list, or nothing.
fn said(said: planner::raw::Reply, out: Option<Vec<u8>>) -> Reply {
    Reply {
        said,
        out: out.map(Hex),
        margins_kept: true,
    }
}

/// The tree call; which edges it takes is the reference's to say.
fn bounds(law: &Law, tally: &mut Tally, sea: &Sea) -> Outcome {
    let (graph, d, q) = (&sea.graph, &sea.multipliers, sea.denominator);
    let input = || shown(sea, None);
    let given = Given::afloat(graph, d, q);
    let got = tree(&given, graph.m);
    tally.compare("bound", input, &bound(sea.bound), &got.said)?;
    let expected = match tree::call(law, Method::Kruskal, &given, graph.m) {
        Ok(Some(Tree {
            bound: least,
            edges,
        })) => said(bound(least), Some(edges)),
        Ok(None) => said(only(NONE), None),
        Err(refusal) => said(only(refusal.number), None),
    };
    tally.compare("tree", input, &expected, &got)
}

/// The rule call, and what the reference says of it.
fn ruled(law: &Law, tally: &mut Tally, sea: &Sea, ceiling: i64, says: &Says) -> Outcome {
    let (graph, d, q) = (&sea.graph, &sea.multipliers, sea.denominator);
    let expected = match says {
        Says::Refused => said(only(13), None),
        Says::Dead => said(only(NONE), None),
        Says::All(ruling) => said(bound(sea.bound), Some(vec![*ruling; graph.m])),
        Says::Each(rulings) => said(bound(sea.bound), Some(rulings.to_vec())),
    };
    let input = || shown(sea, Some(ceiling));
    let given = Given::afloat(graph, d, q);
    let got = rule(&given, ceiling, graph.m);
    tally.compare("rule", input, &expected, &got)?;
    for method in [Method::Definition, Method::Kruskal, Method::Prim] {
        if method == Method::Definition && graph.m > 16 {
            continue;
        }
        let reference = match rulings::call(law, method, &given, ceiling, graph.m) {
            Ok(Ruled::Bound {
                bound: least,
                rulings,
            }) => said(bound(least), Some(rulings)),
            Ok(Ruled::Infeasible) => said(only(NONE), None),
            Err(refusal) => said(only(refusal.number), None),
        };
        let case = format!("rule by {method:?}");
        tally.compare(&case, input, &reference, &expected)?;
    }
    Ok(())
}

/// One search on the library and on the reference machine.
fn searched(
    law: &Law,
    tally: &mut Tally,
    graph: &Graph,
    q: u64,
    ceiling: i64,
    verdict: Verdict,
) -> Outcome {
    let open = Call::plain(graph, ceiling, q, 0);
    let input = || format!("{open:?}");
    let told = Answer::Told { verdict, count: 1 };
    let finished = Answer::Ran {
        finished: true,
        count: 1,
    };
    let (mut record, mut machine) = (Record::made_fresh(), Machine::new(law, Method::Kruskal));
    let calls = [
        (open.clone(), Answer::Accepted),
        (Call::Run { budget: 2 }, finished),
        (Call::Tell, told),
    ];
    for (call, expected) in calls {
        tally.compare("answer", input, &reply(&expected), &record.call(&call))?;
        tally.compare("machine", input, &machine.call(&call), &expected)?;
    }
    tally.compare("record", input, &Record::of(&machine.search), &record)?;
    tally.compare("passes its check", input, &true, &record.passes(law))
}

/// One past each limit: 9 and 15, 12, 13; and in a search of its own each ceiling out of range.
fn beyond(law: &Law, tally: &mut Tally) -> Outcome {
    for cost in [COST, -COST] {
        let dearer = cost + cost.signum();
        let mut graph = ring(3, cost);
        graph.cost[2] = dearer;
        let input = || format!("{graph:?}");
        let unfit = said(only(15), None);
        tally.compare("check", input, &unfit, &check(&graph))?;
        let given = Given::afloat(&graph, &[0; 3], 0);
        tally.compare("tree", input, &unfit, &tree(&given, 3))?;
        tally.compare("rule", input, &unfit, &rule(&given, CEILING + 1, 3))?;
        refuses(law, tally, &Call::plain(&graph, CEILING + 1, 0, 0), 15)?;
        let mut file = chart::write(&Law::AS_WRITTEN, &ring(3, cost), 44).expect("a fit graph");
        file[8 + 2 * 12 + 4..][..4].copy_from_slice(&dearer.to_le_bytes());
        let costly = Refusal {
            number: 9,
            place: 3,
        };
        tally.compare("read", input, &refused(costly), &read(&file).said)?;
        tally.compare("read", input, &chart::read(law, &file), &Err(costly))?;
    }
    let graph = ring(3, COST);
    for multiplier in [MULTIPLIER + 1, -MULTIPLIER - 1] {
        let multipliers = [0, 0, multiplier];
        let input = || format!("{graph:?}, {multipliers:?}");
        let given = Given::afloat(&graph, &multipliers, 1_000);
        let got = rule(&given, CEILING + 1, 3);
        tally.compare("rule", input, &said(only(12), None), &got)?;
        let reference = tree::admit(law, &given, None);
        let refusal = Refusal {
            number: 12,
            place: 0,
        };
        tally.compare("by the reference", input, &reference, &Err(refusal))?;
    }
    for ceiling in [CEILING + 1, -CEILING - 1, i64::MAX, i64::MIN] {
        refuses(law, tally, &Call::plain(&graph, ceiling, 1_000, 0), 13)?;
    }
    Ok(())
}

/// Whether an opening is refused so, and leaves the record fresh.
fn refuses(law: &Law, tally: &mut Tally, open: &Call, number: u32) -> Outcome {
    let input = || format!("{open:?}");
    let expected = Answer::Refused(Refusal { number, place: 0 });
    let mut record = Record::made_fresh();
    tally.compare("open", input, &reply(&expected), &record.call(open))?;
    tally.compare("fresh", input, &Record::fresh(), &record)?;
    let got = Machine::new(law, Method::Kruskal).call(open);
    tally.compare("machine", input, &got, &expected)
}
