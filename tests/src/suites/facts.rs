//! The facts of 'A four-buoy sea' and what the programs print for it, held to the reference.

use crate::bends;
use crate::document::chart::write;
use crate::document::graph::{Edge, Graph, FREE, REQUIRED};
use crate::document::law::Law;
use crate::document::machine::{adjust, Answer, Call, Machine, Verdict};
use crate::document::rulings::{self, rule, Ruled};
use crate::document::tree::{self, least, Given, Method, Tree};
use crate::document::{programs, tours};
use crate::report::{Outcome, Suite, Tally};

pub const SUITE: Suite = Suite {
    name: "facts",
    run,
    bends: &[
        bends::HIGHER_NUMBERED_FIRST,
        bends::CEILING_NOT_WITHIN,
        bends::REQUIRED_LEFT_OUT,
        bends::MULTIPLIERS_NOT_HELD,
        bends::FORMER_CEILING_BYTES,
        bends::HIGH_BYTES_LOST,
        bends::FORMER_CEILING,
        bends::FORMER_COST,
        bends::CHEAP_NO_REPLACEMENT,
        bends::CEILING_NOT_SCALED,
        bends::MULTIPLIERS_TIMES,
        bends::LIFTED_UNASKED,
        bends::LEGS_OF_ALL,
        bends::ROUND_OF_ALL,
        bends::TOUCHED_STAY,
        bends::TOUCHED_REQUIRED_STAY,
        bends::TOUCHED_RULED_BY_MARK,
        bends::TOUCHED_IN_TREE,
        bends::DUE_ASHORE_COUNTS,
    ],
};

const METHODS: [Method; 3] = [Method::Definition, Method::Kruskal, Method::Prim];

/// A graph with all edges free.
pub fn free(n: usize, edges: &[(u8, u8, i32)]) -> Graph {
    let edges: Vec<Edge> = edges
        .iter()
        .map(|(a, b, cost)| Edge {
            a: *a,
            b: *b,
            cost: *cost,
            mark: FREE,
        })
        .collect();
    Graph::from_edges(n, &edges)
}

/// "Legs, costs: 1: 1–2, 4. 2: 1–3, 3. 3: 1–4, 5. 4: 2–3, 2. 5: 2–4, 6. 6: 3–4, 1. All free."
pub fn four() -> Graph {
    let edges = [
        (1, 2, 4),
        (1, 3, 3),
        (1, 4, 5),
        (2, 3, 2),
        (2, 4, 6),
        (3, 4, 1),
    ];
    free(4, &edges)
}

fn run(law: &Law, tally: &mut Tally) -> Outcome {
    for method in METHODS {
        trees(law, method, tally)?;
        rulings(law, method, tally)?;
        searches(law, method, tally)?;
        hauled(law, method, tally)?;
    }
    let mut costs: Vec<i64> = tours::all(&four()).iter().map(|tour| tour.cost).collect();
    costs.sort();
    let input = || "the four-vertex graph".to_string();
    tally.compare("costs of its tours", input, &vec![12, 14, 16], &costs)?;
    held(law, tally)?;
    printed(law, tally)
}

fn trees(law: &Law, method: Method, tally: &mut Tally) -> Outcome {
    let mut required = four();
    required.mark[..3].fill(REQUIRED);
    let tree = |bound| {
        Some(Tree {
            bound,
            edges: vec![1, 1, 0, 1, 0, 1],
        })
    };
    let cases = [
        ("zero multipliers", four(), vec![0; 4], 1, tree(10)),
        (
            "d(3) = 1, d(4) = -1",
            four(),
            vec![0, 0, 1, -1],
            1,
            tree(12),
        ),
        ("the same in halves", four(), vec![0, 0, 1, -1], 2, tree(22)),
        (
            "in thousandths",
            four(),
            vec![0, 0, 1, -1],
            1_000,
            tree(10_002),
        ),
        ("three vertices, no edge", free(3, &[]), vec![0; 3], 1, None),
        ("three required at vertex 1", required, vec![0; 4], 1, None),
    ];
    for (case, graph, multipliers, q, expected) in cases {
        let got = least(law, method, &graph, &multipliers, q);
        let input = || format!("{method:?}, {graph:?}, {multipliers:?}, {q}");
        tally.compare(case, input, &expected, &got)?;
    }
    Ok(())
}

fn rulings(law: &Law, method: Method, tally: &mut Tally) -> Outcome {
    let ruled = |bound: i64, rulings: [u8; 6]| Ruled::Bound {
        bound,
        rulings: rulings.to_vec(),
    };
    let (zeros, halves) = (([0; 4], 1), ([0, 0, 1, -1], 2));
    let cases = [
        (zeros, 14, ruled(10, [0, 0, 0, 0, 0, 1])),
        (zeros, 12, ruled(10, [0, 0, 0, 1, 2, 1])),
        (zeros, 10, ruled(10, [1, 1, 2, 1, 2, 1])),
        (zeros, 9, Ruled::Infeasible),
        // d(3) and d(4) of half a minute: the bound is 11 minutes
        (halves, 11, ruled(22, [1, 1, 2, 1, 2, 1])),
        (halves, 10, Ruled::Infeasible),
    ];
    for ((multipliers, q), ceiling, expected) in cases {
        let got = rule(law, method, &four(), &multipliers, q, ceiling);
        let input = || format!("{method:?}, {multipliers:?}, {q}, ceiling {ceiling}");
        tally.compare("rulings", input, &expected, &got)?;
    }
    Ok(())
}

fn searches(law: &Law, method: Method, tally: &mut Tally) -> Outcome {
    let three = free(3, &[(1, 2, 1), (1, 3, 1), (2, 3, 1)]);
    let cases = [
        (four(), 12, Verdict::Cost(12), 5),
        (four(), 11, Verdict::None, 3),
        (free(3, &[]), 0, Verdict::None, 1),
        (three.clone(), 3, Verdict::Cost(3), 1),
        (three, 2, Verdict::None, 1),
    ];
    for (graph, ceiling, verdict, count) in cases {
        let mut machine = Machine::new(law, method);
        machine.call(&Call::plain(&graph, ceiling, 1, 0));
        machine.call(&Call::Run { budget: u64::MAX });
        let got = machine.call(&Call::Tell);
        let input = || format!("{method:?}, {graph:?}, ceiling {ceiling}");
        tally.compare("search", input, &Answer::Told { verdict, count }, &got)?;
    }
    Ok(())
}

/// Document 02's C-20 on the same sea, buoy 4 ashore: legs 1 2 4, bound 9, also with leg 3 required or d(4) = 7; at ceiling 9 these are forced,
/// below it the sea is dead. One node.
fn hauled(law: &Law, method: Method, tally: &mut Tally) -> Outcome {
    let ashore = [0, 0, 0, 1];
    for (mark, due, q) in [
        (FREE, 0, 1),
        (REQUIRED, 0, 1),
        (FREE, 7, 1),
        (REQUIRED, -9, 2),
    ] {
        let (graph, dues) = (four().with_mark(2, mark), [0, 0, 0, due]);
        let given = Given::afloat(&graph, &dues, q).hauled(&ashore);
        let input = || format!("{method:?}, {given:?}");
        let bound = 9 * q as i64;
        let wanted = Tree {
            bound,
            edges: vec![1, 1, 0, 1, 0, 0],
        };
        let got = tree::call(law, method, &given, 6);
        tally.compare("tree ashore", input, &Ok(Some(wanted)), &got)?;
        let ruled = Ruled::Bound {
            bound,
            rulings: vec![1, 1, 4, 1, 4, 4],
        };
        for (ceiling, wanted) in [(9, ruled), (8, Ruled::Infeasible)] {
            let got = rulings::call(law, method, &given, ceiling, 6);
            tally.compare("rulings ashore", input, &Ok(wanted), &got)?;
            hunted(law, method, tally, &given, ceiling)?;
        }
    }
    Ok(())
}

/// A hunt of it: the round of these legs, or none.
fn hunted(law: &Law, method: Method, tally: &mut Tally, given: &Given, ceiling: i64) -> Outcome {
    let mut open = Call::plain(given.graph, ceiling, given.q, 0).hauled(given.ashore);
    if let Call::Open { multipliers, .. } = &mut open {
        *multipliers = given.multipliers.to_vec();
    }
    let mut machine = Machine::new(law, method);
    machine.call(&open);
    machine.call(&Call::Run { budget: 2 });
    let verdict = match ceiling {
        9 => Verdict::Cost(9),
        _ => Verdict::None,
    };
    let input = || format!("{method:?}, {open:?}");
    let told = Answer::Told { verdict, count: 1 };
    tally.compare("search ashore", input, &told, &machine.call(&Call::Tell))
}

/// "Due 999,999, step 10, three legs: 1,000,000."
fn held(law: &Law, tally: &mut Tally) -> Outcome {
    let graph = four();
    let mut multipliers = [0, 0, 999_999, 0];
    adjust(law, &graph, &[1, 1, 0, 1, 0, 1], 10, &mut multipliers);
    let input = || "multiplier 999,999, step 10, three edges".to_string();
    let expected = [0, 0, 1_000_000, -10];
    tally.compare("multiplier held", input, &expected, &multipliers)
}

/// An input of the programs, and what 'rulings' and 'hunt' print for it.
pub struct Printed {
    pub input: Vec<u8>,
    pub rulings: String,
    pub hunt: String,
}

/// "Program input has an i64 little-endian ceiling from now on".
fn program_input(ceiling: i64, chart: &[u8]) -> Vec<u8> {
    [&ceiling.to_le_bytes(), chart].concat()
}

/// Document 01's sea and three legs at the ends of the ranges, "on that input" of document 02's C-14.
pub fn program_cases() -> Vec<Printed> {
    let sea = chart(&four());
    let case = |input: Vec<u8>, rulings: &str, hunt: &str| Printed {
        input,
        rulings: rulings.to_string(),
        hunt: hunt.to_string(),
    };
    let refused = |input: Vec<u8>, text: &str| case(input, text, text);
    let text = "bound 10 ceiling 12\n1 1-2 keep\n2 1-3 keep\n3 1-4 keep\n\
                4 2-3 force\n5 2-4 bar\n6 3-4 force\n";
    let tighter = "bound 10 ceiling 11\n1 1-2 keep\n2 1-3 force\n3 1-4 keep\n\
                   4 2-3 force\n5 2-4 bar\n6 3-4 force\n";
    let mut damaged = program_input(5_000_000_001, &sea);
    damaged[8 + 8 + 2 * 12 + 2] = 3;
    let mut cases = vec![
        case(program_input(12, &sea), text, "cost 12\nnodes 5\n"),
        case(program_input(11, &sea), tighter, "none\nnodes 3\n"),
        case(program_input(9, &sea), "dead\n", "none\nnodes 1\n"),
        case(
            program_input(12 - (1 << 32), &sea),
            "dead\n",
            "none\nnodes 1\n",
        ),
        refused(damaged, "refused 8 at 3\n"),
        // The former input: the ceiling takes 4 bytes of the chart, whose record count is then 513.
        refused(
            [&12i32.to_le_bytes(), &sea[..]].concat(),
            "refused 4 at 0\n",
        ),
    ];
    for ceiling in [5_000_000_001, -5_000_000_001, i64::MIN, i64::MAX] {
        cases.push(refused(program_input(ceiling, &sea), "refused 13 at 0\n"));
    }
    for length in [0, 3, 4, 7, 8, 15] {
        cases.push(refused(vec![0; length], "refused 1 at 0\n"));
    }
    for cost in [0, 100_000_000, -100_000_000] {
        let three = chart(&free(3, &[(1, 2, cost), (1, 3, cost), (2, 3, cost)]));
        let total = 3 * cost as i64;
        let rulings =
            format!("bound {total} ceiling 5000000000\n1 1-2 force\n2 1-3 force\n3 2-3 force\n");
        let hunt = format!("cost {total}\nnodes 1\n");
        cases.push(case(program_input(5_000_000_000, &three), &rulings, &hunt));
        cases.push(case(
            program_input(-5_000_000_000, &three),
            "dead\n",
            "none\nnodes 1\n",
        ));
    }
    let mut dear = chart(&free(3, &[(1, 2, 100_000_000)]));
    dear[8 + 4] += 1;
    cases.push(refused(program_input(i64::MIN, &dear), "refused 9 at 1\n"));
    cases
}

fn chart(graph: &Graph) -> Vec<u8> {
    write(&Law::AS_WRITTEN, graph, 8 + 12 * graph.m).expect("a fit graph")
}

fn printed(law: &Law, tally: &mut Tally) -> Outcome {
    for case in program_cases() {
        let shown = || crate::report::hex(&case.input);
        let got = programs::rulings(law, &case.input);
        tally.compare("program rulings", shown, &case.rulings, &got)?;
        let got = programs::search(law, &case.input);
        tally.compare("program hunt", shown, &case.hunt, &got)?;
    }
    Ok(())
}
