//! What the two programs print for an input.

use super::chart::read;
use super::graph::Graph;
use super::law::Law;
use super::machine::{Answer, Call, Machine, Verdict};
use super::rulings::{self, Ruled};
use super::tree::{Given, Method};
use super::{refuse, Refusal};

/// "a ceiling [..] and then a chart", and of document 02's C-14 "an i64 little-endian ceiling from now
/// on, and an input under 8 bytes is refused 1 at 0". "The chart's faults, 1 to 10, come before 13."
fn split(law: &Law, input: &[u8]) -> Result<(i64, Graph), Refusal> {
    let Some((ceiling, chart)) = input.split_at_checked(law.ceiling_bytes) else {
        return refuse(1, 0);
    };
    let graph = read(law, chart)?;
    Ok((number(&ceiling[..law.ceiling_bytes_read]), graph))
}

/// Little-endian, "in two's complement".
fn number(bytes: &[u8]) -> i64 {
    let unsigned = bytes
        .iter()
        .rev()
        .fold(0, |sum, byte| sum << 8 | *byte as u64);
    let above = 64 - 8 * bytes.len();
    ((unsigned << above) as i64) >> above
}

fn refused(refusal: Refusal) -> String {
    format!("refused {} at {}\n", refusal.number, refusal.place)
}

/// Program 'rulings'. C-17: "q = 1, which the programs use"; C-20: "the programs have none ashore".
pub fn rulings(law: &Law, input: &[u8]) -> String {
    let (ceiling, graph) = match split(law, input) {
        Ok(parts) => parts,
        Err(refusal) => return refused(refusal),
    };
    let zeros = vec![0; graph.n];
    let given = Given::afloat(&graph, &zeros, 1);
    match rulings::call(law, Method::Kruskal, &given, ceiling, graph.m) {
        Err(refusal) => refused(refusal),
        Ok(Ruled::Infeasible) => "dead\n".to_string(),
        Ok(Ruled::Bound { bound, rulings }) => {
            let words = ["keep", "force", "bar", "required", "struck"];
            let mut text = format!("bound {bound} ceiling {ceiling}\n");
            for (k, edge) in graph.edges().iter().enumerate() {
                let word = words[rulings[k] as usize];
                text += &format!("{} {}-{} {word}\n", k + 1, edge.a, edge.b);
            }
            text
        }
    }
}

/// Program 'hunt': "one run with zero dues, no sweeps, step 0 and allowance 1,000,000". C-13: "the programs open without it".
pub fn search(law: &Law, input: &[u8]) -> String {
    let (ceiling, graph) = match split(law, input) {
        Ok(parts) => parts,
        Err(refusal) => return refused(refusal),
    };
    let mut machine = Machine::new(law, Method::Kruskal);
    let open = Call::plain(&graph, ceiling, 1, 0);
    if let Answer::Refused(refusal) = machine.call(&open) {
        return refused(refusal);
    }
    machine.call(&Call::Run { budget: 1_000_000 });
    let Answer::Told { verdict, count } = machine.call(&Call::Tell) else {
        unreachable!("a search is open");
    };
    let first = match verdict {
        Verdict::GoingOn => "going on".to_string(),
        Verdict::None => "none".to_string(),
        Verdict::Cost(cost) => format!("cost {cost}"),
    };
    format!("{first}\nnodes {count}\n")
}
