//! Whole lists of calls through the library, refused ones among them, against the reference machine: each answer, and after each call
//! every byte of the record.

use crate::bends;
use crate::document::graph::FREE;
use crate::document::law::Law;
use crate::document::machine::{Answer, Call, Machine, Verdict};
use crate::document::tree::Method;
use crate::ffi::{only, refused, Reply};
use crate::generate;
use crate::random::Random;
use crate::record::Record;
use crate::report::{Hex, Mismatch, Outcome, Suite, Tally};
use planner::raw::{Reply as Numbers, ACCEPTED, BEST, FINISHED, GOING_ON, NO_TOUR};

pub const SUITE: Suite = Suite {
    name: "records",
    run,
    bends: &bends::joined::<51>(&[
        &bends::OF_CALLS,
        &[
            bends::CLOSED_AT_UPPER,
            bends::EQUALS_ALWAYS_REPLACE,
            bends::LAST_OF_EQUALS,
            bends::UPPER_NOT_SCALED,
            bends::CEILING_NOT_SCALED,
            bends::PARTS_NOT_COMPARED,
            bends::MULTIPLIERS_TIMES,
            bends::RANGE_IN_MINUTES,
            bends::HIGHER_DENOMINATOR,
            bends::DENOMINATOR_BEFORE_MULTIPLIERS,
            bends::DENOMINATOR_BEFORE_CEILING,
            bends::ONE_ROW_COUNTED,
            bends::ASHORE_BEFORE_CEILING,
            bends::ASHORE_BEFORE_STEP,
            bends::DUES_ASHORE_NOT_JUDGED,
        ],
    ]),
};

/// What the library says where the machine answers so.
pub fn reply(answer: &Answer) -> Reply {
    let counted = |number: u32, value: i64, nodes: u64| Numbers {
        value,
        nodes,
        ..only(number)
    };
    let said = match *answer {
        Answer::Refused(refusal) => refused(refusal),
        Answer::Accepted | Answer::Shown(_) => only(ACCEPTED),
        Answer::Ran { finished, count } => {
            counted(if finished { FINISHED } else { GOING_ON }, 0, count)
        }
        Answer::Told { verdict, count } => match verdict {
            Verdict::GoingOn => counted(GOING_ON, 0, count),
            Verdict::None => counted(NO_TOUR, 0, count),
            Verdict::Cost(cost) => counted(BEST, cost, count),
        },
    };
    let out = match answer {
        Answer::Shown(edges) if !edges.is_empty() => Some(Hex(edges.clone())),
        _ => None,
    };
    Reply {
        said,
        out,
        margins_kept: true,
    }
}

/// Budgets 0, 1 and the greatest come up too; a list is no longer than memory has room for.
pub fn vary(random: &mut Random, list: &mut [Call]) {
    for call in list {
        match call {
            Call::Run { budget } if random.one_in(4) => {
                *budget = random.pick(&[0, 1, 2, u64::MAX]);
            }
            Call::Show { length } => *length = (*length).min(3_000),
            _ => {}
        }
    }
}

fn run(law: &Law, tally: &mut Tally) -> Outcome {
    let random = &mut Random::new(0x0072_6563_6f72_6473);
    for round in 0..4_000 {
        let (vertices, most) = if round % 4 == 0 { (7, 14) } else { (5, 10) };
        let mut list = generate::calls(random, vertices, most);
        vary(random, &mut list);
        whole(law, tally, &list)?;
    }
    for _ in 0..600 {
        whole(law, tally, &large(random))?;
    }
    Ok(())
}

/// A list on graphs of up to 190 edges, so that all words of a row are used; the reference is slow there and gets small budgets.
fn large(random: &mut Random) -> Vec<Call> {
    let mut list = generate::calls_of(random, 16, 20, 190);
    for call in &mut list {
        if let Call::Run { budget } = call {
            *budget = (*budget).min(2);
        }
    }
    list
}

/// A record and the machine, both fresh: the library's side and the reference's.
pub struct Pair {
    pub record: Record,
    pub machine: Machine,
}

impl Pair {
    pub fn fresh(law: &Law) -> Pair {
        Pair {
            record: Record::made_fresh(),
            machine: Machine::new(law, Method::Kruskal),
        }
    }

    /// A call on both: the answer, every byte of the record, and that it passes its check.
    fn call(
        &mut self,
        law: &Law,
        tally: &mut Tally,
        call: &Call,
        input: impl Fn() -> String,
    ) -> Outcome {
        let (wanted, got) = (reply(&self.machine.call(call)), self.record.call(call));
        tally.compare("answer", &input, &wanted, &got)?;
        let left = Record::of_state(law, &self.machine.search);
        tally.compare("record", &input, &left, &self.record)?;
        let passes = self.record.passes(law);
        tally.compare("passes its check", &input, &true, &passes)
    }
}

/// Calls on a fresh record and on the machine, and what the record has after them.
pub fn on_record(law: &Law, tally: &mut Tally, list: &[Call]) -> Result<Record, Mismatch> {
    let mut pair = Pair::fresh(law);
    for (i, call) in list.iter().enumerate() {
        let input = || format!("the first {} of {list:?}", i + 1);
        pair.call(law, tally, call, input)?;
    }
    Ok(pair.record)
}

/// The same, and each waiting node's free legs after each call.
fn whole(law: &Law, tally: &mut Tally, list: &[Call]) -> Outcome {
    let mut pair = Pair::fresh(law);
    let fresh = || "a fresh record".to_string();
    tally.compare("fresh", fresh, &Record::fresh(), &pair.record)?;
    for (i, call) in list.iter().enumerate() {
        let input = || format!("the first {} of {list:?}", i + 1);
        pair.call(law, tally, call, input)?;
        let counted = free_by_rows(law, &pair.record);
        let marked = free_by_marks(&pair.machine);
        tally.compare("free legs", input, &marked, &counted)?;
    }
    Ok(())
}

/// The free legs of each waiting node, by its marks.
fn free_by_marks(machine: &Machine) -> Vec<usize> {
    let nodes = machine.search.iter().flat_map(|search| &search.stack);
    let free = |marks: &[u8]| marks.iter().filter(|mark| **mark == FREE).count();
    nodes.map(|node| free(&node.marks)).collect()
}

/// The same by the record's rows.
fn free_by_rows(law: &Law, record: &Record) -> Vec<usize> {
    (0..record.waiting()).map(|p| record.free(law, p)).collect()
}
