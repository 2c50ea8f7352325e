//! Records with any damage under each call, and long lists of calls on one record.

use super::{Kind, Numbered, Watch};
use crate::bends;
use crate::document::machine::{Call, Machine};
use crate::document::shelf::{AnyCall, Shelved};
use crate::document::tree::Method;
use crate::ffi::{only, Reply};
use crate::generate;
use crate::random::Random;
use crate::record::{Record, BEFORE_STACK, STACK};
use crate::report::Outcome;
use crate::suites::damage::{harm, sound};
use crate::suites::records::{reply, vary};
use crate::suites::shelves::{self, Both};

pub const RECORDS: Kind = Kind {
    name: "records",
    run: records,
    share: 4,
    spawns: false,
    bends: &[
        bends::HIGHER_CEILING,
        bends::MARK_THREE,
        bends::UPPER_BELOW_COST,
        bends::EXCLUDED_ON_TOP,
        bends::FLAG_OF_TWO,
        bends::FEWER_REQUIRED,
        bends::JUNK_PAST_DEPTH,
        bends::LEG_IN_BOTH_ROWS,
        bends::BITS_PAST_M,
        bends::CARRIED_NOT_JUDGED,
        bends::CARRIED_PAST_N,
        bends::HIGHER_DENOMINATOR,
        bends::LIFTED_UNASKED,
        bends::LIFTING_OF_TWO,
        bends::TWO_AFLOAT,
        bends::ASHORE_BYTE_OF_TWO,
        bends::TOUCHED_NOT_CHECKED,
        bends::CARRIED_PAST_AFLOAT,
    ],
};

pub const LISTS: Kind = Kind {
    name: "lists of calls",
    run: lists,
    share: 1,
    spawns: false,
    bends: &[
        bends::MULTIPLIERS_RESET,
        bends::LAST_PASS_GAINS,
        bends::ONE_LIST_FOR_BOTH,
        bends::MARKS_FROM_BELOW,
        bends::UPPER_NOT_LOWERED,
        bends::CLOSED_AT_UPPER,
        bends::EQUALS_NEVER_REPLACE,
        bends::EQUALS_ALWAYS_REPLACE,
        bends::LAST_OF_EQUALS,
        bends::LENGTH_BEFORE_RECORD,
        bends::MORE_SWEEPS,
        bends::UPPER_IN_PARTS,
        bends::STEP_TIMES,
        bends::FLAG_WITHOUT_EFFECT,
        bends::LAST_PASS_LIFTS,
        bends::LIFTED_AT_UPPER_RULED,
        bends::LIFTED_DUES_STAY,
        bends::LIFTING_AS_SENT,
        bends::DUE_ASHORE_COUNTS,
        bends::DUE_ASHORE_GAINS,
        bends::ROUND_OF_ALL,
        bends::LIFTED_WITHOUT_LIST,
    ],
};

pub const SHELVES: Kind = Kind {
    name: "shelves",
    run: shelves,
    share: 1,
    spawns: false,
    bends: &[
        bends::FIRST_SAVE_STAYS,
        bends::BACK_OF_NEXT_NAME,
        bends::CLOSE_EMPTIES,
        bends::NAMED_PLACE_CHECKED,
        bends::LIFTING_OF_TWO,
        bends::SAVED_WITHOUT_LIST,
    ],
};

impl Numbered for (Reply, Both) {
    fn number(&self) -> Option<u32> {
        self.0.number()
    }
}

impl Numbered for (Reply, Record) {
    fn number(&self) -> Option<u32> {
        self.0.number()
    }
}

/// A place of a record: any, one that is in use, or one beside the stack.
fn a_place(random: &mut Random, bytes: &[u8]) -> usize {
    let used: Vec<usize> = (0..bytes.len()).filter(|at| bytes[*at] != 0).collect();
    match random.below(4) {
        0 => random.below(bytes.len()),
        1 | 2 if !used.is_empty() => random.pick(&used),
        _ => match random.below(bytes.len() - 8 * STACK) {
            before if before < BEFORE_STACK => before,
            behind => behind + 8 * STACK,
        },
    }
}

/// A record, damaged in one way.
fn hostile_record(random: &mut Random) -> Record {
    let mut record = sound(random);
    let mut bytes = record.bytes();
    let (at, other) = (a_place(random, &bytes), a_place(random, &bytes));
    match random.below(12) {
        0..=2 => bytes[at] ^= 1 << random.below(8),
        3 | 4 => bytes[at..].copy_from_slice(&sound(random).bytes()[at..]),
        5 => random.fill(&mut bytes[at.min(other)..at.max(other)]),
        6 => random.fill(&mut bytes),
        7 => bytes.fill(random.pick(&[0xff, 1, 2])),
        _ => {
            for _ in 0..1 + random.below(2) {
                harm(random, &mut record);
            }
            return record;
        }
    }
    Record::of_bytes(&bytes)
}

/// What a call on a record must answer and leave. `machine` is the record's, none where the record fails its check.
fn expected(machine: &mut Option<Machine>, record: &Record, call: &Call) -> (Reply, Record) {
    match machine {
        Some(machine) => (reply(&machine.call(call)), Record::of(&machine.search)),
        None => {
            let refused = Reply {
                said: only(24),
                out: None,
                margins_kept: true,
            };
            (refused, record.clone())
        }
    }
}

/// Each call on a copy of a damaged record, and then some on the record itself.
fn records(random: &mut Random, watch: &mut Watch) -> Outcome {
    let record = hostile_record(random);
    let machine = record.machine(watch.law);
    let m = record.graph.m.min(3_000);
    let wrong = random.one_in(2);
    let each = [
        generate::opening(random, 5, 10, wrong),
        Call::Run {
            budget: random.pick(&[0, 1, 2, u64::MAX]),
        },
        Call::Tell,
        Call::Show {
            length: random.pick(&[m, m, m + 1, 0, 100_000]),
        },
        Call::Close,
    ];
    for call in &each {
        let (mut machine, mut after) = (machine.clone(), record.clone());
        let wanted = expected(&mut machine, &record, call);
        let input = || format!("{call:?} on {record:?}");
        watch.compare("one call", input, wanted, || (after.call(call), after))?;
    }
    let mut list = generate::calls(random, 5, 10);
    vary(random, &mut list);
    list_on(watch, record, machine, &list)
}

/// A list of calls on one record: after each call its answer and every byte of the record.
fn list_on(
    watch: &mut Watch,
    mut record: Record,
    mut machine: Option<Machine>,
    list: &[Call],
) -> Outcome {
    let first = record.clone();
    for (i, call) in list.iter().enumerate() {
        let wanted = expected(&mut machine, &record, call);
        let input = || format!("the first {} of {list:?} on {first:?}", i + 1);
        watch.compare("a list of calls", input, wanted, || {
            (record.call(call), record.clone())
        })?;
    }
    Ok(())
}

/// Hundreds of calls on one record. The reference is slow on many edges: such lists get small budgets.
fn lists(random: &mut Random, watch: &mut Watch) -> Outcome {
    let large = random.one_in(12);
    let (count, vertices, most) = match large {
        true => (100, 20, 190),
        false => (100 + random.below(400), 6, 12),
    };
    let mut list = generate::calls_of(random, count, vertices, most);
    vary(random, &mut list);
    let runs = list.iter_mut().filter_map(|call| match call {
        Call::Run { budget } => Some(budget),
        _ => None,
    });
    runs.filter(|_| large)
        .for_each(|budget| *budget = (*budget).min(1));
    let machine = Machine::new(watch.law, Method::Kruskal);
    list_on(watch, Record::made_fresh(), Some(machine), &list)
}

/// Saves and backs on any two records, and a list of all seven calls from fresh ones.
fn shelves(random: &mut Random, watch: &mut Watch) -> Outcome {
    let mut both = shelves::harmed(random);
    if random.one_in(4) {
        both.record = hostile_record(random);
    }
    let name = shelves::name(random);
    for call in [AnyCall::Save(name), AnyCall::Back(name)] {
        let mut after = both.clone();
        let wanted = shelves::expected(watch.law, &both, &call);
        let input = || format!("{call:?} on {both:?}");
        watch.compare("on any records", input, wanted, || {
            (after.call(&call), after)
        })?;
    }
    let mut plain = generate::calls(random, 5, 10);
    vary(random, &mut plain);
    let list = shelves::list_of(random, plain);
    let (mut state, mut both) = (Shelved::new(watch.law), Both::made_fresh());
    for (i, call) in list.iter().enumerate() {
        let answer = state.call(call);
        let wanted = (reply(&answer), Both::of(&state));
        let input = || format!("the first {} of {list:?}", i + 1);
        watch.compare("seven calls", input, wanted, || {
            (both.call(call), both.clone())
        })?;
    }
    Ok(())
}
