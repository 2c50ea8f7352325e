//! Dispatchers with any damage under each call, and lists of calls on one.

use super::{Kind, Numbered, Watch};
use crate::bends;
use crate::ffi::Reply;
use crate::random::Random;
use crate::record::Dispatched;
use crate::report::Outcome;
use crate::suites::dispatcher::{call, expected, hostile};

pub const DISPATCHERS: Kind = Kind {
    name: "dispatchers",
    run,
    share: 1,
    spawns: false,
    bends: &[
        bends::SCAN_FROM_THE_LAST,
        bends::LAST_NOT_STORED,
        bends::HIGHEST_FREE,
        bends::FINISHED_GIVE_WAY,
        bends::SEVEN_PLACES_CHECKED,
        bends::LIFTED_UNASKED,
        bends::ADDED_WITHOUT_LIST,
    ],
};

impl Numbered for (Reply, Dispatched) {
    fn number(&self) -> Option<u32> {
        self.0.number()
    }
}

/// A list of calls on a dispatcher that may be damaged: after each call its answer and every byte.
fn run(random: &mut Random, watch: &mut Watch) -> Outcome {
    let mut d = match random.one_in(2) {
        true => hostile(random),
        false => Dispatched::made_fresh(),
    };
    let first = d.clone();
    let list: Vec<_> = (0..6 + random.below(16))
        .map(|_| call(random, true))
        .collect();
    for (i, call) in list.iter().enumerate() {
        let wanted = expected(watch.law, &d, call);
        let input = || format!("the first {} of {list:?} on {first:?}", i + 1);
        watch.compare("a dispatcher's call", input, wanted, || {
            (d.call(call), d.clone())
        })?;
    }
    Ok(())
}
