//! Document 02's C-15, of the library's own bytes: over falling ceilings every ruling stays, with the
//! same bound, until the sea is dead, and a dead sea stays dead.

use super::own_rulings::turning_ceiling;
use super::rule::arguments;
use crate::bends;
use crate::document::law::Law;
use crate::ffi::trees::rule;
use crate::ffi::Reply;
use crate::random::Random;
use crate::report::{Hex, Outcome, Suite, Tally};
use planner::raw::NONE;

pub const SUITE: Suite = Suite {
    name: "falling ceilings",
    run,
    bends: &[bends::RULED_STAYS_ABOVE, bends::DEAD_TOO],
};

const KEEP: u8 = 0;
const FORCE: u8 = 1;
const BAR: u8 = 2;
const CEILINGS: usize = 6;

/// The bytes that document 02 asks for of the other call: a leg "barred or forced" in `rulings`
/// stays so; of the others nothing is said, so they are as they come in `other`.
fn asked(rulings: &[u8], other: &[u8]) -> Vec<u8> {
    let pairs = rulings.iter().zip(other);
    pairs
        .map(|(&ruling, &byte)| match ruling {
            FORCE | BAR => ruling,
            _ => byte,
        })
        .collect()
}

/// The list after a call; a list that is left alone counts as one of keeps.
fn bytes(reply: &Reply, m: usize) -> Vec<u8> {
    match &reply.out {
        Some(Hex(bytes)) => bytes.clone(),
        None => vec![KEEP; m],
    }
}

fn run(law: &Law, tally: &mut Tally) -> Outcome {
    let random = &mut Random::new(0x6365_696c_696e_6773);
    for round in 0..6_000 {
        let arguments = arguments(random, round % 2 == 0, false);
        let given = arguments.given();
        let (sea, dues) = given.sea(law);
        let m = sea.m;
        let mut ceilings = Vec::with_capacity(CEILINGS);
        for _ in 0..CEILINGS {
            ceilings.push(turning_ceiling(random, &sea, &dues, given.q));
        }
        ceilings.sort_unstable_by(|x, y| y.cmp(x));
        let replies: Vec<Reply> = ceilings
            .iter()
            .map(|ceiling| rule(&given, *ceiling, m))
            .collect();
        for (at, pair) in replies.windows(2).enumerate() {
            let input = || {
                let (high, low) = (ceilings[at], ceilings[at + 1]);
                format!("{given:?}, ceilings {high} and {low}")
            };
            let (high, low) = (&pair[0], &pair[1]);
            if high.said.number == NONE {
                tally.compare("dead stays dead", input, &NONE, &low.said.number)?;
            }
            let (above, below) = (bytes(high, m), bytes(low, m));
            if low.said.number != NONE || !law.unless_dead {
                let (kept, wanted) = if law.ruled_stays_below {
                    (&below, asked(&above, &below))
                } else {
                    (&above, asked(&below, &above))
                };
                tally.compare("ruled the same", input, &Hex(wanted), &Hex(kept.clone()))?;
            }
            if low.said.number != NONE {
                tally.compare("the same bound", input, &high.said.value, &low.said.value)?;
            }
        }
    }
    Ok(())
}
