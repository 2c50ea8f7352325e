//! Lists of calls with the answers of the builds before document 02's C-19 and C-20, against the present one: each answer, and each byte of the lists
//! lent.

use crate::bends;
use crate::document::law::Law;
use crate::ffi::Reply;
use crate::report::{Outcome, Suite, Tally};
use crate::stored::{answered, Answered, Desk};

pub const SUITE: Suite = Suite {
    name: "stored answers",
    run,
    bends: &[
        bends::STORED_COUNT,
        bends::STORED_VALUE,
        bends::STORED_REFUSAL,
        bends::STORED_BYTE,
    ],
};

/// Written by `store` with the library before C-19, and with that before C-20, lifted hunts among them. Each file has at least so many calls.
const FORMER: [(&str, u64); 2] = [
    (include_str!("../../stored/before-C-19.txt"), 3_000),
    (include_str!("../../stored/before-C-20.txt"), 3_000),
];

/// What a file has, as the law bends it: under each of its bends only what it is about.
fn bent(law: &Law, mut reply: Reply) -> Reply {
    let said = &mut reply.said;
    if said.nodes > 0 {
        said.nodes += law.stored_nodes;
    }
    if said.value != 0 {
        said.value += law.stored_value;
    }
    if said.number == 34 {
        said.number += law.stored_number;
    }
    if let Some(last) = reply.out.as_mut().and_then(|out| out.0.last_mut()) {
        *last ^= law.stored_byte;
    }
    reply
}

fn run(law: &Law, tally: &mut Tally) -> Outcome {
    FORMER
        .iter()
        .try_for_each(|(file, least)| one(law, tally, file, *least))
}

/// The lists of a file.
fn one(law: &Law, tally: &mut Tally, file: &str, least: u64) -> Outcome {
    let mut desk = Desk::fresh();
    let (mut from, mut calls) = (0, 0);
    let lines: Vec<&str> = file.lines().collect();
    for (i, line) in lines.iter().enumerate() {
        if *line == "fresh" {
            from = i;
        }
        let Some(Answered { call, reply }) = answered(line) else {
            desk.make(line);
            continue;
        };
        let got = desk.make(call).expect("a call is answered");
        let input = || {
            format!(
                "lines {} to {}: {}",
                from + 1,
                i + 1,
                lines[from..=i].join("; ")
            )
        };
        tally.compare("as before", input, &bent(law, reply), &got)?;
        calls += 1;
    }
    let input = || format!("{calls} calls");
    tally.compare("enough", input, &true, &(calls >= least))
}
