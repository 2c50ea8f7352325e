//! The programs, each in a process of its own with no more stack than README states.

use super::{Kind, Numbered, Watch};
use crate::bends;
use crate::chart_cases::hostile;
use crate::document::law::Law;
use crate::document::{chart, programs};
use crate::generate;
use crate::random::Random;
use crate::report::{hex, Outcome};
use crate::stack::STATED_OF_PROGRAMS;
use crate::suites::programs::{input, output, path, CEILING, LONGEST};
use std::os::unix::process::ExitStatusExt;
use std::process::Command;

pub const RULINGS: Kind = Kind {
    name: "program rulings",
    run: rulings,
    share: 1,
    spawns: true,
    bends: &[
        bends::HIGHER_CEILING,
        bends::FORMER_CEILING_BYTES,
        bends::HIGH_BYTES_LOST,
        bends::CEILING_NOT_WITHIN,
    ],
};

pub const HUNT: Kind = Kind {
    name: "program hunt",
    run: hunt,
    share: 1,
    spawns: true,
    bends: &[
        bends::HIGHER_CEILING,
        bends::FORMER_CEILING_BYTES,
        bends::EXCLUDED_ON_TOP,
        bends::LIFTED_UNASKED,
    ],
};

/// What a process printed, and how it ended.
#[derive(Clone, PartialEq, Eq, Debug)]
pub struct Ended {
    pub printed: String,
    pub complained: String,
    pub status: Option<i32>,
    pub signal: Option<i32>,
}

impl Numbered for Ended {
    fn number(&self) -> Option<u32> {
        None
    }
}

impl Ended {
    /// As a program ends that does its work.
    pub fn well(printed: String) -> Ended {
        Ended {
            printed,
            complained: String::new(),
            status: Some(0),
            signal: None,
        }
    }
}

/// A program with at most so many KiB of stack.
pub fn limited(name: &str, kib: usize) -> Command {
    let mut command = Command::new("/bin/sh");
    // The environment would stand on the stack too.
    command
        .env_clear()
        .arg("-c")
        .arg("ulimit -s \"$1\" && exec \"$0\"");
    command.arg(path(name)).arg(kib.to_string());
    command
}

pub fn ended(command: &mut Command, bytes: &[u8]) -> Ended {
    let text = |bytes: &[u8]| String::from_utf8_lossy(bytes).into_owned();
    match output(command, bytes) {
        Ok(output) => Ended {
            printed: text(&output.stdout),
            complained: text(&output.stderr),
            status: output.status.code(),
            signal: output.status.signal(),
        },
        Err(error) => Ended {
            printed: String::new(),
            complained: error.to_string(),
            status: None,
            signal: None,
        },
    }
}

/// A ceiling and a file, both with anything in them; cut short or far too long now and then.
fn hostile_input(random: &mut Random) -> Vec<u8> {
    let mut bytes = if random.one_in(2) {
        let graph = generate::small_graph(random, 7, 16);
        input(random, &graph)
    } else {
        let ceiling = random.word() as i64 >> random.below(64);
        [&ceiling.to_le_bytes(), &hostile(random)[..]].concat()
    };
    match random.below(16) {
        0 => bytes.truncate(random.below(18)),
        1 => bytes.resize(random.pick(&[LONGEST, LONGEST + 1, LONGEST + 2, 70_000]), 0),
        2 => bytes.fill(0xff),
        _ => {}
    }
    bytes
}

fn rulings(random: &mut Random, watch: &mut Watch) -> Outcome {
    let bytes = hostile_input(random);
    compare(watch, "rulings", programs::rulings, &bytes)
}

/// An input that asks for no long search: the reference is slow, so a file of many edges loses its last byte.
pub fn hunt_input(random: &mut Random) -> Vec<u8> {
    let mut bytes = hostile_input(random);
    let file = bytes.get(CEILING..).unwrap_or(&[]);
    if chart::read(&Law::AS_WRITTEN, file).is_ok_and(|graph| graph.m > 16) {
        bytes.pop();
    }
    bytes
}

fn hunt(random: &mut Random, watch: &mut Watch) -> Outcome {
    let bytes = hunt_input(random);
    compare(watch, "hunt", programs::search, &bytes)
}

fn compare(
    watch: &mut Watch,
    name: &str,
    expected: fn(&Law, &[u8]) -> String,
    bytes: &[u8],
) -> Outcome {
    let wanted = Ended::well(expected(watch.law, bytes));
    watch.compare(
        name,
        || hex(bytes),
        wanted,
        || ended(&mut limited(name, STATED_OF_PROGRAMS / 1024), bytes),
    )
}
