//! The programs 'rulings' and 'hunt' in target/bin (PLANNER_BIN_DIR names another folder): what they
//! print for an input.

use super::facts::{program_cases, Printed};
use super::own_rulings::turning_ceiling;
use crate::bends;
use crate::document::graph::Graph;
use crate::document::law::Law;
use crate::document::programs;
use crate::files::{any_form, damage};
use crate::generate;
use crate::random::Random;
use crate::report::{hex, Outcome, Suite, Tally};
use std::env;
use std::io::{self, Write};
use std::path::PathBuf;
use std::process::{Command, Output, Stdio};

/// Program 'rulings'.
pub const RULINGS: Suite = Suite {
    name: "program rulings",
    run: run_rulings,
    bends: &[
        bends::HIGHER_CEILING,
        bends::FORMER_CEILING,
        bends::FORMER_CEILING_BYTES,
        bends::HIGH_BYTES_LOST,
        bends::CEILING_NOT_WITHIN,
        bends::LOWER_COST,
        bends::FORMER_COST,
        bends::CHEAP_NO_REPLACEMENT,
    ],
};

/// Program 'hunt'.
#[cfg(feature = "hunt")]
pub const HUNT: Suite = Suite {
    name: "program hunt",
    run: run_hunt,
    bends: &[
        bends::HIGHER_CEILING,
        bends::FORMER_CEILING,
        bends::FORMER_CEILING_BYTES,
        bends::HIGH_BYTES_LOST,
        bends::FORMER_COST,
        bends::EXCLUDED_ON_TOP,
        bends::LIFTED_UNASKED,
    ],
};

/// Where a program is.
pub fn path(name: &str) -> PathBuf {
    let folder = match env::var_os("PLANNER_BIN_DIR") {
        Some(folder) => PathBuf::from(folder),
        None => PathBuf::from(env!("CARGO_MANIFEST_DIR")).join("../target/bin"),
    };
    folder.join(name)
}

/// What a child prints and how it ends when it is given these bytes.
pub fn output(command: &mut Command, input: &[u8]) -> io::Result<Output> {
    let piped = command.stdin(Stdio::piped()).stdout(Stdio::piped());
    let mut child = piped.stderr(Stdio::piped()).spawn()?;
    if let Some(mut pipe) = child.stdin.take() {
        // A program may answer before it has read everything.
        let _ = pipe.write_all(input);
    }
    child.wait_with_output()
}

/// What a program prints when it is given these bytes; and how it ended, where it did not end well.
fn printed(name: &str, input: &[u8]) -> io::Result<String> {
    let output = output(&mut Command::new(path(name)), input)?;
    let mut text = String::from_utf8_lossy(&output.stdout).into_owned();
    if !output.status.success() || !output.stderr.is_empty() {
        let complaint = String::from_utf8_lossy(&output.stderr);
        text.push_str(&format!("-- {}: {complaint}", output.status));
    }
    Ok(text)
}

/// Bytes of a ceiling.
pub const CEILING: usize = Law::AS_WRITTEN.ceiling_bytes;

/// The longest input that is a ceiling and a chart: a header of 8 bytes and 1,000 records of 12.
pub const LONGEST: usize = CEILING + 8 + 12 * Law::AS_WRITTEN.max_records;

/// A ceiling and a chart; now and then damaged, cut short, with a ceiling out of range or, as document 01
/// had it, of 4 bytes.
pub fn input(random: &mut Random, graph: &Graph) -> Vec<u8> {
    let zeros = vec![0; graph.n];
    let ceiling = match random.below(12) {
        0 => generate::wrong_ceiling(random),
        _ => turning_ceiling(random, graph, &zeros, 1),
    };
    let mut chart = any_form(random, graph).bytes();
    if random.one_in(5) {
        damage(random, &mut chart);
    }
    let ceiling = ceiling.to_le_bytes();
    let former = random.one_in(20);
    let mut bytes = [&ceiling[..if former { 4 } else { CEILING }], &chart].concat();
    if random.one_in(12) {
        let most = if random.one_in(2) { 18 } else { bytes.len() };
        let length = random.below(most);
        bytes.truncate(length);
    }
    bytes
}

/// Compares what a program prints with what the reference says, on so many inputs.
fn compare(
    law: &Law,
    tally: &mut Tally,
    name: &'static str,
    expected: fn(&Law, &[u8]) -> String,
    rounds: usize,
    largest: usize,
) -> Outcome {
    let random = &mut Random::new(0x7072_6f67_7261_6d73);
    for Printed { input, .. } in program_cases() {
        let got = printed(name, &input).unwrap_or_else(|error| error.to_string());
        tally.compare(name, || hex(&input), &expected(law, &input), &got)?;
    }
    for round in 0..rounds {
        let graph = match round % 3 {
            0 if largest > 16 => generate::graph(random),
            _ => generate::small_graph(random, 7, 16),
        };
        let bytes = input(random, &graph);
        let got = printed(name, &bytes).unwrap_or_else(|error| error.to_string());
        tally.compare(name, || hex(&bytes), &expected(law, &bytes), &got)?;
    }
    long_inputs(law, tally, name, expected, random)
}

/// Inputs longer than any chart: a valid one with bytes behind it, up to and past what a program reads.
fn long_inputs(
    law: &Law,
    tally: &mut Tally,
    name: &'static str,
    expected: fn(&Law, &[u8]) -> String,
    random: &mut Random,
) -> Outcome {
    for more in [-1, 0, 1, 2, 12, 1_000, 58_000] {
        let length = LONGEST.saturating_add_signed(more);
        let graph = generate::small_graph(random, 7, 16);
        let mut bytes = input(random, &graph);
        bytes.resize(length, 0);
        let got = printed(name, &bytes).unwrap_or_else(|error| error.to_string());
        tally.compare(name, || hex(&bytes), &expected(law, &bytes), &got)?;
    }
    Ok(())
}

fn run_rulings(law: &Law, tally: &mut Tally) -> Outcome {
    compare(law, tally, "rulings", programs::rulings, 6000, 190)
}

#[cfg(feature = "hunt")]
fn run_hunt(law: &Law, tally: &mut Tally) -> Outcome {
    compare(law, tally, "hunt", programs::search, 6000, 16)
}
