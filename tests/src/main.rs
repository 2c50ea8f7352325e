//! Runs every suite, or those named; `--self-test` runs each with its reference bent and expects a
//! mismatch.

use planner_tests::document::law::Law;
use planner_tests::parallel::in_order;
use planner_tests::report::{Bend, Outcome, Suite, Tally};
use planner_tests::suites;
use std::env;
use std::process::ExitCode;

fn main() -> ExitCode {
    let (flags, names): (Vec<String>, Vec<String>) =
        env::args().skip(1).partition(|word| word.starts_with("--"));
    let known = suites::all();
    let unknown = names
        .iter()
        .find(|name| known.iter().all(|suite| suite.name != *name));
    if let Some(word) = flags.iter().find(|flag| *flag != "--self-test").or(unknown) {
        let list: Vec<&str> = known.iter().map(|suite| suite.name).collect();
        eprintln!("{word}: neither --self-test nor a suite; the suites are {list:?}");
        return ExitCode::from(2);
    }
    let chosen: Vec<Suite> = known
        .into_iter()
        .filter(|suite| names.is_empty() || names.iter().any(|name| suite.name == name))
        .collect();
    if flags.is_empty() {
        run(&chosen)
    } else {
        self_test(&chosen)
    }
}

/// What a suite counted under a law, and how it ended.
fn outcome(suite: &Suite, law: &Law) -> (u64, Outcome) {
    let mut tally = Tally::default();
    let outcome = (suite.run)(law, &mut tally);
    (tally.passed, outcome)
}

/// All suites, as many at a time as there are processors; tells of no suite behind the first mismatch.
fn run(suites: &[Suite]) -> ExitCode {
    let (mut total, mut failed) = (0, 0);
    let run = |suite: &Suite| outcome(suite, &Law::AS_WRITTEN);
    in_order(suites, run, |suite, (passed, outcome)| {
        total += passed;
        match outcome {
            Ok(()) => println!("{}: {passed} passed", suite.name),
            Err(mismatch) => {
                failed = 1;
                println!("{}: mismatch after {passed} passed", suite.name);
                println!("{mismatch}");
            }
        }
        failed == 0
    });
    println!("{total} passed, {failed} failed");
    ended(failed)
}

/// Every bend must be noticed; says what was caught.
fn self_test(suites: &[Suite]) -> ExitCode {
    let (mut caught, mut missed) = (0, 0);
    let bends = suites
        .iter()
        .flat_map(|suite| suite.bends.iter().map(move |bend| (suite, bend)));
    let bent: Vec<(&Suite, &Bend)> = bends.collect();
    let run = |(suite, bend): &(&Suite, &Bend)| {
        let mut law = Law::AS_WRITTEN;
        (bend.bend)(&mut law);
        outcome(suite, &law)
    };
    in_order(&bent, run, |(suite, bend), (passed, outcome)| {
        match outcome {
            Ok(()) => {
                missed += 1;
                println!("MISSED  {}: {}", suite.name, bend.what);
            }
            Err(mismatch) => {
                caught += 1;
                let at = passed + 1;
                println!("caught  {}: {} (comparison {at})", suite.name, bend.what);
                println!("        case: {}", mismatch.case);
                println!("        expected: {}", short(&mismatch.expected));
                println!("        answer:   {}", short(&mismatch.answer));
            }
        }
        true
    });
    println!("{caught} caught, {missed} missed");
    ended(missed)
}

fn ended(failed: u64) -> ExitCode {
    match failed {
        0 => ExitCode::SUCCESS,
        _ => ExitCode::FAILURE,
    }
}

fn short(text: &str) -> String {
    match text.char_indices().nth(150) {
        Some((end, _)) => format!("{}...", &text[..end]),
        None => text.to_string(),
    }
}
