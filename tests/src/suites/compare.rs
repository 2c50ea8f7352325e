//! The comparison of settings (document 02, C-21): document 01's sea, and right and damaged input against the machine.

use super::facts::four;
use super::rule::{arguments, Arguments};
use crate::bends;
use crate::document::law::Law;
use crate::document::sailing::{self, Trial};
use crate::document::tree::Method;
use crate::ffi::sailings::{compare, ComparedReply};
use crate::ffi::{only, refused};
use crate::generate;
use crate::random::Random;
use crate::report::{Outcome, Suite, Tally};
use planner::raw::PAIRS;

pub const SUITE: Suite = Suite {
    name: "compare",
    run,
    bends: &bends::joined::<27>(&[
        &bends::OF_LIST,
        &[
            bends::MORE_PAIRS,
            bends::ONE_BUDGET,
            bends::MORE_SWEEPS,
            bends::UPPER_BELOW_COST,
            bends::LENGTH_BEFORE_VALUE,
            bends::HIGHER_MULTIPLIER,
            bends::CEILING_NOT_SCALED,
            bends::STEP_TIMES,
            bends::DENOMINATOR_OF_ZERO,
            bends::HIGHER_DENOMINATOR,
            bends::DENOMINATOR_BEFORE_MULTIPLIERS,
            bends::DENOMINATOR_BEFORE_CEILING,
            bends::DENOMINATOR_BEFORE_STEP,
            bends::FLAG_WITHOUT_EFFECT,
            bends::LIFTED_UNASKED,
            bends::LIFTING_ONE_BIT,
            bends::ASHORE_BEFORE_MULTIPLIERS,
            bends::ASHORE_BEFORE_CEILING,
            bends::ASHORE_BEFORE_STEP,
            bends::ASHORE_BEFORE_DENOMINATOR,
            bends::COMPARED_WITHOUT_LIST,
            bends::DUE_ASHORE_GAINS,
            bends::ROUND_OF_ALL,
        ],
    ]),
};

pub fn expected(law: &Law, trial: &Trial) -> ComparedReply {
    let (said, report) = match sailing::compare(law, Method::Kruskal, trial) {
        Ok(counts) => (only(0), Some(counts)),
        Err(refusal) => (refused(refusal), None),
    };
    ComparedReply {
        said,
        report,
        margins_kept: true,
    }
}

/// Small graphs and small budgets, so that the machine ends soon; where `wrong`, with one fault or more.
pub fn trial(random: &mut Random, wrong: bool) -> Trial {
    let Arguments {
        graph,
        multipliers,
        ashore,
        denominator,
        ceiling,
        ..
    } = arguments(random, true, false);
    let most = if random.one_in(6) { PAIRS } else { 4 };
    let pairs = 1 + random.below(most);
    let mut trial = Trial {
        graph,
        multipliers,
        ashore,
        ceiling,
        budget: random.pick(&[0, 1, 2, 3, 5, 8, 40, 300]),
        denominator,
        lifting: generate::lifting(random),
        sweeps: (0..pairs).map(|_| random.pick(&[0, 0, 1, 2, 15])).collect(),
        steps: (0..pairs)
            .map(|_| random.pick(&[0, 1, 3, 100, 10_000]))
            .collect(),
        length: pairs,
    };
    for _ in 0..if wrong { 1 + random.below(2) } else { 0 } {
        damage(random, &mut trial);
    }
    trial
}

fn damage(random: &mut Random, trial: &mut Trial) {
    let last = trial.sweeps.len().saturating_sub(1);
    match random.below(12) {
        0 => generate::break_value(random, &mut trial.graph),
        1 => trial.multipliers.push(0),
        2 => generate::break_multipliers(random, &mut trial.multipliers),
        3 => trial.ceiling = random.pick(&[i64::MIN, i64::MAX]),
        4 => trial.length = random.pick(&[trial.length + 1, trial.length.saturating_sub(1)]),
        5 => trial.steps.push(1),
        6 => {
            let pairs = random.pick(&[0, PAIRS + 1, 40]);
            trial.sweeps.resize(pairs, 0);
            trial.steps.resize(pairs, 0);
            trial.length = pairs;
        }
        10 => generate::break_ashore(random, &mut trial.ashore),
        11 => trial
            .ashore
            .resize(random.pick(&[0, 1, trial.graph.n + 1, 30]), 0),
        7 => trial.denominator = generate::wrong_denominator(random),
        8 if !trial.sweeps.is_empty() => trial.sweeps[last] = random.pick(&[16, 17, u32::MAX]),
        _ if !trial.steps.is_empty() => {
            let place = random.below(trial.steps.len());
            trial.steps[place] = random.pick(&[10_001, u32::MAX]);
        }
        _ => {}
    }
}

fn run(law: &Law, tally: &mut Tally) -> Outcome {
    let random = &mut Random::new(0x636f_6d70);
    facts(law, tally)?;
    for round in 0..6_000 {
        let trial = trial(random, round % 3 == 2);
        one(law, tally, &trial)?;
    }
    Ok(())
}

fn one(law: &Law, tally: &mut Tally, trial: &Trial) -> Outcome {
    let wanted = expected(law, trial);
    tally.compare("compare", || format!("{trial:?}"), &wanted, &compare(trial))
}

/// Document 01's sea, allowance 5.
fn facts(law: &Law, tally: &mut Tally) -> Outcome {
    let four = four();
    for (ceiling, counts) in [(12, [5, 5, 3, 1, 1, 1]), (16, [0, 0, 3, 1, 1, 5])] {
        let trial = Trial {
            graph: four.clone(),
            multipliers: vec![0; 4],
            ashore: vec![0; 4],
            ceiling,
            budget: 5,
            denominator: 1,
            lifting: 0,
            sweeps: vec![0, 0, 1, 2, 15, 15],
            steps: vec![0, 10_000, 1, 1, 1, 10],
            length: 6,
        };
        one(law, tally, &trial)?;
        let got = compare(&trial).report;
        tally.compare(
            "fact",
            || format!("{trial:?}"),
            &Some(counts.to_vec()),
            &got,
        )?;
    }
    Ok(())
}
