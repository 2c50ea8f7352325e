//! The soak: the library's calls and both programs under random and hostile input, each answer and each lent byte held to the reference.
//! A run is one case; its number and the seed make it, so any run can be made again alone.

use crate::document::law::Law;
use crate::random::Random;
use crate::report::{Bend, Outcome, Tally};
use std::collections::BTreeMap;
use std::fmt::Debug;
use std::fs;
use std::path::PathBuf;

pub mod charts;
pub mod counts;
pub mod dispatches;
pub mod programs;
pub mod searches;

/// What a kind of run does with one case.
pub type Run = fn(&mut Random, &mut Watch) -> Outcome;

pub struct Kind {
    pub name: &'static str,
    pub run: Run,
    /// of every 21 runs, so many
    pub share: u64,
    /// Whether it spawns a program.
    pub spawns: bool,
    pub bends: &'static [Bend],
}

pub const KINDS: [Kind; 8] = [
    charts::FILES,
    charts::VALUES,
    searches::RECORDS,
    searches::LISTS,
    searches::SHELVES,
    dispatches::DISPATCHERS,
    programs::RULINGS,
    programs::HUNT,
];

/// An answer of the library has a number; what a program prints has none.
pub trait Numbered {
    fn number(&self) -> Option<u32>;
}

/// Where answers are held to the reference.
pub struct Watch<'a> {
    pub law: &'a Law,
    pub tally: Tally,
    /// How often each number was answered.
    pub answers: BTreeMap<u32, u64>,
    /// Where a crash is looked for: the file that gets each input before the call.
    pub trace: Option<PathBuf>,
}

impl<'a> Watch<'a> {
    pub fn new(law: &'a Law) -> Watch<'a> {
        Watch {
            law,
            tally: Tally::default(),
            answers: BTreeMap::new(),
            trace: None,
        }
    }

    /// Makes a call and compares.
    pub fn compare<T: PartialEq + Debug + Numbered>(
        &mut self,
        case: &str,
        input: impl Fn() -> String,
        expected: T,
        call: impl FnOnce() -> T,
    ) -> Outcome {
        if let Some(file) = &self.trace {
            let text = format!("{case}\n{}\n", input());
            fs::write(file, text).expect("the trace can be written");
        }
        let answer = call();
        if let Some(number) = answer.number() {
            *self.answers.entry(number).or_default() += 1;
        }
        self.tally.compare(case, input, &expected, &answer)
    }
}

/// The kind of a run.
pub fn kind_of(number: u64) -> &'static Kind {
    const ALL: &[Kind] = &KINDS;
    let mut place = number % ALL.iter().map(|kind| kind.share).sum::<u64>();
    for kind in ALL {
        if place < kind.share {
            return kind;
        }
        place -= kind.share;
    }
    unreachable!("a place is below the sum of the shares")
}

/// The generator of a run, whichever runs were made before.
pub fn random_of(seed: u64, number: u64) -> Random {
    let mut mixed = Random::new(seed ^ Random::new(number).word());
    Random::new(mixed.word())
}

/// One run.
pub fn run(seed: u64, number: u64, watch: &mut Watch) -> Outcome {
    (kind_of(number).run)(&mut random_of(seed, number), watch)
}
