//! What the runs of a soak came to; a worker prints it line by line, and the soak adds the lines up.

use std::collections::BTreeMap;

/// Every number of a refusal in documents 01 and 02.
pub const REFUSALS: [u32; 33] = [
    1, 2, 3, 4, 5, 6, 7, 8, 9, 10, 11, 12, 13, 14, 15, 20, 21, 22, 23, 24, 30, 31, 32, 33, 34, 35,
    36, 37, 38, 39, 40, 41, 42,
];

#[derive(Default)]
pub struct Counts {
    /// Of each kind: how many runs, and how many comparisons they made.
    kinds: BTreeMap<String, (u64, u64)>,
    /// How often the library answered each number.
    answers: BTreeMap<u32, u64>,
}

impl Counts {
    pub fn add_run(&mut self, kind: &str, comparisons: u64) {
        self.add_runs(kind, 1, comparisons);
    }

    fn add_runs(&mut self, kind: &str, runs: u64, comparisons: u64) {
        let count = self.kinds.entry(kind.to_string()).or_default();
        *count = (count.0 + runs, count.1 + comparisons);
    }

    pub fn add_answers(&mut self, number: u32, times: u64) {
        *self.answers.entry(number).or_default() += times;
    }

    /// Runs and comparisons of all kinds.
    pub fn total(&self) -> (u64, u64) {
        let sum = |all: (u64, u64), one: &(u64, u64)| (all.0 + one.0, all.1 + one.1);
        self.kinds.values().fold((0, 0), sum)
    }

    /// The refusals that never came up.
    pub fn unmet(&self) -> Vec<u32> {
        let met = |number: &u32| self.answers.contains_key(number);
        REFUSALS.into_iter().filter(|number| !met(number)).collect()
    }

    /// For `add_line`.
    pub fn print_lines(&self) {
        for (kind, (runs, comparisons)) in &self.kinds {
            println!("kind {runs} {comparisons} {kind}");
        }
        for (number, times) in &self.answers {
            println!("answer {number} {times}");
        }
    }

    /// Adds what a worker printed; none if it is no such line.
    pub fn add_line(&mut self, line: &str) -> Option<()> {
        let mut words = line.splitn(4, ' ');
        match (words.next()?, words.next()?, words.next()?, words.next()) {
            ("kind", runs, comparisons, Some(kind)) => {
                self.add_runs(kind, runs.parse().ok()?, comparisons.parse().ok()?);
            }
            ("answer", number, times, None) => {
                self.add_answers(number.parse().ok()?, times.parse().ok()?);
            }
            _ => return None,
        }
        Some(())
    }

    /// For people.
    pub fn print(&self) {
        for (kind, (runs, comparisons)) in &self.kinds {
            println!("{kind}: {runs} runs, {comparisons} comparisons");
        }
        let times = |number: &u32| self.answers.get(number).copied().unwrap_or(0);
        let each = REFUSALS.map(|number| format!("{number}: {}", times(&number)));
        println!("refusals by the library: {}", each.join(", "));
    }
}
