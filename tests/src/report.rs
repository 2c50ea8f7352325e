//! Counting comparisons, and what is printed at the first mismatch.

use crate::document::law::Law;
use std::fmt::{self, Debug};

/// A comparison that failed: what was compared, on which input, and both answers.
pub struct Mismatch {
    pub case: String,
    pub input: String,
    pub expected: String,
    pub answer: String,
}

pub type Outcome = Result<(), Mismatch>;

impl fmt::Display for Mismatch {
    fn fmt(&self, f: &mut fmt::Formatter) -> fmt::Result {
        writeln!(f, "  case: {}", self.case)?;
        writeln!(f, "  input: {}", self.input)?;
        writeln!(f, "  expected: {}", self.expected)?;
        write!(f, "  answer:   {}", self.answer)
    }
}

/// The number of comparisons that held.
#[derive(Default)]
pub struct Tally {
    pub passed: u64,
}

impl Tally {
    /// Counts one comparison; `input` is asked for only when it fails.
    pub fn compare<T: PartialEq + Debug>(
        &mut self,
        case: &str,
        input: impl FnOnce() -> String,
        expected: &T,
        answer: &T,
    ) -> Outcome {
        if expected == answer {
            self.passed += 1;
            return Ok(());
        }
        Err(Mismatch {
            case: case.to_string(),
            input: input(),
            expected: format!("{expected:?}"),
            answer: format!("{answer:?}"),
        })
    }
}

/// A way to make the reference wrong; the suite must notice.
#[derive(Clone, Copy)]
pub struct Bend {
    pub what: &'static str,
    pub bend: fn(&mut Law),
}

pub struct Suite {
    pub name: &'static str,
    pub run: fn(&Law, &mut Tally) -> Outcome,
    pub bends: &'static [Bend],
}

/// Bytes that are shown in hex.
#[derive(PartialEq, Eq)]
pub struct Hex(pub Vec<u8>);

impl Debug for Hex {
    fn fmt(&self, f: &mut fmt::Formatter) -> fmt::Result {
        f.write_str(&hex(&self.0))
    }
}

pub fn hex(bytes: &[u8]) -> String {
    if bytes.is_empty() {
        return "(no bytes)".to_string();
    }
    bytes.iter().map(|byte| format!("{byte:02x}")).collect()
}
