//! The record that the caller lends, and the calls on it: thin functions above the core by value.

use super::rows::{Rows, ROW};
use super::{search, Marks, Multipliers};
use crate::inputs::{Graph, PLACES, VERTICES};
use ::planner::raw;

pub const NODES: usize = VERTICES + 2;

/// docs/RECORD.md says what the fields hold.
#[derive(Clone)]
pub struct Record {
    pub open: u8,
    pub graph: Graph,
    pub multipliers: Multipliers,
    pub ceiling: i64,
    pub sweeps: u32,
    pub step: u32,
    /// 1 in a search: the references know no fractions (document 02, C-17)
    pub denominator: u64,
    /// document 02's C-13: 1 where the opening turned lifting on, otherwise 0
    pub lifting: u64,
    pub upper: i64,
    pub depth: u64,
    pub stack: [Rows; NODES],
    pub carried: [Multipliers; NODES],
    pub has_best: u8,
    pub best: Marks,
    /// zeros: the references know no list ashore (document 02, C-20)
    pub ashore: [u8; VERTICES],
    pub count: u64,
}

/// As large as the library's, so that a copy of one costs what a copy of the other does.
const _: () = assert!(size_of::<Record>() == size_of::<raw::Record>());

#[derive(Clone, Copy, PartialEq, Eq, Debug)]
pub enum Answer {
    Refused(u32),
    Accepted,
    /// run and tell, with the count
    GoingOn(u64),
    Finished(u64),
    /// tell: no tour within the ceiling, or the best cost
    None(u64),
    Best(i64, u64),
}

/// What an opening takes beside the graph and the multipliers.
#[derive(Clone, Copy)]
pub struct Wanted {
    pub ceiling: i64,
    pub sweeps: u32,
    pub step: u32,
    /// any number but 0 turns it on
    pub lifting: u64,
}

/// What the core takes and gives.
pub struct Step {
    pub record: Record,
    pub answer: Answer,
}

impl Record {
    pub fn fresh() -> Record {
        Record {
            open: 0,
            graph: Graph::empty(0),
            multipliers: [0; VERTICES],
            ceiling: 0,
            sweeps: 0,
            step: 0,
            denominator: 0,
            lifting: 0,
            upper: 0,
            depth: 0,
            stack: [[0; 2 * ROW]; NODES],
            carried: [[0; VERTICES]; NODES],
            has_best: 0,
            best: [0; PLACES],
            ashore: [0; VERTICES],
            count: 0,
        }
    }

    /// How many nodes wait.
    pub fn waiting(&self) -> usize {
        self.depth as usize
    }

    pub fn open(&mut self, g: &Graph, d: &[i32], wanted: Wanted) -> Answer {
        let next = search::open(self.step(), g, d, wanted);
        *self = next.record;
        next.answer
    }

    pub fn run(&mut self, budget: u64) -> Answer {
        let step = Step {
            record: self.clone(),
            answer: Answer::Accepted,
        };
        let next = search::run(step, budget);
        *self = next.record;
        next.answer
    }

    pub fn tell(&self) -> Answer {
        search::tell(self)
    }

    pub fn show(&self, out: &mut [u8]) -> Answer {
        search::show(self, out)
    }

    pub fn close(&mut self) -> Answer {
        let next = search::close(self.step());
        *self = next.record;
        next.answer
    }

    #[inline(always)]
    fn step(&self) -> Step {
        Step {
            record: self.clone(),
            answer: Answer::Accepted,
        }
    }
}
