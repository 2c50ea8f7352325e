//! The proved library's calls, with nothing around them: no allocation, and no copy but that of a graph by value.

use crate::fast::Verdict;
use crate::inputs::Graph;
use crate::planner::{Job, Planner, Stored};
use ::planner::raw::{self, Reply, ROW, VERTICES};
use ::planner::Settings;

pub struct Ours(Box<raw::Record>);

/// No vertex is ashore, for up to 20 (document 02, C-20): the references know no such list.
pub const AFLOAT: [u8; VERTICES] = [0; VERTICES];

impl Ours {
    pub fn new() -> Ours {
        // SAFETY: the call takes nothing.
        Ours(Box::new(unsafe { raw::planner_fresh() }))
    }
}

/// The bound; none is 'no tree' or 'dead'.
fn bound(said: Reply) -> Option<i64> {
    match said.number {
        raw::ACCEPTED => Some(said.value),
        raw::NONE => None,
        refusal => panic!("refused {refusal}"),
    }
}

// SAFETY of all calls: the record is borrowed here alone, and each list goes with its own length.
impl Planner for Ours {
    fn open(&mut self, job: &Job) {
        let d = &job.multipliers;
        let settings = Settings {
            ceiling: job.ceiling,
            sweeps: job.sweeps,
            step: job.step,
            denominator: 1,
            lifting: job.lifting,
        };
        let (record, g, n) = (&mut *self.0, job.graph.0, d.len());
        let (d, a) = (d.as_ptr(), AFLOAT.as_ptr());
        let said = unsafe { raw::planner_open(record, g, d, n, a, n, settings) };
        assert_eq!(said.number, raw::ACCEPTED, "open refused");
    }

    fn run(&mut self, budget: u64) -> bool {
        let said = unsafe { raw::planner_run(&mut *self.0, budget) };
        said.number == raw::FINISHED
    }

    fn state(&self) -> (i64, usize) {
        (self.0.upper, self.0.depth as usize)
    }

    fn stored(&self) -> Stored {
        let record = &self.0;
        let (n, m) = (record.graph.n as usize, record.graph.m as usize);
        let bit = |row: usize, k: usize| record.stack[row * ROW + k / 64] >> (k % 64) & 1;
        let mark = |p: usize, k: usize| (bit(2 * p, k) + 2 * bit(2 * p + 1, k)) as u8;
        let view = |p: usize| {
            let marks = (0..m).map(|k| mark(p, k)).collect();
            let d = &record.carried[p * VERTICES..][..n];
            (marks, d.to_vec())
        };
        Stored {
            upper: record.upper,
            count: record.count,
            nodes: (0..record.depth as usize).map(view).collect(),
            best: (record.has_best == 1).then(|| record.best[..m].to_vec()),
        }
    }

    fn finish(&mut self, tour: &mut [u8]) -> (Verdict, u64) {
        let record = &mut *self.0;
        let told = unsafe { raw::planner_tell(record) };
        let verdict = match told.number {
            raw::BEST => Verdict::Cost(told.value),
            raw::NO_TOUR => Verdict::None,
            raw::GOING_ON => Verdict::GoingOn,
            refusal => panic!("tell refused {refusal}"),
        };
        if let Verdict::Cost(_) = verdict {
            let said = unsafe { raw::planner_show(record, tour.as_mut_ptr(), tour.len()) };
            assert_eq!(said.number, raw::ACCEPTED, "show refused");
        }
        let said = unsafe { raw::planner_close(record) };
        assert_eq!(said.number, raw::ACCEPTED, "close refused");
        (verdict, told.nodes)
    }

    fn tree(&mut self, graph: &Graph, d: &[i32], out: &mut [u8]) -> Option<i64> {
        let (list, length) = (out.as_mut_ptr(), out.len());
        let (g, n, d, a) = (graph.0, d.len(), d.as_ptr(), AFLOAT.as_ptr());
        bound(unsafe { raw::planner_tree(g, d, n, a, n, 1, list, length) })
    }

    fn rule(&mut self, graph: &Graph, d: &[i32], ceiling: i64, out: &mut [u8]) -> Option<i64> {
        let (list, length) = (out.as_mut_ptr(), out.len());
        let (g, n, d, a) = (graph.0, d.len(), d.as_ptr(), AFLOAT.as_ptr());
        bound(unsafe { raw::planner_rule(g, d, n, a, n, ceiling, 1, list, length) })
    }
}
