//! The face that the timing calls.

use super::rows::unpack;
use super::{rule, tree, Answer, Record, Wanted};
use crate::fast::Verdict;
use crate::inputs::{Graph, PLACES};
use crate::planner::{Job, Planner, Stored};

pub struct Forms(Box<Record>);

impl Forms {
    pub fn new() -> Forms {
        Forms(Box::new(Record::fresh()))
    }
}

impl Planner for Forms {
    fn open(&mut self, job: &Job) {
        let wanted = Wanted {
            ceiling: job.ceiling,
            sweeps: job.sweeps,
            step: job.step,
            lifting: job.lifting,
        };
        let answer = self.0.open(&job.graph, &job.multipliers, wanted);
        assert_eq!(answer, Answer::Accepted, "open");
    }

    fn run(&mut self, budget: u64) -> bool {
        matches!(self.0.run(budget), Answer::Finished(_))
    }

    fn state(&self) -> (i64, usize) {
        (self.0.upper, self.0.waiting())
    }

    fn stored(&self) -> Stored {
        let record = &self.0;
        let (n, m) = (record.graph.n(), record.graph.m());
        let view = |p: usize| {
            let mut marks = [0; PLACES];
            unpack(&record.stack[p], m, &mut marks);
            (marks[..m].to_vec(), record.carried[p][..n].to_vec())
        };
        Stored {
            upper: record.upper,
            count: record.count,
            nodes: (0..record.waiting()).map(view).collect(),
            best: (record.has_best == 1).then(|| record.best[..m].to_vec()),
        }
    }

    fn finish(&mut self, tour: &mut [u8]) -> (Verdict, u64) {
        let (verdict, count) = match self.0.tell() {
            Answer::Best(cost, count) => (Verdict::Cost(cost), count),
            Answer::None(count) => (Verdict::None, count),
            Answer::GoingOn(count) => (Verdict::GoingOn, count),
            refusal => panic!("tell: {refusal:?}"),
        };
        if let Verdict::Cost(_) = verdict {
            assert_eq!(self.0.show(tour), Answer::Accepted, "show");
        }
        assert_eq!(self.0.close(), Answer::Accepted, "close");
        (verdict, count)
    }

    fn tree(&mut self, graph: &Graph, d: &[i32], out: &mut [u8]) -> Option<i64> {
        tree(graph, d, out)
    }

    fn rule(&mut self, graph: &Graph, d: &[i32], ceiling: i64, out: &mut [u8]) -> Option<i64> {
        rule(graph, d, ceiling, out)
    }
}
