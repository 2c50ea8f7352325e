//! The sides behind one face, so that all are called and timed alike (the library: ours.rs; the
//! reference in document 01's forms: forms/planner.rs).

use crate::fast::{self, Verdict};
use crate::inputs::{Graph, PLACES};

/// A search to be made.
pub struct Job {
    pub graph: Graph,
    pub multipliers: Vec<i32>,
    pub ceiling: i64,
    pub sweeps: u32,
    pub step: u32,
    /// document 02's C-13, 1 with and 0 without
    pub lifting: u64,
    pub budget: u64,
}

/// What a search came to; all sides must agree on all of it.
#[derive(Clone, Copy, PartialEq, Eq, Debug)]
pub struct Outcome {
    pub verdict: Verdict,
    pub count: u64,
    pub upper: i64,
    /// nodes that wait
    pub depth: usize,
    pub tour: [u8; PLACES],
}

/// All that a search stores, in one form for all sides.
#[derive(PartialEq, Eq, Debug)]
pub struct Stored {
    pub upper: i64,
    pub count: u64,
    /// nodes that wait, from bottom to top: the mark of each edge, and the multipliers
    pub nodes: Vec<(Vec<u8>, Vec<i32>)>,
    pub best: Option<Vec<u8>>,
}

pub trait Planner {
    fn open(&mut self, job: &Job);
    fn run(&mut self, budget: u64) -> bool;
    /// The upper bound and how many nodes wait.
    fn state(&self) -> (i64, usize);
    fn stored(&self) -> Stored;
    /// Tell, show where there is a tour, and close.
    fn finish(&mut self, tour: &mut [u8]) -> (Verdict, u64);
    fn tree(&mut self, graph: &Graph, d: &[i32], out: &mut [u8]) -> Option<i64>;
    fn rule(&mut self, graph: &Graph, d: &[i32], ceiling: i64, out: &mut [u8]) -> Option<i64>;
}

/// The optimized implementation without proofs and free of document 01's forms.
pub struct Reference(Option<fast::Search>);

impl Reference {
    pub fn new() -> Reference {
        Reference(None)
    }

    fn search(&self) -> &fast::Search {
        self.0.as_ref().expect("a search is open")
    }
}

impl Planner for Reference {
    fn open(&mut self, job: &Job) {
        let d = &job.multipliers;
        let (graph, ceiling) = (&job.graph, job.ceiling);
        let search = fast::Search::open(graph, d, ceiling, job.sweeps, job.step, job.lifting);
        self.0 = Some(search);
    }

    fn run(&mut self, budget: u64) -> bool {
        self.0.as_mut().expect("a search is open").run(budget)
    }

    fn state(&self) -> (i64, usize) {
        self.search().state()
    }

    fn stored(&self) -> Stored {
        self.search().stored()
    }

    fn finish(&mut self, tour: &mut [u8]) -> (Verdict, u64) {
        let (verdict, count) = self.search().tell();
        if let Verdict::Cost(_) = verdict {
            self.search().show(tour);
        }
        self.0 = None;
        (verdict, count)
    }

    fn tree(&mut self, graph: &Graph, d: &[i32], out: &mut [u8]) -> Option<i64> {
        fast::tree(graph, d, out)
    }

    fn rule(&mut self, graph: &Graph, d: &[i32], ceiling: i64, out: &mut [u8]) -> Option<i64> {
        fast::rule(graph, d, ceiling, out)
    }
}
