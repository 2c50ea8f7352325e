//! Timing: all sides in one process by turns, the least time of several repeats, and a comparison
//! of what they answer on every input.

use crate::clock::time;
use crate::dynamic;
use crate::forms::Forms;
use crate::inputs::{Graph, PLACES};
use crate::ours::Ours;
use crate::planner::{Job, Outcome, Planner, Reference};
use std::hint::black_box;
use std::time::Instant;

/// Which sides run, how often, and for how long at most.
#[derive(Clone, Copy)]
pub struct Plan {
    pub wanted: Sides<bool>,
    /// repeats; where 0, as many as `seconds` allows, but three at least
    pub repeats: u32,
    pub seconds: f64,
}

/// Least times in nanoseconds, over the repeats of one search or summed over several searches.
#[derive(Clone, Copy)]
pub struct Times {
    /// run with the budget
    pub run: f64,
    /// run with budget 0 on the same search just opened: the fixed cost of a call
    pub fixed: f64,
    /// open, run, tell, show and close
    pub whole: f64,
}

impl Times {
    pub const ZERO: Times = Times {
        run: 0.0,
        fixed: 0.0,
        whole: 0.0,
    };

    const LONGEST: Times = Times {
        run: f64::INFINITY,
        fixed: f64::INFINITY,
        whole: f64::INFINITY,
    };

    fn least(self, other: Times) -> Times {
        Times {
            run: self.run.min(other.run),
            fixed: self.fixed.min(other.fixed),
            whole: self.whole.min(other.whole),
        }
    }

    pub fn add(&mut self, other: Times) {
        self.run += other.run;
        self.fixed += other.fixed;
        self.whole += other.whole;
    }
}

/// A number, or whatever else, of the library and of the two references.
#[derive(Clone, Copy)]
pub struct Sides<T> {
    pub ours: T,
    /// the reference in document 01's forms
    pub forms: T,
    /// the reference that is free of them
    pub free: T,
}

impl<T: Copy> Sides<T> {
    pub const fn all(value: T) -> Sides<T> {
        Sides {
            ours: value,
            forms: value,
            free: value,
        }
    }

    /// Each side's beside its other.
    pub fn beside<U: Copy, V>(self, other: Sides<U>, f: impl Fn(T, U) -> V) -> Sides<V> {
        Sides {
            ours: f(self.ours, other.ours),
            forms: f(self.forms, other.forms),
            free: f(self.free, other.free),
        }
    }

    pub fn map<U>(self, f: impl Fn(T) -> U) -> Sides<U> {
        Sides {
            ours: f(self.ours),
            forms: f(self.forms),
            free: f(self.free),
        }
    }
}

/// One search from open to close.
fn search_once(planner: &mut impl Planner, job: &Job) -> (Times, Outcome) {
    let mut tour = [0; PLACES];
    let (open, ()) = time(|| planner.open(black_box(job)));
    let (fixed, _) = time(|| planner.run(black_box(0)));
    let (run, _) = time(|| planner.run(black_box(job.budget)));
    let (upper, depth) = planner.state();
    let (finish, (verdict, count)) = time(|| planner.finish(&mut tour[..job.graph.m()]));
    let times = Times {
        run,
        fixed,
        whole: open + run + finish,
    };
    let outcome = Outcome {
        verdict,
        count,
        upper,
        depth,
        tour,
    };
    (times, outcome)
}

/// Calls `turn` as often as the plan says.
fn repeat(plan: &Plan, mut turn: impl FnMut()) {
    let start = Instant::now();
    let mut done = 0;
    loop {
        turn();
        done += 1;
        let enough = match plan.repeats {
            0 => done >= 3 && start.elapsed().as_secs_f64() > plan.seconds,
            repeats => done >= repeats,
        };
        if enough {
            return;
        }
    }
}

/// The least times of all sides on one search; they must come to the same.
pub fn search(plan: &Plan, job: &Job) -> (Sides<Times>, Outcome) {
    let [one] = searches(plan, [job]);
    one
}

/// The same of several searches by turns.
pub fn searches<const N: usize>(plan: &Plan, jobs: [&Job; N]) -> [(Sides<Times>, Outcome); N] {
    let (mut ours, mut forms, mut free) = (Ours::new(), Forms::new(), Reference::new());
    let mut all = [(Sides::all(Times::LONGEST), None); N];
    repeat(plan, || {
        for (job, (times, last)) in jobs.iter().zip(&mut all) {
            let mut note = |least: &mut Times, (time, outcome): (Times, Outcome)| {
                *least = least.least(time);
                agree(last, outcome);
            };
            if plan.wanted.ours {
                note(&mut times.ours, search_once(&mut ours, job));
            }
            if plan.wanted.forms {
                note(&mut times.forms, search_once(&mut forms, job));
            }
            if plan.wanted.free {
                note(&mut times.free, search_once(&mut free, job));
            }
        }
    });
    all.map(|(times, last)| (times, last.expect("a side runs")))
}

fn agree<T: PartialEq + std::fmt::Debug + Copy>(last: &mut Option<T>, now: T) {
    if let Some(before) = *last {
        assert_eq!(before, now, "two sides differ");
    }
    *last = Some(now);
}

/// What a tree or rule call answers: the bound or none, and the list.
type Answer = (Option<i64>, [u8; PLACES]);

/// Time of one of `CALLS` calls in a row.
fn calls(graph: &Graph, mut call: impl FnMut(&mut [u8]) -> Option<i64>) -> (f64, Answer) {
    const CALLS: u32 = 50;
    let mut out = [0; PLACES];
    let (duration, bound) = time(|| {
        for _ in 1..CALLS {
            black_box(call(black_box(&mut out[..graph.m()])));
        }
        call(&mut out[..graph.m()])
    });
    (duration / CALLS as f64, (bound, out))
}

/// The least times of one call on all sides, by turns; their answers must be the same.
fn each(
    plan: &Plan,
    graph: &Graph,
    call: impl Fn(&mut dyn Planner, &mut [u8]) -> Option<i64>,
) -> Sides<f64> {
    let (mut ours, mut forms, mut free) = (Ours::new(), Forms::new(), Reference::new());
    let mut times = Sides::all(f64::INFINITY);
    let mut last = None;
    let mut note = |least: &mut f64, side: &mut dyn Planner| {
        let (time, answer) = calls(graph, |out| call(side, out));
        *least = least.min(time);
        agree(&mut last, answer);
    };
    repeat(plan, || {
        if plan.wanted.ours {
            note(&mut times.ours, &mut ours);
        }
        if plan.wanted.forms {
            note(&mut times.forms, &mut forms);
        }
        if plan.wanted.free {
            note(&mut times.free, &mut free);
        }
    });
    times
}

/// Time per tree call.
pub fn tree(plan: &Plan, graph: &Graph, d: &[i32]) -> Sides<f64> {
    each(plan, graph, |side, out| {
        side.tree(black_box(graph), black_box(d), out)
    })
}

/// Time per rule call.
pub fn rule(plan: &Plan, graph: &Graph, d: &[i32], ceiling: i64) -> Sides<f64> {
    each(plan, graph, |side, out| {
        side.rule(black_box(graph), black_box(d), black_box(ceiling), out)
    })
}

/// The least time of one way of dynamic programming on one graph, and the optimum. The table is given.
pub fn optimum(
    plan: &Plan,
    rows: &mut dynamic::Table,
    graph: &Graph,
    way: fn(&mut dynamic::Table, &Graph) -> i64,
) -> (f64, i64) {
    let (mut least, mut last) = (f64::INFINITY, None);
    repeat(plan, || {
        let (duration, optimum) = time(|| way(rows, black_box(graph)));
        least = least.min(duration);
        agree(&mut last, optimum);
    });
    (least, last.expect("once at least"))
}
