//! Document 02's C-13: the same passes and the same searches with lifting and without. Nothing but ratios: with / without, and with
//! lifting ours / a reference.

use crate::fast::Verdict;
use crate::inputs::{self, Graph, Kind, MAX_CEILING};
use crate::lines::{job, Ceiling, Options, BUDGET, NO_SWEEPS, SIZES, SWEEPS};
use crate::measure::{self, Sides, Times};
use crate::optimum;
use crate::planner::{Job, Outcome};
use crate::table::{number, Table};

pub fn lines(options: &Options) -> Vec<Table> {
    vec![passes(options), searches(options)]
}

/// The job without lifting, and with it.
fn both(job: impl Fn() -> Job) -> [Job; 2] {
    [0, 1].map(|lifting| Job { lifting, ..job() })
}

/// What the first node of a search is to try.
#[derive(Clone, Copy)]
enum First {
    /// one pass with multipliers 0, under this ceiling
    Pass(Ceiling),
    /// sixteen passes under the highest ceiling: no edge is ruled, and lifting has every edge to try in each of them
    Everything,
}

impl First {
    const ALL: [First; 3] = [
        First::Pass(Ceiling::Optimum),
        First::Pass(Ceiling::Above),
        First::Everything,
    ];

    fn name(self) -> &'static str {
        match self {
            First::Pass(ceiling) => ceiling.name(),
            First::Everything => "everything",
        }
    }

    fn job(self, graph: &Graph) -> Job {
        let (ceiling, sweeps) = match self {
            First::Pass(ceiling) => (ceiling, NO_SWEEPS),
            First::Everything => (Ceiling::NearestNeighbour, SWEEPS),
        };
        let mut job = job(graph.clone(), ceiling, sweeps);
        job.budget = 1;
        if let First::Everything = self {
            job.ceiling = MAX_CEILING;
        }
        job
    }
}

/// Time of the passes over the first node, summed over the graphs of the line: run with budget 1 − run with budget 0.
fn passes(options: &Options) -> Table {
    let columns =
        "graphs | ours, with / without | in the forms | free | ours / forms | ours / free";
    let mut table = Table::of("A pass with lifting, beside one without", columns);
    for (n, kind, first) in each(SIZES, First::ALL) {
        let name = format!("lifted pass n{n} {} {}", kind.name(), first.name());
        if options.wants(&name) {
            let [without, with] = pass(options, n, kind, first);
            let Sides { ours, forms, free } = with.beside(without, |x, y| x / y);
            let [to_forms, to_free] = table.note(with);
            let ratios = [ours, forms, free, to_forms, to_free];
            let cells = ratios.map(|ratio| number(ratio, 2)).join(" | ");
            println!("| {name} | {} | {cells} |", options.graphs().count());
        }
    }
    table
}

/// Every size and kind with each of these.
fn each<T: Copy, const N: usize, const M: usize>(
    sizes: [usize; N],
    all: [T; M],
) -> impl Iterator<Item = (usize, Kind, T)> {
    let kinds = move |n| Kind::ALL.into_iter().map(move |kind| (n, kind));
    let lines = sizes.into_iter().flat_map(kinds);
    lines.flat_map(move |(n, kind)| all.into_iter().map(move |one| (n, kind, one)))
}

/// The times of one line, without lifting and with it.
fn pass(options: &Options, n: usize, kind: Kind, first: First) -> [Sides<f64>; 2] {
    let mut sums = [Sides::all(0.0); 2];
    for number in options.graphs() {
        let graph = inputs::graph(kind, n, number);
        let [without, with] = both(|| first.job(&graph));
        let measured = measure::searches(&options.plan, [&without, &with]);
        for (sum, (times, _)) in sums.iter_mut().zip(measured) {
            let add = |sum: f64, times: Times| sum + times.run - times.fixed;
            *sum = sum.beside(times, add);
        }
    }
    sums
}

/// A search from open to close: its times, and what it came to.
type Search = (Sides<f64>, Outcome);

/// One graph's without lifting, and with it.
struct Pair([Search; 2]);

impl Pair {
    fn finished(&self) -> [bool; 2] {
        let Pair(both) = self;
        [0, 1].map(|i| both[i].1.verdict != Verdict::GoingOn)
    }

    /// The lifted one's number / that of the other, where both are finished.
    fn ratio(&self, value: &dyn Fn(&Search) -> f64) -> Option<f64> {
        let Pair([without, with]) = self;
        (self.finished() == [true; 2]).then(|| value(with) / value(without))
    }
}

/// The lines of 'Time to the optimum' with these sweeps and their step.
const SEARCHES: [(u32, u32); 3] = [NO_SWEEPS, (5, 20), SWEEPS];

/// Nodes that a search of 12 vertices without sweeps may open: with those of the other lines few would finish.
const LONG_BUDGET: u64 = 200_000;

/// Nodes and time of whole searches. The ratios are taken graph by graph where both ways are finished: of ours and of the nodes the least, the
/// median and the greatest.
fn searches(options: &Options) -> Table {
    let columns =
        "finished without | with | nodes without | with | nodes, with / without | ours, with / without \
         | in the forms | free | ours / forms | ours / free";
    let mut table = Table::of("To the optimum with lifting, beside without", columns);
    for (n, kind, ceiling) in each(optimum::SIZES, Ceiling::ALL) {
        for sweeps in SEARCHES {
            let place = format!("n{n} {} {}", kind.name(), ceiling.name());
            let name = format!("lifted to-optimum {place} sweeps{}", sweeps.0);
            if options.wants(&name) {
                let graphs = options.graphs().map(|i| inputs::graph(kind, n, i));
                let one = |graph| pair(options, graph, ceiling, sweeps);
                row(&mut table, &name, &graphs.map(one).collect::<Vec<Pair>>());
            }
        }
    }
    table
}

/// Where both ways are finished they must come to the same tour.
fn pair(options: &Options, graph: Graph, ceiling: Ceiling, sweeps: (u32, u32)) -> Pair {
    let budget = match (graph.n(), sweeps) {
        (12, NO_SWEEPS) => LONG_BUDGET,
        _ => BUDGET,
    };
    let [without, with] = both(|| Job {
        budget,
        ..job(graph.clone(), ceiling, sweeps)
    });
    let measured = measure::searches(&options.plan, [&without, &with]);
    let pair = Pair(measured.map(|(times, outcome)| (times.map(|times| times.whole), outcome)));
    if pair.finished() == [true; 2] {
        let [without, with] = measured.map(|(_, outcome)| (outcome.verdict, outcome.tour));
        assert_eq!(without, with, "lifting changes the answer");
    }
    pair
}

/// The values in order, of the pairs that have one.
fn sorted(pairs: &[Pair], value: impl Fn(&Pair) -> Option<f64>) -> Vec<f64> {
    let mut values: Vec<f64> = pairs.iter().filter_map(value).collect();
    values.retain(|value| value.is_finite());
    values.sort_by(f64::total_cmp);
    values
}

fn median(values: &[f64]) -> f64 {
    values.get(values.len() / 2).copied().unwrap_or(f64::NAN)
}

/// Least, median and greatest.
fn spread(values: &[f64]) -> String {
    match values {
        [] => "-".to_string(),
        [least, ..] => [*least, median(values), values[values.len() - 1]]
            .map(|value| number(value, 2))
            .join(", "),
    }
}

fn row(table: &mut Table, name: &str, pairs: &[Pair]) {
    let finished = [0, 1].map(|i| {
        let done = pairs.iter().filter(|pair| pair.finished()[i]).count();
        format!("{done} of {}", pairs.len())
    });
    let nodes = [0, 1].map(|i| {
        let all = sorted(pairs, |Pair(both)| Some(both[i].1.count as f64));
        number(median(&all), 0)
    });
    let ratios = |value: &dyn Fn(&Search) -> f64| sorted(pairs, |pair| pair.ratio(value));
    let with = |side: &dyn Fn(Sides<f64>) -> f64| {
        median(&sorted(pairs, |Pair(both)| Some(side(both[1].0))))
    };
    let [to_forms, to_free] = table.note(Sides {
        ours: with(&|times| times.ours),
        forms: with(&|times| times.forms),
        free: with(&|times| times.free),
    });
    let cells = [
        finished.join(" | "),
        nodes.join(" | "),
        spread(&ratios(&|(_, outcome)| outcome.count as f64)),
        spread(&ratios(&|(times, _)| times.ours)),
        number(median(&ratios(&|(times, _)| times.forms)), 2),
        number(median(&ratios(&|(times, _)| times.free)), 2),
        number(to_forms, 2),
        number(to_free, 2),
    ];
    println!("| {name} | {} |", cells.join(" | "));
}
