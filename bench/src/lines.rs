//! The lines of the tables, but for those beside dynamic programming.

use crate::dynamic;
use crate::inputs::{self, Graph, Kind};
use crate::measure::{self, Plan, Sides, Times};
use crate::planner::Job;
use crate::table::Table;

pub struct Options {
    pub plan: Plan,
    pub quick: bool,
    /// lines whose name has this text
    pub case: String,
}

impl Options {
    pub fn wants(&self, name: &str) -> bool {
        name.contains(&self.case)
    }

    /// Numbers of the graphs of a line.
    pub fn graphs(&self) -> std::ops::Range<u64> {
        if self.quick {
            1..3
        } else {
            1..6
        }
    }
}

pub const SIZES: [usize; 4] = [8, 12, 16, 20];

/// Nodes that a search may open; without passes there can be millions.
pub const BUDGET: u64 = 20_000;

/// Sweeps and their step.
pub const NO_SWEEPS: (u32, u32) = (0, 0);
pub const SWEEPS: (u32, u32) = (15, 20);

/// The ceiling of a search.
#[derive(Clone, Copy, PartialEq, Eq)]
pub enum Ceiling {
    Optimum,
    /// the optimum and five in a hundred
    Above,
    /// the cost of the nearest-neighbour tour
    NearestNeighbour,
}

impl Ceiling {
    pub const ALL: [Ceiling; 3] = [Ceiling::Optimum, Ceiling::Above, Ceiling::NearestNeighbour];

    pub fn name(self) -> &'static str {
        match self {
            Ceiling::Optimum => "optimum",
            Ceiling::Above => "optimum+5%",
            Ceiling::NearestNeighbour => "nearest-neighbour",
        }
    }

    pub fn of(self, graph: &Graph) -> i64 {
        if self == Ceiling::NearestNeighbour {
            return inputs::nearest_neighbour(graph);
        }
        let optimum = dynamic::Table::new(graph.n()).optimum(graph);
        match self {
            Ceiling::Optimum => optimum,
            _ => optimum + (optimum as f64 * 0.05).round() as i64,
        }
    }
}

pub fn job(graph: Graph, ceiling: Ceiling, (sweeps, step): (u32, u32)) -> Job {
    Job {
        multipliers: vec![0; graph.n()],
        ceiling: ceiling.of(&graph),
        graph,
        sweeps,
        step,
        lifting: 0,
        budget: BUDGET,
    }
}

/// Sums over the searches of one line.
struct Sums {
    searches: u64,
    nodes: u64,
    times: Sides<Times>,
}

fn sums(options: &Options, case: &Case) -> Sums {
    let mut sums = Sums {
        searches: 0,
        nodes: 0,
        times: Sides::all(Times::ZERO),
    };
    for number in options.graphs() {
        let graph = inputs::graph(case.kind, case.n, number);
        let job = job(graph, case.ceiling, case.sweeps);
        let (times, outcome) = measure::search(&options.plan, &job);
        sums.searches += 1;
        sums.nodes += outcome.count;
        sums.times.ours.add(times.ours);
        sums.times.forms.add(times.forms);
        sums.times.free.add(times.free);
    }
    sums
}

impl Sums {
    fn counts(&self) -> String {
        format!("{} | {}", self.searches, self.nodes)
    }

    /// A figure of each side's times, divided by a count.
    fn per(&self, count: u64, figure: impl Fn(&Times) -> f64) -> Sides<f64> {
        self.times.map(|times| figure(&times) / count as f64)
    }
}

/// What a line's searches have in common.
struct Case {
    sweeps: (u32, u32),
    n: usize,
    kind: Kind,
    ceiling: Ceiling,
}

impl Case {
    fn all() -> Vec<Case> {
        let mut all = Vec::new();
        for sweeps in [NO_SWEEPS, SWEEPS] {
            for n in SIZES {
                for kind in Kind::ALL {
                    let ceilings = [Ceiling::Optimum, Ceiling::Above];
                    all.extend(ceilings.map(|ceiling| Case {
                        sweeps,
                        n,
                        kind,
                        ceiling,
                    }));
                }
            }
        }
        all
    }

    fn name(&self) -> String {
        let (kind, ceiling) = (self.kind.name(), self.ceiling.name());
        format!("n{} {kind} sweeps{} {ceiling}", self.n, self.sweeps.0)
    }
}

/// The searches: their names and sums.
type Searches = Vec<(String, Sums)>;

/// Time per node: (run − run with budget 0) / nodes, each summed over the graphs of the line. What
/// that leaves out comes after it: whole searches, and the fixed cost of a call.
pub fn searches(options: &Options) -> Vec<Table> {
    let mut table = Table::new("Time per node", "searches | nodes", "ns");
    let mut all = Searches::new();
    for case in Case::all() {
        let name = case.name();
        if options.wants(&name) {
            let sums = sums(options, &case);
            let time = sums.per(sums.nodes, |times| times.run - times.fixed);
            table.row(&name, &sums.counts(), time);
            all.push((name, sums));
        }
    }
    vec![table, whole(&all), fixed(&all)]
}

/// Open, run, tell, show and close, per search, where passes make searches short.
fn whole(searches: &Searches) -> Table {
    let title = "Whole search (open, run, tell, show, close)";
    let mut table = Table::new(title, "searches | nodes", "ns");
    for (name, sums) in searches
        .iter()
        .filter(|(name, _)| name.contains("sweeps15"))
    {
        table.row(
            name,
            &sums.counts(),
            sums.per(sums.searches, |times| times.whole),
        );
    }
    table
}

/// Run with budget 0 on a search just opened: what a call costs before it does anything. Ours and the
/// reference in document 01's forms check the whole record (docs/RECORD.md); ours then works on it where
/// it lies, that one copies it in and out. The free reference does not have one, its time is the clock's.
fn fixed(searches: &Searches) -> Table {
    let title = "Fixed cost of a call (run with budget 0)";
    let mut table = Table::new(title, "searches", "ns");
    let wanted = |name: &str| name.ends_with("sweeps15 optimum");
    for (name, sums) in searches.iter().filter(|(name, _)| wanted(name)) {
        let count = sums.searches;
        let time = sums.per(count, |times| times.fixed);
        table.row_apart(name, &count.to_string(), time);
    }
    table
}

/// Time per tree call and per rule call, with multipliers, the ceiling five in a hundred above the
/// optimum.
pub fn calls(options: &Options) -> Vec<Table> {
    let mut table = Table::new("Time per call of tree and rule", "graphs", "ns");
    for call in ["tree", "rule"] {
        for n in SIZES {
            for kind in Kind::ALL {
                let name = format!("{call} n{n} {}", kind.name());
                if options.wants(&name) {
                    let graphs = options.graphs().count();
                    let time = one_call(options, call, n, kind);
                    table.row(&name, &graphs.to_string(), time);
                }
            }
        }
    }
    vec![table]
}

/// The mean over the graphs of the line.
fn one_call(options: &Options, call: &str, n: usize, kind: Kind) -> Sides<f64> {
    let mut mean = Sides::all(0.0);
    let count = options.graphs().count() as f64;
    for number in options.graphs() {
        let graph = inputs::graph(kind, n, number);
        let d = &inputs::multipliers(n, number)[..n];
        let time = match call {
            "tree" => measure::tree(&options.plan, &graph, d),
            _ => measure::rule(&options.plan, &graph, d, Ceiling::Above.of(&graph)),
        };
        mean.ours += time.ours / count;
        mean.forms += time.forms / count;
        mean.free += time.free / count;
    }
    mean
}
