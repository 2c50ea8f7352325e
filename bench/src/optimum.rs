//! Time to the optimum, beside dynamic programming.

use crate::dynamic;
use crate::fast::Verdict;
use crate::inputs::{self, Graph, Kind};
use crate::lines::{job, Ceiling, Options, SWEEPS};
use crate::measure::{self, Sides};
use crate::table::{number, Table};

pub const SIZES: [usize; 3] = [12, 16, 20];

/// One search from open to close, and dynamic programming on the same graph.
struct Result {
    whole: Sides<f64>,
    dynamic: f64,
    nodes: u64,
    finished: bool,
}

/// Each line has the medians over its graphs, and dynamic programming / ours, graph by graph: the
/// least, the median and the greatest; and the median for the textbook's loops, which are timed
/// once a size, since their time does not depend on the costs. A search that its budget ends
/// counts with the time it had until then, so its ratio is an upper limit.
pub fn lines(options: &Options) -> Vec<Table> {
    let columns =
        "finished | nodes | dynamic, ns | dynamic / ours | textbook, ns | textbook / ours";
    let mut table = Table::new("Time to the optimum", columns, "ns");
    for n in SIZES {
        let mut rows = dynamic::Table::new(n);
        let mut slow = None;
        for kind in Kind::ALL {
            for ceiling in Ceiling::ALL {
                let name = format!("to-optimum n{n} {} {}", kind.name(), ceiling.name());
                if options.wants(&name) {
                    let slow = *slow.get_or_insert_with(|| textbook(options, &mut rows, n));
                    let graphs = options
                        .graphs()
                        .map(|number| inputs::graph(kind, n, number));
                    let one = |graph| result(options, &mut rows, graph, ceiling);
                    let results: Vec<Result> = graphs.map(one).collect();
                    row(&mut table, &name, &results, slow);
                }
            }
        }
    }
    vec![table]
}

/// The time of the textbook's loops, which must find the same optimum.
fn textbook(options: &Options, rows: &mut dynamic::Table, n: usize) -> f64 {
    let graph = inputs::graph(Kind::ALL[0], n, 1);
    let (_, fast) = measure::optimum(&options.plan, rows, &graph, dynamic::Table::optimum);
    let (time, slow) = measure::optimum(&options.plan, rows, &graph, dynamic::Table::textbook);
    assert_eq!(fast, slow, "two ways of dynamic programming differ");
    time
}

fn result(options: &Options, rows: &mut dynamic::Table, graph: Graph, ceiling: Ceiling) -> Result {
    let (dynamic, optimum) = measure::optimum(&options.plan, rows, &graph, dynamic::Table::optimum);
    let (times, outcome) = measure::search(&options.plan, &job(graph, ceiling, SWEEPS));
    if let Verdict::Cost(cost) = outcome.verdict {
        assert_eq!(cost, optimum, "the search and dynamic programming differ");
    }
    assert_ne!(
        outcome.verdict,
        Verdict::None,
        "a tour is within the ceiling"
    );
    Result {
        whole: times.map(|times| times.whole),
        dynamic,
        nodes: outcome.count,
        finished: outcome.verdict != Verdict::GoingOn,
    }
}

/// The values in order.
fn sorted(results: &[Result], value: impl Fn(&Result) -> f64) -> Vec<f64> {
    let mut values: Vec<f64> = results.iter().map(value).collect();
    values.sort_by(f64::total_cmp);
    values
}

fn row(table: &mut Table, name: &str, results: &[Result], textbook: f64) {
    let median = |value: &dyn Fn(&Result) -> f64| sorted(results, value)[results.len() / 2];
    let finished = results.iter().filter(|result| result.finished).count();
    let nodes = median(&|result| result.nodes as f64);
    let dynamic = median(&|result| result.dynamic);
    let ratios = sorted(results, |result| result.dynamic / result.whole.ours);
    let spread = [0, results.len() / 2, results.len() - 1].map(|i| number(ratios[i], 2));
    let cells = format!(
        "{finished} of {} | {nodes:.0} | {dynamic:.0} | {} | {textbook:.0} | {}",
        results.len(),
        spread.join(", "),
        number(median(&|result| textbook / result.whole.ours), 2)
    );
    let time = Sides {
        ours: median(&|result| result.whole.ours),
        forms: median(&|result| result.whole.forms),
        free: median(&|result| result.whole.free),
    };
    table.row(name, &cells, time);
}
