//! Time of a dispatcher's turn, beside the same portions run alone on eight records.

use crate::clock::time;
use crate::inputs::{self, Kind};
use crate::lines::{Ceiling, Options};
use crate::ours::AFLOAT;
use crate::table::number;
use ::planner::raw::PLACES;
use ::planner::{Dispatcher, Search, Settings};

/// Portions, and how many of them are measured: the searches must not finish meanwhile.
const PORTIONS: [(u64, u32); 3] = [(1, 800), (100, 80), (10_000, 8)];

/// Eight searches of 20 vertices, at a dispatcher's places and each on a record of its own.
fn eight(kind: Kind) -> (Dispatcher, Vec<Search>) {
    let mut class = Dispatcher::fresh();
    let open = |number: u64| {
        let graph = inputs::graph(kind, 20, number);
        let settings = Settings {
            ceiling: Ceiling::NearestNeighbour.of(&graph),
            sweeps: 0,
            step: 0,
            denominator: 1,
            lifting: 0,
        };
        let place = class.add(&graph.0, &[0; 20], &AFLOAT, settings);
        assert_eq!(place, Ok(number as usize), "add refused");
        let mut alone = Search::fresh();
        let opened = alone.open(&graph.0, &[0; 20], &AFLOAT, settings);
        assert_eq!(opened, Ok(()), "open refused");
        alone
    };
    let alone = (1..=PLACES as u64).map(open).collect();
    (class, alone)
}

/// Prints the table; the records must be the same afterwards.
pub fn lines(options: &Options) {
    println!("\n## Time of a turn of a dispatcher that holds eight searches\n");
    println!("| line | turns | a turn, ns | run alone, ns | ratio |\n|---|---:|---:|---:|---:|");
    let repeats = if options.quick { 1 } else { 5 };
    for kind in Kind::ALL {
        for (portion, turns) in PORTIONS {
            let name = format!("turn n20 {} p{portion}", kind.name());
            if !options.wants(&name) {
                continue;
            }
            let (mut together, mut apart) = (f64::INFINITY, f64::INFINITY);
            for _ in 0..repeats {
                let (mut class, mut alone) = eight(kind);
                let (spent, well) = time(|| (0..turns).all(|_| class.turn(portion).is_ok()));
                assert!(well, "refused");
                together = together.min(spent / turns as f64);
                let (spent, well) = time(|| {
                    let mut each = (0..turns as usize).map(|i| i % PLACES);
                    each.all(|k| alone[k].run(portion).is_ok())
                });
                assert!(well, "refused");
                apart = apart.min(spent / turns as f64);
                let same = alone.iter().zip(&class.places().places);
                for (alone, place) in same {
                    assert_eq!(alone.record(), place, "two sides differ");
                }
            }
            let figures = [(together, 0), (apart, 0), (together / apart, 2)];
            let cells = figures.map(|(figure, digits)| number(figure, digits));
            println!("| {name} | {turns} | {} |", cells.join(" | "));
        }
    }
}
