//! Prints lists of calls with what the library answers, for tests/stored: made once, by the build whose answers are to be kept. Without a word those
//! of the build before C-19; with `lifted` those before C-20: trees, rulings and previews, and lifted hunts.

use planner_tests::document::graph::{Edge, Graph, FREE};
use planner_tests::generate::{self, number, pairs, Spread};
use planner_tests::random::Random;
use planner_tests::stored::{line, sea_line, Desk};

/// Lists for each number of vertices, on a record with its shelf.
const LISTS: usize = 11;

/// Lists on a dispatcher.
const CLASSES: usize = 14;

/// Lists of comparisons.
const TRIALS: usize = 10;

/// A list in the making: each line is printed as it is done.
struct Script {
    random: Random,
    desk: Desk,
    graph: Graph,
}

fn main() {
    if std::env::args().nth(1).as_deref() == Some("lifted") {
        return lifted();
    }
    let mut script = Script {
        random: Random::new(0x0043_2d31_39),
        desk: Desk::fresh(),
        graph: Graph::from_edges(0, &[]),
    };
    for vertices in 3..=20 {
        for kind in 0..LISTS {
            script.say("fresh");
            script.searches(vertices, kind);
        }
    }
    for _ in 0..CLASSES {
        script.say("fresh");
        script.class();
    }
    for _ in 0..TRIALS {
        script.say("fresh");
        script.trials();
    }
}

/// The lists with lifting, and the calls on a sea.
fn lifted() {
    let mut script = Script {
        random: Random::new(0x0043_2d32_30),
        desk: Desk::fresh(),
        graph: Graph::from_edges(0, &[]),
    };
    for vertices in 3..=20 {
        for kind in 0..6 {
            script.say("fresh");
            script.sea(vertices, kind);
            script.trees();
            script.hunts();
        }
    }
}

impl Script {
    /// Trees, rulings under ceilings about the bound, and previews.
    fn trees(&mut self) {
        let m = self.graph.m;
        for q in [1, 7] {
            self.say(&format!("tree {q}"));
            for _ in 0..2 {
                let ceiling = self.cheap() + self.random.pick(&[-3, 0, 5, 20, 60, 400]);
                self.say(&format!("rule {ceiling} {q}"));
                let (leg, mark) = (1 + self.below(m + 1), 1 + self.below(2));
                self.say(&format!("preview {q} {leg} {mark}"));
            }
        }
    }

    /// A lifted hunt in portions, saved and brought back; another with the same settings and without lifting; and a comparison.
    fn hunts(&mut self) {
        let (settings, m) = (self.settings(), self.graph.m);
        for lifting in [1, 0] {
            self.say(&format!("open {settings} {lifting}"));
            for budget in [1, 3] {
                self.say(&format!("run {budget}"));
                self.say("save 2");
            }
            for text in ["run 30", "back 2", "run 90", "tell"] {
                self.say(text);
            }
            self.say(&format!("show {m}"));
            self.say("close");
        }
        let words: Vec<&str> = settings.split(' ').collect();
        let (ceiling, sweeps, step, q) = (words[0], words[1], words[2], words[3]);
        self.say(&format!("compare {ceiling} 40 {q} 1 {sweeps}/{step} 3/1"));
        for lifting in [0, 1] {
            self.say(&format!("add {settings} {lifting}"));
            self.say("turn 4");
        }
        for text in ["turn 9", "tellat 1", "tellat 2"] {
            self.say(text);
        }
    }

    /// Does a line, and prints it with its answer.
    fn say(&mut self, text: &str) {
        match self.desk.make(text) {
            Some(reply) => println!("{}", line(text, &reply)),
            None => println!("{text}"),
        }
    }

    fn below(&mut self, count: usize) -> usize {
        self.random.below(count)
    }

    /// A sea whose edges are in any order, all of them or some, marked now and then; costs are few, so that there are ties, or many.
    fn sea(&mut self, vertices: usize, kind: usize) {
        let random = &mut self.random;
        let most = vertices * (vertices - 1) / 2;
        let edges = match kind % 3 {
            0 => most,
            _ => (most - random.below(most / 2 + 1)).max(vertices.min(most)),
        };
        let (style, spread) = (random.pick(&[0, 0, 1, 1, 2]), random.pick(&[0, 0, 1, 2]));
        let corner = |random: &mut Random| (random.between(0, 99), random.between(0, 99));
        let corners: Vec<(i64, i64)> = (0..=vertices).map(|_| corner(random)).collect();
        let pairs = pairs(random, vertices);
        let cost = |random: &mut Random, a: u8, b: u8| match spread {
            0 => {
                let ((x, y), (v, w)) = (corners[a as usize], corners[b as usize]);
                ((x - v).abs() + (y - w).abs()) as i32
            }
            1 => random.between(1, 9) as i32,
            _ => number(random, Spread::Sized, generate::MAX_COST / 1_000),
        };
        let edges: Vec<Edge> = pairs[..edges]
            .iter()
            .map(|(a, b)| Edge {
                a: *a,
                b: *b,
                cost: cost(random, *a, *b),
                mark: match random.one_in(4) {
                    true => generate::mark(random, style),
                    false => FREE,
                },
            })
            .collect();
        self.graph = Graph::from_edges(vertices, &edges);
        let line = sea_line(&self.graph);
        self.say(&line);
        self.dues(vertices);
    }

    fn dues(&mut self, count: usize) {
        let random = &mut self.random;
        let size = random.pick(&[0, 0, 9, 50, 1_000]);
        let dues: Vec<String> = (0..count)
            .map(|i| {
                if i == 0 {
                    0
                } else {
                    random.between(-size, size)
                }
            })
            .map(|due| due.to_string())
            .collect();
        self.say(&format!("dues {}", dues.join(" ")));
    }

    /// The sum of the sea's n least costs.
    fn cheap(&self) -> i64 {
        let mut costs = self.graph.cost[..self.graph.m].to_vec();
        costs.sort_unstable();
        costs.iter().take(self.graph.n).map(|c| i64::from(*c)).sum()
    }

    /// The settings of an opening, mostly a ceiling that leaves a hunt some nodes; now and then one that is refused.
    fn settings(&mut self) -> String {
        let cheap = self.cheap();
        let random = &mut self.random;
        let ceiling = match random.below(8) {
            0 => cheap,
            1 => generate::MAX_CEILING,
            2 => 2 * cheap + 100,
            _ => cheap + cheap.abs() / 2 + random.between(0, 60),
        };
        let mut sweeps = random.pick(&[0, 0, 1, 2, 3, 7, 15]);
        let step = random.pick(&[0, 1, 1, 2, 10, 10_000]);
        let mut q = random.pick(&[1, 1, 1, 2, 10, 60, 1_000]);
        match random.below(24) {
            0 => sweeps = 16,
            1 => q = 1_001,
            _ => {}
        }
        format!("{ceiling} {sweeps} {step} {q}")
    }

    fn open(&mut self, vertices: usize, kind: usize) {
        self.sea(vertices, kind);
        self.again();
    }

    /// The same sea with other settings.
    fn again(&mut self) {
        let settings = self.settings();
        self.say(&format!("open {settings}"));
    }

    /// A list on a record: an opening, portions, saves and backs, another opening at times.
    fn searches(&mut self, vertices: usize, kind: usize) {
        self.open(vertices, kind);
        for _ in 0..8 + self.below(12) {
            let m = self.graph.m;
            let (name, budget) = (1 + self.below(3), 1 + self.below(12));
            let text = match self.below(20) {
                0 => {
                    self.say("close");
                    self.again();
                    continue;
                }
                1 if self.below(6) == 0 => {
                    self.open(vertices, kind);
                    continue;
                }
                1..=3 => "tell".to_string(),
                4 | 5 => format!("show {m}"),
                6 => format!("show {}", self.below(192)),
                7 | 8 => format!("save {name}"),
                9 | 10 => format!("back {name}"),
                11 => format!("back {}", self.below(10)),
                12 => "run 0".to_string(),
                13 => "run 400".to_string(),
                14 => "run 60".to_string(),
                _ => format!("run {budget}"),
            };
            self.say(&text);
        }
        self.ended(300);
        self.say("close");
        let (sweeps, step, q) = self.random.pick(&[(7, 3, 1), (15, 2, 1), (15, 20, 10)]);
        let ceiling = 2 * self.cheap().abs() + 400;
        self.say(&format!("open {ceiling} {sweeps} {step} {q}"));
        self.ended(1_500);
    }

    /// A portion more, and what it came to.
    fn ended(&mut self, budget: u64) {
        self.say(&format!("run {budget}"));
        self.say("tell");
        let m = self.graph.m;
        self.say(&format!("show {m}"));
    }

    /// A list on a dispatcher: up to three seas, each with several openings.
    fn class(&mut self) {
        for sea in 0..3 {
            let vertices = 3 + self.below(18);
            self.sea(vertices, 1 + sea % 2);
            for _ in 0..4 + self.below(12) {
                let (place, portion) = (self.below(10), self.below(30));
                let text = match self.below(12) {
                    0..=2 => format!("add {}", self.settings()),
                    3 => format!("tellat {place}"),
                    4 => format!("showat {place} {}", self.graph.m),
                    5 => format!("closeat {place}"),
                    6 => "turn 250".to_string(),
                    _ => format!("turn {portion}"),
                };
                self.say(&text);
            }
        }
        for place in 1..=8 {
            self.say(&format!("tellat {place}"));
            let m = self.graph.m;
            self.say(&format!("showat {place} {m}"));
        }
    }

    /// Comparisons: pairs of sweeps and step, each with its own allowance.
    fn trials(&mut self) {
        let vertices = 3 + self.below(18);
        self.sea(vertices, 1);
        for _ in 0..4 {
            let settings = self.settings();
            let words: Vec<&str> = settings.split(' ').collect();
            let (ceiling, q) = (words[0], words[3]);
            let budget = 1 + self.below(60);
            let pairs: Vec<String> = (0..1 + self.below(4))
                .map(|_| format!("{}/{}", self.below(16), self.random.pick(&[0, 1, 2, 10])))
                .collect();
            self.say(&format!(
                "compare {ceiling} {budget} {q} {}",
                pairs.join(" ")
            ));
        }
    }
}
