//! Small seas on which C-13, lifted dues, can be followed by hand, each computed by enumeration. Legs are written a-b:cost, R behind a required one
//! and S behind a struck one; the rulings are those of a first pass under zero dues, in leg order.

use crate::bends;
use crate::document::graph::{Edge, Graph, EXCLUDED, FREE, REQUIRED};
use crate::document::machine::Call;
use crate::report::Bend;

/// The rulings without lifting and with it.
pub struct Example {
    pub name: &'static str,
    legs: &'static str,
    pub ceiling: i64,
    ordinary: &'static str,
    lifted: &'static str,
}

const FOUR: &str = "1-2:4 1-3:3 1-4:5 2-3:2 2-4:6 3-4:1";
const ENDS: &str = "1-2:0 1-3:0 1-4:0 2-4:0 3-4:2";
const SLACK: &str = "1-2:0 1-3:2 1-4:1 2-4:0 3-4:2";

pub const EXAMPLES: [Example; 9] = [
    Example {
        name: "document 01's sea",
        legs: FOUR,
        ceiling: 12,
        ordinary: "0 0 0 1 2 1",
        lifted: "1 0 0 1 2 1",
    },
    Example {
        name: "leg 3 by 'dead'",
        legs: "1-2:0 1-3:2 1-4:2 1-5:3 2-4:0 2-5:1S 3-4:0 4-5:0",
        ceiling: 5,
        ordinary: "0 0 0 0 1 4 1 1",
        lifted: "1 1 2 0 1 4 1 1",
    },
    Example {
        name: "only its own leg",
        legs: "1-3:3 1-4:1 2-3:0 2-4:0 3-4:0",
        ceiling: 6,
        ordinary: "1 1 0 0 0",
        lifted: "1 1 1 1 0",
    },
    Example {
        name: "together",
        legs: "1-2:3 1-3:0 1-4:0 2-3:2 2-4:0 3-4:2",
        ceiling: 2,
        ordinary: "2 1 1 0 1 0",
        lifted: "2 1 1 1 1 2",
    },
    Example {
        name: "at the end of the range",
        legs: ENDS,
        ceiling: 1_000_001,
        ordinary: "0 0 0 1 1",
        lifted: "1 1 2 1 1",
    },
    Example {
        name: "past the end of the range",
        legs: ENDS,
        ceiling: 1_000_002,
        ordinary: "0 0 0 1 1",
        lifted: "0 0 0 1 1",
    },
    Example {
        name: "at the end of the range, and no round",
        legs: SLACK,
        ceiling: 1_000_004,
        ordinary: "0 0 0 1 1",
        lifted: "1 0 0 1 1",
    },
    Example {
        name: "line I2 holds a rise",
        legs: "1-4:3 1-5:4 2-4:1 2-5:3 3-4:2 3-5:1 4-5:0",
        ceiling: 12,
        ordinary: "1 1 0 0 0 0 0",
        lifted: "1 1 0 2 0 0 0",
    },
    Example {
        name: "a required leg is no support",
        legs: "1-2:0 1-4:0 2-3:0 2-4:2R 3-4:2",
        ceiling: 4,
        ordinary: "1 1 0 3 0",
        lifted: "1 1 0 3 2",
    },
];

impl Example {
    pub fn graph(&self) -> Graph {
        sea(self.legs)
    }

    pub fn ordinary(&self) -> Vec<u8> {
        rulings(self.ordinary)
    }

    pub fn lifted(&self) -> Vec<u8> {
        rulings(self.lifted)
    }
}

/// A sea whose first pass finds no round, the rulings with lifting, and what a misreading makes of them.
pub struct Misread {
    pub bend: Bend,
    legs: &'static str,
    pub ceiling: i64,
    lifted: &'static str,
    bent: &'static str,
}

/// In place of rulings: the node closes.
const CLOSES: &str = "closes";

const DEAD: &str = "1-3:0 1-4:3 1-5:4 2-5:4 3-5:4 4-5:0";
const UNLIMITED: &str = "1-2:4 1-3:0 1-4:1 2-3:0 3-4:1";
const TURNING: &str = "1-2:0 1-4:2 2-3:1 2-4:0 3-4:1";

pub const MISREAD: [Misread; 17] = [
    Misread {
        bend: bends::RELAXED_POLICY,
        legs: "1-2:1 1-3:1 2-3:0 2-4:1 3-4:1",
        ceiling: 3,
        lifted: "1 1 1 0 2",
        bent: "1 1 1 0 0",
    },
    Misread {
        bend: bends::FIRST_LIMIT_DROPPED,
        legs: "1-2:6 1-3:0 1-4:6 2-3:5 2-4:6 3-4:1",
        ceiling: 13,
        lifted: "0 1 0 0 0 1",
        bent: "1 1 0 0 0 1",
    },
    Misread {
        bend: bends::SECOND_LIMIT_DROPPED,
        legs: "1-3:0 1-5:2 2-5:2 3-4:0 3-5:0 4-5:2",
        ceiling: 7,
        lifted: "1 1 1 0 0 0",
        bent: "1 1 1 0 0 2",
    },
    Misread {
        bend: bends::SECOND_END_AFTER_FIRST,
        legs: "1-3:2 1-4:3 2-3:2 2-4:1 3-5:0 4-5:2 4-6:4 5-6:3",
        ceiling: 13,
        lifted: "1 1 1 1 0 0 0 0",
        bent: "1 1 1 1 0 2 0 0",
    },
    Misread {
        bend: bends::REQUIRED_SUPPORT,
        legs: "1-2:1 1-4:0 2-3:0 2-4:1R 3-4:0",
        ceiling: 5,
        lifted: "1 1 0 3 2",
        bent: "1 1 0 3 0",
    },
    Misread {
        bend: bends::LIFTS_NOT_HELD,
        legs: "1-2:3000000 1-4:1000000 2-3:3000000 2-4:1000000 3-4:3000001",
        ceiling: 9_000_002,
        lifted: "1 1 0 1 0",
        bent: "1 1 0 1 2",
    },
    Misread {
        bend: bends::HIGHER_MULTIPLIER,
        legs: SLACK,
        ceiling: 1_000_005,
        lifted: "0 0 0 1 1",
        bent: "1 0 0 1 1",
    },
    Misread {
        bend: bends::LIFTED_IN_TURN,
        legs: "1-2:2 1-3:2 1-4:0 2-4:2 3-4:2",
        ceiling: 6,
        lifted: "1 0 1 1 1",
        bent: "1 2 1 1 1",
    },
    on_unlimited(bends::UNLIMITED_STAYS),
    on_unlimited(bends::FALLS_TO_ONE),
    on_unlimited(bends::ONE_END_MOVES),
    on_dead(bends::LIFTED_DEAD_KEEPS, "1 1 0 1 1 1"),
    on_dead(bends::DEAD_FORCES, "1 1 1 1 1 1"),
    on_dead(bends::LIFTED_DEAD_CLOSES, CLOSES),
    on_turning(bends::RISES_FROM_THREE, "1 1 0 1 0"),
    on_turning(bends::LIFTED_AT_UPPER_RULED, "1 1 1 1 2"),
    on_turning(bends::OTHERS_RULED_TOO, "1 1 1 1 2"),
];

/// A hunt of two passes a node that takes another number of nodes by each reading.
pub struct Hunted {
    legs: &'static str,
    ceiling: i64,
    sweeps: u32,
    step: u32,
    /// with lifting and without it
    pub nodes: [u64; 2],
    /// with lifting, misread
    pub misread: [(Bend, u64); 3],
}

pub const HUNTED: Hunted = Hunted {
    legs: "1-2:3 1-3:0 1-5:0 2-3:1 2-4:2 2-5:1 3-4:2",
    ceiling: 35,
    sweeps: 1,
    step: 1,
    nodes: [3, 13],
    misread: [
        (bends::FLAG_WITHOUT_EFFECT, 13),
        (bends::LAST_PASS_LIFTS, 5),
        (bends::LIFTED_DUES_STAY, 1),
    ],
};

impl Hunted {
    pub fn opening(&self, lifting: u64) -> Call {
        Call::plain(&sea(self.legs), self.ceiling, 1, lifting).swept(self.sweeps, self.step)
    }
}

const fn on_unlimited(bend: Bend) -> Misread {
    Misread {
        bend,
        legs: UNLIMITED,
        ceiling: 1_000_003,
        lifted: "0 0 1 1 1",
        bent: "0 0 0 1 1",
    }
}

const fn on_dead(bend: Bend, bent: &'static str) -> Misread {
    Misread {
        bend,
        legs: DEAD,
        ceiling: 20,
        lifted: "1 1 2 1 1 1",
        bent,
    }
}

const fn on_turning(bend: Bend, bent: &'static str) -> Misread {
    Misread {
        bend,
        legs: TURNING,
        ceiling: 3,
        lifted: "1 1 0 1 2",
        bent,
    }
}

impl Misread {
    pub fn graph(&self) -> Graph {
        sea(self.legs)
    }

    pub fn lifted(&self) -> Vec<u8> {
        rulings(self.lifted)
    }

    /// The misreading's rulings; none where the node closes.
    pub fn bent(&self) -> Option<Vec<u8>> {
        (self.bent != CLOSES).then(|| rulings(self.bent))
    }
}

fn rulings(text: &str) -> Vec<u8> {
    let numbers = text.split(' ').map(|word| word.parse());
    numbers.collect::<Result<_, _>>().expect("rulings")
}

/// The sea of these legs; its last buoy is the highest that they name.
fn sea(legs: &str) -> Graph {
    let edges: Vec<Edge> = legs.split(' ').map(leg).collect();
    let last = edges.iter().map(|edge| edge.b).max();
    Graph::from_edges(last.map_or(0, usize::from), &edges)
}

fn leg(text: &str) -> Edge {
    let (text, mark) = match text.strip_suffix('R') {
        Some(text) => (text, REQUIRED),
        None => match text.strip_suffix('S') {
            Some(text) => (text, EXCLUDED),
            None => (text, FREE),
        },
    };
    let (pair, cost) = text.split_once(':').expect("a cost");
    let (a, b) = pair.split_once('-').expect("two ends");
    let number = |text: &str| text.parse().expect("a buoy");
    Edge {
        a: number(a),
        b: number(b),
        cost: cost.parse().expect("minutes"),
        mark,
    }
}
