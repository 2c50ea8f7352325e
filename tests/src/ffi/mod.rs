//! The library's calls, for testing: what they take is made of its bytes in the header's order (record.rs), whatever is lent has a margin on
//! both sides, and what is only read is looked at again after the call.

use crate::document::graph::Graph;
use crate::document::machine::Call;
use crate::document::recent::Log;
use crate::document::sailing::Trial;
use crate::document::Refusal;
use crate::record::{graph_bytes, graph_of, GRAPH};
use crate::report::Hex;
use lent::Lent;
use planner::raw::{
    self, planner_check, planner_read, planner_recent, planner_write, Reply as Numbers,
};

pub mod dispatches;
pub mod lent;
pub mod sailings;
pub mod searches;
pub mod shelves;
pub mod trees;

/// Makes a call of the library, where its stack is measured.
macro_rules! call {
    ($name:ident($($argument:expr),*)) => {
        // SAFETY: whatever is lent is a `Lent` of the size that its type has, or goes with its own length.
        crate::stack::calling(stringify!($name), || unsafe { $name($($argument),*) })
    };
}
use call;

/// What a call answers, and what became of the lent list.
#[derive(PartialEq, Eq, Debug)]
pub struct Reply {
    pub said: Numbers,
    /// none if no byte of the list changed
    pub out: Option<Hex>,
    pub margins_kept: bool,
}

/// An answer of a number alone.
pub fn only(number: u32) -> Numbers {
    Numbers {
        number,
        place: 0,
        value: 0,
        nodes: 0,
    }
}

/// A refusal's number and place.
pub fn refused(refusal: Refusal) -> Numbers {
    Numbers {
        place: refusal.place,
        ..only(refusal.number)
    }
}

/// Accepted, with a bound.
pub fn bound(value: i64) -> Numbers {
    Numbers {
        value,
        ..only(raw::ACCEPTED)
    }
}

/// The graph as a call takes it.
pub fn by_value(graph: &Graph) -> raw::Graph {
    // SAFETY: any bytes are a graph of numbers, and it has no others.
    unsafe { std::mem::transmute::<[u8; GRAPH], raw::Graph>(graph_bytes(graph)) }
}

/// What a call takes of an opening beside the graph and the multipliers.
pub fn settings(opening: &Call) -> raw::Settings {
    let Call::Open {
        ceiling,
        sweeps,
        step,
        denominator,
        lifting,
        ..
    } = opening
    else {
        unreachable!("an opening has settings");
    };
    raw::Settings {
        ceiling: *ceiling,
        sweeps: *sweeps,
        step: *step,
        denominator: *denominator,
        lifting: *lifting,
    }
}

/// What a comparison takes beside the graph, the multipliers and the pairs.
pub fn terms(trial: &Trial) -> raw::Terms {
    raw::Terms {
        ceiling: trial.ceiling,
        budget: trial.budget,
        denominator: trial.denominator,
        lifting: trial.lifting,
    }
}

/// The check call: 0 where the value meets 'Legs and marks', otherwise 15.
pub fn check(graph: &Graph) -> Reply {
    let g = by_value(graph);
    Reply {
        said: call!(planner_check(g)),
        out: None,
        margins_kept: true,
    }
}

#[derive(PartialEq, Eq, Debug)]
pub struct ReadReply {
    pub said: Numbers,
    /// none if no byte of the lent graph changed
    pub graph: Option<Graph>,
    pub margins_kept: bool,
}

pub fn read(bytes: &[u8]) -> ReadReply {
    let mut given = Lent::holding(bytes);
    let mut graph = Lent::new(GRAPH);
    let (g, list) = (graph.pointer(), given.pointer());
    let said = call!(planner_read(g, list, bytes.len()));
    ReadReply {
        said,
        graph: graph.changed().map(|bytes| graph_of(&bytes)),
        margins_kept: given.kept(&Lent::holding(bytes)) && graph.margins_kept(),
    }
}

/// What the call on a lent graph answers, and the graph after it, to the byte.
#[derive(PartialEq, Eq, Debug)]
pub struct RecentReply {
    pub said: Numbers,
    pub graph: Graph,
    pub margins_kept: bool,
}

/// The costs that a log makes.
pub fn recent(graph: &Graph, log: &Log) -> RecentReply {
    let mut lent = Lent::holding(&graph_bytes(graph));
    let sent = || Lent::words(log.legs.iter().map(|leg| leg.to_ne_bytes()));
    let (mut legs, mut times) = (sent(), Lent::numbers(&log.times));
    let (g, l, t) = (lent.pointer(), legs.pointer(), times.pointer());
    let said = call!(planner_recent(
        g,
        log.w,
        l,
        log.legs.len(),
        t,
        log.times.len()
    ));
    let read = legs.kept(&sent()) && times.kept(&Lent::numbers(&log.times));
    RecentReply {
        said,
        graph: graph_of(lent.body()),
        margins_kept: read && lent.margins_kept(),
    }
}

pub fn write(graph: &Graph, length: usize) -> Reply {
    let g = by_value(graph);
    let mut out = Lent::new(length);
    let list = out.pointer();
    let said = call!(planner_write(g, list, length));
    Reply {
        said,
        out: out.changed().map(Hex),
        margins_kept: out.margins_kept(),
    }
}
