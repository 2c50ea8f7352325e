//! The calls on a dispatcher.

use super::lent::{Lent, Lists};
use super::{by_value, call, settings, Reply};
use crate::document::dispatcher::Call;
use crate::document::machine;
use crate::record::{Dispatched, DISPATCHER};
use crate::report::Hex;
use crate::stack;
use planner::raw::{
    self, planner_add, planner_close_at, planner_fresh_dispatcher, planner_show_at,
    planner_tell_at, planner_turn,
};

impl Dispatched {
    /// The fresh call, its answer put where a pattern was.
    pub fn made_fresh() -> Dispatched {
        let mut lent = Lent::new(DISPATCHER);
        let d: *mut raw::Turns = lent.pointer();
        // SAFETY: there is room for a dispatcher.
        stack::calling("planner_fresh_dispatcher", || unsafe {
            d.write(planner_fresh_dispatcher())
        });
        assert!(lent.margins_kept(), "the fresh call wrote beside it");
        Dispatched::of_bytes(lent.body())
    }

    /// Makes the call on this dispatcher.
    pub fn call(&mut self, call: &Call) -> Reply {
        let length = match call {
            Call::Show { length, .. } => *length,
            _ => 0,
        };
        let (mut lent, mut out) = (Lent::holding(&self.bytes()), Lent::new(length));
        let (d, list) = (lent.pointer(), out.pointer());
        let mut kept = true;
        let said = match call {
            Call::Add(opening) => {
                let machine::Call::Open {
                    graph,
                    multipliers,
                    ashore,
                    ..
                } = opening
                else {
                    unreachable!("a search is added by an opening");
                };
                let (g, t) = (by_value(graph), settings(opening));
                let mut given = Lists::new(multipliers, ashore);
                let (m, a) = given.pointers();
                let (many, listed) = (multipliers.len(), ashore.len());
                let said = call!(planner_add(d, g, m, many, a, listed, t));
                kept = given.kept();
                said
            }
            Call::Turn { portion } => call!(planner_turn(d, *portion)),
            Call::Tell { place } => call!(planner_tell_at(d, *place)),
            Call::Show { place, .. } => call!(planner_show_at(d, *place, list, length)),
            Call::Close { place } => call!(planner_close_at(d, *place)),
        };
        *self = Dispatched::of_bytes(lent.body());
        Reply {
            said,
            out: out.changed().map(Hex),
            margins_kept: kept && lent.margins_kept() && out.margins_kept(),
        }
    }
}
