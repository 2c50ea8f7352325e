//! The calls on a search.

use super::lent::{Lent, Lists};
use super::{by_value, call, settings, Reply};
use crate::document::machine::Call;
use crate::record::{Record, SIZE};
use crate::report::Hex;
use crate::stack;
use planner::raw::{
    self, planner_close, planner_fresh, planner_open, planner_run, planner_show, planner_tell,
};

impl Record {
    /// The fresh call, its answer put where a pattern was.
    pub fn made_fresh() -> Record {
        let mut lent = Lent::new(SIZE);
        let s: *mut raw::Record = lent.pointer();
        // SAFETY: there is room for a record.
        stack::calling("planner_fresh", || unsafe { s.write(planner_fresh()) });
        assert!(lent.margins_kept(), "the fresh call wrote beside a record");
        Record::of_bytes(lent.body())
    }

    /// Makes the call on this record.
    pub fn call(&mut self, call: &Call) -> Reply {
        let length = match call {
            Call::Show { length } => *length,
            _ => 0,
        };
        let (mut record, mut out) = (Lent::holding(&self.bytes()), Lent::new(length));
        let (s, list) = (record.pointer(), out.pointer());
        let mut kept = true;
        let said = match call {
            Call::Open {
                graph,
                multipliers,
                ashore,
                ..
            } => {
                let (g, t) = (by_value(graph), settings(call));
                let mut given = Lists::new(multipliers, ashore);
                let (d, a) = given.pointers();
                let (many, listed) = (multipliers.len(), ashore.len());
                let said = call!(planner_open(s, g, d, many, a, listed, t));
                kept = given.kept();
                said
            }
            Call::Run { budget } => call!(planner_run(s, *budget)),
            Call::Tell => call!(planner_tell(s)),
            Call::Show { .. } => call!(planner_show(s, list, length)),
            Call::Close => call!(planner_close(s)),
        };
        *self = Record::of_bytes(record.body());
        Reply {
            said,
            out: out.changed().map(Hex),
            margins_kept: kept && record.margins_kept() && out.margins_kept(),
        }
    }
}
