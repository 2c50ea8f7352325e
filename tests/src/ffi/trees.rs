//! The tree call, the preview and the rule call.

use super::lent::{Lent, Lists};
use super::{by_value, call, Reply};
use crate::document::tree::Given;
use crate::report::Hex;
use planner::raw::{planner_preview, planner_rule, planner_tree, Reply as Numbers};

/// Makes a call with multipliers, a list ashore and a list for the answer lent.
fn lending(
    given: &Given,
    length: usize,
    call: impl FnOnce(*const i32, *const u8, *mut u8) -> Numbers,
) -> Reply {
    let mut lists = Lists::new(given.multipliers, given.ashore);
    let mut out = Lent::new(length);
    let (d, ashore) = lists.pointers();
    let said = call(d, ashore, out.pointer());
    Reply {
        said,
        out: out.changed().map(Hex),
        margins_kept: lists.kept() && out.margins_kept(),
    }
}

pub fn tree(given: &Given, length: usize) -> Reply {
    let (g, q) = (by_value(given.graph), given.q);
    let (many, listed) = (given.multipliers.len(), given.ashore.len());
    lending(given, length, |d, ashore, out| {
        call!(planner_tree(g, d, many, ashore, listed, q, out, length))
    })
}

pub fn preview(given: &Given, (leg, mark): (usize, u32), length: usize) -> Reply {
    let (g, q) = (by_value(given.graph), given.q);
    let (many, listed) = (given.multipliers.len(), given.ashore.len());
    lending(given, length, |d, ashore, out| {
        call!(planner_preview(
            g, d, many, ashore, listed, q, leg, mark, out, length
        ))
    })
}

pub fn rule(given: &Given, ceiling: i64, length: usize) -> Reply {
    let (g, q) = (by_value(given.graph), given.q);
    let (many, listed) = (given.multipliers.len(), given.ashore.len());
    lending(given, length, |d, ashore, out| {
        call!(planner_rule(
            g, d, many, ashore, listed, ceiling, q, out, length
        ))
    })
}
