//! The preview (document 02, C-11): against the reference's tree on a copy, and against the rulings
//! of the library's own rule call, which it decides.

use super::own_rulings::turning_ceiling;
use super::tree::arguments;
use crate::bends;
use crate::document::graph::{Graph, FREE};
use crate::document::law::Law;
use crate::document::tree::{self, Given, Method};
use crate::ffi::trees::{preview, rule};
use crate::ffi::{bound, only, Reply};
use crate::random::Random;
use crate::report::{Hex, Outcome, Suite, Tally};
use planner::raw::NONE;

pub const SUITE: Suite = Suite {
    name: "preview",
    run,
    bends: &[
        bends::LEGS_FROM_ZERO,
        bends::NEW_MARK_OF_THREE,
        bends::FREE_BEFORE_LEG,
        bends::PREVIEW_WITHOUT_MARK,
        bends::LENGTH_BEFORE_VALUE,
        bends::HIGHER_MULTIPLIER,
        bends::BOUND_DIVIDED,
        bends::PREVIEW_NOT_SCALED,
        bends::DENOMINATOR_OF_ZERO,
        bends::HIGHER_DENOMINATOR,
        bends::DENOMINATOR_BEFORE_MULTIPLIERS,
        bends::LEG_BEFORE_DENOMINATOR,
        bends::ASHORE_BYTE_OF_TWO,
        bends::ASHORE_OF_ANY_LENGTH,
        bends::ASHORE_BEFORE_DENOMINATOR,
        bends::LEG_BEFORE_ASHORE,
        bends::FREE_BY_LIST,
        bends::TOUCHED_STAY,
        bends::TOUCHED_REQUIRED_STAY,
        bends::DUE_ASHORE_COUNTS,
        bends::LEGS_OF_ALL,
    ],
};

pub fn expected(
    law: &Law,
    method: Method,
    given: &Given,
    asked: (usize, u32),
    length: usize,
) -> Reply {
    let answer = tree::preview(law, method, given, asked, length);
    let (said, out) = match answer {
        Ok(Some(tree)) => (bound(tree.bound), Some(Hex(tree.edges))),
        Ok(None) => (only(NONE), None),
        Err(refusal) => (only(refusal.number), None),
    };
    Reply {
        said,
        out,
        margins_kept: true,
    }
}

/// A leg and a mark, most of them such as can be asked for.
pub fn asked(random: &mut Random, graph: &Graph) -> (usize, u32) {
    let leg = match random.below(12) {
        0 => 0,
        1 => graph.m + 1,
        2 => random.pick(&[190, 191, 255, 256, usize::MAX]),
        _ => 1 + random.below(graph.m.clamp(1, 190)),
    };
    let mark = match random.below(12) {
        0 => 0,
        1 => 3,
        2 => random.pick(&[4, 255, 256, 257, 258, u32::MAX]),
        3..=7 => 1,
        _ => 2,
    };
    (leg, mark)
}

fn run(law: &Law, tally: &mut Tally) -> Outcome {
    let random = &mut Random::new(0x7072_6576_6965_7773);
    for round in 0..30_000 {
        let small = round % 2 == 0;
        let wrong = round % 6 >= 4;
        let arguments = arguments(random, small, wrong);
        let (given, length) = (arguments.given(), arguments.length);
        let asked = asked(random, given.graph);
        let input = || {
            let (leg, mark) = asked;
            format!("leg {leg}, mark {mark} of {}", arguments.shown())
        };
        let reply = preview(&given, asked, length);
        let methods = if small && given.graph.m <= 16 {
            &[Method::Definition, Method::Kruskal][..]
        } else {
            &[Method::Kruskal][..]
        };
        for method in methods {
            let wanted = expected(law, *method, &given, asked, length);
            tally.compare(&format!("{method:?}"), input, &wanted, &reply)?;
        }
        if !wrong {
            decides(random, tally, &given)?;
        }
    }
    Ok(())
}

/// Where rulings are given, a free leg that touches no buoy ashore is barred exactly when the preview with mark 1 is 'no tree' or
/// above q × ceiling, and forced exactly when the preview with mark 2 is.
fn decides(random: &mut Random, tally: &mut Tally, given: &Given) -> Outcome {
    let (sea, dues) = given.sea(&Law::AS_WRITTEN);
    let (m, q) = (sea.m, given.q);
    let ceiling = turning_ceiling(random, &sea, &dues, q);
    let ruled = rule(given, ceiling, m);
    let Some(Hex(rulings)) = ruled.out else {
        return Ok(());
    };
    for (place, ruling) in rulings.iter().enumerate() {
        if sea.mark[place] != FREE || !random.one_in(4) {
            continue;
        }
        let beyond = |mark| {
            let said = preview(given, (place + 1, mark), m).said;
            said.number == NONE || said.value > q as i64 * ceiling
        };
        let input = || {
            let leg = place + 1;
            format!("{given:?}, ceiling {ceiling}, leg {leg}")
        };
        let wanted = (*ruling == 2, *ruling == 1);
        tally.compare("rulings", input, &wanted, &(beyond(1), beyond(2)))?;
    }
    Ok(())
}
