//! Document 02's C-20, 'Buoys hauled out': "In winter some buoys are ashore and the ship must not call." What a call's list makes of its chart
//! and its dues. The buoys and the legs keep their numbers.

use super::graph::{Graph, EXCLUDED, REQUIRED};
use super::law::Law;

/// "35 when a byte is above 1, buoy 1 is ashore, or fewer than three are afloat": whether it is none of these.
pub fn fits(law: &Law, ashore: &[u8]) -> bool {
    let first = ashore.first().is_some_and(|byte| *byte != 0);
    let afloat = ashore.iter().filter(|byte| **byte == 0).count();
    ashore.iter().all(|byte| *byte <= law.max_ashore)
        && (!first || !law.first_afloat)
        && afloat >= law.least_afloat
}

/// "A leg touching such a buoy counts as struck, whatever its mark".
pub fn haul(law: &Law, graph: &Graph, ashore: &[u8]) -> Graph {
    let mut sea = graph.clone();
    for (vertex, byte) in (1..=graph.n).zip(ashore) {
        sea.ashore |= u32::from(*byte != 0) << vertex;
    }
    for k in 0..graph.m {
        let counts = graph.mark[k] != REQUIRED || law.touched_required_struck;
        if sea.touches_ashore(k) && law.touched_struck && counts {
            sea.mark[k] = EXCLUDED;
        }
    }
    sea
}

/// "the buoy's due counts as 0"
pub fn dues(law: &Law, multipliers: &[i32], ashore: &[u8]) -> Vec<i32> {
    let mut dues = multipliers.to_vec();
    for (due, byte) in dues.iter_mut().zip(ashore) {
        if *byte != 0 && law.due_ashore_zero {
            *due = 0;
        }
    }
    dues
}

/// "with as many legs as there are afloat": how many legs a 1-tree or a round has.
pub fn legs(law: &Law, graph: &Graph) -> usize {
    match law.legs_of_afloat {
        true => graph.afloat().count(),
        false => graph.n,
    }
}

/// A list with no buoy ashore, for any n that a call can be sent.
pub static NONE: [u8; 256] = [0; 256];

/// The list of a chart of which no buoy is ashore.
pub fn none(graph: &Graph) -> &'static [u8] {
    &NONE[..graph.n.min(NONE.len())]
}
