//! Which edges of a node are not excluded: deep in a search few, and their bits lie far apart.

use super::keys::ROOM;
use super::rows::{Rows, ROW};

const ONES: u64 = 0x0101_0101_0101_0101;

/// Edge numbers, and room for the last eight to be written at once.
pub type Numbers = [u8; ROOM + 8];

/// For eight bits: the places of those that are set, a byte each, and how many they are.
const SET_PLACES: [(u64, u64); 256] = {
    let mut all = [(0, 0); 256];
    let mut bits = 0;
    while bits < 256 {
        all[bits] = set_places(bits as u64);
        bits += 1;
    }
    all
};

const fn set_places(bits: u64) -> (u64, u64) {
    let (mut places, mut count, mut place) = (0, 0, 0);
    while place < 8 {
        if bits >> place & 1 == 1 {
            places |= place << (8 * count);
            count += 1;
        }
        place += 1;
    }
    (places, count)
}

/// Puts down the numbers of the first m edges that are not excluded, ascending, and gives their count: eight bits of the row at a time and without a
/// branch on any of them.
#[inline(always)]
pub fn live(rows: &Rows, m: usize, numbers: &mut Numbers) -> usize {
    let (mut count, mut first) = (0, 0);
    for i in 0..m.div_ceil(8) {
        let live = !(rows[ROW + i / 8] >> (8 * i % 64));
        let (places, more) = SET_PLACES[live as usize % 256];
        numbers[count..count + 8].copy_from_slice(&(places + first).to_le_bytes());
        count += more as usize;
        first += 8 * ONES;
    }
    // Bits past m are clear, as if their edges were free.
    count - (m.next_multiple_of(8) - m)
}
