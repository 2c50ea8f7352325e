//! A stored node (document 02, C-19): "a node's required legs in one row of 64-bit words and its struck legs in another". In hand a node has a
//! mark for each edge; eight of them change form at a time.

use super::Marks;
use crate::inputs::PLACES;

/// Words of a row.
pub const ROW: usize = PLACES.div_ceil(64);

/// That of the required edges, then that of the excluded ones: edge k, counted from 0, is bit k % 64 of word k / 64.
pub type Rows = [u64; 2 * ROW];

/// The lowest bit of each byte.
const ONES: u64 = 0x0101_0101_0101_0101;

/// The lowest bits of eight bytes, that of the first byte lowest.
fn gathered(bytes: u64) -> u64 {
    (bytes & ONES).wrapping_mul(0x0102_0408_1020_4080) >> 56
}

/// For eight bits: each as the lowest of a byte.
const SPREAD: [u64; 256] = {
    let mut all = [0; 256];
    let mut bits = 0;
    while bits < 256 {
        let mut place = 0;
        while place < 8 {
            all[bits] |= (bits as u64 >> place & 1) << (8 * place);
            place += 1;
        }
        bits += 1;
    }
    all
};

/// The rows' words of 64 marks. These are 0, 1 and 2: the lowest bit is 'required', the next 'excluded'.
#[inline(always)]
fn words(marks: &[u8; 64]) -> (u64, u64) {
    let (blocks, _) = marks.as_chunks::<8>();
    let (mut required, mut excluded) = (0, 0);
    for (i, block) in blocks.iter().enumerate() {
        let eight = u64::from_le_bytes(*block);
        required |= gathered(eight) << (8 * i);
        excluded |= gathered(eight >> 1) << (8 * i);
    }
    (required, excluded)
}

/// The rows of the first m marks; those past m are free.
#[inline(always)]
pub fn packed(marks: &Marks, m: usize) -> Rows {
    let mut rows = [0; 2 * ROW];
    let (blocks, rest) = marks.as_chunks::<64>();
    for (i, block) in blocks.iter().take(m.div_ceil(64)).enumerate() {
        (rows[i], rows[ROW + i]) = words(block);
    }
    if m > 64 * blocks.len() {
        let mut last = [0; 64];
        last[..rest.len()].copy_from_slice(rest);
        (rows[ROW - 1], rows[2 * ROW - 1]) = words(&last);
    }
    rows
}

/// The first m marks; those past m are left as they are, free.
#[inline(always)]
pub fn unpack(rows: &Rows, m: usize, marks: &mut Marks) {
    let eight = |i: usize| {
        let byte = |word: u64| SPREAD[(word >> (8 * i % 64)) as usize % 256];
        (byte(rows[i / 8]) | byte(rows[ROW + i / 8]) << 1).to_le_bytes()
    };
    let (blocks, rest) = marks.as_chunks_mut::<8>();
    if m > 8 * blocks.len() {
        rest.copy_from_slice(&eight(blocks.len())[..rest.len()]);
    }
    for (i, block) in blocks.iter_mut().take(m.div_ceil(8)).enumerate() {
        *block = eight(i);
    }
}

/// The lowest-numbered free edge, counted from 0.
pub fn lowest_free(rows: &Rows, m: usize) -> Option<usize> {
    let (required, excluded) = rows.split_at(ROW);
    let free = |i: usize| !(required[i] | excluded[i] | past(m, i));
    let word = (0..ROW).find(|i| free(*i) != 0)?;
    Some(64 * word + free(word).trailing_zeros() as usize)
}

/// Bits of a row's word from edge m on.
fn past(m: usize, word: usize) -> u64 {
    match m.saturating_sub(64 * word) {
        0 => u64::MAX,
        used if used < 64 => u64::MAX << used,
        _ => 0,
    }
}

/// Whether no edge is in both rows, none past m in either, and at least `least` are required.
pub fn fit(rows: &Rows, m: usize, least: usize) -> bool {
    let (required, excluded) = rows.split_at(ROW);
    let wrong = |i: usize| required[i] & excluded[i] | (required[i] | excluded[i]) & past(m, i);
    let any = (0..ROW).fold(0, |any, i| any | wrong(i));
    let ones: u32 = required.iter().map(|word| word.count_ones()).sum();
    any == 0 && least <= ones as usize
}

/// The rows with edge k, counted from 0 and free, required.
pub fn requiring(mut rows: Rows, k: usize) -> Rows {
    rows[k / 64] |= 1 << (k % 64);
    rows
}

/// The rows with edge k, counted from 0 and free, excluded.
pub fn excluding(mut rows: Rows, k: usize) -> Rows {
    rows[ROW + k / 64] |= 1 << (k % 64);
    rows
}
