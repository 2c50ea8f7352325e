//! Document 02's C-13: each edge that a pass keeps is tried under multipliers lifted for it alone, by source document 000, section 4.1,
//! complete policy. All of them together cost a pass two walks over the edges, with a few steps for each: the ordinary rulings' own, and one
//! more over those that it keeps.
//!
//! Only kept edges count. The support of a kept edge is kept, for that edge may take its place within the slack, and so is the replacement.
//! Where an edge that the pass bars or forces limits a change, that change bars or forces the edge in question. Nor does it matter
//! which of equally good supports and replacements is taken, and whether an end lies on it: there the limits leave a change of 0.

use super::pass::{Changes, Pass};
use super::{number, Edge, Key, LANES, ROOM};
use crate::inputs::MAX_MULTIPLIER;

/// A kept edge outside the tree and beside vertex 0.
#[derive(Clone, Copy, Default)]
struct Out {
    key: Key,
    /// its reduced cost
    gain: i64,
    /// the free tree edges on the circle that it closes
    circle: u32,
    a: u8,
    b: u8,
}

/// Room for the trials of one pass; nothing is handed on to the next.
pub struct Lift {
    /// ascending
    outs: [Out; ROOM],
    len: usize,
    /// by bit of a free tree edge: charged cost, that of the replacement, and ends
    weight: [i64; LANES],
    replacement: [i64; LANES],
    ends: [(u8, u8); LANES],
    /// the cheapest kept edge at the first end, and at the second, that may take its place
    taker: [[i64; 2]; LANES],
    /// bits of those whose replacement is not known yet
    waits: u32,
    /// by vertex: bits of the free tree edges there, and of those whose cheapest taker there is not known yet
    at: [u32; LANES],
    waits_at: [u32; LANES],
    /// how far the multiplier may rise and fall, and what a bound gains by each unit
    rise: [i64; LANES],
    fall: [i64; LANES],
    by_rise: [i64; LANES],
    by_fall: [i64; LANES],
    /// what it gains at most where an end rises
    most: [i64; LANES],
}

impl Pass {
    /// As `rule`, and what is kept is tried under lifted multipliers.
    pub fn rule_lifted(&mut self, slack: i64, lift: &mut Lift, changes: &mut Changes) {
        let limit = Pass::gain(slack);
        let inside = self.rule_first(limit, changes);
        lift.begin(self);
        let forced = self.rule_others(limit, changes, |key, edge, circle, outside| {
            lift.note(key, edge, circle, outside)
        });
        let lifted = lift.try_all(self, self.bits() & !forced, inside, slack, changes);
        if forced | lifted != 0 {
            self.force(forced | lifted, changes);
        }
    }

    /// Takes keys, which ascend, from the list of free edges beside vertex 0.
    fn bar(&mut self, keys: &[Key]) {
        let Some(first) = keys.first() else {
            return;
        };
        let start = self.others.slice().partition_point(|key| key < first);
        let (mut next, mut kept) = (0, start);
        for i in start..self.others.len {
            let key = self.others.at[i];
            let barred = next < keys.len() && key == keys[next];
            self.others.at[kept] = key;
            kept += !barred as usize;
            next += barred as usize;
        }
        self.others.len = kept;
    }
}

impl Lift {
    pub fn new() -> Lift {
        Lift {
            outs: [Out::default(); ROOM],
            len: 0,
            weight: [0; LANES],
            replacement: [0; LANES],
            ends: [(0, 0); LANES],
            taker: [[0; 2]; LANES],
            waits: 0,
            at: [0; LANES],
            waits_at: [0; LANES],
            rise: [0; LANES],
            fall: [0; LANES],
            by_rise: [0; LANES],
            by_fall: [0; LANES],
            most: [0; LANES],
        }
    }

    /// "Where no leg limits a change the due goes to the end of its range"
    fn begin(&mut self, pass: &Pass) {
        const MOST: i64 = MAX_MULTIPLIER as i64;
        let vertices = pass.n.next_multiple_of(4).min(LANES);
        for v in 0..vertices {
            let (d, degree) = (pass.multipliers[v] as i64, pass.degree[v] as i64);
            (self.rise[v], self.fall[v]) = (MOST - d, MOST + d);
            (self.by_rise[v], self.by_fall[v]) = (degree - 1, (3 - degree).max(0));
            self.at[v] = 0;
        }
        for bit in 0..pass.taken.min(LANES) {
            let key = pass.tree[bit];
            let Edge { a, b, .. } = pass.edges[number(key)];
            self.weight[bit] = weight(key);
            self.ends[bit] = (a, b);
            self.at[place(a)] |= 1 << bit;
            self.at[place(b)] |= 1 << bit;
        }
        for v in 0..vertices {
            self.waits_at[v] = if self.by_fall[v] > 0 { self.at[v] } else { 0 };
        }
        self.waits = pass.bits();
        self.len = 0;
    }

    /// The next of the edges beside vertex 0, which ascend. Nothing comes of those that are not kept outside the tree.
    #[inline(always)]
    fn note(&mut self, key: Key, Edge { a, b, .. }: Edge, circle: u32, outside: bool) {
        let gain = weight(key) - self.weight[dearest(circle)];
        self.outs[self.len] = Out {
            key,
            gain,
            circle,
            a,
            b,
        };
        self.len += outside as usize;
        let (a, b) = (place(a), place(b));
        let limit = if outside { gain } else { i64::MAX };
        self.fall[a] = self.fall[a].min(limit);
        self.fall[b] = self.fall[b].min(limit);
        // Few are the first at anything.
        let circle = if outside { circle } else { 0 };
        if circle & (self.waits | self.waits_at[a] | self.waits_at[b]) != 0 {
            for bit in bits(circle & self.waits) {
                self.replacement[bit] = weight(key);
            }
            self.waits &= !circle;
            self.note_taker(weight(key), circle, a);
            self.note_taker(weight(key), circle, b);
        }
    }

    /// The tree edge at this end gets its cheapest taker there.
    #[inline(always)]
    fn note_taker(&mut self, weight: i64, circle: u32, end: usize) {
        let near = circle & self.waits_at[end];
        if near != 0 {
            let bit = near.trailing_zeros() as usize % LANES;
            self.taker[bit][(place(self.ends[bit].1) == end) as usize] = weight;
            self.waits_at[end] ^= near;
        }
    }

    /// Tries all kept edges. The bits of the tree edges beside vertex 0 that are forced, which stay in the list; all others that are ruled
    /// leave the lists and go to `changes`.
    fn try_all(
        &mut self,
        pass: &mut Pass,
        kept: u32,
        inside: usize,
        slack: i64,
        changes: &mut Changes,
    ) -> u32 {
        if kept == 0 && inside == 0 {
            return 0;
        }
        self.limits_at_first(pass, inside);
        self.limits_inside(kept);
        self.try_first(pass, inside, slack, changes);
        let barred = changes.barred.len;
        self.try_outside(slack, changes);
        pass.bar(&changes.barred.slice()[barred..]);
        self.try_inside(kept, slack)
    }

    /// Vertex 0 stays as it is: an edge there limits its other end.
    fn limits_at_first(&mut self, pass: &Pass, inside: usize) {
        let (tree, outs) = pass.first.slice().split_at(inside);
        let (Some(dearest), Some(cheapest)) = (tree.last(), outs.first()) else {
            return;
        };
        for key in tree {
            let rise = &mut self.rise[other_end(pass, *key)];
            *rise = (*rise).min(weight(*cheapest) - weight(*key));
        }
        for key in outs {
            let fall = &mut self.fall[other_end(pass, *key)];
            *fall = (*fall).min(weight(*key) - weight(*dearest));
        }
    }

    /// Replacement costs.
    fn limits_inside(&mut self, kept: u32) {
        for bit in bits(kept) {
            let gain = self.replacement[bit] - self.weight[bit];
            let (a, b) = self.ends[bit];
            for rise in [place(a), place(b)] {
                self.rise[rise] = self.rise[rise].min(gain);
            }
        }
        for v in 0..LANES {
            self.most[v] = self.rise[v] * self.by_rise[v];
        }
    }

    /// Both ends of each kept tree edge fall; the bits of those that are then forced.
    fn try_inside(&self, kept: u32, slack: i64) -> u32 {
        let mut forced = 0;
        for bit in bits(kept) {
            let (replacement, (a, b)) = (self.replacement[bit], self.ends[bit]);
            let mut gain = replacement - self.weight[bit];
            for (end, taker) in [a, b].into_iter().zip(self.taker[bit]) {
                let end = place(end);
                let has_taker = (self.at[end] & !self.waits_at[end]) >> bit & 1 == 1;
                let limit = if has_taker && self.by_fall[end] > 0 {
                    taker - replacement
                } else {
                    i64::MAX
                };
                gain += self.fall[end].min(limit) * self.by_fall[end];
            }
            forced |= ((gain > slack) as u32) << bit;
        }
        forced
    }

    /// Both ends of each kept edge outside the tree rise.
    fn try_outside(&self, slack: i64, changes: &mut Changes) {
        for i in 0..self.len {
            let out = self.outs[i];
            let (a, b) = (place(out.a), place(out.b));
            if out.gain + self.most[a] + self.most[b] <= slack {
                continue;
            }
            let gain = out.gain + self.gain_at(&out, a) + self.gain_at(&out, b);
            if gain > slack {
                changes.barred.push(out.key);
            }
        }
    }

    /// What a bound gains by the rise of one end.
    #[inline(always)]
    fn gain_at(&self, out: &Out, end: usize) -> i64 {
        let near = out.circle & self.at[end];
        let limit = if near != 0 {
            let support = weight(out.key) - out.gain;
            support - self.weight[near.trailing_zeros() as usize % LANES]
        } else {
            i64::MAX
        };
        self.rise[end].min(limit) * self.by_rise[end]
    }

    /// At vertex 0 only the other end moves, and no edge on a circle limits it.
    fn try_first(&mut self, pass: &mut Pass, inside: usize, slack: i64, changes: &mut Changes) {
        let (tree, outs) = pass.first.slice().split_at(inside);
        let (Some(dearest), Some(cheapest)) = (tree.last(), outs.first()) else {
            return;
        };
        let (dearest, cheapest) = (weight(*dearest), weight(*cheapest));
        let mut kept = 0;
        for i in 0..pass.first.len {
            let key = pass.first.at[i];
            let end = other_end(pass, key);
            let (gain, changed) = if i < inside {
                let gain = cheapest - weight(key) + self.fall[end] * self.by_fall[end];
                (gain, &mut changes.forced)
            } else {
                (weight(key) - dearest + self.most[end], &mut changes.barred)
            };
            pass.first.at[kept] = key;
            kept += (gain <= slack) as usize;
            if gain > slack {
                changed.push(key);
                if i < inside {
                    pass.required.add(pass.edges[number(key)]);
                }
            }
        }
        pass.first.len = kept;
    }
}

#[inline(always)]
fn place(vertex: u8) -> usize {
    vertex as usize % LANES
}

#[inline(always)]
fn weight(key: Key) -> i64 {
    (key >> 8) as i64
}

/// The dearest bit of a circle, which has one.
#[inline(always)]
fn dearest(circle: u32) -> usize {
    31 - (circle | 1).leading_zeros() as usize
}

/// The end besides vertex 0.
#[inline(always)]
fn other_end(pass: &Pass, key: Key) -> usize {
    place(pass.edges[number(key)].b)
}

/// Places of the bits that are set.
#[inline(always)]
fn bits(mut set: u32) -> impl Iterator<Item = usize> {
    std::iter::from_fn(move || {
        (set != 0).then(|| {
            let bit = set.trailing_zeros() as usize % LANES;
            set &= set - 1;
            bit
        })
    })
}
