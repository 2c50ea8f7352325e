//! Document 02's C-13: "A leg that the ordinary pass keeps is tried under its lifted dues". By source document 000, section 4.1, complete
//! policy: one walk of each circle, which the ordinary rulings walk anyway, and then a few steps for each edge and each of its ends.
//!
//! Edges that are barred or forced limit nothing here. Where one would, the change that it allows is enough to bar or to force. The support of a
//! kept edge is kept itself, and so is its replacement. Of equally good ones any will do: an end that lies on one is limited to a change of 0.

use super::climb::{Circle, BAR, FORCE, KEEP, NOWHERE};
use super::grow::Grown;
use super::hang::Hung;
use super::keys::{ends, number, Key, Lanes, BELOW, FAR, LANES, ROOM};
use super::Marks;
use crate::inputs::{MAX_MULTIPLIER, VERTICES};

/// No lifted bound is further above the pass's own, by the changes at both ends together.
pub const MOST: i64 = 2 * MAX_MULTIPLIER as i64 * VERTICES as i64;

/// What a pass does with the edges that it keeps.
pub trait Lifting {
    /// A pass begins; so much its bound may gain.
    fn begin(&mut self, grown: &Grown, d: &Lanes, slack: Key);
    /// The tree is hung up; these are its free edges beside vertex 1.
    fn hung(&mut self, grown: &Grown, hung: &Hung, inside: &[u8]);
    /// The circle of an edge outside is walked. They come in descending order.
    fn note(&mut self, key: Key, circle: &Circle, kept: bool);
    /// All ordinary rulings are made.
    fn try_kept(&mut self, grown: &Grown, hung: &Hung, rulings: &mut Marks);
}

/// Lifting is off.
pub struct Off;

impl Lifting for Off {
    #[inline(always)]
    fn begin(&mut self, _: &Grown, _: &Lanes, _: Key) {}

    #[inline(always)]
    fn hung(&mut self, _: &Grown, _: &Hung, _: &[u8]) {}

    #[inline(always)]
    fn note(&mut self, _: Key, _: &Circle, _: bool) {}

    #[inline(always)]
    fn try_kept(&mut self, _: &Grown, _: &Hung, _: &mut Marks) {}
}

/// A kept edge outside the tree and beside vertex 1.
#[derive(Clone, Copy)]
struct Out {
    /// its reduced cost, and the support's charged cost with the slack
    cost: i64,
    support: i64,
    number: u8,
    /// both ends, and the place of the free tree edge that the circle has there
    ends: [u8; 2],
    near: [u8; 2],
}

/// Lifting is on: room for the trials of one pass.
pub struct On {
    slack: i64,
    outs: [Out; ROOM],
    count: usize,
    /// free tree edges beside vertex 1: they have the places 1 to this
    inside: usize,
    /// by place: the number of the edge above, and its ends, the lower one first
    edge: [u8; LANES],
    ends: [[u8; 2]; LANES],
    /// by vertex: the place of the tree edge above, where this vertex is the end of it
    own: [u8; LANES],
    /// by place and end: the key of the edge there that was last noted to take its place
    taker: [[Key; 2]; LANES],
    /// by vertex: how far the multiplier may rise and fall
    rise: [i64; LANES],
    fall: [i64; LANES],
    /// by vertex: what a bound gains by each unit of a rise, at most by all of it, and by each unit of a fall
    by_rise: [i64; LANES],
    most: [i64; LANES],
    by_fall: [i64; LANES],
}

impl On {
    pub fn blank() -> On {
        let out = Out {
            cost: 0,
            support: 0,
            number: 0,
            ends: [0; 2],
            near: [0; 2],
        };
        On {
            slack: 0,
            outs: [out; ROOM],
            count: 0,
            inside: 0,
            edge: [0; LANES],
            ends: [[0; 2]; LANES],
            own: [0; LANES],
            taker: [[FAR; 2]; LANES],
            rise: [0; LANES],
            fall: [0; LANES],
            by_rise: [0; LANES],
            most: [0; LANES],
            by_fall: [0; LANES],
        }
    }
}

impl Lifting for On {
    /// "Where no leg limits a change the due goes to the end of its range"
    #[inline(always)]
    fn begin(&mut self, grown: &Grown, d: &Lanes, slack: Key) {
        for v in 0..LANES {
            let (d, degree) = (d[v] as i64, grown.degree[v] as i64);
            self.rise[v] = MAX_MULTIPLIER as i64 - d;
            self.fall[v] = MAX_MULTIPLIER as i64 + d;
            self.by_rise[v] = (degree - 1).max(0);
            self.by_fall[v] = (3 - degree).max(0);
        }
        (self.slack, self.count, self.inside) = (weight(slack), 0, 0);
    }

    #[inline(always)]
    fn hung(&mut self, grown: &Grown, hung: &Hung, inside: &[u8]) {
        self.own = [NOWHERE as u8; LANES];
        for k in inside {
            let key = grown.key[*k as usize];
            let (a, b) = ends(key);
            let (x, y) = grown.parts(key);
            let (x, y) = (hung.place[x], hung.place[y]);
            let place = x.max(y) as usize % LANES;
            let (low, high) = if x > y { (a, b) } else { (b, a) };
            self.edge[place] = *k;
            self.ends[place] = [low as u8, high as u8];
            self.own[low] = place as u8;
            self.taker[place] = [FAR; 2];
        }
        self.inside = inside.len();
    }

    /// An edge that is not kept is written as well, and limits nothing.
    #[inline(always)]
    fn note(&mut self, key: Key, circle: &Circle, kept: bool) {
        if circle.dearest == 0 {
            return;
        }
        let (a, b) = ends(key);
        let (x, y) = if circle.turned { (b, a) } else { (a, b) };
        let near = [self.own[x], self.near_lower(circle, y)].map(|place| place as usize % LANES);
        self.taker[near[0]][0] = key;
        self.taker[near[1]][circle.met as usize] = key;
        let support = weight(circle.dearest);
        let cost = weight(key) + self.slack - support;
        let limit = if kept { cost } else { i64::MAX };
        self.fall[x] = self.fall[x].min(limit);
        self.fall[y] = self.fall[y].min(limit);
        self.outs[self.count] = Out {
            cost,
            support,
            number: number(key) as u8,
            ends: [x as u8, y as u8],
            near: near.map(|place| place as u8),
        };
        self.count += kept as usize;
    }

    #[inline(always)]
    fn try_kept(&mut self, grown: &Grown, hung: &Hung, rulings: &mut Marks) {
        self.limit_by_first(grown, rulings);
        self.limit_by_inside(hung, rulings);
        self.try_first(grown, rulings);
        self.try_outside(hung, rulings);
        self.try_inside(hung, rulings);
    }
}

#[inline(always)]
fn weight(key: Key) -> i64 {
    (key >> BELOW) as i64
}

#[inline(always)]
fn vertex(end: u8) -> usize {
    end as usize % LANES
}

impl On {
    /// The place of the circle's tree edge at y, its end at the lower place: the edge above, or where the circle met there one below.
    #[inline(always)]
    fn near_lower(&self, circle: &Circle, y: usize) -> u8 {
        let touches = self.ends[circle.below][1] as usize == y;
        let below = if touches { circle.below } else { NOWHERE };
        // Whether they met is not to be foreseen: no branch.
        let met = (circle.met as u8).wrapping_neg();
        below as u8 & met | self.own[y] & !met
    }

    /// Of the edges at vertex 1 those that are kept, their other ends, and whether they are in the tree.
    #[inline(always)]
    fn kept_first<'a>(
        grown: &'a Grown,
        rulings: &'a Marks,
    ) -> impl Iterator<Item = (Key, usize, bool)> + 'a {
        let keys = grown.first[..grown.firsts].iter();
        let kept = keys.filter(|key| rulings[number(**key)] == KEEP);
        kept.map(|key| (*key, ends(*key).1, *key < grown.least[grown.taken]))
    }

    /// Replacement and reduced costs of the edges at vertex 1.
    fn limit_by_first(&mut self, grown: &Grown, rulings: &Marks) {
        for (key, end, inside) in On::kept_first(grown, rulings) {
            if inside {
                let cost = weight(grown.least[grown.taken]) - weight(key);
                self.rise[end] = self.rise[end].min(cost);
            } else {
                let cost = weight(key) - weight(grown.least[grown.taken - 1]);
                self.fall[end] = self.fall[end].min(cost);
            }
        }
    }

    /// Replacement costs. A step is above its edge's charged cost by the slack.
    fn limit_by_inside(&mut self, hung: &Hung, rulings: &Marks) {
        for place in 1..=self.inside {
            let place = place % LANES;
            if rulings[self.edge[place] as usize] == KEEP {
                let cost = weight(hung.offer[place]) + self.slack - weight(hung.step[place]);
                for end in self.ends[place].map(vertex) {
                    self.rise[end] = self.rise[end].min(cost);
                }
            }
        }
        for v in 0..LANES {
            self.most[v] = self.rise[v] * self.by_rise[v];
        }
    }

    /// "buoy 1's due stays 0", and the other end has no limit but those.
    fn try_first(&self, grown: &Grown, rulings: &mut Marks) {
        let next = grown.least[grown.taken];
        for key in &grown.first[..grown.firsts] {
            let (ruling, end) = (&mut rulings[number(*key)], ends(*key).1);
            if *ruling != KEEP {
                continue;
            }
            if *key < next {
                let cost = weight(next) - weight(*key);
                if cost + self.fall[end] * self.by_fall[end] > self.slack {
                    *ruling = FORCE;
                }
            } else {
                let cost = weight(*key) - weight(grown.least[grown.taken - 1]);
                if cost + self.most[end] > self.slack {
                    *ruling = BAR;
                }
            }
        }
    }

    /// "U < bound + reduced cost + ..": both ends rise.
    fn try_outside(&self, hung: &Hung, rulings: &mut Marks) {
        for out in &self.outs[..self.count] {
            let [a, b] = out.ends.map(vertex);
            if out.cost + self.most[a] + self.most[b] <= self.slack {
                continue;
            }
            let gain = |end: usize, near: u8| {
                let giver = weight(hung.step[near as usize % LANES]);
                self.rise[end].min(out.support - giver) * self.by_rise[end]
            };
            if out.cost + gain(a, out.near[0]) + gain(b, out.near[1]) > self.slack {
                rulings[out.number as usize] = BAR;
            }
        }
    }

    /// "U < bound + replacement cost + ..": both ends fall.
    fn try_inside(&self, hung: &Hung, rulings: &mut Marks) {
        for place in 1..=self.inside {
            let place = place % LANES;
            let ruling = &mut rulings[self.edge[place] as usize];
            let (replacement, [a, b]) = (weight(hung.offer[place]), self.ends[place].map(vertex));
            let cost = replacement + self.slack - weight(hung.step[place]);
            let gain = |end: usize, taker: Key| {
                self.fall[end].min(weight(taker) - replacement) * self.by_fall[end]
            };
            let [low, high] = self.taker[place];
            if *ruling == KEEP && cost + gain(a, low) + gain(b, high) > self.slack {
                *ruling = FORCE;
            }
        }
    }
}
