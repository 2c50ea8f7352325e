//! The rulings, by swapping each edge outside the tree with edges on the circle that it closes.

use super::grow::Grown;
use super::hang::Hung;
use super::keys::{limit, number, Key, Lanes, BELOW, LANES};
use super::lift::{Lifting, MOST};
use super::order::Order;
use super::Marks;
use crate::inputs::{Graph, FREE, PLACES, WIDEST};

pub const KEEP: u8 = 0;
pub const FORCE: u8 = 1;
pub const BAR: u8 = 2;

/// A tree and the order from which it was grown, under these multipliers; its bound is `slack` below the ceiling.
pub struct Growth<'a> {
    pub grown: &'a Grown,
    pub order: &'a Order,
    pub d: &'a Lanes,
    pub slack: i64,
}

/// Rules every edge.
pub fn rule(
    graph: &Graph,
    growth: &Growth,
    hung: &mut Hung,
    lifting: &mut impl Lifting,
    rulings: &mut Marks,
) {
    let Growth {
        grown, order, d, ..
    } = *growth;
    let slack = (growth.slack.min(WIDEST + MOST + 1) as Key) << BELOW;
    begin(graph, rulings);
    lifting.begin(grown, d, slack);
    rule_first(grown, slack, rulings);
    let inside = &grown.edges[grown.required..graph.n() - 2];
    let [refused, rest] = grown.outside(order);
    if inside.is_empty() || refused.is_empty() && rest.is_empty() {
        // Nothing can be swapped.
        inside.iter().for_each(|k| rulings[*k as usize] = FORCE);
    } else {
        hung.hang(grown, inside.len(), slack);
        lifting.hung(grown, hung, inside);
        // In descending order, so that the last offer to a tree edge is the least.
        rule_outside(hung, grown, rest, lifting, rulings);
        rule_outside(hung, grown, refused, lifting, rulings);
        rule_inside(hung, grown, inside, rulings);
    }
    lifting.try_kept(grown, hung, rulings);
}

/// Bars every free edge, sixteen at a time; the last ones may come twice.
fn begin(graph: &Graph, rulings: &mut Marks) {
    for start in (0..graph.m()).step_by(16) {
        let start = start.min(PLACES - 16);
        let marks: &[u8; 16] = graph.mark[start..].first_chunk().expect("sixteen");
        let rulings = rulings[start..].first_chunk_mut().expect("sixteen");
        *rulings = marks.map(|mark| if mark == FREE { BAR } else { mark + 2 });
    }
    let end = (graph.m() + 16).min(PLACES);
    rulings[graph.m()..end].fill(KEEP);
}

/// At vertex 1: swaps with the dearest free tree edge there, and with the cheapest outside.
fn rule_first(grown: &Grown, slack: Key, rulings: &mut Marks) {
    let taken = grown.taken;
    if taken == 0 {
        return;
    }
    let highest = limit(grown.least[taken - 1], slack);
    for key in &grown.first[..grown.firsts] {
        if *key <= highest {
            rulings[number(*key)] = KEEP;
        }
    }
    let next = grown.least[taken];
    for key in &grown.least[..taken] {
        let forced = next > limit(*key, slack);
        rulings[number(*key)] = if forced { FORCE } else { KEEP };
    }
}

/// Swaps edges outside the tree, from the dearest down.
fn rule_outside(
    hung: &mut Hung,
    grown: &Grown,
    keys: &[Key],
    lifting: &mut impl Lifting,
    rulings: &mut Marks,
) {
    for key in keys.iter().rev() {
        let circle = hung.walk(grown, *key);
        let barred = circle.dearest < *key;
        rulings[number(*key)] = if barred { BAR } else { KEEP };
        lifting.note(*key, &circle, !barred);
    }
}

/// A free tree edge is forced if the least key that was offered for it is too dear.
fn rule_inside(hung: &Hung, grown: &Grown, inside: &[u8], rulings: &mut Marks) {
    for k in inside.iter().map(|k| *k as usize) {
        let (a, b) = grown.parts(grown.key[k]);
        // The lower end's.
        let place = hung.place[a].max(hung.place[b]) as usize % LANES;
        let forced = hung.offer[place] > hung.step[place] | 255;
        rulings[k] = if forced { FORCE } else { KEEP };
    }
}

/// What a walk along the circle of an edge finds.
pub struct Circle {
    /// the dearest key that a tree edge there can be swapped with; 0 where all are required
    pub dearest: Key,
    /// whether the edge's second end is at the higher place
    pub turned: bool,
    /// whether the end at the higher place climbed to the part of the other, and the last place before
    pub met: bool,
    pub below: usize,
}

/// A place that no tree edge has.
pub const NOWHERE: usize = LANES - 1;

impl Circle {
    const REQUIRED: Circle = Circle {
        dearest: 0,
        turned: false,
        met: true,
        below: NOWHERE,
    };
}

impl Hung {
    /// Walks the circle that an edge closes and offers it to each tree edge there. The end at the higher
    /// place climbs until it is no longer the higher, then the other, until they meet.
    #[inline(always)]
    fn walk(&mut self, grown: &Grown, key: Key) -> Circle {
        let (a, b) = grown.parts(key);
        let (a, b) = (self.place[a] as usize, self.place[b] as usize);
        let (mut x, mut y) = (a.max(b), a.min(b));
        if x == y {
            // Only required edges are on the circle.
            return Circle::REQUIRED;
        }
        let low = y;
        let mut dearest = 0;
        let mut below;
        'circle: loop {
            loop {
                let step = self.step[x % LANES];
                self.offer[x % LANES] = key;
                dearest = step.max(dearest);
                below = x;
                x = step as usize % LANES;
                if x > y {
                    continue;
                }
                if x == y {
                    break 'circle;
                }
                break;
            }
            (x, y) = (y, x);
        }
        Circle {
            dearest: dearest | 255,
            turned: b > a,
            met: y == low,
            below: below % LANES,
        }
    }
}
