//! 'The 1-tree': the least one by definition, by Kruskal and by Prim.

use super::ashore::{self, dues, haul, legs};
use super::graph::{fits, Graph, EXCLUDED, FREE, REQUIRED};
use super::law::Law;
use super::{refuse, Refusal};

/// A 1-tree: "the bound, and in a lent list one byte a leg, 1 in, 0 out".
#[derive(Clone, PartialEq, Eq, Debug)]
pub struct Tree {
    pub bound: i64,
    pub edges: Vec<u8>,
}

/// What every call about 1-trees takes.
#[derive(Clone, Copy, Debug)]
pub struct Given<'a> {
    pub graph: &'a Graph,
    pub multipliers: &'a [i32],
    /// Document 02, C-20: "a list of n bytes, 1 for ashore, 0 for afloat"
    pub ashore: &'a [u8],
    pub q: u64,
}

impl<'a> Given<'a> {
    /// With no buoy ashore.
    pub fn afloat(graph: &'a Graph, multipliers: &'a [i32], q: u64) -> Given<'a> {
        Given {
            graph,
            multipliers,
            ashore: ashore::none(graph),
            q,
        }
    }

    /// The same with this list.
    pub fn hauled(self, ashore: &'a [u8]) -> Given<'a> {
        Given { ashore, ..self }
    }

    /// The chart that the list makes, and its dues.
    pub fn sea(&self, law: &Law) -> (Graph, Vec<i32>) {
        let sea = haul(law, self.graph, self.ashore);
        (sea, dues(law, self.multipliers, self.ashore))
    }
}

/// How the least tree is found.
#[derive(Clone, Copy, PartialEq, Eq, Debug)]
pub enum Method {
    Definition,
    Kruskal,
    Prim,
}

/// A due in q-ths. Document 02's C-17: "dues and step count in q-ths".
fn units(law: &Law, multiplier: i32, q: u64) -> i64 {
    let times = if law.multipliers_in_units { 1 } else { q };
    multiplier as i64 * times as i64
}

/// "The charged cost of leg a–b is cost + d(a) + d(b)", and of document 02's C-17 "The charged cost becomes q × cost plus
/// the two dues".
pub fn charged(law: &Law, graph: &Graph, multipliers: &[i32], q: u64, k: usize) -> i64 {
    let (a, b) = (graph.a[k] as usize, graph.b[k] as usize);
    let dues = units(law, multipliers[a - 1], q) + units(law, multipliers[b - 1], q);
    q as i64 * graph.cost[k] as i64 + dues
}

/// "A 1-tree's bound is the sum of its charged costs less twice the sum of all dues." In q-ths: "the bound is scaled
/// likewise".
pub fn bound(law: &Law, graph: &Graph, multipliers: &[i32], q: u64, edges: &[u8]) -> i64 {
    let chosen = (0..graph.m).filter(|k| edges[*k] == 1);
    let costs: i64 = chosen.map(|k| charged(law, graph, multipliers, q, k)).sum();
    let all: i64 = multipliers.iter().map(|d| units(law, *d, q)).sum();
    costs - law.multipliers_off * all
}

/// C-17: a bound "is compared with q × ceiling".
pub fn top(law: &Law, ceiling: i64, q: u64) -> i64 {
    let q = if law.ceiling_scaled { q as i64 } else { 1 };
    // A bound of which only whole minutes count may be up to a minute higher.
    let parts = if law.parts_compared { 0 } else { q - 1 };
    q * ceiling + parts
}

/// A bound as it is answered.
pub fn told(law: &Law, bound: i64, q: u64) -> i64 {
    match law.bound_scaled {
        true => bound,
        false => bound.div_euclid(q as i64),
    }
}

/// "A 1-tree is n legs: two at buoy 1, and n − 2 among buoys 2 to n that connect them all. It has
/// every required leg and no struck one." Of document 02's C-20: "1-trees are over the afloat buoys, with as many legs as there are afloat".
pub fn is_one_tree(law: &Law, graph: &Graph, edges: &[u8]) -> bool {
    let mut at_first = 0;
    let mut others = Vec::new();
    for (k, chosen) in edges.iter().enumerate() {
        let wrong = if *chosen == 1 { EXCLUDED } else { REQUIRED };
        if graph.mark[k] == wrong && (wrong == EXCLUDED || law.required_kept) {
            return false;
        }
        if *chosen == 1 && graph.a[k] == 1 {
            at_first += 1;
        } else if *chosen == 1 {
            others.push((graph.a[k], graph.b[k]));
        }
    }
    at_first == 2 && others.len() + 2 == legs(law, graph) && connect_all(law, graph, &others)
}

/// The vertices beside vertex 1 that a 1-tree connects.
fn beside_first<'a>(law: &'a Law, graph: &'a Graph) -> impl Iterator<Item = usize> + 'a {
    (2..=graph.n).filter(|vertex| graph.is_afloat(*vertex) || !law.legs_of_afloat)
}

/// Whether every vertex beside vertex 1 can be reached from the first of them.
fn connect_all(law: &Law, graph: &Graph, edges: &[(u8, u8)]) -> bool {
    let all: u32 = beside_first(law, graph).map(|vertex| 1 << vertex).sum();
    let mut reached = all & all.wrapping_neg();
    loop {
        let before = reached;
        for (a, b) in edges {
            let ends = 1u32 << a | 1u32 << b;
            if reached & ends != 0 {
                reached |= ends;
            }
        }
        if reached == before {
            return all & !reached == 0;
        }
    }
}

pub fn edges_of(set: u32, m: usize) -> Vec<u8> {
    (0..m).map(|k| (set >> k & 1) as u8).collect()
}

/// Every 1-tree with its bound, by going through all sets of edges; m at most 16. Edge k is bit
/// k - 1 of the set, so that of two sets the one that lacks the highest edge in which they differ is
/// the smaller number.
pub fn all_one_trees(law: &Law, graph: &Graph, multipliers: &[i32], q: u64) -> Vec<(u32, i64)> {
    assert!(graph.m <= 16, "too many edges to go through all sets");
    (0..1u32 << graph.m)
        .filter(|set| set.count_ones() as usize == legs(law, graph))
        .map(|set| (set, edges_of(set, graph.m)))
        .filter(|(_, edges)| is_one_tree(law, graph, edges))
        .map(|(set, edges)| (set, bound(law, graph, multipliers, q, &edges)))
        .collect()
}

fn by_definition(law: &Law, graph: &Graph, multipliers: &[i32], q: u64) -> Option<Tree> {
    let all = all_one_trees(law, graph, multipliers, q);
    let first = all.iter().min_by_key(|(set, bound)| {
        let tie = if law.lower_numbered_first {
            *set
        } else {
            !*set
        };
        (*bound, tie)
    });
    first.map(|(set, bound)| Tree {
        bound: *bound,
        edges: edges_of(*set, graph.m),
    })
}

/// The edges by charged cost, of equals the lower number first.
pub fn order(law: &Law, graph: &Graph, multipliers: &[i32], q: u64) -> Vec<usize> {
    let mut order: Vec<usize> = (0..graph.m).collect();
    if !law.lower_numbered_first {
        order.reverse();
    }
    order.sort_by_cached_key(|k| charged(law, graph, multipliers, q, *k));
    order
}

/// A 1-tree in the making: the part to which each vertex belongs, and the edges taken.
struct Growing {
    part: [u8; 21],
    edges: Vec<u8>,
    at_first: usize,
    others: usize,
}

impl Growing {
    /// Takes an edge unless it is a third one at vertex 1 or closes a circle beside it.
    fn take(&mut self, graph: &Graph, k: usize) -> bool {
        let (a, b) = (graph.a[k] as usize, graph.b[k] as usize);
        if a == 1 {
            if self.at_first == 2 {
                return false;
            }
            self.at_first += 1;
        } else {
            let (from, to) = (self.part[a], self.part[b]);
            if from == to {
                return false;
            }
            let moved = self.part.iter_mut().filter(|part| **part == from);
            moved.for_each(|part| *part = to);
            self.others += 1;
        }
        self.edges[k] = 1;
        true
    }
}

/// Kruskal over edges that are in order already: every required edge, or there is no tree; then
/// each free one that can be taken.
pub fn kruskal(law: &Law, graph: &Graph, order: &[usize]) -> Option<Vec<u8>> {
    let mut tree = Growing {
        part: std::array::from_fn(|vertex| vertex as u8),
        edges: vec![0; graph.m],
        at_first: 0,
        others: 0,
    };
    let marked = |mark: u8| {
        order
            .iter()
            .copied()
            .filter(move |k| graph.mark[*k] == mark)
    };
    for k in marked(REQUIRED) {
        if !tree.take(graph, k) && law.required_kept {
            return None;
        }
    }
    for k in marked(FREE) {
        tree.take(graph, k);
    }
    (tree.at_first == 2 && tree.others + 2 == legs(law, graph)).then_some(tree.edges)
}

/// C-12: "the loop takes the free legs among these buoys by charged cost, of equals the lower number
/// first, and ends as soon as those buoys are connected": at how many free legs it looked, and what it
/// took of all legs among these buoys.
pub fn looked(law: &Law, graph: &Graph, multipliers: &[i32], q: u64) -> (usize, Vec<u8>) {
    let mut tree = Growing {
        part: std::array::from_fn(|vertex| vertex as u8),
        edges: vec![0; graph.m],
        at_first: 0,
        others: 0,
    };
    let all = order(law, graph, multipliers, q);
    let among = |mark: u8| {
        all.iter()
            .copied()
            .filter(move |k| graph.a[*k] != 1 && graph.mark[*k] == mark)
    };
    let enough = |tree: &Growing| tree.others + law.parts_left + 2 >= legs(law, graph);
    let mut looked = 0;
    for k in among(REQUIRED) {
        if !law.required_first {
            looked += 1;
        }
        tree.take(graph, k);
    }
    let mut beyond = 0;
    for k in among(FREE) {
        if enough(&tree) {
            if beyond == law.looked_beyond {
                break;
            }
            beyond += 1;
        }
        looked += 1;
        tree.take(graph, k);
    }
    (looked, tree.edges)
}

/// The same from C-12's last demand alone: "the shortest beginning of this order that, with the
/// required legs, connects them, or at all where none does". No parts are kept: each beginning is
/// walked through from vertex 2.
pub fn looked_by_definition(law: &Law, graph: &Graph, multipliers: &[i32], q: u64) -> usize {
    let among = |mark: u8| move |k: &usize| graph.a[*k] != 1 && graph.mark[*k] == mark;
    let pair = |k: usize| (graph.a[k], graph.b[k]);
    let order = order(law, graph, multipliers, q);
    let free: Vec<_> = order
        .iter()
        .copied()
        .filter(among(FREE))
        .map(pair)
        .collect();
    let required: Vec<_> = (0..graph.m).filter(among(REQUIRED)).map(pair).collect();
    let connects = |p: &usize| {
        let legs: Vec<_> = free[..*p].iter().chain(&required).copied().collect();
        connect_all(law, graph, &legs)
    };
    (0..free.len()).find(connects).unwrap_or(free.len())
}

fn by_kruskal(law: &Law, graph: &Graph, multipliers: &[i32], q: u64) -> Option<Tree> {
    let edges = kruskal(law, graph, &order(law, graph, multipliers, q))?;
    Some(Tree {
        bound: bound(law, graph, multipliers, q, &edges),
        edges,
    })
}

/// Prim from the first vertex beside vertex 1: again and again the first edge that leaves the vertices reached, where
/// required ones come before all others. A required edge left out would close a circle: no tree.
fn by_prim(law: &Law, graph: &Graph, multipliers: &[i32], q: u64) -> Option<Tree> {
    let key = |k: &usize| {
        let tie = *k as i64 * if law.lower_numbered_first { 1 } else { -1 };
        let required = graph.mark[*k] == REQUIRED;
        (!required, charged(law, graph, multipliers, q, *k), tie)
    };
    let usable = || (0..graph.m).filter(|k| graph.mark[*k] != EXCLUDED);
    let mut first: Vec<usize> = usable().filter(|k| graph.a[*k] == 1).collect();
    first.sort_by_key(key);
    let mut edges = vec![0; graph.m];
    edges[*first.first()?] = 1;
    edges[*first.get(1)?] = 1;
    let mut reached = [false; 21];
    let mut others = beside_first(law, graph);
    reached[others.next()?] = true;
    for _ in others {
        let leaving = usable().filter(|k| {
            let (a, b) = (graph.a[*k] as usize, graph.b[*k] as usize);
            a != 1 && reached[a] != reached[b]
        });
        let k = leaving.min_by_key(key)?;
        edges[k] = 1;
        reached[graph.a[k] as usize] = true;
        reached[graph.b[k] as usize] = true;
    }
    let left_out = |k: usize| graph.mark[k] == REQUIRED && edges[k] == 0;
    if law.required_kept && (0..graph.m).any(left_out) {
        return None;
    }
    Some(Tree {
        bound: bound(law, graph, multipliers, q, &edges),
        edges,
    })
}

/// "The 1-tree of least bound", or none: 'no tree'. The graph, the multipliers and q must be fit.
pub fn least(
    law: &Law,
    method: Method,
    graph: &Graph,
    multipliers: &[i32],
    q: u64,
) -> Option<Tree> {
    match method {
        Method::Definition => by_definition(law, graph, multipliers, q),
        Method::Kruskal => by_kruskal(law, graph, multipliers, q),
        Method::Prim => by_prim(law, graph, multipliers, q),
    }
}

/// C-17: "a denominator q, 1 to 1,000".
pub fn denominator_fits(law: &Law, q: u64) -> bool {
    (law.min_denominator..=law.max_denominator).contains(&q)
}

/// C-17: "32 when q is out of range".
fn admit_denominator(law: &Law, q: u64) -> Result<(), Refusal> {
    match denominator_fits(law, q) {
        true => Ok(()),
        false => refuse(32, 0),
    }
}

/// C-20: "35 when a byte is above 1, buoy 1 is ashore, or fewer than three are afloat".
fn admit_ashore(law: &Law, ashore: &[u8]) -> Result<(), Refusal> {
    match ashore::fits(law, ashore) {
        true => Ok(()),
        false => refuse(35, 0),
    }
}

/// What a bent law tests before another number: 32 or 35.
pub fn admit_early(law: &Law, given: &Given, number: u32) -> Result<(), Refusal> {
    if law.denominator_before == number {
        admit_denominator(law, given.q)?;
    }
    match law.ashore_before == number {
        true => admit_ashore(law, given.ashore),
        false => Ok(()),
    }
}

/// C-17's 32, which C-20's 35 "follows".
pub fn admit_last(law: &Law, given: &Given) -> Result<(), Refusal> {
    admit_early(law, given, 32)?;
    admit_denominator(law, given.q)?;
    admit_ashore(law, given.ashore)
}

/// Whether these are dues: "The due range counts units", whatever q.
pub fn multipliers_fit(law: &Law, multipliers: &[i32], q: u64) -> bool {
    let times = if law.range_counts_units {
        1
    } else {
        q.min(1_000) as i64
    };
    let range = -law.max_multiplier * times..=law.max_multiplier * times;
    let all = multipliers.iter().all(|d| range.contains(&(*d as i64)));
    all && (!law.first_multiplier_zero || multipliers[0] == 0)
}

/// Refusals 15, 11 and 12 "in this order"; `list` is the length of the lent list, if any. Of C-20 "The list's length comes under 11", and 12
/// judges the dues as they are sent.
pub fn admit(law: &Law, given: &Given, list: Option<usize>) -> Result<(), Refusal> {
    let Given {
        graph,
        multipliers,
        ashore,
        q,
    } = *given;
    let value = fits(law, graph);
    let lengths = multipliers.len() == graph.n
        && (ashore.len() == graph.n || !law.ashore_length)
        && list.is_none_or(|length| length == graph.m);
    if law.value_before_length && !value {
        return refuse(15, 0);
    }
    if !lengths {
        return refuse(11, 0);
    }
    if !value {
        return refuse(15, 0);
    }
    admit_early(law, given, 12)?;
    let judged = match law.dues_ashore_judged {
        true => multipliers.to_vec(),
        false => dues(&Law::AS_WRITTEN, multipliers, ashore),
    };
    match multipliers_fit(law, &judged, q) {
        true => Ok(()),
        false => refuse(12, 0),
    }
}

/// The least tree of the chart that the list makes, as it is answered. The mark is that in the chart sent, or in the preview's copy of it.
fn answered(law: &Law, method: Method, given: &Given) -> Option<Tree> {
    let (sea, multipliers) = given.sea(law);
    let mut tree = least(law, method, &sea, &multipliers, given.q)?;
    tree.bound = told(law, tree.bound, given.q);
    if !law.touched_in_no_tree {
        let touched = (0..sea.m).filter(|k| sea.touches_ashore(*k));
        touched
            .filter(|k| given.graph.mark[*k] == REQUIRED)
            .for_each(|k| tree.edges[k] = 1);
    }
    Some(tree)
}

/// The tree call on a lent list of `length` bytes; `None` is 'no tree'. C-17 adds 32 at the end, and C-20 35.
pub fn call(
    law: &Law,
    method: Method,
    given: &Given,
    length: usize,
) -> Result<Option<Tree>, Refusal> {
    admit(law, given, Some(length))?;
    admit_last(law, given)?;
    Ok(answered(law, method, given))
}

/// Document 02's C-11: "It answers exactly as the tree call does on a copy of the chart with that
/// mark". "30 when the leg is not 1 to m or the new mark not 1 or 2, and 31 when the leg is not free;
/// they follow 15, 11 and 12 in that order." C-17: 32 is tested "in the preview, before 30", and so is C-20's 35.
pub fn preview(
    law: &Law,
    method: Method,
    given: &Given,
    (leg, mark): (usize, u32),
    length: usize,
) -> Result<Option<Tree>, Refusal> {
    admit(law, given, Some(length))?;
    let graph = given.graph;
    if law.ashore_before_leg && law.denominator_before_leg {
        admit_last(law, given)?;
    } else if law.denominator_before_leg {
        admit_denominator(law, given.q)?;
    }
    let place = leg.wrapping_sub(law.first_leg);
    let known = place < graph.m && (1..=law.max_new_mark).contains(&mark);
    let marks = match law.free_by_chart {
        true => graph.clone(),
        false => haul(law, graph, given.ashore),
    };
    let free = place < graph.m && marks.mark[place] == FREE;
    if !law.preview_free_last && place < graph.m && !free {
        return refuse(31, 0);
    }
    if !known {
        return refuse(30, 0);
    }
    if !free {
        return refuse(31, 0);
    }
    admit_last(law, given)?;
    let q = if law.preview_scaled { given.q } else { 1 };
    let mut copy = graph.clone();
    if law.preview_marks {
        copy.mark[place] = mark as u8;
    }
    let remarked = Given {
        graph: &copy,
        q,
        ..*given
    };
    Ok(answered(law, method, &remarked))
}
