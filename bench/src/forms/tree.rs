//! The calls of the tree part: one graph and multipliers in, tree and rulings out.

use super::check::{ceiling_fits, graph_fits, multipliers_fit};
use super::climb::{self, Growth};
use super::grow::Grown;
use super::hang::Hung;
use super::keys::{lanes, Lanes, LANES};
use super::lift::{Lifting, Off};
use super::order::Order;
use super::rows::packed;
use super::{Marks, Multipliers};
use crate::inputs::{Graph, PLACES};

/// The least 1-tree.
#[derive(Clone, Copy)]
pub struct Tree {
    pub bound: i64,
    /// numbers of its n edges
    pub edges: [u8; LANES],
    /// edges at each vertex, by number
    pub degree: [u8; LANES],
}

pub enum Answer {
    /// no 1-tree is within the ceiling
    Infeasible,
    Within(Tree),
}

/// What the caller lends for passes on one graph: the order of the edges in the pass before, on which
/// no answer depends, and room. Where an edge may no longer be excluded, the caller lists them anew.
pub struct Work<L> {
    pub order: Order,
    grown: Grown,
    hung: Hung,
    lifting: L,
}

impl<L: Lifting> Work<L> {
    #[inline(always)]
    pub fn blank(lifting: L) -> Work<L> {
        Work {
            order: Order::blank(),
            grown: Grown::blank(),
            hung: Hung::blank(),
            lifting,
        }
    }
}

/// One pass: the least 1-tree and, where it is within the ceiling, all rulings.
pub fn pass<L: Lifting>(
    graph: &Graph,
    d: &Multipliers,
    ceiling: i64,
    work: &mut Work<L>,
    rulings: &mut Marks,
) -> Answer {
    let d = &lanes(d);
    let (order, grown) = (&mut work.order, &mut work.grown);
    order.sort(graph, d);
    let bound = match grown.grow(graph, d, order) {
        Some(bound) if bound <= ceiling => bound,
        _ => return Answer::Infeasible,
    };
    let growth = Growth {
        grown,
        order,
        d,
        slack: ceiling - bound,
    };
    let (hung, lifting) = (&mut work.hung, &mut work.lifting);
    climb::rule(graph, &growth, hung, lifting, rulings);
    Answer::Within(Tree {
        bound,
        edges: grown.edges,
        degree: grown.degree,
    })
}

/// The multipliers by vertex; none where a check of the input fails.
fn fit(graph: &Graph, d: &[i32], length: usize) -> Option<Lanes> {
    let fits =
        graph_fits(graph) && d.len() == graph.n() && length == graph.m() && multipliers_fit(d);
    fits.then(|| {
        let mut all = [0; LANES];
        all[1..=d.len()].copy_from_slice(d);
        all
    })
}

/// One graph by itself: the bound of its least 1-tree.
fn alone(graph: &Graph, d: &Lanes, grown: &mut Grown, order: &mut Order) -> Option<i64> {
    order.list(graph, &packed(&graph.mark, graph.m()));
    order.sort(graph, d);
    grown.grow(graph, d, order)
}

/// The bound of the least 1-tree, whose bytes are then in `out`; none is 'no tree'.
pub fn tree(graph: &Graph, d: &[i32], out: &mut [u8]) -> Option<i64> {
    let d = fit(graph, d, out.len()).expect("unfit");
    let (mut grown, mut order) = (Grown::blank(), Order::blank());
    let bound = alone(graph, &d, &mut grown, &mut order)?;
    out.fill(0);
    for k in &grown.edges[..graph.n()] {
        out[*k as usize] = 1;
    }
    Some(bound)
}

/// The bound, and the rulings in `out`; none is 'dead'.
pub fn rule(graph: &Graph, d: &[i32], ceiling: i64, out: &mut [u8]) -> Option<i64> {
    let d = fit(graph, d, out.len()).expect("unfit");
    assert!(ceiling_fits(ceiling), "unfit");
    let (mut grown, mut hung) = (Grown::blank(), Hung::blank());
    let mut order = Order::blank();
    let bound = alone(graph, &d, &mut grown, &mut order).filter(|bound| *bound <= ceiling)?;
    let growth = Growth {
        grown: &grown,
        order: &order,
        d: &d,
        slack: ceiling - bound,
    };
    let mut rulings = [0; PLACES];
    climb::rule(graph, &growth, &mut hung, &mut Off, &mut rulings);
    out.copy_from_slice(&rulings[..graph.m()]);
    Some(bound)
}
