//! 'Rulings': by going through all 1-trees, and by marking each edge and finding the tree again.

use super::graph::{Graph, EXCLUDED, FREE, REQUIRED};
use super::law::Law;
use super::tree::{
    admit, admit_early, admit_last, all_one_trees, bound, kruskal, least, order, told, top, Given,
    Method,
};
use super::{refuse, Refusal};

pub const KEEP: u8 = 0;
pub const FORCE: u8 = 1;
pub const BAR: u8 = 2;
pub const ALREADY_REQUIRED: u8 = 3;
pub const ALREADY_EXCLUDED: u8 = 4;

#[derive(Clone, PartialEq, Eq, Debug)]
pub enum Ruled {
    /// 'Dead'.
    Infeasible,
    Bound {
        bound: i64,
        rulings: Vec<u8>,
    },
}

/// Whether a bound is within the ceiling: "at or below".
pub fn within(law: &Law, bound: i64, ceiling: i64) -> bool {
    if law.ceiling_within {
        bound <= ceiling
    } else {
        bound < ceiling
    }
}

/// One ruling, from whether some 1-tree within the ceiling has the edge, and some lacks it.
fn ruling(mark: u8, some_with: bool, some_without: bool) -> u8 {
    match mark {
        REQUIRED => ALREADY_REQUIRED,
        EXCLUDED => ALREADY_EXCLUDED,
        _ if !some_with => BAR,
        _ if !some_without => FORCE,
        _ => KEEP,
    }
}

fn by_definition(law: &Law, graph: &Graph, multipliers: &[i32], q: u64, ceiling: i64) -> Ruled {
    let all = all_one_trees(law, graph, multipliers, q);
    let Some(bound) = all.iter().map(|(_, bound)| *bound).min() else {
        return Ruled::Infeasible;
    };
    if bound > ceiling {
        return Ruled::Infeasible;
    }
    let low: Vec<u32> = all
        .iter()
        .filter(|(_, bound)| within(law, *bound, ceiling))
        .map(|(set, _)| *set)
        .collect();
    let rulings = (0..graph.m).map(|k| {
        let with = low.iter().any(|set| set >> k & 1 == 1);
        let without = low.iter().any(|set| set >> k & 1 == 0);
        ruling(graph.mark[k], with, without)
    });
    Ruled::Bound {
        bound,
        rulings: rulings.collect(),
    }
}

/// A 1-tree with an edge is a 1-tree of the graph in which that edge is required; one without it,
/// of the graph in which it is excluded. `bound_of` gives a graph's least bound, if it has a tree.
fn by_marking(
    law: &Law,
    graph: &Graph,
    ceiling: i64,
    bound_of: impl Fn(&Graph) -> Option<i64>,
) -> Ruled {
    let Some(bound) = bound_of(graph).filter(|bound| *bound <= ceiling) else {
        return Ruled::Infeasible;
    };
    let some = |least: Option<i64>| least.is_some_and(|bound| within(law, bound, ceiling));
    let nothing = law.no_replacement.map(|more| bound + more);
    let mut base = graph.clone();
    if !law.required_stay {
        let marks = base.mark[..graph.m].iter_mut();
        marks
            .filter(|mark| **mark == REQUIRED)
            .for_each(|mark| *mark = FREE);
    }
    let rulings = (0..graph.m).map(|k| match graph.mark[k] {
        FREE => {
            let with = some(bound_of(&base.with_mark(k, REQUIRED)));
            let without = some(bound_of(&graph.with_mark(k, EXCLUDED)).or(nothing));
            ruling(FREE, with, without)
        }
        mark => ruling(mark, true, true),
    });
    Ruled::Bound {
        bound,
        rulings: rulings.collect(),
    }
}

/// "The rule call": the graph, the multipliers, the ceiling and q must be fit. Bounds are compared in q-ths. Kruskal
/// sorts once: the order of the edges does not depend on marks.
pub fn rule(
    law: &Law,
    method: Method,
    graph: &Graph,
    multipliers: &[i32],
    q: u64,
    ceiling: i64,
) -> Ruled {
    let ceiling = top(law, ceiling, q);
    match method {
        Method::Definition => by_definition(law, graph, multipliers, q, ceiling),
        Method::Kruskal => {
            let order = order(law, graph, multipliers, q);
            by_marking(law, graph, ceiling, |graph| {
                let edges = kruskal(law, graph, &order)?;
                Some(bound(law, graph, multipliers, q, &edges))
            })
        }
        Method::Prim => by_marking(law, graph, ceiling, |graph| {
            least(law, Method::Prim, graph, multipliers, q).map(|tree| tree.bound)
        }),
    }
}

/// Refusal 13.
pub fn ceiling_fits(law: &Law, ceiling: i64) -> bool {
    (-law.max_ceiling..=law.max_ceiling).contains(&ceiling)
}

/// The rule call on a lent list of `length` bytes. C-17 adds 32 at the end, and C-20 35.
pub fn call(
    law: &Law,
    method: Method,
    given: &Given,
    ceiling: i64,
    length: usize,
) -> Result<Ruled, Refusal> {
    admit(law, given, Some(length))?;
    admit_early(law, given, 13)?;
    if !ceiling_fits(law, ceiling) {
        return refuse(13, 0);
    }
    admit_last(law, given)?;
    let (sea, multipliers) = given.sea(law);
    Ok(
        match rule(law, method, &sea, &multipliers, given.q, ceiling) {
            Ruled::Bound { bound, rulings } => Ruled::Bound {
                bound: told(law, bound, given.q),
                rulings: answered(law, given, &sea, rulings),
            },
            Ruled::Infeasible => Ruled::Infeasible,
        },
    )
}

/// The rulings as they are answered: a bent law's go by the mark that a touched leg has in the chart.
fn answered(law: &Law, given: &Given, sea: &Graph, mut rulings: Vec<u8>) -> Vec<u8> {
    for k in (0..sea.m).filter(|k| sea.touches_ashore(*k) && !law.touched_ruled_struck) {
        rulings[k] = ruling(given.graph.mark[k], false, true);
    }
    rulings
}
