//! Document 02's C-13, 'Lifted dues for a stubborn leg': "Add the SIMPLE change of source document 000, section 4.1, complete policy". An edge that a
//! pass keeps is tried under multipliers of its own. What it may change places with is found by the 1-trees that a change leaves, or by parting
//! the tree; what its trial says by going through all 1-trees, or by finding the least one again with the edge required or excluded.

use super::graph::{Graph, EXCLUDED, FREE, REQUIRED};
use super::law::Law;
use super::rulings::{rule, within, Ruled, BAR, FORCE, KEEP};
use super::tree::{all_one_trees, bound, charged, edges_of, is_one_tree, least, top, Method};

/// A pass that neither closes its node nor finds a tour.
#[derive(Clone, Copy)]
pub struct Pass<'a> {
    pub law: &'a Law,
    pub method: Method,
    /// with the marks at the pass's start
    pub graph: &'a Graph,
    /// "the pass's own dues"
    pub multipliers: &'a [i32],
    pub q: u64,
    /// its tree, a byte for each edge
    pub tree: &'a [u8],
    /// U, in minutes
    pub upper: i64,
}

/// What the ends of an edge are moved by, and the multipliers that it is tried under.
#[derive(Clone, PartialEq, Eq, Debug)]
pub struct Lift {
    /// of end a, of end b: up or down, never less than 0
    pub by: [i64; 2],
    pub multipliers: Vec<i32>,
}

/// A pass, and what its edges may change places with.
pub struct Lifting<'a> {
    pass: Pass<'a>,
    /// w̃ of each edge
    charge: Vec<i64>,
    /// Of an edge outside the tree those that may give way to it, of one inside those that may take its place.
    others: Vec<Vec<usize>>,
    /// The support of an edge outside the tree, the replacement of one inside.
    best: Vec<Option<usize>>,
    /// Every 1-tree, where they are gone through.
    all: Vec<Vec<u8>>,
}

/// What a pass that lifts comes to.
#[derive(Clone, PartialEq, Eq, Debug)]
pub struct Lifted {
    pub rulings: Vec<u8>,
    /// Whether the node closes at it, and the multipliers behind it: under a bent law alone other than no and the pass's own.
    pub closes: bool,
    pub multipliers: Vec<i32>,
}

impl<'a> Lifting<'a> {
    pub fn new(pass: &Pass<'a>) -> Lifting<'a> {
        let Pass {
            law,
            graph,
            multipliers,
            q,
            ..
        } = *pass;
        let m = graph.m;
        let mut lifting = Lifting {
            pass: *pass,
            charge: (0..m)
                .map(|k| charged(law, graph, multipliers, q, k))
                .collect(),
            others: Vec::new(),
            best: Vec::new(),
            all: Vec::new(),
        };
        if pass.method == Method::Definition {
            let sets = all_one_trees(law, graph, multipliers, q).into_iter();
            lifting.all = sets.map(|(set, _)| edges_of(set, m)).collect();
        }
        lifting.others = lifting.exchanges();
        lifting.best = (0..m).map(|e| lifting.best_of(e)).collect();
        lifting
    }

    fn inside(&self, k: usize) -> bool {
        self.pass.tree[k] == 1
    }

    fn touches(&self, k: usize, vertex: usize) -> bool {
        let graph = self.pass.graph;
        graph.a[k] as usize == vertex || graph.b[k] as usize == vertex
    }

    fn mark(&self, k: usize) -> u8 {
        self.pass.graph.mark[k]
    }

    /// Of the tree, "T \ M": a required edge does not give way. Outside, "suppose that forbidden edges were removed".
    fn usable(&self, k: usize) -> bool {
        match self.inside(k) {
            true => self.mark(k) != REQUIRED || !self.pass.law.required_no_support,
            false => self.mark(k) != EXCLUDED,
        }
    }

    /// Which edge of the tree may change places with which one outside.
    fn exchanges(&self) -> Vec<Vec<usize>> {
        let m = self.pass.graph.m;
        let mut others = vec![Vec::new(); m];
        for out in (0..m).filter(|k| self.inside(*k)) {
            let side = self.side(out);
            for new in (0..m).filter(|k| !self.inside(*k) && self.mark(*k) != EXCLUDED) {
                let may = match self.pass.method {
                    Method::Kruskal => self.joins(side, out, new),
                    Method::Definition | Method::Prim => self.leaves_a_tree(out, new),
                };
                if may && self.usable(out) {
                    others[new].push(out);
                }
                if may {
                    others[out].push(new);
                }
            }
        }
        others
    }

    /// Whether the tree without one edge and with another is a 1-tree; the edge that goes may be required here.
    fn leaves_a_tree(&self, out: usize, new: usize) -> bool {
        let mut edges = self.pass.tree.to_vec();
        (edges[out], edges[new]) = (0, 1);
        let graph = self.pass.graph.with_mark(out, FREE);
        is_one_tree(self.pass.law, &graph, &edges)
    }

    /// "removing e from S divides the tree into two components": the vertices, a bit each, beside end a.
    fn side(&self, out: usize) -> u32 {
        let graph = self.pass.graph;
        let mut reached = 1u32 << graph.a[out];
        loop {
            let before = reached;
            let left = (0..graph.m).filter(|k| self.inside(*k) && *k != out && graph.a[*k] != 1);
            for k in left {
                let ends = 1u32 << graph.a[k] | 1u32 << graph.b[k];
                if reached & ends != 0 {
                    reached |= ends;
                }
            }
            if reached == before {
                return reached;
            }
        }
    }

    /// "the edges in E' adjacent to both components", or at vertex 1 any edge there in place of another.
    fn joins(&self, side: u32, out: usize, new: usize) -> bool {
        let graph = self.pass.graph;
        match (graph.a[out] == 1, graph.a[new] == 1) {
            (false, false) => (side >> graph.a[new] ^ side >> graph.b[new]) & 1 == 1,
            (one, other) => one && other,
        }
    }

    /// "The non-mandatory edge .. with maximum weight is the support edge", "The replacement edge r is the one with minimum weight".
    /// "Of several support or replacement legs equally good, the lowest-numbered is taken".
    fn best_of(&self, e: usize) -> Option<usize> {
        let law = self.pass.law;
        let (sign, lowest) = match self.inside(e) {
            true => (1, law.lowest_replacement),
            false => (-1, law.lowest_support),
        };
        let tie = |k: usize| if lowest { k as i64 } else { -(k as i64) };
        let key = |k: &usize| (sign * self.charge[*k], tie(*k));
        self.others[e].iter().copied().min_by_key(key)
    }

    /// The reduced cost of an edge outside the tree, w̃(e) − w̃(s), the replacement cost of one inside, w̃(r) − w̃(e); "or ∞" where there is
    /// no such edge.
    fn dearer(&self, e: usize) -> Option<i64> {
        let best = self.best[e]?;
        Some(match self.inside(e) {
            true => self.charge[best] - self.charge[e],
            false => self.charge[e] - self.charge[best],
        })
    }

    fn degree(&self, vertex: usize) -> usize {
        let at = |k: &usize| self.inside(*k) && self.touches(*k, vertex);
        (0..self.pass.graph.m).filter(at).count()
    }

    /// Lines I1 and D1: the replacement costs of the free tree edges at i, or the reduced costs of the edges there outside the tree.
    fn first_limits(&self, e: usize, i: usize) -> Vec<i64> {
        let across = |k: &usize| self.inside(*k) != self.inside(e) && self.touches(*k, i);
        (0..self.pass.graph.m)
            .filter(|k| across(k) && self.usable(*k))
            .filter_map(|k| self.dearer(k))
            .collect()
    }

    /// Lines I2 and D2: how far those at i that may change places with e are from the best of them. The relaxed policy, that of a bent law,
    /// asks those at i that are no better.
    fn second_limits(&self, e: usize, best: usize, i: usize) -> Vec<i64> {
        let from_best = |k: usize| match self.inside(e) {
            true => self.charge[k] - self.charge[best],
            false => self.charge[best] - self.charge[k],
        };
        if self.pass.law.complete_policy {
            let at = self.others[e].iter().filter(|k| self.touches(**k, i));
            return at.map(|k| from_best(*k)).collect();
        }
        let across = |k: &usize| self.inside(*k) != self.inside(e) && self.touches(*k, i);
        let asked = (0..self.pass.graph.m).filter(|k| across(k) && self.usable(*k));
        asked.map(from_best).filter(|far| *far >= 0).collect()
    }

    /// "i ∉ {1,k,l} ∧ deg_T(i) ≥ 2", or "≤ 2" for an edge of the tree; {k,l} is the support or the replacement.
    fn moves(&self, e: usize, best: usize, i: usize) -> bool {
        let law = self.pass.law;
        let degree = self.degree(i);
        let fit = match self.inside(e) {
            true => degree <= law.falls_to_degree,
            false => degree >= law.rises_from_degree,
        };
        i != 1 && (!self.touches(best, i) || !law.support_stays) && fit
    }

    /// MAXINCREASE(i, j) and MAXDECREASE(i, j) of an edge e with these ends. "Where no leg limits a change the due goes to the end of its range,
    /// and no change passes that end; buoy 1's due stays 0."
    fn change(&self, e: usize, i: usize, j: usize) -> i64 {
        let law = self.pass.law;
        let Some(best) = self.best[e].filter(|best| self.moves(e, *best, i)) else {
            return 0;
        };
        let mut limits = Vec::new();
        if law.first_limit {
            limits.extend(self.first_limits(e, i));
        }
        if law.second_limit && (j != 1 || !law.second_limit_left_out) {
            limits.extend(self.second_limits(e, best, i));
        }
        let due = i64::from(self.pass.multipliers[i - 1]);
        let room = match self.inside(e) {
            true => law.max_multiplier + due,
            false => law.max_multiplier - due,
        };
        if law.lifts_held || limits.is_empty() {
            limits.push(if law.unlimited_goes_on { room } else { 0 });
        }
        limits.into_iter().min().unwrap_or(0)
    }

    /// The multipliers after end i has moved.
    fn moved(&self, e: usize, i: usize, by: i64, multipliers: &[i32]) -> Vec<i32> {
        let signed = if self.inside(e) { -by } else { by };
        let mut multipliers = multipliers.to_vec();
        // Under a bent law a change may pass its end by much.
        let due = (i64::from(multipliers[i - 1]) + signed).clamp(-1 << 30, 1 << 30);
        multipliers[i - 1] = due as i32;
        multipliers
    }

    /// "end a is treated before end b, both from the reduced and replacement costs under the pass's own dues"
    pub fn lift(&self, e: usize) -> Lift {
        let (law, graph) = (self.pass.law, self.pass.graph);
        let (a, b) = (graph.a[e] as usize, graph.b[e] as usize);
        let first = self.change(e, a, b);
        let once = self.moved(e, a, first, self.pass.multipliers);
        let second = match (law.second_end_moves, law.own_dues) {
            (false, _) => 0,
            (_, true) => self.change(e, b, a),
            (_, false) => Lifting::new(&Pass {
                multipliers: &once,
                ..self.pass
            })
            .change(e, b, a),
        };
        Lift {
            by: [first, second],
            multipliers: self.moved(e, b, second, &once),
        }
    }

    /// U in q-ths.
    fn top(&self) -> i64 {
        top(self.pass.law, self.pass.upper, self.pass.q)
    }

    /// Whether some 1-tree is within U under these multipliers: one with edge e, one without it, or any.
    fn some_within(&self, multipliers: &[i32], wanted: Option<(usize, bool)>) -> bool {
        let Pass {
            law,
            method,
            graph,
            q,
            ..
        } = self.pass;
        let low = |bound: i64| {
            let top = self.top();
            within(law, bound, top) && (law.lifted_at_upper_stays || bound < top)
        };
        if method == Method::Definition {
            let mut all = self.all.iter();
            let wants = |edges: &Vec<u8>| wanted.is_none_or(|(e, with)| (edges[e] == 1) == with);
            return all.any(|edges| wants(edges) && low(bound(law, graph, multipliers, q, edges)));
        }
        let marked = match wanted {
            Some((e, true)) => graph.with_mark(e, REQUIRED),
            Some((e, false)) => graph.with_mark(e, EXCLUDED),
            None => graph.clone(),
        };
        least(law, method, &marked, multipliers, q).is_some_and(|tree| low(tree.bound))
    }

    /// "A leg that the ordinary pass keeps is tried under its lifted dues: outside the tree it is barred, inside it forced, exactly when the
    /// definition in Rulings says so under those dues. A 'dead' under lifted dues bars or forces it too."
    pub fn tried(&self, e: usize) -> u8 {
        let law = self.pass.law;
        let dues = self.lift(e).multipliers;
        let dead = !self.some_within(&dues, None);
        if dead && !law.lifted_dead_rules {
            return KEEP;
        }
        let inside = self.inside(e) || dead && !law.dead_by_side;
        match (self.some_within(&dues, Some((e, !inside))), inside) {
            (true, _) => KEEP,
            (false, true) => FORCE,
            (false, false) => BAR,
        }
    }

    /// The same as lines 1 to 6 of the source's Algorithm 1 find it, from Δ alone: no other tree is looked for.
    pub fn by_delta(&self, e: usize) -> u8 {
        let Some(dearer) = self.dearer(e) else {
            return KEEP;
        };
        let Pass {
            law,
            graph,
            multipliers,
            q,
            tree,
            ..
        } = self.pass;
        let mut delta = self.top() - (bound(law, graph, multipliers, q, tree) + dearer);
        let ends = [graph.a[e] as usize, graph.b[e] as usize];
        for (i, by) in ends.into_iter().zip(self.lift(e).by) {
            let degree = self.degree(i) as i64;
            delta -= match self.inside(e) {
                true => -by * (degree - 2) + by,
                false => by * (degree - 2) + by,
            };
        }
        match (delta < 0, self.inside(e)) {
            (false, _) => KEEP,
            (true, true) => FORCE,
            (true, false) => BAR,
        }
    }
}

/// The rulings of a pass that lifts, from its ordinary ones. "Lifted rulings are applied with the pass's own and dues go back afterwards."
pub fn lift(pass: &Pass, ordinary: &[u8]) -> Lifted {
    let law = pass.law;
    let mut sea = pass.graph.clone();
    if !law.lifted_with_list {
        sea.ashore = 0;
    }
    let pass = &Pass {
        graph: &sea,
        ..*pass
    };
    let mut lifted = Lifted {
        rulings: ordinary.to_vec(),
        closes: false,
        multipliers: pass.multipliers.to_vec(),
    };
    let lifting = Lifting::new(pass);
    let kept = |e: &usize| ordinary[*e] == KEEP && pass.graph.mark[*e] == FREE;
    for e in (0..pass.graph.m).filter(kept) {
        let ruling = match law.lifted_together {
            true => lifting.tried(e),
            false => after_the_others(pass, &lifted.rulings, e),
        };
        let dues = lifting.lift(e).multipliers;
        lifted.closes |= law.lifted_dead_closes && !lifting.some_within(&dues, None);
        if ruling != KEEP {
            lifted.rulings[e] = ruling;
        }
        if !law.own_leg_alone {
            others_too(pass, &dues, &mut lifted.rulings);
        }
        if !law.dues_go_back {
            lifted.multipliers = dues;
        }
    }
    lifted
}

/// A bent law's trial: under the marks that the rulings so far make.
fn after_the_others(pass: &Pass, rulings: &[u8], e: usize) -> u8 {
    let mut graph = pass.graph.clone();
    for (mark, ruling) in graph.mark.iter_mut().zip(rulings) {
        match *ruling {
            FORCE => *mark = REQUIRED,
            BAR => *mark = EXCLUDED,
            _ => {}
        }
    }
    let pass = Pass {
        graph: &graph,
        ..*pass
    };
    Lifting::new(&pass).tried(e)
}

/// A bent law's rulings: whatever the lifted multipliers rule of any edge.
fn others_too(pass: &Pass, dues: &[i32], rulings: &mut [u8]) {
    let ruled = rule(pass.law, pass.method, pass.graph, dues, pass.q, pass.upper);
    if let Ruled::Bound { rulings: more, .. } = ruled {
        for (ruling, other) in rulings.iter_mut().zip(more) {
            if *ruling == KEEP {
                *ruling = other;
            }
        }
    }
}
