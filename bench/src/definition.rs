//! Document 01's machine read with document 02's C-13, C-16 and C-23, from their sentences and without a thought of speed: for each ruling one
//! least 1-tree, and one more for each kept edge under its lifted multipliers.

use crate::inputs::{Graph, EXCLUDED, FREE, MAX_MULTIPLIER, REQUIRED};
use crate::planner::{Job, Stored};

/// By edge, whether it belongs.
type Edges = Vec<bool>;

/// A network under multipliers.
struct Charged<'a> {
    graph: &'a Graph,
    d: &'a [i32],
}

impl Charged<'_> {
    fn ends(&self, k: usize) -> [usize; 2] {
        [self.graph.a[k], self.graph.b[k]].map(usize::from)
    }

    fn weight(&self, k: usize) -> i64 {
        let [a, b] = self.ends(k).map(|end| self.d[end - 1] as i64);
        self.graph.cost[k] as i64 + a + b
    }

    fn edges(&self) -> std::ops::Range<usize> {
        0..self.graph.m()
    }

    /// "two at buoy 1, and n − 2 among buoys 2 to n that connect them all. It has every required leg and no struck one."
    fn is_one_tree(&self, set: &Edges) -> bool {
        let mut part: Vec<usize> = (0..=self.graph.n()).collect();
        let (mut first, mut others) = (0, 0);
        for k in self.edges() {
            let mark = self.graph.mark[k];
            if mark == REQUIRED && !set[k] || mark == EXCLUDED && set[k] {
                return false;
            }
            let [a, b] = self.ends(k);
            if set[k] && a == 1 {
                first += 1;
            } else if set[k] {
                let (to, from) = (part[a], part[b]);
                if to == from {
                    return false;
                }
                part.iter_mut()
                    .filter(|p| **p == from)
                    .for_each(|p| *p = to);
                others += 1;
            }
        }
        first == 2 && others + 2 == self.graph.n()
    }

    fn bound(&self, set: &Edges) -> i64 {
        let charged: i64 = self
            .edges()
            .filter(|k| set[*k])
            .map(|k| self.weight(k))
            .sum();
        charged - 2 * self.d.iter().map(|d| *d as i64).sum::<i64>()
    }

    /// The least 1-tree: from the cheapest on whatever may be added, the required ones before all.
    fn least(&self) -> Option<Edges> {
        let mut order: Vec<usize> = self.edges().collect();
        order.retain(|k| self.graph.mark[*k] != EXCLUDED);
        order.sort_by_key(|k| (self.graph.mark[*k] != REQUIRED, self.weight(*k), *k));
        let mut part: Vec<usize> = (0..=self.graph.n()).collect();
        let (mut first, mut set) = (0, vec![false; self.graph.m()]);
        for k in order {
            let [a, b] = self.ends(k);
            let (to, from) = (part[a], part[b]);
            if a == 1 {
                set[k] = first < 2;
                first += 1;
            } else if to != from {
                set[k] = true;
                part.iter_mut()
                    .filter(|p| **p == from)
                    .for_each(|p| *p = to);
            }
        }
        self.is_one_tree(&set).then_some(set)
    }

    /// Whether a 1-tree in which this edge has this mark is within the ceiling.
    fn any_within(&self, k: usize, mark: u8, ceiling: i64) -> bool {
        let mut graph = self.graph.clone();
        graph.mark[k] = mark;
        let marked = Charged {
            graph: &graph,
            d: self.d,
        };
        let least = marked.least();
        least.is_some_and(|set| marked.bound(&set) <= ceiling)
    }
}

/// A pass: its tree, and all exchanges of a tree edge that is not required for an edge outside that is not excluded which give a 1-tree.
struct Pass<'a> {
    charged: Charged<'a>,
    tree: Edges,
    exchanges: Vec<[usize; 2]>,
}

impl<'a> Pass<'a> {
    fn new(charged: Charged<'a>, tree: Edges) -> Pass<'a> {
        let mark = |k: usize| charged.graph.mark[k];
        let mut exchanges = Vec::new();
        for s in charged.edges().filter(|s| tree[*s] && mark(*s) != REQUIRED) {
            for e in charged
                .edges()
                .filter(|e| !tree[*e] && mark(*e) != EXCLUDED)
            {
                let mut set = tree.clone();
                (set[s], set[e]) = (false, true);
                if charged.is_one_tree(&set) {
                    exchanges.push([s, e]);
                }
            }
        }
        Pass {
            charged,
            tree,
            exchanges,
        }
    }

    fn weight(&self, k: usize) -> i64 {
        self.charged.weight(k)
    }

    /// Tree edges that may give way to e, and edges that may take its place.
    fn givers(&self, e: usize) -> impl Iterator<Item = usize> + '_ {
        let all = self.exchanges.iter().filter(move |[_, into]| *into == e);
        all.map(|[out, _]| *out)
    }

    fn takers(&self, e: usize) -> impl Iterator<Item = usize> + '_ {
        let all = self.exchanges.iter().filter(move |[out, _]| *out == e);
        all.map(|[_, into]| *into)
    }

    /// "Of several support or replacement legs equally good, the lowest-numbered is taken"
    fn support(&self, e: usize) -> Option<usize> {
        self.givers(e).min_by_key(|s| (-self.weight(*s), *s))
    }

    fn replacement(&self, e: usize) -> Option<usize> {
        self.takers(e).min_by_key(|r| (self.weight(*r), *r))
    }

    fn reduced_cost(&self, e: usize) -> Option<i64> {
        let s = self.support(e)?;
        Some(self.weight(e) - self.weight(s))
    }

    fn replacement_cost(&self, e: usize) -> Option<i64> {
        let r = self.replacement(e)?;
        Some(self.weight(r) - self.weight(e))
    }

    fn at(&self, i: usize, k: usize) -> bool {
        self.charged.ends(k).contains(&i)
    }

    /// MAXINCREASE: how far end i of e, whose other end is j, may rise. `degree` is that of i in the tree.
    fn rise(&self, e: usize, i: usize, j: usize, degree: usize) -> i64 {
        match self.support(e) {
            Some(s) if i != 1 && !self.at(i, s) && degree >= 2 => {
                let mark = |k: usize| self.charged.graph.mark[k];
                let here = self.charged.edges().filter(|f| self.at(i, *f));
                let first = here
                    .filter(|f| self.tree[*f] && mark(*f) != REQUIRED)
                    .filter_map(|f| self.replacement_cost(f));
                let second = self.givers(e).filter(|f| j != 1 && self.at(i, *f));
                let second = second.map(|f| self.weight(s) - self.weight(f));
                let range = MAX_MULTIPLIER - self.charged.d[i - 1];
                first.chain(second).fold(range as i64, i64::min)
            }
            _ => 0,
        }
    }

    /// MAXDECREASE: how far it may fall.
    fn fall(&self, e: usize, i: usize, j: usize, degree: usize) -> i64 {
        match self.replacement(e) {
            Some(r) if i != 1 && !self.at(i, r) && degree <= 2 => {
                let mark = |k: usize| self.charged.graph.mark[k];
                let here = self.charged.edges().filter(|h| self.at(i, *h));
                let first = here
                    .filter(|h| !self.tree[*h] && mark(*h) != EXCLUDED)
                    .filter_map(|h| self.reduced_cost(h));
                let second = self.takers(e).filter(|h| j != 1 && self.at(i, *h));
                let second = second.map(|h| self.weight(h) - self.weight(r));
                let range = self.charged.d[i - 1] + MAX_MULTIPLIER;
                first.chain(second).fold(range as i64, i64::min)
            }
            _ => 0,
        }
    }

    /// "A leg that the ordinary pass keeps is tried under its lifted dues: outside the tree it is barred, inside it forced, exactly when the
    /// definition in Rulings says so under those dues."
    fn tried(&self, e: usize, ceiling: i64) -> u8 {
        let [a, b] = self.charged.ends(e);
        let mut d = self.charged.d.to_vec();
        for [i, j] in [[a, b], [b, a]] {
            let tree = self.charged.edges().filter(|k| self.tree[*k]);
            let degree = tree.filter(|k| self.at(i, *k)).count();
            d[i - 1] += match self.tree[e] {
                false => self.rise(e, i, j, degree),
                true => -self.fall(e, i, j, degree),
            } as i32;
        }
        let lifted = Charged {
            graph: self.charged.graph,
            d: &d,
        };
        match self.tree[e] {
            false if !lifted.any_within(e, REQUIRED, ceiling) => EXCLUDED,
            true if !lifted.any_within(e, EXCLUDED, ceiling) => REQUIRED,
            _ => FREE,
        }
    }

    /// The marks after the pass.
    fn marks(&self, ceiling: i64, lifting: bool) -> Vec<u8> {
        let mark = |k: usize| match self.charged.graph.mark[k] {
            FREE if !self.charged.any_within(k, REQUIRED, ceiling) => EXCLUDED,
            FREE if !self.charged.any_within(k, EXCLUDED, ceiling) => REQUIRED,
            FREE if lifting => self.tried(k, ceiling),
            mark => mark,
        };
        self.charged.edges().map(mark).collect()
    }
}

/// The search after as many nodes as the job allows.
pub fn search(job: &Job) -> Stored {
    let m = job.graph.m();
    let mut stored = Stored {
        upper: job.ceiling,
        count: 0,
        nodes: vec![(job.graph.mark[..m].to_vec(), job.multipliers.clone())],
        best: None,
    };
    for _ in 0..job.budget {
        let Some((marks, d)) = stored.nodes.pop() else {
            break;
        };
        stored.count += 1;
        if let Some((marks, d)) = passes(job, marks, d, &mut stored) {
            if let Some(k) = marks.iter().position(|mark| *mark == FREE) {
                for mark in [EXCLUDED, REQUIRED] {
                    let mut marks = marks.clone();
                    marks[k] = mark;
                    stored.nodes.push((marks, d.clone()));
                }
            }
        }
    }
    stored
}

/// All passes over one node; its marks and the last multipliers where it stays open.
fn passes(
    job: &Job,
    mut marks: Vec<u8>,
    mut d: Vec<i32>,
    stored: &mut Stored,
) -> Option<(Vec<u8>, Vec<i32>)> {
    let mut graph = job.graph.clone();
    for sweep in 0..=job.sweeps {
        graph.mark[..marks.len()].copy_from_slice(&marks);
        let charged = Charged {
            graph: &graph,
            d: &d,
        };
        let tree = charged.least()?;
        if charged.bound(&tree) > stored.upper {
            return None;
        }
        let mut degree = vec![0; graph.n() + 1];
        let inside = charged.edges().filter(|k| tree[*k]);
        inside
            .flat_map(|k| charged.ends(k))
            .for_each(|end| degree[end] += 1);
        if degree[1..].iter().all(|degree| *degree == 2) {
            find(stored, &tree, charged.bound(&tree));
            return None;
        }
        marks = Pass::new(charged, tree).marks(stored.upper, job.lifting != 0);
        if sweep < job.sweeps {
            for i in 1..graph.n() {
                let gain = job.step as i32 * (degree[i + 1] - 2);
                d[i] = (d[i] + gain).clamp(-MAX_MULTIPLIER, MAX_MULTIPLIER);
            }
        }
    }
    Some((marks, d))
}

/// "On finding a round the ceiling becomes its cost .. and a later round of that cost replaces the best if it comes first."
fn find(stored: &mut Stored, tour: &Edges, cost: i64) {
    let tour: Vec<u8> = tour.iter().map(|chosen| *chosen as u8).collect();
    let first = |best: &Vec<u8>| tour.iter().rev().lt(best.iter().rev());
    if cost < stored.upper || stored.best.as_ref().is_none_or(first) {
        stored.best = Some(tour);
    }
    stored.upper = cost;
}

#[cfg(test)]
mod tests {
    use super::*;
    use crate::agree::{any_ceiling, any_multipliers, sparse};
    use crate::forms::Forms;
    use crate::inputs::{Random, MAX_COST};
    use crate::planner::{Planner, Reference};

    fn same(job: &Job) -> Stored {
        let (mut forms, mut free) = (Forms::new(), Reference::new());
        forms.open(job);
        free.open(job);
        assert_eq!(forms.run(job.budget), free.run(job.budget));
        let stored = search(job);
        assert_eq!(forms.stored(), stored, "the forms and the definition");
        assert_eq!(
            free.stored(),
            stored,
            "the free reference and the definition"
        );
        stored
    }

    /// The same with lifting and without; whether what is stored differs.
    fn lifting_matters(mut job: Job) -> bool {
        let [without, with] = [0, 1].map(|lifting| {
            job.lifting = lifting;
            same(&job)
        });
        without != with
    }

    /// Edges as `1-2:4`, excluded ones with an x at the end.
    fn graph(n: usize, edges: &str) -> Graph {
        let mut graph = Graph::empty(n);
        for edge in edges.split(' ') {
            let mark = if edge.ends_with('x') { EXCLUDED } else { FREE };
            let numbers: Vec<i32> = edge
                .trim_end_matches('x')
                .split(['-', ':'])
                .map(|number| number.parse().expect("a number"))
                .collect();
            graph.add(numbers[0] as u8, numbers[1] as u8, numbers[2], mark);
        }
        graph
    }

    /// The marks after one pass without lifting and after one with it, for multipliers 0; the references' first node must agree.
    fn marks(graph: &Graph, ceiling: i64) -> [Vec<u8>; 2] {
        let d = vec![0; graph.n()];
        lifting_matters(Job {
            graph: graph.clone(),
            multipliers: d.clone(),
            ceiling,
            sweeps: 0,
            step: 0,
            lifting: 0,
            budget: 1,
        });
        [false, true].map(|lifting| {
            let charged = Charged { graph, d: &d };
            let tree = charged.least().expect("a tree");
            Pass::new(charged, tree).marks(ceiling, lifting)
        })
    }

    #[test]
    fn small_graphs_worked_out_by_enumeration() {
        let four = graph(4, "1-2:4 1-3:3 1-4:5 2-3:2 2-4:6 3-4:1");
        assert_eq!(
            marks(&four, 12),
            [vec![0, 0, 0, 1, 2, 1], vec![1, 0, 0, 1, 2, 1]]
        );
        let dead = graph(5, "1-2:0 1-3:2 1-4:2 1-5:3 2-4:0 2-5:1x 3-4:0 4-5:0");
        assert_eq!(
            marks(&dead, 5),
            [vec![0, 0, 0, 0, 1, 2, 1, 1], vec![1, 1, 2, 0, 1, 2, 1, 1]]
        );
        let alone = graph(4, "1-3:3 1-4:1 2-3:0 2-4:0 3-4:0");
        assert_eq!(marks(&alone, 6)[1], [1, 1, 1, 1, 0]);
        let together = graph(4, "1-2:3 1-3:0 1-4:0 2-3:2 2-4:0 3-4:2");
        assert_eq!(marks(&together, 2)[1], [2, 1, 1, 1, 1, 2]);
        let far = graph(4, "1-2:0 1-3:0 1-4:0 2-4:0 3-4:2");
        assert_eq!(marks(&far, 1_000_001)[1], [1, 1, 2, 1, 1]);
        assert_eq!(marks(&far, 1_000_002)[1], [0, 0, 0, 1, 1]);
    }

    fn any_job(random: &mut Random) -> Job {
        let graph = sparse(random);
        let d = any_multipliers(random, graph.n());
        let mut list = vec![0; graph.m()];
        let bound = Reference::new().tree(&graph, &d, &mut list);
        Job {
            ceiling: any_ceiling(random, bound),
            sweeps: random.below(4) as u32,
            step: [0, 1, 20, 10_000][random.below(4)],
            lifting: 0,
            budget: random.between(1, 5) as u64,
            multipliers: d,
            graph,
        }
    }

    /// Cheap edges mostly at vertex 2, which may rise by the whole range; costs are as far apart as can be, and the slack further.
    fn hub_job(random: &mut Random) -> Job {
        let n = random.between(10, 20) as usize;
        let mut graph = Graph::empty(n);
        for a in 1..n as u8 {
            for b in a + 1..=n as u8 {
                let cheap = random.between(0, 99) < if a == 2 { 80 } else { 10 };
                let less = random.between(0, 3) as i32 * MAX_MULTIPLIER;
                let cost = if cheap {
                    less - MAX_COST
                } else {
                    MAX_COST - less
                };
                graph.add(a, b, cost, FREE);
            }
        }
        let mut multipliers = any_multipliers(random, n);
        multipliers[1] = -MAX_MULTIPLIER;
        let mut list = vec![0; graph.m()];
        let bound = Reference::new().tree(&graph, &multipliers, &mut list);
        Job {
            ceiling: bound.expect("a complete graph has a tree")
                + random.between(150, 260) * MAX_MULTIPLIER as i64,
            sweeps: 0,
            step: 0,
            lifting: 0,
            budget: 1,
            multipliers,
            graph,
        }
    }

    #[test]
    fn gains_beyond_any_difference_of_costs() {
        let mut random = Random::new(113);
        let mut differ = 0;
        for _ in 0..500 {
            differ += lifting_matters(hub_job(&mut random)) as u32;
        }
        assert!(differ > 10, "{differ}");
    }

    #[test]
    fn both_references_keep_to_it() {
        let mut random = Random::new(13);
        let mut differ = 0;
        for _ in 0..2_000 {
            differ += lifting_matters(any_job(&mut random)) as u32;
        }
        assert!(differ > 100, "{differ}");
    }
}
