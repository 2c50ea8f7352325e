//! 'The hunt' as a machine: its state, the calls, their answers, and the refusals 11 to 15 and 20 to
//! 23. (24 never comes up: nobody else writes the record.)

use super::ashore::{dues, haul, none};
use super::graph::{Graph, EXCLUDED, FREE, REQUIRED};
use super::law::Law;
use super::lifting::{self, Pass};
use super::rulings::{self, ceiling_fits, Ruled, BAR, FORCE};
use super::tours::{cost, is_tour};
use super::tree::{self, Given, Method};
use super::{refuse, Refusal};

/// The machine's state while a search is open: "the arguments of the accepted opening with the
/// present ceiling U, a pile of waiting nodes, the best round or none, and a count".
#[derive(Clone, PartialEq, Eq, Debug)]
pub struct Search {
    pub graph: Graph,
    pub multipliers: Vec<i32>,
    /// C-20's list
    pub ashore: Vec<u8>,
    /// the opening's; nothing changes it
    pub ceiling: i64,
    pub sweeps: u32,
    pub step: u32,
    /// C-17's q
    pub denominator: u64,
    /// C-13's "yes or no at opening": 1 or 0
    pub lifting: u64,
    /// U, in minutes
    pub upper: i64,
    /// "a pile of waiting nodes", from bottom to top
    pub stack: Vec<Node>,
    pub incumbent: Option<Vec<u8>>,
    pub count: u64,
    /// the one list of multipliers that all nodes share, under a bent law; otherwise none
    shared: Option<Vec<i32>>,
}

/// A waiting node: "each a mark per leg"; document 02, C-16: "A piled node now carries the dues that its parent had after its last pass".
#[derive(Clone, PartialEq, Eq, Debug)]
pub struct Node {
    pub marks: Vec<u8>,
    pub multipliers: Vec<i32>,
}

#[derive(Clone, PartialEq, Eq, Debug)]
pub enum Call {
    Open {
        graph: Box<Graph>,
        multipliers: Vec<i32>,
        ashore: Vec<u8>,
        ceiling: i64,
        sweeps: u32,
        step: u32,
        denominator: u64,
        /// 0 is no, any other number yes
        lifting: u64,
    },
    Run {
        budget: u64,
    },
    Tell,
    /// with a list of this many bytes
    Show {
        length: usize,
    },
    Close,
}

impl Call {
    /// An opening under zero dues, with one pass a node and no buoy ashore.
    pub fn plain(graph: &Graph, ceiling: i64, denominator: u64, lifting: u64) -> Call {
        Call::Open {
            multipliers: vec![0; graph.n],
            ashore: none(graph).to_vec(),
            graph: Box::new(graph.clone()),
            ceiling,
            sweeps: 0,
            step: 0,
            denominator,
            lifting,
        }
    }

    /// The same opening with this list of buoys ashore.
    pub fn hauled(mut self, list: &[u8]) -> Call {
        if let Call::Open { ashore, .. } = &mut self {
            *ashore = list.to_vec();
        }
        self
    }

    /// The same opening with so many sweeps, and this step.
    pub fn swept(mut self, times: u32, by: u32) -> Call {
        if let Call::Open { sweeps, step, .. } = &mut self {
            (*sweeps, *step) = (times, by);
        }
        self
    }

    /// The same opening, asked to lift by this number.
    pub fn lifted(mut self, asked: u64) -> Call {
        if let Call::Open { lifting, .. } = &mut self {
            *lifting = asked;
        }
        self
    }
}

#[derive(Clone, Copy, PartialEq, Eq, Debug)]
pub enum Verdict {
    GoingOn,
    None,
    Cost(i64),
}

#[derive(Clone, PartialEq, Eq, Debug)]
pub enum Answer {
    Refused(Refusal),
    Accepted,
    Ran { finished: bool, count: u64 },
    Told { verdict: Verdict, count: u64 },
    Shown(Vec<u8>),
}

/// The machine; `None` is 'no hunt', "as on a fresh record".
#[derive(Clone)]
pub struct Machine {
    law: Law,
    method: Method,
    pub search: Option<Search>,
}

impl Search {
    /// "Finished means an empty pile."
    pub fn finished(&self) -> bool {
        self.stack.is_empty()
    }

    pub fn verdict(&self) -> Verdict {
        match &self.incumbent {
            _ if !self.finished() => Verdict::GoingOn,
            None => Verdict::None,
            Some(edges) => Verdict::Cost(cost(&self.graph, edges)),
        }
    }

    /// The verdict as it is told: of C-17 "the costs of rounds stay in minutes".
    fn told(&self, law: &Law) -> Verdict {
        match self.verdict() {
            Verdict::Cost(cost) if !law.costs_in_minutes => {
                Verdict::Cost(self.denominator as i64 * cost)
            }
            verdict => verdict,
        }
    }

    /// The highest bound, in q-ths, that is not above U.
    fn top(&self, law: &Law) -> i64 {
        match law.upper_scaled {
            true => tree::top(law, self.upper, self.denominator),
            false => self.upper,
        }
    }

    fn run(&mut self, law: &Law, method: Method, budget: u64) {
        let mut left = budget;
        while left > 0 && self.count < (1 << 63) - 1 {
            let Some(node) = self.stack.pop() else {
                return;
            };
            self.count += 1;
            left -= 1;
            self.open_node(law, method, node);
        }
    }

    /// Document 02, C-13: "The machine in document 01 is read with this change" where its opening says so, in each pass.
    fn lifts(&self, law: &Law, pass: u32) -> bool {
        let asked = self.lifting != 0 && law.lifts_where_asked;
        (asked || law.lifts_unasked) && (law.every_pass_lifts || pass == self.sweeps)
    }

    /// Passes 0 to 'sweeps' over one node, which "opens with" the dues that it carries, then its two children.
    fn open_node(&mut self, law: &Law, method: Method, node: Node) {
        let Node {
            mut marks,
            mut multipliers,
        } = node;
        if !law.multipliers_inherited {
            multipliers = dues(law, &self.multipliers, &self.ashore);
        }
        if let (false, Some(shared)) = (law.multipliers_apart, &self.shared) {
            multipliers = shared.clone();
        }
        for pass in 0..=self.sweeps {
            let graph = haul(law, &self.graph, &self.ashore).with_marks(&marks);
            let top = self.top(law);
            let tree = match tree::least(law, method, &graph, &multipliers, self.denominator) {
                Some(tree) if tree.bound < top => tree,
                Some(tree) if tree.bound == top && law.equal_bound_stays => tree,
                _ => return,
            };
            if is_tour(&graph, &tree.edges) && (law.round_of_afloat || graph.ashore == 0) {
                self.find(law, tree.edges);
                return;
            }
            let found = self.ruled(law, method, &graph, &mut multipliers, &tree.edges, pass);
            let Some(rulings) = found else {
                return;
            };
            apply(&mut marks, &rulings);
            if let (false, Some(below)) = (law.marks_apart, self.stack.last_mut()) {
                apply(&mut below.marks, &rulings);
            }
            if pass < self.sweeps || law.last_pass_gains {
                let q = self.denominator as u32;
                let times = if law.step_in_units { 1 } else { q };
                let step = times * self.step;
                adjust(law, &graph, &tree.edges, step, &mut multipliers);
            }
            if !law.multipliers_apart {
                self.shared = Some(multipliers.clone());
            }
        }
        self.split(law, &marks, &multipliers);
    }

    /// The rulings of a pass, those that it lifts among them; none where the node closes. Only a bent law's leave other multipliers behind.
    fn ruled(
        &self,
        law: &Law,
        method: Method,
        graph: &Graph,
        multipliers: &mut Vec<i32>,
        tree: &[u8],
        pass: u32,
    ) -> Option<Vec<u8>> {
        let (q, upper) = (self.denominator, self.upper);
        let Ruled::Bound { rulings, .. } = rulings::rule(law, method, graph, multipliers, q, upper)
        else {
            return None;
        };
        if !self.lifts(law, pass) {
            return Some(rulings);
        }
        let by = Pass {
            law,
            method,
            graph,
            multipliers,
            q,
            tree,
            upper,
        };
        let lifted = lifting::lift(&by, &rulings);
        *multipliers = lifted.multipliers;
        (!lifted.closes).then_some(lifted.rulings)
    }

    /// Document 02, C-23: "On finding a round the ceiling becomes its cost and not one less, and a later round of that cost replaces the
    /// best if it comes first."
    fn find(&mut self, law: &Law, edges: Vec<u8>) {
        let found = cost(&self.graph, &edges);
        if law.upper_lowered {
            let times = match law.upper_in_minutes {
                true => 1,
                false => self.denominator as i64,
            };
            self.upper = times * found - law.below_tour;
        }
        let replaces = self.incumbent.as_ref().is_none_or(|best| {
            let kept = cost(&self.graph, best);
            found < kept || found == kept && replaces_equal(law, &edges, best)
        });
        if replaces {
            self.incumbent = Some(edges);
        }
    }

    /// "takes its lowest-numbered free leg and piles two nodes with the marks it now has: first that
    /// leg struck, then, on top, that leg required. With no free leg it closes." "Both branches see the same parent dues".
    fn split(&mut self, law: &Law, marks: &[u8], multipliers: &[i32]) {
        let Some(k) = marks.iter().position(|mark| *mark == FREE) else {
            return;
        };
        let children = if law.required_on_top {
            [EXCLUDED, REQUIRED]
        } else {
            [REQUIRED, EXCLUDED]
        };
        for mark in children {
            let mut marks = marks.to_vec();
            marks[k] = mark;
            self.stack.push(Node {
                marks,
                multipliers: multipliers.to_vec(),
            });
        }
    }
}

fn replaces_equal(law: &Law, found: &[u8], best: &[u8]) -> bool {
    law.equal_replaces && (!law.only_the_first || comes_first(law, found, best))
}

/// Document 02, C-23: "the first: of two, the one that lacks the highest-numbered leg in which they differ".
pub fn comes_first(law: &Law, one: &[u8], other: &[u8]) -> bool {
    let mut differ = (0..one.len()).filter(|k| one[*k] != other[*k]);
    let decides = match law.highest_decides {
        true => differ.next_back(),
        false => differ.next(),
    };
    decides.is_some_and(|k| (one[k] == 0) == law.lacking_first)
}

/// "the rulings under U are applied together"
fn apply(marks: &mut [u8], rulings: &[u8]) {
    for (mark, ruling) in marks.iter_mut().zip(rulings) {
        match *ruling {
            FORCE if *mark == FREE => *mark = REQUIRED,
            BAR if *mark == FREE => *mark = EXCLUDED,
            _ => {}
        }
    }
}

/// "each d(i), i ≥ 2, gains step × (g − 2), g being the number of the tree's legs that touch buoy i,
/// and is held to its range". Of C-20: "the buoy's due counts as 0 and no pass changes it".
pub fn adjust(law: &Law, graph: &Graph, edges: &[u8], step: u32, multipliers: &mut [i32]) {
    let mut touching = vec![0i64; graph.n + 1];
    for k in (0..graph.m).filter(|k| edges[*k] == 1) {
        touching[graph.a[k] as usize] += 1;
        touching[graph.b[k] as usize] += 1;
    }
    let gains = |vertex: &usize| graph.is_afloat(*vertex) || !law.due_ashore_stays;
    for vertex in (2..=graph.n).filter(gains) {
        let gained = multipliers[vertex - 1] as i64 + step as i64 * (touching[vertex] - 2);
        let held = gained.clamp(-law.max_multiplier, law.max_multiplier);
        let kept = if law.multipliers_held { held } else { gained };
        multipliers[vertex - 1] = kept as i32;
    }
}

impl Machine {
    pub fn new(law: &Law, method: Method) -> Machine {
        Machine {
            law: *law,
            method,
            search: None,
        }
    }

    /// Another one of the same kind, with no hunt.
    pub fn fresh(&self) -> Machine {
        Machine::new(&self.law, self.method)
    }

    pub fn call(&mut self, call: &Call) -> Answer {
        match self.answer(call) {
            Ok(answer) => answer,
            Err(refusal) => Answer::Refused(refusal),
        }
    }

    fn answer(&mut self, call: &Call) -> Result<Answer, Refusal> {
        if let Call::Open { .. } = call {
            return self.open(call);
        }
        let (law, method) = (self.law, self.method);
        let Some(search) = &mut self.search else {
            return refuse(20, 0);
        };
        match call {
            Call::Open { .. } => unreachable!("taken above"),
            Call::Run { budget } => {
                search.run(&law, method, *budget);
                Ok(Answer::Ran {
                    finished: search.finished(),
                    count: search.count,
                })
            }
            Call::Tell => Ok(Answer::Told {
                verdict: search.told(&law),
                count: search.count,
            }),
            Call::Show { length } => show(&law, search, *length),
            Call::Close => {
                self.search = None;
                Ok(Answer::Accepted)
            }
        }
    }

    /// Refusals 21, 15, 11, 12, 13, 14 and, of C-17, 32, of C-20 35; then "Opening piles one node, the chart's marks; count 0, no
    /// best, U the ceiling." Document 02, C-16: "the first node still has the opening dues"; C-20: "counts as struck, .. and opening piles it so".
    fn open(&mut self, call: &Call) -> Result<Answer, Refusal> {
        let Call::Open {
            graph,
            multipliers,
            ashore,
            ceiling,
            sweeps,
            step,
            denominator,
            lifting,
        } = call
        else {
            unreachable!("only an opening comes here");
        };
        if self.search.is_some() {
            return refuse(21, 0);
        }
        let (law, q) = (&self.law, *denominator);
        let given = Given {
            graph,
            multipliers,
            ashore,
            q,
        };
        tree::admit(law, &given, None)?;
        tree::admit_early(law, &given, 13)?;
        if !ceiling_fits(law, *ceiling) {
            return refuse(13, 0);
        }
        tree::admit_early(law, &given, 14)?;
        if *sweeps > law.max_sweeps || *step > law.max_step {
            return refuse(14, 0);
        }
        tree::admit_last(law, &given)?;
        let (sea, first) = given.sea(law);
        self.search = Some(Search {
            graph: Graph::from_edges(graph.n, &graph.edges()),
            multipliers: multipliers.clone(),
            ashore: ashore.clone(),
            ceiling: *ceiling,
            sweeps: *sweeps,
            step: *step,
            denominator: *denominator,
            lifting: kept(law, *lifting),
            upper: *ceiling,
            stack: vec![Node {
                marks: sea.marks(),
                multipliers: first,
            }],
            incumbent: None,
            count: 0,
            shared: None,
        });
        Ok(Answer::Accepted)
    }
}

/// C-13: "A yes or no at opening turns lifting on": any number but 0 is a yes, and is kept as 1.
fn kept(law: &Law, lifting: u64) -> u64 {
    match lifting & law.lifting_bits {
        0 => 0,
        number if !law.lifting_kept_as_bit => number,
        _ => 1,
    }
}

/// Refusals 22 and 23, then 11: what the record is unfit for comes before all input.
fn show(law: &Law, search: &Search, length: usize) -> Result<Answer, Refusal> {
    if !law.record_before_length && length != search.graph.m {
        return refuse(11, 0);
    }
    if !search.finished() {
        return refuse(22, 0);
    }
    let Some(edges) = &search.incumbent else {
        return refuse(23, 0);
    };
    if length != search.graph.m {
        return refuse(11, 0);
    }
    Ok(Answer::Shown(edges.clone()))
}
