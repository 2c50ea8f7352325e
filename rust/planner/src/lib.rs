//! The proved route planner for Rust: what include/planner.h is for C, without `unsafe`.
//!
//! Every call takes any input, answers and ends. What is wrong is refused by document 01's numbers ([`Refusal`]) and changes nothing;
//! nothing panics. The crate links the library itself: name it by path, and run `make` before.
//!
//! ```
//! use planner::{Edge, Graph, Search, Settings, Verdict};
//!
//! let graph = Graph::from_edges(3, &[Edge::free(1, 2, 4), Edge::free(1, 3, 3), Edge::free(2, 3, 2)]);
//! let mut search = Search::fresh();
//! search.open(&graph, &[0; 3], &[0; 3], Settings { ceiling: 100, sweeps: 0, step: 0, denominator: 1, lifting: 0 })?;
//! search.run(1_000_000)?;
//! assert_eq!(search.tell()?.verdict, Verdict::Best(9));
//! assert_eq!(search.show()?, [true; 3]);
//! # Ok::<(), planner::Refusal>(())
//! ```

pub mod raw;

pub use raw::{Graph, Places, Record, Settings, Terms, Turns};

use raw::{Reply, EDGES};
use std::fmt;

/// Document 01's answer to a wrong call: a number and a place, which is 0 but in reading and in a log.
#[derive(Clone, Copy, PartialEq, Eq, Debug)]
pub struct Refusal {
    pub number: u32,
    pub place: u64,
}

impl Refusal {
    /// What the number means.
    pub fn meaning(&self) -> &'static str {
        match self.number {
            1 => "a file under 8 bytes",
            2 => "n is not 3 to 20",
            3 => "a zero byte of the header is not zero",
            4 => "over 1,000 records, or a length that is not 8 + 12 for each record",
            5 => "the head or a next is above the number of records",
            6 => "a record was met before on the chain",
            7 => "not 1 <= a < b <= n",
            8 => "a mark above 2, or a zero byte of the record is not zero",
            9 => "a cost that is not -100,000,000 to 100,000,000",
            10 => "a pair of vertices was met before",
            11 => "a list of wrong length",
            12 => "a multiplier that is not -1,000,000 to 1,000,000, or the first is not 0",
            13 => "a ceiling that is not -5,000,000,000 to 5,000,000,000",
            14 => "sweeps that are not 0 to 15, or a step that is not 0 to 10,000",
            15 => "a graph that breaks the rules for edges and marks",
            20 => "no search is open",
            21 => "a search is open",
            22 => "the search is going on",
            23 => "the search found no tour",
            24 => "the record fails its own check",
            30 => "a preview of no edge, or of a mark that is not 1 or 2",
            31 => "a preview of an edge that is not free",
            32 => "the denominator is not 1 to 1,000",
            33 => "a name that is not 1 to 8",
            34 => "nothing is saved under the name",
            35 => "vertices ashore: each byte is 0 or 1, vertex 1 is afloat, and at least three vertices are",
            36 => "edges that are not a tour of all vertices in sailing order from vertex 1",
            37 => "a student number or a spread out of range",
            38 => "a window that is not 1 to 32",
            39 => "a log entry that names no edge, or a time out of the cost range",
            40 => "a turn of 0 nodes",
            41 => "a ninth search",
            42 => "a place that is not 1 to 8",
            _ => "a number that documents 01 and 02 do not have",
        }
    }
}

impl fmt::Display for Refusal {
    fn fmt(&self, f: &mut fmt::Formatter) -> fmt::Result {
        write!(f, "refused {} at {}: ", self.number, self.place)?;
        f.write_str(self.meaning())
    }
}

impl std::error::Error for Refusal {}

impl Reply {
    fn refusal(self) -> Refusal {
        Refusal {
            number: self.number,
            place: self.place,
        }
    }

    /// The answer of a call that is accepted by 0 alone.
    fn accepted(self) -> Result<Reply, Refusal> {
        match self.number {
            raw::ACCEPTED => Ok(self),
            _ => Err(self.refusal()),
        }
    }
}

#[derive(Clone, Copy, PartialEq, Eq, Debug)]
pub enum Mark {
    Free,
    Required,
    Excluded,
}

impl Mark {
    fn of(byte: u8) -> Mark {
        match byte {
            0 => Mark::Free,
            1 => Mark::Required,
            _ => Mark::Excluded,
        }
    }
}

/// An edge between the vertices a < b, numbered from 1.
#[derive(Clone, Copy, PartialEq, Eq, Debug)]
pub struct Edge {
    pub a: u8,
    pub b: u8,
    pub cost: i32,
    pub mark: Mark,
}

impl Edge {
    /// A free edge.
    pub fn free(a: u8, b: u8, cost: i32) -> Edge {
        let mark = Mark::Free;
        Edge { a, b, cost, mark }
    }
}

impl Graph {
    /// The graph with these edges, in this order. Of more than 190 edges, or n above 255, comes a graph that every call refuses.
    pub fn from_edges(n: usize, edges: &[Edge]) -> Graph {
        let byte = |count: usize| u8::try_from(count).unwrap_or(u8::MAX);
        let mut graph = Graph {
            cost: [0; EDGES],
            a: [0; EDGES],
            b: [0; EDGES],
            mark: [0; EDGES],
            n: byte(n),
            m: byte(edges.len()),
        };
        for (k, edge) in edges.iter().take(EDGES).enumerate() {
            graph.a[k] = edge.a;
            graph.b[k] = edge.b;
            graph.cost[k] = edge.cost;
            graph.mark[k] = edge.mark as u8;
        }
        graph
    }

    /// How many vertices.
    pub fn vertices(&self) -> usize {
        self.n.into()
    }

    /// The edges, in order; at most 190. A mark above 2, which every call refuses, counts as excluded here.
    pub fn edges(&self) -> Vec<Edge> {
        let edge = |k: usize| Edge {
            a: self.a[k],
            b: self.b[k],
            cost: self.cost[k],
            mark: Mark::of(self.mark[k]),
        };
        (0..self.places()).map(edge).collect()
    }

    /// How many places are in use.
    fn places(&self) -> usize {
        EDGES.min(self.m.into())
    }

    /// Whether the graph keeps to the rules: 15 where it does not.
    pub fn check(&self) -> Result<(), Refusal> {
        // SAFETY: the call takes a value.
        let said = unsafe { raw::planner_check(*self) };
        said.accepted().map(|_| ())
    }

    /// The graph in the bytes of a chart file; 1 to 10.
    pub fn read(bytes: &[u8]) -> Result<Graph, Refusal> {
        let mut graph = Graph::from_edges(0, &[]);
        // SAFETY: `bytes` has the length that is passed with it and is only read; `graph` is borrowed here alone.
        let said = unsafe { raw::planner_read(&mut graph, bytes.as_ptr(), bytes.len()) };
        said.accepted().map(|_| graph)
    }

    /// The graph's chart file; 15.
    pub fn write(&self) -> Result<Vec<u8>, Refusal> {
        let mut out = vec![0; 8 + 12 * self.places()];
        // SAFETY: `out` has the length that is passed with it and is borrowed here alone.
        let said = unsafe { raw::planner_write(*self, out.as_mut_ptr(), out.len()) };
        said.accepted().map(|_| out)
    }
}

/// The least 1-tree.
#[derive(Clone, PartialEq, Eq, Debug)]
pub enum Tree {
    /// The graph has no 1-tree.
    None,
    /// Its bound, in parts as the denominator says, and for each edge whether it is in.
    Found { bound: i64, edges: Vec<bool> },
}

impl Tree {
    fn of(said: Reply, out: &[u8]) -> Result<Tree, Refusal> {
        if said.number == raw::NONE {
            return Ok(Tree::None);
        }
        let bound = said.accepted()?.value;
        let edges = bits(out);
        Ok(Tree::Found { bound, edges })
    }
}

/// What a ceiling does to an edge.
#[derive(Clone, Copy, PartialEq, Eq, Debug)]
pub enum Ruling {
    Keep,
    Force,
    Bar,
    /// It was required before.
    Required,
    /// It was excluded before, or touches a vertex ashore.
    Excluded,
}

impl Ruling {
    fn of(byte: u8) -> Ruling {
        match byte {
            0 => Ruling::Keep,
            1 => Ruling::Force,
            2 => Ruling::Bar,
            3 => Ruling::Required,
            _ => Ruling::Excluded,
        }
    }
}

/// What a ceiling does to a graph.
#[derive(Clone, PartialEq, Eq, Debug)]
pub enum Ruled {
    /// No 1-tree has a bound at or below the ceiling.
    Infeasible,
    /// The least bound, in parts as the denominator says, and a ruling for each edge.
    Within { bound: i64, rulings: Vec<Ruling> },
}

/// The least 1-tree of a graph under n multipliers; 15, 11, 12, 32, 35. Multipliers and bounds count in parts of a cost's unit, `denominator` of them
/// to the unit (1 to 1,000; with 1 they count as costs do).
///
/// `ashore`, here and below, has a byte for each vertex, 1 ashore and 0 afloat. Trees and tours are over the vertices afloat: vertex 1 and at least
/// two others. An edge that touches another counts as excluded, whatever its mark, and such a vertex's multiplier as 0.
///
/// ```
/// use planner::{tree, Edge, Graph, Tree};
///
/// let graph = Graph::from_edges(3, &[Edge::free(1, 2, 4), Edge::free(1, 3, 3), Edge::free(2, 3, 2)]);
/// assert_eq!(tree(&graph, &[0; 3], &[0; 3], 1)?, Tree::Found { bound: 9, edges: vec![true; 3] });
/// assert_eq!(tree(&graph, &[0; 3], &[0; 3], 10)?, Tree::Found { bound: 90, edges: vec![true; 3] });
/// assert_eq!(tree(&graph, &[0; 3], &[0, 0, 1], 1).unwrap_err().number, 35);
///
/// let costs = [(1, 2, 4), (1, 3, 3), (1, 4, 5), (2, 3, 2), (2, 4, 6), (3, 4, 1)];
/// let sea = Graph::from_edges(4, &costs.map(|(a, b, cost)| Edge::free(a, b, cost)));
/// let edges = vec![true, true, false, true, false, false];
/// assert_eq!(tree(&sea, &[0; 4], &[0, 0, 0, 1], 1)?, Tree::Found { bound: 9, edges });
/// # Ok::<(), planner::Refusal>(())
/// ```
pub fn tree(
    graph: &Graph,
    multipliers: &[i32],
    ashore: &[u8],
    denominator: u64,
) -> Result<Tree, Refusal> {
    let mut out = vec![0; graph.places()];
    // SAFETY: the lists have the lengths that are passed with them; only `out` is written, and it is borrowed here alone.
    let said = unsafe {
        raw::planner_tree(
            *graph,
            multipliers.as_ptr(),
            multipliers.len(),
            ashore.as_ptr(),
            ashore.len(),
            denominator,
            out.as_mut_ptr(),
            out.len(),
        )
    };
    Tree::of(said, &out)
}

/// The least 1-tree of a copy of the graph in which a free edge, numbered from 1, is required or excluded; 15, 11, 12, 32, 35, 30, 31. What counts as
/// free is the edge's mark in the graph, even where it touches a vertex ashore.
pub fn preview(
    graph: &Graph,
    multipliers: &[i32],
    ashore: &[u8],
    denominator: u64,
    edge: usize,
    mark: Mark,
) -> Result<Tree, Refusal> {
    let mut out = vec![0; graph.places()];
    // SAFETY: as in `tree`.
    let said = unsafe {
        raw::planner_preview(
            *graph,
            multipliers.as_ptr(),
            multipliers.len(),
            ashore.as_ptr(),
            ashore.len(),
            denominator,
            edge,
            mark as u32,
            out.as_mut_ptr(),
            out.len(),
        )
    };
    Tree::of(said, &out)
}

/// A simulated sailing.
#[derive(Clone, PartialEq, Eq, Debug)]
pub struct Sailing {
    /// of each edge, in sailing order
    pub times: Vec<i64>,
    pub total: i64,
    /// the state after the last edge
    pub state: u64,
}

/// A tour sailed edge by edge: its n edges in sailing order from vertex 1, numbered from 1; 15, 11, 36, 37.
pub fn simulate(
    graph: &Graph,
    edges: &[usize],
    student: u64,
    spread: u64,
) -> Result<Sailing, Refusal> {
    let mut times = vec![0; usize::from(graph.n)];
    // SAFETY: the pointers lead to as many numbers as the call is told, and the lists do not overlap.
    let said = unsafe {
        raw::planner_simulate(
            *graph,
            edges.as_ptr(),
            edges.len(),
            student,
            spread,
            times.as_mut_ptr(),
            times.len(),
        )
    };
    match said.number {
        raw::ACCEPTED => Ok(Sailing {
            times,
            total: said.total,
            state: said.state,
        }),
        number => Err(Refusal {
            number,
            place: said.place,
        }),
    }
}

/// A search for each pair of sweeps and step, 1 to 16 of them, each with the whole budget: the count of nodes with which it finishes, or none
/// if it is still going on; 15, 11, 12, 13, 14, 32, 35.
///
/// ```
/// use planner::{compare, Edge, Graph, Terms};
///
/// let costs = [(1, 2, 4), (1, 3, 3), (1, 4, 5), (2, 3, 2), (2, 4, 6), (3, 4, 1)];
/// let graph = Graph::from_edges(4, &costs.map(|(a, b, cost)| Edge::free(a, b, cost)));
/// let terms = Terms { ceiling: 12, budget: 1_000, denominator: 1, lifting: 0 };
/// assert_eq!(compare(&graph, &[0; 4], &[0; 4], terms, &[(0, 0), (2, 1)])?, [Some(5), Some(1)]);
/// assert_eq!(compare(&graph, &[0; 4], &[0; 4], Terms { lifting: 1, ..terms }, &[(0, 0)])?, [Some(3)]);
/// # Ok::<(), planner::Refusal>(())
/// ```
pub fn compare(
    graph: &Graph,
    multipliers: &[i32],
    ashore: &[u8],
    terms: Terms,
    pairs: &[(u32, u32)],
) -> Result<Vec<Option<u64>>, Refusal> {
    let sweeps: Vec<u32> = pairs.iter().map(|pair| pair.0).collect();
    let steps: Vec<u32> = pairs.iter().map(|pair| pair.1).collect();
    let mut report = vec![0; pairs.len()];
    // SAFETY: as in `simulate`.
    let said = unsafe {
        raw::planner_compare(
            *graph,
            multipliers.as_ptr(),
            multipliers.len(),
            ashore.as_ptr(),
            ashore.len(),
            terms,
            sweeps.as_ptr(),
            sweeps.len(),
            steps.as_ptr(),
            steps.len(),
            report.as_mut_ptr(),
            report.len(),
        )
    };
    said.accepted()?;
    Ok(report.into_iter().map(|k| (k != 0).then_some(k)).collect())
}

/// What a ceiling rules for each edge, under n multipliers; 15, 11, 12, 13, 32, 35. The ceiling counts as costs do, whatever the denominator.
/// An edge that touches a vertex ashore is excluded before.
pub fn rule(
    graph: &Graph,
    multipliers: &[i32],
    ashore: &[u8],
    ceiling: i64,
    denominator: u64,
) -> Result<Ruled, Refusal> {
    let mut out = vec![0; graph.places()];
    // SAFETY: as in `tree`.
    let said = unsafe {
        raw::planner_rule(
            *graph,
            multipliers.as_ptr(),
            multipliers.len(),
            ashore.as_ptr(),
            ashore.len(),
            ceiling,
            denominator,
            out.as_mut_ptr(),
            out.len(),
        )
    };
    if said.number == raw::NONE {
        return Ok(Ruled::Infeasible);
    }
    let bound = said.accepted()?.value;
    let rulings = out.iter().map(|byte| Ruling::of(*byte)).collect();
    Ok(Ruled::Within { bound, rulings })
}

/// Each edge's cost becomes the greatest of its last `last` times in a log (1 to 32): entry i is the edge `edges[i]`, numbered from 1, with
/// `times[i]`. An edge with fewer times uses those it has, one with none keeps its cost; 15, 11, 38, 39, which leave the graph as it was.
///
/// ```
/// use planner::{recent_costs, Edge, Graph};
///
/// let mut graph = Graph::from_edges(3, &[Edge::free(1, 2, 4), Edge::free(1, 3, 3), Edge::free(2, 3, 2)]);
/// recent_costs(&mut graph, 2, &[1, 1, 1], &[9, -3, 1])?;
/// assert_eq!(graph.edges()[0].cost, 1);
/// # Ok::<(), planner::Refusal>(())
/// ```
pub fn recent_costs(
    graph: &mut Graph,
    last: usize,
    edges: &[usize],
    times: &[i32],
) -> Result<(), Refusal> {
    // SAFETY: `edges` and `times` have the lengths that are passed with them and are only read; `graph` is borrowed here alone.
    let said = unsafe {
        raw::planner_recent(
            graph,
            last,
            edges.as_ptr(),
            edges.len(),
            times.as_ptr(),
            times.len(),
        )
    };
    said.accepted().map(|_| ())
}

fn bits(bytes: &[u8]) -> Vec<bool> {
    bytes.iter().map(|byte| *byte == 1).collect()
}

/// How far a run came; both with the number of nodes opened since the opening.
#[derive(Clone, Copy, PartialEq, Eq, Debug)]
pub enum Progress {
    GoingOn { nodes: u64 },
    Finished { nodes: u64 },
}

/// What a search has to say of the cheapest tour.
#[derive(Clone, Copy, PartialEq, Eq, Debug)]
pub enum Verdict {
    GoingOn,
    /// No tour is at or below the ceiling.
    NoTour,
    /// The cost of the cheapest.
    Best(i64),
}

/// The verdict, and the number of nodes opened.
#[derive(Clone, Copy, PartialEq, Eq, Debug)]
pub struct Told {
    pub verdict: Verdict,
    pub nodes: u64,
}

impl Told {
    fn of(said: Reply) -> Result<Told, Refusal> {
        let verdict = match said.number {
            raw::GOING_ON => Verdict::GoingOn,
            raw::NO_TOUR => Verdict::NoTour,
            raw::BEST => Verdict::Best(said.value),
            _ => return Err(said.refusal()),
        };
        let nodes = said.nodes;
        Ok(Told { verdict, nodes })
    }
}

/// A search for the cheapest tour. It owns its record, 4,496 bytes on the heap.
#[derive(Clone, Debug)]
pub struct Search {
    record: Box<Record>,
}

impl Default for Search {
    fn default() -> Search {
        Search::fresh()
    }
}

impl Search {
    /// No search is open.
    pub fn fresh() -> Search {
        // SAFETY: the call takes nothing.
        let record = unsafe { raw::planner_fresh() };
        Search::from_record(Box::new(record))
    }

    /// The search that a record stands for, which may hold anything.
    pub fn from_record(record: Box<Record>) -> Search {
        Search { record }
    }

    /// The record: whoever stores a search stores this.
    pub fn record(&self) -> &Record {
        &self.record
    }

    /// Opens a search of a graph with n multipliers and a byte for each vertex, 1 ashore and 0 afloat; 24, 21, 15, 11, 12, 13, 14, 32, 35.
    pub fn open(
        &mut self,
        graph: &Graph,
        multipliers: &[i32],
        ashore: &[u8],
        settings: Settings,
    ) -> Result<(), Refusal> {
        // SAFETY: the record is borrowed here alone; the lists have the lengths that are passed with them and are only read.
        let said = unsafe {
            raw::planner_open(
                &mut *self.record,
                *graph,
                multipliers.as_ptr(),
                multipliers.len(),
                ashore.as_ptr(),
                ashore.len(),
                settings,
            )
        };
        said.accepted().map(|_| ())
    }

    /// Opens at most `budget` nodes; 24, 20.
    pub fn run(&mut self, budget: u64) -> Result<Progress, Refusal> {
        // SAFETY: the record is borrowed here alone.
        let said = unsafe { raw::planner_run(&mut *self.record, budget) };
        let nodes = said.nodes;
        match said.number {
            raw::GOING_ON => Ok(Progress::GoingOn { nodes }),
            raw::FINISHED => Ok(Progress::Finished { nodes }),
            _ => Err(said.refusal()),
        }
    }

    /// The verdict; 24, 20.
    pub fn tell(&mut self) -> Result<Told, Refusal> {
        // SAFETY: the record is borrowed here alone.
        Told::of(unsafe { raw::planner_tell(&mut *self.record) })
    }

    /// For each edge whether the cheapest tour has it: of several the first, which of two is the one that lacks the highest-numbered edge in
    /// which they differ; 24, 20, 22, 23.
    pub fn show(&mut self) -> Result<Vec<bool>, Refusal> {
        let mut out = vec![0; self.record.graph.places()];
        // SAFETY: the record and `out` are borrowed here alone; `out` has the length that is passed with it.
        let said = unsafe { raw::planner_show(&mut *self.record, out.as_mut_ptr(), out.len()) };
        said.accepted().map(|_| bits(&out))
    }

    /// Ends the search: the record is fresh again; 24, 20.
    pub fn close(&mut self) -> Result<(), Refusal> {
        // SAFETY: the record is borrowed here alone.
        let said = unsafe { raw::planner_close(&mut *self.record) };
        said.accepted().map(|_| ())
    }

    /// Brings back what a shelf has under a name, 1 to 8, whatever is open here; 24, 33, 34.
    pub fn back(&mut self, shelf: &Shelf, name: usize) -> Result<(), Refusal> {
        // SAFETY: the record is borrowed here alone, and the shelf is another and only read.
        let said = unsafe { raw::planner_back(&mut *self.record, &*shelf.places, name) };
        said.accepted().map(|_| ())
    }
}

/// Searches saved under the names 1 to 8. It owns its places, eight records on the heap.
#[derive(Clone, Debug)]
pub struct Shelf {
    places: Box<Places>,
}

impl Default for Shelf {
    fn default() -> Shelf {
        Shelf::fresh()
    }
}

impl Shelf {
    /// Nothing is saved.
    pub fn fresh() -> Shelf {
        // SAFETY: the call takes nothing.
        let places = unsafe { raw::planner_fresh_shelf() };
        Shelf::from_places(Box::new(places))
    }

    /// The shelf that these places stand for, which may hold anything.
    pub fn from_places(places: Box<Places>) -> Shelf {
        Shelf { places }
    }

    /// The places: whoever stores a shelf stores these.
    pub fn places(&self) -> &Places {
        &self.places
    }

    /// Saves an open search under a name, 1 to 8, in place of what stood there; 24, 20, 33.
    pub fn save(&mut self, search: &Search, name: usize) -> Result<(), Refusal> {
        // SAFETY: the places are borrowed here alone, and the record is another and only read.
        let said = unsafe { raw::planner_save(&mut *self.places, &*search.record, name) };
        said.accepted().map(|_| ())
    }
}

/// Up to eight searches that take turns. It owns its record, eight search records and a number, on the heap.
///
/// ```
/// use planner::{Dispatcher, Edge, Graph, Settings, Verdict};
///
/// let graph = Graph::from_edges(3, &[Edge::free(1, 2, 4), Edge::free(1, 3, 3), Edge::free(2, 3, 2)]);
/// let mut class = Dispatcher::fresh();
/// let place = class.add(&graph, &[0; 3], &[0; 3], Settings { ceiling: 100, sweeps: 0, step: 0, denominator: 1, lifting: 0 })?;
/// assert_eq!(class.turn(1_000)?, Some(place));
/// assert_eq!(class.tell(place)?.verdict, Verdict::Best(9));
/// assert_eq!(class.turn(1_000)?, None);
/// # Ok::<(), planner::Refusal>(())
/// ```
#[derive(Clone, Debug)]
pub struct Dispatcher {
    places: Box<Turns>,
}

impl Default for Dispatcher {
    fn default() -> Dispatcher {
        Dispatcher::fresh()
    }
}

impl Dispatcher {
    /// No search is held.
    pub fn fresh() -> Dispatcher {
        // SAFETY: the call takes nothing.
        let places = unsafe { raw::planner_fresh_dispatcher() };
        Dispatcher::from_places(Box::new(places))
    }

    /// The dispatcher that a record stands for, which may hold anything.
    pub fn from_places(places: Box<Turns>) -> Dispatcher {
        Dispatcher { places }
    }

    /// The record: whoever stores a dispatcher stores this.
    pub fn places(&self) -> &Turns {
        &self.places
    }

    /// Opens a search at the free place with the smallest number, which is answered; 24, 41, 15, 11, 12, 13, 14, 32, 35.
    pub fn add(
        &mut self,
        graph: &Graph,
        multipliers: &[i32],
        ashore: &[u8],
        settings: Settings,
    ) -> Result<usize, Refusal> {
        // SAFETY: the dispatcher is borrowed here alone; the lists have the lengths that are passed with them and are only read.
        let said = unsafe {
            raw::planner_add(
                &mut *self.places,
                *graph,
                multipliers.as_ptr(),
                multipliers.len(),
                ashore.as_ptr(),
                ashore.len(),
                settings,
            )
        };
        said.accepted().map(|said| said.place as usize)
    }

    /// At most p nodes for the next unfinished search after the place last served, in cyclic order; its place, or none where no search is
    /// unfinished, and then nothing changes; 24, 40.
    pub fn turn(&mut self, p: u64) -> Result<Option<usize>, Refusal> {
        // SAFETY: the dispatcher is borrowed here alone.
        let said = unsafe { raw::planner_turn(&mut *self.places, p) };
        if said.number == raw::IDLE {
            return Ok(None);
        }
        said.accepted().map(|said| Some(said.place as usize))
    }

    /// The verdict of the search at a place, 1 to 8; 24, 42, 20.
    pub fn tell(&mut self, place: usize) -> Result<Told, Refusal> {
        // SAFETY: the dispatcher is borrowed here alone.
        Told::of(unsafe { raw::planner_tell_at(&mut *self.places, place) })
    }

    /// For each edge whether the cheapest tour of the search at a place has it; 24, 42, 20, 22, 23.
    pub fn show(&mut self, place: usize) -> Result<Vec<bool>, Refusal> {
        let held = place.checked_sub(1).and_then(|k| self.places.places.get(k));
        let mut out = vec![0; held.map_or(0, |record| record.graph.places())];
        // SAFETY: the dispatcher and `out` are borrowed here alone; `out` has the length that is passed with it.
        let said =
            unsafe { raw::planner_show_at(&mut *self.places, place, out.as_mut_ptr(), out.len()) };
        said.accepted().map(|_| bits(&out))
    }

    /// Ends the search at a place, which is free again; 24, 42, 20.
    pub fn close(&mut self, place: usize) -> Result<(), Refusal> {
        // SAFETY: the dispatcher is borrowed here alone.
        let said = unsafe { raw::planner_close_at(&mut *self.places, place) };
        said.accepted().map(|_| ())
    }
}
