//! The search record: its parts, the record of a state of the machine, and the record's own check as docs/RECORD.md states it.

use crate::document::ashore;
use crate::document::dispatcher::{self, Dispatcher};
use crate::document::graph::{self, Graph, EXCLUDED, FREE, PLACES, REQUIRED};
use crate::document::law::Law;
use crate::document::machine::{Call, Machine, Node, Search};
use crate::document::rulings::ceiling_fits;
use crate::document::tree::{self, Method};
use std::fmt;

/// Nodes that the stack has room for.
pub const NODES: usize = 22;

/// Words of a row of bits, of which a node has two: a bit for each edge.
pub const ROW: usize = PLACES.div_ceil(64);

/// Words of a node: "a node's required legs in one row of 64-bit words and its struck legs in another" (document 02, C-19).
pub const NODE: usize = 2 * ROW;

/// Words of all nodes.
pub const STACK: usize = NODES * NODE;

/// Vertices that a graph has room for.
pub const VERTICES: usize = 20;

/// Multipliers that the waiting nodes carry.
pub const CARRIED: usize = NODES * VERTICES;

/// Bytes of a graph: a cost, two ends and a mark for each place, n and m.
pub const GRAPH: usize = 7 * PLACES + 2;

/// Bytes of a record before its stack: settings, upper bound and count.
pub const BEFORE_STACK: usize = 32 + 2 * 8;

/// Bytes of a record: behind the stack are the depth, the graph, the multipliers, what the nodes carry, the incumbent, the list ashore and two
/// flags.
pub const SIZE: usize =
    BEFORE_STACK + 8 * STACK + 8 + GRAPH + 4 * VERTICES + 4 * CARRIED + PLACES + VERTICES + 2;

/// The record's parts, with any contents. Node p, counted from 0, has its two rows from word 6 · p of the stack on, and the multipliers of the
/// vertices afloat, in their order, from place 20 · p of what the nodes carry on.
#[derive(Clone, PartialEq, Eq)]
pub struct Record {
    pub ceiling: i64,
    pub sweeps: u32,
    pub step: u32,
    pub denominator: u64,
    pub lifting: u64,
    pub upper: i64,
    pub count: u64,
    pub stack: Vec<u64>,
    pub depth: u64,
    pub graph: Graph,
    pub multipliers: [i32; VERTICES],
    pub carried: Vec<i32>,
    pub best: [u8; PLACES],
    pub ashore: [u8; VERTICES],
    pub open: u8,
    pub has_best: u8,
}

impl Record {
    /// All zero: no search is open.
    pub fn fresh() -> Record {
        Record::of_bytes(&[0; SIZE])
    }

    /// The one record of a state.
    pub fn of(state: &Option<Search>) -> Record {
        Record::of_state(&Law::AS_WRITTEN, state)
    }

    /// The same, as a bent law has it.
    pub fn of_state(law: &Law, state: &Option<Search>) -> Record {
        let mut record = Record::fresh();
        let Some(search) = state else {
            return record;
        };
        record.open = 1;
        record.graph = search.graph.clone();
        record.multipliers[..search.multipliers.len()].copy_from_slice(&search.multipliers);
        let listed = record.ashore.iter_mut().zip(&search.ashore);
        listed.for_each(|(place, byte)| *place = *byte);
        record.ceiling = search.ceiling;
        record.sweeps = search.sweeps;
        record.step = search.step;
        record.denominator = search.denominator;
        record.lifting = search.lifting;
        record.upper = search.upper;
        record.depth = search.stack.len() as u64;
        for (p, Node { marks, multipliers }) in search.stack.iter().enumerate() {
            record.stack[NODE * p..NODE * (p + 1)].copy_from_slice(&rows(&Law::AS_WRITTEN, marks));
            let carried = carried(law, multipliers, &search.ashore);
            record.carried[VERTICES * p..VERTICES * (p + 1)].copy_from_slice(&carried);
        }
        if let Some(edges) = &search.incumbent {
            record.has_best = 1;
            record.best[..edges.len()].copy_from_slice(edges);
        }
        record.count = search.count;
        record
    }

    /// As it lies in memory: the fields in the header's order with nothing between them.
    pub fn bytes(&self) -> Vec<u8> {
        let mut bytes = Vec::with_capacity(SIZE);
        put(&mut bytes, [self.ceiling.to_ne_bytes()]);
        put(&mut bytes, [self.sweeps, self.step].map(u32::to_ne_bytes));
        put(
            &mut bytes,
            [self.denominator, self.lifting].map(u64::to_ne_bytes),
        );
        put(&mut bytes, [self.upper.to_ne_bytes()]);
        put(&mut bytes, [self.count.to_ne_bytes()]);
        put(&mut bytes, self.stack.iter().map(|x| x.to_ne_bytes()));
        put(&mut bytes, [self.depth.to_ne_bytes()]);
        put(&mut bytes, [graph_bytes(&self.graph)]);
        put(&mut bytes, self.multipliers.map(i32::to_ne_bytes));
        put(&mut bytes, self.carried.iter().map(|x| x.to_ne_bytes()));
        put(&mut bytes, [self.best]);
        put(&mut bytes, [self.ashore]);
        put(&mut bytes, [[self.open, self.has_best]]);
        bytes
    }

    /// The record that lies in memory so.
    pub fn of_bytes(bytes: &[u8]) -> Record {
        let mut rest = bytes;
        let record = Record {
            ceiling: i64::from_ne_bytes(next(&mut rest)),
            sweeps: u32::from_ne_bytes(next(&mut rest)),
            step: u32::from_ne_bytes(next(&mut rest)),
            denominator: u64::from_ne_bytes(next(&mut rest)),
            lifting: u64::from_ne_bytes(next(&mut rest)),
            upper: i64::from_ne_bytes(next(&mut rest)),
            count: u64::from_ne_bytes(next(&mut rest)),
            stack: (0..STACK)
                .map(|_| u64::from_ne_bytes(next(&mut rest)))
                .collect(),
            depth: u64::from_ne_bytes(next(&mut rest)),
            graph: graph_of(&next::<GRAPH>(&mut rest)),
            multipliers: std::array::from_fn(|_| i32::from_ne_bytes(next(&mut rest))),
            carried: (0..CARRIED)
                .map(|_| i32::from_ne_bytes(next(&mut rest)))
                .collect(),
            best: next(&mut rest),
            ashore: next(&mut rest),
            open: next::<1>(&mut rest)[0],
            has_best: next::<1>(&mut rest)[0],
        };
        assert!(rest.is_empty(), "a record has {SIZE} bytes");
        record
    }

    /// The machine in the one state that a record stands for; none where it fails its check.
    pub fn machine(&self, law: &Law) -> Option<Machine> {
        let mut machine = Machine::new(law, Method::Kruskal);
        if !self.passes(law) {
            return None;
        }
        if self.open == 0 {
            return Some(machine);
        }
        let (n, m) = (self.graph.n, self.graph.m);
        machine.call(&Call::Open {
            graph: Box::new(self.graph.clone()),
            multipliers: self.multipliers[..n].to_vec(),
            ashore: self.ashore[..n].to_vec(),
            ceiling: self.ceiling,
            sweeps: self.sweeps,
            step: self.step,
            denominator: self.denominator,
            lifting: self.lifting,
        });
        let search = machine.search.as_mut()?;
        search.upper = self.upper;
        search.stack = (0..self.waiting())
            .map(|p| Node {
                marks: (0..m).map(|k| self.mark(p, k)).collect(),
                multipliers: self.spread(p),
            })
            .collect();
        search.incumbent = (self.has_best != 0).then(|| self.best[..m].to_vec());
        search.count = self.count;
        Some(machine)
    }

    /// Whether the record passes its own check; refusal 24 where it does not.
    pub fn passes(&self, law: &Law) -> bool {
        self.open <= law.max_flag
            && self.has_best <= law.max_flag
            && self.tidy(law)
            && match self.open {
                0 => self.idle(),
                _ => self.fits(law),
            }
    }

    /// The places that are not used are zero.
    fn tidy(&self, law: &Law) -> bool {
        let graph = &self.graph;
        let past = graph.m.min(PLACES)..PLACES;
        let best = if self.has_best == 0 { 0 } else { past.start };
        graph.a[past.clone()].iter().all(|x| *x == 0)
            && graph.b[past.clone()].iter().all(|x| *x == 0)
            && graph.cost[past.clone()].iter().all(|x| *x == 0)
            && graph.mark[past].iter().all(|x| *x == 0)
            && self.multipliers[graph.n.min(VERTICES)..]
                .iter()
                .all(|x| *x == 0)
            && (!law.ashore_zero_past_n
                || self.ashore[graph.n.min(VERTICES)..].iter().all(|x| *x == 0))
            && self.best[best..].iter().all(|x| *x == 0)
            && (0..NODES).all(|p| {
                let used = match p < self.waiting() {
                    true if law.clear_past_m => graph.m,
                    false if law.zeros_past_depth => 0,
                    _ => 64 * ROW,
                };
                let (required, struck) = self.rows(p);
                clear_from(required, used) && clear_from(struck, used)
            })
            && (0..NODES).all(|p| {
                let used = match p < self.waiting() {
                    true if !law.carried_zero_past_n => VERTICES,
                    true if law.carried_zero_past_afloat => self.afloat(),
                    true => graph.n.min(VERTICES),
                    false if law.zeros_past_depth => 0,
                    _ => VERTICES,
                };
                self.carried_by(p)[used..].iter().all(|x| *x == 0)
            })
    }

    pub fn waiting(&self) -> usize {
        self.depth as usize
    }

    /// How many vertices are afloat.
    pub fn afloat(&self) -> usize {
        let list = &self.ashore[..self.graph.n.min(VERTICES)];
        list.iter().filter(|byte| **byte == 0).count()
    }

    /// The multipliers of a node by the vertices' own numbers: "the buoy's due counts as 0".
    fn spread(&self, p: usize) -> Vec<i32> {
        let mut carried = self.carried_by(p).iter();
        let list = self.ashore[..self.graph.n].iter();
        let due = |byte: &u8| match *byte {
            0 => carried.next().copied(),
            _ => None,
        };
        list.map(due).map(Option::unwrap_or_default).collect()
    }

    /// The two rows of node p, that of the required edges first.
    pub fn rows(&self, p: usize) -> (&[u64], &[u64]) {
        self.stack[NODE * p..NODE * (p + 1)].split_at(ROW)
    }

    /// Whether edge k, counted from 0, is in node p's row of required edges.
    fn required(&self, p: usize, k: usize) -> bool {
        bit(self.rows(p).0, k)
    }

    /// Whether it is in the row of excluded ones.
    fn struck(&self, p: usize, k: usize) -> bool {
        bit(self.rows(p).1, k)
    }

    /// The mark of edge k, counted from 0, in node p.
    pub fn mark(&self, p: usize, k: usize) -> u8 {
        match (self.required(p, k), self.struck(p, k)) {
            (true, _) => REQUIRED,
            (_, true) => EXCLUDED,
            _ => FREE,
        }
    }

    /// "The number of free legs becomes m less the set bits of both rows."
    pub fn free(&self, law: &Law, p: usize) -> usize {
        let (required, struck) = self.rows(p);
        let ones = |row: &[u64]| {
            row.iter()
                .map(|word| word.count_ones() as usize)
                .sum::<usize>()
        };
        let counted = match law.both_rows_counted {
            true => ones(required) + ones(struck),
            false => ones(required),
        };
        self.graph.m - counted
    }

    fn carried_by(&self, p: usize) -> &[i32] {
        &self.carried[VERTICES * p..VERTICES * (p + 1)]
    }

    /// No search is open: the numbers are zero too.
    fn idle(&self) -> bool {
        self.graph.n == 0
            && self.graph.m == 0
            && self.ceiling == 0
            && self.sweeps == 0
            && self.step == 0
            && self.denominator == 0
            && self.lifting == 0
            && self.upper == 0
            && self.depth == 0
            && self.has_best == 0
            && self.count == 0
    }

    /// A search is open: an opening accepts the arguments and keeps whether it lifts as 0 or 1, U is a ceiling, at most two nodes more wait than
    /// vertices are afloat, node p has "no leg in both" rows, at least p required ones and every edge that touches a vertex ashore in the row of
    /// excluded ones, an opening of the vertices afloat accepts the multipliers that it carries, the incumbent is of 0 and 1, and the count is at
    /// most 2^63 - 1.
    fn fits(&self, law: &Law) -> bool {
        let n = self.graph.n;
        graph::fits(law, &self.graph)
            && tree::multipliers_fit(law, &self.multipliers[..n], self.denominator)
            && (!law.ashore_checked || ashore::fits(law, &self.ashore[..n]))
            && ceiling_fits(law, self.ceiling)
            && self.sweeps <= law.max_sweeps
            && self.step <= law.max_step
            && (tree::denominator_fits(law, self.denominator) || !law.denominator_checked)
            && self.lifting <= law.max_lifting
            && ceiling_fits(law, self.upper)
            && self.depth <= self.most_waiting(law) as u64
            && (0..self.waiting()).all(|p| self.node_fits(law, p))
            && self.best.iter().all(|x| *x <= 1)
            && self.count < 1 << 63
    }

    fn most_waiting(&self, law: &Law) -> usize {
        let vertices = match law.depth_of_afloat {
            true => self.afloat(),
            false => self.graph.n,
        };
        NODES.min(vertices + law.nodes_above_vertices)
    }

    /// Node p, counted from 0.
    fn node_fits(&self, law: &Law, p: usize) -> bool {
        let m = self.graph.m;
        let sea = ashore::haul(law, &self.graph, &self.ashore);
        let both = |k: usize| self.required(p, k) && self.struck(p, k);
        let required = (0..m).filter(|k| self.required(p, *k)).count();
        let mut touched = (0..m).filter(|k| sea.touches_ashore(*k));
        let carried = &self.carried_by(p)[..self.afloat()];
        (!law.rows_apart || !(0..m).any(both))
            && p <= required + law.required_short
            && (!law.touched_excluded || touched.all(|k| self.struck(p, k)))
            && (!law.carried_fit || tree::multipliers_fit(law, carried, self.denominator))
    }
}

/// Whether no edge from the one at this place on has its bit set in a row.
fn clear_from(row: &[u64], place: usize) -> bool {
    let mut words = row.iter().zip((0..).step_by(64));
    words.all(|(word, first)| match place.saturating_sub(first) {
        shift @ 0..=63 => word >> shift == 0,
        _ => true,
    })
}

/// Whether edge k, counted from 0, has its bit set in a row.
fn bit(row: &[u64], k: usize) -> bool {
    row[k / 64] >> (k % 64) & 1 == 1
}

/// What a node carries, in 20 places: the multipliers of the vertices afloat, in their order.
pub fn carried(law: &Law, multipliers: &[i32], ashore: &[u8]) -> [i32; VERTICES] {
    let of = multipliers.iter().zip(ashore);
    let afloat = of.filter(|(_, byte)| **byte == 0 || !law.carried_of_afloat);
    let mut carried = [0; VERTICES];
    for (place, (multiplier, _)) in carried.iter_mut().zip(afloat) {
        *place = *multiplier;
    }
    carried
}

/// The rows of a node's marks: "a node's required legs in one row of 64-bit words and its struck legs in another".
pub fn rows(law: &Law, marks: &[u8]) -> [u64; NODE] {
    let mut rows = [0; NODE];
    for (k, mark) in (law.first_bit..).zip(marks) {
        let row = match *mark {
            REQUIRED => law.required_row,
            EXCLUDED => 1 - law.required_row,
            _ => continue,
        };
        rows[ROW * row + k / 64] |= 1 << (k % 64);
    }
    rows
}

/// Bytes of a dispatcher: the place last served, and a record for each place.
pub const DISPATCHER: usize = 8 + dispatcher::PLACES * SIZE;

/// A dispatcher's parts, with any contents.
#[derive(Clone, PartialEq, Eq, Debug)]
pub struct Dispatched {
    pub last: usize,
    pub places: Vec<Record>,
}

impl Dispatched {
    /// The one of a state.
    pub fn of(state: &Dispatcher) -> Dispatched {
        Dispatched {
            last: state.last,
            places: state.places.iter().map(|m| Record::of(&m.search)).collect(),
        }
    }

    /// As it lies in memory: the place last served, then the records.
    pub fn bytes(&self) -> Vec<u8> {
        let mut bytes = self.last.to_ne_bytes().to_vec();
        let places = self.places.iter();
        places.for_each(|record| bytes.extend(record.bytes()));
        bytes
    }

    pub fn of_bytes(bytes: &[u8]) -> Dispatched {
        let mut rest = bytes;
        Dispatched {
            last: usize::from_ne_bytes(next(&mut rest)),
            places: rest.chunks(SIZE).map(Record::of_bytes).collect(),
        }
    }

    /// Whether it passes its own check; refusal 24 where it does not.
    pub fn passes(&self, law: &Law) -> bool {
        let checked = &self.places[..law.places_checked];
        self.last <= law.max_last && checked.iter().all(|record| record.passes(law))
    }

    /// The dispatcher in the one state that it stands for; none where it fails its check.
    pub fn dispatcher(&self, law: &Law) -> Option<Dispatcher> {
        if !self.passes(law) {
            return None;
        }
        let mut state = Dispatcher::new(law, Method::Kruskal);
        let machines = self.places.iter().map(|record| record.machine(law));
        state.places = machines
            .map(|machine| machine.unwrap_or(Machine::new(law, Method::Kruskal)))
            .collect();
        state.last = self.last;
        Some(state)
    }
}

/// A graph as it lies in memory, in the header's order. Its n and m are bytes there, so no larger ones come up.
pub fn graph_bytes(graph: &Graph) -> [u8; GRAPH] {
    let byte = |count: usize| u8::try_from(count).expect("n and m are bytes");
    let mut bytes = graph.cost.map(i32::to_ne_bytes).concat();
    bytes.extend([graph.a, graph.b, graph.mark].concat());
    bytes.extend([byte(graph.n), byte(graph.m)]);
    next(&mut bytes.as_slice())
}

/// The graph that lies in memory so.
pub fn graph_of(bytes: &[u8]) -> Graph {
    let mut rest = bytes;
    Graph {
        cost: std::array::from_fn(|_| i32::from_ne_bytes(next(&mut rest))),
        a: next(&mut rest),
        b: next(&mut rest),
        mark: next(&mut rest),
        n: next::<1>(&mut rest)[0].into(),
        m: next::<1>(&mut rest)[0].into(),
        ashore: 0,
    }
}

/// Puts each word's bytes behind others.
fn put<const N: usize>(bytes: &mut Vec<u8>, words: impl IntoIterator<Item = [u8; N]>) {
    let words = words.into_iter();
    words.for_each(|word| bytes.extend_from_slice(&word));
}

/// Takes the next bytes.
fn next<const N: usize>(rest: &mut &[u8]) -> [u8; N] {
    let (taken, left) = rest.split_first_chunk().expect("bytes are left");
    *rest = left;
    *taken
}

impl fmt::Debug for Record {
    fn fmt(&self, f: &mut fmt::Formatter) -> fmt::Result {
        write!(
            f,
            "record open {} {:?} multipliers {:?} ashore {:?}",
            self.open, self.graph, self.multipliers, self.ashore
        )?;
        write!(
            f,
            " ceiling {} sweeps {} step {} denominator {} lifting {}",
            self.ceiling, self.sweeps, self.step, self.denominator, self.lifting
        )?;
        write!(
            f,
            " U {} depth {} best {} count {}",
            self.upper, self.depth, self.has_best, self.count
        )?;
        let places = |bytes: &[u8]| -> Vec<(usize, u8)> {
            bytes
                .iter()
                .copied()
                .enumerate()
                .filter(|(_, x)| *x != 0)
                .collect()
        };
        let carried: Vec<(usize, i32)> = (0..)
            .zip(self.carried.iter().copied())
            .filter(|(_, x)| *x != 0)
            .collect();
        write!(f, " carried, where not zero, {carried:?}")?;
        let words: Vec<String> = (0..)
            .zip(&self.stack)
            .filter(|(_, x)| **x != 0)
            .map(|(i, x): (usize, &u64)| format!("({i}, {x:#x})"))
            .collect();
        write!(f, " stack, where not zero, [{}]", words.join(", "))?;
        write!(f, " incumbent {:?}", places(&self.best))
    }
}
