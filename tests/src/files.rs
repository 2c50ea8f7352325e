//! Chart files for the suites: scattered chains, and files with a fault at a known place.

use crate::document::graph::{Edge, Graph};
use crate::document::Refusal;
use crate::generate::{past, MAX_COST};
use crate::random::Random;

#[derive(Clone)]
pub struct Record {
    pub edge: Edge,
    pub zeros: [u8; 3],
    pub next: u16,
}

/// A file before it is bytes. `chain` has the record numbers along the chain.
#[derive(Clone)]
pub struct File {
    pub n: u8,
    pub zeros: [u8; 3],
    pub head: u16,
    pub count: u16,
    pub records: Vec<Record>,
    pub chain: Vec<u16>,
}

impl File {
    pub fn bytes(&self) -> Vec<u8> {
        let [head, head_high] = self.head.to_le_bytes();
        let [count, count_high] = self.count.to_le_bytes();
        let zeros = self.zeros;
        let mut bytes = vec![self.n, zeros[0], head, head_high, count, count_high];
        bytes.extend([zeros[1], zeros[2]]);
        for record in &self.records {
            let edge = &record.edge;
            bytes.extend([edge.a, edge.b, edge.mark, record.zeros[0]]);
            bytes.extend(edge.cost.to_le_bytes());
            bytes.extend(record.next.to_le_bytes());
            bytes.extend([record.zeros[1], record.zeros[2]]);
        }
        bytes
    }

    /// The record at place p of the chain, from 0.
    pub fn at(&mut self, p: usize) -> &mut Record {
        &mut self.records[self.chain[p] as usize - 1]
    }
}

fn junk(random: &mut Random) -> Record {
    Record {
        edge: Edge {
            a: random.byte(),
            b: random.byte(),
            cost: random.word() as i32,
            mark: random.byte(),
        },
        zeros: [random.byte(), random.byte(), random.byte()],
        next: random.word() as u16,
    }
}

/// The graph's edges in `count` records, scattered and with anything off the chain.
pub fn scattered(random: &mut Random, graph: &Graph, count: usize) -> File {
    let mut numbers: Vec<u16> = (1..=count as u16).collect();
    random.shuffle(&mut numbers);
    let chain = numbers[..graph.m].to_vec();
    let records = (0..count).map(|_| junk(random)).collect();
    chained(graph, records, chain)
}

/// The graph's edges in the writer's form.
pub fn in_order(random: &mut Random, graph: &Graph) -> File {
    let chain = (1..=graph.m as u16).collect();
    let records = (0..graph.m).map(|_| junk(random)).collect();
    chained(graph, records, chain)
}

fn chained(graph: &Graph, mut records: Vec<Record>, chain: Vec<u16>) -> File {
    for (p, number) in chain.iter().enumerate() {
        records[*number as usize - 1] = Record {
            edge: graph.edge(p),
            zeros: [0; 3],
            next: chain.get(p + 1).copied().unwrap_or(0),
        };
    }
    File {
        n: graph.n as u8,
        zeros: [0; 3],
        head: chain.first().copied().unwrap_or(0),
        count: records.len() as u16,
        records,
        chain,
    }
}

/// In the writer's form or scattered.
pub fn any_form(random: &mut Random, graph: &Graph) -> File {
    match random.below(4) {
        0 => in_order(random, graph),
        1 => scattered(random, graph, graph.m),
        2 => {
            let count = graph.m + random.below(12);
            scattered(random, graph, count)
        }
        _ => {
            let count = graph.m + random.below(1001 - graph.m);
            scattered(random, graph, count)
        }
    }
}

/// When a fault is met: place on the chain (0 for the head), then the order within a record.
pub type Moment = (usize, usize);

/// One fault in the chain, and what must be answered if nothing is met earlier. Kinds 5 to 10 are
/// the refusals; the chain must have two records or more. `p` is the place on the chain, from 0.
pub fn fault(random: &mut Random, file: &mut File, kind: u32, p: usize) -> (Moment, Refusal) {
    let (moment, place) = match kind {
        5 => too_large(random, file, p),
        6 => {
            let back = file.chain[random.below(p + 1)];
            file.at(p).next = back;
            ((p + 1, 11), back)
        }
        10 => {
            let p = p.max(1);
            repeat_pair(random, file, p);
            ((p + 1, 10), file.chain[p])
        }
        _ => {
            match kind {
                7 => break_ends(random, file, p),
                8 => break_mark_or_zero(random, file, p),
                _ => break_cost(random, file, p),
            }
            ((p + 1, kind as usize), file.chain[p])
        }
    };
    let refusal = Refusal {
        number: kind,
        place: place as u64,
    };
    (moment, refusal)
}

/// A next or the head above the record count.
fn too_large(random: &mut Random, file: &mut File, p: usize) -> (Moment, u16) {
    let over = file.count + 1;
    let far = over.saturating_add(random.word() as u16);
    let next = random.pick(&[over, u16::MAX, far]);
    if random.one_in(4) {
        file.head = next;
        return ((0, 0), next);
    }
    file.at(p).next = next;
    ((p + 1, 11), next)
}

fn break_ends(random: &mut Random, file: &mut File, p: usize) {
    let n = file.n;
    let over = n + 1 + random.below(255 - n as usize) as u8;
    let edge = &mut file.at(p).edge;
    match random.below(5) {
        0 => edge.a = 0,
        1 => edge.a = edge.b,
        2 => edge.b = edge.a,
        3 => std::mem::swap(&mut edge.a, &mut edge.b),
        _ => edge.b = over,
    }
}

fn break_mark_or_zero(random: &mut Random, file: &mut File, p: usize) {
    let past = 3 + random.below(253) as u8;
    let not_zero = 1 + random.below(255) as u8;
    let record = file.at(p);
    match random.below(4) {
        0 => record.edge.mark = past,
        i => record.zeros[i - 1] = not_zero,
    }
}

fn break_cost(random: &mut Random, file: &mut File, p: usize) {
    let far = random.between(MAX_COST as i64 + 1, i32::MAX as i64) as i32;
    let past = past(random, MAX_COST);
    file.at(p).edge.cost = random.pick(&[past, past, far, -far]);
}

/// Gives the record the pair of an earlier one.
fn repeat_pair(random: &mut Random, file: &mut File, p: usize) {
    let earlier = file.at(random.below(p)).edge;
    let edge = &mut file.at(p).edge;
    edge.a = earlier.a;
    edge.b = earlier.b;
}

/// Changes a byte: to anything, by one, or in one bit.
pub fn damage(random: &mut Random, bytes: &mut [u8]) {
    if bytes.is_empty() {
        return;
    }
    let near = random.one_in(3);
    let at = random.below(if near {
        bytes.len().min(32)
    } else {
        bytes.len()
    });
    let byte = bytes[at];
    bytes[at] = match random.below(4) {
        0 => random.byte(),
        1 => byte.wrapping_add(1),
        2 => byte.wrapping_sub(1),
        _ => byte ^ 1 << random.below(8),
    };
}
