//! Every chart file that the suites try, with what is known of it by construction.

use crate::document::graph::Graph;
use crate::document::Refusal;
use crate::files::{any_form, damage, fault, in_order, scattered, File, Moment};
use crate::generate;
use crate::random::Random;
use crate::report::Outcome;
use crate::suites::facts::four;

/// What is known of a file without reading it.
pub enum Known {
    Nothing,
    Graph(Box<Graph>),
    Refused(Refusal),
}

/// What is done with each file: its case, its bytes, what is known.
pub type Visit<'a> = dyn FnMut(&str, &[u8], Known) -> Outcome + 'a;

pub fn every_file(visit: &mut Visit) -> Outcome {
    let random = &mut Random::new(0x6368_6172_7473);
    fit(random, visit)?;
    each_refusal(random, visit)?;
    two_faults(random, visit)?;
    in_one_record(random, visit)?;
    each_byte(random, visit)?;
    damaged(random, visit)?;
    cut(random, visit)?;
    limits(random, visit)?;
    anything(random, visit)
}

/// A refusal that names no place.
fn refused(number: u32) -> Refusal {
    Refusal { number, place: 0 }
}

fn fit(random: &mut Random, visit: &mut Visit) -> Outcome {
    for _ in 0..3000 {
        let graph = generate::graph(random);
        let bytes = in_order(random, &graph).bytes();
        visit(
            "in the writer's form",
            &bytes,
            Known::Graph(Box::new(graph)),
        )?;
    }
    for _ in 0..4000 {
        let graph = generate::graph(random);
        let bytes = any_form(random, &graph).bytes();
        visit("a scattered chain", &bytes, Known::Graph(Box::new(graph)))?;
    }
    Ok(())
}

/// A graph with two edges or more, in any form.
fn chained(random: &mut Random) -> File {
    let n = 3 + random.below(18);
    let most = n * (n - 1) / 2;
    let range = if random.one_in(2) { 2 } else { most - 1 };
    let m = 2 + random.below(range);
    let graph = generate::graph_of(random, n, m);
    any_form(random, &graph)
}

/// Refusals 1 to 4, put into the bytes. A file cut short must be cut last.
fn header_fault(random: &mut Random, bytes: &mut Vec<u8>, kind: u32) {
    let not_zero = 1 + random.below(255) as u8;
    match kind {
        1 => bytes.truncate(random.below(8)),
        2 => bytes[0] = random.pick(&[0, 1, 2, 21, 22, 128, 255]),
        3 => bytes[random.pick(&[1, 6, 7])] = not_zero,
        _ => wrong_count(random, bytes),
    }
}

/// A record count over 1,000 or one that the length does not fit.
fn wrong_count(random: &mut Random, bytes: &mut Vec<u8>) {
    let count = (bytes.len() - 8) / 12;
    let set = |bytes: &mut Vec<u8>, count: usize| {
        bytes[4..6].copy_from_slice(&(count as u16).to_le_bytes());
    };
    match random.below(6) {
        0 if count > 0 => bytes.truncate(8 + random.below(12 * count)),
        1 => bytes.extend(vec![0; 1 + random.below(30)]),
        2 => set(bytes, count + 1 + random.below(5)),
        3 if count > 0 => set(bytes, random.below(count)),
        4 => set(bytes, 65_535 - random.below(64_000)),
        _ => {
            let over = 1001 + random.below(60);
            bytes.resize(8 + 12 * over, 0);
            set(bytes, over);
        }
    }
}

fn each_refusal(random: &mut Random, visit: &mut Visit) -> Outcome {
    for kind in 1..=10 {
        for _ in 0..500 {
            let mut file = chained(random);
            let mut refusal = refused(kind);
            if kind >= 5 {
                let p = random.below(file.chain.len());
                refusal = fault(random, &mut file, kind, p).1;
            }
            let mut bytes = file.bytes();
            if kind < 5 {
                header_fault(random, &mut bytes, kind);
            }
            let case = format!("a fault that is refused {kind}");
            visit(&case, &bytes, Known::Refused(refusal))?;
        }
    }
    Ok(())
}

/// Two faults, the earlier of which must be answered.
fn two_faults(random: &mut Random, visit: &mut Visit) -> Outcome {
    for _ in 0..6000 {
        let mut file = chained(random);
        let other = if random.one_in(10) { 1 } else { 5 };
        let mut kinds = [1 + random.below(10) as u32, other + random.below(6) as u32];
        kinds.sort();
        let mut met = Vec::new();
        for kind in kinds.into_iter().filter(|kind| *kind >= 5) {
            let p = random.below(file.chain.len());
            met.push(fault(random, &mut file, kind, p));
        }
        if met.len() == 2 && may_undo(kinds, met[0].0, met[1].0) {
            continue;
        }
        let mut bytes = file.bytes();
        for kind in kinds.iter().rev().filter(|kind| **kind < 5) {
            header_fault(random, &mut bytes, *kind);
        }
        met.sort_by_key(|(moment, _)| *moment);
        let refusal = match met.first() {
            Some((_, refusal)) if kinds[0] >= 5 => *refusal,
            _ => refused(kinds[0]),
        };
        let case = format!("two faults, {} and {}", kinds[0], kinds[1]);
        visit(&case, &bytes, Known::Refused(refusal))?;
    }
    Ok(())
}

/// Two faults at one moment could undo each other; so could new ends and a pair met before.
fn may_undo(kinds: [u32; 2], one: Moment, other: Moment) -> bool {
    one == other || (kinds == [7, 10] && one.0 == other.0)
}

/// Some faults of 7 to 10 in one record, and its next too large.
fn in_one_record(random: &mut Random, visit: &mut Visit) -> Outcome {
    for _ in 0..1500 {
        let mut file = chained(random);
        let p = 1 + random.below(file.chain.len() - 1);
        let last = 9 + random.below(2) as u32;
        let first = if last == 9 { 7 } else { 8 };
        let mut met = Vec::new();
        for kind in first..=last {
            if random.one_in(2) {
                met.push(fault(random, &mut file, kind, p).1);
            }
        }
        let next = file.count + 1;
        file.at(p).next = next;
        met.push(Refusal {
            number: 5,
            place: next as u64,
        });
        let known = Known::Refused(met[0]);
        visit("faults in one record", &file.bytes(), known)?;
    }
    Ok(())
}

/// Each byte of one file changed to each other value.
fn each_byte(random: &mut Random, visit: &mut Visit) -> Outcome {
    let file = scattered(random, &four(), 8).bytes();
    for at in 0..file.len() {
        for change in 1..=255 {
            let mut bytes = file.clone();
            bytes[at] ^= change;
            visit("one byte changed", &bytes, Known::Nothing)?;
        }
    }
    Ok(())
}

fn damaged(random: &mut Random, visit: &mut Visit) -> Outcome {
    for _ in 0..8000 {
        let graph = generate::graph(random);
        let mut bytes = any_form(random, &graph).bytes();
        for _ in 0..1 + random.below(3) {
            damage(random, &mut bytes);
        }
        visit("one to three bytes damaged", &bytes, Known::Nothing)?;
    }
    Ok(())
}

fn cut(random: &mut Random, visit: &mut Visit) -> Outcome {
    for _ in 0..1500 {
        let graph = generate::graph(random);
        let mut bytes = any_form(random, &graph).bytes();
        bytes.truncate(random.below(bytes.len() + 1));
        visit("cut short", &bytes, Known::Nothing)?;
    }
    for _ in 0..1500 {
        let graph = generate::graph(random);
        let mut bytes = any_form(random, &graph).bytes();
        let more = random.below(40);
        bytes.extend(random.bytes(more));
        visit("lengthened", &bytes, Known::Nothing)?;
    }
    Ok(())
}

/// 1,000 records, 190 edges, and one more of each.
fn limits(random: &mut Random, visit: &mut Visit) -> Outcome {
    for _ in 0..300 {
        let graph = generate::graph(random);
        let bytes = scattered(random, &graph, 1000).bytes();
        visit(
            "1,000 records",
            &bytes,
            Known::Graph(Box::new(graph.clone())),
        )?;
        let bytes = scattered(random, &graph, 1001).bytes();
        visit("1,001 records", &bytes, Known::Refused(refused(4)))?;
        let graph = generate::graph_of(random, 20, 190);
        let count = 190 + random.below(100);
        let mut file = scattered(random, &graph, count);
        visit("190 edges", &file.bytes(), Known::Graph(Box::new(graph)))?;
        let (_, refusal) = fault(random, &mut file, 6, 189);
        visit("a ring of 190", &file.bytes(), Known::Refused(refusal))?;
    }
    Ok(())
}

fn anything(random: &mut Random, visit: &mut Visit) -> Outcome {
    for length in 0..64 {
        visit("zeros", &vec![0; length], Known::Nothing)?;
        visit("ones", &vec![0xff; length], Known::Nothing)?;
    }
    for _ in 0..1500 {
        let length = random.below(200);
        visit("any bytes", &random.bytes(length), Known::Nothing)?;
    }
    for round in 0..3000 {
        let bytes = any_records(random, round % 2 == 0);
        visit("any records", &bytes, Known::Nothing)?;
    }
    Ok(())
}

/// A fit header before any bytes, or before small ones, which make longer chains.
fn any_records(random: &mut Random, small: bool) -> Vec<u8> {
    let count = random.below(30);
    let mut bytes = random.bytes(8 + 12 * count);
    if small {
        bytes.iter_mut().for_each(|byte| *byte %= 4);
        bytes[8..].chunks_mut(12).for_each(|record| {
            record[1] += record[0];
            record[3] /= 3;
            record[9..].fill(0);
        });
    }
    let head = random.below(count + 2) as u8;
    let header = [3 + random.below(18) as u8, 0, head, 0, count as u8, 0, 0, 0];
    bytes[..8].copy_from_slice(&header);
    bytes
}

/// One file of any of these kinds, mostly faulty; for the soak, which draws as many as it is told to.
pub fn hostile(random: &mut Random) -> Vec<u8> {
    let graph = generate::graph(random);
    let mut file = chained(random);
    let p = random.below(file.chain.len());
    let small = random.one_in(2);
    let (more, kind) = (random.below(2), 1 + random.below(4) as u32);
    let mut bytes = match random.below(8) {
        0 => return filled(random),
        1 => any_records(random, small),
        2 => any_form(random, &graph).bytes(),
        3 => scattered(random, &graph, 1000 + more).bytes(),
        // A ring in the chain.
        4 => {
            fault(random, &mut file, 6, p);
            file.bytes()
        }
        first => {
            fault(random, &mut file, first as u32 + kind - 1, p);
            file.bytes()
        }
    };
    match random.below(6) {
        0 => bytes.truncate(bytes.len() - 1),
        1 => bytes.push(random.byte()),
        2 => header_fault(random, &mut bytes, kind),
        3 => damage(random, &mut bytes),
        _ => {}
    }
    bytes
}

/// Zeros, ones or any bytes; of a length that a file can have, one less, one more, or any.
fn filled(random: &mut Random) -> Vec<u8> {
    let fit = 8 + 12 * random.below(1002);
    let any = random.below(200);
    let length = random.pick(&[fit, fit - 1, fit + 1, any]);
    match random.below(3) {
        0 => vec![0; length],
        1 => vec![0xff; length],
        _ => random.bytes(length),
    }
}
