//! Records with damage, through the library: every call refuses 24, and changes nothing, exactly where the stated check fails.

use crate::bends;
use crate::document::ashore::{dues, haul};
use crate::document::graph::{EXCLUDED, FREE, PLACES, REQUIRED};
use crate::document::law::Law;
use crate::document::machine::{Call, Machine, Node};
use crate::document::tree::Method;
use crate::ffi::{only, Reply};
use crate::generate::{
    self, past, wrong_ceiling, MAX_CEILING, MAX_COST, MAX_DENOMINATOR, MAX_MULTIPLIER,
};
use crate::random::Random;
use crate::record::{Record, CARRIED, NODE, NODES, ROW, STACK, VERTICES};
use crate::report::{Outcome, Suite, Tally};

pub const SUITE: Suite = Suite {
    name: "damage",
    run,
    bends: &[
        bends::MORE_SWEEPS,
        bends::LARGER_STEP,
        bends::HIGHER_CEILING,
        bends::LOWER_CEILING,
        bends::FORMER_CEILING,
        bends::MARK_THREE,
        bends::HIGHER_COST,
        bends::FORMER_COST,
        bends::HIGHER_MULTIPLIER,
        bends::FLAG_OF_TWO,
        bends::DEEPER_STACK,
        bends::SHALLOWER_STACK,
        bends::FEWER_REQUIRED,
        bends::JUNK_PAST_DEPTH,
        bends::LEG_IN_BOTH_ROWS,
        bends::BITS_PAST_M,
        bends::CARRIED_NOT_JUDGED,
        bends::CARRIED_PAST_N,
        bends::DENOMINATOR_OF_ZERO,
        bends::HIGHER_DENOMINATOR,
        bends::DENOMINATOR_NOT_CHECKED,
        bends::RANGE_IN_MINUTES,
        bends::LIFTING_OF_TWO,
        bends::LIFTING_NOT_CHECKED,
        bends::ASHORE_BYTE_OF_TWO,
        bends::FIRST_ASHORE,
        bends::TWO_AFLOAT,
        bends::ASHORE_NOT_CHECKED,
        bends::ASHORE_PAST_N,
        bends::TOUCHED_NOT_CHECKED,
        bends::CARRIED_PAST_AFLOAT,
        bends::DEPTH_OF_ALL,
    ],
};

/// A record that some list of calls leaves.
pub fn sound(random: &mut Random) -> Record {
    let mut machine = Machine::new(&Law::AS_WRITTEN, Method::Kruskal);
    for call in generate::calls(random, 5, 10) {
        machine.call(&call);
        if random.one_in(6) {
            break;
        }
    }
    Record::of(&machine.search)
}

/// A number at a limit or past it.
fn about(random: &mut Random, limit: i32) -> i32 {
    let past = past(random, limit);
    random.pick(&[0, 1, limit, -limit, past, past])
}

/// Changes one part; the record may still pass.
pub fn harm(random: &mut Random, record: &mut Record) {
    let (n, m) = (record.graph.n.clamp(3, 20), record.graph.m.clamp(1, PLACES));
    let k = if random.one_in(2) {
        random.below(m)
    } else {
        random.below(PLACES)
    };
    let byte = if random.one_in(3) {
        random.byte()
    } else {
        random.below(4) as u8
    };
    let wrong = wrong_ceiling(random);
    let wide = random.pick(&[0, 1, MAX_CEILING, -MAX_CEILING, wrong, wrong]);
    let first_unused = record.waiting().min(NODES - 1);
    let node = random.below(record.waiting().clamp(1, NODES));
    let number = match random.below(3) {
        0 => random.below(CARRIED),
        1 => VERTICES * first_unused + random.below(VERTICES),
        _ => VERTICES * node + random.below(n),
    };
    match random.below(24) {
        0 => record.open = byte,
        1 => record.graph.n = random.pick(&[0, 2, 3, 4, 20, 21, 255]),
        2 => record.graph.m = random.pick(&[0, m - 1, m + 1, 190, 191, 255]),
        3 => record.graph.a[k] = byte,
        4 => record.graph.b[k] = byte,
        5 => record.graph.cost[k] = about(random, MAX_COST),
        6 => record.graph.mark[k] = byte,
        7 => record.multipliers[random.below(n)] = about(random, MAX_MULTIPLIER),
        8 => record.ceiling = wide,
        9 => record.sweeps = random.pick(&[0, 15, 16, u32::MAX]),
        10 => record.step = random.pick(&[0, 10_000, 10_001, u32::MAX]),
        11 => record.upper = wide,
        12 => {
            let (n, m) = (random.pick(&[n, record.afloat()]) as u64, m as u64);
            let far = random.pick(&[1 << 16, 1 << 32, record.depth ^ 1 << 32, u64::MAX]);
            record.depth = random.pick(&[0, 1, 2, n + 2, n + 3, m + 2, 22, 23, far]);
        }
        13 => {
            let node = random.pick(&[first_unused, node, node]);
            harm_rows(random, record, node, k);
        }
        14 => record.has_best = byte,
        15 => record.best[k] = byte,
        16 => record.carried[number] = about(random, MAX_MULTIPLIER),
        17 => clear_required(record, node),
        20 => record.stack[random.below(STACK)] = random.word(),
        21 => record.lifting = random.pick(&[0, 1, 2, 2, 256, 1 << 32, 1 << 63, u64::MAX]),
        22 => record.ashore[random.below(n)] = random.pick(&[0, 1, 1, 2, 255]),
        23 => record.ashore[random.below(VERTICES)] ^= 1,
        18 => {
            let wrong = generate::wrong_denominator(random);
            record.denominator = random.pick(&[1, 2, MAX_DENOMINATOR, wrong, wrong, wrong]);
        }
        _ => record.count = random.pick(&[0, 1, (1 << 63) - 1, 1 << 63, u64::MAX]),
    }
}

/// Changes a bit of a node's rows: any of them, one past all edges, or both of edge k, counted from 0.
fn harm_rows(random: &mut Random, record: &mut Record, node: usize, k: usize) {
    let row = ROW * random.below(2);
    let (word, bit) = (NODE * node + k / 64, 1 << (k % 64));
    match random.below(4) {
        0 => record.stack[NODE * node + random.below(NODE)] ^= 1 << random.below(64),
        1 => record.stack[NODE * node + row + ROW - 1] |= 1 << (62 + random.below(2)),
        2 => record.stack[word + row] ^= bit,
        _ => {
            record.stack[word] |= bit;
            record.stack[word + ROW] |= bit;
        }
    }
}

/// Makes the first required edge of a node a free one.
fn clear_required(record: &mut Record, node: usize) {
    let mut row = record.stack[NODE * node..NODE * node + ROW].iter_mut();
    if let Some(word) = row.find(|word| **word != 0) {
        *word &= *word - 1;
    }
}

fn run(law: &Law, tally: &mut Tally) -> Outcome {
    let random = &mut Random::new(0x6461_6d61_6765);
    for _ in 0..12_000 {
        let mut harmed = sound(random);
        for _ in 0..1 + random.below(2) {
            harm(random, &mut harmed);
        }
        let call = any_call(random, &harmed);
        judge(law, tally, &harmed, &call)?;
    }
    flags(law, tally, random)?;
    for n in 3..=20 {
        for depth in 0..=NODES {
            stacks(law, tally, random, n, depth)?;
        }
    }
    each_bit(law, tally, &Record::fresh())?;
    each_bit(law, tally, &going_on(random))?;
    each_bit(law, tally, &finished(random))
}

fn any_call(random: &mut Random, record: &Record) -> Call {
    match random.below(5) {
        0 => generate::opening(random, 5, 10, false),
        1 => Call::Run { budget: 0 },
        2 => Call::Tell,
        3 => Call::Show {
            length: record.graph.m.min(200),
        },
        _ => Call::Close,
    }
}

/// Whether the call is refused 24 exactly where the check fails; then nothing may change.
fn judge(law: &Law, tally: &mut Tally, harmed: &Record, call: &Call) -> Outcome {
    let input = || format!("{call:?} on {harmed:?}");
    let mut after = harmed.clone();
    let reply = after.call(call);
    let passes = harmed.passes(law);
    tally.compare("24", input, &!passes, &(reply.said.number == 24))?;
    if passes {
        return Ok(());
    }
    tally.compare("as it was", input, harmed, &after)?;
    let refused = Reply {
        said: only(24),
        out: None,
        margins_kept: true,
    };
    tally.compare("said and lent", input, &refused, &reply)
}

/// A search with nodes that wait and an incumbent.
fn going_on(random: &mut Random) -> Record {
    loop {
        let record = sound(random);
        if record.depth >= 3 && record.has_best == 1 {
            return record;
        }
    }
}

/// A search that found a tour and has no node left.
fn finished(random: &mut Random) -> Record {
    loop {
        let record = sound(random);
        if record.depth == 0 && record.has_best == 1 {
            return record;
        }
    }
}

/// Every value of each flag, in records of every kind.
fn flags(law: &Law, tally: &mut Tally, random: &mut Random) -> Outcome {
    for record in [Record::fresh(), going_on(random), finished(random)] {
        for byte in 0..=255 {
            let call = any_call(random, &record);
            let mut harmed = record.clone();
            harmed.open = byte;
            judge(law, tally, &harmed, &call)?;
            let mut harmed = record.clone();
            harmed.has_best = byte;
            judge(law, tally, &harmed, &call)?;
        }
    }
    Ok(())
}

/// A search of n vertices in which so many nodes wait, node p with p required edges: then each node with one required edge fewer, with an edge in both
/// rows, and with a bit past m in each row; each other node with a bit in it; each with multipliers at a limit and past it, with one of vertex 1, with
/// one past the vertices afloat and one past n; each node with the mark of some edge turned; each byte of the list ashore; and other depths.
fn stacks(law: &Law, tally: &mut Tally, random: &mut Random, n: usize, depth: usize) -> Outcome {
    let m = n * (n - 1) / 2;
    let record = waiting(random, n, depth);
    let mut judge = |record: Record| judge(law, tally, &record, &Call::Tell);
    judge(record.clone())?;
    for p in 0..NODES {
        let mut with = |rows: &[usize], k: usize| {
            let mut harmed = record.clone();
            for row in rows {
                harmed.stack[NODE * p + ROW * row + k / 64] |= 1 << (k % 64);
            }
            judge(harmed)
        };
        let past = m + random.below(64 * ROW - m);
        if p < depth {
            with(&[0, 1], random.below(m))?;
            with(&[0], past)?;
            with(&[1], past)?;
            with(&[0], m)?;
            with(&[1], 64 * ROW - 1)?;
            let mut fewer = record.clone();
            clear_required(&mut fewer, p);
            judge(fewer)?;
        } else {
            with(&[random.below(2)], random.below(64 * ROW))?;
        }
    }
    for p in 0..NODES {
        let mut carries = |v: usize, number: i32| {
            let mut harmed = record.clone();
            harmed.carried[VERTICES * p + v] = number;
            judge(harmed)
        };
        carries(0, random.pick(&[-1, 1]))?;
        carries(1 + random.below(n - 1), about(random, MAX_MULTIPLIER))?;
        if n < VERTICES {
            carries(n + random.below(VERTICES - n), random.pick(&[-1, 1]))?;
        }
        let afloat = record.afloat();
        if afloat < n {
            carries(afloat, random.pick(&[-1, 1]))?;
            let mut harmed = record.clone();
            let (sea, k) = (haul(law, &record.graph, &record.ashore), random.below(m));
            let touched = (k..m).find(|k| sea.touches_ashore(*k)).unwrap_or(k);
            let word = NODE * p + touched / 64;
            harmed.stack[word + ROW] &= !(1 << (touched % 64));
            if random.one_in(2) {
                harmed.stack[word] |= 1 << (touched % 64);
            }
            judge(harmed)?;
        }
    }
    for place in 0..VERTICES {
        for byte in [1 - record.ashore[place], 2] {
            let mut harmed = record.clone();
            harmed.ashore[place] = byte;
            judge(harmed)?;
        }
    }
    let depth = depth as u64;
    for other in [
        depth + 1,
        255,
        256 + depth,
        (1 << 16) + depth,
        (1 << 32) + depth,
        u64::MAX,
    ] {
        let mut harmed = record.clone();
        harmed.depth = other;
        judge(harmed)?;
    }
    Ok(())
}

/// An opening's record with its stack written anew; of few edges the upper nodes have all of them required.
fn waiting(random: &mut Random, n: usize, depth: usize) -> Record {
    let m = n * (n - 1) / 2;
    let (law, ashore) = (&Law::AS_WRITTEN, generate::ashore(random, n));
    let graph = generate::graph_of(random, n, m);
    let sea = haul(law, &graph, &ashore);
    let mut untouched: Vec<usize> = (0..m).filter(|k| !sea.touches_ashore(*k)).collect();
    let mut machine = Machine::new(law, Method::Kruskal);
    machine.call(&Call::Open {
        graph: Box::new(graph),
        multipliers: generate::multipliers(random, n),
        ashore: ashore.clone(),
        ceiling: 0,
        sweeps: 0,
        step: 0,
        denominator: generate::denominator(random),
        lifting: generate::lifting(random),
    });
    if let Some(search) = &mut machine.search {
        search.stack = (0..depth)
            .map(|p| {
                let mut marks = vec![EXCLUDED; m];
                random.shuffle(&mut untouched);
                for (i, k) in untouched.iter().enumerate() {
                    marks[*k] = match i < p {
                        true => REQUIRED,
                        false => random.pick(&[FREE, EXCLUDED]),
                    };
                }
                Node {
                    marks,
                    multipliers: dues(law, &generate::multipliers(random, n), &ashore),
                }
            })
            .collect();
    }
    Record::of(&machine.search)
}

/// Each single bit of a record.
fn each_bit(law: &Law, tally: &mut Tally, record: &Record) -> Outcome {
    let mut bytes = record.bytes();
    for bit in 0..8 * bytes.len() {
        bytes[bit / 8] ^= 1 << (bit % 8);
        judge(law, tally, &Record::of_bytes(&bytes), &Call::Tell)?;
        bytes[bit / 8] ^= 1 << (bit % 8);
    }
    Ok(())
}
