//! Agreement with the free reference on many random graphs, and the record's check beside a plain
//! one.

use super::check::record_fits;
use super::rows::{packed, unpack, ROW};
use super::{Answer, Forms, Record, Wanted};
use crate::agree::{any_ceiling, any_multipliers, sparse};
use crate::inputs::{Random, MAX_CEILING, MAX_COST, MAX_MULTIPLIER, PLACES, VERTICES};
use crate::planner::{Job, Planner, Reference};

fn random_job(random: &mut Random) -> Job {
    let graph = sparse(random);
    let d = any_multipliers(random, graph.n());
    let mut list = [0; PLACES];
    let bound = Reference::new().tree(&graph, &d, &mut list[..graph.m()]);
    Job {
        ceiling: any_ceiling(random, bound),
        sweeps: random.below(16) as u32,
        step: [0, 1, 20, 300, 10_000][random.below(5)],
        lifting: random.below(2) as u64,
        budget: 0,
        multipliers: d,
        graph,
    }
}

fn wanted(job: &Job) -> Wanted {
    Wanted {
        ceiling: job.ceiling,
        sweeps: job.sweeps,
        step: job.step,
        lifting: job.lifting,
    }
}

/// Tree and rulings, then runs of several budgets, the state being compared after each.
fn same(random: &mut Random, forms: &mut Forms) {
    let job = random_job(random);
    let (graph, d, m) = (&job.graph, &job.multipliers, job.graph.m());
    let mut free = Reference::new();
    let mut lists = [[7; PLACES]; 2];
    let trees = (
        forms.tree(graph, d, &mut lists[0][..m]),
        free.tree(graph, d, &mut lists[1][..m]),
    );
    assert_eq!(trees.0, trees.1);
    assert_eq!(lists[0], lists[1]);
    let bound = forms.rule(graph, d, job.ceiling, &mut lists[0][..m]);
    assert_eq!(bound, free.rule(graph, d, job.ceiling, &mut lists[1][..m]));
    assert_eq!(lists[0], lists[1]);
    forms.open(&job);
    free.open(&job);
    for _ in 0..random.below(4) {
        let budget = random.below(50) as u64;
        assert_eq!(forms.run(budget), free.run(budget));
        assert_eq!(forms.stored(), free.stored());
    }
    assert_eq!(
        forms.finish(&mut lists[0][..m]),
        free.finish(&mut lists[1][..m])
    );
    assert_eq!(lists[0], lists[1]);
}

#[test]
fn agrees_with_the_free_reference() {
    let mut random = Random::new(20);
    let mut forms = Forms::new();
    for _ in 0..200_000 {
        same(&mut random, &mut forms);
    }
}

/// Whether edge k, counted from 0, is required in node p.
fn required(r: &Record, p: usize, k: usize) -> bool {
    r.stack[p][k / 64] >> (k % 64) & 1 == 1
}

fn excluded(r: &Record, p: usize, k: usize) -> bool {
    r.stack[p][ROW + k / 64] >> (k % 64) & 1 == 1
}

#[test]
fn rows_are_the_marks() {
    let mut random = Random::new(19);
    for m in 0..=PLACES {
        let mut marks = [0; PLACES];
        marks[..m]
            .iter_mut()
            .for_each(|mark| *mark = random.below(3) as u8);
        let mut record = Record::fresh();
        record.stack[0] = packed(&marks, m);
        for (k, mark) in marks.iter().enumerate() {
            let said = (required(&record, 0, k), excluded(&record, 0, k));
            assert_eq!(said, (*mark == 1, *mark == 2));
        }
        let mut again = [0; PLACES];
        unpack(&record.stack[0], m, &mut again);
        assert_eq!(again, marks);
    }
}

/// docs/RECORD.md, place by place.
fn plain_check(r: &Record) -> bool {
    let (n, m, depth) = (r.graph.n(), r.graph.m(), r.waiting());
    if n > VERTICES || m > PLACES || depth > n + 2 {
        return false;
    }
    let g = &r.graph;
    let unused = (m..PLACES)
        .all(|k| g.a[k] == 0 && g.b[k] == 0 && g.cost[k] == 0 && g.mark[k] == 0 && r.best[k] == 0)
        && (n..VERTICES).all(|v| r.multipliers[v] == 0)
        && (depth..r.stack.len()).all(|p| r.stack[p].iter().all(|word| *word == 0))
        && (0..depth).all(|p| (m..64 * ROW).all(|k| !required(r, p, k) && !excluded(r, p, k)))
        && (depth..r.carried.len()).all(|p| r.carried[p].iter().all(|d| *d == 0))
        && (0..depth).all(|p| r.carried[p][n..].iter().all(|d| *d == 0))
        && (r.has_best == 1 || r.best.iter().all(|byte| *byte == 0))
        && r.ashore == [0; VERTICES];
    if r.open > 1 || r.has_best > 1 {
        return false;
    }
    if r.open == 0 {
        let numbers = [r.ceiling, r.upper, r.sweeps as i64, r.step as i64];
        let zero = numbers == [0; 4] && r.count == 0 && n == 0 && m == 0 && depth == 0;
        return unused && zero && r.denominator == 0 && r.lifting == 0 && r.has_best == 0;
    }
    let within = |value: i32, most: i32| (-most..=most).contains(&value);
    let mut pairs: Vec<_> = (0..m).map(|k| (g.a[k], g.b[k])).collect();
    pairs.sort();
    pairs.dedup();
    unused
        && n >= 3
        && pairs.len() == m
        && pairs
            .iter()
            .all(|(a, b)| 1 <= *a && a < b && *b as usize <= n)
        && (0..m).all(|k| within(g.cost[k], MAX_COST) && g.mark[k] <= 2)
        && r.multipliers[0] == 0
        && r.multipliers.iter().all(|d| within(*d, MAX_MULTIPLIER))
        && (-MAX_CEILING..=MAX_CEILING).contains(&r.ceiling)
        && (-MAX_CEILING..=MAX_CEILING).contains(&r.upper)
        && r.sweeps <= 15
        && r.step <= 10_000
        && r.denominator == 1
        && r.lifting <= 1
        && (0..depth).all(|p| {
            let least = (0..m).filter(|k| required(r, p, *k)).count();
            (0..m).all(|k| !(required(r, p, k) && excluded(r, p, k))) && p <= least
        })
        && (0..depth).all(|p| {
            let carried = &r.carried[p];
            carried[0] == 0 && carried.iter().all(|d| within(*d, MAX_MULTIPLIER))
        })
        && r.best.iter().all(|byte| *byte <= 1)
        && r.count < 1 << 63
}

fn bend(r: &mut Record, random: &mut Random) {
    let (k, p) = (random.below(PLACES), random.below(r.stack.len()));
    let byte = [0, 1, 2, 3, 21, 255][random.below(6)];
    let past = MAX_CEILING + 1;
    let wide = [-1, 0, 1, MAX_CEILING, past, -past, i64::MIN][random.below(7)];
    match random.below(23) {
        0 => r.open = byte,
        1 => r.graph.n = byte,
        2 => r.graph.m = r.graph.m.wrapping_add(1),
        3 => r.graph.a[k] = byte,
        4 => r.graph.b[k] = byte,
        5 => r.graph.cost[k] = [0, MAX_COST + 1, -MAX_COST - 1, i32::MIN][random.below(4)],
        6 => r.graph.mark[k] = byte,
        7 => r.multipliers[k % VERTICES] = [0, 1, MAX_MULTIPLIER + 1, i32::MIN][random.below(4)],
        8 => r.ceiling = wide,
        9 => r.sweeps = [0, 15, 16][random.below(3)],
        10 => r.step = [0, 10_000, 10_001][random.below(3)],
        11 => r.upper = wide,
        12 => r.depth = [0, r.depth + 1, r.depth.wrapping_sub(1), 22, 23][random.below(5)],
        13 => r.stack[p][k % (2 * ROW)] ^= 1 << random.below(64),
        14 => r.stack[random.below(r.waiting() + 1) % 22][k % (2 * ROW)] ^= 1 << random.below(64),
        15 => r.has_best = byte,
        17 => r.carried[p][k % VERTICES] = [0, 1, MAX_MULTIPLIER + 1, i32::MIN][random.below(4)],
        18 => r.carried[random.below(r.waiting() + 1) % 22][k % VERTICES] = [0, 1][random.below(2)],
        16 => r.best[k] = byte,
        21 => r.ashore[k % VERTICES] = byte.min(2),
        20 => r.lifting = [0, 1, 2, u64::MAX][random.below(4)],
        19 => r.denominator = [0, 1, 2, 1_001][random.below(4)],
        _ => r.count = [0, (1 << 63) - 1, 1 << 63][random.below(3)],
    }
}

#[test]
fn checks_the_record_as_it_says() {
    let mut random = Random::new(3);
    let (mut fit, mut unfit) = (0, 0);
    for _ in 0..1_500 {
        let job = random_job(&mut random);
        let mut record = Record::fresh();
        if random.below(8) > 0 {
            record.open(&job.graph, &job.multipliers, wanted(&job));
            record.run(random.below(40) as u64);
        }
        assert!(record_fits(&record) && plain_check(&record));
        for _ in 0..40 {
            let mut bent = record.clone();
            bend(&mut bent, &mut random);
            let fits = plain_check(&bent);
            assert_eq!(record_fits(&bent), fits);
            let refused = bent.clone().tell() == Answer::Refused(24);
            assert_eq!(refused, !fits);
            (fit, unfit) = (fit + fits as u32, unfit + !fits as u32);
        }
    }
    assert!(fit > 1_000 && unfit > 1_000, "{fit} {unfit}");
}

#[test]
fn refuses_in_document_01s_order() {
    let job = random_job(&mut Random::new(5));
    let (g, d, m) = (&job.graph, &job.multipliers, job.graph.m());
    let mut record = Record::fresh();
    let mut list = vec![0; m];
    assert_eq!(record.run(1), Answer::Refused(20));
    assert_eq!(record.tell(), Answer::Refused(20));
    assert_eq!(record.show(&mut list), Answer::Refused(20));
    assert_eq!(record.close(), Answer::Refused(20));
    let mut bad = g.clone();
    bad.mark[0] = 3;
    let high = vec![1_000_001; g.n()];
    let past = Wanted {
        ceiling: MAX_CEILING + 1,
        sweeps: 16,
        step: 0,
        lifting: 2,
    };
    let far = Wanted {
        step: 10_001,
        ..wanted(&job)
    };
    assert_eq!(record.open(&bad, &d[1..], past), Answer::Refused(15));
    assert_eq!(record.open(g, &d[1..], past), Answer::Refused(11));
    assert_eq!(record.open(g, &high, past), Answer::Refused(12));
    assert_eq!(record.open(g, d, past), Answer::Refused(13));
    assert_eq!(record.open(g, d, far), Answer::Refused(14));
    assert_eq!(record.open(g, d, wanted(&job)), Answer::Accepted);
    assert_eq!(record.open(&bad, d, far), Answer::Refused(21));
    assert_eq!(record.show(&mut list), Answer::Refused(22));
    assert_eq!(record.close(), Answer::Accepted);
    assert!(record_fits(&record) && record.open == 0);
}
