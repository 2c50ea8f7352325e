//! Where the fields stand: calls that fill every field of a record and of a graph, read back byte by byte at the header's offsets, and by
//! name through the crate for Rust.

use super::wrapper::answer;
use crate::bends;
use crate::document::chart;
use crate::document::graph::{Edge, Graph, EXCLUDED, FREE, PLACES, REQUIRED};
use crate::document::law::Law;
use crate::document::machine::{Call, Machine, Search};
use crate::document::tree::Method;
use crate::files::any_form;
use crate::generate;
use crate::random::Random;
use crate::record::{carried, rows, GRAPH, NODES, SIZE, STACK};
use crate::report::{hex, Hex, Mismatch, Outcome, Suite, Tally};
use planner::raw;

pub const SUITE: Suite = Suite {
    name: "layout",
    run,
    bends: &[
        bends::UPPER_BELOW_COST,
        bends::EXCLUDED_ON_TOP,
        bends::MULTIPLIERS_RESET,
        bends::LAST_PASS_GAINS,
        bends::ONE_LIST_FOR_BOTH,
        bends::PAST_M_NOT_ZERO,
        bends::STRUCK_ROW_FIRST,
        bends::BITS_FROM_ONE,
        bends::LIFTING_AS_SENT,
        bends::CARRIED_OF_ALL,
        bends::TOUCHED_STAY,
    ],
};

/// A field: where the header has it, what must stand there, and what the crate has under its name.
struct Field {
    name: &'static str,
    offset: usize,
    expected: Vec<u8>,
    named: Vec<u8>,
}

fn field(name: &'static str, offset: usize, expected: Vec<u8>, named: &[u8]) -> Field {
    Field {
        name,
        offset,
        expected,
        named: named.to_vec(),
    }
}

fn run(law: &Law, tally: &mut Tally) -> Outcome {
    let random = &mut Random::new(0x6c61_796f_7574);
    let mut met = 0;
    for _ in 0..400 {
        graph_read(law, tally, random)?;
        met += record_left(law, tally, random)? as u32;
    }
    let input = || format!("{met} incumbents while nodes wait");
    tally.compare("enough", input, &true, &(met >= 100))
}

/// Each field where it should be and with something in it, and no byte between them.
fn compare(tally: &mut Tally, input: &str, fields: &[Field], bytes: &[u8]) -> Outcome {
    let mut end = 0;
    for field in fields {
        let input = || format!("{} of {input}", field.name);
        tally.compare("offset", input, &end, &field.offset)?;
        end += field.expected.len();
        let set = field.expected.iter().any(|byte| *byte != 0);
        tally.compare("set", input, &true, &set)?;
        let expected = Hex(field.expected.clone());
        let found = Hex(bytes[field.offset..end].to_vec());
        tally.compare("bytes", input, &expected, &found)?;
        tally.compare("named", input, &expected, &Hex(field.named.clone()))?;
    }
    tally.compare("the end", || input.to_string(), &bytes.len(), &end)
}

fn numbers(values: &[i32]) -> Vec<u8> {
    values.iter().flat_map(|x| x.to_ne_bytes()).collect()
}

fn words(values: &[u64]) -> Vec<u8> {
    values.iter().flat_map(|x| x.to_ne_bytes()).collect()
}

fn padded(mut bytes: Vec<u8>, length: usize) -> Vec<u8> {
    bytes.resize(length, 0);
    bytes
}

fn graph_fields(at: usize, graph: &Graph, named: &raw::Graph) -> [Field; 6] {
    let cost = numbers(&graph.cost);
    [
        field("cost", at, cost, &numbers(&named.cost)),
        field("a", at + 760, graph.a.to_vec(), &named.a),
        field("b", at + 950, graph.b.to_vec(), &named.b),
        field("mark", at + 1_140, graph.mark.to_vec(), &named.mark),
        field("n", at + 1_330, vec![graph.n as u8], &[named.n]),
        field("m", at + 1_331, vec![graph.m as u8], &[named.m]),
    ]
}

/// The fields of the record of a search that has an incumbent.
fn record_fields(law: &Law, search: &Search, named: &raw::Record) -> Vec<Field> {
    let number = |name, offset, value: i64, named: i64| {
        let expected = value.to_ne_bytes().to_vec();
        field(name, offset, expected, &named.to_ne_bytes())
    };
    let half = |name, offset, value: u32, named: u32| {
        let expected = value.to_ne_bytes().to_vec();
        field(name, offset, expected, &named.to_ne_bytes())
    };
    let (settings, waiting) = (&named.settings, search.stack.len());
    let multipliers = padded(numbers(&search.multipliers), 4 * 20);
    let marks: Vec<u64> = search
        .stack
        .iter()
        .flat_map(|node| rows(law, &node.marks))
        .collect();
    let stack = padded(words(&marks), 8 * STACK);
    let carried: Vec<u8> = search
        .stack
        .iter()
        .flat_map(|node| numbers(&carried(law, &node.multipliers, &search.ashore)))
        .collect();
    let carried = padded(carried, 4 * 20 * NODES);
    let ashore = padded(search.ashore.clone(), 20);
    let best = padded(search.incumbent.clone().unwrap_or_default(), PLACES);
    let mut fields = vec![
        number("ceiling", 0, search.ceiling, settings.ceiling),
        half("sweeps", 8, search.sweeps, settings.sweeps),
        half("step", 12, search.step, settings.step),
        number(
            "denominator",
            16,
            search.denominator as i64,
            settings.denominator as i64,
        ),
        number(
            "lifting",
            24,
            search.lifting as i64,
            settings.lifting as i64,
        ),
        number("upper", 32, search.upper, named.upper),
        number("count", 40, search.count as i64, named.count as i64),
        field("stack", 48, stack, &words(&named.stack)),
        number("depth", 1_104, waiting as i64, named.depth as i64),
    ];
    fields.extend(graph_fields(1_112, &search.graph, &named.graph));
    fields.extend([
        field(
            "multipliers",
            2_444,
            multipliers,
            &numbers(&named.multipliers),
        ),
        field("carried", 2_524, carried, &numbers(&named.carried)),
        field("best", 4_284, best, &named.best),
        field("ashore", 4_474, ashore, &named.ashore),
        field("open", 4_494, vec![1], &[named.open]),
        field("has_best", 4_495, vec![1], &[named.has_best]),
    ]);
    fields
}

/// Costs are about so high: all their bytes count.
const COSTS: i32 = 90_000_000;

/// A complete graph with different costs and marks of all three kinds.
fn distinct(random: &mut Random, n: usize) -> Graph {
    let pairs = generate::pairs(random, n);
    let edges: Vec<Edge> = (0..)
        .zip(pairs)
        .map(|(k, (a, b))| Edge {
            a,
            b,
            cost: COSTS + 1_000 * random.between(-100, 100) as i32 + k,
            mark: match k {
                0 => REQUIRED,
                1 => EXCLUDED,
                _ => FREE,
            },
        })
        .collect();
    Graph::from_edges(n, &edges)
}

/// What reading leaves in a graph.
fn graph_read(law: &Law, tally: &mut Tally, random: &mut Random) -> Outcome {
    let n = 4 + random.below(17);
    let graph = distinct(random, n);
    let file = any_form(random, &graph).bytes();
    let input = hex(&file);
    let (expected, read) = (chart::read(law, &file), planner::Graph::read(&file));
    let both = expected.is_ok() && read.is_ok();
    tally.compare("read", || input.clone(), &true, &both)?;
    if let (Ok(expected), Ok(named)) = (expected, read) {
        // SAFETY: a graph has no bytes but those of its numbers.
        let bytes = unsafe { std::mem::transmute::<raw::Graph, [u8; GRAPH]>(named) };
        compare(tally, &input, &graph_fields(0, &expected, &named), &bytes)?;
    }
    Ok(())
}

/// What an opening and runs leave in a record, as soon as there is an incumbent; false where no node waits then.
fn record_left(law: &Law, tally: &mut Tally, random: &mut Random) -> Result<bool, Mismatch> {
    let n = 5 + random.below(3);
    let mut ashore = vec![0; n];
    ashore[1 + random.below(n - 1)] = 1;
    let open = Call::Open {
        graph: Box::new(distinct(random, n)),
        ashore,
        multipliers: (0..n as i32).map(|i| 300 * i).collect(),
        ceiling: generate::MAX_CEILING - random.below(1_000) as i64,
        sweeps: 1 + random.below(3) as u32,
        step: 7 + random.below(900) as u32,
        denominator: generate::denominator(random),
        lifting: random.pick(&[1, 2, 1 << 63]),
    };
    let (mut machine, mut search) = (Machine::new(law, Method::Kruskal), planner::Search::fresh());
    let mut next = &open;
    loop {
        machine.call(next);
        let refused = answer(&mut search, next).is_err();
        let record = search.record();
        if refused || record.depth == 0 || record.has_best != 0 {
            break;
        }
        next = &Call::Run { budget: 1 };
    }
    let record = search.record();
    let Some(expected) = machine.search.filter(|_| record.depth > 0) else {
        return Ok(false);
    };
    // SAFETY: a record has no bytes but those of its numbers.
    let bytes = unsafe { std::mem::transmute::<raw::Record, [u8; SIZE]>(record.clone()) };
    let input = format!("a record after {open:?}");
    compare(
        tally,
        &input,
        &record_fields(law, &expected, record),
        &bytes,
    )?;
    Ok(true)
}
