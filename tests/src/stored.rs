//! Lists of calls written down with what was answered and lent, one call a line: `run 5 = 1001 0 0 5`. Document 02, C-19: "From fresh records
//! that nobody else writes, answers on every call equal the former ones"; C-20: "with none ashore they read as before".
//!
//! `fresh` begins a list; `sea` and `dues` say what the openings behind them take, in the words of `planner calls`. Behind `=` stand the answer's
//! number, place, value and nodes, then the bytes of the lent list in hex where one of them changed.

use crate::document::ashore::none;
use crate::document::dispatcher;
use crate::document::graph::{Edge, Graph};
use crate::document::machine::Call;
use crate::document::sailing::Trial;
use crate::document::shelf::AnyCall;
use crate::document::tree::Given;
use crate::ffi::sailings::compare;
use crate::ffi::{trees, Reply};
use crate::record::Dispatched;
use crate::report::{hex, Hex};
use crate::suites::shelves::Both;
use planner::raw::Reply as Numbers;

/// What the calls of a list are made on, and what its openings take.
pub struct Desk {
    graph: Graph,
    dues: Vec<i32>,
    both: Both,
    class: Dispatched,
}

/// A line that says what a call was answered.
pub struct Answered<'a> {
    pub call: &'a str,
    pub reply: Reply,
}

impl Desk {
    pub fn fresh() -> Desk {
        Desk {
            graph: Graph::from_edges(0, &[]),
            dues: Vec::new(),
            both: Both::made_fresh(),
            class: Dispatched::made_fresh(),
        }
    }

    /// Does what a line says, up to its `=`; none where it makes no call.
    pub fn make(&mut self, line: &str) -> Option<Reply> {
        let (name, rest) = line.split_once(' ').unwrap_or((line, ""));
        let words: Vec<&str> = rest.split_whitespace().collect();
        match name {
            "fresh" => *self = Desk::fresh(),
            "sea" => self.graph = sea(&words),
            "dues" => self.dues = words.iter().map(|word| read(word) as i32).collect(),
            _ => return Some(self.call(name, &words)),
        }
        None
    }

    fn call(&mut self, name: &str, words: &[&str]) -> Reply {
        let number = || read(words[0]);
        let plain = match name {
            "open" => self.opening(words),
            "run" => Call::Run {
                budget: number() as u64,
            },
            "tell" => Call::Tell,
            "show" => Call::Show {
                length: number() as usize,
            },
            "close" => Call::Close,
            "save" => return self.both.call(&AnyCall::Save(number() as usize)),
            "back" => return self.both.call(&AnyCall::Back(number() as usize)),
            "compare" => return self.comparison(words),
            "tree" | "rule" | "preview" => return self.of_sea(name, words),
            _ => return self.dispatched(name, words),
        };
        self.both.call(&AnyCall::Plain(plain))
    }

    /// The calls on a dispatcher.
    fn dispatched(&mut self, name: &str, words: &[&str]) -> Reply {
        let number = |i: usize| read(words[i]);
        let place = || number(0) as usize;
        let call = match name {
            "add" => dispatcher::Call::Add(self.opening(words)),
            "turn" => dispatcher::Call::Turn {
                portion: number(0) as u64,
            },
            "tellat" => dispatcher::Call::Tell { place: place() },
            "showat" => dispatcher::Call::Show {
                place: place(),
                length: number(1) as usize,
            },
            "closeat" => dispatcher::Call::Close { place: place() },
            _ => panic!("{name}: no call"),
        };
        self.class.call(&call)
    }

    /// `tree DENOMINATOR`, `rule CEILING DENOMINATOR`, `preview DENOMINATOR LEG MARK`, of the present sea and dues.
    fn of_sea(&self, name: &str, words: &[&str]) -> Reply {
        let given = |q: &str| Given::afloat(&self.graph, &self.dues, read(q) as u64);
        let m = self.graph.m;
        match name {
            "tree" => trees::tree(&given(words[0]), m),
            "rule" => trees::rule(&given(words[1]), read(words[0]) as i64, m),
            _ => {
                let asked = (read(words[1]) as usize, read(words[2]) as u32);
                trees::preview(&given(words[0]), asked, m)
            }
        }
    }

    /// `open CEILING SWEEPS STEP DENOMINATOR`, of the present sea and dues, and behind it what lifting is asked for by: former openings, with no
    /// buoy ashore.
    fn opening(&self, words: &[&str]) -> Call {
        Call::Open {
            graph: Box::new(self.graph.clone()),
            multipliers: self.dues.clone(),
            ashore: none(&self.graph).to_vec(),
            ceiling: read(words[0]) as i64,
            sweeps: read(words[1]) as u32,
            step: read(words[2]) as u32,
            denominator: read(words[3]) as u64,
            lifting: words.get(4).map_or(0, |word| read(word) as u64),
        }
    }

    /// `compare CEILING BUDGET DENOMINATOR SWEEPS/STEP ..`, a word without `/` being what lifting is asked for by
    fn comparison(&self, words: &[&str]) -> Reply {
        let pairs = words[3..].iter().filter_map(|pair| pair.split_once('/'));
        let lifting = words[3..].iter().find(|word| !word.contains('/'));
        let (sweeps, steps): (Vec<u32>, Vec<u32>) = pairs
            .map(|(sweeps, step)| (read(sweeps) as u32, read(step) as u32))
            .unzip();
        let compared = compare(&Trial {
            graph: self.graph.clone(),
            multipliers: self.dues.clone(),
            ashore: none(&self.graph).to_vec(),
            ceiling: read(words[0]) as i64,
            budget: read(words[1]) as u64,
            denominator: read(words[2]) as u64,
            lifting: lifting.map_or(0, |word| read(word) as u64),
            length: sweeps.len(),
            sweeps,
            steps,
        });
        let bytes = |report: Vec<u64>| report.iter().flat_map(|x| x.to_le_bytes()).collect();
        Reply {
            said: compared.said,
            out: compared.report.map(|report| Hex(bytes(report))),
            margins_kept: compared.margins_kept,
        }
    }
}

fn read(word: &str) -> i128 {
    word.parse().unwrap_or_else(|_| panic!("{word}: no number"))
}

/// `N A-B:COST ..`, with `mK` for the mark K behind a cost.
fn sea(words: &[&str]) -> Graph {
    let edges: Vec<Edge> = words[1..]
        .iter()
        .map(|word| {
            let (pair, rest) = word.split_once(':').expect("a cost");
            let (a, b) = pair.split_once('-').expect("two ends");
            let (cost, mark) = rest.split_once('m').unwrap_or((rest, "0"));
            Edge {
                a: read(a) as u8,
                b: read(b) as u8,
                cost: read(cost) as i32,
                mark: read(mark) as u8,
            }
        })
        .collect();
    Graph::from_edges(read(words[0]) as usize, &edges)
}

/// The line that says so of a sea.
pub fn sea_line(graph: &Graph) -> String {
    let edges = graph.edges().into_iter().map(|edge| match edge.mark {
        0 => format!(" {}-{}:{}", edge.a, edge.b, edge.cost),
        mark => format!(" {}-{}:{}m{mark}", edge.a, edge.b, edge.cost),
    });
    format!("sea {}{}", graph.n, edges.collect::<String>())
}

/// A call and its answer as a line.
pub fn line(call: &str, reply: &Reply) -> String {
    let Numbers {
        number,
        place,
        value,
        nodes,
    } = reply.said;
    assert!(reply.margins_kept, "{call} wrote beside what it was lent");
    let lent = reply.out.as_ref().map(|out| format!(" {}", hex(&out.0)));
    let lent = lent.unwrap_or_default();
    format!("{call} = {number} {place} {value} {nodes}{lent}")
}

/// The call of a line and what it was answered; none where it makes no call.
pub fn answered(line: &str) -> Option<Answered<'_>> {
    let (call, answer) = line.split_once(" = ")?;
    let words: Vec<&str> = answer.split_whitespace().collect();
    let bytes = |word: &&str| {
        (0..word.len() / 2)
            .map(|i| u8::from_str_radix(&word[2 * i..2 * i + 2], 16).expect("hex"))
            .collect()
    };
    let reply = Reply {
        said: Numbers {
            number: read(words[0]) as u32,
            place: read(words[1]) as u64,
            value: read(words[2]) as i64,
            nodes: read(words[3]) as u64,
        },
        out: words.get(4).map(bytes).map(Hex),
        margins_kept: true,
    };
    Some(Answered { call, reply })
}
