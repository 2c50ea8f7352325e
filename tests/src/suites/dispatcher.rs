//! C-24's dispatcher through the library, against the reference: whole lists of calls, refused ones among them, each answer and every byte after
//! each call; that an unfinished hunt is served within eight turns, and that each hunt is a record run alone; dispatchers with damage.

use super::damage::{harm, sound};
use super::facts::four;
use super::records::reply;
use crate::bends;
use crate::document::dispatcher::{Answer, Call, Dispatcher, PLACES};
use crate::document::law::Law;
use crate::document::tree::Method;
use crate::document::{machine, Refusal};
use crate::ffi::{only, refused, Reply};
use crate::generate;
use crate::random::Random;
use crate::record::{Dispatched, Record};
use crate::report::{Outcome, Suite, Tally};
use planner::raw::{Reply as Numbers, ACCEPTED, IDLE};

pub const SUITE: Suite = Suite {
    name: "dispatcher",
    run,
    bends: &[
        bends::SCAN_FROM_THE_LAST,
        bends::ALWAYS_FROM_ONE,
        bends::LAST_NOT_STORED,
        bends::FINISHED_SERVED,
        bends::ONE_NODE_MORE,
        bends::IDLE_FORGETS,
        bends::IDLE_BEFORE_ZERO,
        bends::HIGHEST_FREE,
        bends::FINISHED_GIVE_WAY,
        bends::OPENING_BEFORE_FULL,
        bends::PLACE_ZERO,
        bends::SEVEN_PLACES_CHECKED,
        bends::LAST_OF_NINE,
        bends::LENGTH_BEFORE_RECORD,
        bends::UPPER_BELOW_COST,
        bends::LIFTED_UNASKED,
        bends::LIFTING_AS_SENT,
        bends::LIFTING_OF_TWO,
        bends::ADDED_WITHOUT_LIST,
        bends::DUE_ASHORE_COUNTS,
        bends::ASHORE_NOT_CHECKED,
        bends::ASHORE_OF_ANY_LENGTH,
    ],
};

/// What the library says where the dispatcher answers so.
pub fn said(answer: &Answer) -> Reply {
    let plain = |said: Numbers| Reply {
        said,
        out: None,
        margins_kept: true,
    };
    let at = |place: usize| Numbers {
        place: place as u64,
        ..only(ACCEPTED)
    };
    match answer {
        Answer::Refused(refusal) => plain(refused(*refusal)),
        Answer::Placed(place) | Answer::Served(place) => plain(at(*place)),
        Answer::Idle => plain(only(IDLE)),
        Answer::Said(answer) => reply(answer),
    }
}

/// A place: one of the eight, or beside them.
fn place(random: &mut Random) -> usize {
    match random.below(12) {
        0 => 0,
        1 => random.pick(&[9, 10, usize::MAX]),
        _ => 1 + random.below(PLACES),
    }
}

/// One call: most make sense where some places are held.
pub fn call(random: &mut Random, wrong: bool) -> Call {
    match random.below(20) {
        0..=4 => {
            let faulty = wrong && random.one_in(4);
            Call::Add(generate::opening(random, 5, 10, faulty))
        }
        5..=11 => Call::Turn {
            portion: match random.below(8) {
                0 => 0,
                1 => random.word(),
                2 => u64::MAX,
                _ => 1 + random.below(3) as u64,
            },
        },
        12 | 13 => Call::Tell {
            place: place(random),
        },
        14..=16 => Call::Show {
            place: place(random),
            length: random.below(11),
        },
        _ => Call::Close {
            place: place(random),
        },
    }
}

fn run(law: &Law, tally: &mut Tally) -> Outcome {
    example(law, tally)?;
    let random = &mut Random::new(0x6469_7370_6174_6368);
    for round in 0..400 {
        let full = round % 4 == 0;
        lists(law, tally, random, full)?;
    }
    for _ in 0..2_000 {
        damage(law, tally, random)?;
    }
    Ok(())
}

/// Document 01's sea, ceiling 12: the order of the places and of the refusals.
fn example(law: &Law, tally: &mut Tally) -> Outcome {
    let add = Call::Add(machine::Call::plain(&four(), 12, 1, 0));
    let turn = |portion| Call::Turn { portion };
    let refuse = |number| Answer::Refused(Refusal { number, place: 0 });
    let close = |place| Call::Close { place };
    let finished = Answer::Said(machine::Answer::Told {
        verdict: machine::Verdict::Cost(12),
        count: 5,
    });
    let list = [
        (turn(0), refuse(40)),
        (turn(3), Answer::Idle),
        (add.clone(), Answer::Placed(1)),
        (add.clone(), Answer::Placed(2)),
        (add.clone(), Answer::Placed(3)),
        (turn(1), Answer::Served(1)),
        (turn(1), Answer::Served(2)),
        (turn(1), Answer::Served(3)),
        (turn(1), Answer::Served(1)),
        (close(2), Answer::Said(machine::Answer::Accepted)),
        (add.clone(), Answer::Placed(2)),
        (turn(1), Answer::Served(2)),
        (turn(1), Answer::Served(3)),
        (turn(9), Answer::Served(1)),
        (turn(9), Answer::Served(2)),
        (turn(9), Answer::Served(3)),
        (turn(9), Answer::Idle),
        (Call::Tell { place: 1 }, finished.clone()),
        (Call::Tell { place: 2 }, finished.clone()),
        (Call::Tell { place: 3 }, finished),
        (close(4), refuse(20)),
        (close(0), refuse(42)),
        (close(9), refuse(42)),
        (add.clone(), Answer::Placed(4)),
        (add.clone(), Answer::Placed(5)),
        (add.clone(), Answer::Placed(6)),
        (add.clone(), Answer::Placed(7)),
        (add.clone(), Answer::Placed(8)),
        (add, refuse(41)),
    ];
    let (mut state, mut got) = (
        Dispatcher::new(law, Method::Kruskal),
        Dispatched::made_fresh(),
    );
    for (i, (call, expected)) in list.iter().enumerate() {
        let input = || format!("call {} of the example", i + 1);
        tally.compare("reference", input, expected, &state.call(call))?;
        tally.compare("library", input, &said(expected), &got.call(call))?;
    }
    Ok(())
}

/// What was seen of a list: the calls that each place had, and the turns since each place was last passed over, added or closed.
struct Seen {
    own: Vec<Vec<machine::Call>>,
    waited: [usize; PLACES],
}

impl Seen {
    /// Notes a call by what the library said of it, `before` being the dispatcher before it.
    fn note(&mut self, call: &Call, said: &Numbers, before: &Dispatched) -> bool {
        let held =
            |place: usize| (1..=PLACES).contains(&place) && before.places[place - 1].open == 1;
        let mut own = |place: usize, call| self.own[place - 1].push(call);
        match call {
            Call::Add(open) if said.number == ACCEPTED => own(said.place as usize, open.clone()),
            Call::Turn { portion } if said.number == ACCEPTED => {
                own(said.place as usize, machine::Call::Run { budget: *portion });
            }
            Call::Tell { place } if held(*place) => own(*place, machine::Call::Tell),
            Call::Show { place, length } if held(*place) => {
                own(*place, machine::Call::Show { length: *length });
            }
            Call::Close { place } if held(*place) => own(*place, machine::Call::Close),
            _ => {}
        }
        let changed = matches!(call, Call::Add(_) | Call::Close { .. }) && said.number == ACCEPTED;
        let turned = matches!(call, Call::Turn { .. }) && [ACCEPTED, IDLE].contains(&said.number);
        for (k, waited) in self.waited.iter_mut().enumerate() {
            let record = &before.places[k];
            let unfinished = record.open == 1 && record.depth > 0;
            let served = turned && said.number == ACCEPTED && said.place as usize == k + 1;
            *waited = match () {
                _ if changed || served || !unfinished => 0,
                _ if turned => *waited + 1,
                _ => *waited,
            };
        }
        self.waited.iter().all(|waited| *waited < PLACES)
    }
}

/// A list from fresh. Where `full`, it begins with eight hunts and ends with a ninth.
fn lists(law: &Law, tally: &mut Tally, random: &mut Random, full: bool) -> Outcome {
    let count = 10 + random.below(40);
    let mut list: Vec<Call> = (0..count).map(|_| call(random, true)).collect();
    if full {
        let eight: Vec<Call> = (0..PLACES)
            .map(|_| Call::Add(generate::opening(random, 5, 10, false)))
            .collect();
        list.splice(0..0, eight);
    }
    let mut state = Dispatcher::new(law, Method::Kruskal);
    let mut got = Dispatched::made_fresh();
    let mut seen = Seen {
        own: vec![Vec::new(); PLACES],
        waited: [0; PLACES],
    };
    for (i, call) in list.iter().enumerate() {
        let input = || format!("the first {} of {list:?}", i + 1);
        let before = got.clone();
        let expected = said(&state.call(call));
        let answer = got.call(call);
        tally.compare("answer", input, &expected, &answer)?;
        tally.compare("bytes", input, &Dispatched::of(&state), &got)?;
        tally.compare("passes its check", input, &true, &got.passes(law))?;
        let fair = seen.note(call, &answer.said, &before);
        tally.compare("served within eight turns", input, &true, &fair)?;
    }
    alone(tally, &got, &seen, &list)
}

/// Each place, to the byte, is a record run alone with its own calls.
fn alone(tally: &mut Tally, got: &Dispatched, seen: &Seen, list: &[Call]) -> Outcome {
    for (k, own) in seen.own.iter().enumerate() {
        let mut record = Record::made_fresh();
        for call in own {
            record.call(call);
        }
        let input = || format!("place {} after {list:?}", k + 1);
        tally.compare("alone", input, &record, &got.places[k])?;
    }
    Ok(())
}

/// A dispatcher with searches at some of its places, and damage at one of them or in the place last served.
pub fn hostile(random: &mut Random) -> Dispatched {
    let mut d = Dispatched::made_fresh();
    for record in &mut d.places {
        if random.one_in(2) {
            *record = sound(random);
        }
    }
    d.last = random.below(PLACES + 1);
    match random.below(4) {
        0 => d.last = random.pick(&[8, 9, 9, 255, 1 << 32, usize::MAX]),
        1 => {}
        _ => {
            let any = random.below(PLACES);
            let k = random.pick(&[0, PLACES - 1, any]);
            harm(random, &mut d.places[k]);
        }
    }
    d
}

/// What a call on a dispatcher must answer and leave.
pub fn expected(law: &Law, d: &Dispatched, call: &Call) -> (Reply, Dispatched) {
    match d.dispatcher(law) {
        Some(mut state) => (said(&state.call(call)), Dispatched::of(&state)),
        None => {
            let refused = Reply {
                said: only(24),
                out: None,
                margins_kept: true,
            };
            (refused, d.clone())
        }
    }
}

fn damage(law: &Law, tally: &mut Tally, random: &mut Random) -> Outcome {
    let d = hostile(random);
    let call = call(random, true);
    let wanted = expected(law, &d, &call);
    let mut after = d.clone();
    let answer = after.call(&call);
    let input = || format!("{call:?} on {d:?}");
    tally.compare("with damage", input, &wanted, &(answer, after))
}
