//! Whole lists of opening, run, tell, show, close, save and back calls through the library, refused ones among them, against the reference: each
//! answer, and after each call every byte of both records. Then records and shelves with damage, at each place.

use super::damage::{harm, sound};
use super::facts::four;
use super::records::{reply, vary};
use crate::bends;
use crate::document::law::Law;
use crate::document::machine::{Answer, Call};
use crate::document::shelf::{faulty, AnyCall, Shelved, PLACES};
use crate::ffi::shelves::Shelf;
use crate::ffi::{only, Reply};
use crate::generate;
use crate::random::Random;
use crate::record::Record;
use crate::report::{Outcome, Suite, Tally};

pub const SUITE: Suite = Suite {
    name: "shelves",
    run,
    bends: &[
        bends::FEWER_NAMES,
        bends::NAME_BEFORE_OPEN,
        bends::FIRST_SAVE_STAYS,
        bends::BACK_OF_NEXT_NAME,
        bends::BACK_KEEPS_OPEN,
        bends::BACK_EMPTIES,
        bends::CLOSE_EMPTIES,
        bends::NAMED_PLACE_CHECKED,
        bends::MULTIPLIERS_RESET,
        bends::UPPER_NOT_LOWERED,
        bends::FLAG_WITHOUT_EFFECT,
        bends::LIFTING_OF_TWO,
        bends::SAVED_WITHOUT_LIST,
        bends::ASHORE_NOT_CHECKED,
        bends::TOUCHED_NOT_CHECKED,
    ],
};

/// Both records that are lent.
#[derive(Clone, PartialEq, Eq, Debug)]
pub struct Both {
    pub record: Record,
    pub shelf: Shelf,
}

impl Both {
    pub fn made_fresh() -> Both {
        Both {
            record: Record::made_fresh(),
            shelf: Shelf::made_fresh(),
        }
    }

    /// The records of a state and of what is saved.
    pub fn of(state: &Shelved) -> Both {
        Both {
            record: Record::of(&state.machine.search),
            shelf: Shelf {
                places: state.saved.iter().map(Record::of).collect(),
            },
        }
    }

    pub fn call(&mut self, call: &AnyCall) -> Reply {
        match call {
            AnyCall::Plain(call) => self.record.call(call),
            AnyCall::Save(name) => self.shelf.save(&self.record, *name),
            AnyCall::Back(name) => self.record.back(&self.shelf, *name),
        }
    }

    /// Whether each place passes its check.
    fn passing(&self, law: &Law) -> Vec<bool> {
        let places = self.shelf.places.iter();
        places.map(|place| place.passes(law)).collect()
    }

    /// The state that these hold, none where one of them fails its check.
    fn state(&self, law: &Law) -> Option<Shelved> {
        let mut state = Shelved::new(law);
        state.machine = self.record.machine(law)?;
        for (saved, place) in state.saved.iter_mut().zip(&self.shelf.places) {
            *saved = place.machine(law)?.search;
        }
        Some(state)
    }
}

/// A name: mostly one of few, so that what is saved is brought back.
pub fn name(random: &mut Random) -> usize {
    match random.below(12) {
        0 => random.pick(&[0, 9, 10, 1 << 32, (1 << 32) + 1, usize::MAX]),
        1 | 2 => 1 + random.below(PLACES),
        3 => PLACES,
        _ => 1 + random.below(3),
    }
}

/// A list of calls with saves and backs between them.
pub fn list_of(random: &mut Random, plain: Vec<Call>) -> Vec<AnyCall> {
    let mut list = Vec::new();
    for call in plain {
        list.push(AnyCall::Plain(call));
        while random.one_in(2) {
            list.push(match random.below(2) {
                0 => AnyCall::Save(name(random)),
                _ => AnyCall::Back(name(random)),
            });
        }
    }
    list
}

fn run(law: &Law, tally: &mut Tally) -> Outcome {
    let random = &mut Random::new(0x7368_656c_7665_73);
    document(law, tally)?;
    for round in 0..1_500 {
        let (vertices, most) = if round % 4 == 0 { (7, 14) } else { (5, 10) };
        let mut plain = generate::calls(random, vertices, most);
        vary(random, &mut plain);
        on_both(law, tally, &list_of(random, plain))?;
    }
    for _ in 0..1_500 {
        damaged(law, tally, random)?;
    }
    Ok(())
}

/// Each call of a list from fresh records.
fn on_both(law: &Law, tally: &mut Tally, list: &[AnyCall]) -> Outcome {
    let mut state = Shelved::new(law);
    let mut both = Both::made_fresh();
    tally.compare("fresh", || "fresh records".into(), &Both::of(&state), &both)?;
    for (i, call) in list.iter().enumerate() {
        let input = || format!("the first {} of {list:?}", i + 1);
        let expected = reply(&state.call(call));
        tally.compare("answer", input, &expected, &both.call(call))?;
        tally.compare("records", input, &Both::of(&state), &both)?;
    }
    let passes = both.record.passes(law) && both.passing(law).iter().all(|x| *x);
    tally.compare("pass", || format!("{list:?}"), &true, &passes)
}

/// What a save or a back answers and leaves of any two records.
pub fn expected(law: &Law, both: &Both, call: &AnyCall) -> (Reply, Both) {
    let name = match call {
        AnyCall::Save(name) | AnyCall::Back(name) => *name,
        AnyCall::Plain(_) => unreachable!("a save or a back"),
    };
    let refused = faulty(law, both.record.passes(law), &both.passing(law), name);
    match both.state(law).filter(|_| !refused) {
        Some(mut state) => {
            let answer = state.call(call);
            (reply(&answer), Both::of(&state))
        }
        None => {
            let number = if refused { 24 } else { 0 };
            let said = Reply {
                said: only(number),
                out: None,
                margins_kept: true,
            };
            (said, both.clone())
        }
    }
}

/// Two records, of which one may have damage: the search's, or any place.
pub fn harmed(random: &mut Random) -> Both {
    let mut both = Both {
        record: sound(random),
        shelf: Shelf::fresh(),
    };
    for place in &mut both.shelf.places {
        if random.one_in(2) {
            *place = sound(random);
        }
    }
    match random.below(4) {
        0 => harm(random, &mut both.record),
        1 => harm(random, &mut both.shelf.places[PLACES - 1]),
        2 => {
            let place = random.below(PLACES);
            harm(random, &mut both.shelf.places[place]);
        }
        _ => {}
    }
    both
}

fn damaged(law: &Law, tally: &mut Tally, random: &mut Random) -> Outcome {
    let both = harmed(random);
    let name = name(random);
    for call in [AnyCall::Save(name), AnyCall::Back(name)] {
        let mut after = both.clone();
        let input = || format!("{call:?} on {both:?}");
        let wanted = expected(law, &both, &call);
        let got = after.call(&call);
        tally.compare("on any records", input, &wanted, &(got, after))?;
    }
    Ok(())
}

/// Document 01's sea: an earlier hunt brought back goes on as it would have, through closing and another opening; the refusals in
/// their order.
fn document(law: &Law, tally: &mut Tally) -> Outcome {
    let sea = four();
    let open = |ceiling: i64| AnyCall::Plain(Call::plain(&sea, ceiling, 1, 0));
    let run = |budget| AnyCall::Plain(Call::Run { budget });
    let (save, back) = (AnyCall::Save, AnyCall::Back);
    let (close, tell) = (AnyCall::Plain(Call::Close), AnyCall::Plain(Call::Tell));
    let list = [
        save(1),
        save(9),
        back(9),
        back(1),
        open(16),
        save(0),
        save(9),
        run(1),
        save(1),
        run(100),
        tell.clone(),
        back(1),
        tell.clone(),
        close.clone(),
        open(3),
        run(5),
        save(2),
        back(1),
        tell.clone(),
        run(100),
        tell.clone(),
        back(2),
        tell.clone(),
        close,
        back(8),
        back(1),
        tell,
    ]; // fmt: skip
    let mut state = Shelved::new(law);
    let numbers: Vec<u32> = list[..7]
        .iter()
        .map(|call| number(&state.call(call)))
        .collect();
    let input = || "the refusals of an empty shelf".to_string();
    tally.compare(
        "in order",
        input,
        &vec![20, 20, 33, 34, 0, 33, 33],
        &numbers,
    )?;
    on_both(law, tally, &list)
}

fn number(answer: &Answer) -> u32 {
    match answer {
        Answer::Refused(refusal) => refusal.number,
        _ => 0,
    }
}
