//! C-18: "Up to eight states are saved under names 1 to 8, beside the hunt, and any may be brought back." (24 is about records, not about states:
//! `faulty` says which of them it tests.)

use super::law::Law;
use super::machine::{Answer, Call, Machine, Search};
use super::tree::Method;
use super::{refuse, Refusal};

/// "opening, run, tell, show, close, save and back calls"
#[derive(Clone, PartialEq, Eq, Debug)]
pub enum AnyCall {
    Plain(Call),
    Save(usize),
    Back(usize),
}

/// The machine with "the saved states", of which `None` is nothing.
#[derive(Clone)]
pub struct Shelved {
    law: Law,
    pub machine: Machine,
    pub saved: Vec<Option<Search>>,
}

/// The number of saved states.
pub const PLACES: usize = 8;

impl Shelved {
    /// "from fresh records"
    pub fn new(law: &Law) -> Shelved {
        Shelved {
            law: *law,
            machine: Machine::new(law, Method::Kruskal),
            saved: vec![None; PLACES],
        }
    }

    pub fn call(&mut self, call: &AnyCall) -> Answer {
        let done = match call {
            AnyCall::Plain(call) => return self.plain(call),
            AnyCall::Save(name) => self.save(*name),
            AnyCall::Back(name) => self.back(*name),
        };
        match done {
            Ok(()) => Answer::Accepted,
            Err(refusal) => Answer::Refused(refusal),
        }
    }

    fn plain(&mut self, call: &Call) -> Answer {
        let answer = self.machine.call(call);
        if *call == Call::Close && answer == Answer::Accepted && !self.law.close_keeps_places {
            self.saved.fill(None);
        }
        answer
    }

    fn named(&self, name: usize) -> bool {
        (1..=self.law.max_name).contains(&name)
    }

    fn save(&mut self, name: usize) -> Result<(), Refusal> {
        let open = self.machine.search.is_some();
        if self.law.open_before_name && !open {
            return refuse(20, 0);
        }
        if !self.named(name) {
            return refuse(33, 0);
        }
        if !open {
            return refuse(20, 0);
        }
        let place = &mut self.saved[name - 1];
        if place.is_none() || self.law.save_replaces {
            place.clone_from(&self.machine.search);
        }
        Ok(())
    }

    fn back(&mut self, name: usize) -> Result<(), Refusal> {
        if !self.named(name) {
            return refuse(33, 0);
        }
        let from = match self.law.back_of_own_name {
            true => name - 1,
            false => name % PLACES,
        };
        let Some(mut saved) = self.saved[from].clone() else {
            return refuse(34, 0);
        };
        if !self.law.saved_with_list {
            saved.ashore.fill(0);
        }
        if self.law.back_replaces || self.machine.search.is_none() {
            self.machine.search = Some(saved);
        }
        if !self.law.back_keeps_place {
            self.saved[from] = None;
        }
        Ok(())
    }
}

/// Whether 24 refuses a save or a back: "24 covers the lent saved states too". What passes is said of the search's record, and of each place.
pub fn faulty(law: &Law, search: bool, places: &[bool], name: usize) -> bool {
    let every = places.iter().all(|passes| *passes);
    let named = name.checked_sub(1).and_then(|place| places.get(place));
    let tested = match law.every_place_checked {
        true => every,
        false => named.copied().unwrap_or(true),
    };
    !(search && tested)
}
