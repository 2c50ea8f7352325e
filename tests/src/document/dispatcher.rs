//! C-24: "A dispatcher holds up to eight hunts", from document 02's sentences. (24 never comes up: nobody else writes it.)

use super::law::Law;
use super::machine::{self, Machine};
use super::tree::Method;
use super::{refuse, Refusal};

/// "its places 1 to 8"
pub const PLACES: usize = 8;

#[derive(Clone, PartialEq, Eq, Debug)]
pub enum Call {
    /// with an opening
    Add(machine::Call),
    Turn {
        portion: u64,
    },
    Tell {
        place: usize,
    },
    /// with a list of this many bytes
    Show {
        place: usize,
        length: usize,
    },
    Close {
        place: usize,
    },
}

#[derive(Clone, PartialEq, Eq, Debug)]
pub enum Answer {
    Refused(Refusal),
    /// "adding answers that place"
    Placed(usize),
    /// "A turn answers the place it served."
    Served(usize),
    /// "When all are finished, or none is held, a turn changes nothing and says so."
    Idle,
    /// what the hunt at the place answers
    Said(machine::Answer),
}

#[derive(Clone)]
pub struct Dispatcher {
    law: Law,
    /// at place k, counted from 1, stands machine k - 1
    pub places: Vec<Machine>,
    /// the place last served; 0 where none was yet
    pub last: usize,
}

impl Dispatcher {
    pub fn new(law: &Law, method: Method) -> Dispatcher {
        Dispatcher {
            law: *law,
            places: vec![Machine::new(law, method); PLACES],
            last: 0,
        }
    }

    pub fn held(&self, place: usize) -> bool {
        self.places[place - 1].search.is_some()
    }

    pub fn unfinished(&self, place: usize) -> bool {
        let search = self.places[place - 1].search.as_ref();
        search.is_some_and(|search| !search.finished())
    }

    pub fn call(&mut self, call: &Call) -> Answer {
        let answer = match call {
            Call::Add(opening) => self.add(opening),
            Call::Turn { portion } => self.turn(*portion),
            Call::Tell { place } => self.at(*place, &machine::Call::Tell),
            Call::Show { place, length } => {
                let length = *length;
                self.at(*place, &machine::Call::Show { length })
            }
            Call::Close { place } => self.at(*place, &machine::Call::Close),
        };
        answer.unwrap_or_else(Answer::Refused)
    }

    /// "the next unfinished hunt in cyclic order of its places 1 to 8, after the one last served; the first turn begins at place 1"
    fn next(&self) -> Option<usize> {
        let from = if self.law.after_the_last {
            self.last
        } else {
            0
        };
        let skipped = self.law.turn_skips;
        (0..PLACES)
            .map(|i| (from + i + PLACES - 1 + skipped) % PLACES + 1)
            .find(|place| match self.law.finished_passed_over {
                true => self.unfinished(*place),
                false => self.held(*place),
            })
    }

    /// "Each turn gives p nodes to the next unfinished hunt"; "40 when a turn's p is 0"
    fn turn(&mut self, portion: u64) -> Result<Answer, Refusal> {
        let next = self.next();
        if portion == 0 && (next.is_some() || self.law.zero_refused_idle) {
            return refuse(40, 0);
        }
        let Some(place) = next else {
            if !self.law.idle_keeps_last {
                self.last = 0;
            }
            return Ok(Answer::Idle);
        };
        let budget = portion.saturating_add(self.law.nodes_more);
        self.places[place - 1].call(&machine::Call::Run { budget });
        if self.law.last_kept {
            self.last = place;
        }
        Ok(Answer::Served(place))
    }

    /// "takes the free place with the smallest number, closed ones included"; "41 when a ninth hunt is added while eight are held", before the
    /// opening's own refusals
    fn add(&mut self, opening: &machine::Call) -> Result<Answer, Refusal> {
        let taken = |place: &usize| match self.law.finished_are_held {
            true => self.held(*place),
            false => self.unfinished(*place),
        };
        let mut free = (1..=PLACES).filter(|place| !taken(place));
        let place = match self.law.smallest_free {
            true => free.next(),
            false => free.last(),
        };
        let fresh = || self.places[0].fresh();
        if !self.law.full_before_opening {
            if let machine::Answer::Refused(refusal) = fresh().call(opening) {
                return Err(refusal);
            }
        }
        let Some(place) = place else {
            return refuse(41, 0);
        };
        let mut machine = fresh();
        if let machine::Answer::Refused(refusal) = machine.call(opening) {
            return Err(refusal);
        }
        if let (false, Some(search)) = (self.law.added_with_list, &mut machine.search) {
            search.ashore.fill(0);
        }
        self.places[place - 1] = machine;
        Ok(Answer::Placed(place))
    }

    /// "42 when a place to close, tell or show is not 1 to 8; an empty place is 20, after 42."
    fn at(&mut self, place: usize, call: &machine::Call) -> Result<Answer, Refusal> {
        if place < self.law.first_place || place > PLACES {
            return refuse(42, 0);
        }
        if place == 0 || !self.held(place) {
            return refuse(20, 0);
        }
        Ok(Answer::Said(self.places[place - 1].call(call)))
    }
}
