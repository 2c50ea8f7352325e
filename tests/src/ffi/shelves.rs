//! The calls save and back. What a call only reads is looked at again afterwards.

use super::lent::Lent;
use super::{call, Reply};
use crate::document::shelf::PLACES;
use crate::record::{Record, SIZE};
use crate::stack;
use planner::raw::{self, planner_back, planner_fresh_shelf, planner_save, Reply as Numbers};

/// A shelf as the records at its places.
#[derive(Clone, PartialEq, Eq, Debug)]
pub struct Shelf {
    pub places: Vec<Record>,
}

impl Shelf {
    pub fn fresh() -> Shelf {
        Shelf {
            places: vec![Record::fresh(); PLACES],
        }
    }

    fn bytes(&self) -> Vec<u8> {
        let places: Vec<_> = self.places.iter().map(Record::bytes).collect();
        places.concat()
    }

    fn of_bytes(bytes: &[u8]) -> Shelf {
        Shelf {
            places: bytes.chunks(SIZE).map(Record::of_bytes).collect(),
        }
    }

    /// The fresh call, its answer put where a pattern was.
    pub fn made_fresh() -> Shelf {
        let mut lent = Lent::new(PLACES * SIZE);
        let shelf: *mut raw::Places = lent.pointer();
        // SAFETY: there is room for a shelf.
        stack::calling("planner_fresh_shelf", || unsafe {
            shelf.write(planner_fresh_shelf())
        });
        assert!(lent.margins_kept(), "the fresh call wrote beside a shelf");
        Shelf::of_bytes(lent.body())
    }

    /// Saves a record on this shelf.
    pub fn save(&mut self, record: &Record, name: usize) -> Reply {
        let (mut shelf, mut read) = (Lent::holding(&self.bytes()), Lent::holding(&record.bytes()));
        let (h, s) = (shelf.pointer(), read.pointer::<raw::Record>());
        let said = call!(planner_save(h, s, name));
        *self = Shelf::of_bytes(shelf.body());
        let kept = read.kept(&Lent::holding(&record.bytes()));
        plain(said, kept && shelf.margins_kept())
    }
}

impl Record {
    /// Brings back to this record what a shelf has.
    pub fn back(&mut self, shelf: &Shelf, name: usize) -> Reply {
        let (mut record, mut read) = (Lent::holding(&self.bytes()), Lent::holding(&shelf.bytes()));
        let (s, h) = (record.pointer(), read.pointer::<raw::Places>());
        let said = call!(planner_back(s, h, name));
        *self = Record::of_bytes(record.body());
        let kept = read.kept(&Lent::holding(&shelf.bytes()));
        plain(said, kept && record.margins_kept())
    }
}

/// An answer beside which no list is lent.
fn plain(said: Numbers, margins_kept: bool) -> Reply {
    Reply {
        said,
        out: None,
        margins_kept,
    }
}
