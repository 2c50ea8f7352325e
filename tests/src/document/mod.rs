//! Document 01 in Rust, with the requests of document 02 that have landed, written from their text alone.
//! Slow and plain where it can be: definitions by enumeration stand beside each algorithm. Our words:
//! graph (chart, sea), vertex (buoy), edge (leg), excluded (struck), tour (round), multipliers (dues),
//! search (hunt), stack (pile), incumbent (best).

pub mod ashore;
pub mod chart;
pub mod dispatcher;
pub mod former;
pub mod graph;
pub mod law;
pub mod lifting;
pub mod machine;
pub mod programs;
pub mod recent;
pub mod rulings;
pub mod sailing;
pub mod shelf;
pub mod tours;
pub mod tree;

/// "Each answer is the number and a place".
#[derive(Clone, Copy, PartialEq, Eq, Debug)]
pub struct Refusal {
    pub number: u32,
    pub place: u64,
}

pub fn refuse<T>(number: u32, place: usize) -> Result<T, Refusal> {
    Err(Refusal {
        number,
        place: place as u64,
    })
}
