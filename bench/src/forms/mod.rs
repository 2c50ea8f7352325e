//! The second reference: document 01's machine in the forms that document 01 prescribes, otherwise
//! as fast as an expert would write it without proofs. It shares no code with the library, nor with
//! the first reference.
//!
//! The forms: a node in hand is a mark for each edge in an array by value, a stored one two rows of bits; the tree part (`tree` and what
//! stands below it) knows nothing of searches, is called once a pass with a graph and multipliers
//! and gives tree and rulings; a 20 by 20 array of edge numbers in it; the nested climb with a
//! labelled break; one record that the caller lends and that every call checks (docs/RECORD.md);
//! thin functions over it, above a core by value.
//!
//! A pass computes tree and rulings from the node's marks, the multipliers and the ceiling alone.
//! From pass to pass of one node goes only the order of its edges, as a start for the sort, and from node
//! to node nothing. Kruskal goes through one sorted list of keys, the required edges first, with
//! a label for each vertex. Vertices that required edges join are then one part: only the free edges of
//! the tree are hung up, between parts, and each free edge outside walks the circle that it closes there. Where the opening turned lifting on
//! (document 02, C-13) what a pass keeps is tried under lifted multipliers in that same pass (`lift`), on what these walks found.

mod check;
mod climb;
mod grow;
mod hang;
mod keys;
mod lift;
mod live;
mod order;
mod planner;
mod record;
mod rows;
mod search;
#[cfg(test)]
mod tests;
mod tree;

pub use planner::Forms;
pub use record::{Answer, Record, Wanted};
pub use tree::{rule, tree};

use crate::inputs::{PLACES, VERTICES};

/// A mark, a ruling or a yes-or-no for each edge.
type Marks = [u8; PLACES];

type Multipliers = [i32; VERTICES];
