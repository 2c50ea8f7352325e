//! The suites, in the order in which they run. Those of the first group need no library.

use crate::report::Suite;

pub mod calls;
pub mod facts;
pub mod former_rules;
pub mod lifted_seas;
pub mod own_charts;
pub mod own_lifts;
pub mod own_looks;
pub mod own_rulings;
pub mod own_trees;
pub mod searches;

#[cfg(feature = "library")]
pub mod ashore;
#[cfg(feature = "library")]
pub mod check;
#[cfg(feature = "library")]
pub mod compare;
#[cfg(feature = "library")]
pub mod damage;
#[cfg(feature = "library")]
pub mod denominators;
#[cfg(feature = "library")]
pub mod dispatcher;
#[cfg(feature = "library")]
pub mod falling_ceilings;
#[cfg(feature = "library")]
pub mod firsts;
#[cfg(feature = "library")]
pub mod inherited;
#[cfg(feature = "library")]
pub mod layout;
#[cfg(feature = "library")]
pub mod library_searches;
#[cfg(feature = "library")]
pub mod lifting;
#[cfg(feature = "library")]
pub mod limits;
#[cfg(feature = "library")]
pub mod preview;
#[cfg(feature = "rulings")]
pub mod programs;
#[cfg(feature = "library")]
pub mod read;
#[cfg(feature = "library")]
pub mod recent;
#[cfg(feature = "library")]
pub mod records;
#[cfg(feature = "library")]
pub mod round_trips;
#[cfg(feature = "library")]
pub mod rule;
#[cfg(feature = "library")]
pub mod shelves;
#[cfg(feature = "library")]
pub mod simulate;
#[cfg(feature = "library")]
pub mod stored_answers;
#[cfg(feature = "library")]
pub mod tree;
#[cfg(feature = "library")]
pub mod wrapper;
#[cfg(feature = "library")]
pub mod write;

pub fn all() -> Vec<Suite> {
    vec![
        facts::SUITE,
        own_charts::SUITE,
        own_trees::SUITE,
        own_looks::SUITE,
        own_rulings::SUITE,
        own_lifts::SUITE,
        searches::SUITE,
        calls::SUITE,
        former_rules::SUITE,
        #[cfg(feature = "library")]
        check::SUITE,
        #[cfg(feature = "library")]
        read::SUITE,
        #[cfg(feature = "library")]
        write::SUITE,
        #[cfg(feature = "library")]
        round_trips::SUITE,
        #[cfg(feature = "library")]
        tree::SUITE,
        #[cfg(feature = "library")]
        preview::SUITE,
        #[cfg(feature = "library")]
        rule::SUITE,
        #[cfg(feature = "library")]
        limits::SUITE,
        #[cfg(feature = "library")]
        falling_ceilings::SUITE,
        #[cfg(feature = "library")]
        denominators::SUITE,
        #[cfg(feature = "library")]
        lifting::SUITE,
        #[cfg(feature = "library")]
        ashore::SUITE,
        #[cfg(feature = "library")]
        recent::SUITE,
        #[cfg(feature = "library")]
        simulate::SUITE,
        #[cfg(feature = "library")]
        compare::SUITE,
        #[cfg(feature = "library")]
        records::SUITE,
        #[cfg(feature = "library")]
        inherited::SUITE,
        #[cfg(feature = "library")]
        shelves::SUITE,
        #[cfg(feature = "library")]
        firsts::SUITE,
        #[cfg(feature = "library")]
        damage::SUITE,
        #[cfg(feature = "library")]
        library_searches::SUITE,
        #[cfg(feature = "library")]
        dispatcher::SUITE,
        #[cfg(feature = "library")]
        stored_answers::SUITE,
        #[cfg(feature = "library")]
        layout::SUITE,
        #[cfg(feature = "library")]
        wrapper::SUITE,
        #[cfg(feature = "rulings")]
        programs::RULINGS,
        #[cfg(feature = "hunt")]
        programs::HUNT,
    ]
}
