//! Whole lists of calls on the reference machine, refused ones among them: with trees and rulings by
//! definition and by Kruskal it gives the same answers and, after each call, the same state.

use super::own_lifts::{minutes, turning_opening};
use crate::bends;
use crate::document::law::Law;
use crate::document::machine::Machine;
use crate::document::tree::Method;
use crate::generate;
use crate::random::Random;
use crate::report::{Outcome, Suite, Tally};

pub const SUITE: Suite = Suite {
    name: "calls",
    run,
    bends: &bends::joined::<40>(&[
        &bends::OF_CALLS,
        &[
            bends::REQUIRED_SWAPPED_OUT,
            bends::RELAXED_POLICY,
            bends::LIFTED_AT_UPPER_RULED,
            bends::LIFTING_ONE_BIT,
        ],
    ]),
};

fn run(law: &Law, tally: &mut Tally) -> Outcome {
    let random = &mut Random::new(0x0063_616c_6c73);
    for round in 0..8_000 {
        let mut list = generate::calls(random, 5, 10);
        if round % 2 == 0 {
            let graph = minutes(random);
            let lifting = generate::lifting(random);
            list.insert(0, turning_opening(random, &graph, lifting));
        }
        let mut one = Machine::new(law, Method::Kruskal);
        let mut other = Machine::new(&Law::AS_WRITTEN, Method::Definition);
        for (i, call) in list.iter().enumerate() {
            let got = one.call(call);
            let expected = other.call(call);
            let input = || format!("the first {} of {list:?}", i + 1);
            tally.compare("answer", input, &expected, &got)?;
            tally.compare("state", input, &other.search, &one.search)?;
        }
    }
    Ok(())
}
