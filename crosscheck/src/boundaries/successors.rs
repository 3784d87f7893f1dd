//! Question 8 for the look-up of successors; and sets of states, up to all and
//! beyond.

use super::{with, Boundary, A};
use crate::answers::{Calls, SuccessorsAnswer};
use crate::cases::Case;
use crate::reference::Reference;

/// Three states, two letters, two sets. Under letter 0 state 0 leads to itself
/// by set 1 and to state 1 by none, state 1 to state 2 by set 2, state 2 to
/// state 1 by both. Under letter 1 every state leads to all, by both.
const D: [u8; 23] = [3, 2, 2, 1, 3, 1, 0, 4, 2, 2, 3, 7, 3, 3, 3, 7, 3, 3, 3, 7, 3, 3, 3];

/// What, the table, the letter, the set of states, and the answer.
type LookUp = (&'static str, Vec<u8>, u8, u16, SuccessorsAnswer);

/// An accepted look-up's answer.
fn found(next: u16, reached: [u16; 4]) -> SuccessorsAnswer {
    SuccessorsAnswer { number: 0, next, reached }
}

/// Question 8, and that it comes after 6.
fn letters() -> Vec<LookUp> {
    let refused = SuccessorsAnswer::refused;
    vec![
        ("letter m − 1", A.to_vec(), 1, 3, found(3, [2, 0, 0, 0])),
        ("letter m", A.to_vec(), 2, 3, refused(8)),
        ("letter 255", A.to_vec(), 255, 3, refused(8)),
        ("one byte more, and letter m", with(&A, &[0]), 2, 3, refused(6)),
    ]
}

fn states() -> Vec<LookUp> {
    let none = found(0, [0; 4]);
    let all = found(7, [3, 6, 0, 0]);
    let of = |what, states, answer| (what, D.to_vec(), 0, states, answer);
    vec![
        of("no state", 0, none),
        of("state n − 1 alone", 4, found(2, [2, 2, 0, 0])),
        of("states from n up only", 65_528, none),
        of("all states", 7, all),
        of("states 65,535", 65_535, all),
    ]
}

/// Only the very same call stands at the boundary.
pub fn boundaries() -> Vec<Boundary> {
    let mut list = Vec::new();
    for (what, table, letter, from, answer) in letters().into_iter().chain(states()) {
        assert_eq!(Reference.successors(&table, letter, from), answer, "{what}");
        let case = Case::Successors(table, letter, from);
        let told = case.shown();
        let test = move |case: &Case| case.shown() == told;
        list.push(Boundary::of(what, answer.number, case, test));
    }
    list
}
