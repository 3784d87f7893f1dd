//! Question 7 for the comparison of two walks; and walks that are just the
//! same, or just not.

use super::Boundary;
use crate::answers::{Calls, SameAnswer};
use crate::cases::{Case, Spelling};
use crate::reference::{first_difference, Reference};

/// What, and the two walks.
type Pair = (&'static str, Spelling, Spelling);

/// A walk of the letter 0 alone, by the lengths of its parts.
fn zeros(lead: usize, tail: usize) -> Spelling {
    (vec![0; lead], vec![0; tail])
}

fn walk(u: &[u8], v: &[u8]) -> Spelling {
    (u.to_vec(), v.to_vec())
}

/// Question 7 answered no.
fn refused() -> Vec<Pair> {
    let good = || zeros(0, 1);
    vec![
        ("u of 4,097 letters", zeros(4097, 1), good()),
        ("v empty", zeros(0, 0), good()),
        ("v of 4,097 letters", zeros(0, 4097), good()),
        ("the other u of 4,097 letters", good(), zeros(4097, 1)),
        ("the other v empty", good(), zeros(0, 0)),
        ("the other v of 4,097 letters", good(), zeros(0, 4097)),
        ("both tails empty behind a lead-in", zeros(1, 0), zeros(1, 0)),
        ("all four parts of 4,097 letters", zeros(4097, 4097), zeros(4097, 4097)),
    ]
}

/// One walk in two spellings.
fn same() -> Vec<Pair> {
    let pair = || walk(&[], &[0, 1]);
    vec![
        ("u of 4,096 letters", zeros(4096, 1), zeros(0, 1)),
        ("v of 4,096 letters", zeros(0, 4096), zeros(0, 1)),
        ("the other u of 4,096 letters", zeros(0, 1), zeros(4096, 1)),
        ("the other v of 4,096 letters", zeros(0, 1), zeros(0, 4096)),
        ("all four parts of 4,096 letters", zeros(4096, 4096), zeros(4096, 4096)),
        ("one letter for ever, tails of 4,095 and 4,096", zeros(0, 4095), zeros(0, 4096)),
        ("no lead-ins, tails of one letter", walk(&[], &[255]), walk(&[], &[255])),
        ("the pair twice", pair(), walk(&[], &[0, 1, 0, 1])),
        ("a letter moved", pair(), walk(&[0], &[1, 0])),
        ("the pair twice and a letter moved", pair(), walk(&[0], &[1, 0, 1, 0])),
        ("every letter moved", pair(), walk(&[0, 1], &[0, 1])),
        ("letters moved in both walks", walk(&[0], &[1, 0]), walk(&[0, 1, 0], &[1, 0, 1, 0])),
        ("the pair twice and thrice", walk(&[2], &[0, 1].repeat(2)), walk(&[2], &[0, 1].repeat(3))),
    ]
}

/// Different walks.
fn different() -> Vec<Pair> {
    let pair = || walk(&[], &[0, 1]);
    let before_one = |lead: usize| (vec![0; lead], vec![1]);
    vec![
        ("the tail turned, no letter moved", pair(), walk(&[], &[1, 0])),
        ("a letter moved, the tail not turned", pair(), walk(&[0], &[0, 1])),
        ("the tail turned, another letter moved", pair(), walk(&[1], &[1, 0])),
        ("lead-ins with another last letter", walk(&[0, 1], &[2]), walk(&[0, 2], &[2])),
        ("the same letters, parted elsewhere", walk(&[0], &[1, 0]), walk(&[0, 1], &[0])),
        ("letters 0 and 128", walk(&[], &[0]), walk(&[], &[128])),
        ("lead-ins of 4,096 and 4,095 letters", before_one(4096), before_one(4095)),
    ]
}

/// Different walks that agree as long as such walks can, and on how many
/// letters: the longer lead-in's, and those of both tails less 2, or less 3 if
/// 2 is the tails' greatest common divisor.
fn agreeing() -> Vec<(usize, Spelling, Spelling)> {
    let (three, five) = ([0, 1, 0], [0, 1, 0, 0, 1]);
    let long_lead = |v: &[u8]| (vec![0; 4096], v.to_vec());
    vec![
        (1, walk(&[], &[0]), walk(&[], &[0, 1])),
        (3, walk(&[], &[0, 1]), walk(&[], &three)),
        (3, walk(&[], &three), walk(&[], &[0, 1])),
        (5, walk(&[], &[0, 0, 1]), walk(&[], &[0, 0, 1, 0])),
        (6, walk(&[], &three), walk(&[], &five)),
        (7, walk(&[], &[9, 0, 9, 1]), walk(&[], &[9, 0, 9, 1, 9, 0])),
        (11, walk(&[], &five), walk(&[], &[0, 1, 0, 0, 1, 0, 1, 0])),
        (4, walk(&[7], &[0, 1]), walk(&[7], &three)),
        (4, walk(&[], &[1, 0]), walk(&[1], &three)),
        (8, walk(&[1, 0], &five), walk(&[], &[1, 0, 0])),
        (4098, long_lead(&[0, 0, 1]), walk(&[], &[0])),
        (4099, long_lead(&[0, 1]), long_lead(&three)),
    ]
}

/// The lengths of two walks that agree on so many letters and then differ.
fn agreement(agreed: usize, (u, v): &Spelling, (other_u, other_v): &Spelling) -> String {
    assert_eq!(first_difference(u, v, other_u, other_v), Some(agreed));
    let leads = format!("lead-ins of {} and {}", u.len(), other_u.len());
    let tails = format!("tails of {} and {} letters", v.len(), other_v.len());
    format!("{leads}, {tails}; letters that agree: {agreed}")
}

/// Two walks and the answer they must have. Only the very same call stands at
/// the boundary.
fn boundary(what: &str, answer: SameAnswer, one: Spelling, other: Spelling) -> Boundary {
    let found = Reference.same_walk(&one.0, &one.1, &other.0, &other.1);
    assert_eq!(found, answer, "{what}");
    let case = Case::Same(one, other);
    let told = case.shown();
    Boundary::of(what, answer.number, case, move |case| case.shown() == told)
}

pub fn boundaries() -> Vec<Boundary> {
    let mut list = Vec::new();
    let [no, yes] = [0, 1].map(|same| SameAnswer { number: 0, same });
    for (answer, pairs) in [(SameAnswer::refused(7), refused()), (yes, same()), (no, different())] {
        for (what, one, other) in pairs {
            list.push(boundary(what, answer, one, other));
        }
    }
    for (agreed, one, other) in agreeing() {
        let what = agreement(agreed, &one, &other);
        list.push(boundary(&what, no, one, other));
    }
    list
}
