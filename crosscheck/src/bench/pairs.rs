//! Times of the comparison of two walks: the long walks, each against itself
//! with a letter of the tail moved into the lead-in, so that every letter
//! that tells is compared.

use super::{Inputs, REPETITIONS};
use crate::answers::{Calls, SameAnswer};
use crate::cases::Spelling;
use std::hint::black_box;
use std::time::Instant;

/// The answer for two spellings of one walk.
const ONE_WALK: SameAnswer = SameAnswer { number: 0, same: 1 };

/// A walk with one letter of u less, and the same walk with a letter of v
/// moved into the lead-in.
fn spelled_twice(u: &[u8], v: &[u8]) -> (Spelling, Spelling) {
    let lead = &u[..u.len() - 1];
    let moved = [lead, &v[..1]].concat();
    let turned = [&v[1..], &v[..1]].concat();
    ((lead.to_vec(), v.to_vec()), (moved, turned))
}

/// How many letters tell: those of the longer lead-in, and one less than both
/// tails have.
fn enough((u, v): &Spelling, (other_u, other_v): &Spelling) -> usize {
    u.len().max(other_u.len()) + v.len() + other_v.len() - 1
}

/// A place in a walk: its letter, and the place behind it.
fn letter((u, v): &Spelling, at: usize) -> (u8, usize) {
    let letter = if at < u.len() { u[at] } else { v[at - u.len()] };
    let behind = if at + 1 == u.len() + v.len() { u.len() } else { at + 1 };
    (letter, behind)
}

/// The comparison in plain Rust, letter by letter.
fn compared(one: &Spelling, other: &Spelling) -> SameAnswer {
    let (mut at, mut other_at) = (0, 0);
    for _ in 0..enough(one, other) {
        let ((found, behind), (wanted, other_behind)) = (letter(one, at), letter(other, other_at));
        if found != wanted {
            return SameAnswer { number: 0, same: 0 };
        }
        (at, other_at) = (behind, other_behind);
    }
    ONE_WALK
}

/// One comparison of walks.
type Comparison<'a> = &'a dyn Fn(&Spelling, &Spelling) -> SameAnswer;

/// The best time of several, in nanoseconds for a pair, and whether all pairs
/// are found to be one walk.
fn best(pairs: &[(Spelling, Spelling)], comparison: Comparison) -> (f64, bool) {
    let (mut least, mut right) = (f64::MAX, true);
    for _ in 0..REPETITIONS {
        let begun = Instant::now();
        for (one, other) in pairs {
            right &= comparison(black_box(one), black_box(other)) == ONE_WALK;
        }
        least = least.min(begun.elapsed().as_nanos() as f64 / pairs.len() as f64);
    }
    (least, right)
}

/// Times the library and plain Rust on the long walks, and prints a line; says
/// whether both are right.
pub fn measure(long: &Inputs, library: Option<&'static dyn Calls>) -> bool {
    let pairs: Vec<_> = long.walks.iter().map(|walk| spelled_twice(&walk.u, &walk.v)).collect();
    let letters: usize = pairs.iter().map(|(one, other)| enough(one, other)).sum();
    let (rust, mut right) = best(&pairs, &compared);
    print!("pairs same walk: {} calls, {} letters each, ", pairs.len(), letters / pairs.len());
    if let Some(library) = library {
        let call = |one: &Spelling, other: &Spelling| {
            library.same_walk(&one.0, &one.1, &other.0, &other.1)
        };
        let (time, well) = best(&pairs, &call);
        print!("library {time:.0} ns, ratio {:.2}, ", time / rust);
        right &= well;
    }
    println!("plain Rust {rust:.0} ns");
    right
}
