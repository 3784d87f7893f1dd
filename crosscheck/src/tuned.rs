//! The two judges tuned for speed, as an engineer would write them for the
//! station: bit maps, no memory but a few kilobytes on the stack, a letter's
//! tables made once for a call, one forward pass for a letter.

mod judge;
mod plain;
mod rows;
mod table;
mod tree;

use crate::answers::{Judges, PlainAnswer, TreeAnswer};
use crate::reference::{LONGEST, NAME_LENGTH, SCRATCH_LENGTH};
use judge::History;
use rows::Rows;
use table::{check_walk, parse, Successors};
use tree::Tree;

/// The tree judge's answer, and the letters that were stepped for it.
fn judged<T: History>(
    table: &[u8],
    u: &[u8],
    v: &[u8],
    names: &mut [u8],
) -> Result<(TreeAnswer, u64), u8> {
    let mut successors = Successors::new();
    let header = parse(table, &mut successors)?;
    check_walk(&header, u, v)?;
    if names.len() < NAME_LENGTH {
        return Err(10);
    }
    successors.close(header.letters);
    let found = judge::search::<T>(&successors, header.sets, header.start, u, v);
    let mut answer =
        TreeAnswer { number: 0, verdict: 0, length: 255, entry: found.entry, period: found.period };
    if let Some(name) = found.node {
        let name = name.get();
        names[..name.len()].copy_from_slice(name);
        answer.verdict = 1;
        answer.length = name.len() as u8;
    }
    Ok((answer, found.letters))
}

/// The letters the tuned tree judge steps for an accepted walk.
pub fn letters_stepped(table: &[u8], u: &[u8], v: &[u8]) -> u64 {
    judged::<Tree>(table, u, v, &mut [0; NAME_LENGTH]).map_or(0, |(_, letters)| letters)
}

/// The plain judge, given how the tail is read.
#[inline(always)]
fn plainly(
    table: &[u8],
    u: &[u8],
    v: &[u8],
    scratch: &mut [u8],
    read_tail: impl Fn(&plain::Moves, &[u8]) -> [u64; 8],
) -> Result<PlainAnswer, u8> {
    let mut moves = plain::Moves::new();
    let header = parse(table, &mut moves)?;
    check_walk(&header, u, v)?;
    if scratch.len() < SCRATCH_LENGTH {
        return Err(10);
    }
    scratch[..SCRATCH_LENGTH].fill(0);
    let tails = read_tail(&moves, v);
    let verdict = plain::verdict(&moves, &tails, header.start, u, header.sets);
    Ok(PlainAnswer { number: 0, verdict: verdict.into() })
}

/// The tuned judges: trees in two words, squares of combinations.
pub struct Tuned;

impl Judges for Tuned {
    fn tree_judge(&self, table: &[u8], u: &[u8], v: &[u8], names: &mut [u8]) -> TreeAnswer {
        judged::<Tree>(table, u, v, names).map_or_else(TreeAnswer::refused, |(answer, _)| answer)
    }

    fn plain_judge(&self, table: &[u8], u: &[u8], v: &[u8], scratch: &mut [u8]) -> PlainAnswer {
        plainly(table, u, v, scratch, plain::by_squares).unwrap_or_else(PlainAnswer::refused)
    }
}

/// The same in other ways: trees as rows of nodes, which is the more usual
/// one; the plain judge by relations, which is the sharper one.
pub struct OtherWays;

impl Judges for OtherWays {
    fn tree_judge(&self, table: &[u8], u: &[u8], v: &[u8], names: &mut [u8]) -> TreeAnswer {
        judged::<Rows>(table, u, v, names).map_or_else(TreeAnswer::refused, |(answer, _)| answer)
    }

    fn plain_judge(&self, table: &[u8], u: &[u8], v: &[u8], scratch: &mut [u8]) -> PlainAnswer {
        plainly(table, u, v, scratch, plain::by_relations).unwrap_or_else(PlainAnswer::refused)
    }
}
