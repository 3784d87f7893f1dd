//! Walks whose root has children behind every letter: there is nothing to
//! spare by reading the root alone.

use super::{Inputs, UNCUT_TAIL};
use crate::cases::Walk;
use crate::reference::tree::{starting_tree, step};
use crate::reference::{Rule, LONGEST};

/// The letters of a word over and over.
fn repeated(word: &[u8], length: usize) -> Vec<u8> {
    word.iter().copied().cycle().take(length).collect()
}

/// Has the root children behind each letter of u and v?
fn never_alone(walk: &Walk) -> bool {
    let Ok(rule) = Rule::read(&walk.table) else { return false };
    let mut tree = starting_tree(&rule);
    walk.u.iter().chain(&walk.v).all(|letter| {
        tree = step(&tree, &rule, *letter).tree;
        tree.as_ref().is_some_and(|root| !root.children.is_empty())
    })
}

/// The tails of the hard walks over and over, as the longest u and as a v
/// that is not cut.
pub fn never_alone_walks(hard: &Inputs) -> Inputs {
    let over_and_over = |Walk { table, v, .. }: &Walk| Walk {
        table: table.clone(),
        u: repeated(v, LONGEST),
        v: repeated(v, UNCUT_TAIL),
    };
    let walks = hard.walks.iter().map(over_and_over).filter(never_alone).collect();
    Inputs { name: "never", walks }
}
