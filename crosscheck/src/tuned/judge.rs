//! The tuned tree judge: Brent's search for the first repeated tree, with
//! the count of stable and accepting nodes running along.

use super::table::{Successors, Words};
use super::tree::Name;

/// A tree as the search reads it.
pub trait History: Copy {
    /// The root alone, active set 1.
    fn starting(start: u8) -> Self;
    /// The same tree, whatever is counted on it?
    fn equals(&self, other: &Self) -> bool;
    /// The same tree, every node stable so far and none accepted.
    fn counting_anew(&self) -> Self;
    /// The tree after one letter; counts stable and accepting nodes if COUNT.
    fn step<const COUNT: bool>(&self, words: &Words, sets: u64) -> Self;
    /// The first in dictionary order of the nodes that were stable all the
    /// time and accepted.
    fn kept_node(&self) -> Option<Name>;
}

/// Reads tails under one table.
struct Reader<'a> {
    by_letter: &'a [Words; 16],
    sets: u64,
    v: &'a [u8],
    /// Letters stepped so far.
    letters: u64,
}

impl Reader<'_> {
    /// The tree after some letters.
    #[inline(always)]
    fn read<T: History, const COUNT: bool>(&mut self, mut tree: T, letters: &[u8]) -> T {
        self.letters += letters.len() as u64;
        for letter in letters {
            let words = &self.by_letter[usize::from(letter & 15)];
            tree = tree.step::<COUNT>(words, self.sets);
        }
        tree
    }

    /// The tree after one tail.
    #[inline(never)]
    fn tail<T: History>(&mut self, tree: T) -> T {
        self.read::<T, false>(tree, self.v)
    }

    /// The tree after one tail, counted.
    #[inline(never)]
    fn counted_tail<T: History>(&mut self, tree: T) -> T {
        self.read::<T, true>(tree, self.v)
    }
}

/// A tree and its round.
#[derive(Clone, Copy)]
struct Round<T> {
    tree: T,
    number: u64,
}

/// What the search finds.
pub struct Found {
    pub entry: u64,
    pub period: u64,
    /// The node's name, on yes.
    pub node: Option<Name>,
    /// The letters stepped.
    pub letters: u64,
}

/// The whole search. The tree kept for comparing is that of round 2^i - 1,
/// for 2^i rounds. Since the last of these is on the cycle and the count
/// began there, the count is right when its tree comes again.
pub fn search<T: History>(
    successors: &Successors,
    sets: usize,
    start: u8,
    u: &[u8],
    v: &[u8],
) -> Found {
    let by_letter = &successors.by_letter;
    let mut reader = Reader { by_letter, sets: sets as u64, v, letters: 0 };
    let first = Round { tree: reader.read::<T, false>(T::starting(start), u), number: 0 };
    let (mut last, mut kept) = (first, first);
    let (mut limit, mut period) = (1, 1);
    let mut tree = reader.counted_tail(first.tree.counting_anew());
    while !tree.equals(&kept.tree) {
        if period == limit {
            last = kept;
            kept = Round { tree, number: kept.number + period };
            tree = tree.counting_anew();
            limit *= 2;
            period = 0;
        }
        tree = reader.counted_tail(tree);
        period += 1;
    }
    let node = tree.kept_node();
    let entry = if kept.number == 0 {
        0
    } else if period <= limit / 2 {
        // The tree kept before would have come again, were it on the cycle.
        entry(&mut reader, last, true, kept, period)
    } else {
        entry(&mut reader, first, false, kept, period)
    };
    Found { entry, period, node, letters: reader.letters }
}

/// The first round on the cycle, from a round on (behind it if `off`), at
/// the latest that of the kept tree: two trees a period apart.
fn entry<T: History>(
    reader: &mut Reader,
    from: Round<T>,
    off: bool,
    kept: Round<T>,
    period: u64,
) -> u64 {
    let (mut round, mut behind) = (from.number, from.tree);
    if off && round + 1 == kept.number {
        return kept.number;
    }
    let mut ahead = behind;
    let mut missing = period;
    if round + period >= kept.number {
        ahead = kept.tree;
        missing = round + period - kept.number;
    }
    for _ in 0..missing {
        ahead = reader.tail(ahead);
    }
    while !behind.equals(&ahead) {
        round += 1;
        if round == kept.number {
            break;
        }
        behind = reader.tail(behind);
        ahead = reader.tail(ahead);
    }
    round
}
