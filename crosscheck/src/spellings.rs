//! One walk in several spellings: what the library's judges say of one of
//! them must hold for all. Entry and period may differ and are counted.

use crate::answers::{Calls, PlainAnswer, SameAnswer, TreeAnswer};
use crate::cases::{shown_spelling, Spelling};
use crate::checks::Checks;
use crate::ffi;
use crate::hex;
use crate::inputs;
use crate::lending::Lending;
use crate::pairs;
use crate::random::Random;
use crate::reference::{Reference, NAME_LENGTH, SCRATCH_LENGTH};
use crate::respelling::respelled;
use std::time::Instant;

/// How many walks.
const ROUNDS: usize = 60_000;

/// Of the walks, one in so many is at the limit of length.
const LIMIT_IN: usize = 250;

/// What is held against what.
#[derive(Clone, Copy)]
enum Check {
    /// A judge's call on a spelling is accepted.
    Accepted,
    /// Two verdicts on two spellings are equal.
    Verdict,
    /// The nodes of two spellings are the same.
    Node,
    /// The library finds two spellings of one walk the same.
    Same,
    /// The library finds them different once a letter is changed.
    Changed,
}

/// The checks' names, in their order.
const CHECKS: [&str; 5] = ["accepted", "verdict", "node", "same", "changed"];

/// What was counted.
struct Counts {
    checks: Checks<{ CHECKS.len() }>,
    pairs: usize,
    /// Of the pairs, those with a yes, with a node below the root, with other
    /// entries, and with other periods.
    yes: usize,
    below_root: usize,
    entries: usize,
    periods: usize,
}

impl Counts {
    fn new() -> Counts {
        let checks = Checks::new(CHECKS);
        Counts { checks, pairs: 0, yes: 0, below_root: 0, entries: 0, periods: 0 }
    }

    fn report(&self) {
        self.checks.report();
        println!("{} pairs, {} yes, {} below the root", self.pairs, self.yes, self.below_root);
        println!("the entry differs in {}, the period in {}", self.entries, self.periods);
    }
}

/// A spelling and what the judges say of it.
struct Judged {
    spelling: Spelling,
    tree: TreeAnswer,
    /// The node's name; empty on no.
    name: Vec<u8>,
    plain: PlainAnswer,
}

/// Puts a spelling to both judges.
fn judged(random: &mut Random, calls: &dyn Calls, table: &[u8], spelling: Spelling) -> Judged {
    let (u, v) = &spelling;
    let mut names = Lending::enough(random, NAME_LENGTH);
    let mut scratch = Lending::enough(random, SCRATCH_LENGTH);
    let tree = calls.tree_judge(table, u, v, names.lent());
    let plain = calls.plain_judge(table, u, v, scratch.lent());
    let name = tree.name(names.lent()).to_vec();
    Judged { spelling, tree, name, plain }
}

/// What two spellings of one walk must have in common under a table.
fn check_judged(table: &[u8], one: &Judged, other: &Judged, counts: &mut Counts) {
    let told = || {
        let answers = |judged: &Judged| {
            let Judged { spelling, tree, name, plain } = judged;
            format!("\n  {}\n    {tree:?} {name:?} {plain:?}", shown_spelling(spelling))
        };
        format!("{}{}{}", hex::show(table), answers(one), answers(other))
    };
    let verdicts = |judged: &Judged| [judged.tree.verdict, judged.plain.verdict];
    for verdict in verdicts(one) {
        for other_verdict in verdicts(other) {
            counts.checks.add(Check::Verdict as usize, verdict == other_verdict, told);
        }
    }
    let same_node = (one.tree.length, &one.name) == (other.tree.length, &other.name);
    counts.checks.add(Check::Node as usize, same_node, told);
    counts.pairs += 1;
    counts.yes += usize::from(one.tree.verdict == 1);
    counts.below_root += usize::from(!one.name.is_empty());
    counts.entries += usize::from(one.tree.entry != other.tree.entry);
    counts.periods += usize::from(one.tree.period != other.tree.period);
}

fn same_walk(calls: &dyn Calls, one: &Spelling, other: &Spelling) -> SameAnswer {
    calls.same_walk(&one.0, &one.1, &other.0, &other.1)
}

/// The library's word on two walks in both orders, against the reference's,
/// which must be the one wanted.
fn check_same(calls: &dyn Calls, check: Check, walks: [&Spelling; 2], counts: &mut Counts) {
    let [one, other] = walks;
    let wanted = SameAnswer { number: 0, same: matches!(check, Check::Same).into() };
    for (one, other) in [(one, other), (other, one)] {
        let right = same_walk(&Reference, one, other);
        let found = same_walk(calls, one, other);
        counts.checks.add(check as usize, right == wanted && found == right, || {
            let walks = format!("{}\n  {}", shown_spelling(one), shown_spelling(other));
            format!("{walks}\n  reference {right:?}\n  other     {found:?}")
        });
    }
}

/// A walk under a table, in three or four spellings.
fn random_spellings(random: &mut Random) -> (Vec<u8>, Vec<Spelling>) {
    let table = inputs::mixed_table(random);
    let reach = inputs::reach(random, LIMIT_IN);
    let (u, v) = inputs::walk(random, reach, table[1].into());
    let mut spellings: Vec<Spelling> = Vec::new();
    for _ in 0..random.between(2, 3) {
        spellings.push(respelled(random, &u, &v));
    }
    spellings.push((u, v));
    (table, spellings)
}

/// One walk: every spelling judged, then every pair of them.
fn check_walk(random: &mut Random, calls: &dyn Calls, counts: &mut Counts) {
    let (table, spellings) = random_spellings(random);
    let mut all: Vec<Judged> = Vec::new();
    for spelling in spellings {
        let judged = judged(random, calls, &table, spelling);
        for number in [judged.tree.number, judged.plain.number] {
            counts.checks.add(Check::Accepted as usize, number == 0, || {
                let spelling = shown_spelling(&judged.spelling);
                format!("{} {spelling} is refused by {number}", hex::show(&table))
            });
        }
        all.push(judged);
    }
    for (place, other) in all.iter().enumerate() {
        for one in &all[..place] {
            check_judged(&table, one, other, counts);
            check_same(calls, Check::Same, [&one.spelling, &other.spelling], counts);
            let mut changed = other.spelling.clone();
            pairs::change_letter(random, &mut changed);
            check_same(calls, Check::Changed, [&one.spelling, &changed], counts);
        }
    }
}

/// So many random walks; says whether nothing differs.
fn run(seed: u64, rounds: usize, calls: &dyn Calls) -> bool {
    let begun = Instant::now();
    let mut random = Random::new(seed);
    let mut counts = Counts::new();
    for _ in 0..rounds {
        check_walk(&mut random, calls, &mut counts);
    }
    counts.report();
    println!("seed {seed}, {:.1} s", begun.elapsed().as_secs_f64());
    counts.checks.all_right()
}

/// The library on walks in several spellings.
pub fn spellings(seed: u64) -> bool {
    let Some(library) = ffi::library() else {
        eprintln!("spellings needs the library: build with --features linked");
        return false;
    };
    run(seed, ROUNDS, library)
}

#[cfg(test)]
mod tests {
    use super::*;

    #[test]
    fn the_reference_says_the_same_of_all_spellings() {
        assert!(run(crate::SEED, 40, &Reference));
    }
}
