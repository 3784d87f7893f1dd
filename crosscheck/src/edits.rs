//! A table, and the same with other cells for letters that a walk does not
//! use: each judge's call must give the same under both. With other cells for
//! a used letter it may give something else, which is counted.

use crate::answers::{Judges, PlainAnswer, TreeAnswer};
use crate::cases::{shown_spelling, Spelling};
use crate::checks::{self, Checks, NUMBERS};
use crate::editing;
use crate::ffi;
use crate::hex;
use crate::inputs;
use crate::lending::{Lending, Lent};
use crate::random::Random;
use crate::reference::{Rule, NAME_LENGTH, SCRATCH_LENGTH};
use std::time::Instant;

/// How many walks.
const ROUNDS: usize = 200_000;

/// What is held against what.
enum Check {
    /// The tree judge's answers under both tables are equal.
    Tree,
    /// On yes the names in front of both lent buffers are equal.
    Node,
    /// A lent buffer has the node's name in front; all else is as it was.
    Names,
    /// The plain judge's answers under both tables are equal.
    Plain,
    /// The needed scratch bytes are zero if accepted; all else is as it was.
    Scratch,
}

/// The checks' names, in their order.
const CHECKS: [&str; 5] = ["tree", "node", "names", "plain", "scratch"];

/// What was counted.
struct Counts {
    checks: Checks<{ CHECKS.len() }>,
    pairs: usize,
    /// Of the pairs, those with a yes, with a node below the root, and with
    /// tables of different lengths.
    yes: usize,
    below_root: usize,
    lengths: usize,
    /// Of the pairs, by the refusal number of each judge; 0 for accepted.
    tree: [usize; NUMBERS],
    plain: [usize; NUMBERS],
    /// The walks with no letter left unused.
    none_unused: usize,
    /// The tables with a used letter edited, and those judged otherwise.
    controls: usize,
    otherwise: usize,
}

impl Counts {
    fn new() -> Counts {
        Counts {
            checks: Checks::new(CHECKS),
            pairs: 0,
            yes: 0,
            below_root: 0,
            lengths: 0,
            tree: [0; NUMBERS],
            plain: [0; NUMBERS],
            none_unused: 0,
            controls: 0,
            otherwise: 0,
        }
    }

    /// Counts a pair by what came under its first table.
    fn add_pair(&mut self, one: &Judged, other: &Judged) {
        self.pairs += 1;
        self.yes += usize::from(one.tree.verdict == 1);
        self.below_root += usize::from(!one.name.is_empty());
        self.lengths += usize::from(one.table.len() != other.table.len());
        self.tree[usize::from(one.tree.number)] += 1;
        self.plain[usize::from(one.plain.number)] += 1;
    }

    fn report(&self) {
        self.checks.report();
        let Counts { pairs, yes, below_root, lengths, none_unused, .. } = self;
        print!("{pairs} pairs, {yes} yes, {below_root} below the root, ");
        println!("{lengths} edited tables of another length");
        println!("tree judge: {}", checks::by_number(&self.tree));
        println!("plain judge: {}", checks::by_number(&self.plain));
        println!("no letter is unused in {none_unused} walks");
        println!("a used letter edited: {} of {} differ", self.otherwise, self.controls);
    }
}

/// A table and what the judges give under it.
struct Judged {
    table: Vec<u8>,
    tree: TreeAnswer,
    names: Lent,
    /// The node's name; empty on no.
    name: Vec<u8>,
    plain: PlainAnswer,
    scratch: Lent,
}

impl Judged {
    /// The bytes the plain judge must have put in front of its scratch.
    fn zeros(&self) -> &'static [u8] {
        if self.plain.number == 0 {
            &[0; SCRATCH_LENGTH]
        } else {
            &[]
        }
    }

    fn shown(&self) -> String {
        let Judged { table, tree, names, plain, scratch, .. } = self;
        let answers = format!("{tree:?} {}\n    {plain:?} {}", names.shown(), scratch.shown());
        format!("\n  {}\n    {answers}", hex::show(table))
    }
}

/// Puts a walk to both judges, with lent buffers of these lengths.
fn judged(
    random: &mut Random,
    judges: &dyn Judges,
    table: Vec<u8>,
    (u, v): &Spelling,
    lengths: [usize; 2],
) -> Judged {
    let [mut names, mut scratch] = lengths.map(|length| Lent::new(Lending::filled(random, length)));
    let tree = judges.tree_judge(&table, u, v, names.after.lent());
    let plain = judges.plain_judge(&table, u, v, scratch.after.lent());
    let name = tree.name(names.after.lent()).to_vec();
    Judged { table, tree, names, name, plain, scratch }
}

/// What must be the same under a table and under the edited one.
fn check_judged(walk: &Spelling, one: &Judged, other: &Judged, counts: &mut Counts) {
    let told = || format!("{}{}{}", shown_spelling(walk), one.shown(), other.shown());
    let checks = &mut counts.checks;
    checks.add(Check::Tree as usize, one.tree == other.tree, told);
    checks.add(Check::Plain as usize, one.plain == other.plain, told);
    if one.tree.verdict == 1 {
        checks.add(Check::Node as usize, one.name == other.name, told);
    }
    for judged in [one, other] {
        let Judged { names, name, scratch, .. } = judged;
        checks.add(Check::Names as usize, names.has_in_front(name), told);
        checks.add(Check::Scratch as usize, scratch.has_in_front(judged.zeros()), told);
    }
    counts.add_pair(one, other);
}

/// One walk under a table, under the table with unused letters edited, and
/// under the table with a used letter edited. The lent lengths stay.
fn check_walk(random: &mut Random, judges: &dyn Judges, counts: &mut Counts) {
    let table = inputs::mixed_table(random);
    let rule = Rule::read(&table).expect("a good table");
    let walk = editing::walk(random, rule.letters);
    let (used, unused) = editing::used_and_unused(&rule, &walk);
    let needed = [NAME_LENGTH, SCRATCH_LENGTH];
    let lengths = needed.map(|length| Lending::random_length(random, length));
    let one = judged(random, judges, table, &walk, lengths);
    if unused.is_empty() {
        counts.none_unused += 1;
    } else {
        let edited = editing::edited(random, &rule, &unused).table();
        let other = judged(random, judges, edited, &walk, lengths);
        check_judged(&walk, &one, &other, counts);
    }
    if !used.is_empty() {
        let letter = random.pick(&used);
        let edited = editing::edited(random, &rule, &[letter]).table();
        let other = judged(random, judges, edited, &walk, lengths);
        counts.controls += 1;
        counts.otherwise += usize::from((one.tree, one.plain) != (other.tree, other.plain));
    }
}

/// So many random walks.
fn run(seed: u64, rounds: usize, judges: &dyn Judges) -> Counts {
    let begun = Instant::now();
    let mut random = Random::new(seed);
    let mut counts = Counts::new();
    for _ in 0..rounds {
        check_walk(&mut random, judges, &mut counts);
    }
    counts.report();
    println!("seed {seed}, {:.1} s", begun.elapsed().as_secs_f64());
    counts
}

/// The library under tables with letters edited.
pub fn edits(seed: u64) -> bool {
    let Some(library) = ffi::library() else {
        eprintln!("edits needs the library: build with --features linked");
        return false;
    };
    run(seed, ROUNDS, library).checks.all_right()
}

#[cfg(test)]
mod tests {
    use super::*;
    use crate::reference::Reference;

    #[test]
    fn the_reference_gives_the_same_under_edited_tables() {
        let counts = run(crate::SEED, 200, &Reference);
        assert!(counts.checks.all_right());
        assert!(counts.otherwise > 0);
    }
}
