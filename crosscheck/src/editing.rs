//! A walk that leaves letters of a rule unused, and rules edited: some letters
//! get fresh cells, all else stays.

use crate::answers::Numbers;
use crate::cases::Spelling;
use crate::inputs;
use crate::random::Random;
use crate::reference::Rule;

/// Of the walks, one in so many is at the limit of length.
const LIMIT_IN: usize = 250;

/// Of the walks, one in so many is a bad one.
const SPOILED_IN: usize = 10;

/// A walk over some of so many letters, now and then a bad one.
pub fn walk(random: &mut Random, letters: usize) -> Spelling {
    let mut order: Vec<u8> = (0..letters as u8).collect();
    random.shuffle(&mut order);
    let reach = inputs::reach(random, LIMIT_IN);
    let some = random.between(1, letters);
    let mut walk = inputs::walk(random, reach, some);
    for letter in walk.0.iter_mut().chain(&mut walk.1) {
        *letter = order[usize::from(*letter)];
    }
    if random.once_in(SPOILED_IN) {
        inputs::spoil_walk(random, &mut walk, letters);
    }
    walk
}

/// A rule's letters that occur in a walk, and those that do not.
pub fn used_and_unused(rule: &Rule, (u, v): &Spelling) -> (Vec<usize>, Vec<usize>) {
    let occurs = |letter: &usize| u.iter().chain(v).any(|one| usize::from(*one) == *letter);
    (0..rule.letters).partition(occurs)
}

/// Gives fresh cells to some of these letters, to one of them at least.
fn edit(random: &mut Random, rule: &mut Rule, letters: &[usize]) {
    let &mut Rule { states, letters: all, sets, start, .. } = rule;
    let numbers = Numbers { states, letters: all, sets, start: start.into() };
    let grid = inputs::grid(random, numbers);
    let fresh = Rule::from_grid(numbers, &grid).expect("a good grid");
    let certain = random.pick(letters);
    let edited_in = random.pick(&[1, 2, 4]);
    for letter in letters {
        if *letter == certain || random.once_in(edited_in) {
            rule.moves[*letter] = fresh.moves[*letter].clone();
        }
    }
}

/// Another rule: at least one of these letters has other cells.
pub fn edited(random: &mut Random, rule: &Rule, letters: &[usize]) -> Rule {
    let mut edited = rule.clone();
    while edited == *rule {
        edit(random, &mut edited, letters);
    }
    edited
}

#[cfg(test)]
mod tests {
    use super::*;

    #[test]
    fn all_but_the_unused_cells_stays() {
        let mut random = Random::new(crate::SEED);
        for _ in 0..500 {
            let table = inputs::mixed_table(&mut random);
            let rule = Rule::read(&table).expect("a good table");
            let walk = walk(&mut random, rule.letters);
            let (used, unused) = used_and_unused(&rule, &walk);
            assert_eq!(used.len() + unused.len(), rule.letters);
            if unused.is_empty() {
                continue;
            }
            let edited = edited(&mut random, &rule, &unused).table();
            let read = Rule::read(&edited).expect("a good table");
            assert_eq!(edited[..4], table[..4]);
            assert!(used.iter().all(|letter| read.moves[*letter] == rule.moves[*letter]));
            assert_ne!(edited, table);
        }
    }
}
