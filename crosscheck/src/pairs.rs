//! Random pairs of walks under no table: one walk in two spellings, one of
//! them spoiled or not, or two walks.

use crate::cases::Spelling;
use crate::inputs;
use crate::random::Random;
use crate::reference::LONGEST;
use crate::respelling::respelled;

/// Of the walks, one in so many is at the limit of length.
const LIMIT_IN: usize = 250;

/// A walk, any bytes its letters.
fn walk(random: &mut Random) -> Spelling {
    let reach = inputs::reach(random, LIMIT_IN);
    let limit = random.pick(&[2, 3, 16, 256]);
    inputs::walk(random, reach, limit)
}

/// A short walk over one or two letters.
fn small_walk(random: &mut Random) -> Spelling {
    let (lead, tail) = (random.below(4), random.between(1, 6));
    (inputs::letters(random, lead, 2), inputs::letters(random, tail, 2))
}

/// Two walks with one lead-in. Behind it they agree as long as different
/// ones with tails of these lengths can: |v| + |v'| − 2 letters.
fn long_agreement(random: &mut Random) -> (Spelling, Spelling) {
    let (u, _) = walk(random);
    let any = random.between(1, LONGEST - 1);
    let short = random.between(1, 12);
    let length = random.pick(&[short, short, short, short, short, short, any, LONGEST - 1]);
    let common = random.byte();
    let mut v = vec![common; length - 1];
    v.push(common ^ random.pick(&[1, 128, 255]));
    let times = random.between(1, 4).min((LONGEST - 1) / length);
    let mut other_v = v.repeat(times);
    other_v.push(common);
    ((u.clone(), v), (u, other_v))
}

/// The lead-in or the tail of a walk, and the place of a letter there.
fn some_letter<'a>(random: &mut Random, walk: &'a mut Spelling) -> (&'a mut Vec<u8>, usize) {
    let in_lead = !walk.0.is_empty() && random.once_in(2);
    let part = if in_lead { &mut walk.0 } else { &mut walk.1 };
    let any = random.below(part.len());
    let place = random.pick(&[0, part.len() - 1, any]);
    (part, place)
}

/// Changes one letter. The walk is then another one.
pub fn change_letter(random: &mut Random, walk: &mut Spelling) {
    let any = random.between(1, 255) as u8;
    let bits = random.pick(&[1, 1, 2, any]);
    let (part, place) = some_letter(random, walk);
    part[place] ^= bits;
}

/// Drops one letter.
fn drop_letter(random: &mut Random, walk: &mut Spelling) {
    let (part, place) = some_letter(random, walk);
    part.remove(place);
}

/// Spoils a walk's length: no tail, or a part at the limit or just beyond.
fn spoil_length(random: &mut Random, (u, v): &mut Spelling) {
    let length = LONGEST + random.below(3);
    match random.below(3) {
        0 => v.clear(),
        1 => u.resize(length, 0),
        _ => v.resize(length, 0),
    }
}

/// A pair, now and then with a bad length in either walk.
pub fn pair(random: &mut Random) -> (Spelling, Spelling) {
    let (mut one, mut other) = match random.below(8) {
        0 => (small_walk(random), small_walk(random)),
        1 => long_agreement(random),
        _ => {
            let walk = walk(random);
            (walk.clone(), walk)
        }
    };
    if random.once_in(3) {
        one = respelled(random, &one.0, &one.1);
    }
    other = respelled(random, &other.0, &other.1);
    match random.below(8) {
        0 | 1 => change_letter(random, &mut other),
        2 => drop_letter(random, &mut other),
        _ => {}
    }
    if random.once_in(2) {
        (one, other) = (other, one);
    }
    for walk in [&mut one, &mut other] {
        if random.once_in(16) {
            spoil_length(random, walk);
        }
    }
    (one, other)
}

#[cfg(test)]
mod tests {
    use super::*;
    use crate::reference::first_difference;

    #[test]
    fn long_agreements() {
        let mut random = Random::new(crate::SEED);
        for _ in 0..100 {
            let ((u, v), (other_u, other_v)) = long_agreement(&mut random);
            let agreed = u.len() + v.len() + other_v.len() - 2;
            assert_eq!(first_difference(&u, &v, &other_u, &other_v), Some(agreed));
            assert!(v.len() < other_v.len() && other_v.len() <= LONGEST);
        }
    }
}
