//! One walk spelled anew: the letters of the endless sequence stay, lead-in
//! and tail change.

use crate::cases::Spelling;
use crate::random::Random;
use crate::reference::LONGEST;

/// An amount up to the most there can be: mostly a small one.
fn amount(random: &mut Random, most: usize) -> usize {
    match random.below(80) {
        0 => most,
        1 => random.between(0, most),
        _ => random.between(0, 5).min(most),
    }
}

/// Repeats the tail.
fn repeat(random: &mut Random, v: &mut Vec<u8>) {
    let more = amount(random, LONGEST / v.len() - 1);
    *v = v.repeat(1 + more);
}

/// Moves letters of the tail into the lead-in, one after the other.
fn move_letters(random: &mut Random, u: &mut Vec<u8>, v: &mut [u8]) {
    for _ in 0..amount(random, LONGEST - u.len()) {
        u.push(v[0]);
        v.rotate_left(1);
    }
}

/// The same walk: its tail repeated, or letters of it moved into the lead-in,
/// up to six times over. Neither part grows beyond the longest.
pub fn respelled(random: &mut Random, u: &[u8], v: &[u8]) -> Spelling {
    let (mut u, mut v) = (u.to_vec(), v.to_vec());
    for _ in 0..random.between(1, 6) {
        if random.once_in(2) {
            repeat(random, &mut v);
        } else {
            move_letters(random, &mut u, &mut v);
        }
    }
    (u, v)
}

#[cfg(test)]
mod tests {
    use super::*;
    use crate::inputs;
    use crate::reference::first_difference;

    #[test]
    fn spellings_of_one_walk() {
        let mut random = Random::new(crate::SEED);
        for _ in 0..500 {
            let reach = inputs::reach(&mut random, 20);
            let (u, v) = inputs::walk(&mut random, reach, 256);
            let (other_u, other_v) = respelled(&mut random, &u, &v);
            assert_eq!(first_difference(&u, &v, &other_u, &other_v), None);
            assert!(other_u.len() <= LONGEST && other_v.len() <= LONGEST);
        }
    }
}
