//! Lent buffers, each inside a larger one, before a call and after it.

use crate::random::Random;
use std::ops::Range;

/// A large buffer, and the part of it that is lent.
#[derive(Clone, PartialEq)]
pub struct Lending {
    pub whole: Vec<u8>,
    pub part: Range<usize>,
}

impl Lending {
    /// An interesting length of a lent part.
    pub fn random_length(random: &mut Random, needed: usize) -> usize {
        match random.below(12) {
            0 => 0,
            1 => needed.saturating_sub(1),
            2 => random.below(needed.max(1)),
            3 | 4 => needed + random.between(1, 40),
            5 => needed + 1,
            _ => needed,
        }
    }

    /// A lent part of an interesting length.
    pub fn random(random: &mut Random, needed: usize) -> Lending {
        let length = Lending::random_length(random, needed);
        Lending::filled(random, length)
    }

    /// A lent part that is long enough, now and then longer.
    pub fn enough(random: &mut Random, needed: usize) -> Lending {
        let longer = random.between(1, 40);
        let length = needed + random.pick(&[0, 0, 1, longer]);
        Lending::filled(random, length)
    }

    /// A lent part of this length, all bytes filled one way or another.
    pub fn filled(random: &mut Random, length: usize) -> Lending {
        let before = random.between(1, 40);
        let behind = random.between(1, 40);
        let mut whole = vec![0; before + length + behind];
        match random.below(8) {
            0 => {}
            1 => whole.fill(255),
            2 => whole.fill(1),
            _ => random.fill(&mut whole),
        }
        Lending { whole, part: before..before + length }
    }

    pub fn lent(&mut self) -> &mut [u8] {
        &mut self.whole[self.part.clone()]
    }

    /// The places where two of them differ, with the part each lies in.
    pub fn differences(&self, other: &Lending) -> String {
        let places = (0..self.whole.len()).filter(|at| self.whole[*at] != other.whole[*at]);
        let shown = places.take(20).map(|at| {
            let place = at as isize - self.part.start as isize;
            format!("[{place}] {:02x}/{:02x}", self.whole[at], other.whole[at])
        });
        shown.collect::<Vec<_>>().join(" ")
    }
}

/// A lent buffer before a call and after it.
pub struct Lent {
    pub before: Lending,
    pub after: Lending,
}

impl Lent {
    /// Before any call.
    pub fn new(before: Lending) -> Lent {
        Lent { after: before.clone(), before }
    }

    /// Do these bytes stand in front, and is all else as it was?
    pub fn has_in_front(&self, bytes: &[u8]) -> bool {
        let mut right = self.before.clone();
        let Some(front) = right.lent().get_mut(..bytes.len()) else { return false };
        front.copy_from_slice(bytes);
        self.after == right
    }

    /// The lent length and the changed bytes, as text.
    pub fn shown(&self) -> String {
        let changed = self.before.differences(&self.after);
        format!("lent {} bytes (before/after) {changed}", self.before.part.len())
    }
}
