//! Trees in two machine words, one forward pass for a letter.
//!
//! The nodes stand in the order "children first, oldest child first, then
//! the parent", a byte each: the labels in one word, the marks in the other.
//! In this order a state's new host is simply the first node that can hold
//! it, and a sprouted child comes straight before its parent. A node that
//! hosts nothing while its subtree holds something is full: its subtree,
//! the last nodes put out, is cut off and it accepts.
//!
//! A mark: bits 0 to 2 the active set, bits 3 to 5 the place where the
//! node's subtree begins, bit 6 "stable since the count began", bit 7
//! "accepted since then". Places are counted in bits, so 8 for each node.

use super::judge::History;
use super::table::{word, Words};
use std::hint::select_unpredictable as select;

/// A one in each byte.
const ONES: u64 = 0x0101_0101_0101_0101;
/// Active set and subtree in each byte.
const SHAPE: u64 = 0x3f * ONES;
/// The flags of a mark.
const STABLE: u64 = 0x40;
const ACCEPTED: u64 = 0x80;

#[derive(Clone, Copy)]
pub struct Tree {
    labels: u64,
    marks: u64,
}

impl History for Tree {
    fn starting(start: u8) -> Tree {
        Tree { labels: start.into(), marks: 1 }
    }

    #[inline(always)]
    fn equals(&self, other: &Tree) -> bool {
        self.labels == other.labels && (self.marks ^ other.marks) & SHAPE == 0
    }

    fn counting_anew(&self) -> Tree {
        let marks = self.marks & SHAPE;
        let standing = (marks | marks >> 1 | marks >> 2) & ONES;
        Tree { labels: self.labels, marks: marks | standing << 6 }
    }

    #[inline(always)]
    fn step<const COUNT: bool>(&self, words: &Words, sets: u64) -> Tree {
        let (mut labels, mut marks) = (self.labels, self.marks);
        let mut out = Tree { labels: 0, marks: 0 };
        // The next place to put out to, and the states that have a host.
        let (mut at, mut held) = (0u64, 0u64);
        // For each old place: both as they were when it was reached. Bit 0
        // beside the place: has a node gone whose loss renames what follows?
        let (mut at_before, mut held_before) = (0u64, 0u64);
        let mut gone = 0;
        let mut place = 0u32;
        while marks != 0 {
            let active = marks & 7;
            let begin = marks & 0x38;
            let word = word(words, labels & 255);
            at_before |= (at | gone) << place;
            held_before |= held << place;

            let by_set = word >> (8 * active) & 255;
            let sprouted = by_set & !held;
            held |= by_set;
            out.labels |= sprouted << (at & 63);
            out.marks |= select(sprouted != 0, at | 1, 0) << (at & 63);
            at += u64::from(sprouted != 0) * 8;

            let hosted = word & 255 & !held;
            held |= word & 255;
            let label = held & !(held_before >> begin) & 255;
            let begun = at_before >> begin;
            let cut = begun & 0x38;
            let full = label != 0 && hosted == 0;
            let kept = select(full, (1 << cut) - 1, u64::MAX);
            at = select(full, cut, at);
            let turned = select(active == sets, 1, active + 1);
            let mut mark = cut | select(full, turned, active);
            if COUNT {
                gone = begun & 1 | u64::from(label == 0);
                let counted = marks & (STABLE | ACCEPTED) | u64::from(full) << 7;
                mark |= select(gone == 0, counted, 0);
            }
            mark = select(label != 0, mark, 0);
            out.labels = (out.labels & kept) | label << (at & 63);
            out.marks = (out.marks & kept) | mark << (at & 63);
            at += u64::from(label != 0) * 8;
            place += 8;
            labels >>= 8;
            marks >>= 8;
        }
        out
    }

    fn kept_node(&self) -> Option<Name> {
        let both = (STABLE | ACCEPTED) as u8;
        let marks = self.marks.to_le_bytes();
        let kept = (0..8).filter(|place| marks[*place] & both == both);
        kept.map(|place| self.name(place)).min_by(|one, other| one.get().cmp(other.get()))
    }
}

impl Tree {
    /// The name of the node at a place: for it and each node above it the
    /// number of siblings before.
    fn name(&self, place: usize) -> Name {
        let begins = self.marks.to_le_bytes().map(|mark| usize::from(mark >> 3 & 7));
        let last = 7 - self.marks.leading_zeros() as usize / 8;
        let (mut node, mut name) = (place, Name::default());
        while node < last {
            let above = (node + 1..=last).find(|above| begins[*above] <= node).unwrap_or(last);
            let (mut number, mut first) = (0, begins[node]);
            while first > begins[above] {
                number += 1;
                first = begins[first - 1];
            }
            name.put_first(number);
            node = above;
        }
        name
    }
}

/// A node's name.
#[derive(Clone, Copy, Default)]
pub struct Name {
    numbers: [u8; 8],
    length: usize,
}

impl Name {
    /// Puts a number before the others.
    fn put_first(&mut self, number: u8) {
        self.length = (self.length + 1).min(8);
        self.numbers.copy_within(0..7, 1);
        self.numbers[0] = number;
    }

    /// The name of the next node in number order, at a depth from 1 up.
    pub fn follow(&mut self, depth: usize) {
        let last = depth - 1;
        self.numbers[last] = if last < self.length { self.numbers[last] + 1 } else { 0 };
        self.length = depth;
    }

    pub fn get(&self) -> &[u8] {
        &self.numbers[..self.length]
    }
}
