//! The tuned plain judge, in two ways that differ in what is carried over
//! the tail for each state: the sets of combinations collected (squares), or
//! only, for each set, whether it was (relations).
//!
//! Either way the tail is read once, for all states it may begin in at once.

use super::table::{Build, Move, SPREAD};

/// The transitions of each letter, as a list and as rows: byte q the next
/// states of state q.
pub struct Moves {
    by_letter: [[Move; 64]; 16],
    counts: [u8; 16],
    rows: [u64; 16],
}

/// A one in each byte.
const ONES: u64 = 0x0101_0101_0101_0101;

impl Moves {
    pub fn new() -> Self {
        Moves { by_letter: [[Move::default(); 64]; 16], counts: [0; 16], rows: [0; 16] }
    }

    #[inline(always)]
    fn of(&self, letter: u8) -> &[Move] {
        let letter = usize::from(letter & 15);
        &self.by_letter[letter][..usize::from(self.counts[letter])]
    }

    /// The states some letters lead to.
    fn through(&self, states: u8, letters: &[u8]) -> u64 {
        let mut states = u64::from(states);
        for letter in letters {
            // Bit q of the states becomes all of byte q.
            let apart = (states * ONES) & 0x8040_2010_0804_0201;
            let wide = ((apart + 0x7f * ONES) >> 7 & ONES) * 255;
            let mut next = self.rows[usize::from(letter & 15)] & wide;
            next |= next >> 32;
            next |= next >> 16;
            states = (next | next >> 8) & 255;
        }
        states
    }
}

impl Build for Moves {
    #[inline(always)]
    fn cell(&mut self, letter: usize, state: usize, map: u8, sets: &[u8]) {
        self.rows[letter & 15] |= u64::from(map) << (8 * (state & 7));
        let list = &mut self.by_letter[letter & 15];
        let count = &mut self.counts[letter & 15];
        let mut left = map;
        for byte in sets {
            let next = left.trailing_zeros() as u8;
            list[usize::from(*count & 63)] = Move { state: state as u8, next, sets: *byte };
            *count += 1;
            left &= left.wrapping_sub(1);
        }
    }
}

/// For each state a tail may end in: byte 0 the states from which a tail
/// leads there, byte i those from which one does with a transition of set i.
type Tails = [u64; 8];

/// Reads the tail with five maps for each state.
pub fn by_relations(moves: &Moves, v: &[u8]) -> Tails {
    let mut tails = [0; 8];
    for (state, starts) in tails.iter_mut().enumerate() {
        *starts = 1 << state;
    }
    for letter in v {
        let mut after = [0; 8];
        for Move { state, next, sets } in moves.of(*letter) {
            let starts = tails[usize::from(state & 7)];
            after[usize::from(next & 7)] |=
                starts | ((starts & 255) * SPREAD[usize::from(sets & 15)]);
        }
        tails = after;
    }
    tails
}

/// The sets of combinations for all states a tail may begin in: 16 bits for
/// each of the eight, bit c for the combination c.
type Combinations = [u64; 2];

/// In each 16 bits, the combinations that have a set.
const WITH: [u64; 4] =
    [0xaaaa_aaaa_aaaa_aaaa, 0xcccc_cccc_cccc_cccc, 0xf0f0_f0f0_f0f0_f0f0, 0xff00_ff00_ff00_ff00];

/// For a set byte and each set: the combinations that stay where they are.
const STAY: [[u64; 4]; 16] = {
    let mut stay = [[u64::MAX; 4]; 16];
    let mut sets = 0;
    while sets < 16 {
        let mut set = 0;
        while set < 4 {
            if sets >> set & 1 == 1 {
                stay[sets][set] = WITH[set];
            }
            set += 1;
        }
        sets += 1;
    }
    stay
};

/// Joins a set byte to every combination.
#[inline(always)]
fn joined(mut square: Combinations, sets: u8) -> Combinations {
    let stay = &STAY[usize::from(sets & 15)];
    for half in &mut square {
        *half = (*half & stay[0]) | (*half & !stay[0]) << 1;
        *half = (*half & stay[1]) | (*half & !stay[1]) << 2;
        *half = (*half & stay[2]) | (*half & !stay[2]) << 4;
        *half = (*half & stay[3]) | (*half & !stay[3]) << 8;
    }
    square
}

/// Reads the tail with the squares of combinations.
pub fn by_squares(moves: &Moves, v: &[u8]) -> Tails {
    let mut squares = [[0u64; 2]; 8];
    for (state, square) in squares.iter_mut().enumerate() {
        square[state / 4] = 1 << (16 * (state % 4));
    }
    for letter in v {
        let mut after = [[0u64; 2]; 8];
        for Move { state, next, sets } in moves.of(*letter) {
            let more = joined(squares[usize::from(state & 7)], *sets);
            let place = &mut after[usize::from(next & 7)];
            *place = [place[0] | more[0], place[1] | more[1]];
        }
        squares = after;
    }
    squares.map(flattened)
}

/// What a square says of each start: is there a way, one with set i?
fn flattened(square: Combinations) -> u64 {
    let mut starts = 0;
    for start in 0..8 {
        let combinations = square[start / 4] >> (16 * (start % 4)) & 0xffff;
        starts |= u64::from(combinations != 0) << start;
        for (set, with) in WITH.iter().enumerate() {
            starts |= u64::from(combinations & with != 0) << (8 * (set + 1) + start);
        }
    }
    starts
}

/// The verdict: a state at some round end whose round trips take, between
/// them, a transition of each set. (Round trips can be joined into one.)
pub fn verdict(moves: &Moves, tails: &Tails, start: u8, u: &[u8], sets: usize) -> bool {
    let reached = all_rounds(tails, moves.through(start, u));
    let mut before = tails.map(|starts| starts as u8);
    for middle in 0..8 {
        for state in 0..8 {
            if before[state] >> middle & 1 == 1 {
                before[state] |= before[middle];
            }
        }
    }
    let wanted = (1u64 << (8 * sets)) - 1;
    (0..8).filter(|state| reached >> state & 1 == 1).any(|state| {
        let mates = mates(&before, state);
        let ends = (0..8).filter(|end| mates >> end & 1 == 1);
        let ways = ends.fold(0, |ways, end| ways | (tails[end] & (mates * 0x01_0101_0101)));
        every_byte_stands(ways >> 8, wanted)
    })
}

/// The states reached after any number of tails.
fn all_rounds(tails: &Tails, mut states: u64) -> u64 {
    loop {
        let ends = (0..8).filter(|end| tails[*end] & states != 0);
        let more = ends.fold(states, |more, end| more | 1 << end);
        if more == states {
            return states;
        }
        states = more;
    }
}

/// The states on a round trip with a state.
fn mates(before: &[u8; 8], state: usize) -> u64 {
    let there = (0..8).filter(|other| before[*other] >> state & before[state] >> other & 1 == 1);
    there.fold(0, |map, other| map | 1 << other)
}

/// Has each of the wanted bytes a standing bit?
fn every_byte_stands(word: u64, wanted: u64) -> bool {
    let bytes = word.to_le_bytes().into_iter().zip(wanted.to_le_bytes());
    bytes.filter(|(_, wanted)| *wanted != 0).all(|(byte, _)| byte != 0)
}
