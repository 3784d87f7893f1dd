//! The table, checked and made into successor words in one pass.
//!
//! A word has in byte 0 the successors and in byte i those by transitions of
//! set i. For each letter there are two small tables of words: one by the
//! lower four states of a label, one by the upper four. A label's word is
//! one look into each.

use super::LONGEST;

/// Words by a label's lower half, then by its upper half.
pub type Words = [u64; 32];

/// A transition as the plain judge takes it.
#[derive(Clone, Copy, Default)]
pub struct Move {
    pub state: u8,
    pub next: u8,
    pub sets: u8,
}

/// What a parsed table is made into.
pub trait Build {
    /// A cell: state, map byte, set bytes.
    fn cell(&mut self, letter: usize, state: usize, map: u8, sets: &[u8]);
}

/// The numbers of a good table.
pub struct Header {
    pub letters: usize,
    pub sets: usize,
    pub start: u8,
}

/// The number for a cell that does not hold (4 or 5), found byte by byte.
#[cold]
fn cell_number(bytes: &[u8], states: usize, sets: usize) -> u8 {
    let Some(map) = bytes.first() else { return 4 };
    if u16::from(*map) >> states != 0 {
        return 5;
    }
    let present = bytes[1..].iter().take(map.count_ones() as usize);
    if present.copied().any(|byte| byte >> sets != 0) {
        5
    } else {
        4
    }
}

/// One cell's map and set bytes, and what is behind them.
#[inline(always)]
fn cell(bytes: &[u8], states: usize, sets: usize) -> Option<(u8, &[u8], &[u8])> {
    let (map, rest) = bytes.split_first()?;
    let (here, rest) = rest.split_at_checked(map.count_ones() as usize)?;
    let all = here.iter().fold(0, |all, byte| all | byte);
    (u16::from(*map) >> states == 0 && all >> sets == 0).then_some((*map, here, rest))
}

/// Questions 1 to 6, and the cells handed on as they come.
#[inline(always)]
pub fn parse(table: &[u8], build: &mut impl Build) -> Result<Header, u8> {
    let [states, letters, sets, start, cells @ ..] = table else { return Err(1) };
    let [n, m, k] = [states, letters, sets].map(|byte| usize::from(*byte));
    if n.wrapping_sub(1) >= 8 || m.wrapping_sub(1) >= 16 || k.wrapping_sub(1) >= 4 {
        return Err(2);
    }
    if *start == 0 || u16::from(*start) >> n != 0 {
        return Err(3);
    }
    let mut bytes = cells;
    for letter in 0..m {
        for state in 0..n {
            let Some((map, sets, rest)) = cell(bytes, n, k) else {
                return Err(cell_number(bytes, n, k));
            };
            build.cell(letter, state, map, sets);
            bytes = rest;
        }
    }
    if !bytes.is_empty() {
        return Err(6);
    }
    Ok(Header { letters: m, sets: k, start: *start })
}

/// Questions 7 and 8.
#[inline(always)]
pub fn check_walk(header: &Header, u: &[u8], v: &[u8]) -> Result<(), u8> {
    if u.len() > LONGEST || v.is_empty() || v.len() > LONGEST {
        return Err(7);
    }
    let largest = |letters: &[u8]| letters.iter().fold(0, |most, letter| most.max(*letter));
    if usize::from(largest(u).max(largest(v))) >= header.letters {
        return Err(8);
    }
    Ok(())
}

/// For a set byte: bit 0 of byte i stands where set i is in it.
pub const SPREAD: [u64; 16] = {
    let mut spread = [0; 16];
    let mut sets = 0;
    while sets < 16 {
        let mut set = 0;
        while set < 4 {
            spread[sets] |= ((sets as u64 >> set) & 1) << (8 * (set + 1));
            set += 1;
        }
        sets += 1;
    }
    spread
};

/// The words of all letters.
pub struct Successors {
    pub by_letter: [Words; 16],
}

impl Successors {
    pub fn new() -> Self {
        Successors { by_letter: [[0; 32]; 16] }
    }

    /// Fills each small table from its words for single states.
    #[inline(always)]
    pub fn close(&mut self, letters: usize) {
        for words in &mut self.by_letter[..letters] {
            for half in words.chunks_exact_mut(16) {
                for label in 3..16usize {
                    half[label] = half[label & (label - 1)] | half[label & label.wrapping_neg()];
                }
            }
        }
    }
}

impl Build for Successors {
    #[inline(always)]
    fn cell(&mut self, letter: usize, state: usize, map: u8, sets: &[u8]) {
        let mut word = u64::from(map);
        let mut left = map;
        for byte in sets {
            word |= SPREAD[usize::from(byte & 15)] << left.trailing_zeros();
            left &= left.wrapping_sub(1);
        }
        let single = (1 << (state & 3)) + 16 * (state >> 2 & 1);
        self.by_letter[letter & 15][single] = word;
    }
}

/// The word of a label.
#[inline(always)]
pub fn word(words: &Words, label: u64) -> u64 {
    words[(label & 15) as usize] | words[(16 + (label >> 4 & 15)) as usize]
}
