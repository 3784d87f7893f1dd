//! Rule tables: from bytes to a rule and back, and the grid.

use crate::answers::Numbers;

/// The grid's byte for "no transition".
pub const NO_TRANSITION: u8 = 255;

/// A rule, as its table or its grid gives it.
#[derive(Clone, Debug, PartialEq, Eq)]
pub struct Rule {
    pub states: usize,
    pub letters: usize,
    pub sets: usize,
    /// The map of starting states.
    pub start: u8,
    /// By letter, state and next state: no transition, or its set byte.
    pub moves: Vec<Vec<Vec<Option<u8>>>>,
}

/// Questions 2 and 3.
fn check_numbers(numbers: Numbers) -> Result<(), u8> {
    let Numbers { states, letters, sets, start } = numbers;
    if !(1..=8).contains(&states) || !(1..=16).contains(&letters) || !(1..=4).contains(&sets) {
        return Err(2);
    }
    if start == 0 || start >> states != 0 {
        return Err(3);
    }
    Ok(())
}

/// The next cell byte: is it there (4), has it no bit from `limit` up (5)?
fn cell_byte(bytes: &mut std::slice::Iter<u8>, limit: usize) -> Result<u8, u8> {
    let byte = *bytes.next().ok_or(4)?;
    if u16::from(byte) >> limit != 0 {
        return Err(5);
    }
    Ok(byte)
}

/// One cell: the map, then a set byte for each standing bit.
fn cell(
    bytes: &mut std::slice::Iter<u8>,
    states: usize,
    sets: usize,
) -> Result<Vec<Option<u8>>, u8> {
    let map = cell_byte(bytes, states)?;
    let mut row = vec![None; states];
    for (next, place) in row.iter_mut().enumerate() {
        if map >> next & 1 == 1 {
            *place = Some(cell_byte(bytes, sets)?);
        }
    }
    Ok(row)
}

impl Rule {
    /// Reads a table. Questions 1 to 6.
    pub fn read(table: &[u8]) -> Result<Rule, u8> {
        if table.len() < 4 {
            return Err(1);
        }
        let (states, letters, sets) = (table[0] as usize, table[1] as usize, table[2] as usize);
        check_numbers(Numbers { states, letters, sets, start: table[3].into() })?;
        let mut bytes = table[4..].iter();
        let mut moves = Vec::new();
        for _ in 0..letters {
            let mut square = Vec::new();
            for _ in 0..states {
                square.push(cell(&mut bytes, states, sets)?);
            }
            moves.push(square);
        }
        if bytes.next().is_some() {
            return Err(6);
        }
        Ok(Rule { states, letters, sets, start: table[3], moves })
    }

    /// The rule of some numbers and a grid's bytes. Questions 2, 3 and 11.
    pub fn from_grid(numbers: Numbers, grid: &[u8]) -> Result<Rule, u8> {
        check_numbers(numbers)?;
        let Numbers { states, letters, sets, start } = numbers;
        let fits = |byte: &u8| *byte == NO_TRANSITION || *byte < 1 << sets;
        if grid.len() != letters * states * states || !grid.iter().all(fits) {
            return Err(11);
        }
        let mut moves = vec![vec![vec![None; states]; states]; letters];
        for (place, byte) in moves.iter_mut().flatten().flatten().zip(grid) {
            if *byte != NO_TRANSITION {
                *place = Some(*byte);
            }
        }
        Ok(Rule { states, letters, sets, start: start as u8, moves })
    }

    /// The grid's bytes.
    pub fn grid(&self) -> Vec<u8> {
        let places = self.moves.iter().flatten().flatten();
        places.map(|place| place.unwrap_or(NO_TRANSITION)).collect()
    }

    /// The table's bytes: the four numbers, then for each letter and state
    /// a cell, that is the map and a set byte for each standing bit.
    pub fn table(&self) -> Vec<u8> {
        let mut bytes = vec![self.states as u8, self.letters as u8, self.sets as u8, self.start];
        for row in self.moves.iter().flatten() {
            let mut map = 0;
            for (next, place) in row.iter().enumerate() {
                if place.is_some() {
                    map |= 1 << next;
                }
            }
            bytes.push(map);
            bytes.extend(row.iter().flatten());
        }
        bytes
    }

    /// The states reached from `from` by transitions that `wanted` takes.
    fn reached(&self, letter: u8, from: u8, wanted: impl Fn(u8) -> bool) -> u8 {
        let mut map = 0;
        for (state, row) in self.moves[letter as usize].iter().enumerate() {
            for (next, place) in row.iter().enumerate() {
                if from >> state & 1 == 1 && place.is_some_and(&wanted) {
                    map |= 1 << next;
                }
            }
        }
        map
    }

    /// The successors of a set of states under a letter.
    pub fn successors(&self, letter: u8, from: u8) -> u8 {
        self.reached(letter, from, |_| true)
    }

    /// The states reached by transitions of one set (1 to k).
    pub fn successors_by(&self, letter: u8, from: u8, set: u8) -> u8 {
        self.reached(letter, from, |sets| sets >> (set - 1) & 1 == 1)
    }
}
