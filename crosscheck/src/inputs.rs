//! Random inputs: rules, tables, walks and records, good ones and damaged.

use crate::answers::{Calls, Numbers};
use crate::random::Random;
use crate::reference::{Reference, Rule, LONGEST, NO_TRANSITION, RECORD_LENGTH};

/// A rule's numbers and its grid.
pub type Gridded = (Numbers, Vec<u8>);

/// Small and large numbers alike, the limits often.
fn size(random: &mut Random, largest: usize) -> usize {
    if random.once_in(4) {
        largest
    } else {
        random.between(1, largest)
    }
}

/// Random numbers in range, and a starting map.
pub fn numbers(random: &mut Random) -> Numbers {
    let states = size(random, 8);
    let start = random.between(1, (1 << states) - 1) as u16;
    Numbers { states, letters: size(random, 16), sets: size(random, 4), start }
}

/// A grid for these numbers: any number of next states, or mostly one.
pub fn grid(random: &mut Random, numbers: Numbers) -> Vec<u8> {
    let Numbers { states, letters, sets, .. } = numbers;
    let many = random.pick(&[40, 120, 250, 500, 900, 1000]);
    let in_set = random.pick(&[0, 60, 200, 500, 900]);
    let single = random.once_in(3);
    let mut grid = vec![NO_TRANSITION; letters * states * states];
    for row in grid.chunks_mut(states) {
        let only = random.below(states);
        for (next, place) in row.iter_mut().enumerate() {
            let stands = if single { next == only } else { random.below(1000) < many };
            if stands || random.once_in(60) {
                let sets = (0..sets).filter(|_| random.below(1000) < in_set);
                *place = sets.map(|set| 1 << set).sum();
            }
        }
    }
    grid
}

/// A random rule as numbers and grid.
pub fn gridded(random: &mut Random) -> Gridded {
    let numbers = numbers(random);
    let grid = grid(random, numbers);
    (numbers, grid)
}

/// The table of a rule.
pub fn table_of((numbers, grid): &Gridded) -> Vec<u8> {
    Rule::from_grid(*numbers, grid).expect("a good grid").table()
}

/// A good table.
pub fn table(random: &mut Random) -> Vec<u8> {
    let gridded = gridded(random);
    table_of(&gridded)
}

/// A good table under which the root never accepts: state 0 starts and can
/// always stay, outside all sets, and no other state leads to it. So no child
/// ever has it. Under other tables a yes seldom has a node below the root.
pub fn waiting_table(random: &mut Random) -> Vec<u8> {
    let (mut numbers, mut grid) = gridded(random);
    numbers.start |= 1;
    for letter in grid.chunks_mut(numbers.states * numbers.states) {
        for to_zero in letter.iter_mut().step_by(numbers.states) {
            *to_zero = NO_TRANSITION;
        }
        letter[0] = 0;
    }
    table_of(&(numbers, grid))
}

/// A good table; one in three such that the root never accepts.
pub fn mixed_table(random: &mut Random) -> Vec<u8> {
    if random.once_in(3) {
        waiting_table(random)
    } else {
        table(random)
    }
}

/// Changes, cuts or extends.
pub fn damage(random: &mut Random, bytes: &mut Vec<u8>) {
    let place = random.below(bytes.len().max(1));
    match random.below(6) {
        0 if !bytes.is_empty() => bytes[place] = random.byte(),
        1 if !bytes.is_empty() => bytes[place] ^= 1 << random.below(8),
        2 if !bytes.is_empty() => {
            let head = random.below(bytes.len().min(4));
            bytes[head] = random.pick(&[0, 1, 4, 5, 8, 9, 16, 17, 128, 255]);
        }
        3 => bytes.truncate(place),
        4 => {
            bytes.pop();
        }
        _ => {
            for _ in 0..random.between(1, 3) {
                bytes.push(random.byte());
            }
        }
    }
}

/// A table, now and then a damaged one.
pub fn any_table(random: &mut Random, damaged_in: usize) -> Vec<u8> {
    let mut table = table(random);
    if random.once_in(damaged_in) {
        damage(random, &mut table);
    }
    if random.once_in(20 * damaged_in) {
        let length = random.below(12);
        table = random.bytes(length);
    }
    table
}

/// How long walks may be.
#[derive(Clone, Copy, PartialEq)]
pub enum Reach {
    Short,
    Middle,
    Limit,
}

/// Mostly short; one in so many is at the limit.
pub fn reach(random: &mut Random, limit_in: usize) -> Reach {
    match random.below(limit_in) {
        0 => Reach::Limit,
        place if place % 5 == 1 => Reach::Middle,
        _ => Reach::Short,
    }
}

/// A length of a lead-in or tail.
fn length(random: &mut Random, reach: Reach) -> usize {
    match reach {
        Reach::Short => random.below(9),
        Reach::Middle => random.below(65),
        Reach::Limit => {
            let any = random.between(1, LONGEST);
            random.pick(&[LONGEST, LONGEST, LONGEST - 1, any])
        }
    }
}

/// Letters below m: any, few of them, or all the same.
pub fn letters(random: &mut Random, length: usize, limit: usize) -> Vec<u8> {
    let (first, spread) = match random.below(4) {
        0 => (random.below(limit), 1),
        1 => (0, limit.min(2)),
        _ => (0, limit),
    };
    (0..length).map(|_| (first + random.below(spread)) as u8).collect()
}

/// A good walk for tables with so many letters.
pub fn walk(random: &mut Random, reach: Reach, limit: usize) -> (Vec<u8>, Vec<u8>) {
    let (lead, tail) = (length(random, reach), length(random, reach).max(1));
    (letters(random, lead, limit), letters(random, tail, limit))
}

/// Spoils a walk: a letter too large, or a length not allowed.
pub fn spoil_walk(random: &mut Random, walk: &mut (Vec<u8>, Vec<u8>), limit: usize) {
    let part = if random.once_in(2) { &mut walk.0 } else { &mut walk.1 };
    match random.below(4) {
        0 => walk.1.clear(),
        1 => part.resize(LONGEST + random.between(1, 2), 0),
        _ if part.is_empty() => part.push(limit as u8),
        _ => {
            let any = random.below(part.len());
            let place = random.pick(&[0, part.len() - 1, any]);
            part[place] = random.pick(&[limit as u8, 16, 255]).max(limit as u8);
        }
    }
}

/// The record of some tree over n and k, made straight from a random list of
/// hosts and depths.
fn made_record(random: &mut Random, states: usize, sets: usize) -> Vec<u8> {
    let map = random.below(1 << states) as u8;
    let count = map.count_ones() as usize;
    if count == 0 {
        return vec![0];
    }
    let nodes = random.between(1, count);
    // Every node hosts one state, the others go anywhere.
    let mut hosts: Vec<u8> = (0..nodes).map(|node| node as u8).collect();
    hosts.resize_with(count, || random.below(nodes) as u8);
    random.shuffle(&mut hosts);
    let mut record = vec![map];
    record.extend(hosts);
    let mut depth = 0;
    for node in 0..nodes {
        depth = if node == 0 { 0 } else { random.between(1, depth + 1) };
        record.push((16 * depth + random.between(1, sets)) as u8);
    }
    record
}

/// The record that some letters lead to from the starting tree.
fn reached_record(random: &mut Random, table: &[u8], limit: usize) -> Vec<u8> {
    let mut buffer = [0; RECORD_LENGTH];
    let started = Reference.start(table, &mut buffer);
    let mut record = buffer[..started.written].to_vec();
    for _ in 0..random.below(24) {
        let letter = random.below(limit) as u8;
        let stepped = Reference.step(table, letter, &record, &mut buffer);
        record = buffer[..stepped.written].to_vec();
    }
    record
}

/// A record for a good table: reached, made, damaged or any bytes.
pub fn record(random: &mut Random, table: &[u8]) -> Vec<u8> {
    let [states, limit, sets] = [0, 1, 2].map(|place: usize| table[place] as usize);
    let mut record = match random.below(16) {
        0..=7 => reached_record(random, table, limit),
        8..=14 => made_record(random, states, sets),
        _ => {
            let length = random.below(20);
            (0..length).map(|_| random.pick(&[0, 1, 2, 3, 7, 17, 18, 33, 255])).collect()
        }
    };
    if random.once_in(5) {
        damage(random, &mut record);
    }
    record
}
