//! The checked examples of document 01, and two spellings of a walk (U6 of
//! document 02), put to the reference.

use super::{first_difference, job, Reference, NAME_LENGTH, RECORD_LENGTH};
use crate::answers::{Calls, Judges, Numbers};

pub const A: [u8; 12] = [2, 2, 1, 1, 1, 0, 0, 3, 0, 0, 2, 1];
pub const B: [u8; 8] = [1, 2, 2, 1, 1, 1, 1, 2];
pub const C: [u8; 5] = [1, 1, 1, 1, 0];

/// One letter under A: the new record, accepting map, stable map.
fn step(letter: u8, record: &[u8]) -> (Vec<u8>, u16, u16) {
    let mut buffer = [9; RECORD_LENGTH];
    let answer = Reference.step(&A, letter, record, &mut buffer);
    assert_eq!(answer.number, 0);
    (buffer[..answer.written].to_vec(), answer.accepting, answer.stable)
}

/// Verdict, entry, period, and the node's name on yes.
fn judge(table: &[u8], v: &[u8]) -> (u8, u64, u64, Option<Vec<u8>>) {
    let mut names = [9; NAME_LENGTH];
    let answer = Reference.tree_judge(table, &[], v, &mut names);
    assert_eq!(answer.number, 0);
    let length = usize::from(answer.length);
    let name = (answer.verdict == 1).then(|| names[..length].to_vec());
    (answer.verdict, answer.entry, answer.period, name)
}

fn refusal(table: &[u8], u: &[u8], v: &[u8]) -> u8 {
    Reference.tree_judge(table, u, v, &mut [0; NAME_LENGTH]).number
}

/// Whether two walks are the same, in both orders.
fn same(one: [&[u8]; 2], other: [&[u8]; 2]) -> bool {
    let answers = [[one, other], [other, one]]
        .map(|[[u, v], [other_u, other_v]]| Reference.same_walk(u, v, other_u, other_v));
    assert_eq!(answers[0], answers[1]);
    assert_eq!(answers[0].number, 0);
    answers[0].same == 1
}

/// The number and the answer for two walks that are refused.
fn refused_pair(one: [&[u8]; 2], other: [&[u8]; 2]) -> (u8, u8) {
    let answer = Reference.same_walk(one[0], one[1], other[0], other[1]);
    (answer.number, answer.same)
}

/// The writer's number and length, and the whole buffer after the call.
fn write(numbers: [usize; 4], grid: &[u8], length: usize) -> (u8, usize, Vec<u8>) {
    let [states, letters, sets, start] = numbers;
    let mut buffer = vec![9; length];
    let numbers = Numbers { states, letters, sets, start: start as u16 };
    let answer = Reference.write(numbers, grid, &mut buffer);
    (answer.number, answer.written, buffer)
}

/// A refusal of the writer: its number, length 0, the buffer as it was.
fn unwritten(number: u8, length: usize) -> (u8, usize, Vec<u8>) {
    (number, 0, vec![9; length])
}

#[test]
fn steps_of_table_a() {
    let mut buffer = [9; RECORD_LENGTH];
    let started = Reference.start(&A, &mut buffer);
    assert_eq!(buffer[..started.written], [1, 0, 1]);
    assert_eq!(step(1, &[1, 0, 1]).0, [3, 0, 0, 1]);
    assert_eq!(step(1, &[3, 0, 0, 1]).0, [3, 0, 1, 1, 0x11]);
    assert_eq!(step(1, &[3, 0, 1, 1, 0x11]), (vec![3, 0, 1, 1, 0x11], 2, 3));
}

#[test]
fn verdicts() {
    assert_eq!(judge(&A, &[1]), (1, 2, 1, Some(vec![0])));
    assert_eq!(judge(&A, &[0]), (0, 0, 1, None));
    assert_eq!(judge(&A, &[0, 1]), (0, 1, 1, None));
    assert_eq!(judge(&B, &[0]), (0, 1, 1, None));
    let (verdict, entry, _, node) = judge(&B, &[0, 1]);
    assert_eq!((verdict, entry, node), (1, 0, Some(vec![])));
    let (verdict, entry, ..) = judge(&B, &[1]);
    assert_eq!((verdict, entry), (0, 0));
    let (verdict, entry, ..) = judge(&C, &[0]);
    assert_eq!((verdict, entry), (0, 1));
}

#[test]
fn refusals() {
    assert_eq!(refusal(&C, &[], &[]), 7);
    assert_eq!(refusal(&C, &[], &[0; 4097]), 7);
    assert_eq!(refusal(&C, &[0; 4097], &[0]), 7);
    assert_eq!(refusal(&C, &[0; 4096], &[0; 4096]), 0);
    assert_eq!(refusal(&[9, 1, 1, 1, 0, 0, 0, 0, 0, 0, 0, 0, 0], &[], &[0]), 2);
    assert_eq!(refusal(&[8, 1, 1, 1, 0, 0, 0, 0, 0, 0, 0, 0], &[], &[0]), 0);
    assert_eq!(refusal(&[1, 1, 1, 1, 0, 0], &[], &[0]), 6);
    assert_eq!(refusal(&[1, 1, 1, 1], &[], &[0]), 4);
    assert_eq!(refusal(&A, &[], &[2]), 8);
}

#[test]
fn a_whole_job() {
    let mut bytes = vec![12, 0];
    bytes.extend(A);
    bytes.extend([0, 0, 1, 0, 1]);
    assert_eq!(job(&bytes), "verdict yes\nentry 2\nperiod 1\nnode 0\nplain yes\n");
    assert_eq!(job(&bytes[1..]), "refused 12\n");
}

#[test]
fn tables_read_and_written_again() {
    let most = [vec![8, 16, 4, 255], [vec![255], vec![15; 8]].concat().repeat(128)].concat();
    assert_eq!(most.len(), 1_156);
    for table in [&A[..], &B, &C, &most] {
        let mut grid = [9; 1_024];
        let read = Reference.read(table, &mut grid);
        assert_eq!(read.number, 0);
        let numbers = [read.states, read.letters, read.sets, read.start.into()];
        let grid = &grid[..read.letters * read.states * read.states];
        let exact = (0, table.len(), table.to_vec());
        assert_eq!(write(numbers, grid, table.len()), exact);
        let longer = (0, table.len(), [table, &[9, 9, 9]].concat());
        assert_eq!(write(numbers, grid, table.len() + 3), longer);
        assert_eq!(write(numbers, grid, table.len() - 1), unwritten(10, table.len() - 1));
    }
}

#[test]
fn grids_written() {
    let a = [0, 255, 255, 255, 0, 0, 255, 1];
    // A's cells: 01 00, 00, 03 00 00, 02 01; its map of starting states is 01.
    assert_eq!(write([2, 2, 1, 1], &a, 13), (0, 12, [&A[..], &[9]].concat()));
    assert_eq!(write([2, 2, 1, 1], &[255; 8], 8), (0, 8, vec![2, 2, 1, 1, 0, 0, 0, 0]));
    // Cells of different length, set bytes lowest bit first.
    let grid = [255, 3, 2, 1, 255, 0, 255, 255, 255];
    let table = vec![3, 1, 2, 6, 6, 3, 2, 5, 1, 0, 0];
    assert_eq!(write([3, 1, 2, 6], &grid, 11), (0, 11, table));
}

#[test]
fn grids_refused() {
    let a = [0, 255, 255, 255, 0, 0, 255, 1];
    assert_eq!(write([2, 2, 1, 1], &a[1..], 12), unwritten(11, 12));
    assert_eq!(write([2, 2, 1, 1], &[&a[..], &[255]].concat(), 12), unwritten(11, 12));
    assert_eq!(write([2, 2, 1, 1], &[], 12), unwritten(11, 12));
    for (sets, limit) in [(1, 2), (2, 4), (3, 8), (4, 16)] {
        for byte in 0..=255 {
            let fits = byte < limit || byte == 255;
            let number = if fits { 0 } else { 11 };
            assert_eq!(write([1, 1, sets, 1], &[byte], 6).0, number);
        }
    }
    // The order: 2, 3, 11, 10, whatever else is wrong.
    for numbers in [[0, 1, 1, 0], [9, 1, 1, 0], [1, 0, 1, 0], [1, 17, 1, 0], [1, 1, 0, 0]] {
        assert_eq!(write(numbers, &[], 0), unwritten(2, 0));
    }
    assert_eq!(write([1, 1, 5, 1], &[0], 6), unwritten(2, 6));
    assert_eq!(write([257, 1, 1, 1], &[0], 6), unwritten(2, 6));
    assert_eq!(write([usize::MAX; 4], &[0], 6), unwritten(2, 6));
    assert_eq!(write([1, 1, 1, 0], &[], 0), unwritten(3, 0));
    assert_eq!(write([1, 1, 1, 2], &[0], 6), unwritten(3, 6));
    assert_eq!(write([8, 1, 1, 0x101], &[0; 64], 99), unwritten(3, 99));
    assert_eq!(write([1, 1, 1, 1], &[2], 0), unwritten(11, 0));
    assert_eq!(write([1, 1, 1, 1], &[1], 5), unwritten(10, 5));
}

#[test]
fn one_walk_spelled_anew() {
    let pair: [&[u8]; 2] = [&[], &[0, 1]];
    assert!(same(pair, pair));
    assert!(same(pair, [&[], &[0, 1, 0, 1]]));
    assert!(same(pair, [&[0], &[1, 0]]));
    assert!(same(pair, [&[0, 1], &[0, 1]]));
    assert!(same(pair, [&[0], &[1, 0, 1, 0, 1, 0]]));
    assert!(same([&[7, 0], &[1, 0]], [&[7], &[0, 1, 0, 1]]));
    assert!(same([&[], &[255; 2]], [&[255], &[255; 3]]));
    assert!(same([&[5; 4_096], &[5; 4_096]], [&[], &[5]]));
}

#[test]
fn different_walks() {
    // The first three letters agree, as many as can.
    assert!(!same([&[], &[0, 1]], [&[], &[0, 1, 0]]));
    assert_eq!(first_difference(&[], &[0, 1], &[], &[0, 1, 0]), Some(3));
    // Equal tails, other lead-ins.
    assert!(!same([&[], &[0, 1]], [&[0], &[0, 1]]));
    assert!(!same([&[0], &[0, 1]], [&[1], &[0, 1]]));
    assert!(!same([&[2], &[0]], [&[2, 2], &[0]]));
    // A tail turned with no letter moved.
    assert!(!same([&[], &[0, 1]], [&[], &[1, 0]]));
    // The same letters, parted elsewhere.
    assert!(!same([&[0], &[1, 0]], [&[0, 1], &[0]]));
}

#[test]
fn pairs_refused() {
    let letters = [0; 4_097];
    let [none, one, long] = [0, 1, 4_097].map(|length| &letters[..length]);
    let good = [none, one];
    for bad in [[none, none], [one, none], [long, one], [none, long], [long, none], [long, long]] {
        assert_eq!(refused_pair(bad, good), (7, 0));
        assert_eq!(refused_pair(good, bad), (7, 0));
        assert_eq!(refused_pair(bad, bad), (7, 0));
    }
    assert!(same([&long[1..], &long[1..]], [none, &long[1..]]));
}
