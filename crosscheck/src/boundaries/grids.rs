//! Questions 2, 3 and 11, for the writer.

use super::Boundary;
use crate::answers::Numbers;
use crate::cases::Case;

/// What, the number, n, m, k and the starting map, the grid, and the test of a
/// call of the writer with that number.
type Written = (&'static str, u8, [usize; 4], Vec<u8>, fn(&Numbers, &[u8]) -> bool);

/// Numbers in range but for the one at a place, which has this value.
fn header(numbers: &Numbers, place: usize, value: usize) -> bool {
    let given = [numbers.states, numbers.letters, numbers.sets];
    let limits = [8, 16, 4];
    let fits = |at: usize| at == place || (1..=limits[at]).contains(&given[at]);
    (0..3).all(fits) && given[place] == value
}

/// Questions 2 and 3.
fn headers() -> Vec<Written> {
    let none = |count: usize| vec![255; count];
    vec![
        ("n = 0", 2, [0, 1, 1, 1], none(0), |w, _| header(w, 0, 0)),
        ("n = 1", 0, [1, 1, 1, 1], none(1), |w, _| w.states == 1),
        ("n = 8", 0, [8, 1, 1, 1], none(64), |w, _| w.states == 8),
        ("n = 9", 2, [9, 1, 1, 1], none(81), |w, _| header(w, 0, 9)),
        ("n = 257", 2, [257, 1, 1, 1], none(1), |w, _| header(w, 0, 257)),
        ("m = 0", 2, [1, 0, 1, 1], none(0), |w, _| header(w, 1, 0)),
        ("m = 1", 0, [1, 1, 1, 1], none(1), |w, _| w.letters == 1),
        ("m = 16", 0, [1, 16, 1, 1], none(16), |w, _| w.letters == 16),
        ("m = 17", 2, [1, 17, 1, 1], none(17), |w, _| header(w, 1, 17)),
        ("m = 257", 2, [1, 257, 1, 1], none(1), |w, _| header(w, 1, 257)),
        ("k = 0", 2, [1, 1, 0, 1], none(1), |w, _| header(w, 2, 0)),
        ("k = 1", 0, [1, 1, 1, 1], none(1), |w, _| w.sets == 1),
        ("k = 4", 0, [1, 1, 4, 1], none(1), |w, _| w.sets == 4),
        ("k = 5", 2, [1, 1, 5, 1], none(1), |w, _| header(w, 2, 5)),
        ("k = 257", 2, [1, 1, 257, 1], none(1), |w, _| header(w, 2, 257)),
        ("no starting state", 3, [1, 1, 1, 0], none(1), |w, _| w.start == 0),
        ("starting bit n − 1", 0, [2, 1, 1, 2], none(4), |w, _| w.start >> (w.states - 1) == 1),
        ("starting bit n", 3, [2, 1, 1, 4], none(4), |w, _| w.start >> w.states == 1),
        ("8 states, all starting", 0, [8, 1, 1, 255], none(64), |w, _| w.start == 255),
        ("starting bit 8 of 8 states", 3, [8, 1, 1, 256], none(64), |w, _| w.start == 256),
        ("starting map 257", 3, [8, 1, 1, 257], none(64), |w, _| w.start == 257),
    ]
}

/// The number of bytes the grid must have.
fn size(numbers: &Numbers) -> usize {
    numbers.letters * numbers.states * numbers.states
}

/// The first byte that is neither 255 nor below 2^k, counted from 2^k.
fn above(numbers: &Numbers, grid: &[u8]) -> Option<u8> {
    let limit = 1 << numbers.sets;
    grid.iter().find(|byte| **byte != 255 && **byte >= limit).map(|byte| *byte - limit)
}

/// Question 11.
fn grids() -> Vec<Written> {
    vec![
        ("no grid byte", 11, [1, 1, 1, 1], vec![], |_, g| g.is_empty()),
        ("one grid byte missing", 11, [2, 1, 1, 1], vec![255; 3], |w, g| g.len() + 1 == size(w)),
        ("as many grid bytes as needed", 0, [2, 1, 1, 1], vec![0; 4], |_, g| !g.is_empty()),
        ("one grid byte more", 11, [2, 1, 1, 1], vec![255; 5], |w, g| g.len() == size(w) + 1),
        ("grid byte 2^k − 1", 0, [1, 1, 3, 1], vec![7], |w, g| g.contains(&((1 << w.sets) - 1))),
        ("grid byte 2^k", 11, [1, 1, 3, 1], vec![8], |w, g| above(w, g) == Some(0)),
        ("grid byte 254", 11, [1, 1, 4, 1], vec![254], |w, g| {
            above(w, g) == Some(254 - (1 << w.sets))
        }),
        ("grid byte 255", 0, [1, 1, 4, 1], vec![255], |_, g| g.contains(&255)),
        ("grid byte 2^k at the end", 11, [2, 2, 1, 1], vec![0, 0, 0, 0, 0, 0, 0, 2], |w, g| {
            g.len() == size(w) && above(w, &g[..g.len() - 1]).is_none() && above(w, g) == Some(0)
        }),
        ("the largest grid, all transitions", 0, [8, 16, 4, 255], vec![15; 1024], |_, g| {
            g.len() == 1024 && !g.contains(&255)
        }),
    ]
}

pub fn boundaries() -> Vec<Boundary> {
    let mut list = Vec::new();
    for (what, number, given, grid, test) in headers().into_iter().chain(grids()) {
        let [states, letters, sets, start] = given;
        let numbers = Numbers { states, letters, sets, start: start as u16 };
        let test = move |case: &Case| match case {
            Case::Write(numbers, grid) => test(numbers, grid),
            _ => false,
        };
        list.push(Boundary::of(what, number, Case::Write(numbers, grid), test));
    }
    list
}
