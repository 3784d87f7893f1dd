//! The examples of document 01 that are not marked P.

use super::{table, with, Boundary, C};
use crate::cases::{Case, Walk};

/// What, the number, the table and the tail.
type Example = (&'static str, u8, Vec<u8>, Vec<u8>);

fn examples() -> Vec<Example> {
    vec![
        ("C, v empty", 7, C.to_vec(), vec![]),
        ("C, v of 4,097 letters", 7, C.to_vec(), vec![0; 4097]),
        ("C, v of 4,096 letters", 0, C.to_vec(), vec![0; 4096]),
        ("n = 9", 2, table(9, 1, 1, 1, &[0]), vec![0]),
        ("n = 8", 0, table(8, 1, 1, 1, &[0]), vec![0]),
        ("C with one byte more", 6, with(&C, &[0]), vec![0]),
        ("C with one byte less", 4, C[..4].to_vec(), vec![0]),
    ]
}

/// The calls of an example: both judges, and the reader where the example is
/// about the table alone (its tail has one letter).
fn calls(table: &[u8], v: &[u8]) -> Vec<Case> {
    let walk = Walk { table: table.to_vec(), u: vec![], v: v.to_vec() };
    let judged = vec![Case::Tree(walk.clone()), Case::Plain(walk)];
    if v.len() != 1 {
        return judged;
    }
    [vec![Case::Read(table.to_vec())], judged].concat()
}

/// Only the very same call stands at the boundary.
pub fn boundaries() -> Vec<Boundary> {
    let mut list = Vec::new();
    for (what, number, table, v) in examples() {
        for case in calls(&table, &v) {
            let told = case.shown();
            let what = format!("example: {what}");
            list.push(Boundary::of(&what, number, case, move |case| case.shown() == told));
        }
    }
    list
}
