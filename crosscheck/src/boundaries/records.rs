//! Questions 8 and 9, for the step: its letter and its record.

use super::{table, with, Boundary};
use crate::cases::Case;

/// The number of letters of the tables here.
const M: u8 = 2;

/// What, the number, n, k, the letter and the record.
type Stepped = (&'static str, u8, u8, u8, u8, Vec<u8>);

fn letters() -> Vec<Stepped> {
    vec![
        ("letter m − 1", 0, 2, 1, 1, vec![1, 0, 1]),
        ("letter m", 8, 2, 1, 2, vec![1, 0, 1]),
        ("letter 255", 8, 2, 1, 255, vec![1, 0, 1]),
        ("letter m, and no record", 8, 2, 1, 2, vec![]),
    ]
}

/// The root's map, and how many bytes there are.
fn roots() -> Vec<Stepped> {
    vec![
        ("no byte", 9, 2, 1, 0, vec![]),
        ("the dead tree's record", 0, 2, 1, 0, vec![0]),
        ("the dead tree's record and a byte more", 9, 2, 1, 0, vec![0, 0]),
        ("the dead tree's record and a node", 9, 2, 1, 0, vec![0, 1]),
        ("root with state n − 1", 0, 2, 1, 0, vec![2, 0, 1]),
        ("root with state n", 9, 2, 1, 0, vec![4, 0, 1]),
        ("the root's map alone", 9, 2, 1, 0, vec![1]),
        ("no node", 9, 2, 1, 0, vec![1, 0]),
        ("a byte more", 9, 2, 1, 0, vec![1, 0, 1, 17]),
    ]
}

fn hosts() -> Vec<Stepped> {
    vec![
        ("a host missing", 9, 2, 1, 0, vec![3, 0, 1]),
        ("host that is no node", 9, 2, 1, 0, vec![1, 1, 1]),
        ("second host that is no node", 9, 2, 1, 0, vec![3, 0, 2, 1, 17]),
        ("two nodes", 0, 2, 1, 0, vec![3, 0, 1, 1, 17]),
        ("child first, then the root", 0, 2, 1, 0, vec![3, 1, 0, 1, 17]),
        ("a child that hosts no state", 9, 2, 1, 0, vec![3, 0, 0, 1, 17]),
        ("a root that hosts no state", 9, 2, 1, 0, vec![3, 1, 1, 1, 17]),
    ]
}

fn active_sets() -> Vec<Stepped> {
    vec![
        ("active set 0", 9, 1, 3, 0, vec![1, 0, 0]),
        ("active set k", 0, 1, 3, 0, vec![1, 0, 3]),
        ("active set k + 1", 9, 1, 3, 0, vec![1, 0, 4]),
        ("a child's active set 0", 9, 2, 3, 0, vec![3, 0, 1, 1, 16]),
        ("a child's active set k", 0, 2, 3, 0, vec![3, 0, 1, 1, 19]),
        ("a child's active set k + 1", 9, 2, 3, 0, vec![3, 0, 1, 1, 20]),
    ]
}

fn depths() -> Vec<Stepped> {
    vec![
        ("root of depth 1", 9, 1, 1, 0, vec![1, 0, 17]),
        ("two nodes of depth 0", 9, 2, 1, 0, vec![3, 0, 1, 1, 1]),
        ("depth 2 after depth 1", 0, 3, 1, 0, vec![7, 0, 1, 2, 1, 17, 33]),
        ("depth 2 after depth 0", 9, 2, 1, 0, vec![3, 0, 1, 1, 33]),
        ("depth 3 after depth 1", 9, 3, 1, 0, vec![7, 0, 1, 2, 1, 17, 49]),
        ("depth 1 after depth 2", 0, 4, 1, 0, vec![15, 0, 1, 2, 3, 1, 17, 33, 17]),
    ]
}

/// Records of eight nodes, and a byte less or more.
fn longest() -> Vec<Stepped> {
    let eight_hosts = [255, 0, 1, 2, 3, 4, 5, 6, 7];
    let deep = with(&eight_hosts, &[1, 17, 33, 49, 65, 81, 97, 113]);
    let flat = with(&eight_hosts, &[4, 20, 20, 20, 20, 20, 20, 20]);
    vec![
        ("17 bytes, depths to 7", 0, 8, 1, 0, deep.clone()),
        ("17 bytes, depths to 1", 0, 8, 4, 0, flat.clone()),
        ("one of 17 bytes missing", 9, 8, 1, 0, deep[..16].to_vec()),
        ("18 bytes", 9, 8, 1, 0, with(&deep, &[17])),
        ("18 bytes, a ninth node", 9, 8, 4, 0, with(&flat, &[20])),
    ]
}

/// Only the very same record over the same n and k stands at the boundary,
/// with a letter that lies as the boundary's does: below m, at m or above.
pub fn boundaries() -> Vec<Boundary> {
    let mut list = Vec::new();
    let all = [letters(), roots(), hosts(), active_sets(), depths(), longest()];
    for (what, number, n, k, letter, record) in all.into_iter().flatten() {
        let told = record.clone();
        let case = Case::Step(table(n, M, k, 1, &[1, 1]), letter, record);
        let test = move |case: &Case| match case {
            Case::Step(table, given, record) => {
                let same = (table[0], table[2]) == (n, k) && *record == told;
                same && given.cmp(&table[1]) == letter.cmp(&M)
            }
            _ => false,
        };
        list.push(Boundary::of(what, number, case, test));
    }
    list
}
