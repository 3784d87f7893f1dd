//! Questions 1 to 6, for the calls that take a table.

use super::{good, table, with, Boundary, A, C};
use crate::cases::{Case, Walk};

/// What, the number, a table, and the test of a table with that number.
type Tabled = (&'static str, u8, Vec<u8>, fn(&[u8]) -> bool);

/// A header in range but for the number at a place, which has this value.
fn header(table: &[u8], place: usize, value: u8) -> bool {
    let limits = [8, 16, 4];
    let fits = |at: usize| at == place || (1..=limits[at]).contains(&table[at]);
    table.len() >= 4 && (0..3).all(fits) && table[place] == value
}

/// Questions 1 to 3.
fn headers() -> Vec<Tabled> {
    vec![
        ("no byte", 1, vec![], |t| t.is_empty()),
        ("three bytes", 1, vec![1, 1, 1], |t| t.len() == 3),
        ("four bytes, no cell", 4, vec![1, 1, 1, 1], |t| t.len() == 4),
        ("n = 0", 2, table(0, 1, 1, 1, &[]), |t| header(t, 0, 0)),
        ("n = 1", 0, C.to_vec(), |t| t[0] == 1),
        ("n = 8", 0, table(8, 1, 1, 1, &[0]), |t| t[0] == 8),
        ("n = 9", 2, table(9, 1, 1, 1, &[0]), |t| header(t, 0, 9)),
        ("m = 0", 2, table(1, 0, 1, 1, &[]), |t| header(t, 1, 0)),
        ("m = 1", 0, C.to_vec(), |t| t[1] == 1),
        ("m = 16", 0, table(1, 16, 1, 1, &[1, 1]), |t| t[1] == 16),
        ("m = 17", 2, table(1, 17, 1, 1, &[1, 1]), |t| header(t, 1, 17)),
        ("k = 0", 2, table(1, 1, 0, 1, &[1, 0]), |t| header(t, 2, 0)),
        ("k = 1", 0, C.to_vec(), |t| t[2] == 1),
        ("k = 4", 0, table(1, 1, 4, 1, &[1, 15]), |t| t[2] == 4),
        ("k = 5", 2, table(1, 1, 5, 1, &[1, 15]), |t| header(t, 2, 5)),
        ("no starting state", 3, table(1, 1, 1, 0, &[0]), |t| t[3] == 0),
        ("starting bit n − 1", 0, table(2, 1, 1, 2, &[0]), |t| t[3] >> (t[0] - 1) == 1),
        ("starting bit n", 3, table(2, 1, 1, 4, &[0]), |t| t[0] < 8 && t[3] >> t[0] == 1),
        ("8 states, all starting", 0, table(8, 1, 1, 255, &[0]), |t| t[0] == 8 && t[3] == 255),
    ]
}

enum CellByte {
    Map,
    Set,
}

/// The first cell byte that question 5 refuses: what it is, its limit, and
/// the byte.
fn misfit(table: &[u8]) -> Option<(CellByte, u8, u8)> {
    let (n, k) = (table[0], table[2]);
    let mut set_bytes_left = 0;
    for byte in &table[4..] {
        let (what, limit) =
            if set_bytes_left == 0 { (CellByte::Map, n) } else { (CellByte::Set, k) };
        if u16::from(*byte) >> limit != 0 {
            return Some((what, limit, *byte));
        }
        set_bytes_left = if set_bytes_left == 0 { byte.count_ones() } else { set_bytes_left - 1 };
    }
    None
}

/// Is the first byte refused a map, for bit n alone of those from n up?
fn map_bit_n(table: &[u8]) -> bool {
    matches!(misfit(table), Some((CellByte::Map, n, byte)) if byte >> n == 1)
}

/// Is the first byte refused a set byte, for bit k alone of those from k up?
fn set_bit_k(table: &[u8]) -> bool {
    matches!(misfit(table), Some((CellByte::Set, k, byte)) if byte >> k == 1)
}

/// Would the table end too early, were its last byte an empty map or set?
fn short(table: &[u8]) -> bool {
    !good(&with(&table[..table.len() - 1], &[0]))
}

/// Questions 4 to 6.
fn cells() -> Vec<Tabled> {
    let full = with(&[255], &[15; 8]);
    let longest = table(8, 16, 4, 255, &full);
    vec![
        ("last cell's map missing", 4, C[..4].to_vec(), |t| {
            good(&with(t, &[0])) && !good(&with(t, &[1]))
        }),
        ("last set byte missing", 4, A[..11].to_vec(), |t| {
            good(&with(t, &[0])) && good(&with(t, &[1]))
        }),
        ("map bit n − 1", 0, table(2, 1, 1, 1, &[2, 0]), |t| {
            t[0] < 8 && t[4..].contains(&(1 << (t[0] - 1)))
        }),
        ("map bit n", 5, table(2, 1, 1, 1, &[4, 0]), map_bit_n),
        ("set bit k − 1", 0, table(1, 1, 3, 1, &[1, 4]), |t| t[5..].contains(&(1 << (t[2] - 1)))),
        ("set bit k", 5, table(1, 1, 3, 1, &[1, 8]), set_bit_k),
        ("map bit n, and later bytes missing", 5, vec![2, 2, 1, 1, 4], |t| {
            matches!(misfit(t), Some((CellByte::Map, ..))) && short(t)
        }),
        ("set bit k, and later bytes missing", 5, vec![2, 2, 1, 1, 1, 2], |t| {
            matches!(misfit(t), Some((CellByte::Set, ..))) && short(t)
        }),
        ("5 bytes, the shortest", 0, C.to_vec(), |t| t.len() == 5),
        ("one byte more", 6, with(&C, &[0]), |t| good(&t[..t.len() - 1])),
        ("1,156 bytes, the longest", 0, longest.clone(), |t| t.len() == 1156),
        ("one byte more than the longest", 6, with(&longest, &[0]), |t| {
            t.len() == 1157 && good(&t[..1156])
        }),
    ]
}

/// The calls that take a table, with all else as it should be.
fn calls(table: &[u8]) -> [Case; 6] {
    let walk = Walk { table: table.to_vec(), u: vec![], v: vec![0] };
    [
        Case::Read(table.to_vec()),
        Case::Start(table.to_vec()),
        Case::Step(table.to_vec(), 0, vec![1, 0, 1]),
        Case::Tree(walk.clone()),
        Case::Plain(walk),
        Case::Successors(table.to_vec(), 0, 255),
    ]
}

fn table_of(case: &Case) -> Option<&[u8]> {
    match case {
        Case::Read(table)
        | Case::Start(table)
        | Case::Step(table, ..)
        | Case::Successors(table, ..) => Some(table),
        Case::Tree(walk) | Case::Plain(walk) => Some(&walk.table),
        Case::Write(..) | Case::Same(..) => None,
    }
}

pub fn boundaries() -> Vec<Boundary> {
    let mut list = Vec::new();
    for (what, number, table, test) in headers().into_iter().chain(cells()) {
        for case in calls(&table) {
            let test = move |case: &Case| table_of(case).is_some_and(test);
            list.push(Boundary::of(what, number, case, test));
        }
    }
    list
}
