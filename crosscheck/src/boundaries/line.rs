//! A case as a line of stored cases.

use crate::answers::Numbers;
use crate::cases::{Case, Walk, KINDS};
use crate::hex;
use crate::reference::Reference;

/// Bytes as the stored cases have them: `00*4096` is one byte so many times.
fn shown(bytes: &[u8]) -> String {
    match bytes {
        [first, ..] if bytes.len() >= 24 && bytes.iter().all(|byte| byte == first) => {
            format!("{first:02x}*{}", bytes.len())
        }
        _ => hex::show(bytes),
    }
}

/// The arguments before the lent buffer, tabs between them.
fn arguments(case: &Case) -> String {
    match case {
        Case::Read(table) | Case::Start(table) => shown(table),
        Case::Write(Numbers { states, letters, sets, start }, grid) => {
            format!("{states} {letters} {sets} {start}\t{}", shown(grid))
        }
        Case::Step(table, letter, record) => {
            format!("{}\t{letter}\t{}", shown(table), shown(record))
        }
        Case::Tree(Walk { table, u, v }) | Case::Plain(Walk { table, u, v }) => {
            format!("{}\t{}\t{}", shown(table), shown(u), shown(v))
        }
        Case::Same((u, v), (other_u, other_v)) => {
            [u, v, other_u, other_v].map(|part| shown(part)).join("\t")
        }
        Case::Successors(table, letter, states) => {
            format!("{}\t{letter}\t{states}", shown(table))
        }
    }
}

/// What a lent buffer holds before the call: different bytes in a short one.
fn filled(length: usize) -> Vec<u8> {
    let byte = |at: usize| if length < 24 { 160 + at as u8 } else { 165 };
    (0..length).map(byte).collect()
}

/// The line of a case, with the reference's answer, which has this number.
pub fn line(what: &str, number: u8, case: &Case, lent: usize) -> String {
    let before = filled(lent);
    let mut after = before.clone();
    let answer = case.answered_by(&Reference, &mut after);
    assert_eq!(answer.number(), number, "{what}");
    let numbers = answer.numbers().iter().map(u64::to_string).collect::<Vec<_>>().join(" ");
    let (kind, arguments) = (KINDS[case.kind()], arguments(case));
    format!("{kind}\t{arguments}\t{}\t{numbers}\t{}", shown(&before), shown(&after))
}
