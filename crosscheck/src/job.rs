//! Jobs: three parts, each after its length; and the program's output.

use crate::answers::{Judges, TreeAnswer};
use crate::reference::{NAME_LENGTH, SCRATCH_LENGTH};

/// A job's table, lead-in and tail.
#[derive(Clone, Copy)]
pub struct Parts<'a> {
    pub table: &'a [u8],
    pub u: &'a [u8],
    pub v: &'a [u8],
}

/// Cuts one part off the front of the bytes.
fn part<'a>(bytes: &mut &'a [u8]) -> Option<&'a [u8]> {
    let (length, rest) = bytes.split_first_chunk::<2>()?;
    let (part, rest) = rest.split_at_checked(u16::from_le_bytes(*length).into())?;
    *bytes = rest;
    Some(part)
}

/// A job's parts, unless question 12 is answered no.
pub fn parts(job: &[u8]) -> Option<Parts<'_>> {
    let mut rest = job;
    let parts = Parts { table: part(&mut rest)?, u: part(&mut rest)?, v: part(&mut rest)? };
    (rest.is_empty() && (6..=9_354).contains(&job.len())).then_some(parts)
}

/// The node's line: numbers joined by dots, `-` for the root, `none` on no.
fn node(answer: &TreeAnswer, names: &[u8]) -> String {
    match answer.length {
        255 => "none".to_string(),
        0 => "-".to_string(),
        length => {
            let name = names.get(..length.into()).unwrap_or(&[]);
            let numbers = name.iter().map(u8::to_string);
            numbers.collect::<Vec<_>>().join(".")
        }
    }
}

/// The program's output, given the two judges.
pub fn output(judges: &dyn Judges, job: &[u8]) -> String {
    let Some(Parts { table, u, v }) = parts(job) else { return "refused 12\n".to_string() };
    let mut names = [0; NAME_LENGTH];
    let tree = judges.tree_judge(table, u, v, &mut names);
    if tree.number != 0 {
        return format!("refused {}\n", tree.number);
    }
    let plain = judges.plain_judge(table, u, v, &mut vec![0; SCRATCH_LENGTH]);
    if plain.number != 0 {
        return format!("refused {}\n", plain.number);
    }
    let word = |verdict| if verdict == 1 { "yes" } else { "no" };
    format!(
        "verdict {}\nentry {}\nperiod {}\nnode {}\nplain {}\n",
        word(tree.verdict),
        tree.entry,
        tree.period,
        node(&tree, &names),
        word(plain.verdict),
    )
}
