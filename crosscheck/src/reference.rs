//! The reference: document 01, with the requests of document 02 that have
//! landed, set down as plainly as it can be, with no care for speed. Each
//! call puts its questions in the document's order; `Err` carries the number
//! of the one that was answered no, before any lent byte is touched.

#[cfg(test)]
mod examples;
mod judges;
mod spelling;
mod successors;
mod table;
pub mod tree;

use crate::answers::{
    Calls, Judges, Numbers, PlainAnswer, ReadAnswer, SameAnswer, StartAnswer, StepAnswer,
    SuccessorsAnswer, TreeAnswer, WriteAnswer,
};
pub use spelling::first_difference;
pub use table::{Rule, NO_TRANSITION};

/// Lengths of lent buffers, as the C header has them.
pub const RECORD_LENGTH: usize = number(env!("SUTHRELDO_RECORD"));
pub const NAME_LENGTH: usize = number(env!("SUTHRELDO_NAME"));
pub const SCRATCH_LENGTH: usize = number(env!("SUTHRELDO_SCRATCH"));

/// The longest lead-in or tail.
pub const LONGEST: usize = 4_096;

/// A number in decimal.
const fn number(text: &str) -> usize {
    match usize::from_str_radix(text, 10) {
        Ok(number) => number,
        Err(_) => panic!("no number"),
    }
}

/// Puts an output at the front of a lent buffer that needs a certain length
/// (question 10); what stands behind it stays.
fn put(buffer: &mut [u8], needed: usize, output: &[u8]) -> Result<(), u8> {
    if buffer.len() < needed {
        return Err(10);
    }
    buffer[..output.len()].copy_from_slice(output);
    Ok(())
}

/// Question 7 for a walk.
fn check_lengths(u: &[u8], v: &[u8]) -> Result<(), u8> {
    if u.len() > LONGEST || v.is_empty() || v.len() > LONGEST {
        return Err(7);
    }
    Ok(())
}

/// Question 8 for a letter.
fn check_letter(rule: &Rule, letter: u8) -> Result<(), u8> {
    if usize::from(letter) >= rule.letters {
        return Err(8);
    }
    Ok(())
}

/// Questions 7 and 8 for a walk.
fn check_walk(rule: &Rule, u: &[u8], v: &[u8]) -> Result<(), u8> {
    check_lengths(u, v)?;
    u.iter().chain(v).try_for_each(|letter| check_letter(rule, *letter))
}

fn read(table: &[u8], grid: &mut [u8]) -> Result<ReadAnswer, u8> {
    let rule = Rule::read(table)?;
    let bytes = rule.grid();
    put(grid, bytes.len(), &bytes)?;
    let Rule { states, letters, sets, start, .. } = rule;
    Ok(ReadAnswer { number: 0, states, letters, sets, start: start.into() })
}

fn write(numbers: Numbers, grid: &[u8], table: &mut [u8]) -> Result<WriteAnswer, u8> {
    let rule = Rule::from_grid(numbers, grid)?;
    let bytes = rule.table();
    put(table, bytes.len(), &bytes)?;
    Ok(WriteAnswer { number: 0, written: bytes.len() })
}

fn start(table: &[u8], buffer: &mut [u8]) -> Result<StartAnswer, u8> {
    let rule = Rule::read(table)?;
    let bytes = tree::record(&tree::starting_tree(&rule));
    put(buffer, RECORD_LENGTH, &bytes)?;
    Ok(StartAnswer { number: 0, written: bytes.len() })
}

/// The map of those names, a bit by old node number.
fn map_of(old: &[tree::Name], these: &[tree::Name]) -> u16 {
    let numbers = (0..old.len()).filter(|number| these.contains(&old[*number]));
    numbers.map(|number| 1 << number).sum()
}

fn step(table: &[u8], letter: u8, bytes: &[u8], buffer: &mut [u8]) -> Result<StepAnswer, u8> {
    let rule = Rule::read(table)?;
    check_letter(&rule, letter)?;
    let old = tree::from_record(bytes, &rule).ok_or(9)?;
    let stepped = tree::step(&old, &rule, letter);
    let record = tree::record(&stepped.tree);
    put(buffer, RECORD_LENGTH, &record)?;
    let names = tree::names(&old);
    Ok(StepAnswer {
        number: 0,
        written: record.len(),
        accepting: map_of(&names, &stepped.accepting),
        stable: map_of(&names, &stepped.stable),
    })
}

fn tree_judge(table: &[u8], u: &[u8], v: &[u8], names: &mut [u8]) -> Result<TreeAnswer, u8> {
    let rule = Rule::read(table)?;
    check_walk(&rule, u, v)?;
    put(names, NAME_LENGTH, &[])?;
    let found = judges::judge_by_trees(&rule, u, v);
    let mut answer = TreeAnswer {
        number: 0,
        verdict: 0,
        length: 255,
        entry: found.entry as u64,
        period: found.period as u64,
    };
    if let Some(name) = found.node {
        put(names, NAME_LENGTH, &name)?;
        answer.verdict = 1;
        answer.length = name.len() as u8;
    }
    Ok(answer)
}

fn plain_judge(table: &[u8], u: &[u8], v: &[u8], scratch: &mut [u8]) -> Result<PlainAnswer, u8> {
    let rule = Rule::read(table)?;
    check_walk(&rule, u, v)?;
    put(scratch, SCRATCH_LENGTH, &[0; SCRATCH_LENGTH])?;
    let verdict = judges::judge_plainly(&rule, u, v).into();
    Ok(PlainAnswer { number: 0, verdict })
}

fn same_walk(u: &[u8], v: &[u8], other_u: &[u8], other_v: &[u8]) -> Result<SameAnswer, u8> {
    check_lengths(u, v)?;
    check_lengths(other_u, other_v)?;
    let same = first_difference(u, v, other_u, other_v).is_none().into();
    Ok(SameAnswer { number: 0, same })
}

fn successors(table: &[u8], letter: u8, states: u16) -> Result<SuccessorsAnswer, u8> {
    let rule = Rule::read(table)?;
    check_letter(&rule, letter)?;
    let (next, reached) = successors::look_up(&rule, letter, states);
    Ok(SuccessorsAnswer { number: 0, next, reached })
}

/// The reference as an implementation of the calls.
pub struct Reference;

impl Judges for Reference {
    fn tree_judge(&self, table: &[u8], u: &[u8], v: &[u8], names: &mut [u8]) -> TreeAnswer {
        tree_judge(table, u, v, names).unwrap_or_else(TreeAnswer::refused)
    }

    fn plain_judge(&self, table: &[u8], u: &[u8], v: &[u8], scratch: &mut [u8]) -> PlainAnswer {
        plain_judge(table, u, v, scratch).unwrap_or_else(PlainAnswer::refused)
    }
}

impl Calls for Reference {
    fn read(&self, table: &[u8], grid: &mut [u8]) -> ReadAnswer {
        read(table, grid).unwrap_or_else(ReadAnswer::refused)
    }

    fn write(&self, numbers: Numbers, grid: &[u8], table: &mut [u8]) -> WriteAnswer {
        write(numbers, grid, table).unwrap_or_else(WriteAnswer::refused)
    }

    fn start(&self, table: &[u8], buffer: &mut [u8]) -> StartAnswer {
        start(table, buffer).unwrap_or_else(StartAnswer::refused)
    }

    fn step(&self, table: &[u8], letter: u8, record: &[u8], buffer: &mut [u8]) -> StepAnswer {
        step(table, letter, record, buffer).unwrap_or_else(StepAnswer::refused)
    }

    fn same_walk(&self, u: &[u8], v: &[u8], other_u: &[u8], other_v: &[u8]) -> SameAnswer {
        same_walk(u, v, other_u, other_v).unwrap_or_else(SameAnswer::refused)
    }

    fn successors(&self, table: &[u8], letter: u8, states: u16) -> SuccessorsAnswer {
        successors(table, letter, states).unwrap_or_else(SuccessorsAnswer::refused)
    }
}

/// The program's whole output for a job.
pub fn job(bytes: &[u8]) -> String {
    crate::job::output(&Reference, bytes)
}
