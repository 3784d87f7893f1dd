//! One call with its inputs, and what comes of it.

use crate::answers::{
    Calls, Judges, Numbers, PlainAnswer, ReadAnswer, SameAnswer, StartAnswer, StepAnswer,
    SuccessorsAnswer, TreeAnswer, WriteAnswer,
};
use crate::hex;
use crate::reference::{NAME_LENGTH, RECORD_LENGTH, SCRATCH_LENGTH};

/// A walk under a table.
#[derive(Clone)]
pub struct Walk {
    pub table: Vec<u8>,
    pub u: Vec<u8>,
    pub v: Vec<u8>,
}

/// A walk under no table: its lead-in and its tail.
pub type Spelling = (Vec<u8>, Vec<u8>);

/// The lead-in and the tail, as text.
pub fn shown_spelling((u, v): &Spelling) -> String {
    format!("{} {}", hex::show(u), hex::show(v))
}

/// A call and its inputs, the lent buffer left out.
#[derive(Clone)]
pub enum Case {
    Read(Vec<u8>),
    Write(Numbers, Vec<u8>),
    Start(Vec<u8>),
    Step(Vec<u8>, u8, Vec<u8>),
    Tree(Walk),
    Plain(Walk),
    Same(Spelling, Spelling),
    /// A table, a letter and a set of states.
    Successors(Vec<u8>, u8, u16),
}

/// The calls' names, in the order of `Case::kind`.
pub const KINDS: [&str; 8] =
    ["read", "write", "start", "step", "tree", "plain", "same", "successors"];

#[derive(Debug, PartialEq)]
pub enum Answer {
    Read(ReadAnswer),
    Write(WriteAnswer),
    Start(StartAnswer),
    Step(StepAnswer),
    Tree(TreeAnswer),
    Plain(PlainAnswer),
    Same(SameAnswer),
    Successors(SuccessorsAnswer),
}

impl Answer {
    pub fn number(&self) -> u8 {
        match self {
            Answer::Read(answer) => answer.number,
            Answer::Write(answer) => answer.number,
            Answer::Start(answer) => answer.number,
            Answer::Step(answer) => answer.number,
            Answer::Tree(answer) => answer.number,
            Answer::Plain(answer) => answer.number,
            Answer::Same(answer) => answer.number,
            Answer::Successors(answer) => answer.number,
        }
    }

    /// The numbers in the order the stored results have them.
    pub fn numbers(&self) -> Vec<u64> {
        match *self {
            Answer::Read(ReadAnswer { number, states, letters, sets, start }) => {
                vec![number.into(), states as u64, letters as u64, sets as u64, start.into()]
            }
            Answer::Write(WriteAnswer { number, written })
            | Answer::Start(StartAnswer { number, written }) => {
                vec![number.into(), written as u64]
            }
            Answer::Step(StepAnswer { number, written, accepting, stable }) => {
                vec![number.into(), written as u64, accepting.into(), stable.into()]
            }
            Answer::Tree(TreeAnswer { number, verdict, entry, period, length }) => {
                vec![number.into(), verdict.into(), entry, period, length.into()]
            }
            Answer::Plain(PlainAnswer { number, verdict }) => vec![number.into(), verdict.into()],
            Answer::Same(SameAnswer { number, same }) => vec![number.into(), same.into()],
            Answer::Successors(SuccessorsAnswer { number, next, reached }) => {
                let first = [number.into(), next.into()];
                first.into_iter().chain(reached.map(u64::from)).collect()
            }
        }
    }
}

impl Case {
    pub fn kind(&self) -> usize {
        match self {
            Case::Read(..) => 0,
            Case::Write(..) => 1,
            Case::Start(..) => 2,
            Case::Step(..) => 3,
            Case::Tree(..) => 4,
            Case::Plain(..) => 5,
            Case::Same(..) => 6,
            Case::Successors(..) => 7,
        }
    }

    /// The length the lent buffer needs (a guess for inputs not accepted).
    pub fn needed(&self) -> usize {
        match self {
            Case::Read(table) if table.len() >= 2 => {
                usize::from(table[0].min(8)).pow(2) * usize::from(table[1].min(16))
            }
            Case::Write(numbers, grid) => {
                let standing = grid.iter().filter(|byte| **byte != 255).count();
                4 + numbers.states.min(8) * numbers.letters.min(16) + standing
            }
            Case::Read(..) | Case::Start(..) | Case::Step(..) => RECORD_LENGTH,
            Case::Tree(..) => NAME_LENGTH,
            Case::Plain(..) => SCRATCH_LENGTH,
            Case::Same(..) | Case::Successors(..) => 0,
        }
    }

    /// The call, put to one of the judges. Only for walks.
    pub fn judged_by(&self, judges: &dyn Judges, lent: &mut [u8]) -> Answer {
        match self {
            Case::Tree(Walk { table, u, v }) => Answer::Tree(judges.tree_judge(table, u, v, lent)),
            Case::Plain(Walk { table, u, v }) => {
                Answer::Plain(judges.plain_judge(table, u, v, lent))
            }
            _ => unreachable!("only walks are judged"),
        }
    }

    /// The call. The comparison of walks and the look-up of successors are
    /// lent nothing.
    pub fn answered_by(&self, calls: &dyn Calls, lent: &mut [u8]) -> Answer {
        match self {
            Case::Read(table) => Answer::Read(calls.read(table, lent)),
            Case::Write(numbers, grid) => Answer::Write(calls.write(*numbers, grid, lent)),
            Case::Start(table) => Answer::Start(calls.start(table, lent)),
            Case::Step(table, letter, record) => {
                Answer::Step(calls.step(table, *letter, record, lent))
            }
            Case::Tree(Walk { table, u, v }) => Answer::Tree(calls.tree_judge(table, u, v, lent)),
            Case::Plain(Walk { table, u, v }) => {
                Answer::Plain(calls.plain_judge(table, u, v, lent))
            }
            Case::Same((u, v), (other_u, other_v)) => {
                Answer::Same(calls.same_walk(u, v, other_u, other_v))
            }
            Case::Successors(table, letter, states) => {
                Answer::Successors(calls.successors(table, *letter, *states))
            }
        }
    }

    /// The call and its inputs, as text.
    pub fn shown(&self) -> String {
        let name = KINDS[self.kind()];
        match self {
            Case::Read(table) | Case::Start(table) => format!("{name} {}", hex::show(table)),
            Case::Write(numbers, grid) => {
                let Numbers { states, letters, sets, start } = numbers;
                format!("{name} {states} {letters} {sets} {start} {}", hex::show(grid))
            }
            Case::Step(table, letter, record) => {
                format!("{name} {} {letter} {}", hex::show(table), hex::show(record))
            }
            Case::Tree(Walk { table, u, v }) | Case::Plain(Walk { table, u, v }) => {
                format!("{name} {} {} {}", hex::show(table), hex::show(u), hex::show(v))
            }
            Case::Same(one, other) => {
                format!("{name} {} {}", shown_spelling(one), shown_spelling(other))
            }
            Case::Successors(table, letter, states) => {
                format!("{name} {} {letter} {states}", hex::show(table))
            }
        }
    }
}
