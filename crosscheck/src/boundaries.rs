//! Boundary cases: for each call and each question that applies to it, the
//! last accepted and the first refused input; walks that are just the same, or
//! just not; and sets of states, up to all and beyond. The answers are the
//! reference's. A case at a boundary that the stored calls already have is left
//! out.

mod buffers;
mod examples;
mod grids;
mod line;
mod records;
mod spellings;
mod successors;
mod tables;
mod walks;

use crate::cases::{Case, KINDS};
use crate::reference::Rule;
use crate::vectors;
use std::fs;

const NOTE: &str = "\
# Made by `crosscheck boundaries calls.txt` from the reference, written from the documents alone: boundaries that calls.txt has are left out.
# The format is that of calls.txt, and: plain TABLE U V BUFFER, number verdict. 00*4096 is one byte so many times.
";

/// The format of the lines of the comparison of walks, before the first.
const SAME_NOTE: &str = "# Then: same U V U2 V2 BUFFER, number same.";

/// The same, of the look-up of successors.
const SUCCESSORS_NOTE: &str =
    "# Then: successors TABLE LETTER STATES BUFFER, number next set1 set2 set3 set4.";

/// Tables A and C of document 01.
const A: [u8; 12] = [2, 2, 1, 1, 1, 0, 0, 3, 0, 0, 2, 1];
const C: [u8; 5] = [1, 1, 1, 1, 0];

/// Whether a case of the same call and number stands at the boundary, by its
/// inputs and its lent buffer's length.
type Test = Box<dyn Fn(&Case, usize) -> bool>;

/// A case at a boundary, and a test that tells other cases at the same one.
struct Boundary {
    what: String,
    number: u8,
    case: Case,
    lent: usize,
    test: Test,
}

impl Boundary {
    /// A call that is lent as many bytes as it needs; the test looks at the
    /// call's inputs alone.
    fn of(what: &str, number: u8, case: Case, test: impl Fn(&Case) -> bool + 'static) -> Boundary {
        let lent = case.needed();
        let test = Box::new(move |case: &Case, _| test(case));
        Boundary { what: what.to_string(), number, case, lent, test }
    }

    /// Does a call with its lent buffer's length and its number stand at the
    /// boundary?
    fn has(&self, case: &Case, lent: usize, number: u8) -> bool {
        let same = number == self.number && case.kind() == self.case.kind();
        same && (self.test)(case, lent)
    }
}

fn good(table: &[u8]) -> bool {
    Rule::read(table).is_ok()
}

/// Bytes with more behind them.
fn with(bytes: &[u8], more: &[u8]) -> Vec<u8> {
    [bytes, more].concat()
}

/// A table from its four numbers, each cell with these bytes.
fn table(n: u8, m: u8, k: u8, start: u8, cell: &[u8]) -> Vec<u8> {
    with(&[n, m, k, start], &cell.repeat(usize::from(n) * usize::from(m)))
}

/// Every boundary: the examples, then question by question.
fn all() -> Vec<Boundary> {
    let mut boundaries = examples::boundaries();
    boundaries.extend(tables::boundaries());
    boundaries.extend(walks::boundaries());
    boundaries.extend(records::boundaries());
    boundaries.extend(grids::boundaries());
    boundaries.extend(buffers::boundaries());
    boundaries.extend(spellings::boundaries());
    boundaries.extend(successors::boundaries());
    boundaries
}

/// The boundaries that the stored calls do not have, each with what it is
/// about; one line for equal ones.
fn missing(boundaries: &[&Boundary], stored: &[(Case, usize, u8)]) -> Vec<(String, String)> {
    let mut lines: Vec<(String, String)> = Vec::new();
    for boundary in boundaries {
        let Boundary { what, number, case, lent, .. } = boundary;
        assert!(boundary.has(case, *lent, *number), "{what}");
        if stored.iter().any(|(case, lent, number)| boundary.has(case, *lent, *number)) {
            continue;
        }
        let line = line::line(what, *number, case, *lent);
        match lines.iter_mut().find(|(_, other)| *other == line) {
            Some((whats, _)) => whats.push_str(&format!("; {what}")),
            None => lines.push((what.clone(), line)),
        }
    }
    lines
}

/// Prints the boundary cases that the stored calls of a file do not have.
pub fn boundaries(path: &str) -> bool {
    let text = fs::read_to_string(path).unwrap_or_else(|error| panic!("{path}: {error}"));
    let stored = vectors::calls(&text);
    let all = all();
    print!("{NOTE}");
    for (kind, name) in KINDS.iter().enumerate() {
        let of_call: Vec<_> = all.iter().filter(|boundary| boundary.case.kind() == kind).collect();
        let lines = missing(&of_call, &stored);
        match *name {
            "same" => println!("{SAME_NOTE}"),
            "successors" => println!("{SUCCESSORS_NOTE}"),
            _ => {}
        }
        for (what, line) in &lines {
            println!("# {name}: {what}\n{line}");
        }
        eprintln!("{name:10}{:3} boundaries looked at, {:3} lines", of_call.len(), lines.len());
    }
    true
}
