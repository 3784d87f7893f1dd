//! The stored results: the reference, the tuned judges and, when linked, the
//! library over each of them.

use crate::answers::{Calls, Judges, Numbers};
use crate::cases::{Case, Walk};
use crate::ffi;
use crate::hex;
use crate::job;
use crate::reference::{Reference, NAME_LENGTH};
use crate::tuned::Tuned;
use std::fs;
use std::path::Path;
use std::time::Instant;

/// Cases and differences of one file under one implementation.
#[derive(Default)]
struct Count {
    cases: usize,
    differences: usize,
}

impl Count {
    /// Counts a case; names it if it differs.
    fn add(&mut self, right: bool, line: usize, detail: impl Fn() -> String) {
        self.cases += 1;
        if !right {
            self.differences += 1;
            println!("difference in line {}: {}", line + 1, detail());
        }
    }
}

/// A hard job: the job, its entry and period, and whether it is slow.
pub struct Hard {
    pub job: Vec<u8>,
    pub entry: u64,
    pub period: u64,
    pub slow: bool,
}

/// The number behind `name=` in a line.
fn field(line: &str, name: &str) -> Option<u64> {
    line.split_whitespace().find_map(|word| word.strip_prefix(name)?.parse().ok())
}

fn hard_job(line: &str) -> Option<Hard> {
    Some(Hard {
        job: hex::parse(line.split_whitespace().next()?)?,
        entry: field(line, "entry=")?,
        period: field(line, "period=")?,
        slow: field(line, "slow=") == Some(1),
    })
}

/// The jobs of hard.txt, each with its line's place.
pub fn hard_jobs(text: &str) -> Vec<(usize, Hard)> {
    let job = |line| hard_job(line).expect("a job with entry= and period=");
    content(text).map(|(place, line)| (place, job(line))).collect()
}

/// The lines that are not notes, with their places.
fn content(text: &str) -> impl Iterator<Item = (usize, &str)> {
    text.lines().enumerate().filter(|(_, line)| !line.starts_with('#') && !line.trim().is_empty())
}

/// jobs.txt and shortcuts.txt: a job and its whole output. The library has
/// no part in question 12, so with `library` such jobs are left out.
fn check_jobs(text: &str, judges: &dyn Judges, library: bool) -> Count {
    let mut count = Count::default();
    for (place, line) in content(text) {
        let (job, output) = line.split_once('\t').expect("a job, a tab, an output");
        let job = hex::parse(job).expect("a job in hexadecimal");
        if library && job::parts(&job).is_none() {
            continue;
        }
        let found = job::output(judges, &job).replace('\n', "\\n");
        count.add(found == output, place, || format!("{found} for {output}"));
    }
    count
}

/// hard.txt: entry and period.
fn check_hard(text: &str, judges: &dyn Judges, slow: bool) -> Count {
    let mut count = Count::default();
    for (place, hard) in hard_jobs(text) {
        if hard.slow && !slow {
            continue;
        }
        let job::Parts { table, u, v } = job::parts(&hard.job).expect("a whole job");
        let answer = judges.tree_judge(table, u, v, &mut [0; NAME_LENGTH]);
        let right = (answer.number, answer.entry, answer.period) == (0, hard.entry, hard.period);
        count.add(right, place, || format!("{answer:?}"));
    }
    count
}

/// A line of stored calls: the call, the lent buffer, the answer's numbers and
/// the buffer after the call.
type Call = (Case, Vec<u8>, Vec<u64>, Vec<u8>);

fn numbers(text: &str) -> Option<Vec<u64>> {
    text.split(' ').map(|word| word.parse().ok()).collect()
}

fn call(line: &str) -> Option<Call> {
    let fields: Vec<&str> = line.split('\t').collect();
    let [name, arguments @ .., buffer, answer, after] = fields.as_slice() else { return None };
    let case = match (*name, arguments) {
        ("read", [table]) => Case::Read(hex::parse(table)?),
        ("start", [table]) => Case::Start(hex::parse(table)?),
        ("write", [header, grid]) => {
            let [n, m, k, start] = numbers(header)?.try_into().ok()?;
            let [states, letters, sets] = [n, m, k].map(|number| number as usize);
            let numbers = Numbers { states, letters, sets, start: start.try_into().ok()? };
            Case::Write(numbers, hex::parse(grid)?)
        }
        ("step", [table, letter, record]) => {
            Case::Step(hex::parse(table)?, letter.parse().ok()?, hex::parse(record)?)
        }
        ("tree" | "plain", [table, u, v]) => {
            let walk = Walk { table: hex::parse(table)?, u: hex::parse(u)?, v: hex::parse(v)? };
            if *name == "tree" {
                Case::Tree(walk)
            } else {
                Case::Plain(walk)
            }
        }
        ("same", [u, v, other_u, other_v]) => Case::Same(
            (hex::parse(u)?, hex::parse(v)?),
            (hex::parse(other_u)?, hex::parse(other_v)?),
        ),
        ("successors", [table, letter, states]) => {
            Case::Successors(hex::parse(table)?, letter.parse().ok()?, states.parse().ok()?)
        }
        _ => return None,
    };
    Some((case, hex::parse(buffer)?, numbers(answer)?, hex::parse(after)?))
}

/// The stored calls of a text, each with its lent buffer's length and its number.
pub fn calls(text: &str) -> Vec<(Case, usize, u8)> {
    let call = |line| call(line).expect("a call");
    let calls = content(text).map(|(_, line)| call(line));
    calls.map(|(case, buffer, answer, _)| (case, buffer.len(), answer[0] as u8)).collect()
}

/// Stored calls: the answer and the lent buffer.
fn check_calls(text: &str, calls: &dyn Calls) -> Count {
    let mut count = Count::default();
    for (place, line) in content(text) {
        let (case, mut buffer, answer, after) = call(line).expect("a call");
        let found = case.answered_by(calls, &mut buffer);
        let right = found.numbers() == answer && buffer == after;
        count.add(right, place, || format!("{found:?}, buffer {}", hex::show(&buffer)));
    }
    count
}

/// Runs one check, prints its line and adds its differences.
fn report(file: &str, name: &str, differences: &mut usize, check: impl FnOnce() -> Count) {
    let begun = Instant::now();
    let count = check();
    let seconds = begun.elapsed().as_secs_f64();
    println!(
        "{file:14} {name:10} {:5} cases {:3} differences  {seconds:6.2} s",
        count.cases, count.differences
    );
    *differences += count.differences;
}

/// All files of a folder; the slow jobs of hard.txt only when asked.
pub fn vectors(folder: &str, slow: bool) -> bool {
    let read = |name: &str| {
        let path = Path::new(folder).join(name);
        fs::read_to_string(&path).unwrap_or_else(|error| panic!("{}: {error}", path.display()))
    };
    let mut differences = 0;
    let sum = &mut differences;
    let library = ffi::library();
    for file in ["jobs.txt", "shortcuts.txt"] {
        let text = read(file);
        report(file, "reference", sum, || check_jobs(&text, &Reference, false));
        report(file, "tuned", sum, || check_jobs(&text, &Tuned, false));
        if let Some(library) = library {
            report(file, "library", sum, || check_jobs(&text, library, true));
        }
    }
    for file in ["calls.txt", "boundaries.txt", "u2-calls.txt", "u7-calls.txt"] {
        let text = read(file);
        report(file, "reference", sum, || check_calls(&text, &Reference));
        if let Some(library) = library {
            report(file, "library", sum, || check_calls(&text, library));
        }
    }
    let text = read("hard.txt");
    report("hard.txt", "reference", sum, || check_hard(&text, &Reference, slow));
    report("hard.txt", "tuned", sum, || check_hard(&text, &Tuned, slow));
    if let Some(library) = library {
        report("hard.txt", "library", sum, || check_hard(&text, library, slow));
    }
    println!("{differences} differences");
    differences == 0
}
