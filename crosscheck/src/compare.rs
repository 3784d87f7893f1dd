//! Call by call, the library (or the tuned code) against the reference, on
//! random inputs.

use crate::answers::{Judges, Numbers};
use crate::cases::{Answer, Case, Walk, KINDS};
use crate::checks::{self, NUMBERS};
use crate::ffi;
use crate::inputs;
use crate::lending::Lending;
use crate::pairs;
use crate::random::Random;
use crate::reference::Reference;
use crate::tuned::{OtherWays, Tuned};
use std::time::Instant;

/// How many cases of each call.
const CASES: [usize; KINDS.len()] =
    [40_000, 40_000, 20_000, 62_000, 24_000, 14_000, 30_000, 20_000];

/// How many walks of each judge when the tuned code is compared.
const TUNED_CASES: [usize; KINDS.len()] = [0, 0, 0, 0, 40_000, 20_000, 0, 0];

/// Of a walk's cases, one in so many is at the limit of length.
const LIMIT_IN: usize = 250;

fn write_case(random: &mut Random) -> Case {
    let (mut numbers, mut grid) = inputs::gridded(random);
    match random.below(12) {
        0 => inputs::damage(random, &mut grid),
        1 if !grid.is_empty() => {
            let place = random.below(grid.len());
            grid[place] = random.pick(&[1 << numbers.sets, 254, 128, 16]);
        }
        2 => spoil_numbers(random, &mut numbers),
        _ => {}
    }
    Case::Write(numbers, grid)
}

/// Numbers just or far out of range, or a bad starting map.
fn spoil_numbers(random: &mut Random, numbers: &mut Numbers) {
    let far = random.pick(&[0, 256, 257, 65_536, 1 << 32, usize::MAX, usize::MAX / 2 + 2]);
    match random.below(5) {
        0 => numbers.states = random.pick(&[0, 9, far]),
        1 => numbers.letters = random.pick(&[0, 17, far]),
        2 => numbers.sets = random.pick(&[0, 5, far]),
        3 => numbers.start |= 1 << random.between(numbers.states, 15),
        _ => numbers.start = random.pick(&[0, 1 << numbers.states, 256, 65_535]),
    }
}

fn step_case(random: &mut Random) -> Case {
    let mut table = inputs::table(random);
    let record = inputs::record(random, &table);
    let limit = table[1];
    let letter = match random.below(20) {
        0 => random.pick(&[limit, 16, 255]),
        _ => random.below(limit.into()) as u8,
    };
    if random.once_in(16) {
        inputs::damage(random, &mut table);
    }
    Case::Step(table, letter, record)
}

/// A walk under a table, now and then one of them bad.
fn random_walk(random: &mut Random) -> Walk {
    let mut table = inputs::table(random);
    let limit = table[1].into();
    let reach = inputs::reach(random, LIMIT_IN);
    let mut walk = inputs::walk(random, reach, limit);
    if random.once_in(10) {
        inputs::spoil_walk(random, &mut walk, limit);
    }
    if random.once_in(16) {
        inputs::damage(random, &mut table);
    }
    Walk { table, u: walk.0, v: walk.1 }
}

/// A set of states for tables with so many: any 16-bit number, states of the
/// table, one of them, states from n up only, none, or all 16 bits.
fn state_set(random: &mut Random, states: usize) -> u16 {
    let any = random.next() as u16;
    let beyond = any >> states << states;
    let within = any ^ beyond;
    let single = 1 << random.below(states);
    random.pick(&[any, any, any, within, within, single, beyond, 0, 65_535])
}

fn successors_case(random: &mut Random) -> Case {
    let mut table = inputs::table(random);
    let [count, limit] = [table[0], table[1]];
    let states = state_set(random, count.into());
    let letter = match random.below(16) {
        0 => random.between(limit.into(), 255) as u8,
        1 => random.pick(&[limit, 16, 255]),
        _ => random.below(limit.into()) as u8,
    };
    if random.once_in(8) {
        inputs::damage(random, &mut table);
    }
    Case::Successors(table, letter, states)
}

/// A random case of one kind of call.
fn random_case(random: &mut Random, kind: usize) -> Case {
    match kind {
        0 => Case::Read(inputs::any_table(random, 3)),
        1 => write_case(random),
        2 => Case::Start(inputs::any_table(random, 3)),
        3 => step_case(random),
        4 => Case::Tree(random_walk(random)),
        5 => Case::Plain(random_walk(random)),
        6 => {
            let (one, other) = pairs::pair(random);
            Case::Same(one, other)
        }
        _ => successors_case(random),
    }
}

/// What was counted for one kind of call.
#[derive(Default, Clone, Copy)]
struct Count {
    cases: usize,
    differences: usize,
    /// By refusal number; 0 for accepted.
    numbers: [usize; NUMBERS],
}

/// Whose answers are held against the reference's.
type Subject<'a> = &'a dyn Fn(&Case, &mut [u8]) -> Answer;

/// One case: the same call twice, on equal buffers.
fn check(random: &mut Random, case: &Case, subject: Subject, count: &mut Count) {
    let mut expected = Lending::random(random, case.needed());
    let mut found = expected.clone();
    let right = case.answered_by(&Reference, expected.lent());
    let answer = subject(case, found.lent());
    count.cases += 1;
    count.numbers[right.number() as usize] += 1;
    if answer == right && found == expected {
        return;
    }
    count.differences += 1;
    println!("difference: {} lent {}", case.shown(), found.part.len());
    println!("  reference {right:?}");
    println!("  other     {answer:?}");
    if found != expected {
        println!("  bytes (reference/other) {}", expected.differences(&found));
    }
}

/// Which random numbers a call has. The comparison of walks and the look-up of
/// successors came later. They have numbers of their own, so that a seed still
/// gives the other calls the inputs it always gave them.
fn stream(kind: usize) -> usize {
    match KINDS[kind] {
        "same" => 1,
        "successors" => 2,
        _ => 0,
    }
}

/// All cases of a list, in a mixed order; says whether there was none that
/// differs.
fn run(seed: u64, cases: &[usize; KINDS.len()], subject: Subject) -> bool {
    let begun = Instant::now();
    let mut streams = [seed, !seed, seed ^ 1 << 63].map(Random::new);
    let mut counts = [Count::default(); KINDS.len()];
    let rounds = cases.iter().max().copied().unwrap_or(0);
    for round in 0..rounds {
        for kind in 0..KINDS.len() {
            // Spreads each kind evenly over the rounds.
            if (round + 1) * cases[kind] / rounds > round * cases[kind] / rounds {
                let random = &mut streams[stream(kind)];
                let case = random_case(random, kind);
                check(random, &case, subject, &mut counts[kind]);
            }
        }
    }
    report(&counts);
    println!("seed {seed}, {:.1} s", begun.elapsed().as_secs_f64());
    counts.iter().all(|count| count.differences == 0)
}

fn report(counts: &[Count; KINDS.len()]) {
    for (name, count) in KINDS.iter().zip(counts) {
        if count.cases == 0 {
            continue;
        }
        print!("{name:10} {:6} cases {:3} differences", count.cases, count.differences);
        println!("   {}", checks::by_number(&count.numbers));
    }
    let cases: usize = counts.iter().map(|count| count.cases).sum();
    let differences: usize = counts.iter().map(|count| count.differences).sum();
    println!("all        {cases:6} cases {differences:3} differences");
}

/// The library against the reference.
pub fn compare(seed: u64) -> bool {
    let Some(library) = ffi::library() else {
        eprintln!("compare needs the library: build with --features linked");
        return false;
    };
    run(seed, &CASES, &|case, lent| case.answered_by(library, lent))
}

/// The tuned judges against the reference.
pub fn compare_tuned(seed: u64) -> bool {
    let against = |name: &str, judges: &dyn Judges| {
        println!("{name}:");
        run(seed, &TUNED_CASES, &|case, lent| case.judged_by(judges, lent))
    };
    let tuned = against("tuned", &Tuned);
    let relations = against("tuned, rows and relations", &OtherWays);
    tuned && relations
}
