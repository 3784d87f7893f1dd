//! Times: the library against the tuned judges, on the same inputs, in one
//! run, by turns; the best of several repetitions counts.

mod never;
mod pairs;

use crate::answers::{Calls, Judges, Numbers};
use crate::cases::Walk;
use crate::ffi;
use crate::inputs::{self, Reach};
use crate::job;
use crate::random::Random;
use crate::reference::{LONGEST, NAME_LENGTH, NO_TRANSITION, SCRATCH_LENGTH};
use crate::tuned::{letters_stepped, OtherWays, Tuned};
use crate::vectors::hard_jobs;
use std::fs;
use std::hint::black_box;
use std::path::Path;
use std::time::Instant;

/// How many inputs, and how often each list is run.
const SHORT_WALKS: usize = 2_000;
const REPETITIONS: usize = 9;

/// The longest tail that the library reads as the tuned judges do: it cuts
/// longer ones and reads fewer letters of them.
const UNCUT_TAIL: usize = 63;

/// A list of inputs under a name.
struct Inputs {
    name: &'static str,
    walks: Vec<Walk>,
}

/// Random tables of 1 to 8 states, u and v of up to 8 letters.
fn short_walks(random: &mut Random) -> Inputs {
    let mut walks = Vec::new();
    for _ in 0..SHORT_WALKS {
        let table = inputs::table(random);
        let (u, v) = inputs::walk(random, Reach::Short, table[1].into());
        walks.push(Walk { table, u, v });
    }
    Inputs { name: "short", walks }
}

/// A grid on which trees live on: every state has a next state under every
/// letter, and `more` of 1000 others besides; `in_set` of 1000 transitions
/// are in a set.
fn living_grid(random: &mut Random, numbers: Numbers, more: usize, in_set: usize) -> Vec<u8> {
    let Numbers { states, letters, sets, .. } = numbers;
    let mut grid = vec![NO_TRANSITION; letters * states * states];
    for row in grid.chunks_mut(states) {
        let sure = random.below(states);
        for (next, place) in row.iter_mut().enumerate() {
            if next == sure || random.below(1000) < more {
                let sets = (0..sets).filter(|_| random.below(1000) < in_set);
                *place = sets.map(|set| 1 << set).sum();
            }
        }
    }
    grid
}

/// The longest walks, the largest tables: from few next states to many,
/// from few transitions in a set to many.
fn long_walks(random: &mut Random) -> Inputs {
    let numbers = Numbers { states: 8, letters: 16, sets: 4, start: 0x55 };
    let mut walks = Vec::new();
    for more in [20, 60, 150, 400] {
        for in_set in [30, 120, 400] {
            let grid = living_grid(random, numbers, more, in_set);
            let table = inputs::table_of(&(numbers, grid));
            let [u, v] = [0; 2].map(|_| (0..LONGEST).map(|_| random.byte() % 16).collect());
            walks.push(Walk { table, u, v });
        }
    }
    Inputs { name: "long", walks }
}

/// The long walks with their tails' first letters alone, so that library and
/// tuned judges step the letters of u and little else.
fn uncut_walks(long: &Inputs) -> Inputs {
    let uncut = |walk: &Walk| Walk {
        table: walk.table.clone(),
        u: walk.u.clone(),
        v: walk.v[..UNCUT_TAIL].to_vec(),
    };
    Inputs { name: "uncut", walks: long.walks.iter().map(uncut).collect() }
}

/// The jobs of hard.txt.
fn hard_walks(folder: &str, slow: bool) -> Inputs {
    let path = Path::new(folder).join("hard.txt");
    let text = fs::read_to_string(&path).expect("hard.txt in the folder");
    let mut walks = Vec::new();
    for (_, hard) in hard_jobs(&text) {
        let job::Parts { table, u, v } = job::parts(&hard.job).expect("a whole job");
        if hard.slow == slow {
            walks.push(Walk { table: table.to_vec(), u: u.to_vec(), v: v.to_vec() });
        }
    }
    Inputs { name: if slow { "slow" } else { "hard" }, walks }
}

/// Which judge is timed.
#[derive(Clone, Copy, PartialEq)]
enum Which {
    Tree,
    Plain,
}

/// One call. Gives a number made of the answer, so that answers can be held
/// against each other.
#[inline(never)]
fn call(judges: &dyn Judges, which: Which, walk: &Walk, scratch: &mut [u8]) -> u64 {
    let Walk { table, u, v } = walk;
    match which {
        Which::Tree => {
            let mut names = [0; NAME_LENGTH];
            let answer = judges.tree_judge(black_box(table), u, v, &mut names);
            let name = names.iter().fold(0, |word, byte| word << 3 | u64::from(*byte));
            let verdict = u64::from(answer.verdict) << 8 | u64::from(answer.length);
            name << 40 ^ answer.entry << 25 ^ answer.period << 10 ^ verdict
        }
        Which::Plain => judges.plain_judge(black_box(table), u, v, scratch).verdict.into(),
    }
}

/// Nanoseconds for a call, over the whole list; and the answers.
fn timed(judges: &dyn Judges, which: Which, walks: &[Walk], scratch: &mut [u8]) -> (f64, Vec<u64>) {
    let mut answers = Vec::with_capacity(walks.len());
    let begun = Instant::now();
    for walk in walks {
        answers.push(call(judges, which, walk, scratch));
    }
    (begun.elapsed().as_nanos() as f64 / walks.len() as f64, answers)
}

/// The best times of several judges, taken by turns, and whether they agree.
fn best(judges: &[&dyn Judges], which: Which, walks: &[Walk]) -> (Vec<f64>, bool) {
    let mut scratch = vec![0; SCRATCH_LENGTH];
    let mut best = vec![f64::MAX; judges.len()];
    let mut agree = true;
    let begun = Instant::now();
    for repetition in 0..REPETITIONS {
        let mut answers = Vec::new();
        for (judge, least) in judges.iter().zip(&mut best) {
            let (time, found) = timed(*judge, which, walks, &mut scratch);
            *least = least.min(time);
            answers.push(found);
        }
        agree &= answers.windows(2).all(|two| two[0] == two[1]);
        // Very slow lists are not run again and again.
        if repetition >= 2 && begun.elapsed().as_secs() > 20 {
            break;
        }
    }
    (best, agree)
}

/// The letters of a walk a judge has to read: for the plain judge u and v,
/// for the tree judge u and as many tails as it takes to the first repeat.
fn letters(which: Which, walks: &[Walk]) -> f64 {
    let of = |walk: &Walk| {
        let (u, v) = (walk.u.len() as u64, walk.v.len() as u64);
        if which == Which::Plain {
            return u + v;
        }
        let answer = Tuned.tree_judge(&walk.table, &walk.u, &walk.v, &mut [0; NAME_LENGTH]);
        u + (answer.entry + answer.period) * v
    };
    walks.iter().map(of).sum::<u64>() as f64 / walks.len() as f64
}

/// The letters the tuned judge does step.
fn stepped(which: Which, walks: &[Walk]) -> f64 {
    if which == Which::Plain {
        return letters(which, walks);
    }
    let of = |walk: &Walk| letters_stepped(&walk.table, &walk.u, &walk.v);
    walks.iter().map(of).sum::<u64>() as f64 / walks.len() as f64
}

/// One line: times of a call, and letters of the walk in a second.
fn line(inputs: &Inputs, name: &str, which: Which, library: Option<f64>, tuned: f64) {
    let walk = letters(which, &inputs.walks);
    let rate = |time: f64| walk / time * 1000.0;
    print!("{:5} {name:16} {:5} {walk:11.1}", inputs.name, inputs.walks.len());
    print!(" {:11.1}", stepped(which, &inputs.walks));
    match library {
        Some(time) => {
            let ratio = time / tuned;
            println!(
                " {time:13.0} {tuned:13.0} {ratio:7.2} {:9.3} {:9.3}",
                rate(time),
                rate(tuned)
            );
        }
        None => println!(" {:>13} {tuned:13.0} {:>7} {:>9} {:9.3}", "-", "-", "-", rate(tuned)),
    }
}

/// Times one list and prints its four lines; says whether all agree.
fn measure(inputs: &Inputs, library: Option<&'static dyn Calls>) -> bool {
    let mut judges: Vec<&dyn Judges> = vec![&OtherWays, &Tuned];
    judges.extend(library.map(|library| library as &dyn Judges));
    let (tree, trees_agree) = best(&judges, Which::Tree, &inputs.walks);
    line(inputs, "tree, rows", Which::Tree, tree.get(2).copied(), tree[0]);
    line(inputs, "tree, words", Which::Tree, tree.get(2).copied(), tree[1]);
    let (plain, plains_agree) = best(&judges, Which::Plain, &inputs.walks);
    line(inputs, "plain, squares", Which::Plain, plain.get(2).copied(), plain[1]);
    line(inputs, "plain, relations", Which::Plain, plain.get(2).copied(), plain[0]);
    if !trees_agree || !plains_agree {
        println!("the answers differ");
    }
    trees_agree && plains_agree
}

/// All lists. Without a folder the hard walks are left out.
pub fn bench(folder: Option<&str>, slow: bool) -> bool {
    let mut random = Random::new(crate::SEED);
    let mut lists = vec![short_walks(&mut random), long_walks(&mut random)];
    lists.push(uncut_walks(&lists[1]));
    if let Some(folder) = folder {
        let hard = hard_walks(folder, false);
        lists.push(never::never_alone_walks(&hard));
        lists.push(hard);
        if slow {
            lists.push(hard_walks(folder, true));
        }
    }
    println!("per call: letters of the walk, letters the tuned judge steps, best time of");
    println!("up to {REPETITIONS} in nanoseconds; ratio library / tuned; million letters a second");
    println!(
        "{:5} {:16} {:>5} {:>11} {:>11} {:>13} {:>13} {:>7} {:>9} {:>9}",
        "walks",
        "judge",
        "calls",
        "letters",
        "stepped",
        "library ns",
        "tuned ns",
        "ratio",
        "lib Ml/s",
        "tun Ml/s"
    );
    let library = ffi::library();
    let mut well = true;
    for inputs in &lists {
        well &= measure(inputs, library);
    }
    well & pairs::measure(&lists[1], library)
}
