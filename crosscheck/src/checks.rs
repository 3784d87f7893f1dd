//! Named checks, the cases and differences of each; and counted numbers.

/// The refusal numbers are below this; 0 stands for accepted.
pub const NUMBERS: usize = 13;

pub struct Checks<const COUNT: usize> {
    names: [&'static str; COUNT],
    cases: [usize; COUNT],
    differences: [usize; COUNT],
}

impl<const COUNT: usize> Checks<COUNT> {
    pub fn new(names: [&'static str; COUNT]) -> Self {
        Checks { names, cases: [0; COUNT], differences: [0; COUNT] }
    }

    /// Counts a case; shows it if it differs.
    pub fn add(&mut self, check: usize, right: bool, shown: impl Fn() -> String) {
        self.cases[check] += 1;
        if !right {
            self.differences[check] += 1;
            println!("difference: {} {}", self.names[check], shown());
        }
    }

    pub fn report(&self) {
        let line = |name: &str, cases: usize, differences: usize| {
            println!("{name:8} {cases:7} cases {differences:3} differences");
        };
        for (name, counted) in self.names.iter().zip(self.cases.iter().zip(&self.differences)) {
            line(name, *counted.0, *counted.1);
        }
        line("all", self.cases.iter().sum(), self.differences.iter().sum());
    }

    /// Does nothing differ?
    pub fn all_right(&self) -> bool {
        self.differences == [0; COUNT]
    }
}

/// How often each refusal number came, as text; 0 for accepted.
pub fn by_number(numbers: &[usize; NUMBERS]) -> String {
    let mut text = format!("accepted {}", numbers[0]);
    for (number, times) in numbers.iter().enumerate().skip(1) {
        if *times != 0 {
            text += &format!(", {number}: {times}");
        }
    }
    text
}
