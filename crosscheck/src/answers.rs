//! The answers of the eight calls, and the calls as traits, so that the
//! reference, the tuned code and the library can stand for each other.

macro_rules! answer {
    ($(#[$text:meta])* $name:ident { $($field:ident: $kind:ty),* }) => {
        $(#[$text])*
        #[repr(C)]
        #[derive(Clone, Copy, Debug, Default, PartialEq, Eq)]
        pub struct $name {
            /// 0, or the number of the question that was answered no.
            pub number: u8,
            $(pub $field: $kind),*
        }

        impl $name {
            /// A refusal: its number, and zero for all else.
            pub fn refused(number: u8) -> Self {
                Self { number, ..Self::default() }
            }
        }
    };
}

answer!(
    /// Of the reader.
    ReadAnswer { states: usize, letters: usize, sets: usize, start: u16 }
);
answer!(
    /// Of the writer.
    WriteAnswer { written: usize }
);
answer!(
    /// Of the starting record.
    StartAnswer { written: usize }
);
answer!(
    /// Of the step.
    StepAnswer { written: usize, accepting: u16, stable: u16 }
);
answer!(
    /// Of the tree judge. The name's length is 255 on no.
    TreeAnswer { verdict: u8, entry: u64, period: u64, length: u8 }
);
answer!(
    /// Of the plain judge.
    PlainAnswer { verdict: u8 }
);
answer!(
    /// Of the comparison of two walks: 1 if they are the same.
    SameAnswer { same: u8 }
);
answer!(
    /// Of the look-up of successors: the map of the next states, and for each
    /// accepting set the map of those reached by a transition of that set.
    SuccessorsAnswer { next: u16, reached: [u16; 4] }
);

impl TreeAnswer {
    /// The node's name, in front of the lent bytes; none unless yes.
    pub fn name<'a>(&self, names: &'a [u8]) -> &'a [u8] {
        let yes = (self.number, self.verdict) == (0, 1);
        let length = if yes { self.length.into() } else { 0 };
        names.get(..length).unwrap_or(&[])
    }
}

/// The two judges.
pub trait Judges {
    fn tree_judge(&self, table: &[u8], u: &[u8], v: &[u8], names: &mut [u8]) -> TreeAnswer;
    fn plain_judge(&self, table: &[u8], u: &[u8], v: &[u8], scratch: &mut [u8]) -> PlainAnswer;
}

/// The numbers the writer takes.
#[derive(Clone, Copy, Debug, PartialEq, Eq)]
pub struct Numbers {
    pub states: usize,
    pub letters: usize,
    pub sets: usize,
    pub start: u16,
}

/// All eight calls.
pub trait Calls: Judges {
    fn read(&self, table: &[u8], grid: &mut [u8]) -> ReadAnswer;
    fn write(&self, numbers: Numbers, grid: &[u8], table: &mut [u8]) -> WriteAnswer;
    fn start(&self, table: &[u8], buffer: &mut [u8]) -> StartAnswer;
    fn step(&self, table: &[u8], letter: u8, record: &[u8], buffer: &mut [u8]) -> StepAnswer;
    fn same_walk(&self, u: &[u8], v: &[u8], other_u: &[u8], other_v: &[u8]) -> SameAnswer;
    fn successors(&self, table: &[u8], letter: u8, states: u16) -> SuccessorsAnswer;
}
