//! The proved library, over its C interface. A slice is passed as a pointer
//! and a length. Without the feature `linked` there is no library.

use crate::answers::Calls;

/// The library, if it is linked.
pub fn library() -> Option<&'static dyn Calls> {
    #[cfg(feature = "linked")]
    return Some(&linked::Library);
    #[cfg(not(feature = "linked"))]
    return None;
}

#[cfg(feature = "linked")]
mod linked {
    use crate::answers::{
        Calls, Judges, Numbers, PlainAnswer, ReadAnswer, SameAnswer, StartAnswer, StepAnswer,
        SuccessorsAnswer, TreeAnswer, WriteAnswer,
    };

    extern "C" {
        fn suthreldo_read(
            table: *const u8,
            table_length: usize,
            grid: *mut u8,
            grid_length: usize,
        ) -> ReadAnswer;

        fn suthreldo_write(
            states: usize,
            letters: usize,
            sets: usize,
            start: u16,
            grid: *const u8,
            grid_length: usize,
            table: *mut u8,
            table_length: usize,
        ) -> WriteAnswer;

        fn suthreldo_start(
            table: *const u8,
            table_length: usize,
            buffer: *mut u8,
            buffer_length: usize,
        ) -> StartAnswer;

        fn suthreldo_step(
            table: *const u8,
            table_length: usize,
            letter: u8,
            bytes: *const u8,
            bytes_length: usize,
            buffer: *mut u8,
            buffer_length: usize,
        ) -> StepAnswer;

        fn suthreldo_tree_judge(
            table: *const u8,
            table_length: usize,
            u: *const u8,
            u_length: usize,
            v: *const u8,
            v_length: usize,
            names: *mut u8,
            names_length: usize,
        ) -> TreeAnswer;

        fn suthreldo_plain_judge(
            table: *const u8,
            table_length: usize,
            u: *const u8,
            u_length: usize,
            v: *const u8,
            v_length: usize,
            scratch: *mut u8,
            scratch_length: usize,
        ) -> PlainAnswer;

        fn suthreldo_same_walk(
            u: *const u8,
            u_length: usize,
            v: *const u8,
            v_length: usize,
            other_u: *const u8,
            other_u_length: usize,
            other_v: *const u8,
            other_v_length: usize,
        ) -> SameAnswer;

        fn suthreldo_successors(
            table: *const u8,
            table_length: usize,
            letter: u8,
            states: u16,
        ) -> SuccessorsAnswer;
    }

    /// The library as an implementation of the calls. Each pointer and
    /// length below come from one slice that outlives the call.
    pub struct Library;

    impl Judges for Library {
        fn tree_judge(&self, table: &[u8], u: &[u8], v: &[u8], names: &mut [u8]) -> TreeAnswer {
            unsafe {
                suthreldo_tree_judge(
                    table.as_ptr(),
                    table.len(),
                    u.as_ptr(),
                    u.len(),
                    v.as_ptr(),
                    v.len(),
                    names.as_mut_ptr(),
                    names.len(),
                )
            }
        }

        fn plain_judge(&self, table: &[u8], u: &[u8], v: &[u8], scratch: &mut [u8]) -> PlainAnswer {
            unsafe {
                suthreldo_plain_judge(
                    table.as_ptr(),
                    table.len(),
                    u.as_ptr(),
                    u.len(),
                    v.as_ptr(),
                    v.len(),
                    scratch.as_mut_ptr(),
                    scratch.len(),
                )
            }
        }
    }

    impl Calls for Library {
        fn read(&self, table: &[u8], grid: &mut [u8]) -> ReadAnswer {
            unsafe { suthreldo_read(table.as_ptr(), table.len(), grid.as_mut_ptr(), grid.len()) }
        }

        fn write(&self, numbers: Numbers, grid: &[u8], table: &mut [u8]) -> WriteAnswer {
            unsafe {
                suthreldo_write(
                    numbers.states,
                    numbers.letters,
                    numbers.sets,
                    numbers.start,
                    grid.as_ptr(),
                    grid.len(),
                    table.as_mut_ptr(),
                    table.len(),
                )
            }
        }

        fn start(&self, table: &[u8], buffer: &mut [u8]) -> StartAnswer {
            unsafe {
                suthreldo_start(table.as_ptr(), table.len(), buffer.as_mut_ptr(), buffer.len())
            }
        }

        fn step(&self, table: &[u8], letter: u8, record: &[u8], buffer: &mut [u8]) -> StepAnswer {
            unsafe {
                suthreldo_step(
                    table.as_ptr(),
                    table.len(),
                    letter,
                    record.as_ptr(),
                    record.len(),
                    buffer.as_mut_ptr(),
                    buffer.len(),
                )
            }
        }

        fn same_walk(&self, u: &[u8], v: &[u8], other_u: &[u8], other_v: &[u8]) -> SameAnswer {
            unsafe {
                suthreldo_same_walk(
                    u.as_ptr(),
                    u.len(),
                    v.as_ptr(),
                    v.len(),
                    other_u.as_ptr(),
                    other_u.len(),
                    other_v.as_ptr(),
                    other_v.len(),
                )
            }
        }

        fn successors(&self, table: &[u8], letter: u8, states: u16) -> SuccessorsAnswer {
            unsafe { suthreldo_successors(table.as_ptr(), table.len(), letter, states) }
        }
    }
}
