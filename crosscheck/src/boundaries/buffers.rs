//! Question 10, for every call that is lent a buffer: no lent byte, one too
//! few, as many as needed, one more; and that it comes last.

use super::{with, Boundary, A};
use crate::answers::Numbers;
use crate::cases::{Case, Walk};

/// The writer's numbers in both lists.
const NUMBERS: Numbers = Numbers { states: 2, letters: 1, sets: 1, start: 1 };

/// One call for each kind that is lent a buffer, all of it as it should be.
fn accepted() -> [Case; 6] {
    let walk = Walk { table: A.to_vec(), u: vec![1], v: vec![1] };
    [
        Case::Read(A.to_vec()),
        Case::Write(NUMBERS, vec![0, 255, 255, 1]),
        Case::Start(A.to_vec()),
        Case::Step(A.to_vec(), 1, vec![3, 0, 1, 1, 17]),
        Case::Tree(walk.clone()),
        Case::Plain(walk),
    ]
}

/// The same calls, each refused by its last question before 10.
fn refused() -> [(u8, Case); 6] {
    let walk = Walk { table: A.to_vec(), u: vec![1], v: vec![2] };
    [
        (6, Case::Read(with(&A, &[0]))),
        (11, Case::Write(NUMBERS, vec![0, 255, 255, 2])),
        (6, Case::Start(with(&A, &[0]))),
        (9, Case::Step(A.to_vec(), 1, vec![3, 0, 1, 1])),
        (8, Case::Tree(walk.clone())),
        (8, Case::Plain(walk)),
    ]
}

/// A call with this many bytes lent, nothing else wrong. Another call stands
/// at the boundary if it is lent just as many bytes beyond what it needs; at
/// the boundary of no lent byte, if it is lent none.
fn lending(what: &str, case: &Case, lent: usize) -> Boundary {
    let beyond = |lent: usize, case: &Case| lent as isize - case.needed() as isize;
    let wanted = beyond(lent, case);
    let number = if wanted < 0 { 10 } else { 0 };
    let test = Box::new(
        move |case: &Case, given: usize| {
            if lent == 0 {
                given == 0
            } else {
                beyond(given, case) == wanted
            }
        },
    );
    Boundary { what: what.to_string(), number, case: case.clone(), lent, test }
}

/// A refused call that is lent too few bytes as well.
fn refused_before(number: u8, case: Case, lent: usize) -> Boundary {
    let what = format!("question {number} before 10");
    let test = Box::new(|case: &Case, given: usize| given < case.needed());
    Boundary { what, number, case, lent, test }
}

pub fn boundaries() -> Vec<Boundary> {
    let mut list = Vec::new();
    for (case, (number, refused)) in accepted().into_iter().zip(refused()) {
        let needed = case.needed();
        list.push(lending("no lent byte", &case, 0));
        list.push(lending("one lent byte too few", &case, needed - 1));
        list.push(lending("lent bytes as needed", &case, needed));
        list.push(lending("one lent byte more", &case, needed + 1));
        list.push(refused_before(number, refused, needed - 1));
    }
    list
}
