//! Questions 7 and 8, for the judges.

use super::{Boundary, A};
use crate::cases::{Case, Walk};

/// What, the number, u, v, and the test of a walk with that number.
type Walked = (&'static str, u8, Vec<u8>, Vec<u8>, fn(&Walk) -> bool);

/// The highest letters of u and of v, counted from m (an empty one's is −1).
fn highest(walk: &Walk) -> (i16, i16) {
    let m = i16::from(walk.table[1]);
    let highest = |letters: &[u8]| letters.iter().max().map_or(-1, |a| i16::from(*a));
    (highest(&walk.u) - m, highest(&walk.v) - m)
}

fn walks() -> Vec<Walked> {
    let long = |last: u8| [vec![0; 4095], vec![last]].concat();
    vec![
        ("u and v of 4,096 letters", 0, vec![0; 4096], vec![1; 4096], |w| {
            w.u.len() == 4096 && w.v.len() == 4096
        }),
        ("u of 4,097 letters", 7, vec![0; 4097], vec![0], |w| w.u.len() == 4097),
        ("u empty, v of one letter", 0, vec![], vec![1], |w| w.u.is_empty() && w.v.len() == 1),
        ("v empty", 7, vec![], vec![], |w| w.v.is_empty()),
        ("v of 4,096 letters", 0, vec![], vec![1; 4096], |w| w.v.len() == 4096),
        ("v of 4,097 letters", 7, vec![], vec![0; 4097], |w| w.v.len() == 4097),
        ("letter m − 1 in u", 0, vec![1], vec![0], |w| highest(w).0 == -1),
        ("letter m in u", 8, vec![2], vec![0], |w| highest(w).0 == 0 && highest(w).1 < 0),
        ("letter m − 1 in v", 0, vec![], vec![1], |w| highest(w).1 == -1),
        ("letter m in v", 8, vec![0], vec![2], |w| highest(w).1 == 0 && highest(w).0 < 0),
        ("letter 255", 8, vec![], vec![255], |w| highest(w).1 == 253),
        ("letter m at the end of the longest u", 8, long(2), vec![0], |w| w.u.len() == 4096),
        ("letter m at the end of the longest v", 8, vec![], long(2), |w| w.v.len() == 4096),
        ("v empty and letter m in u", 7, vec![2], vec![], |w| w.v.is_empty() && highest(w).0 >= 0),
    ]
}

pub fn boundaries() -> Vec<Boundary> {
    let mut list = Vec::new();
    for (what, number, u, v, test) in walks() {
        let walk = Walk { table: A.to_vec(), u, v };
        for case in [Case::Tree(walk.clone()), Case::Plain(walk)] {
            let test = move |case: &Case| match case {
                Case::Tree(walk) | Case::Plain(walk) => test(walk),
                _ => false,
            };
            list.push(Boundary::of(what, number, case, test));
        }
    }
    list
}
