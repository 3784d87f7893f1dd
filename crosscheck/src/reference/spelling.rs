//! Two walks' endless sequences, letter by letter.

/// The letter at a position of the endless sequence.
fn letter(u: &[u8], v: &[u8], position: usize) -> u8 {
    if position < u.len() {
        u[position]
    } else {
        v[(position - u.len()) % v.len()]
    }
}

fn greatest_common_divisor(one: usize, other: usize) -> usize {
    if other == 0 {
        one
    } else {
        greatest_common_divisor(other, one % other)
    }
}

fn least_common_multiple(one: usize, other: usize) -> usize {
    one / greatest_common_divisor(one, other) * other
}

/// The first position where two walks have different letters, if there is
/// one. Behind both lead-ins each sequence comes again after its own tail's
/// length, so both come again after the least common multiple of the two
/// lengths. What differs nowhere up to there differs nowhere.
pub fn first_difference(u: &[u8], v: &[u8], other_u: &[u8], other_v: &[u8]) -> Option<usize> {
    let enough = u.len().max(other_u.len()) + least_common_multiple(v.len(), other_v.len());
    (0..enough).find(|at| letter(u, v, *at) != letter(other_u, other_v, *at))
}
