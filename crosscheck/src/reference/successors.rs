//! The successors of a set of states under a letter, transition by transition.

use super::table::Rule;

/// The map of the next states, and for each accepting set the map of those
/// reached by a transition of that set. States from n up have no transition,
/// and no transition is of a set from k + 1 up.
pub fn look_up(rule: &Rule, letter: u8, from: u16) -> (u16, [u16; 4]) {
    let (mut next, mut reached) = (0, [0; 4]);
    for (state, row) in rule.moves[usize::from(letter)].iter().enumerate() {
        if from >> state & 1 == 0 {
            continue;
        }
        for (to, place) in row.iter().enumerate() {
            let Some(sets) = place else { continue };
            next |= 1 << to;
            for (bit, map) in reached.iter_mut().enumerate() {
                if sets >> bit & 1 == 1 {
                    *map |= 1 << to;
                }
            }
        }
    }
    (next, reached)
}

#[cfg(test)]
mod tests {
    use super::*;
    use crate::answers::{Calls, SuccessorsAnswer};
    use crate::inputs;
    use crate::random::Random;
    use crate::reference::examples::{A, B, C};
    use crate::reference::Reference;

    /// Four states, four sets, one letter. State 0 leads to state i by set
    /// i + 1; state 1 to state 0 by all sets, to the others by none; state 2
    /// nowhere; state 3 to itself by set 3.
    const D: [u8; 17] = [4, 1, 4, 1, 15, 1, 2, 4, 8, 15, 15, 0, 0, 0, 0, 8, 4];

    /// What an accepted look-up gives.
    fn found(table: &[u8], letter: u8, states: u16) -> (u16, [u16; 4]) {
        let answer = Reference.successors(table, letter, states);
        assert_eq!(answer.number, 0);
        (answer.next, answer.reached)
    }

    /// The number of a look-up of all states, which is refused.
    fn refusal(table: &[u8], letter: u8) -> u8 {
        let answer = Reference.successors(table, letter, 65_535);
        assert_eq!(answer, SuccessorsAnswer::refused(answer.number));
        answer.number
    }

    #[test]
    fn tables_of_document_01() {
        let none = [0; 4];
        assert_eq!([1, 2, 3].map(|states| found(&A, 0, states)), [(1, none), (0, none), (1, none)]);
        assert_eq!(found(&A, 1, 1), (3, none));
        assert_eq!(found(&A, 1, 2), (2, [2, 0, 0, 0]));
        assert_eq!(found(&A, 1, 3), (3, [2, 0, 0, 0]));
        assert_eq!(found(&B, 0, 1), (1, [1, 0, 0, 0]));
        assert_eq!(found(&B, 1, 1), (1, [0, 1, 0, 0]));
        assert_eq!(found(&C, 0, 1), (0, none));
        assert_eq!([0, 1].map(|letter| found(&A, letter, 0)), [(0, none); 2]);
    }

    #[test]
    fn each_set_by_itself() {
        assert_eq!(found(&D, 0, 1), (15, [1, 2, 4, 8]));
        assert_eq!(found(&D, 0, 2), (15, [1; 4]));
        assert_eq!(found(&D, 0, 3), (15, [1, 3, 5, 9]));
        assert_eq!(found(&D, 0, 4), (0, [0; 4]));
        assert_eq!(found(&D, 0, 8), (8, [0, 0, 8, 0]));
        assert_eq!(found(&D, 0, 15), (15, [1, 3, 13, 9]));
        // Sets above k.
        assert_eq!(found(&[1, 1, 1, 1, 1, 1], 0, 1), (1, [1, 0, 0, 0]));
        assert_eq!(found(&[1, 1, 2, 1, 1, 3], 0, 1), (1, [1, 1, 0, 0]));
        assert_eq!(found(&[1, 1, 3, 1, 1, 7], 0, 1), (1, [1, 1, 1, 0]));
        assert_eq!(found(&[1, 1, 4, 1, 1, 15], 0, 1), (1, [1, 1, 1, 1]));
    }

    #[test]
    fn states_from_n_up_add_nothing() {
        for state in 2..16 {
            assert_eq!([0, 1].map(|letter| found(&A, letter, 1 << state)), [(0, [0; 4]); 2]);
            assert_eq!(found(&A, 1, 1 << state | 2), (2, [2, 0, 0, 0]));
        }
        assert_eq!(found(&A, 1, 65_532), (0, [0; 4]));
        assert_eq!(found(&A, 1, 65_535), (3, [2, 0, 0, 0]));
        let full = [vec![8, 1, 4, 1], [vec![255], vec![15; 8]].concat().repeat(8)].concat();
        assert_eq!([128, 255, 65_535].map(|states| found(&full, 0, states)), [(255, [255; 4]); 3]);
        assert_eq!([256, 65_280].map(|states| found(&full, 0, states)), [(0, [0; 4]); 2]);
    }

    #[test]
    fn refusals() {
        assert_eq!(refusal(&C[..3], 0), 1);
        assert_eq!(refusal(&[9, 1, 1, 1, 0, 0, 0, 0, 0, 0, 0, 0, 0], 0), 2);
        assert_eq!(refusal(&[1, 1, 1, 2, 0], 0), 3);
        assert_eq!(refusal(&C[..4], 0), 4);
        assert_eq!(refusal(&[1, 1, 1, 1, 1, 2], 0), 5);
        assert_eq!(refusal(&[1, 1, 1, 1, 0, 0], 0), 6);
        assert_eq!([2, 16, 255].map(|letter| refusal(&A, letter)), [8; 3]);
        assert_eq!(refusal(&C, 1), 8);
        // The table comes before the letter.
        assert_eq!(refusal(&C[..4], 1), 4);
        assert_eq!(refusal(&[1, 1, 1, 1, 0, 0], 1), 6);
    }

    #[test]
    fn as_a_tree_step_has_them() {
        let mut random = Random::new(crate::SEED);
        for _ in 0..500 {
            let rule = Rule::read(&inputs::table(&mut random)).expect("a good table");
            let letter = random.below(rule.letters) as u8;
            let from = random.next() as u16;
            let (next, reached) = look_up(&rule, letter, from);
            assert_eq!(next, rule.successors(letter, from as u8).into());
            for (set, map) in (1..).zip(reached) {
                assert_eq!(map, rule.successors_by(letter, from as u8, set).into());
            }
        }
    }
}
