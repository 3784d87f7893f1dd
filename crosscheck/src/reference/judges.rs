//! The two judges' verdicts, each straight from its definition.

use super::table::Rule;
use super::tree::{names, starting_tree, step, Name, Tree};
use std::collections::{BTreeSet, HashMap};

/// What the tree judge finds: entry, period and, on yes, the node.
pub struct Found {
    pub entry: usize,
    pub period: usize,
    pub node: Option<Name>,
}

/// The tree after some letters.
fn after(rule: &Rule, tree: Tree, letters: &[u8]) -> Tree {
    letters.iter().fold(tree, |tree, letter| step(&tree, rule, *letter).tree)
}

/// Remembers every round's tree until one comes again.
pub fn judge_by_trees(rule: &Rule, u: &[u8], v: &[u8]) -> Found {
    let mut round_of = HashMap::new();
    let mut tree = after(rule, starting_tree(rule), u);
    let mut round = 0;
    while !round_of.contains_key(&tree) {
        round_of.insert(tree.clone(), round);
        tree = after(rule, tree, v);
        round += 1;
    }
    let entry = round_of[&tree];
    let period = round - entry;
    Found { entry, period, node: kept_node(rule, tree, v, period) }
}

/// The first name stable at every letter of the rounds from `tree` back to
/// it, and accepting at one of them.
fn kept_node(rule: &Rule, mut tree: Tree, v: &[u8], period: usize) -> Option<Name> {
    let mut stable: BTreeSet<Name> = names(&tree).into_iter().collect();
    let mut accepting: BTreeSet<Name> = BTreeSet::new();
    for _ in 0..period {
        for letter in v {
            let stepped = step(&tree, rule, *letter);
            stable.retain(|name| stepped.stable.contains(name));
            accepting.extend(stepped.accepting);
            tree = stepped.tree;
        }
    }
    // A sorted set of names is in dictionary order.
    stable.intersection(&accepting).next().cloned()
}

/// Marks pairs of a state and the sets collected on the way to it.
type Pairs = [[bool; 16]; 8];

/// The pairs after one more letter.
fn next_pairs(rule: &Rule, pairs: &Pairs, letter: u8) -> Pairs {
    let mut after = [[false; 16]; 8];
    for (state, row) in rule.moves[letter as usize].iter().enumerate() {
        for (next, place) in row.iter().enumerate() {
            let Some(sets) = place else { continue };
            for collected in 0..16 {
                if pairs[state][collected] {
                    after[next][collected | *sets as usize] = true;
                }
            }
        }
    }
    after
}

/// The pairs a tail leads to from a state, nothing collected before.
fn tail_pairs(rule: &Rule, v: &[u8], state: usize) -> Pairs {
    let mut pairs = [[false; 16]; 8];
    pairs[state][0] = true;
    v.iter().fold(pairs, |pairs, letter| next_pairs(rule, &pairs, *letter))
}

/// The states that u and any number of tails lead to.
fn states_at_round_ends(rule: &Rule, u: &[u8], v: &[u8]) -> u8 {
    let through =
        |map, letters: &[u8]| letters.iter().fold(map, |map, letter| rule.successors(*letter, map));
    let mut states = through(rule.start, u);
    loop {
        let more = states | through(states, v);
        if more == states {
            return states;
        }
        states = more;
    }
}

/// Is there a loop of whole tails from a state to itself through all sets?
fn has_loop(tails: &[Pairs], state: usize, all: usize) -> bool {
    let mut seen = [[false; 16]; 8];
    let mut open = vec![(state, 0)];
    while let Some((from, before)) = open.pop() {
        for next in 0..tails.len() {
            for more in (0..16).filter(|more| tails[from][next][*more]) {
                let collected = before | more;
                if !seen[next][collected] {
                    seen[next][collected] = true;
                    open.push((next, collected));
                }
            }
        }
    }
    seen[state][all]
}

/// The loop's definition: a state at a round end, and a loop of tails from it
/// back to it with a transition of each set.
pub fn judge_plainly(rule: &Rule, u: &[u8], v: &[u8]) -> bool {
    let reached = states_at_round_ends(rule, u, v);
    let tails: Vec<Pairs> = (0..rule.states).map(|state| tail_pairs(rule, v, state)).collect();
    let all = (1 << rule.sets) - 1;
    (0..rule.states).any(|state| reached >> state & 1 == 1 && has_loop(&tails, state, all))
}
