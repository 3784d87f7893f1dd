//! Trees as an array of nodes in number order, a letter in three short
//! passes over small arrays: grow, join, prune. This is how one would write
//! it first; it has room for more states than eight. Nothing is allocated.

use super::judge::History;
use super::table::{word, Words};
use super::tree::Name;

const STABLE: u8 = 1;
const ACCEPTED: u8 = 2;

#[derive(Clone, Copy, Default, PartialEq, Eq)]
struct Node {
    depth: u8,
    label: u8,
    active: u8,
    /// What is counted on it.
    marks: u8,
}

#[derive(Clone, Copy)]
pub struct Rows {
    nodes: [Node; 8],
    count: usize,
}

/// The nodes while a letter is read: each old one and its sprouted child.
struct Growing {
    nodes: [Node; 16],
    count: usize,
}

impl Growing {
    #[inline(always)]
    fn put(&mut self, depth: usize, label: u8, active: u8, marks: u8) {
        self.nodes[self.count & 15] = Node { depth: depth as u8, label, active, marks };
        self.count += 1;
    }
}

impl Rows {
    /// Steps 1 to 3: successors, sprouts, and states taken by older nodes.
    #[inline(always)]
    fn grown(&self, words: &Words) -> Growing {
        let mut growing = Growing { nodes: [Node::default(); 16], count: 0 };
        // By depth: the states taken, and the child its parent sprouts.
        let (mut taken, mut sprouts) = ([0u8; 16], [0u8; 16]);
        let mut open = 0;
        for node in &self.nodes[..self.count & 15] {
            let depth = usize::from(node.depth & 15);
            while open > depth {
                growing.put(open, sprouts[open] & !taken[open], 1, 0);
                open -= 1;
            }
            let word = word(words, node.label.into());
            let label = word as u8 & !taken[depth];
            growing.put(depth, label, node.active, node.marks);
            open = depth + 1;
            taken[open & 15] = taken[depth];
            sprouts[open & 15] = (word >> (8 * node.active)) as u8;
            taken[depth] |= label;
        }
        while open > 0 {
            growing.put(open, sprouts[open & 15] & !taken[open & 15], 1, 0);
            open -= 1;
        }
        growing
    }
}

impl History for Rows {
    fn starting(start: u8) -> Rows {
        let mut nodes = [Node::default(); 8];
        nodes[0] = Node { depth: 0, label: start, active: 1, marks: 0 };
        Rows { nodes, count: 1 }
    }

    #[inline(always)]
    fn equals(&self, other: &Rows) -> bool {
        let same = |(one, two): (&Node, &Node)| {
            one.depth == two.depth && one.label == two.label && one.active == two.active
        };
        self.count == other.count && self.nodes[..self.count].iter().zip(&other.nodes).all(same)
    }

    fn counting_anew(&self) -> Rows {
        let mut tree = *self;
        tree.nodes.iter_mut().for_each(|node| node.marks = STABLE);
        tree
    }

    #[inline(always)]
    fn step<const COUNT: bool>(&self, words: &Words, sets: u64) -> Rows {
        let growing = self.grown(words);
        // The union of each node's children, from the last node back.
        let (mut unions, mut full) = ([0u8; 17], [false; 16]);
        for (node, full) in growing.nodes[..growing.count & 31].iter().zip(&mut full).rev() {
            let depth = usize::from(node.depth & 15);
            *full = node.label == unions[depth + 1];
            unions[depth + 1] = 0;
            unions[depth] |= node.label;
        }
        // Step 4 and 5: what is left, and whether it keeps its name.
        let mut next = Rows { nodes: [Node::default(); 8], count: 0 };
        let mut named = [true; 17];
        let mut cut = 16;
        for (node, full) in growing.nodes[..growing.count & 31].iter().zip(full) {
            let depth = usize::from(node.depth & 15);
            if depth > cut {
                continue;
            }
            cut = 16;
            if node.label == 0 {
                named[depth] = false;
                cut = depth;
                continue;
            }
            let mut left = *node;
            if full {
                left.active = if u64::from(node.active) == sets { 1 } else { node.active + 1 };
                left.marks |= ACCEPTED;
                cut = depth;
            }
            if COUNT && !(named[depth] && node.marks & STABLE != 0) {
                left.marks = 0;
            }
            named[depth + 1] = named[depth];
            next.nodes[next.count & 7] = left;
            next.count += 1;
        }
        next
    }

    fn kept_node(&self) -> Option<Name> {
        let mut name = Name::default();
        for (number, node) in self.nodes[..self.count].iter().enumerate() {
            if number > 0 {
                name.follow(usize::from(node.depth));
            }
            if node.marks == STABLE | ACCEPTED {
                return Some(name);
            }
        }
        None
    }
}
