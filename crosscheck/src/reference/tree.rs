//! History trees: the record of a tree, and one letter on a tree.

use super::table::Rule;

/// A node's name: its child numbers from the root.
pub type Name = Vec<u8>;

/// A node with all below it.
#[derive(Clone, Debug, PartialEq, Eq, Hash)]
pub struct Node {
    /// The map of the node's states.
    pub label: u8,
    /// 1 to k.
    pub active: u8,
    pub children: Vec<Node>,
}

/// A tree is its root; the dead tree has no node.
pub type Tree = Option<Node>;

/// The starting tree: the root alone, the starting states, active set 1.
pub fn starting_tree(rule: &Rule) -> Tree {
    Some(Node { label: rule.start, active: 1, children: Vec::new() })
}

/// The nodes in number order, each with its name.
fn listed(tree: &Tree) -> Vec<(Name, &Node)> {
    fn visit<'a>(node: &'a Node, name: Name, list: &mut Vec<(Name, &'a Node)>) {
        list.push((name.clone(), node));
        for (number, child) in node.children.iter().enumerate() {
            let mut below = name.clone();
            below.push(number as u8);
            visit(child, below, list);
        }
    }
    let mut list = Vec::new();
    if let Some(root) = tree {
        visit(root, Name::new(), &mut list);
    }
    list
}

/// The names in number order.
pub fn names(tree: &Tree) -> Vec<Name> {
    listed(tree).into_iter().map(|(name, _)| name).collect()
}

/// The record of a tree.
pub fn record(tree: &Tree) -> Vec<u8> {
    let Some(root) = tree else { return vec![0] };
    let list = listed(tree);
    let mut bytes = vec![root.label];
    for state in (0..8).filter(|state| root.label >> state & 1 == 1) {
        // The nodes that hold a state stand one below the other, so the
        // deepest of them has the highest number.
        let host = list.iter().rposition(|(_, node)| node.label >> state & 1 == 1);
        bytes.push(host.expect("the root holds it") as u8);
    }
    for (name, node) in list {
        bytes.push(16 * name.len() as u8 + node.active);
    }
    bytes
}

/// A node as a record has it.
struct Entry {
    depth: u8,
    active: u8,
    hosted: u8,
}

/// The node at a place of the list, with all below it; moves the place on.
fn built(entries: &[Entry], place: &mut usize) -> Node {
    let Entry { depth, active, hosted } = entries[*place];
    *place += 1;
    let mut node = Node { label: hosted, active, children: Vec::new() };
    while *place < entries.len() && entries[*place].depth == depth + 1 {
        let child = built(entries, place);
        node.label |= child.label;
        node.children.push(child);
    }
    node
}

/// The tree that has this record, if there is one over the rule's n and k.
pub fn from_record(bytes: &[u8], rule: &Rule) -> Option<Tree> {
    let map = *bytes.first()?;
    if map == 0 {
        return (bytes.len() == 1).then_some(None);
    }
    let count = map.count_ones() as usize;
    if u16::from(map) >> rule.states != 0 || bytes.len() < 1 + count {
        return None;
    }
    let (hosts, nodes) = bytes[1..].split_at(count);
    let mut entries = Vec::new();
    for byte in nodes {
        entries.push(Entry { depth: byte / 16, active: byte % 16, hosted: 0 });
    }
    let states = (0..8).filter(|state| map >> state & 1 == 1);
    for (state, host) in states.zip(hosts) {
        entries.get_mut(*host as usize)?.hosted |= 1 << state;
    }
    allowed(&entries, rule).then(|| Some(built(&entries, &mut 0)))
}

/// Hosts, active sets and depths as they must be.
fn allowed(entries: &[Entry], rule: &Rule) -> bool {
    let good = |entry: &Entry| entry.hosted != 0 && (1..=rule.sets).contains(&entry.active.into());
    entries.iter().all(good)
        && entries[0].depth == 0
        && entries.windows(2).all(|two| (1..=two[0].depth + 1).contains(&two[1].depth))
}

/// What a letter makes of a tree. The names are those of old nodes.
pub struct Stepped {
    pub tree: Tree,
    pub accepting: Vec<Name>,
    pub stable: Vec<Name>,
}

/// A node while a letter is read. A sprouted node has no old name.
struct Growing {
    old: Option<Name>,
    label: u8,
    active: u8,
    accepting: bool,
    children: Vec<Growing>,
}

/// Points 1 and 2: labels move on, each old node gains a youngest child.
fn grow(node: &Node, name: Name, rule: &Rule, letter: u8) -> Growing {
    let mut children = Vec::new();
    for (number, child) in node.children.iter().enumerate() {
        let mut below = name.clone();
        below.push(number as u8);
        children.push(grow(child, below, rule, letter));
    }
    children.push(Growing {
        old: None,
        label: rule.successors_by(letter, node.label, node.active),
        active: 1,
        accepting: false,
        children: Vec::new(),
    });
    let label = rule.successors(letter, node.label);
    Growing { old: Some(name), label, active: node.active, accepting: false, children }
}

/// Takes states from a node and everything below it.
fn take(node: &mut Growing, states: u8) {
    node.label &= !states;
    for child in &mut node.children {
        take(child, states);
    }
}

/// Point 3: a state in a node's label leaves all younger siblings.
fn part_siblings(node: &mut Growing) {
    let mut held = 0;
    for child in &mut node.children {
        take(child, held);
        held |= child.label;
        part_siblings(child);
    }
}

/// Point 4, parents first: what an accepting node loses is not looked at.
fn accept(node: &mut Growing, sets: usize) {
    let union = node.children.iter().fold(0, |map, child| map | child.label);
    if node.label != 0 && node.label == union {
        node.children.clear();
        node.accepting = true;
        node.active = if usize::from(node.active) == sets { 1 } else { node.active + 1 };
    }
    node.children.retain(|child| child.label != 0);
    for child in &mut node.children {
        accept(child, sets);
    }
}

/// Point 5: the surviving nodes get their new names.
fn settle(node: Growing, name: Name, stepped: &mut Stepped) -> Node {
    if let Some(old) = node.old {
        if old == name {
            stepped.stable.push(old.clone());
        }
        if node.accepting {
            stepped.accepting.push(old);
        }
    }
    let mut children = Vec::new();
    for (number, child) in node.children.into_iter().enumerate() {
        let mut below = name.clone();
        below.push(number as u8);
        children.push(settle(child, below, stepped));
    }
    Node { label: node.label, active: node.active, children }
}

/// One letter.
pub fn step(tree: &Tree, rule: &Rule, letter: u8) -> Stepped {
    let mut stepped = Stepped { tree: None, accepting: Vec::new(), stable: Vec::new() };
    let Some(root) = tree else { return stepped };
    let mut grown = grow(root, Name::new(), rule, letter);
    part_siblings(&mut grown);
    if grown.label == 0 {
        return stepped;
    }
    accept(&mut grown, rule.sets);
    stepped.tree = Some(settle(grown, Name::new(), &mut stepped));
    stepped
}
