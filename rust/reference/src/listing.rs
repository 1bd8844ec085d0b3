//! The table of a tree: words as first needed, left operand, right operand, then the word; an identical word is used again.
use crate::forest::{Forest, Node, Tree};
use crate::map::{TreeMap, TreeSet};
use crate::word::Word;

/// The trees of a tree's table as first needed, each once, operands before what is made of them. Nothing here calls itself: a rule can be
/// 16,383 words deep.
pub fn needed(forest: &Forest, root: Tree) -> Vec<Tree> {
    let mut listed = Vec::new();
    let mut seen = TreeSet::default();
    // trees that are not listed yet, each an operand of the one before
    let mut waiting = vec![root];
    while let Some(&tree) = waiting.last() {
        let (_, _, operands) = parts(forest.node(tree));
        if let Some(operand) = operands.into_iter().flatten().find(|&operand| !seen.contains(operand)) {
            waiting.push(operand);
            continue;
        }
        seen.insert(tree, ());
        listed.push(tree);
        waiting.pop();
    }
    listed
}

/// The words of a tree's table. Numbers are not held to the fields' 14 bits: a longer table fits no slice.
pub fn list(forest: &Forest, root: Tree) -> Vec<Word> {
    let trees = needed(forest, root);
    let numbers: TreeMap<usize> = trees.iter().copied().zip(1..).collect();
    let word = |&tree: &Tree| {
        let (kind, letter, operands) = parts(forest.node(tree));
        match operands {
            [Some(a), Some(b)] => Word::new(kind, numbers[a], numbers[b]),
            [Some(a), None] => Word::new(kind, 0, numbers[a]),
            _ => Word::new(kind, 0, letter),
        }
    };
    trees.iter().map(word).collect()
}

/// The same as bits, for a table that is known to be short.
pub fn bits(forest: &Forest, root: Tree) -> Vec<u32> {
    list(forest, root).iter().map(|w| w.bits()).collect()
}

/// The kind of a word, its letter (0 where there is none), and its operands, left first.
fn parts(node: Node) -> (u32, usize, [Option<Tree>; 2]) {
    match node {
        Node::False => (1, 0, [None, None]),
        Node::True => (2, 0, [None, None]),
        Node::Letter(n) => (3, n, [None, None]),
        Node::NotLetter(n) => (4, n, [None, None]),
        Node::And(a, b) => (5, 0, [Some(a), Some(b)]),
        Node::Or(a, b) => (6, 0, [Some(a), Some(b)]),
        Node::Next(a) => (7, 0, [Some(a), None]),
        Node::Until(a, b) => (8, 0, [Some(a), Some(b)]),
        Node::Weak(a, b) => (9, 0, [Some(a), Some(b)]),
        Node::Release(a, b) => (10, 0, [Some(a), Some(b)]),
        Node::Strong(a, b) => (11, 0, [Some(a), Some(b)]),
        Node::Not(a) => (12, 0, [Some(a), None]),
        Node::Finally(a) => (13, 0, [Some(a), None]),
        Node::Globally(a) => (14, 0, [Some(a), None]),
        Node::Implies(a, b) => (15, 0, [Some(a), Some(b)]),
    }
}
