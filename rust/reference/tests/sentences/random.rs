//! Random plain rules, for the tests.
use reference::forest::{Forest, Node, Tree};

/// Numbers that look random.
pub struct Numbers(pub u64);

impl Numbers {
    pub fn below(&mut self, n: usize) -> usize {
        self.0 = self.0.wrapping_mul(6_364_136_223_846_793_005).wrapping_add(1_442_695_040_888_963_407);
        (self.0 >> 33) as usize % n
    }
}

pub const LETTERS: usize = 2;

/// A plain rule so many words deep with at most so many until-like words, and constants at many of its leaves.
pub fn rule(numbers: &mut Numbers, forest: &mut Forest, deep: usize, until_like: &mut usize) -> Tree {
    let letter = 1 + numbers.below(LETTERS);
    let operator = if deep == 0 { 10 } else { numbers.below(11) };
    if operator >= 7 {
        let leaf = [Node::False, Node::True, Node::Letter(letter), Node::Letter(letter), Node::NotLetter(letter)];
        return forest.grow(leaf[numbers.below(leaf.len())]);
    }
    let operator = if operator < 4 && *until_like == 0 { 4 + operator % 3 } else { operator };
    *until_like -= (operator < 4) as usize;
    let a = rule(numbers, forest, deep - 1, until_like);
    if operator == 6 {
        return forest.grow(Node::Next(a));
    }
    let b = rule(numbers, forest, deep - 1, until_like);
    let node = [Node::Until, Node::Weak, Node::Release, Node::Strong, Node::And, Node::Or][operator];
    forest.grow(node(a, b))
}
