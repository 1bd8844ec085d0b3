//! Definition 5 of source 002: each class is a set of trees, the least that contains some classes and is closed under some
//! operators. Document 01 adds that true and false are in class zero.
use crate::forest::{Forest, Node, Tree};
use crate::map::TreeSet;

#[derive(Clone, Copy, PartialEq, Eq, Hash, Debug)]
pub enum Class {
    Zero,
    Sigma(u32),
    Pi(u32),
    Delta(u32),
}

/// The classes by their bit in the class byte.
pub const BITS: [Class; 7] =
    [Class::Zero, Class::Sigma(1), Class::Pi(1), Class::Delta(1), Class::Sigma(2), Class::Pi(2), Class::Delta(2)];

#[derive(Default)]
pub struct Classes {
    /// By the classes' bits.
    members: [TreeSet; BITS.len()],
}

impl Classes {
    /// Sorts trees into classes; operands come before what is made of them.
    pub fn of(forest: &Forest, trees: &[Tree]) -> Classes {
        let mut classes = Classes::default();
        for &tree in trees {
            for (bit, class) in BITS.into_iter().enumerate() {
                if classes.belongs(forest, class, tree) {
                    classes.members[bit].insert(tree, ());
                }
            }
        }
        classes
    }

    pub fn has(&self, class: Class, tree: Tree) -> bool {
        let bit = BITS.into_iter().position(|other| other == class);
        self.members[bit.expect("a class that has a bit")].contains(tree)
    }

    pub fn byte(&self, tree: Tree) -> u8 {
        (0..).zip(BITS).filter(|&(_, class)| self.has(class, tree)).map(|(bit, _)| 1 << bit).sum()
    }

    fn belongs(&self, forest: &Forest, class: Class, tree: Tree) -> bool {
        let below = |i: u32, side: fn(u32) -> Class| if i == 1 { Class::Zero } else { side(i - 1) };
        let contained = match class {
            Class::Zero => [None, None],
            Class::Sigma(i) => [Some(below(i, Class::Pi)), None],
            Class::Pi(i) => [Some(below(i, Class::Sigma)), None],
            Class::Delta(i) => [Some(Class::Sigma(i)), Some(Class::Pi(i))],
        };
        let all = |operands: &[Tree]| operands.iter().all(|&a| self.has(class, a));
        let sigma = matches!(class, Class::Sigma(_));
        let pi = matches!(class, Class::Pi(_));
        let closed = match forest.node(tree) {
            Node::False | Node::True | Node::Letter(_) | Node::NotLetter(_) => class == Class::Zero,
            Node::And(a, b) | Node::Or(a, b) => all(&[a, b]),
            Node::Next(a) => (sigma || pi) && all(&[a]),
            Node::Until(a, b) | Node::Strong(a, b) => sigma && all(&[a, b]),
            Node::Weak(a, b) | Node::Release(a, b) => pi && all(&[a, b]),
            Node::Not(_) | Node::Finally(_) | Node::Globally(_) | Node::Implies(..) => false,
        };
        closed || contained.into_iter().flatten().any(|c| self.has(c, tree))
    }
}
