//! The normal form: a part for each choice of until-like words, by three rewritings (document 01, after sections 5 and 6 of 002).
use crate::forest::{Forest, Node, Tree};
use crate::map::TreeMap;
use std::cmp::Reverse;
use std::collections::BTreeSet;

/// The normal form of a rule, given its until-like subtrees in rising word number, before it is folded (`fold`).
pub fn normal(forest: &mut Forest, rule: Tree, until_like: &[Tree]) -> Tree {
    let mut form = None;
    for choice in in_order(until_like.len()) {
        let chosen: Vec<Tree> = (0..).zip(until_like).filter(|(bit, _)| choice >> bit & 1 == 1).map(|(_, &t)| t).collect();
        let part = part(forest, rule, &chosen);
        form = Some(match form {
            None => part,
            Some(before) => forest.grow(Node::Or(before, part)),
        });
    }
    form.expect("there is a choice of nothing")
}

/// Choices of k words: fewer chosen words first, equal counts by higher number (document 02, N7).
fn in_order(k: usize) -> Vec<u32> {
    let mut choices: Vec<u32> = (0..1 << k).collect();
    choices.sort_by_key(|c| (c.count_ones(), Reverse(*c)));
    choices
}

/// The part of one choice, by its chosen trees.
pub fn part(forest: &mut Forest, rule: Tree, chosen: &[Tree]) -> Tree {
    let least = |f: &Forest, t: Tree| matches!(f.node(t), Node::Until(..) | Node::Strong(..));
    let (m, n): (Vec<Tree>, Vec<Tree>) = chosen.iter().partition(|&&t| least(forest, t));
    let mut by = Rewritings { m: m.iter().copied().collect(), n: n.iter().copied().collect(), forest, known: Default::default() };
    let mut part = by.rewrite(Form::Opening, rule);
    for member in m {
        let inner = by.rewrite(Form::Recurring, member);
        let finally = by.forest.finally(inner);
        let conjunct = by.forest.globally(finally);
        part = by.forest.grow(Node::And(part, conjunct));
    }
    for member in n {
        let inner = by.rewrite(Form::Steady, member);
        let globally = by.forest.globally(inner);
        let conjunct = by.forest.finally(globally);
        part = by.forest.grow(Node::And(part, conjunct));
    }
    part
}

#[derive(Clone, Copy)]
enum Form {
    Steady,
    Recurring,
    Opening,
}

struct Rewritings<'a> {
    forest: &'a mut Forest,
    m: BTreeSet<Tree>,
    n: BTreeSet<Tree>,
    /// By form.
    known: [TreeMap<Tree>; 3],
}

impl Rewritings<'_> {
    fn rewrite(&mut self, form: Form, tree: Tree) -> Tree {
        if let Some(&known) = self.known[form as usize].get(tree) {
            return known;
        }
        let node = self.forest.node(tree);
        let rewritten = match form {
            Form::Steady => self.steady(tree, node),
            Form::Recurring => self.recurring(tree, node),
            Form::Opening => self.opening(node),
        };
        self.known[form as usize].insert(tree, rewritten);
        rewritten
    }

    fn steady(&mut self, tree: Tree, node: Node) -> Tree {
        let chosen = self.m.contains(&tree);
        match node {
            Node::Until(..) | Node::Strong(..) if !chosen => self.forest.grow(Node::False),
            Node::Until(a, b) => self.down(Form::Steady, Node::Weak(a, b)),
            Node::Strong(a, b) => self.down(Form::Steady, Node::Release(a, b)),
            other => self.down(Form::Steady, other),
        }
    }

    fn recurring(&mut self, tree: Tree, node: Node) -> Tree {
        let chosen = self.n.contains(&tree);
        match node {
            Node::Weak(..) | Node::Release(..) if chosen => self.forest.grow(Node::True),
            Node::Weak(a, b) => self.down(Form::Recurring, Node::Until(a, b)),
            Node::Release(a, b) => self.down(Form::Recurring, Node::Strong(a, b)),
            other => self.down(Form::Recurring, other),
        }
    }

    fn opening(&mut self, node: Node) -> Tree {
        match node {
            Node::Weak(a, b) => {
                let goal = self.or_always(b, a);
                let before = self.rewrite(Form::Opening, a);
                self.forest.grow(Node::Until(before, goal))
            }
            Node::Release(a, b) => {
                let goal = self.or_always(a, b);
                let before = self.rewrite(Form::Opening, b);
                self.forest.grow(Node::Strong(goal, before))
            }
            other => self.down(Form::Opening, other),
        }
    }

    /// Opening form of a, or G of the steady form of b.
    fn or_always(&mut self, a: Tree, b: Tree) -> Tree {
        let opening = self.rewrite(Form::Opening, a);
        let steady = self.rewrite(Form::Steady, b);
        let always = self.forest.globally(steady);
        self.forest.grow(Node::Or(opening, always))
    }

    /// The node itself, with its operands rewritten.
    fn down(&mut self, form: Form, node: Node) -> Tree {
        let node = match node {
            Node::Not(_) | Node::Finally(_) | Node::Globally(_) | Node::Implies(..) => panic!("a plain rule"),
            plain => plain.over(|operand| self.rewrite(form, operand)),
        };
        self.forest.grow(node)
    }
}
