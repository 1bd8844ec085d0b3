//! Rules as trees. Equal trees are one and the same `Tree`, so that a rule whose tree is huge is as small as its table.
use crate::map::Map;
use crate::word::Word;

#[derive(Clone, Copy, PartialEq, Eq, Hash, PartialOrd, Ord, Debug)]
pub struct Tree(u32);

impl Tree {
    /// How many trees its forest had before it.
    pub fn number(self) -> usize {
        self.0 as usize
    }
}

#[derive(Clone, Copy, PartialEq, Eq, Hash, Debug)]
pub enum Node {
    False,
    True,
    Letter(usize),
    NotLetter(usize),
    And(Tree, Tree),
    Or(Tree, Tree),
    Next(Tree),
    Until(Tree, Tree),
    Weak(Tree, Tree),
    Release(Tree, Tree),
    Strong(Tree, Tree),
    Not(Tree),
    Finally(Tree),
    Globally(Tree),
    Implies(Tree, Tree),
}

impl Node {
    /// The node over other operands, the left one asked for first.
    pub fn over(self, mut of: impl FnMut(Tree) -> Tree) -> Node {
        match self {
            Node::And(a, b) => Node::And(of(a), of(b)),
            Node::Or(a, b) => Node::Or(of(a), of(b)),
            Node::Next(a) => Node::Next(of(a)),
            Node::Until(a, b) => Node::Until(of(a), of(b)),
            Node::Weak(a, b) => Node::Weak(of(a), of(b)),
            Node::Release(a, b) => Node::Release(of(a), of(b)),
            Node::Strong(a, b) => Node::Strong(of(a), of(b)),
            Node::Not(a) => Node::Not(of(a)),
            Node::Finally(a) => Node::Finally(of(a)),
            Node::Globally(a) => Node::Globally(of(a)),
            Node::Implies(a, b) => Node::Implies(of(a), of(b)),
            leaf => leaf,
        }
    }
}

#[derive(Default)]
pub struct Forest {
    nodes: Vec<Node>,
    known: Map<Node, Tree>,
}

impl Forest {
    pub fn new() -> Forest {
        Forest::default()
    }

    /// The tree with this node at its root.
    pub fn grow(&mut self, node: Node) -> Tree {
        if let Some(&tree) = self.known.get(&node) {
            return tree;
        }
        let tree = Tree(self.nodes.len() as u32);
        self.nodes.push(node);
        self.known.insert(node, tree);
        tree
    }

    pub fn node(&self, tree: Tree) -> Node {
        self.nodes[tree.number()]
    }

    /// Every tree, operands first.
    pub fn trees(&self) -> Vec<Tree> {
        (0..self.nodes.len() as u32).map(Tree).collect()
    }

    /// The tree of each word of a table that passes the checks, without its header.
    pub fn of_words(&mut self, words: &[u32]) -> Vec<Tree> {
        let mut trees: Vec<Tree> = Vec::new();
        for &bits in words {
            let word = Word::of(bits);
            let node = node_of(word, |n| trees[n - 1]);
            trees.push(self.grow(node));
        }
        trees
    }

    /// F and G as document 01 unfolds them.
    pub fn finally(&mut self, a: Tree) -> Tree {
        let top = self.grow(Node::True);
        self.grow(Node::Until(top, a))
    }

    pub fn globally(&mut self, a: Tree) -> Tree {
        let bottom = self.grow(Node::False);
        self.grow(Node::Release(bottom, a))
    }
}

fn node_of(word: Word, tree: impl Fn(usize) -> Tree) -> Node {
    let (l, r) = (word.left, word.right);
    match word.kind {
        1 => Node::False,
        2 => Node::True,
        3 => Node::Letter(r),
        4 => Node::NotLetter(r),
        5 => Node::And(tree(l), tree(r)),
        6 => Node::Or(tree(l), tree(r)),
        7 => Node::Next(tree(r)),
        8 => Node::Until(tree(l), tree(r)),
        9 => Node::Weak(tree(l), tree(r)),
        10 => Node::Release(tree(l), tree(r)),
        11 => Node::Strong(tree(l), tree(r)),
        12 => Node::Not(tree(r)),
        13 => Node::Finally(tree(r)),
        14 => Node::Globally(tree(r)),
        15 => Node::Implies(tree(l), tree(r)),
        _ => panic!("a table that passes the checks has no kind 0"),
    }
}
