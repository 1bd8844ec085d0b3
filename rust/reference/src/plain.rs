//! The plain form of a rule and the plain form of its denial, defined through each other.
use crate::forest::{Forest, Node, Tree};
use crate::map::TreeMap;

pub struct Plain<'a> {
    forest: &'a mut Forest,
    wanted: TreeMap<Tree>,
    denied: TreeMap<Tree>,
}

impl Plain<'_> {
    pub fn of(forest: &mut Forest, rule: Tree) -> Tree {
        Plain { forest, wanted: TreeMap::default(), denied: TreeMap::default() }.wanted(rule)
    }

    fn wanted(&mut self, tree: Tree) -> Tree {
        if let Some(&form) = self.wanted.get(tree) {
            return form;
        }
        let node = match self.forest.node(tree) {
            Node::And(a, b) => Node::And(self.wanted(a), self.wanted(b)),
            Node::Or(a, b) => Node::Or(self.wanted(a), self.wanted(b)),
            Node::Next(a) => Node::Next(self.wanted(a)),
            Node::Until(a, b) => Node::Until(self.wanted(a), self.wanted(b)),
            Node::Weak(a, b) => Node::Weak(self.wanted(a), self.wanted(b)),
            Node::Release(a, b) => Node::Release(self.wanted(a), self.wanted(b)),
            Node::Strong(a, b) => Node::Strong(self.wanted(a), self.wanted(b)),
            Node::Not(a) => return self.denied(a),
            Node::Finally(a) => {
                let unfolded = self.forest.finally(a);
                return self.wanted(unfolded);
            }
            Node::Globally(a) => {
                let unfolded = self.forest.globally(a);
                return self.wanted(unfolded);
            }
            Node::Implies(a, b) => Node::Or(self.denied(a), self.wanted(b)),
            leaf => leaf,
        };
        let form = self.forest.grow(node);
        self.wanted.insert(tree, form);
        form
    }

    fn denied(&mut self, tree: Tree) -> Tree {
        if let Some(&form) = self.denied.get(tree) {
            return form;
        }
        let node = match self.forest.node(tree) {
            Node::False => Node::True,
            Node::True => Node::False,
            Node::Letter(n) => Node::NotLetter(n),
            Node::NotLetter(n) => Node::Letter(n),
            Node::And(a, b) => Node::Or(self.denied(a), self.denied(b)),
            Node::Or(a, b) => Node::And(self.denied(a), self.denied(b)),
            Node::Next(a) => Node::Next(self.denied(a)),
            Node::Until(a, b) => Node::Release(self.denied(a), self.denied(b)),
            Node::Release(a, b) => Node::Until(self.denied(a), self.denied(b)),
            Node::Weak(a, b) => Node::Strong(self.denied(a), self.denied(b)),
            Node::Strong(a, b) => Node::Weak(self.denied(a), self.denied(b)),
            Node::Not(a) => return self.wanted(a),
            Node::Finally(a) => {
                let unfolded = self.forest.finally(a);
                return self.denied(unfolded);
            }
            Node::Globally(a) => {
                let unfolded = self.forest.globally(a);
                return self.denied(unfolded);
            }
            Node::Implies(a, b) => Node::And(self.wanted(a), self.denied(b)),
        };
        let form = self.forest.grow(node);
        self.denied.insert(tree, form);
        form
    }
}
