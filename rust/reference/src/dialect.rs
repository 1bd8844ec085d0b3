//! The dialect without W and M (document 02, N4): a W b becomes b R (a or b), and a M b becomes b U (a and b).
use crate::forest::{Forest, Node, Tree};
use crate::map::TreeMap;

/// The conversion of each of these trees, which are plain; operands come before what is made of them.
pub fn convert(forest: &mut Forest, trees: &[Tree]) -> Vec<Tree> {
    let mut converted: TreeMap<Tree> = TreeMap::default();
    for &tree in trees {
        let of = |operand: Tree| converted[operand];
        let node = match forest.node(tree) {
            Node::Weak(a, b) => Node::Release(of(b), forest.grow(Node::Or(of(a), of(b)))),
            Node::Strong(a, b) => Node::Until(of(b), forest.grow(Node::And(of(a), of(b)))),
            Node::Not(_) | Node::Finally(_) | Node::Globally(_) | Node::Implies(..) => panic!("a plain rule"),
            other => other.over(of),
        };
        let conversion = forest.grow(node);
        converted.insert(tree, conversion);
    }
    trees.iter().map(|&tree| converted[tree]).collect()
}
