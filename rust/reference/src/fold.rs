//! Folding (document 02, N8): a word over a constant is one of its operands where the document says so.
use crate::forest::{Forest, Node, Tree};
use crate::listing::needed;
use crate::map::TreeMap;

/// A plain tree folded from its leaves upward. A shared tree is folded once.
pub fn fold(forest: &mut Forest, root: Tree) -> Tree {
    let mut folded: TreeMap<Tree> = TreeMap::default();
    for tree in needed(forest, root) {
        let node = forest.node(tree).over(|operand| folded[operand]);
        let made = make(forest, node);
        folded.insert(tree, made);
    }
    folded[root]
}

/// The tree of a node whose operands are folded: the sentence of document 02, clause by clause.
fn make(forest: &mut Forest, node: Node) -> Tree {
    let (no, yes) = (forest.grow(Node::False), forest.grow(Node::True));
    match node {
        // and, or with a constant as usual
        Node::And(a, b) if a == no || b == no => no,
        Node::And(a, b) if a == yes => b,
        Node::And(a, b) if b == yes => a,
        Node::Or(a, b) if a == yes || b == yes => yes,
        Node::Or(a, b) if a == no => b,
        Node::Or(a, b) if b == no => a,
        // X of a constant
        Node::Next(a) if a == no || a == yes => a,
        // U and R with a constant on the right give it
        Node::Until(_, b) | Node::Release(_, b) if b == no || b == yes => b,
        // false U b is b, true R b is b
        Node::Until(a, b) if a == no => b,
        Node::Release(a, b) if a == yes => b,
        // true W b and a W true are true, false W b is b
        Node::Weak(a, b) if a == yes || b == yes => yes,
        Node::Weak(a, b) if a == no => b,
        // a M false and false M b are false, true M b is b
        Node::Strong(a, b) if a == no || b == no => no,
        Node::Strong(a, b) if a == yes => b,
        Node::Not(_) | Node::Finally(_) | Node::Globally(_) | Node::Implies(..) => panic!("a plain rule"),
        other => forest.grow(other),
    }
}

#[cfg(test)]
mod tests {
    use super::*;
    use crate::text::{read, show};

    fn folded(text: &str) -> String {
        let mut forest = Forest::new();
        let tree = read(&mut forest, text);
        let folded = fold(&mut forest, tree);
        show(&forest, folded)
    }

    /// Both constants on the left and on the right of every operator, over a word that stands.
    #[test]
    fn every_clause() {
        for (operator, no_left, yes_left, no_right, yes_right) in [
            ("&", "false", "Xp1", "false", "Xp1"),
            ("|", "Xp1", "true", "Xp1", "true"),
            ("U", "Xp1", "(true U Xp1)", "false", "true"),
            ("W", "Xp1", "true", "(Xp1 W false)", "true"),
            ("R", "(false R Xp1)", "Xp1", "false", "true"),
            ("M", "false", "Xp1", "false", "(Xp1 M true)"),
        ] {
            assert_eq!(folded(&format!("false {operator} Xp1")), no_left);
            assert_eq!(folded(&format!("true {operator} Xp1")), yes_left);
            assert_eq!(folded(&format!("Xp1 {operator} false")), no_right);
            assert_eq!(folded(&format!("Xp1 {operator} true")), yes_right);
            // two constants make one
            for (a, left) in [("false", no_left), ("true", yes_left)] {
                for (b, right) in [("false", no_right), ("true", yes_right)] {
                    let made = folded(&format!("{a} {operator} {b}"));
                    assert!(made == "false" || made == "true");
                    // by either side's clause, where it has one
                    assert!(left.contains(operator) || left.replace("Xp1", b) == made, "{a} {operator} {b}");
                    assert!(right.contains(operator) || right.replace("Xp1", a) == made, "{a} {operator} {b}");
                }
            }
        }
        assert_eq!([folded("X false"), folded("XX true")], ["false", "true"]);
    }

    #[test]
    fn from_the_leaves_upward() {
        for (rule, form) in [
            ("p1", "p1"),
            ("X(p1 & X(p2 | true))", "Xp1"),
            ("(p1 M X false) | (p2 W (p3 U (true R p4)))", "(p2 W (p3 U p4))"),
            ("(p1 U p2) R (p3 & (false M p4))", "false"),
            ("((p1 U p2) W X true) & (true M (p3 R true))", "true"),
            // equal words that are no constants stand
            ("(p1 & p1) U (p1 | p1)", "((p1 & p1) U (p1 | p1))"),
        ] {
            assert_eq!(folded(rule), form);
        }
    }

    /// A tree of 2^60 leaves.
    #[test]
    fn shared_trees_are_folded_once() {
        let mut forest = Forest::new();
        let doubled = |forest: &mut Forest, leaf| (0..60).fold(leaf, |tree, _| forest.grow(Node::And(tree, tree)));
        let [no, yes, letter] = [Node::False, Node::True, Node::Letter(1)].map(|leaf| forest.grow(leaf));
        for (constant, leaf) in [(yes, letter), (no, no)] {
            let both = forest.grow(Node::And(constant, letter));
            let chain = doubled(&mut forest, both);
            let expected = if leaf == no { no } else { doubled(&mut forest, leaf) };
            assert_eq!(fold(&mut forest, chain), expected);
        }
    }
}
