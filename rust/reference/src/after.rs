//! What remains of a rule after a sample (document 02, N12, after source 000's after function), before it is folded (`fold`).
use crate::forest::{Forest, Node, Tree};
use crate::map::TreeMap;

/// What remains of each of these trees, which are plain, given the letters that hold now; operands come before what is made of them. Nothing
/// here calls itself: a rule can be 16,383 words deep.
pub fn after(forest: &mut Forest, trees: &[Tree], holds: impl Fn(usize) -> bool) -> Vec<Tree> {
    let mut remainders: TreeMap<Tree> = TreeMap::default();
    for &tree in trees {
        let of = |operand: Tree| remainders[operand];
        let constant = |holds: bool| if holds { Node::True } else { Node::False };
        let remainder = match forest.node(tree) {
            // a letter or not letter becomes a constant, constants stay
            Node::Letter(n) => forest.grow(constant(holds(n))),
            Node::NotLetter(n) => forest.grow(constant(!holds(n))),
            Node::False | Node::True => tree,
            // and and or go down into their operands, X a becomes a
            Node::And(a, b) => forest.grow(Node::And(of(a), of(b))),
            Node::Or(a, b) => forest.grow(Node::Or(of(a), of(b))),
            Node::Next(a) => a,
            // a U b becomes b' or (a' and (a U b)); W likewise
            Node::Until(a, b) | Node::Weak(a, b) => {
                let both = forest.grow(Node::And(of(a), tree));
                forest.grow(Node::Or(of(b), both))
            }
            // R and M with and, or exchanged
            Node::Release(a, b) | Node::Strong(a, b) => {
                let either = forest.grow(Node::Or(of(a), tree));
                forest.grow(Node::And(of(b), either))
            }
            Node::Not(_) | Node::Finally(_) | Node::Globally(_) | Node::Implies(..) => panic!("a plain rule"),
        };
        remainders.insert(tree, remainder);
    }
    trees.iter().map(|&tree| remainders[tree]).collect()
}

#[cfg(test)]
mod tests {
    use super::*;
    use crate::fold::fold;
    use crate::listing::needed;
    use crate::text::{read, show};

    /// What remains of a rule where these letters hold, before and after it is folded.
    fn remainder(text: &str, letters: &[usize]) -> [String; 2] {
        let mut forest = Forest::new();
        let rule = read(&mut forest, text);
        let trees = needed(&forest, rule);
        let remainder = *after(&mut forest, &trees, |n| letters.contains(&n)).last().expect("a tree");
        let folded = fold(&mut forest, remainder);
        [remainder, folded].map(|tree| show(&forest, tree))
    }

    #[test]
    fn every_operator() {
        for (rule, unfolded, folded) in [
            ("true", "true", "true"),
            ("false", "false", "false"),
            ("p1", "true", "true"),
            ("p2", "false", "false"),
            ("Xp1", "p1", "p1"),
            ("XX true", "Xtrue", "true"),
            ("Xp3 & p1", "(p3 & true)", "p3"),
            ("Xp3 | p2", "(p3 | false)", "p3"),
            ("p1 U p2", "(false | (true & (p1 U p2)))", "(p1 U p2)"),
            ("p2 U p1", "(true | (false & (p2 U p1)))", "true"),
            ("p1 W p2", "(false | (true & (p1 W p2)))", "(p1 W p2)"),
            ("p2 W p2", "(false | (false & (p2 W p2)))", "false"),
            ("p2 R p1", "(true & (false | (p2 R p1)))", "(p2 R p1)"),
            ("p1 R p1", "(true & (true | (p1 R p1)))", "true"),
            ("p2 M p1", "(true & (false | (p2 M p1)))", "(p2 M p1)"),
            ("p1 M p2", "(false & (true | (p1 M p2)))", "false"),
            ("Xp3 U Xp4", "(p4 | (p3 & (Xp3 U Xp4)))", "(p4 | (p3 & (Xp3 U Xp4)))"),
            ("Xp3 W Xp4", "(p4 | (p3 & (Xp3 W Xp4)))", "(p4 | (p3 & (Xp3 W Xp4)))"),
            ("Xp3 R Xp4", "(p4 & (p3 | (Xp3 R Xp4)))", "(p4 & (p3 | (Xp3 R Xp4)))"),
            ("Xp3 M Xp4", "(p4 & (p3 | (Xp3 M Xp4)))", "(p4 & (p3 | (Xp3 M Xp4)))"),
            // the step goes down at the primes alone, and the word itself is folded too
            ("(p1 & X true) U Xp2", "(p2 | ((true & true) & ((p1 & Xtrue) U Xp2)))", "(p2 | (p1 U Xp2))"),
        ] {
            assert_eq!(remainder(rule, &[1]), [unfolded, folded], "{rule}");
        }
        let mut forest = Forest::new();
        let negated = forest.grow(Node::NotLetter(1));
        let remainders = [true, false].map(|holds| after(&mut forest, &[negated], |_| holds)[0]);
        assert_eq!(remainders.map(|tree| forest.node(tree)), [Node::False, Node::True]);
    }
}
