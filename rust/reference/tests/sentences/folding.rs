//! Folding (document 02, N8) over random rules and recordings, by the reference's own judge and classes: the folded form holds where the
//! rule does, keeps every class of the unfolded one, is never longer, names no other letter, and has nothing left to fold.
use reference::class::Classes;
use reference::edges::headed;
use reference::fold::fold;
use reference::forest::{Forest, Node, Tree};
use reference::limits::Limits;
use reference::listing::{bits, list, needed};
use reference::recording::{Recording, Truth};
use reference::steps::{rewritten_words, unfolded};
use std::collections::BTreeSet;

use crate::random::{rule, Numbers, LETTERS};

fn letters(forest: &Forest, tree: Tree) -> BTreeSet<usize> {
    let letter = |tree: Tree| match forest.node(tree) {
        Node::Letter(n) | Node::NotLetter(n) => Some(n),
        _ => None,
    };
    needed(forest, tree).into_iter().filter_map(letter).collect()
}

fn is_constant(forest: &Forest, tree: Tree) -> bool {
    matches!(forest.node(tree), Node::False | Node::True)
}

/// The only words over a constant that stand are F and G in their four spellings.
fn nothing_to_fold(forest: &Forest, root: Tree) -> bool {
    needed(forest, root).into_iter().all(|tree| match forest.node(tree) {
        Node::Next(a) => !is_constant(forest, a),
        Node::Until(a, b) => forest.node(a) != Node::False && !is_constant(forest, b),
        Node::Release(a, b) => forest.node(a) != Node::True && !is_constant(forest, b),
        Node::Weak(a, b) => !is_constant(forest, a) && forest.node(b) != Node::True,
        Node::Strong(a, b) => !is_constant(forest, a) && forest.node(b) != Node::False,
        Node::And(a, b) | Node::Or(a, b) => !is_constant(forest, a) && !is_constant(forest, b),
        _ => true,
    })
}

#[test]
fn meaning_class_and_length() {
    let mut numbers = Numbers(8);
    let (mut to_true, mut to_false, mut kept) = (0, 0, 0);
    for _ in 0..3_000 {
        let mut forest = Forest::new();
        let deep = 1 + numbers.below(5);
        let source = rule(&mut numbers, &mut forest, deep, &mut 4);
        let table = headed(&bits(&forest, source));
        let (mut forest, form) = unfolded(&table, Limits::DESK).expect("it passes the checks");
        let folded = fold(&mut forest, form);
        let source = *forest.of_words(&table[1..]).last().expect("a word");
        assert_eq!(list(&forest, folded), rewritten_words(&table, Limits::DESK).expect("the same checks"));
        assert!(list(&forest, folded).len() <= list(&forest, form).len());
        assert!(nothing_to_fold(&forest, folded));
        assert_eq!(fold(&mut forest, folded), folded);
        assert!(letters(&forest, folded).is_subset(&letters(&forest, source)));
        let trees: Vec<Tree> = [source, form, folded].into_iter().flat_map(|root| needed(&forest, root)).collect();
        let classes = Classes::of(&forest, &trees);
        assert_eq!(classes.byte(folded) & classes.byte(form), classes.byte(form));
        assert_eq!(classes.byte(form) >> 6 & 1, 1);
        for _ in 0..3 {
            let samples: Vec<u32> = (0..1 + numbers.below(6)).map(|_| numbers.below(1 << LETTERS) as u32).collect();
            let recording = Recording { samples: &samples, start: numbers.below(samples.len()), driven: LETTERS };
            let truth = Truth::of(&forest, &trees, recording);
            assert_eq!(truth.row(source), truth.row(form));
            assert_eq!(truth.row(source), truth.row(folded));
        }
        match forest.node(folded) {
            Node::True => to_true += 1,
            Node::False => to_false += 1,
            _ => kept += 1,
        }
    }
    assert!(to_true > 300 && to_false > 300 && kept > 300, "{to_true} {to_false} {kept}");
}

/// Of every word of a rule, and not only of a form: a folded tree holds where the tree does, is in every class that holds it, and has no
/// longer table.
#[test]
fn every_tree() {
    let mut numbers = Numbers(9);
    for _ in 0..2_000 {
        let mut forest = Forest::new();
        let source = rule(&mut numbers, &mut forest, 6, &mut 40);
        let words = needed(&forest, source);
        let folded: Vec<Tree> = words.iter().map(|&tree| fold(&mut forest, tree)).collect();
        let trees: Vec<Tree> = words.iter().chain(&folded).flat_map(|&root| needed(&forest, root)).collect();
        let classes = Classes::of(&forest, &trees);
        let samples: Vec<u32> = (0..1 + numbers.below(5)).map(|_| numbers.below(1 << LETTERS) as u32).collect();
        let recording = Recording { samples: &samples, start: numbers.below(samples.len()), driven: LETTERS };
        let truth = Truth::of(&forest, &trees, recording);
        for (&tree, &folded) in words.iter().zip(&folded) {
            assert_eq!(truth.row(tree), truth.row(folded));
            assert_eq!(classes.byte(tree) & !classes.byte(folded), 0);
            assert!(list(&forest, folded).len() <= list(&forest, tree).len());
            assert!(nothing_to_fold(&forest, folded));
        }
    }
}
