//! The alternating automaton of a rule (document 02, N14, after source 002, section 7.2): its states, its start and its moves.
use crate::class::{Class, Classes, BITS};
use crate::forest::{Forest, Node, Tree};
use crate::map::{Map, TreeMap};

/// A proper word, which is neither constant, and, nor or, with a smallest one of the classes that hold it.
#[derive(Clone, Copy, PartialEq, Eq, Hash, Debug)]
pub struct State {
    pub tree: Tree,
    pub class: Class,
}

impl State {
    /// The accepting states are those with a Pi class.
    pub fn accepting(self) -> bool {
        matches!(self.class, Class::Pi(_))
    }

    /// The bit number of the class.
    pub fn bit(self) -> usize {
        BITS.iter().position(|&class| class == self.class).expect("a class has a bit")
    }
}

/// The classes that a state may have, Sigma left of Pi, in rising bit number.
const STATE_CLASSES: [Class; 4] = [Class::Sigma(1), Class::Pi(1), Class::Sigma(2), Class::Pi(2)];

/// Whether every word of the one class is in the other, by Definition 5 alone: it is the same, or one of a lower level.
fn lies_within(one: Class, other: Class) -> bool {
    let level = |class: Class| match class {
        Class::Zero => 0,
        Class::Sigma(i) | Class::Pi(i) | Class::Delta(i) => i,
    };
    one == other || level(one) < level(other) || (level(one) == level(other) && matches!(other, Class::Delta(_)))
}

fn is_proper(node: Node) -> bool {
    !matches!(node, Node::False | Node::True | Node::And(..) | Node::Or(..))
}

pub struct Automaton {
    trees: Vec<Tree>,
    states: Vec<State>,
    /// Those of each proper word.
    of_tree: TreeMap<Vec<State>>,
    numbers: Map<State, usize>,
}

impl Automaton {
    /// Of the words of a plain Delta-2 table; operands come before what is made of them.
    pub fn of(forest: &Forest, trees: &[Tree]) -> Automaton {
        let classes = Classes::of(forest, trees);
        let smallest = |tree: Tree| -> Vec<State> {
            let held: Vec<Class> = STATE_CLASSES.into_iter().filter(|&class| classes.has(class, tree)).collect();
            let smaller = |class: Class| held.iter().any(|&other| other != class && lies_within(other, class));
            held.iter().filter(|&&class| !smaller(class)).map(|&class| State { tree, class }).collect()
        };
        let proper = trees.iter().copied().filter(|&tree| is_proper(forest.node(tree)));
        let of_tree: TreeMap<Vec<State>> = proper.clone().map(|tree| (tree, smallest(tree))).collect();
        let states: Vec<State> = proper.flat_map(|tree| of_tree[tree].clone()).collect();
        let numbers = states.iter().copied().zip(1..).collect();
        Automaton { trees: trees.to_vec(), states, of_tree, numbers }
    }

    /// In rising word, then class bit; the first is number 1.
    pub fn states(&self) -> &[State] {
        &self.states
    }

    /// The states of a proper word whose class is this one or lies within it.
    fn within(&self, tree: Tree, class: Class) -> Vec<State> {
        self.of_tree[tree].iter().copied().filter(|state| lies_within(state.class, class)).collect()
    }

    /// The rule's own and, or and constants down to its first proper words, each the or of its states.
    pub fn start(&self, forest: &mut Forest) -> Tree {
        self.let_down(forest, Class::Delta(2))[*self.trees.last().expect("a word")]
    }

    /// Every word that lies in a class, let down: constants stay, and and or go down, and a first proper word stands as the or of its states
    /// whose class is this one or lies within it. A state is a letter with its number.
    fn let_down(&self, forest: &mut Forest, class: Class) -> TreeMap<Tree> {
        let mut down: TreeMap<Tree> = TreeMap::default();
        for &tree in &self.trees {
            let node = forest.node(tree);
            let made = if is_proper(node) {
                let states = self.within(tree, class).iter().map(|state| self.letter(forest, *state)).collect();
                or(forest, states)
            } else {
                under(forest, node, &down)
            };
            if let Some(made) = made {
                down.insert(tree, made);
            }
        }
        down
    }

    fn letter(&self, forest: &mut Forest, state: State) -> Tree {
        forest.grow(Node::Letter(self.numbers[&state]))
    }

    /// The move of each state, given the letters that hold now: the step of N12 (`after`), unfolded. Nothing here calls itself: a rule can be
    /// thousands of words deep.
    pub fn moves(&self, forest: &mut Forest, holds: impl Fn(usize) -> bool) -> Vec<Tree> {
        let down = STATE_CLASSES.map(|class| self.let_down(forest, class));
        // of each word in each class: the or of the moves of its states whose class is that one or lies within it
        let mut moved: [TreeMap<Tree>; 4] = Default::default();
        let mut moves: Map<State, Tree> = Map::default();
        let place = |class: Class| STATE_CLASSES.iter().position(|&other| other == class).expect("a class of states");
        for &tree in &self.trees {
            let node = forest.node(tree);
            if is_proper(node) {
                for &state in &self.of_tree[tree] {
                    let at = place(state.class);
                    let itself = self.letter(forest, state);
                    let made = step(forest, node, itself, &down[at], &moved[at], &holds);
                    moves.insert(state, made);
                }
            }
            for (at, class) in STATE_CLASSES.into_iter().enumerate() {
                let made = if is_proper(node) {
                    let states = self.within(tree, class).iter().map(|state| moves[state]).collect();
                    or(forest, states)
                } else {
                    under(forest, node, &moved[at])
                };
                if let Some(made) = made {
                    moved[at].insert(tree, made);
                }
            }
        }
        self.states.iter().map(|state| moves[state]).collect()
    }
}

/// The move of a state of a proper word: its operands as they are let down and moved by the state's class, and the state itself.
fn step(
    forest: &mut Forest,
    node: Node,
    itself: Tree,
    down: &TreeMap<Tree>,
    moved: &TreeMap<Tree>,
    holds: impl Fn(usize) -> bool,
) -> Tree {
    let constant = |holds: bool| if holds { Node::True } else { Node::False };
    match node {
        Node::Letter(n) => forest.grow(constant(holds(n))),
        Node::NotLetter(n) => forest.grow(constant(!holds(n))),
        Node::Next(a) => down[a],
        Node::Until(a, b) | Node::Weak(a, b) => {
            let both = forest.grow(Node::And(moved[a], itself));
            forest.grow(Node::Or(moved[b], both))
        }
        Node::Release(a, b) | Node::Strong(a, b) => {
            let either = forest.grow(Node::Or(moved[a], itself));
            forest.grow(Node::And(moved[b], either))
        }
        _ => panic!("a proper word of a plain rule"),
    }
}

/// A constant, or an and or or of what its operands became; nothing where one of them became nothing.
fn under(forest: &mut Forest, node: Node, of: &TreeMap<Tree>) -> Option<Tree> {
    let node = match node {
        Node::And(a, b) => Node::And(*of.get(a)?, *of.get(b)?),
        Node::Or(a, b) => Node::Or(*of.get(a)?, *of.get(b)?),
        constant => constant,
    };
    Some(forest.grow(node))
}

/// The or of one tree or two; nothing of none.
fn or(forest: &mut Forest, trees: Vec<Tree>) -> Option<Tree> {
    match trees[..] {
        [] => None,
        [one] => Some(one),
        [sigma, pi] => Some(forest.grow(Node::Or(sigma, pi))),
        _ => panic!("a word has at most two states"),
    }
}
