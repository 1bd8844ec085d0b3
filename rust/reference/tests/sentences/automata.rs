//! The alternating automaton (document 02, N14) over random rules and recordings: what its states and moves say alone, as words, is held to
//! the reference's own judge.
use reference::class::{Class, Classes};
use reference::edges::headed;
use reference::forest::{Forest, Node, Tree};
use reference::header::words;
use reference::listing::bits;
use reference::recording::Recording;
use reference::steps::{is_delta_2, moved, row, states};
use reference::word::Word;

use crate::random::{rule, Numbers, LETTERS};

/// Every move on every sample, as written words; number 0 is the start.
struct Written {
    states: Vec<Word>,
    moves: Vec<Vec<Vec<Word>>>,
}

fn read(length: usize, result: &[u32]) -> Vec<Word> {
    result[..length].iter().map(|&bits| Word::of(bits)).collect()
}

impl Written {
    fn of(table: &[u32]) -> Written {
        let mut result = vec![7; 16_383];
        let length = states(table, &mut result).expect("a rule in Delta-2");
        let states = read(length, &result);
        let mut move_of = |state, sample| {
            let length = moved(table, state, sample, LETTERS, &mut result).expect("a state and a sample");
            read(length, &result)
        };
        let moves = (0..=states.len()).map(|state| (0..1 << LETTERS).map(|sample| move_of(state, sample)).collect()).collect();
        Written { states, moves }
    }

    /// At each moment, whether the state accepts the recording from it on: a state's move leads to itself and to states before it alone, and
    /// a run may stay in an accepting state for ever.
    fn accepts(&self, recording: Recording) -> Vec<Vec<bool>> {
        let mut accepts: Vec<Vec<bool>> = vec![vec![]];
        for (number, state) in (1..).zip(&self.states) {
            accepts.push(vec![state.kind == 1; recording.len()]);
            // each turn settles one moment more, if there is one to settle
            for _ in 0..=recording.len() {
                let at = |moment: usize| {
                    let written = &self.moves[number][recording.samples[moment] as usize];
                    value(written, |other| accepts[other][recording.after(moment)])
                };
                accepts[number] = (0..recording.len()).map(at).collect();
            }
        }
        accepts
    }

    fn accepted(&self, recording: Recording) -> bool {
        let accepts = self.accepts(recording);
        value(&self.moves[0][0], |state| accepts[state][0])
    }

    /// The states that stand in a state's moves.
    fn followers(&self, number: usize) -> Vec<usize> {
        self.moves[number].iter().flatten().filter(|word| word.kind == 3).map(|word| word.right).collect()
    }

    /// On any path from each state, how often it changes between accepting and other states.
    fn changes(&self) -> Vec<usize> {
        let mut changes = vec![0];
        for number in 1..=self.states.len() {
            let followers = self.followers(number);
            assert!(followers.iter().all(|&other| other <= number), "a state leads to itself and to earlier ones");
            let differs = |other: usize| usize::from(self.states[other - 1].kind != self.states[number - 1].kind);
            let others = followers.iter().filter(|&&other| other < number);
            changes.push(others.map(|&other| changes[other] + differs(other)).max().unwrap_or(0));
        }
        changes
    }
}

/// The value of the last word of a table of kinds 1, 2, 3, 5 and 6.
fn value(written: &[Word], state: impl Fn(usize) -> bool) -> bool {
    let mut values: Vec<bool> = Vec::new();
    for word in written {
        values.push(match word.kind {
            1 | 2 => word.kind == 2,
            3 => state(word.right),
            5 => values[word.left - 1] && values[word.right - 1],
            6 => values[word.left - 1] || values[word.right - 1],
            _ => panic!("a move has no such kind"),
        });
    }
    values[values.len() - 1]
}

/// A random plain rule, cut down to its parts in Delta-2: a word outside it is replaced by its first operand in it.
fn in_delta_2(numbers: &mut Numbers) -> Vec<u32> {
    let mut forest = Forest::new();
    let deep = 1 + numbers.below(6);
    let tree = rule(numbers, &mut forest, deep, &mut 6);
    let trees = forest.trees();
    let classes = Classes::of(&forest, &trees);
    let mut root = tree;
    while !classes.has(Class::Delta(2), root) {
        root = first_operand(&forest, root);
    }
    headed(&bits(&forest, root))
}

fn first_operand(forest: &Forest, tree: Tree) -> Tree {
    let mut operands = Vec::new();
    forest.node(tree).over(|operand| {
        operands.push(operand);
        operand
    });
    operands[0]
}

#[test]
fn accepted_if_the_rule_holds() {
    let mut numbers = Numbers(14);
    let (mut held, mut failed, mut changing, mut both) = (0, 0, 0, 0);
    for _ in 0..2_000 {
        let table = in_delta_2(&mut numbers);
        let written = Written::of(&table);
        for _ in 0..4 {
            let samples: Vec<u32> = (0..1 + numbers.below(5)).map(|_| numbers.below(1 << LETTERS) as u32).collect();
            let recording = Recording { samples: &samples, start: numbers.below(samples.len()), driven: LETTERS };
            let mut scratch = vec![0; words(&table).len()];
            let part = row(&table, recording, &mut scratch).expect("it can be judged");
            let holds = scratch[part.start] & 1 == 1;
            assert_eq!(written.accepted(recording), holds, "{table:08X?} over {samples:?} from {}", recording.start);
            held += u32::from(holds);
            failed += u32::from(!holds);
            every_state(&table, &written, recording);
        }
        let changes = written.changes();
        assert!(changes.iter().all(|&changes| changes <= 1), "{table:08X?}");
        changing += u32::from(changes.contains(&1));
        let proper = words(&table).iter().filter(|&&bits| !matches!(bits >> 28, 1 | 2 | 5 | 6)).count();
        assert!(written.states.len() <= 2 * proper);
        both += u32::from(written.states.len() > proper + 2);
    }
    assert!(held > 1_000 && failed > 1_000 && changing > 300 && both > 300, "{held}, {failed}, {changing}, {both}");
}

/// A state accepts exactly where its word holds.
fn every_state(table: &[u32], written: &Written, recording: Recording) {
    let mut forest = Forest::new();
    let trees = forest.of_words(words(table));
    let truth = reference::recording::Truth::of(&forest, &trees, recording);
    let accepts = written.accepts(recording);
    for (number, state) in (1..).zip(&written.states) {
        assert_eq!(accepts[number], truth.row(trees[state.right - 1]), "state {number} of {table:08X?}");
    }
}

/// Each proper word has a state, one unless two classes are its smallest; kind, class and word are in order.
#[test]
fn states_of_every_proper_word() {
    let mut numbers = Numbers(15);
    for _ in 0..2_000 {
        let table = in_delta_2(&mut numbers);
        assert!(is_delta_2(words(&table)));
        let mut forest = Forest::new();
        let trees = forest.of_words(words(&table));
        let classes = Classes::of(&forest, &trees);
        let mut expected = Vec::new();
        for (number, &tree) in (1..).zip(&trees) {
            if matches!(forest.node(tree), Node::False | Node::True | Node::And(..) | Node::Or(..)) {
                continue;
            }
            let byte = classes.byte(tree);
            let bits = if byte & 0b110 != 0 { [1, 2] } else { [4, 5] };
            expected.extend(
                bits.into_iter()
                    .filter(|bit| byte >> bit & 1 == 1)
                    .map(|bit| Word::new(u32::from(matches!(bit, 2 | 5)), bit, number)),
            );
        }
        assert_eq!(Written::of(&table).states, expected);
    }
}
