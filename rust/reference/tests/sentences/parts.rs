//! What a part that holds tells (document 02, N13), over random plain rules and recordings, by the reference's own judge: a part of the
//! unfolded form that holds at moment 0 has chosen only U and M words that hold again and again, and only W and R words that hold from some
//! moment on; and whenever the rule holds, so does the part that has chosen all of those.
use reference::checks::until_like;
use reference::forest::{Forest, Node, Tree};
use reference::listing::bits;
use reference::normal::part;
use reference::recording::{Recording, Truth};

use crate::random::{rule, Numbers, LETTERS};

/// Whether a word holds again and again for ever (U, M), or from some moment on (W, R).
fn lasts(forest: &Forest, truth: &Truth, recording: Recording, tree: Tree) -> bool {
    let mut round = (recording.start..recording.len()).map(|i| truth.row(tree)[i]);
    match forest.node(tree) {
        Node::Until(..) | Node::Strong(..) => round.any(|holds| holds),
        _ => round.all(|holds| holds),
    }
}

#[test]
fn parts_tell() {
    let mut numbers = Numbers(13);
    let (mut held, mut failed, mut chosen_by_held) = (0, 0, 0);
    for _ in 0..3_000 {
        let mut forest = Forest::new();
        let deep = 1 + numbers.below(5);
        let plain = rule(&mut numbers, &mut forest, deep, &mut 4);
        let table = bits(&forest, plain);
        let mut forest = Forest::new();
        let words = forest.of_words(&table);
        let (rule, until_like) = (words[words.len() - 1], until_like(&table));
        let until_like: Vec<Tree> = until_like.iter().map(|n| words[n - 1]).collect();
        let choices: Vec<Vec<Tree>> = (0..1_u32 << until_like.len())
            .map(|c| (0..).zip(&until_like).filter(|(bit, _)| c >> bit & 1 == 1).map(|(_, &tree)| tree).collect())
            .collect();
        let parts: Vec<Tree> = choices.iter().map(|chosen| part(&mut forest, rule, chosen)).collect();
        let samples: Vec<u32> = (0..1 + numbers.below(6)).map(|_| numbers.below(1 << LETTERS) as u32).collect();
        let recording = Recording { samples: &samples, start: numbers.below(samples.len()), driven: LETTERS };
        let truth = Truth::of(&forest, &forest.trees(), recording);
        let lasting: Vec<Tree> = until_like.iter().copied().filter(|&tree| lasts(&forest, &truth, recording, tree)).collect();
        for (chosen, part) in choices.iter().zip(&parts) {
            if truth.row(*part)[0] {
                assert!(
                    chosen.iter().all(|tree| lasting.contains(tree)),
                    "{table:08X?} over {samples:?} from {}",
                    recording.start
                );
                held += 1;
                chosen_by_held += chosen.len();
            }
            if *chosen == lasting {
                assert_eq!(truth.row(*part), truth.row(rule), "{table:08X?} over {samples:?} from {}", recording.start);
                failed += usize::from(!truth.row(rule)[0]);
            }
        }
    }
    assert!(held >= 1_500 && failed >= 500 && chosen_by_held >= 500, "{held} {failed} {chosen_by_held}");
}
