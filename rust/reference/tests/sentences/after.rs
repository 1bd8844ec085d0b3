//! The step by a sample (document 02, N12) over random rules and recordings, by the reference's own judge and checks: over any number of
//! steps from any moment on, each handed the last remainder and the next sample, what remains holds exactly if the rule held where it was
//! begun with, and no step is refused but by 12.
use reference::checks::Refusal;
use reference::edges::headed;
use reference::fold::fold;
use reference::forest::Forest;
use reference::header::words;
use reference::listing::bits;
use reference::recording::Recording;
use reference::steps::{after, check, row};

use crate::random::{rule, Numbers, LETTERS};

/// At each recorded moment, whether the rule holds.
fn truth(table: &[u32], recording: Recording) -> Vec<bool> {
    let mut scratch = vec![0; words(table).len()];
    let part = row(table, recording, &mut scratch).expect("it can be judged");
    (0..recording.len()).map(|moment| scratch[part.start] >> moment & 1 == 1).collect()
}

/// What remains, in a slice of exactly its length, in one a word longer, and not in one a word shorter.
fn step(table: &[u32], sample: u32) -> Vec<u32> {
    let n = words(table).len();
    let mut result = vec![7; 1 + 3 * n + 3];
    let length = after(table, sample, LETTERS, &mut result).expect("three words for each, and three more");
    assert_eq!(result[length..], vec![7; result.len() - length]);
    result.truncate(length);
    let mut short = vec![7; length - 1];
    assert_eq!(after(table, sample, LETTERS, &mut short), Err(Refusal { number: 12, place: 0 }));
    assert_eq!(short, vec![0; length - 1]);
    result
}

/// A plain rule, a recording of it, and a moment.
fn show(numbers: &mut Numbers) -> (Vec<u32>, Vec<u32>, usize) {
    let mut forest = Forest::new();
    let deep = 1 + numbers.below(6);
    let plain = rule(numbers, &mut forest, deep, &mut 8);
    let samples: Vec<u32> = (0..1 + numbers.below(6)).map(|_| numbers.below(1 << LETTERS) as u32).collect();
    let start = numbers.below(samples.len());
    (headed(&bits(&forest, plain)), samples, start)
}

#[test]
fn what_remains_holds_if_the_rule_held() {
    let mut numbers = Numbers(12);
    let (mut held, mut failed, mut long) = (0, 0, 0);
    for _ in 0..2_000 {
        let (table, samples, start) = show(&mut numbers);
        let recording = Recording { samples: &samples, start, driven: LETTERS };
        let from = numbers.below(samples.len() + 3);
        let moments: Vec<usize> = recording.for_ever().skip(from).take(10).collect();
        let holds = truth(&table, recording)[moments[0]];
        let mut remainder = table;
        for pair in moments.windows(2) {
            // bits above the driven ones are never looked at
            let above = (numbers.below(1 << 30) as u32) << LETTERS;
            remainder = step(&remainder, samples[pair[0]] | above);
            assert_eq!(remainder, folded_again(&remainder), "it is folded, and numbered by first need");
            assert_eq!(check(&remainder, true, 16_383), Ok(()));
            assert_eq!(truth(&remainder, recording)[pair[1]], holds);
            long += u32::from(remainder.len() > 8);
        }
        if holds {
            held += 1;
        } else {
            failed += 1;
        }
    }
    assert!(held > 500 && failed > 500 && long > 500, "{held} held, {failed} failed, {long} long remainders");
}

/// The table folded and numbered once more.
fn folded_again(table: &[u32]) -> Vec<u32> {
    let mut forest = Forest::new();
    let tree = *forest.of_words(words(table)).last().expect("a word");
    let folded = fold(&mut forest, tree);
    headed(&bits(&forest, folded))
}

/// Any table and any driven count: 22 before 21, and neither before the checks of a table.
#[test]
fn refused_by_the_driven_count_alone() {
    let mut numbers = Numbers(13);
    for _ in 0..1_000 {
        let (table, samples, _) = show(&mut numbers);
        let driven = numbers.below(LETTERS + 1);
        let names = |&n: &usize| matches!(table[n] >> 28, 3 | 4) && (table[n] & 0x3FFF) as usize > driven;
        let lowest = (1..table.len()).find(names);
        let (mut result, room) = (vec![7; 1_000], numbers.below(1_000));
        let made = after(&table, samples[0], driven, &mut result[..room]);
        match (lowest, made) {
            (Some(place), made) => assert_eq!(made, Err(Refusal { number: 21, place })),
            (None, Err(refusal)) => {
                assert_eq!((refusal, &result[..room]), (Refusal { number: 12, place: 0 }, &vec![0; room][..]))
            }
            (None, Ok(length)) => assert!(length <= room),
        }
        if lowest.is_some() {
            assert_eq!(result, vec![7; 1_000]);
        }
        assert_eq!(after(&table, samples[0], 33 + numbers.below(9), &mut []), Err(Refusal { number: 22, place: 0 }));
    }
}
