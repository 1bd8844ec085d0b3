//! The normal-form step and the whole way (document 02, N11) over random rules and recordings, by the reference's own judge, checks and
//! classes: whatever is answered is a plain table in Delta-2 that holds where the rule does. A rule of Delta-2 is its own form, however
//! many until-like words it has and however short the result, of which no word is written; any other rule is rewritten.
use reference::checks::{until_like, Refusal};
use reference::edges::headed;
use reference::forest::{Forest, Node};
use reference::header::words;
use reference::limits::Limits;
use reference::listing::bits;
use reference::recording::Recording;
use reference::steps::{check, form, normal, row, Form};

use crate::random::{rule, Numbers, LETTERS};

/// A plain rule with at most five until-like words, half of them with three or more, as any rule outside Delta-2 has; and its denial.
fn rules(numbers: &mut Numbers) -> (Vec<u32>, Vec<u32>) {
    let least = if numbers.below(2) == 0 { 0 } else { 3 };
    loop {
        let mut forest = Forest::new();
        let deep = 1 + numbers.below(7);
        let plain = rule(numbers, &mut forest, deep, &mut 5);
        let denied = forest.grow(Node::Not(plain));
        let table = headed(&bits(&forest, plain));
        if until_like(words(&table)).len() >= least {
            return (table, headed(&bits(&forest, denied)));
        }
    }
}

/// A rule's own row.
fn truth(table: &[u32], recording: Recording) -> u64 {
    let mut scratch = vec![0; words(table).len()];
    let part = row(table, recording, &mut scratch).expect("it can be judged");
    scratch[part.start]
}

/// Whether a table holds where another does, over some recordings.
fn agree(numbers: &mut Numbers, table: &[u32], other: &[u32]) -> bool {
    (0..3).all(|_| {
        let samples: Vec<u32> = (0..1 + numbers.below(6)).map(|_| numbers.below(1 << LETTERS) as u32).collect();
        let recording = Recording { samples: &samples, start: numbers.below(samples.len()), driven: LETTERS };
        truth(table, recording) == truth(other, recording)
    })
}

/// A form passes the checks of a plain table, its header among them, and has the class Delta-2 there.
fn in_delta_2(form: &[u32]) -> bool {
    check(form, true, 16_383).is_ok() && form[0] >> 14 >> 6 & 1 == 1
}

/// The class that a table's header has is right, since the step makes the checks of a table.
fn header_says_delta_2(table: &[u32]) -> bool {
    table[0] >> 14 >> 6 & 1 == 1
}

#[test]
fn normal_forms() {
    let mut numbers = Numbers(11);
    let (mut handed_back, mut rewritten) = (0, 0);
    for _ in 0..2_000 {
        let (table, _) = rules(&mut numbers);
        let mut result = vec![7; 16_384];
        let made = normal(&table, Limits::HIGHEST, &mut result).expect("a form");
        let form = made.part(&table, &result);
        assert!(in_delta_2(form) && agree(&mut numbers, &table, form));
        assert_eq!(made.is_source(), header_says_delta_2(&table));
        let own = until_like(words(&table));
        if made.is_source() {
            handed_back += 1;
            assert!(form == table && result.iter().all(|&word| word == 7));
            let none = Limits { until_like: 0, ..Limits::HIGHEST };
            assert_eq!(normal(&table, none, &mut []), Ok(Form::Source(table.len())));
        } else {
            rewritten += 1;
            assert!(result[made.length()..].iter().all(|&word| word == 7));
            let fewer = Limits { until_like: own.len() - 1, ..Limits::HIGHEST };
            assert_eq!(normal(&table, fewer, &mut []), Err(Refusal { number: 11, place: own[own.len() - 1] }));
            assert_eq!(normal(&table, Limits::HIGHEST, &mut vec![7; made.length() - 1]), Err(Refusal { number: 12, place: 0 }));
        }
    }
    assert!(handed_back > 300 && rewritten > 300, "{handed_back} handed back, {rewritten} rewritten");
}

#[test]
fn whole_ways() {
    let mut numbers = Numbers(12);
    let (mut handed_back, mut rewritten) = (0, 0);
    for _ in 0..1_000 {
        let (_, table) = rules(&mut numbers);
        let (mut plain, mut result) = (vec![7; 515], vec![7; 16_384]);
        let made = form(&table, Limits::HIGHEST, &mut plain, &mut result).expect("a form");
        let form = made.part(&plain, &result);
        assert!(in_delta_2(form) && agree(&mut numbers, &table, form));
        let count = (plain[0] & 0x3FFF) as usize;
        assert_eq!(made.is_source(), header_says_delta_2(&plain));
        if made.is_source() {
            handed_back += 1;
            assert!(form == &plain[..1 + count] && result.iter().all(|&word| word == 7));
        } else {
            rewritten += 1;
        }
    }
    assert!(handed_back > 200 && rewritten > 200, "{handed_back} handed back, {rewritten} rewritten");
}
