// Replies and slices of the library compared with those of the programs written for clarity, before anything is timed: on the rules of
// source 000, on tables that are damaged in one place or two, and on tables full of constants, with slices that are too short among the
// rest.
use crate::hashmap::{Form, Refused};
use crate::rules::{headed, word, Rule};
use crate::shapes::{alternating, mixed, recording, with_constants, Numbers, FREE, PLAIN, WRITTEN};
use crate::{hashmap, library, moments, typed};
use std::collections::BTreeMap;
use std::fmt::Debug;

// How often each reply was seen, 0 for an accepted call, or the refusal's number; and of the accepted normal forms, how many were the source
// table, and how many were rewritten.
#[derive(Default)]
pub struct Seen {
    pub replies: BTreeMap<u32, usize>,
    pub handed_back: usize,
    pub rewritten: usize,
}

fn same<T: PartialEq + Debug>(seen: &mut Seen, ours: Result<T, Refused>, theirs: Result<T, Refused>) {
    assert_eq!(ours, theirs, "both sides reply alike");
    *seen.replies.entry(ours.err().map_or(0, |refused| refused.0)).or_default() += 1;
}

fn same_form(seen: &mut Seen, ours: Result<Form, Refused>, theirs: Result<Form, Refused>) {
    seen.handed_back += matches!(ours, Ok(Form::Source(_))) as usize;
    seen.rewritten += matches!(ours, Ok(Form::Result(_))) as usize;
    same(seen, ours, theirs);
}

// A table with some words changed, repeated or left out, under a header that counts them, mostly that of the words; at times the header
// is changed, or words are left out under it.
fn damaged(numbers: &mut Numbers, table: Vec<u32>) -> Vec<u32> {
    let words = damaged_words(numbers, table[1..].to_vec());
    let count = (words.len() as u32).min(16383);
    let passes = !words.is_empty() && words.len() <= 16383 && hashmap::check_words(&words, false).is_ok();
    let mut table = if passes { headed(words) } else { [vec![count], words].concat() };
    match numbers.next(30) {
        0 => table[0] ^= 1 << numbers.next(32),
        1 => table[0] = numbers.next(1 << 30) as u32,
        2 => table[0] = table[0] & !0x3FFF | numbers.next(140) as u32,
        3 => table.truncate(numbers.next(table.len() + 1)),
        _ => {}
    }
    table
}

fn damaged_words(numbers: &mut Numbers, mut table: Vec<u32>) -> Vec<u32> {
    for _ in 0..numbers.next(3) {
        let i = numbers.next(table.len());
        let (left, right) = (numbers.next(i + 3), numbers.next(i + 3));
        match numbers.next(6) {
            0 => table[i] = word(numbers.next(16) as u32, left, right),
            1 => table[i] = word(table[i] >> 28, left, right),
            2 => table[i] = word(3 + numbers.next(2) as u32, 0, numbers.next(40)),
            3 => table[i] = table[numbers.next(i + 1)],
            4 => table.truncate(i),
            _ => table[i] &= 0xF000_3FFF,
        }
        if table.is_empty() {
            break;
        }
    }
    table
}

fn checks(seen: &mut Seen, numbers: &mut Numbers, most: usize) {
    for kinds in [&PLAIN[..], &WRITTEN[..]] {
        let n = 1 + numbers.next(most);
        let table = damaged(numbers, mixed(n, kinds));
        for (plain, limit) in [(true, 130), (true, 16383), (false, 64), (false, 16383)] {
            same(seen, library::check(&table, plain, limit), hashmap::check(&table, plain, limit).map(|_| ()));
        }
        let room = (table.len() + numbers.next(3)).saturating_sub(2);
        slices(seen, room, |s| library::classify(&table, s), |s| hashmap::classify(&table, s));
    }
}

// Slices of so many words on both sides, and what a step does to them.
fn slices<W: From<u8> + Copy + PartialEq, T: PartialEq + Debug>(
    seen: &mut Seen, room: usize, ours: impl Fn(&mut [W]) -> Result<T, Refused>, theirs: impl Fn(&mut [W]) -> Result<T, Refused>,
) {
    let (mut one, mut other) = (vec![W::from(7); room], vec![W::from(7); room]);
    same(seen, ours(&mut one), theirs(&mut other));
    assert!(one == other, "both sides leave the slice alike");
}

fn forms(seen: &mut Seen, numbers: &mut Numbers, written: &[u32], plain: &[u32]) {
    for room in [0, 1 + numbers.next(40), 131] {
        slices(seen, room, |s| library::plain_form(written, s), |s| hashmap::plain_form(written, s));
    }
    if !library::FORMS {
        return;
    }
    for room in [0, 1 + numbers.next(900), 16384, 20000] {
        let (mut one, mut other) = (vec![7; room], vec![7; room]);
        same_form(seen, library::normal_form(plain, &mut one), hashmap::normal_form(plain, &mut other));
        assert!(one == other, "both sides leave the slice alike");
        let short = [0, 12, 131][numbers.next(3)];
        let (mut one, mut other) = (vec![7; short], vec![7; short]);
        let (mut form, mut form2) = (vec![7; room], vec![7; room]);
        same_form(seen, library::rule_form(written, &mut one, &mut form), hashmap::rule_form(written, &mut other, &mut form2));
        assert!((one, form) == (other, form2), "both sides leave both slices alike");
    }
}

fn dialects(seen: &mut Seen, numbers: &mut Numbers, most: usize) {
    if !library::DIALECTS {
        return;
    }
    for kinds in [&PLAIN[..], &FREE[..], &WRITTEN[..]] {
        let n = 1 + numbers.next(most);
        let table = damaged(numbers, mixed(n, kinds));
        for room in [0, 1 + numbers.next(2 * n), 2 * n + 3, 16383, 16384, 20000] {
            slices(seen, room, |s| library::dialect(&table, s), |s| hashmap::dialect(&table, s));
        }
    }
}

fn judges(seen: &mut Seen, numbers: &mut Numbers) {
    let n = 1 + numbers.next(80);
    let table = damaged(numbers, mixed(n, &WRITTEN));
    let count = [0, 1, 63, 64, 65, 300, 4096, 4097][numbers.next(8)];
    let samples: Vec<u32> = recording(count).into_iter().map(|sample| sample ^ numbers.next(4) as u32).collect();
    let start = numbers.next(count + 1);
    let room = table.len().saturating_sub(1) * ((count + 63) / 64);
    let driven = [0, 1, 2, 3, 31, 32, 32, 32, 33][numbers.next(9)];
    let recording = library::Recording { samples: &samples, start, driven };
    for room in [room / 2, room, room + 3] {
        let (mut one, mut other) = (vec![7; room], vec![7; room]);
        let theirs = moments::judge(&table, recording, &mut other);
        same(seen, library::judge(&table, recording, &mut one), theirs);
        assert!(one == other, "both sides leave the scratch alike");
    }
}

fn texts(seen: &mut Seen, numbers: &mut Numbers) {
    if library::TEXTS {
        let text = typed::damaged(numbers);
        let room = [0, 1 + numbers.next(20), 64, 65, 70][numbers.next(5)];
        slices(seen, room, |s| library::text(&text, s), |s| typed::read(&text, s));
    }
}

pub fn all(rules: &[Rule]) -> Seen {
    let (mut seen, mut numbers) = (Seen::default(), Numbers(3));
    for rule in rules {
        let mut plain = vec![0; 131];
        let n = hashmap::plain_form(&rule.table, &mut plain).expect("a plain form");
        forms(&mut seen, &mut numbers, &rule.table, &plain[..n]);
    }
    for turn in 0..1500 {
        checks(&mut seen, &mut numbers, if turn % 50 == 0 { 16400 } else { 140 });
        dialects(&mut seen, &mut numbers, if turn % 50 == 0 { 16400 } else { 140 });
        judges(&mut seen, &mut numbers);
        texts(&mut seen, &mut numbers);
        let (n, m) = (1 + numbers.next(if turn % 20 == 0 { 70 } else { 20 }), 1 + numbers.next(if turn % 20 == 0 { 140 } else { 20 }));
        let (written, plain) = (damaged(&mut numbers, mixed(n, &WRITTEN)), damaged(&mut numbers, mixed(m, &PLAIN)));
        forms(&mut seen, &mut numbers, &written, &plain);
        let (n, m) = (5 + numbers.next(10), 5 + numbers.next(10));
        let (written, plain) = (with_constants(&mut numbers, n, &WRITTEN), with_constants(&mut numbers, m, &PLAIN));
        forms(&mut seen, &mut numbers, &written, &plain);
        forms(&mut seen, &mut numbers, &alternating(&written), &alternating(&plain));
    }
    seen
}
