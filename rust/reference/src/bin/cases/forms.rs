//! Plain and normal forms: every operator alone, denied and nested in every other, in Delta-2 and in rules outside it; shared words; the
//! limits on words and until-like words; result slices of exactly the length, one less, none, and longer than any counts for; forms as
//! long as slices count for.
use crate::case::{Case, Step, FORM_ROOM, PLAIN_ROOM};
use reference::edges::{
    alternating, bits_of, chain_of, chain_of_ands, chain_of_next, headed, limits_for, long_forms, nested, outside_words,
};
use reference::limits::Limits;
use reference::steps::{is_delta_2, normal_words, plain_words};
use reference::word::Word;

pub fn cases() -> Vec<Case> {
    let mut cases = Vec::new();
    for (label, words) in tables() {
        cases.extend(every_form(&label, &words, Limits::DESK));
    }
    for (label, words) in outside() {
        cases.extend(rewritten(&label, &words));
    }
    for (n, words) in long_forms() {
        cases.extend(every_form(&format!("form of {n} words"), &words, limits_for(&words)));
    }
    let nested_in =
        |label: &str, words: &[u32]| Case { second: 16_384, ..Case::new(&format!("{label}, whole way"), Step::Form, words, 131) };
    for (label, words) in nested(2) {
        cases.push(nested_in(&label, &words));
        cases.push(nested_in(&format!("{label}, outside Delta-2"), &outside_words(&words)));
    }
    for (label, words) in nested(3).into_iter().filter(|(_, words)| !is_delta_2(&plain_bits(words, Limits::DESK))) {
        cases.push(nested_in(&label, &words));
    }
    cases
}

/// The plain form, the normal form and the whole way of a table with these words.
pub fn every_form(label: &str, words: &[u32], limits: Limits) -> Vec<Case> {
    let plain = plain(label, words, limits).into_iter().map(|case| case.within(limits));
    plain.chain(normal_forms(label, words, limits)).collect()
}

/// The normal form and the whole way.
pub fn normal_forms(label: &str, words: &[u32], limits: Limits) -> Vec<Case> {
    let cases = [normal(label, words, limits), whole(label, words, limits)].concat();
    cases.into_iter().map(|case| case.within(limits)).collect()
}

/// The whole way of a table with these words, and the normal form of its plain form.
pub fn rewritten(label: &str, words: &[u32]) -> Vec<Case> {
    let limits = limits_for(words);
    let cases = [whole(label, words, limits), normal(label, &plain_bits(words, limits), limits)].concat();
    cases.into_iter().map(|case| case.within(limits)).collect()
}

/// The words of the plain form; none where there is none.
pub fn plain_bits(words: &[u32], limits: Limits) -> Vec<u32> {
    plain_words(&headed(words), limits).unwrap_or_default().iter().map(|w| w.bits()).collect()
}

/// The length that a plain table's form has in the result, as far as slices are lent: 0 where nothing is written.
pub fn in_result(plain: &[u32], limits: Limits) -> usize {
    match normal_words(&headed(plain), limits) {
        Ok(Some(form)) => (1 + form.len()).min(FORM_ROOM),
        _ => 0,
    }
}

/// A room that is enough, the exact one, one less, and none. The length counts the header, and is 0 where nothing is made.
pub fn rooms(length: usize, enough: usize) -> Vec<usize> {
    let mut rooms = vec![enough, length, length.saturating_sub(1), 0];
    rooms.dedup();
    rooms
}

fn plain(label: &str, words: &[u32], limits: Limits) -> Vec<Case> {
    let length = plain_words(&headed(words), limits).map_or(0, |form| 1 + form.len());
    let case = |room| Case::new(&format!("{label}, plain form, room {room}"), Step::Plain, words, room);
    rooms(length, PLAIN_ROOM).into_iter().map(case).collect()
}

fn normal(label: &str, words: &[u32], limits: Limits) -> Vec<Case> {
    let case = |room| Case::new(&format!("{label}, normal form, room {room}"), Step::Normal, words, room);
    rooms(in_result(words, limits), FORM_ROOM).into_iter().map(case).collect()
}

/// The whole way, with as much as the limits need, both slices right, either too short by one, and none.
fn whole(label: &str, words: &[u32], limits: Limits) -> Vec<Case> {
    let plain = plain_bits(words, limits);
    let m = in_result(&plain, limits);
    let n = if plain.is_empty() { 0 } else { 1 + plain.len() };
    let case = |&(room, second): &(usize, usize)| Case {
        second,
        ..Case::new(&format!("{label}, whole way, rooms {room} and {second}"), Step::Form, words, room)
    };
    let enough = (1 + limits.plain(), if m > 4_097 { FORM_ROOM } else { 4_097 });
    let mut rooms = vec![enough, (n, m), (n, m.saturating_sub(1)), (n.saturating_sub(1), m), (0, 0)];
    rooms.dedup();
    rooms.iter().map(case).collect()
}

fn tables() -> Vec<(String, Vec<u32>)> {
    let mut tables: Vec<(String, Vec<u32>)> = vec![
        ("no word".into(), vec![]),
        ("kind 0".into(), vec![0]),
        ("operand 0".into(), vec![0x20000000, 0x70000000]),
        ("F p1".into(), vec![0x20000000, 0x30000001, 0x80004002]),
        ("G p1".into(), vec![0x30000001, 0xE0000001]),
        ("not F p1".into(), vec![0x30000001, 0xD0000001, 0xC0000002]),
    ];
    for kind in 1..16 {
        tables.extend((0..3).map(|nots| (format!("kind {kind} under {nots} nots"), denied(kind, nots))));
    }
    tables.extend([64, 65, 130, 131].map(|n| (format!("{n} words"), chain_of_next(n))));
    tables.push(("60 ands".into(), chain_of_ands(60)));
    tables.push(("not and implies".into(), not_and_implies(64)));
    for kind in 8..12 {
        tables.extend([3, 8, 9].map(|k| (format!("{k} words of kind {kind}"), chain_of(kind, k))));
        tables.extend([3, 8, 9].map(|k| (format!("{k} alternating words from kind {kind}"), alternating(kind, k))));
    }
    tables
}

/// Rules outside Delta-2: by three until-like words and by X; the tables above in such rules.
fn outside() -> Vec<(String, Vec<u32>)> {
    let texts =
        ["FGF p1", "G(p1 -> F G p2)", "!FG(p1 -> F p2)", "X(GF p1 & FG p2)", "(GF p1 & FG p2) -> X(p3 W (FG p1 | GF p2))"];
    let mut tables: Vec<(String, Vec<u32>)> = texts.map(|text| (text.to_string(), bits_of(text))).into();
    let mut add = |label: String, words: Vec<u32>| tables.push((format!("{label}, outside Delta-2"), outside_words(&words)));
    for kind in 1..16 {
        (0..3).for_each(|nots| add(format!("kind {kind} under {nots} nots"), denied(kind, nots)));
    }
    add("60 ands".into(), chain_of_ands(60));
    add("not and implies".into(), not_and_implies(64));
    tables
}

/// A word of the kind over letters 1 and 2, under so many nots.
pub fn denied(kind: u32, nots: usize) -> Vec<u32> {
    let mut words = match kind {
        1 | 2 => vec![Word::new(kind, 0, 0)],
        3 | 4 => vec![Word::new(kind, 0, 1)],
        7 | 12 | 13 | 14 => vec![Word::new(3, 0, 1), Word::new(kind, 0, 1)],
        _ => vec![Word::new(3, 0, 1), Word::new(3, 0, 2), Word::new(kind, 1, 2)],
    };
    for _ in 0..nots {
        words.push(Word::new(12, 0, words.len()));
    }
    words.iter().map(|w| w.bits()).collect()
}

/// By turns, not of the word before, and it implies the one before that.
fn not_and_implies(words: usize) -> Vec<u32> {
    let word = |k: usize| if k == 1 || k.is_multiple_of(2) { Word::new(12, 0, k) } else { Word::new(15, k, k - 1) };
    (0..words).map(|k| if k == 0 { 0x3000_0001 } else { word(k).bits() }).collect()
}
