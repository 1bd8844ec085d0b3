//! The dialect without W and M: every kind, written ones refused; W and M nested in every operator and shared; tables that are renumbered
//! only; the longest tables and the longest conversions; result slices that are long enough, of exactly the length, one less, and none.
use crate::case::{Case, Step};
use crate::forms::{denied, rooms};
use reference::edges::{chain_of, chain_of_next, headed, nested};
use reference::limits::Limits;
use reference::steps::{dialect_words, plain_words};
use reference::word::Word;

pub fn cases() -> Vec<Case> {
    let mut cases = Vec::new();
    for (label, words) in tables() {
        let length = dialect_words(&headed(&words)).map_or(0, |made| 1 + made.len());
        let case = |room| Case::new(&format!("{label}, dialect, room {room}"), Step::Dialect, &words, room);
        cases.extend(rooms(length, 16_400).into_iter().map(case));
    }
    for (label, words) in nested(2) {
        let plain: Vec<u32> =
            plain_words(&headed(&words), Limits::DESK).expect("a plain form").iter().map(|w| w.bits()).collect();
        cases.push(Case::new(&format!("{label}, dialect of its plain form"), Step::Dialect, &plain, 16_384));
    }
    cases.extend(long());
    cases
}

fn tables() -> Vec<(String, Vec<u32>)> {
    let mut tables: Vec<(String, Vec<u32>)> = vec![
        ("no word".into(), vec![]),
        ("kind 0".into(), vec![0]),
        ("operand 0".into(), vec![0x20000000, 0x90000001]),
        ("unused".into(), vec![0x20000000, 0x30000001]),
        // renumbered only
        ("p1 U p2, p2 first".into(), vec![0x30000002, 0x30000001, 0x80008001]),
        ("p1 U p2, p1 first".into(), vec![0x30000001, 0x30000002, 0x80004002]),
        ("(p2 R p1) and X p1".into(), vec![0x30000001, 0x70000001, 0x30000002, 0xA000C001, 0x50010002]),
        // one operand twice
        ("p1 W p1".into(), vec![0x30000001, 0x90004001]),
        ("p1 M p1".into(), vec![0x30000001, 0xB0004001]),
        // the or, and the and, of the conversion are there already, and shared
        ("(p1 W p2) and (p1 or p2)".into(), vec![0x30000001, 0x30000002, 0x90004002, 0x60004002, 0x5000C004]),
        ("(p1 M p2) or (p1 and p2)".into(), vec![0x30000001, 0x30000002, 0xB0004002, 0x50004002, 0x6000C004]),
        // a conversion that is there already
        ("(p1 W p2) and (p2 R (p1 or p2))".into(), vec![0x30000001, 0x30000002, 0x60004002, 0xA0008003, 0x90004002, 0x50014004]),
        // a shared W under W and M
        ("w M (w W p3), w is p1 W p2".into(), vec![0x30000001, 0x30000002, 0x90004002, 0x30000003, 0x9000C004, 0xB000C005]),
        // 4 before the faults of the same word, and not before those of an earlier one
        ("kind 12 and operand 0".into(), vec![0x30000001, 0xC0000000]),
        ("operand 0, then kind 15".into(), vec![0x30000001, 0x90004000, 0xF0004002]),
    ];
    tables.extend((1..16).map(|kind| (format!("kind {kind}"), denied(kind, 0))));
    for kind in 8..12 {
        tables.extend([3, 40, 300].map(|k| (format!("{k} words of kind {kind}"), chain_of(kind, k))));
    }
    tables.extend([64, 65, 512, 513].map(|n| (format!("{n} words"), chain_of_next(n))));
    tables
}

/// The longest: a chain of X words, then some over its last ones.
fn long() -> Vec<Case> {
    let case = |chain: usize, listed: &[Word], replaced, room| {
        let words = chain + listed.len();
        let last = listed.last().map_or(7, |word| word.kind);
        let label = format!("{words} words, the last of kind {last}, one replaced {replaced:?}, dialect, room {room}");
        let listed: Vec<u32> = listed.iter().map(|word| word.bits()).collect();
        Case { chain, replaced, ..Case::new(&label, Step::Dialect, &listed, room) }
    };
    let mut cases = vec![case(16_384, &[], None, 16_400)];
    cases.extend([16_400, 16_384, 16_383, 0].map(|room| case(16_383, &[], None, room)));
    for kind in [9, 11] {
        // conversions of 16,383 words, and of one more
        cases.extend([16_400, 16_384, 16_383].map(|room| case(16_381, &[Word::new(kind, 16_381, 16_380)], None, room)));
        cases.extend([16_400, 16_384].map(|room| case(16_382, &[Word::new(kind, 16_382, 16_381)], None, room)));
    }
    for kind in 12..16 {
        let word = if kind == 15 { Word::new(15, 16_382, 16_382) } else { Word::new(kind, 0, 16_382) };
        cases.push(case(16_383, &[], Some((16_383, word.bits())), 16_400));
    }
    cases.push(case(16_383, &[], Some((2, 0xC0000001)), 16_400));
    cases
}
