//! Headers that are missing, damaged, or not those of the words after them, in every step that takes a table; and where 23 and 24 stand
//! among the other checks.
use crate::case::{Case, Header, Samples, Step};
use reference::edges::{alternating, chain_of, chain_of_next};
use reference::steps::Tally;

/// A name; before the words, a header or nothing; the words.
type Table = (String, Option<u32>, Vec<u32>);

pub fn cases() -> Vec<Case> {
    let mut cases = Vec::new();
    for (label, header, words) in tables() {
        let header = header.map_or(Header::None, Header::Other);
        let case = |what: &str, step: Step, room: usize| {
            let case = Case::new(&format!("header, {label}, {what}"), step, &words, room);
            Case { header: header.clone(), second: room, plain: false, limit: 64, ..judged(case) }
        };
        cases.push(case("check", Step::Check, 0));
        cases.push(Case { plain: true, limit: 130, ..case("check, plain", Step::Check, 0) });
        cases.push(Case { limit: 16_383, ..case("check, limit 16383", Step::Check, 0) });
        cases.push(Case { limit: 1, ..case("check, limit 1", Step::Check, 0) });
        for room in [140, 0] {
            let what = |step: &str| format!("{step}, room {room}");
            cases.push(case(&what("class"), Step::Class, room));
            cases.push(case(&what("plain form"), Step::Plain, room));
            cases.push(case(&what("normal form"), Step::Normal, room));
            cases.push(case(&what("whole way"), Step::Form, room));
            cases.push(case(&what("dialect"), Step::Dialect, room));
            cases.push(case(&what("step by a sample"), Step::After, room));
            cases.push(case(&what("states"), Step::States, room));
            cases.push(case(&what("move"), Step::Move, room));
            cases.push(case(&what("judge"), Step::Judge, room));
            cases.push(case(&what("row"), Step::Row, room));
        }
        // 24 before 13, 15 and 22
        cases.push(Case { samples: Samples::Listed(vec![]), start: 9, driven: 33, ..case("judge, no sample", Step::Judge, 0) });
    }
    cases
}

/// Over three samples that drive all letters.
fn judged(case: Case) -> Case {
    Case { samples: Samples::Listed(vec![1, 0, 3]), start: 1, driven: 32, tally: Tally { judged: 5, held: 2 }, ..case }
}

fn tables() -> Vec<Table> {
    let (p1, p2) = (0x30000001, 0x30000002);
    let named = [
        // 1: an empty slice, a count of 0
        ("empty slice", None, vec![]),
        ("0 alone", Some(0), vec![]),
        ("0", Some(0), vec![p1]),
        ("count 0, class 7F", Some(0x001FC000), vec![p1]),
        ("count 0, kind 15", Some(0xF0000000), vec![p1]),
        ("no header, true first", None, vec![0x20000000, 0x70000001]),
        // 23: cut, or too long; 2 is before it
        ("alone", Some(0x001FC001), vec![]),
        ("count 2, 1 word", Some(0x001FC002), vec![p1]),
        ("count 1, 2 words", Some(0x001F8001), vec![p1, 0x70000001]),
        ("count 16383, 1 word", Some(0x001FFFFF), vec![p1]),
        ("count 65, 1 word", Some(0x001FC041), vec![p1]),
        ("count 131, 1 word", Some(0x001FC083), vec![p1]),
        ("count 64, 65 words", Some(0x001F8040), chain_of_next(65)),
        ("count 65, 64 words", Some(0x001F8041), chain_of_next(64)),
        ("count 130, 131 words", Some(0x001F8082), chain_of_next(131)),
        ("count 131, 130 words", Some(0x001F8083), chain_of_next(130)),
        ("no header, p1 first", None, vec![p1, 0x70000001]),
        ("all bits", Some(0xFFFFFFFF), vec![p1]),
        // 23 before 3, and the words before 24
        ("count 2, a word of kind 0", Some(0x00000002), vec![0]),
        ("a word of kind 0, kind 1", Some(0x10000001), vec![0]),
        ("operand 0 at 2, class 7F", Some(0x001FC002), vec![p1, 0x70000000]),
        ("unused, class 01", Some(0x00004002), vec![p1, p2]),
        // 24 before 11, and before the form of a rule in Delta-2
        ("nine until-like words, class 01", Some(0x0000400B), alternating(8, 9)),
        ("nine until-like words, class 40", Some(0x0010000B), alternating(8, 9)),
        ("nine until-like words", Some(0x0000000B), alternating(8, 9)),
        ("nine words of U, class 0", Some(0x0000000B), chain_of(8, 9)),
        ("nine words of U, class 40", Some(0x0010000B), chain_of(8, 9)),
        ("nine words of U", Some(0x001E800B), chain_of(8, 9)),
        // the class of a written table is 0, wherever its written words stand
        ("G p1, class 7F", Some(0x001FC002), vec![p1, 0xE0000001]),
        ("G p1, class 7C", Some(0x001F0002), vec![p1, 0xE0000001]),
        ("G p1", Some(0x00000002), vec![p1, 0xE0000001]),
        ("X not p1, class 7E", Some(0x001F8003), vec![p1, 0xC0000001, 0x70000002]),
        ("X not p1", Some(0x00000003), vec![p1, 0xC0000001, 0x70000002]),
        ("F p1 implies F p1, class 0", Some(0x00000003), vec![p1, 0xD0000001, 0xF0008002]),
        // a plain table of class 0
        ("FGF p1", Some(0x00000006), vec![p1, 0x20000000, 0x80008001, 0x10000000, 0xA0010003, 0x80008005]),
        ("FGF p1, class 40", Some(0x00100006), vec![p1, 0x20000000, 0x80008001, 0x10000000, 0xA0010003, 0x80008005]),
        ("F p1", Some(0x001E8003), vec![0x20000000, p1, 0x80004002]),
        ("F p1, class of its first word", Some(0x001FC003), vec![0x20000000, p1, 0x80004002]),
        ("F p1, class 0", Some(0x00000003), vec![0x20000000, p1, 0x80004002]),
        ("p1, class 0", Some(0x00000001), vec![p1]),
    ];
    let mut tables: Vec<Table> = named.into_iter().map(|(name, header, words)| (name.to_string(), header, words)).collect();
    // every bit of kind and class
    tables.extend((14..32).map(|bit| (format!("p1, bit {bit} other"), Some(0x001FC001 ^ 1 << bit), vec![p1])));
    tables
}
