//! Limits that a house sets: 25 at the edges of both ranges, and before every other refusal; tables and texts around the limits on words;
//! until-like words around theirs, ten of them with forms as long as any slice counts for; a house whose limits are small.
use crate::case::{Case, Header, Step, FORM_ROOM, PLAIN_ROOM};
use crate::forms::{every_form, in_result, normal_forms, plain_bits, rooms};
use reference::edges::{alternating, bits_of, chain_of, chain_of_next, long_forms_of_ten};
use reference::limits::Limits;
use reference::steps::text_words;
use reference::word::Word;

pub fn cases() -> Vec<Case> {
    [ranges(), first_of_all(), words(), rewritten_words(), texts(), until_like(), small_house()].concat()
}

fn house(written: usize, until_like: usize) -> Limits {
    Limits { written, until_like }
}

/// The steps that take limits and a table.
const OF_TABLES: [Step; 3] = [Step::Plain, Step::Normal, Step::Form];

fn what(step: Step) -> &'static str {
    match step {
        Step::Plain => "plain form",
        Step::Normal => "normal form",
        _ => "whole way",
    }
}

fn ranges() -> Vec<Case> {
    let mut cases = Vec::new();
    for written in [0, 1, 256, 257, u32::MAX as usize] {
        for until_like in [0, 10, 11, u32::MAX as usize] {
            let limits = house(written, until_like);
            for step in OF_TABLES {
                let case = Case::new(&format!("p1, {}", what(step)), step, &[0x30000001], PLAIN_ROOM);
                cases.push(Case { second: PLAIN_ROOM, ..case.within(limits) });
            }
            cases.push(Case::of_text("text p1", b"p1", PLAIN_ROOM).within(limits));
        }
    }
    cases
}

/// Refused under the desk's limits by each number, and by 25 under others.
fn first_of_all() -> Vec<Case> {
    let (p1, p2) = (0x30000001, 0x30000002);
    let tables = [
        ("1, empty slice", Header::None, vec![]),
        ("1", Header::Other(0), vec![p1]),
        ("2", Header::Other(16_383), vec![p1]),
        ("23", Header::Other(0x001FC002), vec![p1]),
        ("3", Header::Theirs, vec![0]),
        ("4", Header::Theirs, vec![p1, 0xE0000001]),
        ("5", Header::Theirs, vec![p1, 0x70000000]),
        ("6", Header::Theirs, vec![0x70000001]),
        ("7", Header::Theirs, vec![0x30000021]),
        ("8", Header::Theirs, vec![0x30004001]),
        ("9", Header::Theirs, vec![p1, 0x70000001, 0x70000001]),
        ("10", Header::Theirs, vec![p1, p2]),
        ("24", Header::Other(0x00000001), vec![p1]),
        ("11", Header::Theirs, alternating(8, 9)),
    ];
    // 12 of the plain form's slice, of the normal form's, and of either on the whole way
    let too_short = bits_of("FGF p1");
    let too_short = [(Step::Plain, 1, 0), (Step::Normal, 1, 0), (Step::Form, 1, 1), (Step::Form, PLAIN_ROOM, 1)]
        .map(|(step, room, second)| (step, room, second, plain_bits(&too_short, Limits::DESK)));
    let texts = [("20", " ".repeat(1_025)), ("19", "p".into()), ("2", nexts(65))];
    let mut cases = Vec::new();
    for limits in [Limits::DESK, house(0, 8), house(257, 8), house(64, 11)] {
        for step in OF_TABLES {
            for (number, header, words) in &tables {
                let case = Case::new(&format!("before {number}, {}", what(step)), step, words, PLAIN_ROOM);
                cases.push(Case { header: header.clone(), second: PLAIN_ROOM, ..case.within(limits) });
            }
        }
        for (step, room, second, words) in &too_short {
            let label = format!("before 12, {}, rooms {room} and {second}", what(*step));
            cases.push(Case { second: *second, ..Case::new(&label, *step, words, *room).within(limits) });
        }
        for (number, text) in &texts {
            cases.push(Case::of_text(&format!("before {number}, text"), text.as_bytes(), PLAIN_ROOM).within(limits));
        }
        cases.push(Case::of_text("before 12, text", b"p1", 1).within(limits));
    }
    cases
}

/// A text of so many words.
fn nexts(words: usize) -> String {
    format!("{}p1", "X".repeat(words - 1))
}

/// Limits on words, beside the desk's.
const WRITTEN: [usize; 6] = [1, 2, 63, 65, 255, 256];

/// Tables around the limits on words; slices that hold as many words as these allow, and one fewer. They are in Delta-2, so that no word of
/// a result is needed for the normal form.
fn words() -> Vec<Case> {
    let mut cases = Vec::new();
    let mut add = |written, step, chain, room| {
        let case = Case::new(&format!("{} of {chain} words, room {room}", what(step)), step, &[], room);
        cases.push(Case { chain, ..case.within(house(written, 0)) });
    };
    for written in WRITTEN {
        for chain in written - 1..=written + 1 {
            add(written, Step::Plain, chain, PLAIN_ROOM);
            add(written, Step::Form, chain, PLAIN_ROOM);
        }
        for chain in 2 * written + 1..=2 * written + 3 {
            add(written, Step::Normal, chain, 0);
        }
        for short in [0, 1] {
            add(written, Step::Plain, written, 1 + written - short);
            add(written, Step::Form, written, 1 + written - short);
        }
    }
    cases
}

/// Tables outside Delta-2 around the limits on words, F, G and F over a chain; slices of exactly the form's length, and one less; the
/// longest plain form.
fn rewritten_words() -> Vec<Case> {
    let mut cases = Vec::new();
    let mut add = |written, step, chain: usize, listed: &[u32]| {
        let (words, limits) = ([chain_of_next(chain), listed.to_vec()].concat(), house(written, 3));
        let length = match step {
            Step::Normal => in_result(&words, limits),
            _ => in_result(&plain_bits(&words, limits), limits),
        };
        for result in rooms(length, FORM_ROOM) {
            let room = if step == Step::Normal { result } else { PLAIN_ROOM };
            let label = format!("{} of {} words, outside Delta-2, room {result}", what(step), words.len());
            cases.push(Case { chain, second: result, ..Case::new(&label, step, listed, room).within(limits) });
        }
    };
    for written in WRITTEN {
        for chain in (written - 1..=written + 1).filter_map(|words| words.checked_sub(3)).filter(|&chain| chain > 0) {
            let over = [(13, chain), (14, chain + 1), (13, chain + 2)].map(|(kind, n)| Word::new(kind, 0, n).bits());
            add(written, Step::Form, chain, &over);
        }
        for chain in (2 * written + 1..=2 * written + 3).filter_map(|words| words.checked_sub(5)).filter(|&chain| chain > 0) {
            let [yes, no] = [chain + 1, chain + 3];
            let over = [(2, 0, 0), (8, yes, chain), (1, 0, 0), (10, no, chain + 2), (8, yes, chain + 4)];
            add(written, Step::Normal, chain, &over.map(|(kind, left, right)| Word::new(kind, left, right).bits()));
        }
    }
    for written in [64, 256] {
        let label = format!("longest plain form of {written} words");
        cases.extend(every_form(&format!("{label}, in Delta-2"), &longest_plain(written, &[13]), house(written, 0)));
        cases.extend(every_form(&label, &longest_plain(written, &[13, 14, 13]), house(written, 6)));
    }
    cases
}

/// Such prefixes over letter 1, and then implies: every word but the last is needed wanted and denied, and so are both constants, 2 n + 1
/// plain words of n.
fn longest_plain(words: usize, prefixes: &[u32]) -> Vec<u32> {
    let over = |n: usize| match prefixes.get(n - 1) {
        Some(&kind) => Word::new(kind, 0, n),
        None => Word::new(15, n, n),
    };
    (0..words).map(|n| if n == 0 { 0x30000001 } else { over(n).bits() }).collect()
}

/// Texts around the limits on words, and around that on bytes under the highest limits.
fn texts() -> Vec<Case> {
    let mut cases = Vec::new();
    let mut add = |written, name: &str, text: String, room| {
        let case = Case::of_text(&format!("text of {name}, room {room}"), text.as_bytes(), room);
        cases.push(case.within(house(written, 0)));
    };
    for written in WRITTEN {
        for words in (written - 1).max(1)..=written + 1 {
            add(written, &format!("{words} words"), nexts(words), PLAIN_ROOM);
        }
        for room in [1 + written, written] {
            add(written, &format!("{written} words"), nexts(written), room);
        }
    }
    let brackets = format!("{}p1{}", "(p1&".repeat(204), ")".repeat(204));
    for written in [204, 205, 256] {
        add(written, "205 words in brackets", brackets.clone(), PLAIN_ROOM);
    }
    for words in [256, 257] {
        let spaces = |bytes: usize| " ".repeat(bytes - nexts(words).len());
        for bytes in [1_024, 1_025] {
            add(256, &format!("{words} words in {bytes} bytes"), spaces(bytes) + &nexts(words), PLAIN_ROOM);
        }
        add(256, &format!("{words} words, then a fault"), nexts(words) + ")", PLAIN_ROOM);
    }
    add(256, "1023 words in 1024 bytes", nexts(1_023), PLAIN_ROOM);
    cases
}

/// As many until-like words as the limit allows, and one more, and as few as three; in Delta-2 the limit doesn't count. Ten with the longest
/// forms.
fn until_like() -> Vec<Case> {
    let mut cases = Vec::new();
    for until_like in [0, 1, 2, 3, 9, 10] {
        let limits = house(64, until_like);
        for kind in 8..12 {
            for k in until_like.max(3)..=until_like.max(2) + 1 {
                cases.extend(normal_forms(&format!("{k} alternating words from kind {kind}"), &alternating(kind, k), limits));
            }
            for k in [until_like + 1, 20] {
                cases.extend(normal_forms(&format!("{k} words of kind {kind}"), &chain_of(kind, k), limits));
            }
        }
        cases.extend(normal_forms("F p1", &[0x30000001, 0xD0000001], limits));
        cases.extend(normal_forms("FGF p1", &bits_of("FGF p1"), limits));
    }
    for (form_words, words) in long_forms_of_ten() {
        for limits in [Limits::HIGHEST, house(words.len(), 9)] {
            cases.extend(normal_forms(&format!("form of {form_words} words"), &words, limits));
        }
    }
    // ten over as long a chain as a plain table has room for, and as many of one kind as it has room for
    let ten: Vec<u32> = (504..514).map(|n| Word::new(8 + n as u32 % 4, n, 1).bits()).collect();
    let case = Case::new("ten until-like words of 514, normal form", Step::Normal, &ten, FORM_ROOM);
    cases.push(Case { chain: 504, ..case.within(Limits::HIGHEST) });
    for (kind, limits) in (8..12).zip([house(256, 0), house(256, 0), Limits::HIGHEST, house(64, 8)]) {
        let words = chain_of(kind, limits.plain() - 2);
        let label = |room: usize| format!("{} words of kind {kind}, normal form, room {room}", words.len() - 2);
        cases.extend([0, 1].map(|room| Case::new(&label(room), Step::Normal, &words, room).within(limits)));
    }
    cases
}

/// Houses of five words, with one until-like word and with three.
fn small_house() -> Vec<Case> {
    let mut cases = Vec::new();
    for limits in [house(5, 1), house(5, 3)] {
        for text in [
            "p1",
            "Gp1",
            "(p1 W p2)",
            "G(p1->Fp2)",
            "XXXXp1",
            "XXXXXp1",
            "(p1->(p2->p3))",
            "!(p1&Xp2)",
            "FGp1",
            "!XFGp1",
            "FGFp1",
        ] {
            cases.push(Case::of_text(&format!("text {text}"), text.as_bytes(), 6).within(limits));
            let words = text_words(text.as_bytes(), Limits::DESK).expect("a rule");
            let words: Vec<u32> = words.iter().map(|word| word.bits()).collect();
            cases.extend(every_form(text, &words, limits));
        }
        for chain in [12, 13] {
            let case = Case::new(&format!("normal form of {chain} words"), Step::Normal, &[], 13);
            cases.push(Case { chain, ..case.within(limits) });
        }
    }
    cases
}
