//! The step by a sample: every operator over operands whose steps are constants and not; X; remainders that fold; shared words; result slices
//! of exactly the length, one less, and none; every refusal, 22 and 21 in their order; bits beyond the driven ones; the longest tables and
//! the longest remainders; and whole runs, in which each step is handed the last remainder.
use crate::case::{Case, Header, Step, FORM_ROOM};
use crate::forms::{denied, plain_bits, rooms};
use reference::edges::{bits_of, chain_of, chain_of_ands, chain_of_next, constants, headed, limits_for, over_next};
use reference::rules::rules;
use reference::steps::{after_words, Tally};
use reference::word::Word;

pub fn cases() -> Vec<Case> {
    [operators(), folded(), shared(), refused(), driven(), long(), runs(), steps_of_rules()].concat()
}

fn case(label: &str, words: &[u32], sample: u32, driven: usize, room: usize) -> Case {
    let label = format!("{label}, after sample {sample:X} of {driven} letters, room {room}");
    Case { driven, tally: Tally { judged: sample, held: 0 }, ..Case::new(&label, Step::After, words, room) }
}

/// The words of a rule's plain form.
fn plain(text: &str) -> Vec<u32> {
    let words = bits_of(text);
    plain_bits(&words, limits_for(&words))
}

/// The words of what remains; none where the step is refused by another check than 12, or what remains is too long for any slice.
fn remainder(words: &[u32], sample: u32) -> Vec<u32> {
    let made = after_words(&headed(words), sample, 32).unwrap_or_default();
    if made.len() > 16_383 {
        return vec![];
    }
    made.iter().map(|word| word.bits()).collect()
}

/// In slices of many lengths.
fn in_rooms(label: &str, words: &[u32], sample: u32) -> Vec<Case> {
    let length = 1 + remainder(words, sample).len();
    rooms(length, FORM_ROOM).into_iter().map(|room| case(label, words, sample, 32, room)).collect()
}

/// In slices of the length, and of one less.
fn at_its_length(label: &str, words: &[u32], sample: u32) -> [Case; 2] {
    let length = 1 + remainder(words, sample).len();
    [length, length - 1].map(|room| case(label, words, sample, 32, room))
}

/// Each operand's step is false, true, and a word.
fn operators() -> Vec<Case> {
    let mut cases = Vec::new();
    for operator in ["&", "|", "U", "W", "R", "M"] {
        for (left, right) in [("p1", "p2"), ("!p1", "p2"), ("X p1", "p2"), ("p1", "!p2"), ("p1", "X p2"), ("X p3", "X p4")] {
            let rule = format!("({left} {operator} {right})");
            cases.extend((0..4).map(|sample| case(&rule, &plain(&rule), sample, 4, FORM_ROOM)));
        }
        let same = format!("(p1 {operator} p1)");
        cases.extend((0..2).map(|sample| case(&same, &plain(&same), sample, 1, FORM_ROOM)));
    }
    for rule in
        ["false", "true", "p1", "!p1", "X p1", "X !p1", "XX p1", "XXX(p1 U p2)", "X(p2 R X p1)", "X p1 & X p2", "X(p1 & p1)"]
    {
        cases.extend((0..2).flat_map(|sample| in_rooms(rule, &plain(rule), sample)));
    }
    cases
}

/// Idle constants in the rule, in its operands' steps and in the word itself; remainders that fold to a constant.
fn folded() -> Vec<Case> {
    let mut cases = Vec::new();
    for inner in constants() {
        for rule in [inner.clone(), format!("X{inner}"), format!("({inner} U X p2)"), format!("(X p2 R {inner})")] {
            cases.extend((0..2).map(|sample| case(&rule, &plain(&rule), sample, 2, FORM_ROOM)));
        }
    }
    for rule in ["(p1 U p2) | (p1 W X p3)", "(p2 R p1) & (p2 M X p3)", "X(true U (false W (p1 M true)))", "F G p1", "G F p1"] {
        cases.extend((0..4).flat_map(|sample| at_its_length(rule, &plain(rule), sample)));
    }
    cases
}

/// Words that are used twice, and words that the step makes and the rule has already.
fn shared() -> Vec<Case> {
    let rules = [
        "(X p3 U X p4) & X(X p3 U X p4)",
        "(X p3 U X p4) U (X p3 U X p4)",
        "(X p3 M X p4) W (X p3 M X p4)",
        "(X p1 U X p2) | X(p2 | (p1 & (X p1 U X p2)))",
        "(X p1 R X p2) & X(p2 & (p1 | (X p1 R X p2)))",
        "X(p1 U p2) & (p1 U p2)",
        "(p1 U p2) U (p1 U p2)",
    ];
    let mut cases: Vec<Case> =
        rules.iter().flat_map(|rule| [0, 1, 3].into_iter().flat_map(|sample| in_rooms(rule, &plain(rule), sample))).collect();
    // in another order than that of first need: what remains is numbered anew
    for words in [&[0x30000002, 0x30000001, 0x80008001][..], &[0x30000001, 0x70000001, 0x30000002, 0xA000C001, 0x50010002]] {
        cases.extend((0..4).flat_map(|sample| at_its_length("another order", words, sample)));
    }
    cases.extend([0, 1].map(|sample| case("60 ands", &chain_of_ands(60), sample, 1, FORM_ROOM)));
    let mut doubled = chain_of_next(2);
    doubled.extend((2..62).map(|n| Word::new(8, n, n).bits()));
    cases.extend(at_its_length("60 untils, each of the word before with itself", &doubled, 0));
    cases
}

fn refused() -> Vec<Case> {
    let (p1, p2) = (0x30000001, 0x30000002);
    let mut cases = Vec::new();
    let tables: [(&str, &[u32]); 12] = [
        ("no word", &[]),
        ("3", &[0]),
        ("4 before 8", &[p1, 0xC0004001]),
        ("5", &[p1, 0x80004000]),
        ("6", &[p1, 0x80008001]),
        ("7", &[0x30000021]),
        ("8", &[p1, 0x70004001]),
        ("9", &[p1, p1]),
        ("10", &[p1, p2]),
        ("21 at 1", &[p1, 0x70000001]),
        ("21 at 2", &[0x20000000, p2, 0x80004002]),
        ("21 nowhere", &[0x20000000, 0x10000000, 0xB0004002]),
    ];
    for (label, words) in tables {
        for (driven, room) in [(0, 9), (33, 9), (0, 0), (2, 0)] {
            cases.push(case(label, words, 1, driven, room));
        }
    }
    for kind in 1..16 {
        cases.extend([0, 32].map(|driven| case(&format!("kind {kind}"), &denied(kind, 0), 1, driven, 9)));
    }
    // 23 and 24 before 22 and 21
    for header in [0, 0x001F8001, 0x001F8003, 0x001FC002, 0x101F8002] {
        let under = case(&format!("X p1 under header {header:08X}"), &[p1, 0x70000001], 1, 33, 0);
        cases.push(Case { header: Header::Other(header), ..under });
    }
    cases.push(Case { header: Header::None, ..case("empty slice", &[], 1, 33, 0) });
    cases
}

/// Counts at the edges, and bits above the count that are 0, 1 and mixed.
fn driven() -> Vec<Case> {
    // p31 U not p32; p3 or (p2 or not p4), of which the lowest letter above the count is not that of the lowest word
    let highest = [0x3000001F, 0x40000020, 0x80004002];
    let lowest = [0x30000003, 0x30000002, 0x40000004, 0x60008003, 0x60004004];
    // X of a letter names it too
    let next = [0x30000005, 0x70000001];
    let mut cases = Vec::new();
    for (name, words) in [("p31 U not p32", &highest[..]), ("p3 p2 p4", &lowest), ("X p5", &next), ("true", &[0x20000000])] {
        for driven in [0, 1, 2, 3, 4, 5, 30, 31, 32, 33, u32::MAX as usize] {
            let above = if driven < 32 { u32::MAX << driven } else { 0 };
            for sample in [0x9E37_79B9, !above, above] {
                cases.push(case(name, words, sample, driven, 9));
            }
        }
    }
    // every letter by its own bit
    for letter in 1..=32 {
        let words = [Word::new(3, 0, letter).bits()];
        let bit = 1u32 << (letter - 1);
        cases.extend([bit, !bit].map(|sample| case(&format!("p{letter}"), &words, sample, letter, 2)));
    }
    cases
}

/// Chains of X words, of as many words as a table has, and some words over their last ones; and tables of until-like words alone, of which a
/// remainder has three times as many.
fn long() -> Vec<Case> {
    let over = |chain: usize, listed: &[Word], room: usize| {
        let last = listed.last().map_or(7, |word| word.kind);
        let label = format!("{} words, the last of kind {last}", chain + listed.len());
        let listed: Vec<u32> = listed.iter().map(|word| word.bits()).collect();
        Case { chain, ..case(&label, &listed, 1, 1, room) }
    };
    let mut cases: Vec<Case> = [FORM_ROOM, 16_384, 16_383, 16_382, 0].map(|room| over(16_383, &[], room)).into();
    cases.push(over(16_384, &[], FORM_ROOM));
    cases.extend([65, 64].map(|chain| over(chain, &[], chain)));
    cases.extend([64, 65, 512, 513].map(|chain| over(chain, &[Word::new(8, chain, chain - 1)], FORM_ROOM)));
    for kind in 8..12 {
        // remainders of 16,383 words, and of one more: the chain, the word itself and two over it
        cases.extend([FORM_ROOM, 16_384, 16_383].map(|room| over(16_380, &[Word::new(kind, 16_380, 16_379)], room)));
        cases.extend([FORM_ROOM, 16_384].map(|room| over(16_381, &[Word::new(kind, 16_381, 16_380)], room)));
        cases.extend([FORM_ROOM, 16_383].map(|room| over(16_382, &[Word::new(kind, 16_382, 16_382)], room)));
    }
    for kind in 12..16 {
        let word = if kind == 15 { Word::new(15, 16_382, 16_382) } else { Word::new(kind, 0, 16_382) };
        let label = format!("16383 words, the last of kind {kind}");
        cases.push(Case { chain: 16_383, replaced: Some((16_383, word.bits())), ..case(&label, &[], 1, 33, FORM_ROOM) });
    }
    cases.extend([0, 33].map(|driven| Case { chain: 16_383, ..case("16383 words", &[], 1, driven, FORM_ROOM) }));
    for kind in 8..12 {
        for k in [20, 62, 63, 510, 511] {
            cases.extend(
                (0..4).map(|sample| case(&format!("{k} words of kind {kind}"), &chain_of(kind, k), sample, 2, FORM_ROOM)),
            );
        }
        for k in [62, 63, 510, 511] {
            cases.extend(at_its_length(&format!("{k} words of kind {kind} over X"), &over_next(kind, k), 0));
        }
    }
    // remainders of 16,382 words, and of too many for any slice
    for (kind, k, room) in [(8, 5_460, 16_383), (11, 5_460, 16_382), (9, 5_460, 16_384), (10, 5_461, FORM_ROOM)] {
        cases.push(case(&format!("{k} words of kind {kind} over X"), &over_next(kind, k), 0, 1, room));
    }
    cases
}

/// A rule over samples, one after the other, in slices that are as long as the remainder.
fn run(label: &str, words: &[u32], samples: &[u32]) -> Vec<Case> {
    let mut words = words.to_vec();
    let mut cases = Vec::new();
    for (moment, &sample) in samples.iter().enumerate() {
        let remains = remainder(&words, sample);
        cases.push(case(&format!("{label}, followed at moment {moment}"), &words, sample, 32, 1 + remains.len()));
        words = remains;
    }
    cases
}

fn runs() -> Vec<Case> {
    let rules = [
        "p1 U p2",
        "p1 W p2",
        "p2 R p1",
        "p2 M p1",
        // response, precedence, and what stays between two cues
        "G(p1 -> F p2)",
        "G(p1 -> X(p1 U p2))",
        "!p2 W p1",
        "G((p1 & !p2) -> (!p3 W p2))",
        "F p1 -> (!p2 U p1)",
        "G F p1 & F G p2",
        "G(p1 -> X X p2)",
        "(p1 U (p2 U p3)) R (X p1 M p2)",
    ];
    let shows: [&[u32]; 4] = [&[1, 1, 1, 2, 0], &[0, 1, 0, 3, 1, 2], &[3, 1, 5, 0, 4, 7], &[0x8000_0001, 0x8000_0000, 1, 6]];
    rules.iter().flat_map(|rule| shows.iter().flat_map(|samples| run(rule, &plain(rule), samples))).collect()
}

/// Two steps of each rule of source 000's tables, and of its negation.
fn steps_of_rules() -> Vec<Case> {
    let followed = |(n, (name, words)): (usize, (String, Vec<u32>))| {
        let samples = [0, 1].map(|moment| (n as u32).wrapping_mul(0x9E37_79B1) >> (5 * moment + 1));
        run(&name, &plain_bits(&words, limits_for(&words)), &samples)
    };
    rules().into_iter().enumerate().flat_map(followed).collect()
}
