//! Reading a table, every refusal 1 to 10 at the first and at the last word that it can have, under the words' header; the class step.
use crate::case::{Case, Step};

/// Words of the chain, the number and the word that is replaced, whether plain only, the limit.
const READING: [(usize, usize, u32, bool, usize); 39] = [
    // the limits
    (0, 0, 0, false, 64),
    (1, 0, 0, false, 64),
    (64, 0, 0, false, 64),
    (65, 0, 0, false, 64),
    (130, 0, 0, true, 130),
    (131, 0, 0, true, 130),
    (16383, 0, 0, true, 16383),
    (16384, 0, 0, true, 16383),
    (16384, 0, 0, true, 20000),
    // 3 to 10 at the first word that each can have
    (1, 1, 0x00000000, false, 64),
    (1, 1, 0xC0000001, true, 64),
    (1, 1, 0x70000000, false, 64),
    (1, 1, 0x50000000, false, 64),
    (1, 1, 0x70000001, false, 64),
    (1, 1, 0x50004000, false, 64),
    (1, 1, 0x30000000, false, 64),
    (1, 1, 0x40000021, false, 64),
    (1, 1, 0x10000001, false, 64),
    (1, 1, 0x30004001, false, 64),
    (2, 2, 0x30000001, false, 64),
    (2, 2, 0x30000002, false, 64),
    // 3 to 10 at the last word that each can have
    (16383, 16383, 0x0FFFFFFF, true, 16383),
    (16383, 16383, 0xD0003FFE, true, 16383),
    (16383, 16383, 0x5FFF8000, true, 16383),
    (16383, 16383, 0x80003FFE, true, 16383),
    (16383, 16383, 0x70003FFF, true, 16383),
    (16383, 16383, 0xBFFFC001, true, 16383),
    (16383, 16383, 0x30003FFF, true, 16383),
    (16383, 16383, 0x20000001, true, 16383),
    (16383, 16383, 0x70003FFD, true, 16383),
    (16383, 16383, 0x20000000, true, 16383),
    (64, 64, 0xE000003F, true, 64),
    (64, 64, 0xE000003F, false, 64),
    // the order of the checks of one word, and the lower word first
    (1, 1, 0x70004000, false, 64),
    (1, 1, 0xC0004000, true, 64),
    (1, 1, 0xC0004000, false, 64),
    (1, 1, 0x50000001, false, 64),
    (1, 1, 0x30004000, false, 64),
    (3, 2, 0x00000000, false, 64),
];

pub fn cases() -> Vec<Case> {
    let mut cases: Vec<Case> = READING.iter().map(|&case| reading(case)).collect();
    let chain = [0x30000001, 0x20000000, 0x80008001, 0x10000000, 0xA0010003, 0x80008005];
    let either = [0x10000000, 0x30000001, 0xA0004002, 0x30000002, 0x30000003, 0x80010005, 0x6000C006];
    let nested =
        [0x20000000, 0x30000001, 0x10000000, 0x30000002, 0x30000003, 0x80004005, 0x60010006, 0xA000C007, 0x50008008, 0x80004009];
    let classes: [(&str, &[u32], usize); 10] = [
        ("class of FGF p1", &chain, 11),
        ("class of GF p1", &chain[..5], 11),
        ("class of F p1", &chain[..3], 11),
        ("class, one byte short", &chain, 5),
        ("class, exactly", &chain, 6),
        ("class, no byte", &chain, 0),
        ("class of X p1", &[0x30000001, 0x70000001], 11),
        ("class of not p1", &[0x30000001, 0xC0000001], 11),
        ("class of G a or (b U c) (002, Example 7)", &either, 11),
        ("class of F (a and G (b or F c)) (002, Example 9)", &nested, 11),
    ];
    cases.extend(classes.map(|(label, words, room)| Case::new(label, Step::Class, words, room)));
    for room in [16_382, 16_383, 16_400] {
        cases.push(Case { chain: 16_383, ..Case::new(&format!("class of 16383 words, {room} bytes"), Step::Class, &[], room) });
    }
    cases
}

fn reading((words, place, word, plain, limit): (usize, usize, u32, bool, usize)) -> Case {
    let only = if plain { ", plain" } else { "" };
    let label = format!("table of {words} words, word {place} is {word:08X}{only}, limit {limit}");
    let replaced = (place > 0).then_some((place, word));
    Case { chain: words, replaced, plain, limit, ..Case::new(&label, Step::Check, &[], 0) }
}
