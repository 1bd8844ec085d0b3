//! Document 01's "Rules on the desk" and "Misreadings to shut out", held to the reference itself. The tables have their header in front
//! (document 02, N5).
use reference::checks::Refusal;
use reference::limits::Limits;
use reference::recording::Recording;
use reference::steps::*;

/// The normal form of a table.
fn form_of(table: &[u32]) -> Vec<u32> {
    let mut result = [7; 40];
    let form = normal(table, Limits::DESK, &mut result).expect("accepted");
    form.part(table, &result).to_vec()
}

/// The moments at which a rule holds; all letters are driven.
fn moments(table: &[u32], samples: &[u32], start: usize) -> Vec<usize> {
    let mut scratch = vec![0; (table.len() - 1) * samples.len().div_ceil(64)];
    let part = row(table, Recording { samples, start, driven: 32 }, &mut scratch).expect("accepted");
    (0..samples.len()).filter(|i| scratch[part.start + i / 64] >> (i % 64) & 1 == 1).collect()
}

/// The class byte of the last word, which the header has too.
fn class(table: &[u32]) -> u8 {
    let mut bytes = vec![0; table.len() - 1];
    classify(table, &mut bytes).expect("accepted");
    assert_eq!(table[0] >> 14, bytes[bytes.len() - 1].into());
    bytes[bytes.len() - 1]
}

#[test]
fn forms() {
    assert_eq!(form_of(&[0x001FC001, 0x30000001]), [0x001FC001, 0x30000001]);
    // its three words (document 02, N11), where document 01 has it rewritten
    let finally = [0x001E8003, 0x20000000, 0x30000001, 0x80004002];
    assert_eq!(form_of(&finally), finally);
    let rewritten: Vec<u32> = rewritten_words(&finally, Limits::DESK).expect("accepted").iter().map(|w| w.bits()).collect();
    assert_eq!(rewritten, [0x20000000, 0x30000001, 0x80004002, 0x10000000, 0x80004003, 0xA0010005, 0x5000C006, 0x6000C007]);
    let not_finally = [0x00000003, 0x30000001, 0xD0000001, 0xC0000002];
    let mut result = [7; 5];
    assert_eq!(plain(&not_finally, Limits::DESK, &mut result), Ok(4));
    assert_eq!(result, [0x001F0003, 0x10000000, 0x40000001, 0xA0004002, 7]);
}

#[test]
fn refusals() {
    assert_eq!(check(&[1, 0], false, 64), Err(Refusal { number: 3, place: 1 }));
    assert_eq!(check(&[2, 0x20000000, 0x70000000], false, 64), Err(Refusal { number: 5, place: 2 }));
}

#[test]
fn truth() {
    let letters = [0x30000001, 0x30000002];
    assert_eq!(moments(&[2, 0x30000001, 0xE0000001], &[0, 1], 1), [1]);
    assert_eq!(moments(&[2, 0x30000001, 0xD0000001], &[1, 0], 1), [0]);
    assert_eq!(moments(&[0x001F0003, letters[0], letters[1], 0x90004002], &[1], 0), [0]);
    assert!(moments(&[0x001E8003, letters[0], letters[1], 0x80004002], &[1], 0).is_empty());
    // M read as R: p2 M p1 with p1 for ever and never p2 must fail
    assert!(moments(&[0x001E8003, letters[0], letters[1], 0xB0008001], &[1], 0).is_empty());
    assert_eq!(moments(&[0x001F0003, letters[0], letters[1], 0xA0008001], &[1], 0), [0]);
    // a loop that one backward pass closes too early: F p1 at the last moment, p1 at the loop start
    assert_eq!(moments(&[2, 0x30000001, 0xD0000001], &[0, 1, 0], 1), [0, 1, 2]);
}

#[test]
fn classes() {
    let chain = [0x30000001, 0x20000000, 0x80008001, 0x10000000, 0xA0010003, 0x80008005];
    let headed = |header: u32, words: usize| [&[header], &chain[..words]].concat();
    let classes = [class(&headed(0x00180005, 5)), class(&headed(0x001E8003, 3)), class(&headed(0x00000006, 6))];
    assert_eq!(classes, [0x60, 0x7A, 0x00]);
    assert_eq!(class(&[0x001F8002, 0x30000001, 0x70000001]), 0x7E);
}
