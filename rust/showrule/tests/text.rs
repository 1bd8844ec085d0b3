//! Rules typed as text and printed as text, and what a text that is not read says.
use showrule::{form, from_text, header, to_text, Limits, NotPrinted, Refusal, Rule};

/// What an error prints, and its refusal's number and place.
fn not_read(text: &str) -> (u32, usize, String) {
    let error = text.parse::<Rule>().expect_err("it is no rule");
    assert_eq!(error.text(), text);
    (error.refusal().number(), error.refusal().place(), error.to_string())
}

#[test]
fn rules() {
    let rule: Rule = "G(p1 -> Fp2)".parse().unwrap();
    assert_eq!(*rule, [0x0000_0005, 0x3000_0001, 0x3000_0002, 0xD000_0002, 0xF000_4003, 0xE000_0004]);
    assert_eq!(rule.to_string(), "G(p1 -> Fp2)");
    assert_eq!(format!("{rule:?}"), "Rule(G(p1 -> Fp2))");
    assert_eq!(" G ( p1->F p2 ) ".parse(), Ok(rule));
    let every = "((true U false) & ((p1 W p32) | ((Xp2 R Fp3) -> (G!p4 M !!p5))))";
    assert_eq!(every.parse::<Rule>().unwrap().to_string(), every);
    let (mut plain, mut result) = ([0; 131], [0; 4097]);
    let of_text = form(&rule, Limits::DESK, &mut plain, &mut result).unwrap().to_vec();
    let table = [0x0000_0005, 0x3000_0002, 0xD000_0001, 0x3000_0001, 0xF000_C002, 0xE000_0004];
    assert_eq!(form(&table, Limits::DESK, &mut plain, &mut result).unwrap(), of_text);
}

#[test]
fn carets() {
    let (number, place, said) = not_read("(p1 U p33)");
    assert_eq!((number, place), (19, 9));
    assert_eq!(said, "no rule begins as the text does up to its byte 9\n  (p1 U p33)\n          ^");
    let (number, place, said) = not_read("(p1 U p2");
    assert_eq!((number, place), (19, 9));
    assert_eq!(said, "the text ends before its rule does: byte 9 is missing\n  (p1 U p2\n          ^");
    let said = "no rule begins as the text does up to its byte 4 (a two-sided operator and its operands stand in round brackets)";
    assert_eq!(not_read("p1 U p2").2, format!("{said}\n  p1 U p2\n     ^"));
    let said = "no rule begins as the text does up to its byte 3 (only spaces may stand round symbols)";
    assert_eq!(not_read("p1\n").2, format!("{said}\n  p1?\n    ^"));
    assert_eq!(not_read("").2, "the text ends before its rule does: byte 1 is missing\n  \n  ^");
}

/// The caret's column under the text, and the text as it is shown.
fn shown(text: &str) -> (usize, String) {
    let said = not_read(text).2;
    let lines: Vec<&str> = said.lines().collect();
    assert_eq!(lines.len(), 3, "{said}");
    (lines[2].len() - "  ^".len(), lines[1]["  ".len()..].to_string())
}

#[test]
fn other_characters_take_one_column() {
    assert_eq!(shown("p1\n"), (2, "p1?".into()));
    assert_eq!(shown("(p1\tU p2)"), (3, "(p1?U p2)".into()));
    assert_eq!(shown("(p1 → p2)"), (4, "(p1 ? p2)".into()));
    assert_eq!(shown("é"), (0, "?".into()));
    assert_eq!(shown("p1\u{7f}"), (2, "p1?".into()));
}

#[test]
fn refusals() {
    let long = format!("p1{}", " ".repeat(1_023));
    assert_eq!(not_read(&long), (20, 0, "the text has 1025 bytes, and at most 1024 are read".into()));
    assert!(long[..1_024].parse::<Rule>().is_ok());
    let many = format!("{}p1", "X".repeat(64));
    assert_eq!(
        not_read(&many),
        (2, 0, "the table of the text has more words than the limit of 64: make the rule shorter".into())
    );
    assert_eq!(not_read(&format!("{many})")).0, 19);
    let from_text = |text, result: &mut [u32]| from_text(text, Limits::DESK, result).map(|table| table.to_vec());
    let mut result = [7; 20];
    assert_eq!(from_text(many.as_bytes(), &mut result), Err(Refusal::TextOfTooManyWords { limit: 64 }));
    assert_eq!(from_text(b"p", &mut result), Err(Refusal::NoRule { place: 2, ends_early: true }));
    assert_eq!(from_text(b"p 1", &mut result), Err(Refusal::NoRule { place: 2, ends_early: false }));
    assert_eq!(result, [7; 20]);
    assert_eq!(from_text(b"Xp1", &mut result).unwrap(), [0x001F_8002, 0x3000_0001, 0x7000_0001]);
    assert_eq!(result[3..], [7; 17]);
    assert_eq!(from_text(&many.as_bytes()[46..], &mut result).unwrap().len(), 20);
    assert_eq!(from_text(&many.as_bytes()[45..], &mut result), Err(Refusal::ResultTooShort { room: 20 }));
    assert_eq!(result, [0; 20]);
}

#[test]
fn limits() {
    let typed = |words: usize| format!("{}p1", "X".repeat(words - 1));
    for limits in [Limits { written: 1, until_like: 0 }, Limits::DESK, Limits::HIGHEST] {
        let longest = Rule::read(&typed(limits.written), limits).unwrap();
        assert_eq!((longest.len(), longest.to_string()), (limits.written_room(), typed(limits.written)));
        let refusal = Refusal::TextOfTooManyWords { limit: limits.written };
        assert_eq!(Rule::read(&typed(limits.written + 1), limits).unwrap_err().refusal(), refusal);
    }
    let outside = Rule::read("(", Limits { written: 257, ..Limits::DESK }).unwrap_err();
    assert_eq!(outside.to_string(), "the limit on written words is 257, and a house may set 1 to 256");
}

#[test]
fn printing() {
    assert_eq!(to_text(&[0x001F_C001, 0x4000_0020], 4).unwrap(), "!p32");
    assert_eq!(to_text(&[0x001F_C001, 0x4000_0020], 3), Err(NotPrinted::TooLong { bytes: 4, limit: 3 }));
    let refused = to_text(&[0x0000_0002, 0x2000_0000, 0x7000_0000], 100).unwrap_err();
    assert_eq!(refused.to_string(), "word 2 names no operand: its right field is 0");
    // each word the one before with itself: 7 * 2^n - 5 bytes
    let ands = |n: u32| {
        let words = (0..=n).map(|n| if n == 0 { 0x3000_0001 } else { 0x5000_0000 + (n << 14) + n });
        [header(0x7F, n as usize + 1)].into_iter().chain(words).collect::<Vec<u32>>()
    };
    assert_eq!(to_text(&ands(17), 1 << 20).unwrap().len(), 917_499);
    let too_long = to_text(&ands(18), 1 << 20).unwrap_err();
    assert_eq!(too_long.to_string(), "the text of the table would have 1835003 bytes, and the limit is 1048576");
    let endless = to_text(&ands(1_000), usize::MAX).unwrap_err();
    assert!(endless.to_string().contains("18446744073709551615 bytes or more"));
}
