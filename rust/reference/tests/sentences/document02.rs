//! Document 02's sentences about texts (N1), driven letters (N3), the dialect without W and M (N4), the header (N5), the limits that a
//! house sets (N6), the order of the parts (N7), folding (N8), the tallies (N9), two recordings (N10), rules already in the form (N11),
//! following a show (N12) and watching automata (N14), held to the reference itself.
use reference::checks::Refusal;
use reference::edges::{alternating, chain_of, chain_of_ands, chain_of_next, headed, over_next};
use reference::limits::Limits;
use reference::recording::Recording;
use reference::steps::{
    after, check, classify, compare, dialect, form, judge, moved, normal, plain, plain_words, rewritten_words, row, states, text,
    Form, Tally,
};
use reference::word::Word;

/// The table of a text, or its refusal's number and place, with so much room.
fn read(typed: &str, room: usize) -> Result<Vec<u32>, (u32, usize)> {
    let mut result = vec![7; room];
    let made = text(typed.as_bytes(), Limits::DESK, &mut result);
    match made {
        Ok(words) => assert!(result[words..].iter().all(|&word| word == 7)),
        Err(Refusal { number: 12, .. }) => assert!(result.iter().all(|&word| word == 0)),
        Err(_) => assert!(result.iter().all(|&word| word == 7)),
    }
    made.map(|words| result[..words].to_vec()).map_err(|Refusal { number, place }| (number, place))
}

#[test]
fn numbered_by_first_need_with_sharing() {
    assert_eq!(read("!p1", 65), Ok(vec![0x0000_0002, 0x3000_0001, 0xC000_0001]));
    assert_eq!(read("(p2 -> p1)", 65), Ok(vec![0x0000_0003, 0x3000_0002, 0x3000_0001, 0xF000_4002]));
    assert_eq!(read("((p1 & p1) U (p1 & p1))", 65), Ok(vec![0x001E_8003, 0x3000_0001, 0x5000_4001, 0x8000_8002]));
    let or = vec![0x0000_0005, 0x2000_0000, 0xE000_0001, 0x1000_0000, 0xD000_0003, 0x6000_8004];
    assert_eq!(read(" ( G true|Ffalse ) ", 65), Ok(or));
    let every = "(((p1 & p2) | (p3 U p4)) -> ((p5 W p6) R (p7 M X!p8)))";
    let kinds: Vec<u32> = read(every, 65).expect("a rule").iter().map(|word| word >> 28).collect();
    assert_eq!(kinds, [0, 3, 3, 5, 3, 3, 8, 6, 3, 3, 9, 3, 3, 12, 7, 11, 10, 15]);
}

#[test]
fn the_order_of_refusals() {
    let prefixes = |n: usize| format!("{}p1", "X".repeat(n));
    // 20 is checked first, then 19, then 2, then 12
    assert_eq!(read(&prefixes(1_023), 0), Err((20, 0)));
    assert_eq!(read(&"x".repeat(1_025), 65), Err((20, 0)));
    assert_eq!(read(&"x".repeat(1_024), 65), Err((19, 1)));
    assert_eq!(read(&format!("{})", prefixes(69)), 10), Err((19, 72)));
    assert_eq!(read(&prefixes(69), 10), Err((2, 0)));
    assert_eq!(read(&prefixes(19), 10), Err((12, 0)));
    assert_eq!(read(&prefixes(64), 65), Err((2, 0)));
    assert_eq!(read(&prefixes(63), 65).map(|table| table.len()), Ok(65));
    assert_eq!(read(&prefixes(63), 64), Err((12, 0)));
    assert_eq!(read("", 0), Err((19, 1)));
}

/// N3: number and place of a row call over one sample, and the row's word where it is accepted.
fn row_of(table: &[u32], sample: u32, start: usize, driven: usize, room: usize) -> Result<u64, (u32, usize)> {
    let mut scratch = vec![7; room];
    let part = row(table, Recording { samples: &[sample], start, driven }, &mut scratch).map_err(|r| (r.number, r.place))?;
    Ok(scratch[part.start])
}

#[test]
fn undriven_letters_are_turned_away() {
    // p3 or not p5
    let or = [0x001F_C003, 0x3000_0003, 0x4000_0005, 0x6000_4002];
    assert_eq!([0, 2, 4].map(|driven| row_of(&or, 0, 0, driven, 3)), [Err((21, 1)), Err((21, 1)), Err((21, 2))]);
    assert_eq!([5, 32].map(|driven| row_of(&or, 0, 0, driven, 3)), [Ok(1), Ok(1)]);
    // after 15; before 16
    assert_eq!(row_of(&or, 0, 0, 33, 0), Err((22, 0)));
    assert_eq!(row_of(&or, 0, 1, 33, 3), Err((15, 0)));
    assert_eq!(row_of(&or, 0, 0, 2, 0), Err((21, 1)));
    assert_eq!(row_of(&or, 0, 0, 5, 2), Err((16, 0)));
    // a constant with nothing driven
    assert_eq!(row_of(&[0x001F_C001, 0x2000_0000], 0, 0, 0, 1), Ok(1));
    // bits above the count are never looked at
    assert_eq!(row_of(&or, 0b01_0000, 0, 5, 3), row_of(&or, 0xFFFF_FFE0 | 0b01_0000, 0, 5, 3));
}

/// The words of a conversion of these words, or its refusal's number and place, with room for so many.
fn converted(words: &[u32], room: usize) -> Result<Vec<u32>, (u32, usize)> {
    let mut result = vec![7; 1 + room];
    let made = dialect(&headed(words), &mut result);
    match made {
        Ok(length) => assert!(result[length..].iter().all(|&word| word == 7)),
        Err(Refusal { number: 12, .. }) => assert!(result.iter().all(|&word| word == 0)),
        Err(_) => assert!(result.iter().all(|&word| word == 7)),
    }
    let length = made.map_err(|Refusal { number, place }| (number, place))?;
    assert_eq!(result[..length], headed(&result[1..length]));
    Ok(result[1..length].to_vec())
}

#[test]
fn without_weak_and_strong() {
    let (p1, p2) = (0x3000_0001, 0x3000_0002);
    // p1 W p2 is p2 R (p1 or p2), p1 M p2 is p2 U (p1 and p2): p2 first, then p1, the or or the and, and the R or U
    assert_eq!(converted(&[p1, p2, 0x9000_4002], 9), Ok(vec![p2, p1, 0x6000_8001, 0xA000_4003]));
    assert_eq!(converted(&[p1, p2, 0xB000_4002], 9), Ok(vec![p2, p1, 0x5000_8001, 0x8000_4003]));
    // p1 W p1 is p1 R (p1 or p1)
    assert_eq!(converted(&[p1, 0x9000_4001], 3), Ok(vec![p1, 0x6000_4001, 0xA000_4002]));
    // a table that is free of both is renumbered only, and one in the order of first need stays
    assert_eq!(converted(&[p2, p1, 0x8000_8001], 3), Ok(vec![p1, p2, 0x8000_4002]));
    assert_eq!(converted(&[p1, p2, 0x8000_4002], 3), Ok(vec![p1, p2, 0x8000_4002]));
}

#[test]
fn refused_conversions() {
    let (p1, p2) = (0x3000_0001, 0x3000_0002);
    for kind in [12, 13, 14] {
        assert_eq!(converted(&[p1, (kind << 28) + 1], 9), Err((4, 2)));
    }
    assert_eq!(converted(&[p1, p2, 0xF000_4002], 9), Err((4, 3)));
    assert_eq!(converted(&[p1, p2, 0x9000_4002], 3), Err((12, 0)));
    // no header can say 16,384
    assert_eq!(converted(&chain_of_next(16_384), 16_384), Err((23, 0)));
    assert_eq!(converted(&chain_of_next(16_383), 16_383), Ok(chain_of_next(16_383)));
    assert_eq!(converted(&chain_of_next(16_383), 16_382), Err((12, 0)));
    // two words for each W, one of which is too many for the fields
    assert_eq!(converted(&chain_of(9, 8_190), 16_383).map(|words| words.len()), Ok(16_382));
    assert_eq!(converted(&chain_of(9, 8_191), 20_000), Err((12, 0)));
}

/// N5: number and place of a check, (0, 0) where it is accepted.
fn checked(table: &[u32], plain_only: bool, limit: usize) -> (u32, usize) {
    check(table, plain_only, limit).map_or_else(|refusal| (refusal.number, refusal.place), |()| (0, 0))
}

const ALWAYS: [u32; 3] = [0x0000_0002, 0x3000_0001, 0xE000_0001];

#[test]
fn always_is_listed_with_its_header() {
    let (mut plain, mut result) = ([7; 131], [7; 4_097]);
    // N11's listing, and no word of the result is written
    assert_eq!(form(&ALWAYS, Limits::DESK, &mut plain, &mut result), Ok(Form::Source(4)));
    assert_eq!(plain[..5], [0x001F_0003, 0x1000_0000, 0x3000_0001, 0xA000_4002, 7]);
    assert_eq!(result, [7; 4_097]);
    // N8's listing, which it had before
    let rewritten = rewritten("Gp1");
    assert_eq!(headed(&rewritten)[0], 0x0014_0009);
    assert_eq!(rewritten[..4], [0x1000_0000, 0x3000_0001, 0xA000_4002, 0xB000_C002]);
    assert_eq!(rewritten[4..], [0x2000_0000, 0xA000_4003, 0x8001_4006, 0x5001_0007, 0x6001_0008]);
}

#[test]
fn headers_are_checked_in_their_places() {
    // 1: an empty slice, or a count of 0, whatever else there is
    for table in [&[][..], &[0], &[0, 0x3000_0001], &[0xFFFF_C000, 0x3000_0001], &[0x2000_0000, 0x3000_0001]] {
        assert_eq!(checked(table, false, 64), (1, 0));
    }
    // 2 measures the count; 23 comes straight after it, and before the words
    assert_eq!([checked(&[65, 0], false, 64), checked(&[0xFFFF_FFFF, 0], false, 64)], [(2, 0); 2]);
    assert_eq!([checked(&[64, 0], false, 64), checked(&[2, 0], false, 64), checked(&[1], false, 64)], [(23, 0); 3]);
    assert_eq!([checked(&[1, 0, 0], false, 64), checked(&[0x1000_0001, 0, 0], false, 64)], [(23, 0); 2]);
    assert_eq!(checked(&[vec![64], vec![0; 65]].concat(), false, 64), (23, 0));
    assert_eq!(checked(&[2, 0], false, 0), (2, 0));
    // words are numbered from 1 after the header, and come before 24
    assert_eq!(checked(&[0xF000_0001, 0], false, 64), (3, 1));
    assert_eq!(checked(&[0x0000_4002, 0x3000_0001, 0x7000_0002], false, 64), (6, 2));
    assert_eq!(checked(&[0x0000_4002, 0x3000_0001, 0x3000_0002], false, 64), (10, 1));
    // 24: kind, then class
    let under = |header: u32| checked(&[header, ALWAYS[1], ALWAYS[2]], false, 64);
    assert_eq!([0x1000_0002, 0x0000_4002, 0x001F_0002].map(under), [(24, 0); 3]);
    assert_eq!(checked(&ALWAYS, false, 64), (0, 0));
    assert_eq!([0, 0x001F_8000, 0x003F_C000].map(|class| checked(&[class + 1, 0x3000_0001], true, 64)), [(24, 0); 3]);
    assert_eq!(checked(&[0x001F_C001, 0x3000_0001], true, 64), (0, 0));
    // a written word below the last counts too
    assert_eq!(checked(&[0x001F_8003, 0x3000_0001, 0xC000_0001, 0x7000_0002], false, 64), (24, 0));
    assert_eq!(checked(&[0x0000_0003, 0x3000_0001, 0xC000_0001, 0x7000_0002], false, 64), (0, 0));
    // limits leave the header out
    for limit in [64, 130, 16_383] {
        assert_eq!(checked(&headed(&chain_of_next(limit)), true, limit), (0, 0));
    }
}

/// Number and place.
fn told<T>(answer: Result<T, Refusal>) -> (u32, usize) {
    answer.map_or_else(|refusal| (refusal.number, refusal.place), |_| (0, 0))
}

#[test]
fn headers_come_before_what_a_step_adds() {
    let wrong = [vec![0x0000_400B], alternating(8, 9)].concat();
    assert_eq!(told(normal(&wrong, Limits::DESK, &mut [])), (24, 0));
    assert_eq!(told(normal(&headed(&alternating(8, 9)), Limits::DESK, &mut [])), (11, 11));
    assert_eq!(told(plain(&wrong, Limits::DESK, &mut [])), (24, 0));
    assert_eq!(told(dialect(&wrong, &mut [])), (24, 0));
    assert_eq!(told(classify(&wrong, &mut [])), (24, 0));
    let none = Recording { samples: &[], start: 0, driven: 33 };
    assert_eq!(told(row(&wrong, none, &mut [])), (24, 0));
    assert_eq!(told(judge(&wrong, none, &mut [], &mut [Tally { judged: 1, held: 2 }], 1)), (24, 0));
}

#[test]
fn rooms_hold_the_header_and_rows_and_bytes_leave_it_out() {
    for (room, told) in [(0, (12, 0)), (3, (12, 0)), (4, (0, 0))] {
        let mut result = vec![7; room];
        assert_eq!(self::told(plain(&ALWAYS, Limits::DESK, &mut result)), told);
        assert!(room == 4 || result.iter().all(|&word| word == 0));
    }
    // 16,383 words and the header
    let long = headed(&chain_of_next(16_383));
    assert_eq!([16_383, 16_384, 20_000].map(|room| told(dialect(&long, &mut vec![7; room]))), [(12, 0), (0, 0), (0, 0)]);
    let mut bytes = [7; 3];
    assert_eq!(classify(&[0x001F_8002, 0x3000_0001, 0x7000_0001], &mut bytes[..2]), Ok(()));
    assert_eq!(bytes, [0x7F, 0x7E, 7]);
    let mut scratch = [7; 3];
    let recording = Recording { samples: &[0, 1], start: 1, driven: 1 };
    assert_eq!(row(&ALWAYS, recording, &mut scratch[..2]), Ok(1..2));
    assert_eq!(scratch, [0b10, 0b10, 7]);
}

/// N6: limits that a house sets.
fn house(written: usize, until_like: usize) -> Limits {
    Limits { written, until_like }
}

#[test]
fn limits_outside_their_ranges_come_first() {
    for (written, until_like) in [(0, 8), (257, 8), (usize::MAX, 8), (64, 11), (64, usize::MAX), (0, 11)] {
        let limits = house(written, until_like);
        let mut result = [7; 3];
        // before 1 and 20, and so before every other
        assert_eq!(told(plain(&[], limits, &mut result)), (25, 0));
        assert_eq!(told(normal(&[], limits, &mut result)), (25, 0));
        assert_eq!(told(form(&[], limits, &mut [], &mut result)), (25, 0));
        assert_eq!(told(text(&[b' '; 1_025], limits, &mut result)), (25, 0));
        assert_eq!(told(text(b"p1", limits, &mut [])), (25, 0));
        assert_eq!(result, [7; 3]);
    }
    for (written, until_like) in [(1, 0), (1, 10), (256, 0), (256, 10)] {
        let limits = house(written, until_like);
        let (mut table, mut plain, mut result) = ([0; 2], [0; 2], [0; 2]);
        assert_eq!(text(b"p1", limits, &mut table), Ok(2));
        assert_eq!(form(&table, limits, &mut plain, &mut result), Ok(Form::Source(2)));
    }
}

#[test]
fn the_house_limits_words() {
    let nexts = |words: usize| headed(&chain_of_next(words));
    for written in [1, 5, 64, 256] {
        let limits = house(written, 0);
        let mut result = vec![7; 600];
        assert_eq!(plain(&nexts(written), limits, &mut result), Ok(1 + written));
        assert_eq!(told(plain(&nexts(written + 1), limits, &mut result)), (2, 0));
        let typed = |words: usize| format!("{}p1", "X".repeat(words - 1));
        assert_eq!(text(typed(written).as_bytes(), limits, &mut result), Ok(1 + written));
        assert_eq!(told(text(typed(written + 1).as_bytes(), limits, &mut result)), (2, 0));
        assert_eq!(normal(&nexts(2 * written + 2), limits, &mut result), Ok(Form::Source(2 * written + 3)));
        assert_eq!(told(normal(&nexts(2 * written + 3), limits, &mut result)), (2, 0));
    }
}

#[test]
fn the_place_of_11_is_the_first_word_over_the_limit() {
    for until_like in [0, 1, 8, 9, 10] {
        for kind in 8..12 {
            let table = headed(&alternating(kind, 11));
            assert_eq!(told(normal(&table, house(64, until_like), &mut [])), (11, until_like + 3));
        }
    }
    assert_eq!(told(normal(&headed(&alternating(9, 10)), house(64, 10), &mut vec![7; 4_097])), (0, 0));
    // of the plain form, where a rule goes the whole way: true, false, p1, F, G, F
    let table = read("FGFp1", 65).expect("a rule");
    let told_under = |until_like| told(form(&table, house(64, until_like), &mut [7; 131], &mut [7; 65]));
    assert_eq!([0, 1, 2, 3].map(told_under), [(11, 4), (11, 5), (11, 6), (0, 0)]);
}

// N7: of equally many chosen words the higher choice number comes first, so that the outer word's part does.
#[test]
fn outer_words_come_first_among_equals() {
    // the words 3, 5, 7 and 9 are W, U, W and M, each over the one before
    let words = read("((((p1 W p2) U p3) W p4) M p5)", 65).expect("a rule");
    let mut result = [0; 256];
    let made = normal(&words, Limits::DESK, &mut result).unwrap();
    let words = &result[1..made.length()];
    // the last conjunct of a part is F G for a chosen W, and G F for a chosen U or M
    let conjuncts = words.iter().filter(|&word| word >> 28 == 5).map(|word| words[(word & 0x3FFF) as usize - 1] >> 28);
    assert_eq!(conjuncts.take(4).collect::<Vec<_>>(), [10, 8, 10, 8]);
}

fn bits(words: Vec<Word>) -> Vec<u32> {
    words.iter().map(|word| word.bits()).collect()
}

/// N8: the words of a text's rule rewritten and folded, whatever its class.
fn rewritten(typed: &str) -> Vec<u32> {
    let table = read(typed, 65).expect("a rule");
    let plain = bits(plain_words(&table, Limits::DESK).expect("a plain form"));
    bits(rewritten_words(&headed(&plain), Limits::DESK).expect("a form"))
}

#[test]
fn forms_are_folded() {
    let (p1, p2, yes, no) = (0x3000_0001, 0x3000_0002, 0x2000_0000, 0x1000_0000);
    for typed in ["true", "(p1 | true)", "X(p1 | X true)", "F(p1 -> true)", "G true", "(p1 W (p2 | true))", "(p1 U X true)"] {
        assert_eq!(rewritten(typed), [yes], "{typed}");
    }
    for typed in ["false", "(p1 & X false)", "(G p1 M false)", "(false M F p1)", "(F p1 R false)", "(F p1 U G false)"] {
        assert_eq!(rewritten(typed), [no], "{typed}");
    }
    assert_eq!(rewritten("((p2 & X false) | (p1 & X true))"), [p1]);
    // p1 or (p1 and GF p1), for a chosen U or M; p1 or (p1 and FG p1), for a chosen W or R
    let again_and_again = [p1, no, yes, 0x8000_C001, 0xA000_8004, 0x5000_4005, 0x6000_4006];
    let from_some_moment_on = [p1, yes, no, 0xA000_C001, 0x8000_8004, 0x5000_4005, 0x6000_4006];
    assert_eq!([rewritten("(false U p1)"), rewritten("(true M p1)")], [again_and_again; 2]);
    assert_eq!([rewritten("(true R p1)"), rewritten("(false W p1)")], [from_some_moment_on; 2]);
    // no word stays that only a folded word used: p2 is numbered first, and p1 not at all
    assert_eq!(rewritten("((p1 M false) | (p2 & X p2))"), [p2, 0x7000_0001, 0x5000_4002]);
}

#[test]
fn only_rewritten_forms_are_folded() {
    let table = headed(&[0x1000_0000, 0x3000_0001, 0x6000_4002, 0x2000_0000, 0x9000_C004]);
    let mut result = [7; 20];
    assert_eq!(read("((false | p1) W true)", 65), Ok(table.clone()));
    let length = plain(&table, Limits::DESK, &mut result).expect("a plain form");
    assert_eq!(result[..length], table);
    // true R ((false or p1) or true)
    let converted_words = [0x2000_0000, 0x1000_0000, 0x3000_0001, 0x6000_8003, 0x6001_0001, 0xA000_4005];
    assert_eq!(converted(&table[1..], 9), Ok(converted_words.to_vec()));
    // in Delta-2 the rule is its own form, constants and all
    let before = result;
    assert_eq!((normal(&table, Limits::DESK, &mut result), result), (Ok(Form::Source(6)), before));
    // under F, G and F it is not
    let table = read("(true U (false R (true U ((false | p1) W true))))", 65).expect("a rule");
    assert_eq!(normal(&table, Limits::DESK, &mut result), Ok(Form::Result(2)));
    assert_eq!(result[..2], [0x001F_C001, 0x2000_0000]);
}

/// What 12 measures is the folded form, however long the unfolded one is, and however much of it stands before a part that is true.
#[test]
fn room_for_the_folded_form_is_enough() {
    let told_with = |typed: &str, room: usize| {
        let table = read(typed, 65).expect("a rule");
        let mut result = vec![7; room];
        let told = told(form(&table, Limits::DESK, &mut [0; 131], &mut result));
        (told, result)
    };
    let length = 1 + rewritten("FGFp1").len();
    assert_eq!(told_with("FGFp1", length).0, (0, 0));
    assert_eq!(told_with("FGFp1", length - 1), ((12, 0), vec![0; length - 1]));
    // the first part has its words, and the last one is true
    let last_is_true = "(F(true W p1) W G(p2 U p3))";
    assert_eq!(told_with(last_is_true, 3), ((0, 0), vec![0x001F_C001, 0x2000_0000, 7]));
    assert_eq!(told_with(last_is_true, 1), ((12, 0), vec![0]));
    assert_eq!(told_with(last_is_true, 0), ((12, 0), vec![]));
}

#[test]
fn a_judgement_counts_at_the_desk_that_it_names() {
    let one = |sample: &'static [u32]| Recording { samples: sample, start: 0, driven: 1 };
    let full = Tally { judged: u32::MAX, held: 0 };
    let mut tallies = [Tally { judged: 0, held: 0 }, full, Tally { judged: 1, held: 2 }];
    let before = tallies;
    // 16, then 26, then 17 of the named desk
    assert_eq!(told(judge(&ALWAYS, one(&[1]), &mut [0; 1], &mut tallies, 3)), (16, 0));
    assert_eq!(told(judge(&ALWAYS, one(&[1]), &mut [0; 2], &mut tallies, 3)), (26, 0));
    assert_eq!(told(judge(&ALWAYS, one(&[1]), &mut [0; 2], &mut [], 0)), (26, 0));
    assert_eq!(told(judge(&ALWAYS, one(&[1]), &mut [0; 2], &mut tallies, 1)), (17, 0));
    assert_eq!(told(judge(&ALWAYS, one(&[1]), &mut [0; 2], &mut tallies, 2)), (17, 0));
    assert_eq!(tallies, before);
    assert!(judge(&ALWAYS, one(&[1]), &mut [0; 2], &mut tallies, 0).unwrap().holds);
    assert_eq!(tallies, [Tally { judged: 1, held: 1 }, full, before[2]]);
}

#[test]
fn tallies_show_the_history_and_make_the_total() {
    let mut tallies = [Tally { judged: 0, held: 0 }; 4];
    let mut history = vec![];
    // desks 0 to 4, the last without a tally; samples that hold and fail; now and then no letter driven
    for n in 0..300u32 {
        let (desk, samples, driven) = ((n * n + 3) as usize % 5, [n / 3 % 2], usize::from(n % 7 != 0));
        let recording = Recording { samples: &samples, start: 0, driven };
        history.push((desk, judge(&ALWAYS, recording, &mut [0; 2], &mut tallies, desk).map(|judgement| judgement.holds)));
    }
    let count = |test: &dyn Fn(usize) -> bool| {
        let accepted = history.iter().filter(|entry| test(entry.0)).filter_map(|entry| entry.1.as_ref().ok());
        let held = accepted.clone().filter(|&&holds| holds).count();
        Tally { judged: accepted.count() as u32, held: held as u32 }
    };
    for (desk, tally) in tallies.iter().enumerate() {
        assert_eq!(*tally, count(&|named| named == desk));
    }
    let total = |part: fn(&Tally) -> u32| tallies.iter().map(part).sum::<u32>();
    assert_eq!(Tally { judged: total(|tally| tally.judged), held: total(|tally| tally.held) }, count(&|_| true));
    assert!(history.iter().any(|entry| entry.1.is_err()) && total(|tally| tally.held) > 0);
}

/// N10: number and place, or the first moment that differs.
fn compared(first: (&[u32], usize, usize), second: (&[u32], usize, usize)) -> Result<Option<usize>, (u32, usize)> {
    let of = |(samples, start, driven)| Recording { samples, start, driven };
    compare(of(first), of(second)).map_err(|refusal| (refusal.number, refusal.place))
}

#[test]
fn recordings_of_one_show() {
    // 0 1 0 1 .. in loops of two, four and six, entered at once and later
    for second in [(&[0, 1][..], 0), (&[0, 1, 0], 1), (&[0, 1, 0, 1], 0), (&[0, 1, 0, 1, 0, 1, 0], 1)] {
        assert_eq!(compared((&[0, 1], 0, 3), (second.0, second.1, 3)), Ok(None));
    }
    // a loop of three is out of step at moment 2, and one of 0 1 0 1 1 at moment 4
    assert_eq!(compared((&[0, 1], 0, 3), (&[0, 1, 1], 0, 3)), Ok(Some(2)));
    assert_eq!(compared((&[0, 1], 0, 3), (&[0, 1, 0, 1, 1], 0, 3)), Ok(Some(4)));
    // three times the same, and then the loops of three and of four part
    assert_eq!(compared((&[0, 0, 1], 0, 1), (&[0, 0, 1, 0], 0, 1)), Ok(Some(5)));
    // bits that nothing drives are no reading
    assert_eq!(compared((&[0, 1], 0, 0), (&[2, 3, 1], 1, 0)), Ok(None));
    assert_eq!(compared((&[0, 1], 0, 1), (&[2, 3], 0, 1)), Ok(None));
    assert_eq!(compared((&[0, 1], 0, 2), (&[2, 3], 0, 2)), Ok(Some(0)));
    assert_eq!(compared((&[0], 0, 32), (&[0, 1 << 31], 0, 32)), Ok(Some(1)));
}

#[test]
fn recordings_are_checked_one_after_the_other() {
    let (sound, long): ((&[u32], usize, usize), _) = ((&[0, 1], 1, 2), [0; 4_097]);
    let faulty: [((&[u32], usize, usize), u32); 4] =
        [((&[], 0, 33), 13), ((&long, 4_097, 33), 14), ((&[0, 1], 2, 33), 15), ((&[0, 1], 1, 33), 22)];
    for (recording, number) in faulty {
        assert_eq!(compared(recording, sound), Err((number, 0)));
        assert_eq!(compared(sound, recording), Err((number, 0)));
        assert!(faulty.iter().all(|(other, _)| compared(recording, *other) == Err((number, 0))));
    }
    assert_eq!(compared(sound, (&[0], 0, 1)), Err((27, 0)));
    assert_eq!(compared(sound, (&[0], 1, 1)), Err((15, 0)));
}

/// N11: what the normal-form step answers, and the result slice afterwards.
fn normal_with(words: &[u32], limits: Limits, room: usize) -> (Result<Form, (u32, usize)>, Vec<u32>) {
    let mut result = vec![7; room];
    let made = normal(&headed(words), limits, &mut result).map_err(|refusal| (refusal.number, refusal.place));
    (made, result)
}

#[test]
fn a_rule_of_delta_2_is_its_own_form() {
    let kept = |room: usize| vec![7; room];
    let finally = [0x2000_0000, 0x3000_0001, 0x8000_4002];
    for room in [0, 3, 4, 40] {
        assert_eq!(normal_with(&finally, Limits::DESK, room), (Ok(Form::Source(4)), kept(room)));
    }
    // limits on until-like words, and 12, count only for a rule that is rewritten
    for kind in 8..12 {
        for k in [1, 9, 20] {
            for limits in [house(64, 0), Limits::DESK] {
                assert_eq!(normal_with(&chain_of(kind, k), limits, 0), (Ok(Form::Source(k + 3)), vec![]));
            }
        }
    }
    // the checks of a table count for all
    assert_eq!(normal_with(&chain_of(8, 9), house(4, 8), 40), (Err((2, 0)), kept(40)));
    assert_eq!(normal_with(&chain_of(8, 9)[..4], house(64, 11), 40), (Err((25, 0)), kept(40)));
    assert_eq!(normal_with(&[finally[1], 0xD000_0001], Limits::DESK, 40), (Err((4, 2)), kept(40)));
    assert_eq!(normal_with(&[finally[1], finally[0]], Limits::DESK, 40), (Err((10, 1)), kept(40)));
    assert_eq!(told(normal(&[0x001F_C003, finally[0], finally[1], finally[2]], Limits::DESK, &mut [])), (24, 0));
}

#[test]
fn a_rule_outside_delta_2_is_rewritten() {
    // G F p1 and F G p2 are in Delta-2, and what X makes of them is not
    let both = "((false R (true U p1)) & (true U (false R p2)))";
    let words = |typed: &str| read(typed, 65).expect("a rule")[1..].to_vec();
    assert_eq!(normal_with(&words(both), house(64, 3), 0), (Ok(Form::Source(10)), vec![]));
    let next = words(&format!("X{both}"));
    let length = 1 + rewritten(&format!("X{both}")).len();
    let (made, result) = normal_with(&next, Limits::DESK, length + 1);
    assert_eq!((made, result[length]), (Ok(Form::Result(length)), 7));
    assert_eq!(normal_with(&next, Limits::DESK, length - 1), (Err((12, 0)), vec![0; length - 1]));
    // 11 comes before 12, and leaves the slice
    assert_eq!(normal_with(&next, house(64, 3), 1), (Err((11, 8)), vec![7]));
    for kind in 8..12 {
        assert_eq!(normal_with(&alternating(kind, 2), house(64, 0), 0), (Ok(Form::Source(5)), vec![]));
        assert_eq!(normal_with(&alternating(kind, 3), house(64, 2), 0), (Err((11, 5)), vec![]));
        assert_eq!(normal_with(&alternating(kind, 3), house(64, 3), 0), (Err((12, 0)), vec![]));
    }
}

#[test]
fn the_whole_way_hands_back_the_plain_table_or_the_result() {
    let way = |typed: &str, limits: Limits, plain_room: usize, room: usize| {
        let (mut plain, mut result) = (vec![7; plain_room], vec![7; room]);
        let made = form(&read(typed, 65).expect("a rule"), limits, &mut plain, &mut result);
        (made.map_err(|refusal| (refusal.number, refusal.place)), plain, result)
    };
    let always = vec![0x001F_0003, 0x1000_0000, 0x3000_0001, 0xA000_4002];
    assert_eq!(way("Gp1", house(64, 0), 4, 0), (Ok(Form::Source(4)), always.clone(), vec![]));
    assert_eq!(way("Gp1", house(64, 0), 5, 2), (Ok(Form::Source(4)), [&always[..], &[7]].concat(), vec![7; 2]));
    // 12 counts for the plain slice as before
    assert_eq!(way("Gp1", house(64, 0), 3, 2), (Err((12, 0)), vec![0; 3], vec![7; 2]));
    let (made, plain, result) = way("FGFp1", Limits::DESK, 7, 65);
    assert_eq!(plain[..4], [0x0000_0006, 0x2000_0000, 0x1000_0000, 0x3000_0001]);
    let form = headed(&rewritten("FGFp1"));
    assert_eq!((made, &result[..form.len()]), (Ok(Form::Result(form.len())), &form[..]));
    assert_eq!(way("FGFp1", Limits::DESK, 7, 1), (Err((12, 0)), plain.clone(), vec![0]));
    assert_eq!(way("FGFp1", house(64, 2), 7, 1), (Err((11, 6)), plain, vec![7]));
}

/// N12: what remains of these words, or the refusal's number and place, with room for so many words beside the header.
fn remaining(words: &[u32], sample: u32, driven: usize, room: usize) -> Result<Vec<u32>, (u32, usize)> {
    let (table, mut result) = (headed(words), vec![7; 1 + room]);
    let made = after(&table, sample, driven, &mut result);
    match made {
        Ok(length) => assert!(result[length..].iter().all(|&word| word == 7)),
        Err(Refusal { number: 12, .. }) => assert!(result.iter().all(|&word| word == 0)),
        Err(_) => assert!(result.iter().all(|&word| word == 7)),
    }
    let length = made.map_err(|Refusal { number, place }| (number, place))?;
    assert_eq!(result[..length], headed(&result[1..length]));
    Ok(result[1..length].to_vec())
}

#[test]
fn what_remains_after_a_sample() {
    let (p1, p2, no, yes) = (0x3000_0001, 0x3000_0002, 0x1000_0000, 0x2000_0000);
    let until = [p1, p2, 0x8000_4002];
    assert_eq!(
        [0, 1, 2, 3].map(|sample| remaining(&until, sample, 2, 3)),
        [vec![no], until.to_vec(), vec![yes], vec![yes]].map(Ok)
    );
    let release = [p1, p2, 0xA000_4002];
    assert_eq!(
        [0, 1, 2, 3].map(|sample| remaining(&release, sample, 2, 3)),
        [vec![no], vec![no], release.to_vec(), vec![yes]].map(Ok)
    );
    // X a becomes a, and is not stepped
    assert_eq!(remaining(&[p1, 0x7000_0001], 0, 1, 1), Ok(vec![p1]));
    // b' or (a' and the word itself), numbered by first need: p2, p1, the operands of the word, the word, and, or
    let next = [p1, 0x7000_0001, p2, 0x7000_0003, 0x8000_8004];
    let unfolded = [p2, p1, 0x7000_0002, 0x7000_0001, 0x8000_C004, 0x5000_8005, 0x6000_4006];
    assert_eq!(remaining(&next, 0, 2, 7), Ok(unfolded.to_vec()));
    assert_eq!(remaining(&next, 0, 2, 6), Err((12, 0)));
    // whenever p1, sooner or later p2: it waits after p1, again after another, and no longer after p2
    let always = plain_words(&read("G(p1 -> F p2)", 65).expect("a rule"), Limits::DESK).map(bits).expect("a plain form");
    let waits = remaining(&always, 1, 2, 20).expect("a remainder");
    assert_eq!(waits.len(), always.len() + 1);
    let waits_twice = remaining(&waits, 1, 2, 20).expect("a remainder");
    assert_eq!(waits_twice.len(), waits.len() + 1);
    assert_eq!([0, 2, 3].map(|sample| remaining(&always, sample, 2, 20)), [7, 7, 7].map(|_| Ok(always.clone())));
    let [after_waits, after_both] = [&waits, &waits_twice].map(|words| remaining(words, 2, 2, 20).expect("a remainder"));
    assert_eq!((after_waits.len(), after_both), (always.len(), after_waits));
}

#[test]
fn samples_are_checked_as_recordings_are() {
    // p3 or not p5
    let or = [0x3000_0003, 0x4000_0005, 0x6000_4002];
    assert_eq!(
        [0, 2, 4, 33].map(|driven| remaining(&or, 0, driven, 0)),
        [Err((21, 1)), Err((21, 1)), Err((21, 2)), Err((22, 0))]
    );
    assert_eq!([0, 4, 16, 20].map(|sample| remaining(&or, sample, 5, 1)), [2, 2, 1, 2].map(|kind| Ok(vec![kind << 28])));
    // bits above the driven ones are never looked at, and after 24
    assert_eq!(remaining(&or, 0xFFFF_FFE0 | 16, 5, 1), remaining(&or, 16, 5, 1));
    assert_eq!(told(after(&[0x0000_0001, 0x3000_0001], 0, 33, &mut [])), (24, 0));
    for kind in [12, 13, 14] {
        assert_eq!(remaining(&[0x3000_0001, (kind << 28) + 1], 0, 33, 9), Err((4, 2)));
    }
    // 16,383 words, none of which calls the step again
    assert_eq!(remaining(&chain_of_next(16_384), 0, 1, 16_383), Err((23, 0)));
    assert_eq!(remaining(&chain_of_next(16_383), 0, 1, 16_382), Ok(chain_of_next(16_382)));
    assert_eq!(remaining(&chain_of_next(16_383), 0, 1, 16_381), Err((12, 0)));
    // each word of U over X stays, and has two more
    assert_eq!(remaining(&over_next(8, 5_460), 0, 1, 16_383).map(|words| words.len()), Ok(16_382));
    assert_eq!(remaining(&over_next(8, 5_461), 0, 1, 20_000), Err((12, 0)));
}

/// N14: the words that a call writes, which has no header, or its refusal's number and place, with so much room.
fn written(call: impl Fn(&mut [u32]) -> Result<usize, Refusal>, room: usize) -> Result<Vec<u32>, (u32, usize)> {
    let mut result = vec![7; room];
    let made = call(&mut result);
    match made {
        Ok(words) => assert!(result[words..].iter().all(|&word| word == 7)),
        Err(Refusal { number: 12, .. }) => assert!(result.iter().all(|&word| word == 0)),
        Err(_) => assert!(result.iter().all(|&word| word == 7)),
    }
    made.map(|words| result[..words].to_vec()).map_err(|Refusal { number, place }| (number, place))
}

fn states_of(words: &[u32], room: usize) -> Result<Vec<u32>, (u32, usize)> {
    written(|result| states(&headed(words), result), room)
}

fn move_of(words: &[u32], state: usize, sample: u32, driven: usize, room: usize) -> Result<Vec<u32>, (u32, usize)> {
    written(|result| moved(&headed(words), state, sample, driven, result), room)
}

/// The words of a typed rule's plain form.
fn plain_of(typed: &str) -> Vec<u32> {
    plain_words(&read(typed, 65).expect("a rule"), Limits::DESK).map(bits).expect("a plain form")
}

const NO: u32 = 0x1000_0000;
const YES: u32 = 0x2000_0000;

/// The words of a state, of its number in a move, and of and and or.
fn state(class: u32, word: u32) -> u32 {
    (u32::from(class == 2 || class == 5) << 28) + (class << 14) + word
}

fn numbered(state: u32) -> u32 {
    0x3000_0000 + state
}

fn both(a: u32, b: u32) -> u32 {
    0x5000_0000 + (a << 14) + b
}

fn either(a: u32, b: u32) -> u32 {
    0x6000_0000 + (a << 14) + b
}

#[test]
fn states_are_proper_words_with_their_smallest_classes() {
    let (p1, p2) = (0x3000_0001, 0x3000_0002);
    // a letter has two, and X of a letter; constants, and and or have none
    assert_eq!(states_of(&[p1], 2), Ok(vec![0x0000_4001, 0x1000_8001]));
    assert_eq!(states_of(&[p1, 0x7000_0001], 4), Ok([(1, 1), (2, 1), (1, 2), (2, 2)].map(|(c, w)| state(c, w)).to_vec()));
    assert_eq!(states_of(&[YES], 0), Ok(vec![]));
    assert_eq!(states_of(&[p1, p2, both(1, 2), either(3, 1)], 9).map(|states| states.len()), Ok(4));
    // U and M have a Sigma class, W and R a Pi class
    for (kind, class) in [(8, 1), (9, 2), (10, 2), (11, 1)] {
        assert_eq!(states_of(&[p1, (kind << 28) + 0x4001], 3), Ok(vec![state(1, 1), state(2, 1), state(class, 2)]));
    }
    // G F p1 is of Pi-2 and F G p1 of Sigma-2, and X of their or is in neither; X of F or G is in both
    assert_eq!(states_of(&plain_of("GFp1"), 9).map(|states| states[3]), Ok(state(5, 5)));
    assert_eq!(states_of(&plain_of("FGp1"), 9).map(|states| states[3]), Ok(state(4, 5)));
    assert_eq!(states_of(&plain_of("X(GFp1 | FGp1)"), 20), Err((28, 0)));
    assert_eq!(states_of(&plain_of("X(Fp1 | Gp1)"), 6).map(|states| states[4..].to_vec()), Ok(vec![state(4, 7), state(5, 7)]));
}

#[test]
fn moves_of_whenever_the_cue_is_given() {
    // false, not p1, true, p2, true U p2, 2 or 5, false R 6
    let always = plain_of("G(p1 -> Fp2)");
    let states = [(1, 2), (2, 2), (1, 4), (2, 4), (1, 5), (5, 7)].map(|(class, word)| state(class, word));
    assert_eq!(states_of(&always, 6), Ok(states.to_vec()));
    assert_eq!(move_of(&always, 0, 0, 2, 1), Ok(vec![numbered(6)]));
    assert_eq!([1, 2, 3, 4].map(|state| move_of(&always, state, 1, 2, 1)), [NO, NO, NO, NO].map(|word| Ok(vec![word])));
    assert_eq!([1, 2, 3, 4].map(|state| move_of(&always, state, 2, 2, 1)), [YES, YES, YES, YES].map(|word| Ok(vec![word])));
    // p2' or (true' and the state itself), p2 by its Sigma-1 state alone
    let waits = [NO, YES, numbered(5), both(2, 3), either(1, 4)];
    assert_eq!(move_of(&always, 5, 1, 2, 5), Ok(waits.to_vec()));
    // (2 or 5)' and (false' or the state itself): not p1 is the or of two moves
    let cue = [NO, either(1, 1), YES, numbered(5), both(3, 4), either(1, 5), either(2, 6), numbered(6), either(1, 8), both(7, 9)];
    assert_eq!(move_of(&always, 6, 1, 2, 10), Ok(cue.to_vec()));
    assert_eq!(move_of(&always, 6, 1, 2, 9), Err((12, 0)));
}

#[test]
fn sigma_stands_left_of_pi_within_the_class_of_the_state() {
    let p1 = 0x3000_0001;
    let start = |words: &[u32]| move_of(words, 0, 0, 32, 99);
    assert_eq!(start(&[p1]), Ok(vec![numbered(1), numbered(2), either(1, 2)]));
    assert_eq!(start(&[YES]), Ok(vec![YES]));
    assert_eq!(start(&[YES, p1, both(2, 1)]), Ok(vec![numbered(1), numbered(2), either(1, 2), YES, both(3, 4)]));
    // X p1 leads by Sigma-1 to the Sigma-1 state of p1, and by Pi-1 to the other
    let next = [p1, 0x7000_0001];
    assert_eq!([3, 4].map(|state| move_of(&next, state, 0, 1, 1)), [1, 2].map(|state| Ok(vec![numbered(state)])));
    // X(F p1 | G p1) leads by either class to the states of F p1 and of G p1
    let split = plain_of("X(Fp1 | Gp1)");
    assert_eq!(
        [5, 6].map(|state| move_of(&split, state, 0, 1, 3)),
        [3, 4].map(|_| Ok(vec![numbered(3), numbered(4), either(1, 2)]))
    );
    // by Sigma-2 X p1 stands as the or of both its states, which lead to one state each
    let stays = plain_of("FG Xp1");
    assert_eq!(states_of(&stays, 9).map(|states| states.len()), Ok(6));
    let again = [numbered(2), NO, numbered(5), either(2, 3), both(1, 4)];
    assert_eq!(move_of(&stays, 5, 0, 1, 9), Ok(again.to_vec()));
    let until = plain_of("(Xp1 U Gp2)");
    let moved = move_of(&until, states_of(&until, 99).expect("in Delta-2").len(), 1, 2, 99).expect("a move");
    assert!(moved.windows(3).any(|words| words == [numbered(1), numbered(2), words[2]] && words[2] >> 28 == 6), "{moved:08X?}");
}

#[test]
fn refusals_of_automata_in_their_order() {
    let (p1, outside) = (0x3000_0001, plain_of("FGFp1"));
    assert_eq!(told(states(&[0x0000_0001, p1], &mut [])), (24, 0));
    assert_eq!(states_of(&[p1, 0xC000_0001], 0), Err((4, 2)));
    assert_eq!(states_of(&outside, 0), Err((28, 0)));
    // 28, then 6 at place 0, then 22, then 21, then 12
    assert_eq!(move_of(&outside, 99, 0, 33, 0), Err((28, 0)));
    let next = [p1, 0x7000_0001];
    assert_eq!([5, usize::MAX].map(|state| move_of(&next, state, 0, 33, 0)), [Err((6, 0)), Err((6, 0))]);
    assert_eq!([0, 4].map(|state| move_of(&next, state, 0, 33, 0)), [Err((22, 0)), Err((22, 0))]);
    assert_eq!([0, 4].map(|state| move_of(&next, state, 0, 0, 0)), [Err((21, 1)), Err((21, 1))]);
    assert_eq!([0, 4].map(|state| move_of(&next, state, 0, 1, 0)), [Err((12, 0)), Err((12, 0))]);
    assert_eq!(move_of(&[YES], 1, 0, 0, 9), Err((6, 0)));
    // bits above the driven ones are never looked at
    assert_eq!(move_of(&[p1], 1, 0xFFFF_FFFE, 1, 1), Ok(vec![NO]));
}

#[test]
fn over_16_383_states_are_too_many_in_either_call() {
    let next = chain_of_next(8_191);
    assert_eq!(states_of(&next, 16_382).map(|states| states.len()), Ok(16_382));
    assert_eq!(move_of(&next, 16_382, 0, 1, 1), Ok(vec![numbered(16_380)]));
    let most = [next.clone(), vec![Word::new(8, 8_191, 8_190).bits()]].concat();
    assert_eq!([16_383, 16_382].map(|room| states_of(&most, room).map(|states| states.len())), [Ok(16_383), Err((12, 0))]);
    assert_eq!(move_of(&most, 0, 0, 1, 1), Ok(vec![numbered(16_383)]));
    for words in [chain_of_next(8_192), chain_of_next(16_383)] {
        assert_eq!(states_of(&words, 40_000), Err((12, 0)));
        assert_eq!(
            [0, 1, 2 * words.len()].map(|state| move_of(&words, state, 0, 1, 9)),
            [Err((12, 0)), Err((12, 0)), Err((12, 0))]
        );
        assert_eq!(move_of(&words, 2 * words.len() + 1, 0, 1, 9), Err((6, 0)));
    }
    // a start of 16,383 words, and of one more
    let lengths = [16_380, 16_381].map(|ands| move_of(&chain_of_ands(ands), 0, 0, 1, 20_000).map(|words| words.len()));
    assert_eq!(lengths, [Ok(16_383), Err((12, 0))]);
    assert_eq!(move_of(&over_next(8, 5_460), 5_464, 0, 1, 20_000).map(|words| words.len()), Ok(16_381));
}
