//! Every refusal of a table, a form, a recording and a sample: its number, its place and its sentence.
use showrule::{
    after, check, classify, compare, dialect, form, from_text, header, judge, moved, normal_form, plain_form, row, scratch_words,
    start, states, Following, Limits, Recording, Refusal, Rule, State, Tally,
};

fn is<T: std::fmt::Debug>(answer: Result<T, Refusal>, number: u32, place: usize, sentence: &str) {
    let refusal = answer.expect_err("it is refused");
    assert_eq!((refusal.number(), refusal.place(), refusal.to_string().as_str()), (number, place, sentence));
}

const ALWAYS: [u32; 3] = [0x0000_0002, 0x3000_0001, 0xE000_0001];

/// Words under a header that counts them; of a class that no refusal below comes to.
fn counted(words: &[u32]) -> Vec<u32> {
    [&[words.len() as u32], words].concat()
}

#[test]
fn tables() {
    let check = |words: &[u32]| check(&counted(words), false, 64);
    is(check(&[0; 65]), 2, 0, "the table has 65 words, and this step takes at most 64: make the rule shorter");
    is(check(&[0]), 3, 1, "word 1 is of kind 0, which means nothing: its top 4 bits are 0");
    is(check(&[0x2000_0000, 0x7000_0000]), 5, 2, "word 2 names no operand: its right field is 0");
    is(check(&[0x2000_0000, 0x8000_0001]), 5, 2, "word 2 names no operand: its left field is 0");
    is(check(&[0x2000_0000, 0x8000_4000]), 5, 2, "word 2 names no operand: its right field is 0");
    is(check(&[0x7000_0001]), 6, 1, "word 1 uses word 1 (right field), and an operand is an earlier word");
    is(check(&[0x2000_0000, 0x8000_C001]), 6, 2, "word 2 uses word 3 (left field), and an operand is an earlier word");
    is(check(&[0x3000_0021]), 7, 1, "word 1 names letter 33, and letters are 1 to 32");
    is(check(&[0x3000_4001]), 8, 1, "word 1 has 1 in its left field, which is 0 in a word of its kind");
    is(check(&[0x2000_0007]), 8, 1, "word 1 has 7 in its right field, which is 0 in a word of its kind");
    is(check(&[0x3000_0001, 0x3000_0001]), 9, 2, "word 2 is the same as word 1: use word 1 in its place");
    is(check(&[0x3000_0001, 0x3000_0002]), 10, 1, "word 1 is used by no other word and is not the last: use it, or leave it out");
}

#[test]
fn headers() {
    let check = |table: &[u32]| check(table, false, 64);
    is(check(&[]), 1, 0, "the table is empty: a rule has a header and at least one word");
    is(check(&[0]), 1, 0, "the header's count is 0, and a rule has at least one word");
    is(check(&[0x2000_0000, 0x7000_0001]), 1, 0, "the header's count is 0, and a rule has at least one word");
    is(check(&[65]), 2, 0, "the table has 65 words, and this step takes at most 64: make the rule shorter");
    let cut = "the header's count is 2, and the number of words after it is 1: the table was cut, or added to";
    is(check(&ALWAYS[..2]), 23, 0, cut);
    let added = "the header's count is 1, and the number of words after it is 2: the table was cut, or added to";
    is(check(&[1, 0, 0]), 23, 0, added);
    let kind = "the header is of kind 3, and a header is of kind 0: look whether the table begins with one";
    is(check(&[0x3000_0001, 0x3000_0002]), 24, 0, kind);
    let class = "the header has class 7F, and that of a table with kinds 12 to 15 is 0";
    is(check(&[0x001F_C002, ALWAYS[1], ALWAYS[2]]), 24, 0, class);
    let class = "the header has class 00, which is not the class byte of the last word";
    is(check(&[1, 0x3000_0001]), 24, 0, class);
    // before what a step adds
    is(dialect(&[1, 0x3000_0001], &mut []), 24, 0, class);
    is(classify(&[1, 0x3000_0001], &mut []), 24, 0, class);
    is(row(&[1, 0x3000_0001], one(&[], 0), &mut []), 24, 0, class);
}

/// F G F p1 in plain form, with three until-like words: outside Delta-2.
const AGAIN: [u32; 7] = [0x0000_0006, 0x2000_0000, 0x1000_0000, 0x3000_0001, 0x8000_4003, 0xA000_8004, 0x8000_4005];

#[test]
fn numbers_past_their_range() {
    assert_eq!(header(0xFF, 16_383), 0x003F_FFFF);
    assert_eq!(header(0xFF, 16_384), 0x003F_C000);
    assert_eq!(scratch_words(16_383, 4_096), 1_048_512);
    assert_eq!(scratch_words(usize::MAX, 65), usize::MAX);
}

#[test]
fn forms() {
    let mut always = ALWAYS;
    is(
        normal_form(&mut always, Limits::DESK, &mut [0; 9]),
        4,
        2,
        "word 2 is of kind 14, which a plain table does not have: make the plain form first",
    );
    is(classify(&[0x001F_C001, 0x3000_0001], &mut []), 12, 0, "the result does not fit the slice of 0 that was lent for it");
    is(plain_form(&ALWAYS, Limits::DESK, &mut [7; 3]), 12, 0, "the result does not fit the slice of 3 that was lent for it");
    let (mut again, short) = (AGAIN, "the result does not fit the slice of 9 that was lent for it");
    is(normal_form(&mut again, Limits::DESK, &mut [7; 9]), 12, 0, short);
    let form = |plain: &mut [u32], result: &mut [u32]| form(&AGAIN, Limits::DESK, plain, result).map(|form| form.len());
    is(form(&mut [7; 6], &mut [7; 20]), 12, 0, "the result does not fit the slice of 6 that was lent for it");
    is(form(&mut [7; 7], &mut [7; 9]), 12, 0, "the result does not fit the slice of 9 that was lent for it");
    assert_eq!(form(&mut [7; 7], &mut [7; 10]), Ok(10));
}

/// A rule of Delta-2 comes back as the table that was lent, and as its plain table, whatever the result and the limit on until-like words.
#[test]
fn forms_that_are_the_source() {
    let limits = Limits { until_like: 0, ..Limits::DESK };
    let finally = [0x001E_8003, 0x2000_0000, 0x3000_0001, 0x8000_4002];
    let (mut source, mut result) = (finally, [7; 3]);
    let place = source.as_ptr();
    let form = normal_form(&mut source, limits, &mut result).unwrap();
    assert_eq!((form.as_ptr(), &form[..]), (place, &finally[..]));
    // the part can be written to
    form[2] = 0x3000_0002;
    assert_eq!((source[2], result), (0x3000_0002, [7; 3]));
    let mut plain = [7; 5];
    let place = plain.as_ptr();
    let form = showrule::form(&ALWAYS, limits, &mut plain, &mut result).unwrap();
    assert_eq!((form.as_ptr(), &form[..]), (place, &[0x001F_0003, 0x1000_0000, 0x3000_0001, 0xA000_4002][..]));
    assert_eq!((plain[4], result), (7, [7; 3]));
    assert_eq!(showrule::form(&ALWAYS, limits, &mut plain, &mut []).unwrap().len(), 4);
    // 12 of the plain form stays
    let short = showrule::form(&ALWAYS, limits, &mut plain[..3], &mut result);
    is(short, 12, 0, "the result does not fit the slice of 3 that was lent for it");
    assert_eq!((plain[..4].to_vec(), result), (vec![0, 0, 0, 0xA000_4002], [7; 3]));
}

/// What has to fit is the folded form, and no word of the slice past it is written.
#[test]
fn folded_forms() {
    let late = "(F(true W p1) W G(p2 U p3))".parse::<Rule>().unwrap();
    let mut result = [7; 3];
    assert_eq!(form(&late, Limits::DESK, &mut [0; 131], &mut result).unwrap(), [0x001F_C001, 0x2000_0000]);
    assert_eq!(result, [0x001F_C001, 0x2000_0000, 7]);
    let short = "the result does not fit the slice of 1 that was lent for it";
    is(form(&late, Limits::DESK, &mut [0; 131], &mut result[..1]), 12, 0, short);
    assert_eq!(result, [0, 0x2000_0000, 7]);
    let never = "FG(F p1 & X false)".parse::<Rule>().unwrap();
    assert_eq!(form(&never, Limits::DESK, &mut [0; 131], &mut result).unwrap(), [0x001F_C001, 0x1000_0000]);
    // in Delta-2 no constant is folded: the plain table is the form
    let never = "G(F p1 & X false)".parse::<Rule>().unwrap();
    assert_eq!(form(&never, Limits::DESK, &mut [0; 131], &mut result).unwrap().len(), 8);
    assert_eq!(result, [0x001F_C001, 0x1000_0000, 7]);
}

#[test]
fn limits() {
    let house = |written, until_like| Limits { written, until_like };
    // U and R by turns
    let mut eleven = vec![0x0000_000D, 0x3000_0001, 0x3000_0002];
    eleven.extend((1..=11).map(|n| (8 + 2 * (n % 2) << 28) + ((if n == 1 { 1 } else { n + 1 }) << 14) + 2));
    for (until_like, place) in [(0, 3), (8, 11), (10, 13)] {
        let first = format!("is the first until-like word over the limit of {until_like}: split the rule");
        let limits = house(64, until_like);
        is(normal_form(&mut eleven, limits, &mut [0; 9]), 11, place, &format!("word {place} {first}"));
        let of_plain_form = format!("word {place} of the plain form {first}");
        is(form(&eleven, limits, &mut [0; 131], &mut [0; 9]), 11, place, &of_plain_form);
    }
    let too_many =
        |words, limit| format!("the table has {words} words, and this step takes at most {limit}: make the rule shorter");
    is(plain_form(&eleven, house(12, 0), &mut []), 2, 0, &too_many(13, 12));
    is(form(&eleven, house(12, 0), &mut [], &mut []), 2, 0, &too_many(13, 12));
    is(normal_form(&mut eleven, house(5, 0), &mut []), 2, 0, &too_many(13, 12));
    is(
        from_text(b"Xp1", house(1, 0), &mut []),
        2,
        0,
        "the table of the text has more words than the limit of 1: make the rule shorter",
    );
    // before every other refusal, and of a text too
    let outside = [
        (house(0, 8), "the limit on written words is 0, and a house may set 1 to 256"),
        (house(257, 11), "the limit on written words is 257, and a house may set 1 to 256"),
        (house(256, 11), "the limit on until-like words is 11, and a house may set 0 to 10"),
        (house(usize::MAX, 0), "the limit on written words is 18446744073709551615, and a house may set 1 to 256"),
        (house(1, usize::MAX), "the limit on until-like words is 18446744073709551615, and a house may set 0 to 10"),
    ];
    for (limits, sentence) in outside {
        is(plain_form(&[], limits, &mut []), 25, 0, sentence);
        is(normal_form(&mut [], limits, &mut []), 25, 0, sentence);
        is(form(&[], limits, &mut [], &mut []), 25, 0, sentence);
        is(from_text(&[b' '; 1_025], limits, &mut []), 25, 0, sentence);
    }
}

/// A recording that drives letter 1.
fn one(samples: &[u32], start: usize) -> Recording<'_> {
    Recording { samples, start, driven: 1 }
}

#[test]
fn recordings() {
    let mut tallies = [Tally { judged: 3, held: 2 }];
    is(judge(&ALWAYS, one(&[], 0), &mut [], &mut tallies, 0), 13, 0, "the recording has no sample");
    is(row(&ALWAYS, one(&[0; 4097], 0), &mut []), 14, 0, "the recording has 4097 samples, and at most 4096 are judged");
    is(row(&ALWAYS, one(&[0; 3], 3), &mut []), 15, 0, "the loop starts at moment 3, and the recording's moments are 0 to 2");
    is(row(&ALWAYS, one(&[0; 65], 3), &mut [0; 3]), 16, 0, "the scratch has 3 words of 64 bits, and the rows need 4");
    assert_eq!(tallies, [Tally { judged: 3, held: 2 }]);
}

#[test]
fn tallies() {
    let (counted, full, damaged) =
        (Tally { judged: 3, held: 2 }, Tally { judged: u32::MAX, held: 2 }, Tally { judged: 1, held: 2 });
    let before = [counted, full, damaged];
    let mut tallies = before;
    let mut judge = |desk: usize| judge(&ALWAYS, one(&[1], 0), &mut [0; 2], &mut tallies, desk).map(|judgement| judgement.holds);
    is(judge(1), 17, 0, "the tally is full: 4294967295 judgements are counted");
    is(judge(2), 17, 0, "the tally has 2 held of 1 judged: it is damaged");
    is(judge(3), 26, 0, "desk 3 has no tally: those of desks 0 to 2 are lent");
    is(judge(usize::MAX), 26, 0, "desk 18446744073709551615 has no tally: those of desks 0 to 2 are lent");
    assert!(judge(0).unwrap());
    assert_eq!(tallies, [Tally { judged: 4, held: 3 }, full, damaged]);
    is(showrule::judge(&ALWAYS, one(&[1], 0), &mut [0; 2], &mut [], 0), 26, 0, "desk 0 has no tally: none is lent");
    is(
        showrule::judge(&ALWAYS, one(&[1], 0), &mut [0; 1], &mut [], 0),
        16,
        0,
        "the scratch has 1 words of 64 bits, and the rows need 2",
    );
}

#[test]
fn driven_letters() {
    let or = [0x001F_C003, 0x3000_0003, 0x4000_0005, 0x6000_4002];
    let judge = |table: &[u32], driven| {
        judge(table, Recording { samples: &[0], start: 0, driven }, &mut [0; 3], &mut [Tally::default()], 0)
    };
    is(judge(&or, 0), 21, 1, "word 1 names letter 3, and no letter is driven");
    is(judge(&or, 2), 21, 1, "word 1 names letter 3, and letters 1 to 2 are driven");
    is(judge(&or, 4), 21, 2, "word 2 names letter 5, and letters 1 to 4 are driven");
    is(judge(&or, 33), 22, 0, "33 letters are said to be driven, and there are 32");
    assert!(judge(&or, 5).unwrap().holds);
    assert!(judge(&[0x001F_C001, 0x2000_0000], 0).unwrap().holds);
}

#[test]
fn two_recordings() {
    let driving = |samples, start, driven| Recording { samples, start, driven };
    let (sound, long) = (one(&[0, 1], 1), [0; 4097]);
    let faulty = [
        (one(&[], 0), 13, "the recording has no sample"),
        (one(&long, 0), 14, "the recording has 4097 samples, and at most 4096 are judged"),
        (one(&[0; 3], 3), 15, "the loop starts at moment 3, and the recording's moments are 0 to 2"),
        (driving(&[0], 0, 33), 22, "33 letters are said to be driven, and there are 32"),
    ];
    for (first, number, sentence) in faulty {
        is(compare(first, sound), number, 0, sentence);
        is(compare(sound, first), number, 0, sentence);
        // those of the first recording come first
        for (second, ..) in faulty {
            is(compare(first, second), number, 0, sentence);
        }
    }
    let counts = "the first recording drives 1 of the letters, and the second 2: compare those that both drive";
    is(compare(sound, driving(&[0], 0, 2)), 27, 0, counts);
    is(compare(sound, driving(&[0], 1, 2)), 15, 0, "the loop starts at moment 1, and the recording's moments are 0 to 0");
}

/// p1 U p2 in plain form.
const UNTIL: [u32; 4] = [0x001E_8003, 0x3000_0001, 0x3000_0002, 0x8000_4002];

#[test]
fn remainders() {
    let mut result = [7; 5];
    assert_eq!(after(&UNTIL, 1, 2, &mut result).unwrap(), UNTIL);
    assert_eq!(result[4], 7);
    is(after(&UNTIL, 1, 0, &mut result), 21, 1, "word 1 names letter 1, and no letter is driven");
    is(after(&UNTIL, 1, 1, &mut result), 21, 2, "word 2 names letter 2, and letters 1 to 1 are driven");
    is(after(&UNTIL, 1, 33, &mut result), 22, 0, "33 letters are said to be driven, and there are 32");
    let plain = "word 2 is of kind 14, which a plain table does not have: make the plain form first";
    is(after(&ALWAYS, 1, 33, &mut result), 4, 2, plain);
    assert_eq!(result, [UNTIL[0], UNTIL[1], UNTIL[2], UNTIL[3], 7]);
    is(after(&UNTIL, 1, 2, &mut result[..3]), 12, 0, "the result does not fit the slice of 3 that was lent for it");
    assert_eq!(result, [0, 0, 0, UNTIL[3], 7]);
}

#[test]
fn automata() {
    let mut result = [7; 7];
    let words: Vec<State> = states(&UNTIL, &mut result).unwrap().iter().map(|&word| State::of(word)).collect();
    let state = |class, word| State { accepting: class == 2, class, word };
    assert_eq!((words, &result[5..]), (vec![state(1, 1), state(2, 1), state(1, 2), state(2, 2), state(1, 3)], &[7, 7][..]));
    assert_eq!(start(&UNTIL, &mut result).unwrap(), [0x3000_0005]);
    // p2 does not hold, and p1 does: false or (true and the state itself)
    let step = [0x1000_0000, 0x2000_0000, 0x3000_0005, 0x5000_8003, 0x6000_4004];
    assert_eq!(moved(&UNTIL, 5, 0xFFFF_FFFD, 2, &mut result).unwrap(), step);
    assert_eq!(result[5..], [7, 7]);
    is(moved(&UNTIL, 6, 1, 33, &mut result), 6, 0, "there is no state 6: its number is past the last");
    is(moved(&UNTIL, 5, 1, 33, &mut result), 22, 0, "33 letters are said to be driven, and there are 32");
    is(moved(&UNTIL, 0, 1, 1, &mut result), 21, 2, "word 2 names letter 2, and letters 1 to 1 are driven");
    let outside = "the rule's class lacks Delta-2, so that it has no automaton: make the normal form first";
    is(states(&AGAIN, &mut result), 28, 0, outside);
    is(start(&AGAIN, &mut result), 28, 0, outside);
    is(moved(&AGAIN, 99, 1, 33, &mut result), 28, 0, outside);
    let later = [0x001E_8003, 0x3000_0001, 0x3000_0002, 0x8001_0002];
    is(moved(&later, 99, 1, 33, &mut result), 6, 3, "word 3 uses word 4 (left field), and an operand is an earlier word");
    is(states(&ALWAYS, &mut result), 4, 2, "word 2 is of kind 14, which a plain table does not have: make the plain form first");
    assert_eq!((&result[..5], &result[5..]), (&step[..], &[7, 7][..]));
    is(moved(&UNTIL, 5, 1, 2, &mut result[..4]), 12, 0, "the result does not fit the slice of 4 that was lent for it");
    assert_eq!(result, [0, 0, 0, 0, 0x6000_4004, 7, 7]);
    is(states(&UNTIL, &mut result[..4]), 12, 0, "the result does not fit the slice of 4 that was lent for it");
    is(start(&UNTIL, &mut []), 12, 0, "the result does not fit the slice of 0 that was lent for it");
}

#[test]
fn a_rule_is_kept_where_a_step_is_refused() {
    // whenever p1, sooner or later p2, and at first p1: what remains grows while p2 is awaited
    let always = "G(p1 -> F p2)".parse::<Rule>().unwrap();
    let mut plain = [0; 131];
    let plain = plain_form(&always, Limits::DESK, &mut plain).unwrap();
    let (mut first, mut second) = ([7; 10], [7; 10]);
    let mut following = Following::new(plain, 2, &mut first, &mut second).unwrap();
    let lengths: Vec<usize> = [1, 1].map(|sample| following.step(sample).unwrap().len()).into();
    assert_eq!((lengths, following.decided()), (vec![9, 10], None));
    let kept = following.rule().to_vec();
    is(following.step(1), 12, 0, "the result does not fit the slice of 10 that was lent for it");
    assert_eq!(following.rule(), kept);
    is(following.step(1), 12, 0, "the result does not fit the slice of 10 that was lent for it");
    // p2 comes: nothing is awaited any longer
    assert_eq!(following.step(2).unwrap().len(), 8);
    let calm = following.step(0).unwrap().to_vec();
    assert_eq!((following.rule(), &calm[..]), (plain, plain));
    is(Following::new(plain, 2, &mut [7; 7], &mut [7; 10]), 12, 0, "the result does not fit the slice of 7 that was lent for it");
    is(
        Following::new(&ALWAYS, 2, &mut [7; 10], &mut [7; 10]),
        4,
        2,
        "word 2 is of kind 14, which a plain table does not have: make the plain form first",
    );
    let (mut first, mut second) = ([7; 10], [7; 10]);
    let mut following = Following::new(plain, 1, &mut first, &mut second).unwrap();
    is(following.step(1), 21, 4, "word 4 names letter 2, and letters 1 to 1 are driven");
    assert_eq!(following.rule(), plain);
}
