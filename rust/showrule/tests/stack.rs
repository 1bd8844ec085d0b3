//! A thread with 512 KB of stack is enough for every call but `dialect`, `after` and `moved` on tables of over 512 words, one with 1 MB for
//! those, and one with 2 MB for `moved` on over 4,096 words, as include/showrule.h says: the longest tables, and under the highest limits the
//! deepest ones and ten until-like words.
use showrule::*;

fn on_small_stack(work: impl FnOnce() + Send + 'static) {
    on_stack(512, work);
}

/// So many KB.
fn on_stack(size: usize, work: impl FnOnce() + Send + 'static) {
    std::thread::Builder::new().stack_size(size << 10).spawn(work).expect("a thread").join().expect("it ends well");
}

/// Letter 1, then a word of each kind over the one before, on both sides where it has two operands. Beside X there is only one kind, or the
/// rule is written or outside Delta-2.
fn chain(kinds: &[u32]) -> Vec<u32> {
    let mut others: Vec<u32> = kinds.iter().copied().filter(|&kind| kind != 7).collect();
    others.dedup();
    let class = match others[..] {
        [] => 0x7E,
        [5 | 6] => 0x7F,
        [8 | 11] => 0x7A,
        [9 | 10] => 0x7C,
        _ => 0,
    };
    let word = |(n, &kind): (u32, &u32)| {
        let both = matches!(kind, 5 | 6 | 8..=11 | 15) as u32;
        (kind << 28) + both * (n << 14) + n
    };
    let letter = [header(class, 1 + kinds.len()), 0x3000_0001];
    letter.into_iter().chain((1..).zip(kinds).map(word)).collect()
}

#[test]
fn longest_tables() {
    let table = chain(&[7; 16_382]);
    let samples = vec![1; 4_096];
    let (mut bytes, mut scratch) = (vec![0; 16_383], vec![0; scratch_words(16_383, 4_096)]);
    on_small_stack(move || {
        check(&table, true, MOST_WORDS).unwrap();
        classify(&table, &mut bytes).unwrap();
        let recording = Recording { samples: &samples, start: 4_095, driven: 32 };
        assert!(judge(&table, recording, &mut scratch, &mut [Tally::default()], 0).unwrap().holds);
        assert_eq!(row(&table, Recording { start: 0, ..recording }, &mut scratch).unwrap().len(), 64);
    });
}

#[test]
fn longest_conversions() {
    let (next, mut result) = (chain(&[7; 16_382]), vec![0; MOST_ROOM]);
    on_stack(1_024, move || assert_eq!(dialect(&next, &mut result).unwrap(), next));
    for kind in [9, 11] {
        // a word over itself is two words of the dialect
        let (table, mut result) = (chain(&[kind; 8_191]), vec![0; 16_385]);
        on_stack(1_024, move || {
            assert_eq!(dialect(&table, &mut result).unwrap().len(), 16_384);
            assert_eq!(dialect(&table, &mut result[..16_383]), Err(Refusal::ResultTooShort { room: 16_383 }));
        });
    }
}

#[test]
fn longest_remainders() {
    let (next, mut result) = (chain(&[7; 16_382]), vec![0; MOST_ROOM]);
    on_stack(1_024, move || assert_eq!(after(&next, 0, 1, &mut result).unwrap(), chain(&[7; 16_381])));
    for kind in [8, 9, 10, 11] {
        // over X of a letter a word over itself stays, and has two more
        let (table, mut result) = (chain(&[vec![7], vec![kind; 5_460]].concat()), vec![0; 16_385]);
        on_stack(1_024, move || {
            assert_eq!(after(&table, 0, 1, &mut result).unwrap().len(), 16_383);
            assert_eq!(after(&table, 0, 1, &mut result[..16_382]), Err(Refusal::ResultTooShort { room: 16_382 }));
        });
        let (table, mut result) = (chain(&vec![kind; 16_382]), vec![0; 16_385]);
        on_stack(1_024, move || assert_eq!(after(&table, 0, 1, &mut result).map(|table| table.len()), Ok(2)));
        // up to 512 words need as little as the other calls
        let (table, mut result) = (chain(&[vec![7], vec![kind; 510]].concat()), vec![0; 16_385]);
        on_small_stack(move || assert_eq!(after(&table, 0, 1, &mut result).unwrap().len(), 1 + 512 + 1_020));
    }
}

#[test]
fn longest_automata() {
    // two states a word, and one word more than can be numbered
    for (nexts, length) in [(8_190, Ok(16_382)), (8_191, Err(Refusal::ResultTooShort { room: 16_384 }))] {
        let (next, mut result) = (chain(&vec![7; nexts]), vec![0; 16_384]);
        on_small_stack(move || assert_eq!(states(&next, &mut result).map(|states| states.len()), length));
        let (next, mut result) = (chain(&vec![7; nexts]), vec![0; 16_384]);
        on_stack(2_048, move || {
            assert_eq!(moved(&next, 16_382, 0, 1, &mut result).map(|made| made.len()), length.map(|_| 1));
        });
    }
    let (long, mut result) = (chain(&[7; 16_382]), vec![0; 9]);
    on_stack(2_048, move || assert_eq!(moved(&long, 32_766, 0, 1, &mut result), Err(Refusal::ResultTooShort { room: 9 })));
    let (ands, mut result) = (chain(&[5; 16_380]), vec![0; 16_383]);
    on_stack(2_048, move || assert_eq!(start(&ands, &mut result).unwrap().len(), 16_383));
    for kind in [8, 9, 10, 11] {
        // as many states as can be numbered, of which the last moves to too many words
        let (table, mut result) = (chain(&vec![kind; 16_381]), vec![0; 16_384]);
        on_stack(2_048, move || {
            assert_eq!(states(&table, &mut result).unwrap().len(), 16_383);
            assert_eq!(moved(&table, 16_383, 0, 1, &mut result), Err(Refusal::ResultTooShort { room: 16_384 }));
        });
        // over X of a letter each word moves to three, beside the letter's state
        for (size, words) in [(2_048, 5_460), (1_024, 4_094), (512, 510)] {
            let (table, mut result) = (chain(&[vec![7], vec![kind; words]].concat()), vec![0; 16_384]);
            on_stack(size, move || {
                assert_eq!(moved(&table, words + 4, 0, 1, &mut result).unwrap().len(), 3 * words + 1);
                assert_eq!(start(&table, &mut result).unwrap(), [0x3000_0000 + words as u32 + 4]);
            });
        }
    }
}

#[test]
fn deepest_rules() {
    for kind in [5, 7, 12, 15] {
        // as it is, and under F, G and F, so that it is rewritten
        for kinds in [vec![kind; 255], [vec![kind; 252], vec![13, 14, 13]].concat()] {
            let table = chain(&kinds);
            let (mut plain, mut result) = (vec![0; Limits::HIGHEST.plain_room()], vec![0; MOST_ROOM]);
            on_small_stack(move || {
                form(&table, Limits::HIGHEST, &mut plain, &mut result).unwrap();
            });
        }
    }
}

#[test]
fn deepest_texts() {
    let brackets = format!("{}p1{}", "(".repeat(170), "&p1)".repeat(170));
    let prefixes = format!("{}p1", "X".repeat(1_022));
    on_small_stack(move || {
        let length = |text: &[u8]| from_text(text, Limits::HIGHEST, &mut [0; 257]).map(|table| table.len());
        assert_eq!(length(brackets.as_bytes()), Ok(172));
        assert_eq!(length(prefixes.as_bytes()), Err(Refusal::TextOfTooManyWords { limit: 256 }));
        assert_eq!(length(&prefixes.as_bytes()[767..]), Ok(257));
        assert_eq!(length(&[b'('; 1_024]).unwrap_err().place(), 1_025);
        assert_eq!(to_text(&chain(&[7; 16_382]), 20_000).unwrap().len(), 16_384);
    });
}

#[test]
fn ten_until_like_words_under_and_over_a_deep_rule() {
    for kind in [8, 9, 10, 11] {
        // of this kind and of one of the other side by turns, outside Delta-2
        let ten = [kind, kind ^ 2].repeat(5);
        for kinds in [[ten.clone(), vec![7; 503]], [vec![7; 503], ten]] {
            let (mut table, mut result) = (chain(&kinds.concat()), vec![0; MOST_ROOM]);
            on_small_stack(move || match normal_form(&mut table, Limits::HIGHEST, &mut result) {
                Ok(form) => assert!(form.len() > 514),
                Err(refusal) => assert_eq!(refusal.number(), 12),
            });
        }
    }
}

#[test]
fn longest_table_that_is_its_own_form() {
    let mut table = chain(&[8; 513]);
    on_small_stack(move || {
        let own = table.clone();
        assert_eq!(normal_form(&mut table, Limits::HIGHEST, &mut []).unwrap(), own);
    });
}
