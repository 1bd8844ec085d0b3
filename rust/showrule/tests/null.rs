//! A null pointer with length 0 is an empty slice: to every C function, for every slice.
use showrule::ffi::*;
use std::ptr::{null, null_mut};

#[test]
fn empty_slices() {
    let (mut words, mut place, mut from) = (9, 9, 9);
    let (mut holds, mut moments, mut failing) = (true, 9, 9);
    let mut in_source = false;
    let letter = [0x001F_C001u32, 0x3000_0001];
    // F G F p1, outside Delta-2
    let rewritten = [0x0000_0006u32, 0x2000_0000, 0x1000_0000, 0x3000_0001, 0x8000_4003, 0xA000_8004, 0x8000_4005];
    unsafe {
        assert_eq!((showrule_check(null(), 0, false, 64, &mut place), place), (1, 0));
        assert_eq!(showrule_classify(null(), 0, null_mut(), 0, &mut place), 1);
        assert_eq!(showrule_classify(letter.as_ptr(), 2, null_mut(), 0, &mut place), 12);
        assert_eq!((showrule_text(null(), 0, 64, 8, null_mut(), 0, &mut words, &mut place), words, place), (19, 0, 1));
        assert_eq!((showrule_text(b"p1".as_ptr(), 2, 64, 8, null_mut(), 0, &mut words, &mut place), words, place), (12, 0, 0));
        assert_eq!(showrule_plain(null(), 0, 64, 8, null_mut(), 0, &mut words, &mut place), 1);
        assert_eq!(showrule_plain(letter.as_ptr(), 2, 64, 8, null_mut(), 0, &mut words, &mut place), 12);
        let number = showrule_normal(null(), 0, 64, 8, null_mut(), 0, &mut in_source, &mut words, &mut place);
        assert_eq!((number, in_source, words, place), (1, false, 0, 0));
        let number = showrule_normal(letter.as_ptr(), 2, 64, 8, null_mut(), 0, &mut in_source, &mut words, &mut place);
        assert_eq!((number, in_source, words, place), (0, true, 2, 0));
        let number = showrule_normal(rewritten.as_ptr(), 7, 64, 8, null_mut(), 0, &mut in_source, &mut words, &mut place);
        assert_eq!((number, in_source, words, place), (12, false, 0, 0));
        assert_eq!((showrule_dialect(null(), 0, null_mut(), 0, &mut words, &mut place), words, place), (1, 0, 0));
        assert_eq!((showrule_dialect(letter.as_ptr(), 2, null_mut(), 0, &mut words, &mut place), words, place), (12, 0, 0));
        assert_eq!((showrule_after(null(), 0, 0, 1, null_mut(), 0, &mut words, &mut place), words, place), (1, 0, 0));
        assert_eq!((showrule_after(letter.as_ptr(), 2, 0, 1, null_mut(), 0, &mut words, &mut place), words, place), (12, 0, 0));
        assert_eq!((showrule_states(null(), 0, null_mut(), 0, &mut words, &mut place), words, place), (1, 0, 0));
        assert_eq!((showrule_states(letter.as_ptr(), 2, null_mut(), 0, &mut words, &mut place), words, place), (12, 0, 0));
        assert_eq!((showrule_move(null(), 0, 1, 0, 1, null_mut(), 0, &mut words, &mut place), words, place), (1, 0, 0));
        assert_eq!((showrule_move(letter.as_ptr(), 2, 1, 0, 1, null_mut(), 0, &mut words, &mut place), words, place), (12, 0, 0));
        in_source = true;
        let (mut plain, mut form) = ([0u32; 7], |table: &[u32], plain: *mut u32, room: usize| {
            let (table, length) = (table.as_ptr(), table.len());
            let number = showrule_form(table, length, 64, 8, plain, room, null_mut(), 0, &mut in_source, &mut words, &mut place);
            (number, in_source, words, place)
        });
        assert_eq!(form(&letter, null_mut(), 0), (12, false, 0, 0));
        assert_eq!((form(&letter, plain.as_mut_ptr(), 7), &plain[..2]), ((0, true, 2, 0), &letter[..]));
        assert_eq!((form(&rewritten, plain.as_mut_ptr(), 7), plain), ((12, false, 0, 0), rewritten));
        let number = showrule_judge(
            letter.as_ptr(),
            2,
            null(),
            0,
            0,
            1,
            null_mut(),
            0,
            null_mut(),
            0,
            0,
            &mut holds,
            &mut moments,
            &mut failing,
            &mut place,
        );
        assert_eq!((number, holds, moments, failing, place), (13, false, 0, 0, 0));
        let (sample, mut scratch) = ([1], [0]);
        let number = showrule_judge(
            letter.as_ptr(),
            2,
            sample.as_ptr(),
            1,
            0,
            1,
            scratch.as_mut_ptr(),
            1,
            null_mut(),
            0,
            0,
            &mut holds,
            &mut moments,
            &mut failing,
            &mut place,
        );
        assert_eq!((number, holds, moments, failing, place), (26, false, 0, 0, 0));
        let number = showrule_row(letter.as_ptr(), 2, [1].as_ptr(), 1, 0, 1, null_mut(), 0, &mut from, &mut words, &mut place);
        assert_eq!((number, from, words), (16, 0, 0));
        let (mut same, mut moment) = (true, 9);
        let number = showrule_compare([1].as_ptr(), 1, 0, 1, null(), 0, 0, 1, &mut same, &mut moment, &mut place);
        assert_eq!((number, same, moment, place), (13, false, 0, 0));
    }
}
