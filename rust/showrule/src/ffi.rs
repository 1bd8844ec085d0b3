//! The C functions of the static library, as `include/showrule.h` declares them. Nothing checks these lines against the library's
//! source: the tests of this crate and the comparison (`rust/compare`) call every one.

use crate::Tally;

extern "C" {
    pub fn showrule_check(table: *const u32, length: usize, plain: bool, limit: usize, place: *mut usize) -> u32;

    pub fn showrule_classify(table: *const u32, length: usize, bytes: *mut u8, room: usize, place: *mut usize) -> u32;

    pub fn showrule_text(
        text: *const u8,
        bytes: usize,
        written: usize,
        until_like: usize,
        result: *mut u32,
        room: usize,
        table_length: *mut usize,
        place: *mut usize,
    ) -> u32;

    pub fn showrule_plain(
        table: *const u32,
        length: usize,
        written: usize,
        until_like: usize,
        result: *mut u32,
        room: usize,
        form_length: *mut usize,
        place: *mut usize,
    ) -> u32;

    pub fn showrule_normal(
        table: *const u32,
        length: usize,
        written: usize,
        until_like: usize,
        result: *mut u32,
        room: usize,
        in_source: *mut bool,
        form_length: *mut usize,
        place: *mut usize,
    ) -> u32;

    pub fn showrule_dialect(
        table: *const u32,
        length: usize,
        result: *mut u32,
        room: usize,
        form_length: *mut usize,
        place: *mut usize,
    ) -> u32;

    pub fn showrule_after(
        table: *const u32,
        length: usize,
        sample: u32,
        driven: usize,
        result: *mut u32,
        room: usize,
        table_length: *mut usize,
        place: *mut usize,
    ) -> u32;

    pub fn showrule_states(
        table: *const u32,
        length: usize,
        result: *mut u32,
        room: usize,
        states: *mut usize,
        place: *mut usize,
    ) -> u32;

    pub fn showrule_move(
        table: *const u32,
        length: usize,
        state: usize,
        sample: u32,
        driven: usize,
        result: *mut u32,
        room: usize,
        words: *mut usize,
        place: *mut usize,
    ) -> u32;

    pub fn showrule_form(
        table: *const u32,
        length: usize,
        written: usize,
        until_like: usize,
        plain: *mut u32,
        plain_room: usize,
        result: *mut u32,
        room: usize,
        in_plain: *mut bool,
        form_length: *mut usize,
        place: *mut usize,
    ) -> u32;

    pub fn showrule_judge(
        table: *const u32,
        length: usize,
        samples: *const u32,
        count: usize,
        start: usize,
        driven: usize,
        scratch: *mut u64,
        room: usize,
        tallies: *mut Tally,
        desks: usize,
        desk: usize,
        holds: *mut bool,
        moments: *mut usize,
        failing: *mut usize,
        place: *mut usize,
    ) -> u32;

    pub fn showrule_row(
        table: *const u32,
        length: usize,
        samples: *const u32,
        count: usize,
        start: usize,
        driven: usize,
        scratch: *mut u64,
        room: usize,
        from: *mut usize,
        row_words: *mut usize,
        place: *mut usize,
    ) -> u32;

    pub fn showrule_compare(
        samples: *const u32,
        count: usize,
        start: usize,
        driven: usize,
        others: *const u32,
        other_count: usize,
        other_start: usize,
        other_driven: usize,
        same: *mut bool,
        moment: *mut usize,
        place: *mut usize,
    ) -> u32;
}
