// The proved library, called through its C names, under the program's limits. A refusal is its number and place.
use crate::hashmap::{Form, Refused};

const WRITTEN: usize = 64;
const UNTIL_LIKE: usize = 8;

extern "C" {
    fn showrule_check(table: *const u32, words: usize, plain: bool, limit: usize, place: *mut usize) -> u32;
    fn showrule_classify(table: *const u32, words: usize, bytes: *mut u8, len: usize, place: *mut usize) -> u32;
    fn showrule_plain(
        table: *const u32, words: usize, written: usize, until_like: usize, result: *mut u32, room: usize, form: *mut usize,
        place: *mut usize,
    ) -> u32;
    fn showrule_judge(
        table: *const u32, words: usize, samples: *const u32, count: usize, start: usize, driven: usize, scratch: *mut u64,
        len: usize, tallies: *mut [u32; 2], desks: usize, desk: usize, holds: *mut bool, moments: *mut usize, failing: *mut usize, place: *mut usize,
    ) -> u32;
}

#[cfg(forms)]
extern "C" {
    fn showrule_normal(
        table: *const u32, words: usize, written: usize, until_like: usize, result: *mut u32, room: usize, in_source: *mut bool,
        form: *mut usize, place: *mut usize,
    ) -> u32;
    fn showrule_form(
        table: *const u32, words: usize, written: usize, until_like: usize, plain: *mut u32, plain_room: usize, result: *mut u32,
        room: usize, in_plain: *mut bool, form: *mut usize, place: *mut usize,
    ) -> u32;
}

#[cfg(texts)]
extern "C" {
    fn showrule_text(
        text: *const u8, bytes: usize, written: usize, until_like: usize, result: *mut u32, room: usize, table: *mut usize,
        place: *mut usize,
    ) -> u32;
}

#[cfg(dialects)]
extern "C" {
    fn showrule_dialect(table: *const u32, words: usize, result: *mut u32, room: usize, form: *mut usize, place: *mut usize) -> u32;
}

#[cfg(watches)]
extern "C" {
    fn showrule_after(
        table: *const u32, words: usize, sample: u32, driven: usize, result: *mut u32, room: usize, form: *mut usize, place: *mut usize,
    ) -> u32;
    fn showrule_states(table: *const u32, words: usize, result: *mut u32, room: usize, states: *mut usize, place: *mut usize) -> u32;
    fn showrule_move(
        table: *const u32, words: usize, state: usize, sample: u32, driven: usize, result: *mut u32, room: usize, form: *mut usize,
        place: *mut usize,
    ) -> u32;
}

// Whether the library has C names for the normal form and the whole way, one for reading texts, one for the dialect, and those for following
// and watching.
pub const FORMS: bool = cfg!(forms);
pub const TEXTS: bool = cfg!(texts);
pub const DIALECTS: bool = cfg!(dialects);
pub const WATCHES: bool = cfg!(watches);

fn reply<T>(number: u32, place: usize, answer: T) -> Result<T, Refused> {
    if number == 0 { Ok(answer) } else { Err((number, place)) }
}

pub fn check(table: &[u32], plain: bool, limit: usize) -> Result<(), Refused> {
    let mut place = 0;
    let number = unsafe { showrule_check(table.as_ptr(), table.len(), plain, limit, &mut place) };
    reply(number, place, ())
}

pub fn classify(table: &[u32], bytes: &mut [u8]) -> Result<(), Refused> {
    let mut place = 0;
    let number = unsafe { showrule_classify(table.as_ptr(), table.len(), bytes.as_mut_ptr(), bytes.len(), &mut place) };
    reply(number, place, ())
}

pub fn plain_form(table: &[u32], result: &mut [u32]) -> Result<usize, Refused> {
    let (mut form, mut place) = (0, 0);
    let number = unsafe {
        showrule_plain(
            table.as_ptr(), table.len(), WRITTEN, UNTIL_LIKE, result.as_mut_ptr(), result.len(), &mut form, &mut place,
        )
    };
    reply(number, place, form)
}

#[cfg(forms)]
fn stands(in_source: bool, length: usize) -> Form {
    if in_source { Form::Source(length) } else { Form::Result(length) }
}

#[cfg(forms)]
pub fn normal_form(table: &[u32], result: &mut [u32]) -> Result<Form, Refused> {
    let (mut in_source, mut form, mut place) = (false, 0, 0);
    let number = unsafe {
        showrule_normal(
            table.as_ptr(), table.len(), WRITTEN, UNTIL_LIKE, result.as_mut_ptr(), result.len(), &mut in_source, &mut form,
            &mut place,
        )
    };
    reply(number, place, stands(in_source, form))
}

#[cfg(forms)]
pub fn rule_form(table: &[u32], plain: &mut [u32], result: &mut [u32]) -> Result<Form, Refused> {
    let (mut in_plain, mut form, mut place) = (false, 0, 0);
    let number = unsafe {
        showrule_form(
            table.as_ptr(), table.len(), WRITTEN, UNTIL_LIKE, plain.as_mut_ptr(), plain.len(), result.as_mut_ptr(),
            result.len(), &mut in_plain, &mut form, &mut place,
        )
    };
    reply(number, place, stands(in_plain, form))
}

#[cfg(not(forms))]
pub fn normal_form(_: &[u32], _: &mut [u32]) -> Result<Form, Refused> {
    unreachable!("the library has no C name for the normal form")
}

#[cfg(not(forms))]
pub fn rule_form(_: &[u32], _: &mut [u32], _: &mut [u32]) -> Result<Form, Refused> {
    unreachable!("the library has no C name for the whole way")
}

#[cfg(texts)]
pub fn text(text: &[u8], result: &mut [u32]) -> Result<usize, Refused> {
    let (mut table, mut place) = (0, 0);
    let number = unsafe {
        showrule_text(
            text.as_ptr(), text.len(), WRITTEN, UNTIL_LIKE, result.as_mut_ptr(), result.len(), &mut table, &mut place,
        )
    };
    reply(number, place, table)
}

#[cfg(not(texts))]
pub fn text(_: &[u8], _: &mut [u32]) -> Result<usize, Refused> {
    unreachable!("the library has no C name for reading texts")
}

#[cfg(dialects)]
pub fn dialect(table: &[u32], result: &mut [u32]) -> Result<usize, Refused> {
    let (mut form, mut place) = (0, 0);
    let number = unsafe { showrule_dialect(table.as_ptr(), table.len(), result.as_mut_ptr(), result.len(), &mut form, &mut place) };
    reply(number, place, form)
}

#[cfg(not(dialects))]
pub fn dialect(_: &[u32], _: &mut [u32]) -> Result<usize, Refused> {
    unreachable!("the library has no C name for the dialect")
}

#[cfg(watches)]
pub fn after(table: &[u32], sample: u32, driven: usize, result: &mut [u32]) -> Result<usize, Refused> {
    let (mut form, mut place) = (0, 0);
    let number = unsafe {
        showrule_after(table.as_ptr(), table.len(), sample, driven, result.as_mut_ptr(), result.len(), &mut form, &mut place)
    };
    reply(number, place, form)
}

#[cfg(watches)]
pub fn states(table: &[u32], result: &mut [u32]) -> Result<usize, Refused> {
    let (mut states, mut place) = (0, 0);
    let number = unsafe { showrule_states(table.as_ptr(), table.len(), result.as_mut_ptr(), result.len(), &mut states, &mut place) };
    reply(number, place, states)
}

#[cfg(watches)]
pub fn moved(table: &[u32], state: usize, sample: u32, driven: usize, result: &mut [u32]) -> Result<usize, Refused> {
    let (mut form, mut place) = (0, 0);
    let number = unsafe {
        showrule_move(table.as_ptr(), table.len(), state, sample, driven, result.as_mut_ptr(), result.len(), &mut form, &mut place)
    };
    reply(number, place, form)
}

#[cfg(not(watches))]
pub fn after(_: &[u32], _: u32, _: usize, _: &mut [u32]) -> Result<usize, Refused> {
    unreachable!("the library has no C name for a step by a sample")
}

#[cfg(not(watches))]
pub fn states(_: &[u32], _: &mut [u32]) -> Result<usize, Refused> {
    unreachable!("the library has no C name for the states of an automaton")
}

#[cfg(not(watches))]
pub fn moved(_: &[u32], _: usize, _: u32, _: usize, _: &mut [u32]) -> Result<usize, Refused> {
    unreachable!("the library has no C name for a move")
}

// Samples, the loop start, and how many letters are driven.
#[derive(Clone, Copy)]
pub struct Recording<'a> {
    pub samples: &'a [u32],
    pub start: usize,
    pub driven: usize,
}

// Whether the rule holds at moment 0, at how many moments, and the first failing moment. The one desk's tally goes in as zeros.
pub type Answer = (bool, usize, usize);

pub fn judge(table: &[u32], recording: Recording, scratch: &mut [u64]) -> Result<Answer, Refused> {
    let Recording { samples, start, driven } = recording;
    let (mut tally, mut holds, mut moments, mut failing, mut place) = ([0, 0], false, 0, 0, 0);
    let number = unsafe {
        showrule_judge(
            table.as_ptr(), table.len(), samples.as_ptr(), samples.len(), start, driven, scratch.as_mut_ptr(),
            scratch.len(), &mut tally, 1, 0, &mut holds, &mut moments, &mut failing, &mut place,
        )
    };
    reply(number, place, (holds, moments, failing))
}
