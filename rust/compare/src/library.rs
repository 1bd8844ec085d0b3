//! The calls of `include/showrule.h`, answered by the proved library and by the reference.
use reference::checks::Refusal;
use reference::limits::Limits;
use reference::recording::Recording;
use reference::steps::{self, Form};
use reference::word::Word;
use showrule::{ffi, Tally};
use std::cell::RefCell;
use std::collections::HashMap;

/// A judgement's lent numbers.
#[derive(Clone, Copy)]
pub struct Lent {
    pub holds: bool,
    pub moments: usize,
    pub failing: usize,
}

/// A normal form's lent numbers. Whether the form is the source table is a byte here, so that one which is not written, or is neither 0 nor
/// 1, shows.
#[derive(Clone, Copy)]
pub struct Stands {
    pub in_source: u8,
    pub length: usize,
}

impl Stands {
    fn in_source(&mut self) -> *mut bool {
        (&raw mut self.in_source).cast()
    }
}

/// A state's number, a sample, and how many letters it drives.
#[derive(Clone, Copy)]
pub struct Move {
    pub state: usize,
    pub sample: u32,
    pub driven: usize,
}

pub trait Library {
    fn check(&self, table: &[u32], plain: bool, limit: usize, place: &mut usize) -> u32;
    fn classify(&self, table: &[u32], bytes: &mut [u8], place: &mut usize) -> u32;
    fn text(&self, text: &[u8], limits: Limits, result: &mut [u32], length: &mut usize, place: &mut usize) -> u32;
    fn plain(&self, table: &[u32], limits: Limits, result: &mut [u32], length: &mut usize, place: &mut usize) -> u32;
    fn normal(&self, table: &[u32], limits: Limits, result: &mut [u32], stands: &mut Stands, place: &mut usize) -> u32;
    fn dialect(&self, table: &[u32], result: &mut [u32], length: &mut usize, place: &mut usize) -> u32;
    fn after(&self, table: &[u32], sample: u32, driven: usize, result: &mut [u32], length: &mut usize, place: &mut usize) -> u32;
    fn states(&self, table: &[u32], result: &mut [u32], states: &mut usize, place: &mut usize) -> u32;
    fn moved(&self, table: &[u32], by: Move, result: &mut [u32], words: &mut usize, place: &mut usize) -> u32;
    fn form(
        &self,
        table: &[u32],
        limits: Limits,
        plain: &mut [u32],
        result: &mut [u32],
        stands: &mut Stands,
        place: &mut usize,
    ) -> u32;
    #[allow(clippy::too_many_arguments)]
    fn judge(
        &self,
        table: &[u32],
        recording: Recording,
        scratch: &mut [u64],
        tallies: &mut [Tally],
        desk: usize,
        lent: &mut Lent,
        place: &mut usize,
    ) -> u32;
    fn row(
        &self,
        table: &[u32],
        recording: Recording,
        scratch: &mut [u64],
        from: &mut usize,
        words: &mut usize,
        place: &mut usize,
    ) -> u32;
    fn compare(&self, first: Recording, second: Recording, same: &mut bool, moment: &mut usize, place: &mut usize) -> u32;
}

pub struct Product;

impl Library for Product {
    fn check(&self, table: &[u32], plain: bool, limit: usize, place: &mut usize) -> u32 {
        unsafe { ffi::showrule_check(table.as_ptr(), table.len(), plain, limit, place) }
    }

    fn classify(&self, table: &[u32], bytes: &mut [u8], place: &mut usize) -> u32 {
        unsafe { ffi::showrule_classify(table.as_ptr(), table.len(), bytes.as_mut_ptr(), bytes.len(), place) }
    }

    fn text(&self, text: &[u8], limits: Limits, result: &mut [u32], length: &mut usize, place: &mut usize) -> u32 {
        let (w, u) = (limits.written, limits.until_like);
        unsafe { ffi::showrule_text(text.as_ptr(), text.len(), w, u, result.as_mut_ptr(), result.len(), length, place) }
    }

    fn plain(&self, table: &[u32], limits: Limits, result: &mut [u32], length: &mut usize, place: &mut usize) -> u32 {
        let (w, u) = (limits.written, limits.until_like);
        unsafe { ffi::showrule_plain(table.as_ptr(), table.len(), w, u, result.as_mut_ptr(), result.len(), length, place) }
    }

    fn normal(&self, table: &[u32], limits: Limits, result: &mut [u32], stands: &mut Stands, place: &mut usize) -> u32 {
        let (w, u, t, r) = (limits.written, limits.until_like, table.as_ptr(), result.as_mut_ptr());
        let in_source = stands.in_source();
        unsafe { ffi::showrule_normal(t, table.len(), w, u, r, result.len(), in_source, &mut stands.length, place) }
    }

    fn dialect(&self, table: &[u32], result: &mut [u32], length: &mut usize, place: &mut usize) -> u32 {
        unsafe { ffi::showrule_dialect(table.as_ptr(), table.len(), result.as_mut_ptr(), result.len(), length, place) }
    }

    fn after(&self, table: &[u32], sample: u32, driven: usize, result: &mut [u32], length: &mut usize, place: &mut usize) -> u32 {
        let (t, r) = (table.as_ptr(), result.as_mut_ptr());
        unsafe { ffi::showrule_after(t, table.len(), sample, driven, r, result.len(), length, place) }
    }

    fn states(&self, table: &[u32], result: &mut [u32], states: &mut usize, place: &mut usize) -> u32 {
        unsafe { ffi::showrule_states(table.as_ptr(), table.len(), result.as_mut_ptr(), result.len(), states, place) }
    }

    fn moved(&self, table: &[u32], by: Move, result: &mut [u32], words: &mut usize, place: &mut usize) -> u32 {
        let (t, r) = (table.as_ptr(), result.as_mut_ptr());
        unsafe { ffi::showrule_move(t, table.len(), by.state, by.sample, by.driven, r, result.len(), words, place) }
    }

    fn form(
        &self,
        table: &[u32],
        limits: Limits,
        plain: &mut [u32],
        result: &mut [u32],
        stands: &mut Stands,
        place: &mut usize,
    ) -> u32 {
        let (w, u) = (limits.written, limits.until_like);
        let (t, p, r) = (table.as_ptr(), plain.as_mut_ptr(), result.as_mut_ptr());
        let (in_plain, length) = (stands.in_source(), &mut stands.length);
        unsafe { ffi::showrule_form(t, table.len(), w, u, p, plain.len(), r, result.len(), in_plain, length, place) }
    }

    fn judge(
        &self,
        table: &[u32],
        recording: Recording,
        scratch: &mut [u64],
        tallies: &mut [Tally],
        desk: usize,
        lent: &mut Lent,
        place: &mut usize,
    ) -> u32 {
        unsafe {
            ffi::showrule_judge(
                table.as_ptr(),
                table.len(),
                recording.samples.as_ptr(),
                recording.samples.len(),
                recording.start,
                recording.driven,
                scratch.as_mut_ptr(),
                scratch.len(),
                tallies.as_mut_ptr(),
                tallies.len(),
                desk,
                &mut lent.holds,
                &mut lent.moments,
                &mut lent.failing,
                place,
            )
        }
    }

    fn row(
        &self,
        table: &[u32],
        recording: Recording,
        scratch: &mut [u64],
        from: &mut usize,
        words: &mut usize,
        place: &mut usize,
    ) -> u32 {
        let (t, s) = (table.as_ptr(), scratch.as_mut_ptr());
        let Recording { samples, start, driven } = recording;
        let (n, count, room) = (table.len(), samples.len(), scratch.len());
        unsafe { ffi::showrule_row(t, n, samples.as_ptr(), count, start, driven, s, room, from, words, place) }
    }

    fn compare(&self, first: Recording, second: Recording, same: &mut bool, moment: &mut usize, place: &mut usize) -> u32 {
        unsafe {
            ffi::showrule_compare(
                first.samples.as_ptr(),
                first.samples.len(),
                first.start,
                first.driven,
                second.samples.as_ptr(),
                second.samples.len(),
                second.start,
                second.driven,
                same,
                moment,
                place,
            )
        }
    }
}

type Made<T> = RefCell<HashMap<(Vec<u32>, Limits), Result<T, Refusal>>>;

/// The reference. The words of a form are made once an input, whatever slices it is written to.
#[derive(Default)]
pub struct Reference {
    plain: Made<Vec<Word>>,
    normal: Made<Option<Vec<Word>>>,
}

impl Reference {
    pub fn plain_words(&self, table: &[u32], limits: Limits) -> Result<Vec<Word>, Refusal> {
        self.plain.borrow_mut().entry((table.to_vec(), limits)).or_insert_with(|| steps::plain_words(table, limits)).clone()
    }

    /// None where the table is its own form.
    pub fn normal_words(&self, table: &[u32], limits: Limits) -> Result<Option<Vec<Word>>, Refusal> {
        self.normal.borrow_mut().entry((table.to_vec(), limits)).or_insert_with(|| steps::normal_words(table, limits)).clone()
    }
}

/// Number and place in lent numbers, both 0 where the call is accepted.
fn told<T>(answer: Result<T, Refusal>, place: &mut usize) -> (u32, Option<T>) {
    match answer {
        Ok(value) => {
            *place = 0;
            (0, Some(value))
        }
        Err(refusal) => {
            *place = refusal.place;
            (refusal.number, None)
        }
    }
}

fn form_told(answer: Result<Form, Refusal>, stands: &mut Stands, place: &mut usize) -> u32 {
    let (number, made) = told(answer, place);
    let form = made.unwrap_or(Form::Result(0));
    *stands = Stands { in_source: form.is_source().into(), length: form.length() };
    number
}

pub fn length_told(answer: Result<usize, Refusal>, length: &mut usize, place: &mut usize) -> u32 {
    let (number, made) = told(answer, place);
    *length = made.unwrap_or(0);
    number
}

impl Library for Reference {
    fn check(&self, table: &[u32], plain: bool, limit: usize, place: &mut usize) -> u32 {
        told(steps::check(table, plain, limit), place).0
    }

    fn classify(&self, table: &[u32], bytes: &mut [u8], place: &mut usize) -> u32 {
        told(steps::classify(table, bytes), place).0
    }

    fn text(&self, text: &[u8], limits: Limits, result: &mut [u32], length: &mut usize, place: &mut usize) -> u32 {
        length_told(steps::text(text, limits, result), length, place)
    }

    fn plain(&self, table: &[u32], limits: Limits, result: &mut [u32], length: &mut usize, place: &mut usize) -> u32 {
        length_told(steps::write(self.plain_words(table, limits), result), length, place)
    }

    fn normal(&self, table: &[u32], limits: Limits, result: &mut [u32], stands: &mut Stands, place: &mut usize) -> u32 {
        let made = self.normal_words(table, limits);
        form_told(made.and_then(|made| steps::hand_back(table, made, result)), stands, place)
    }

    fn dialect(&self, table: &[u32], result: &mut [u32], length: &mut usize, place: &mut usize) -> u32 {
        length_told(steps::dialect(table, result), length, place)
    }

    fn after(&self, table: &[u32], sample: u32, driven: usize, result: &mut [u32], length: &mut usize, place: &mut usize) -> u32 {
        length_told(steps::after(table, sample, driven, result), length, place)
    }

    fn states(&self, table: &[u32], result: &mut [u32], states: &mut usize, place: &mut usize) -> u32 {
        length_told(steps::states(table, result), states, place)
    }

    fn moved(&self, table: &[u32], by: Move, result: &mut [u32], words: &mut usize, place: &mut usize) -> u32 {
        length_told(steps::moved(table, by.state, by.sample, by.driven, result), words, place)
    }

    fn form(
        &self,
        table: &[u32],
        limits: Limits,
        plain: &mut [u32],
        result: &mut [u32],
        stands: &mut Stands,
        place: &mut usize,
    ) -> u32 {
        let made = steps::write(self.plain_words(table, limits), plain);
        let form = made.and_then(|n| steps::hand_back(&plain[..n], self.normal_words(&plain[..n], limits)?, result));
        form_told(form, stands, place)
    }

    fn judge(
        &self,
        table: &[u32],
        recording: Recording,
        scratch: &mut [u64],
        tallies: &mut [Tally],
        desk: usize,
        lent: &mut Lent,
        place: &mut usize,
    ) -> u32 {
        let mut counts: Vec<_> = tallies.iter().map(|t| steps::Tally { judged: t.judged, held: t.held }).collect();
        let (number, judged) = told(steps::judge(table, recording, scratch, &mut counts, desk), place);
        for (tally, count) in tallies.iter_mut().zip(counts) {
            *tally = Tally { judged: count.judged, held: count.held };
        }
        let judgement = judged.unwrap_or(steps::Judgement { holds: false, moments: 0, failing: 0 });
        *lent = Lent { holds: judgement.holds, moments: judgement.moments, failing: judgement.failing };
        number
    }

    fn row(
        &self,
        table: &[u32],
        recording: Recording,
        scratch: &mut [u64],
        from: &mut usize,
        words: &mut usize,
        place: &mut usize,
    ) -> u32 {
        let (number, part) = told(steps::row(table, recording, scratch), place);
        let part = part.unwrap_or(0..0);
        (*from, *words) = (part.start, part.len());
        number
    }

    fn compare(&self, first: Recording, second: Recording, same: &mut bool, moment: &mut usize, place: &mut usize) -> u32 {
        let (number, difference) = told(steps::compare(first, second), place);
        *same = difference == Some(None);
        *moment = difference.flatten().unwrap_or(0);
        number
    }
}
