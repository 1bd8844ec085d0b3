//! Show rules for desks: a safe crate over the proved static library.
//!
//! A rule is a table of 32-bit words: a header, which has the class of the last word and how many words there are ([`header`]), and then
//! the words, numbered from 1; documents 01 and 02 say what they mean. Every table that is handed over or back has its header. Every call
//! takes slices that the caller lends, allocates nothing, and answers a `Result`: a [`Refusal`] has the documents' number and place, and
//! says in a sentence what is wrong. What a slice holds after a call, refused or not, is said at each function. Only printing a table
//! ([`to_text`]), and the error of a text ([`NotRead`]), which keeps the text, allocate. How many words and until-like words a rule may
//! have is for the house to say ([`Limits`]).
//!
//! ```
//! use showrule::Limits;
//! // G p1: "letter 1, for ever".
//! let table = [showrule::header(0, 2), 0x3000_0001, 0xE000_0001];
//! let (mut plain, mut result) = ([0; Limits::DESK.plain_room()], [0; 4097]);
//! // class 7C, three words: it is in Delta-2, so that its plain table is its form
//! let form = showrule::form(&table, Limits::DESK, &mut plain, &mut result)?;
//! assert_eq!(form, [0x001F_0003, 0x1000_0000, 0x3000_0001, 0xA000_4002]);
//! # Ok::<(), showrule::Refusal>(())
//! ```
//!
//! A rule can be typed as text, and printed as text; document 02 (N1) says how. [`Rule`] reads one from a `&str`, and a refusal shows
//! where it breaks:
//!
//! ```
//! let rule: showrule::Rule = "G(p1 -> Fp2)".parse()?;
//! assert_eq!(*rule, [0x0000_0005, 0x3000_0001, 0x3000_0002, 0xD000_0002, 0xF000_4003, 0xE000_0004]);
//! let mut result = [0; showrule::Limits::DESK.plain_room()];
//! let plain = showrule::plain_form(&rule, showrule::Limits::DESK, &mut result)?;
//! assert_eq!(showrule::to_text(plain, 100)?, "(false R (!p1 | (true U p2)))");
//!
//! let error = "(p1 U p33)".parse::<showrule::Rule>().unwrap_err();
//! assert_eq!((error.refusal().number(), error.refusal().place()), (19, 9));
//! println!("{error}");
//! // no rule begins as the text does up to its byte 9
//! //   (p1 U p33)
//! //           ^
//! # Ok::<(), Box<dyn std::error::Error>>(())
//! ```
//!
//! A damaged table is refused with a sentence:
//!
//! ```
//! let refusal = showrule::check(&[0x001F_8002, 0x2000_0000, 0x7000_0000], false, 64).unwrap_err();
//! assert_eq!((refusal.number(), refusal.place()), (5, 2));
//! assert_eq!(refusal.to_string(), "word 2 names no operand: its right field is 0");
//!
//! // a file that was cut
//! let refusal = showrule::check(&[0x001F_8002, 0x2000_0000], false, 64).unwrap_err();
//! assert_eq!(
//!     refusal.to_string(),
//!     "the header's count is 2, and the number of words after it is 1: the table was cut, or added to"
//! );
//! ```
#![warn(missing_docs)]

#[allow(missing_docs)]
pub mod ffi;
mod following;
mod limits;
mod refusal;
mod text;
mod watching;

pub use following::{after, Following};
pub use limits::Limits;
use refusal::Call;
pub use refusal::{Refusal, Side};
pub use text::{from_text, to_text, NotPrinted, NotRead, Rule};
pub use watching::{moved, start, states, State};

/// The most words that a table can have, beside its header: a field has 14 bits.
pub const MOST_WORDS: usize = 16_383;
/// The length of a slice that is enough for any table: 16,383 words and the header. A longer slice counts for no more.
pub const MOST_ROOM: usize = 1 + MOST_WORDS;
/// The most bytes of a text that is read.
pub const MOST_TEXT_BYTES: usize = 1_024;
/// The most samples of a recording.
pub const MOST_SAMPLES: usize = 4_096;
/// The most letters that a recording or a sample drives.
pub const MOST_DRIVEN: usize = 32;

/// A recording: after the last sample comes the one at the loop start again, for ever.
#[derive(Clone, Copy, PartialEq, Eq, Debug)]
pub struct Recording<'a> {
    /// One for each recorded moment. Letter n is bit n - 1, bit 0 the lowest.
    pub samples: &'a [u32],
    /// The loop start, a moment counted from 0.
    pub start: usize,
    /// How many letters are driven, 0 to 32: letters 1 to this one. The bits of other letters are never looked at, and a rule that names
    /// one is refused.
    pub driven: usize,
}

/// A desk's judgements so far, and how many of them held at moment 0.
#[repr(C)]
#[derive(Clone, Copy, PartialEq, Eq, Debug, Default)]
pub struct Tally {
    /// Judgements.
    pub judged: u32,
    /// Of these, those that held at moment 0.
    pub held: u32,
}

/// What a judgement answers.
#[derive(Clone, Copy, PartialEq, Eq, Debug)]
pub struct Judgement {
    /// Whether the rule holds at moment 0.
    pub holds: bool,
    /// At how many recorded moments it holds.
    pub moments: usize,
    /// The first recorded moment at which it fails, or the number of samples if there is none.
    pub failing: usize,
}

/// The header of a table of so many words, 1 to 16,383: the class byte is that of the last word, or 0 where a word of kind 12 to 15 occurs.
///
/// Of a greater count the header has the lowest 14 bits, so that a table of so many words is refused.
///
/// ```
/// // F p1, of class 7A
/// let finally = [showrule::header(0x7A, 3), 0x2000_0000, 0x3000_0001, 0x8000_4002];
/// assert_eq!(finally[0], 0x001E_8003);
/// assert!(showrule::check(&finally, true, 130).is_ok());
/// ```
pub const fn header(class_byte: u8, words: usize) -> u32 {
    (class_byte as u32) << 14 | (words & MOST_WORDS) as u32
}

/// The words of a table, without its header.
fn words_of(table: &[u32]) -> &[u32] {
    table.get(1..).unwrap_or(&[])
}

/// The checks of a table, 1, 2 and 23, then 3 to 10, then 24: written, or plain (kinds 1 to 11 only), of at most `limit` words beside the
/// header. No count is over 16,383, so that a higher limit refuses nothing.
///
/// ```
/// assert!(showrule::check(&[0x0000_0002, 0x3000_0001, 0xE000_0001], false, 64).is_ok());
/// let refusal = showrule::check(&[0x0000_0002, 0x3000_0001, 0xE000_0001], true, 64).unwrap_err();
/// assert_eq!(refusal.to_string(), "word 2 is of kind 14, which a plain table does not have: make the plain form first");
/// ```
pub fn check(table: &[u32], plain: bool, limit: usize) -> Result<(), Refusal> {
    let mut place = 0;
    let number = unsafe { ffi::showrule_check(table.as_ptr(), table.len(), plain, limit, &mut place) };
    Call { table, limit: limit.min(MOST_WORDS), ..Call::default() }.answer(number, place)
}

/// The class byte of every word of a plain table, at the front of `bytes`; the header has none. What stands past them stays. Refused as 12,
/// every byte of the slice is 0; refused otherwise, it is as it was.
///
/// ```
/// let always_eventually = [0x0018_0005, 0x3000_0001, 0x2000_0000, 0x8000_8001, 0x1000_0000, 0xA001_0003];
/// let mut bytes = [0; 5];
/// showrule::classify(&always_eventually, &mut bytes)?;
/// assert_eq!(bytes[4], 0x60);
/// # Ok::<(), showrule::Refusal>(())
/// ```
pub fn classify(table: &[u32], bytes: &mut [u8]) -> Result<(), Refusal> {
    let mut place = 0;
    let number = unsafe { ffi::showrule_classify(table.as_ptr(), table.len(), bytes.as_mut_ptr(), bytes.len(), &mut place) };
    Call { table, limit: MOST_WORDS, room: bytes.len(), ..Call::default() }.answer(number, place)
}

/// The plain form of a written table: the front part of `result`. What stands past it stays. Refused as 12, every word of the slice is 0;
/// refused otherwise, it is as it was. [`Limits::plain_room`] is always enough.
///
/// ```
/// use showrule::Limits;
/// let not_finally = [0x0000_0003, 0x3000_0001, 0xD000_0001, 0xC000_0002];
/// let mut result = [0; Limits::DESK.plain_room()];
/// let plain = showrule::plain_form(&not_finally, Limits::DESK, &mut result)?;
/// assert_eq!(plain, [0x001F_0003, 0x1000_0000, 0x4000_0001, 0xA000_4002]);
/// # Ok::<(), showrule::Refusal>(())
/// ```
pub fn plain_form<'a>(table: &[u32], limits: Limits, result: &'a mut [u32]) -> Result<&'a [u32], Refusal> {
    let (mut length, mut place) = (0, 0);
    let number = unsafe {
        ffi::showrule_plain(
            table.as_ptr(),
            table.len(),
            limits.written,
            limits.until_like,
            result.as_mut_ptr(),
            result.len(),
            &mut length,
            &mut place,
        )
    };
    Call { table, limits, limit: limits.written, room: result.len(), ..Call::default() }.answer(number, place)?;
    Ok(&result[..length])
}

/// The normal form of a plain table, of at most [`Limits::plain_words`] words: a part of `source` or of `result`.
///
/// A table in Delta-2, whose header has bit 6 in its class byte, is its own form: the part is the table, and `result` is as it was, however
/// short. The limit on until-like words does not count for it.
///
/// Any other table is rewritten, and the part is the front of `result`; what stands past the form stays. It is folded from its leaves
/// upward: `false | a` is `a`, `a W true` is `true`, `X false` is `false` and so on, so that the whole form may be one word, and 12 measures
/// the folded form. Beside it only remainders ([`after`]) are folded.
///
/// Refused as 12, every word of `result` is 0; refused otherwise, it is as it was. The words of `source` stay in every case.
///
/// ```
/// use showrule::Limits;
/// let mut result = [0; 4097];
/// // F p1 is in Delta-2
/// let mut finally = [0x001E_8003, 0x2000_0000, 0x3000_0001, 0x8000_4002];
/// assert_eq!(showrule::normal_form(&mut finally, Limits::DESK, &mut [])?, [0x001E_8003, 0x2000_0000, 0x3000_0001, 0x8000_4002]);
///
/// // G F G p1 is not: its form has ten words
/// let mut always = [0x0000_0006, 0x1000_0000, 0x2000_0000, 0x3000_0001, 0xA000_4003, 0x8000_8004, 0xA000_4005];
/// let form = showrule::normal_form(&mut always, Limits::DESK, &mut result)?;
/// assert_eq!((form.len(), form[0], form[10]), (11, 0x0014_000A, 0x6002_4009));
///
/// // F G F true, of five words, has the form true, of one
/// let mut folded = [0x0000_0005, 0x2000_0000, 0x1000_0000, 0x8000_4001, 0xA000_8003, 0x8000_4004];
/// assert_eq!(showrule::normal_form(&mut folded, Limits::DESK, &mut result[..2])?, [0x001F_C001, 0x2000_0000]);
/// # Ok::<(), showrule::Refusal>(())
/// ```
pub fn normal_form<'a>(source: &'a mut [u32], limits: Limits, result: &'a mut [u32]) -> Result<&'a mut [u32], Refusal> {
    let (mut in_source, mut length, mut place) = (false, 0, 0);
    let number = unsafe {
        ffi::showrule_normal(
            source.as_ptr(),
            source.len(),
            limits.written,
            limits.until_like,
            result.as_mut_ptr(),
            result.len(),
            &mut in_source,
            &mut length,
            &mut place,
        )
    };
    Call { table: source, limits, limit: limits.plain_words(), room: result.len(), ..Call::default() }.answer(number, place)?;
    Ok(if in_source { &mut source[..length] } else { &mut result[..length] })
}

/// The table of a plain table's conversion to the dialect without W and M, the front part of `result`: a W b becomes b R (a or b), and
/// a M b becomes b U (a and b); a table that has neither is renumbered only. What stands past it stays. It takes up to 16,383 words, and
/// n words become at most 2 n + 2, beside the header. Refused as 12, every word of the slice is 0; refused otherwise, it is as it was. A
/// table of over 512 words takes some 512 KB of stack.
///
/// ```
/// // p1 W p2 is p2 R (p1 or p2)
/// let weak = [0x001F_0003, 0x3000_0001, 0x3000_0002, 0x9000_4002];
/// let mut result = [0; 9];
/// assert_eq!(showrule::dialect(&weak, &mut result)?, [0x001F_0004, 0x3000_0002, 0x3000_0001, 0x6000_8001, 0xA000_4003]);
/// # Ok::<(), showrule::Refusal>(())
/// ```
pub fn dialect<'a>(table: &[u32], result: &'a mut [u32]) -> Result<&'a [u32], Refusal> {
    let (mut length, mut place) = (0, 0);
    let number =
        unsafe { ffi::showrule_dialect(table.as_ptr(), table.len(), result.as_mut_ptr(), result.len(), &mut length, &mut place) };
    Call { table, limit: MOST_WORDS, room: result.len(), ..Call::default() }.answer(number, place)?;
    Ok(&result[..length])
}

/// The whole way: the plain form of a written table at the front of `plain`, and the normal form of exactly that table, a part of `plain` or
/// of `result`, as [`normal_form`] has it: where the plain form is in Delta-2, it is the form, and `result` is as it was; else the form is
/// the front part of `result`. What stands past the forms stays. Where a form does not fit its slice (12), every word of that slice is 0;
/// where the plain form is refused, `result` is as it was; after 11 and 12 for `result`, the plain form stands in `plain`.
///
/// ```
/// use showrule::{form, Limits, Rule};
/// let (mut plain, mut result) = ([0; 131], [0; 4097]);
/// let limits = Limits { until_like: 2, ..Limits::DESK };
/// // three until-like words, outside Delta-2
/// let rule: Rule = "FGFp1".parse()?;
/// let refusal = form(&rule, limits, &mut plain, &mut result).unwrap_err();
/// assert_eq!((refusal.number(), refusal.place()), (11, 6));
/// assert_eq!(refusal.to_string(), "word 6 of the plain form is the first until-like word over the limit of 2: split the rule");
///
/// // a house that allows three
/// let limits = Limits { until_like: 3, ..limits };
/// assert_eq!(form(&rule, limits, &mut plain, &mut result)?.len(), 10);
///
/// // in Delta-2 any number is taken, and no result is needed
/// let rule: Rule = "(((Fp1 & Fp2) & (Fp3 & Fp4)) & GFp5)".parse()?;
/// assert_eq!(form(&rule, limits, &mut plain, &mut [])?.len(), 18);
/// # Ok::<(), Box<dyn std::error::Error>>(())
/// ```
pub fn form<'a>(table: &[u32], limits: Limits, plain: &'a mut [u32], result: &'a mut [u32]) -> Result<&'a mut [u32], Refusal> {
    let (mut in_plain, mut length, mut place) = (false, 0, 0);
    let number = unsafe {
        ffi::showrule_form(
            table.as_ptr(),
            table.len(),
            limits.written,
            limits.until_like,
            plain.as_mut_ptr(),
            plain.len(),
            result.as_mut_ptr(),
            result.len(),
            &mut in_plain,
            &mut length,
            &mut place,
        )
    };
    // a plain form that was made begins with its header, which is not 0
    let plain_made = plain.first().is_some_and(|&word| word != 0);
    let room = if plain_made { result.len() } else { plain.len() };
    Call { table, limits, limit: limits.written, room, of_plain_form: true, ..Call::default() }.answer(number, place)?;
    Ok(if in_plain { &mut plain[..length] } else { &mut result[..length] })
}

/// How many 64-bit words of scratch a table of so many words needs for a recording of so many samples. The header needs none. Of more than
/// a `usize` can say it is the greatest `usize`.
pub fn scratch_words(words: usize, samples: usize) -> usize {
    words.saturating_mul(samples.div_ceil(64))
}

/// Judges a rule over a recording. The rows of all words stand at the start of the scratch, and of the tallies, one for each desk, that of
/// the named desk, counted from 0, counts the judgement; the others are not looked at. A refusal changes nothing.
///
/// ```
/// let always = [0x0000_0002, 0x3000_0001, 0xE000_0001];
/// let mut scratch = [0; 2];
/// let mut tallies = [showrule::Tally::default(); 3];
/// let recording = showrule::Recording { samples: &[0, 1], start: 1, driven: 1 };
/// let judgement = showrule::judge(&always, recording, &mut scratch, &mut tallies, 2)?;
/// assert_eq!((judgement.holds, judgement.moments, judgement.failing), (false, 1, 0));
/// assert_eq!(tallies.map(|tally| (tally.judged, tally.held)), [(0, 0), (0, 0), (1, 0)]);
///
/// // a desk without a tally
/// let refusal = showrule::judge(&always, recording, &mut scratch, &mut tallies, 3).unwrap_err();
/// assert_eq!(refusal.to_string(), "desk 3 has no tally: those of desks 0 to 2 are lent");
///
/// // a desk that drives no input
/// let idle = showrule::Recording { driven: 0, ..recording };
/// let refusal = showrule::judge(&always, idle, &mut scratch, &mut tallies, 2).unwrap_err();
/// assert_eq!((refusal.number(), refusal.place()), (21, 1));
/// # Ok::<(), showrule::Refusal>(())
/// ```
pub fn judge(
    table: &[u32],
    recording: Recording,
    scratch: &mut [u64],
    tallies: &mut [Tally],
    desk: usize,
) -> Result<Judgement, Refusal> {
    let (mut holds, mut moments, mut failing, mut place) = (false, 0, 0, 0);
    let number = unsafe {
        ffi::showrule_judge(
            table.as_ptr(),
            table.len(),
            recording.samples.as_ptr(),
            recording.samples.len(),
            recording.start,
            recording.driven,
            scratch.as_mut_ptr(),
            scratch.len(),
            tallies.as_mut_ptr(),
            tallies.len(),
            desk,
            &mut holds,
            &mut moments,
            &mut failing,
            &mut place,
        )
    };
    // refused, the tallies are as they were
    let tally = tallies.get(desk).copied().unwrap_or_default();
    Call { desks: tallies.len(), desk, tally, ..judging(table, recording, scratch) }.answer(number, place)?;
    Ok(Judgement { holds, moments, failing })
}

/// The row call: the rule's own row, a part of the scratch and no copy. Moment i is bit (i mod 64) of the part's word i / 64. It takes
/// no tally, and makes the same checks and rows as [`judge`] otherwise. A refusal changes nothing.
///
/// ```
/// let finally = [0x0000_0002, 0x3000_0001, 0xD000_0001];
/// let mut scratch = [0; 2];
/// let recording = showrule::Recording { samples: &[1, 0], start: 1, driven: 1 };
/// assert_eq!(showrule::row(&finally, recording, &mut scratch)?, [0b01]);
/// # Ok::<(), showrule::Refusal>(())
/// ```
pub fn row<'a>(table: &[u32], recording: Recording, scratch: &'a mut [u64]) -> Result<&'a mut [u64], Refusal> {
    let (mut from, mut row_words, mut place) = (0, 0, 0);
    let number = unsafe {
        ffi::showrule_row(
            table.as_ptr(),
            table.len(),
            recording.samples.as_ptr(),
            recording.samples.len(),
            recording.start,
            recording.driven,
            scratch.as_mut_ptr(),
            scratch.len(),
            &mut from,
            &mut row_words,
            &mut place,
        )
    };
    judging(table, recording, scratch).answer(number, place)?;
    Ok(&mut scratch[from..from + row_words])
}

/// Whether two recordings, read on for ever, have the same driven bits at every moment.
#[derive(Clone, Copy, PartialEq, Eq, Debug)]
pub enum Comparison {
    /// They have: every rule of driven letters holds at moment 0 of both, or of neither.
    Same,
    /// They differ, at this moment first: a driven letter under that many X holds at moment 0 of one of them alone.
    DifferAt(usize),
}

/// Compares two recordings of one show, of any lengths and loop starts, on the letters that both drive. The checks of the first come first,
/// then those of the second, and recordings that drive different numbers of letters are refused last.
///
/// ```
/// use showrule::{compare, Comparison, Recording};
/// // letter 1 by turns, and the same recorded for a moment longer, with another bit that nothing drives
/// let one = Recording { samples: &[1, 0], start: 0, driven: 1 };
/// let other = Recording { samples: &[1, 2, 1], start: 1, driven: 1 };
/// assert_eq!(compare(one, other)?, Comparison::Same);
/// // moment 3 has the sample of moment 2
/// let late = Recording { start: 2, ..other };
/// assert_eq!(compare(one, late)?, Comparison::DifferAt(3));
/// let refusal = compare(one, Recording { driven: 2, ..late }).unwrap_err();
/// assert_eq!(refusal.to_string(), "the first recording drives 1 of the letters, and the second 2: compare those that both drive");
/// # Ok::<(), showrule::Refusal>(())
/// ```
pub fn compare(first: Recording, second: Recording) -> Result<Comparison, Refusal> {
    let (mut same, mut moment, mut place) = (false, 0, 0);
    let number = unsafe {
        ffi::showrule_compare(
            first.samples.as_ptr(),
            first.samples.len(),
            first.start,
            first.driven,
            second.samples.as_ptr(),
            second.samples.len(),
            second.start,
            second.driven,
            &mut same,
            &mut moment,
            &mut place,
        )
    };
    // a refusal speaks of the first recording, unless nothing is wrong with it
    let sound = (1..=MOST_SAMPLES).contains(&first.samples.len()) && first.start < first.samples.len();
    let Recording { samples, start, driven } = if sound && first.driven <= MOST_DRIVEN { second } else { first };
    let call = Call { samples: samples.len(), start, driven, other_driven: first.driven, ..Call::default() };
    call.answer(number, place)?;
    Ok(if same { Comparison::Same } else { Comparison::DifferAt(moment) })
}

/// What both calls were handed.
fn judging<'a>(table: &'a [u32], recording: Recording, scratch: &[u64]) -> Call<'a> {
    let Recording { samples, start, driven } = recording;
    Call { table, limit: MOST_WORDS, room: scratch.len(), samples: samples.len(), start, driven, ..Call::default() }
}
