//! Why a call is refused: its number and place in the documents, and a sentence that says what to look at.
use crate::{scratch_words, words_of, Limits, Tally, MOST_DRIVEN, MOST_SAMPLES, MOST_TEXT_BYTES};
use std::fmt;

/// A field of a word.
#[derive(Clone, Copy, PartialEq, Eq, Debug)]
pub enum Side {
    /// The 14 bits below the kind.
    Left,
    /// The low 14 bits.
    Right,
}

/// Why a call is refused. The cases are those of document 01's check table and of document 02; [`Refusal::number`] and
/// [`Refusal::place`] are their two numbers, and the sentence (`to_string`) says what to look at.
#[derive(Clone, Copy, PartialEq, Eq, Debug)]
#[non_exhaustive]
#[allow(missing_docs)]
pub enum Refusal {
    /// The slice is empty, or the count of its header is 0.
    NoWord {
        empty: bool,
    },
    /// The header counts so many words.
    TooManyWords {
        words: usize,
        limit: usize,
    },
    KindZero {
        place: usize,
    },
    NotPlain {
        place: usize,
        kind: u32,
    },
    OperandZero {
        place: usize,
        side: Side,
    },
    OperandNotEarlier {
        place: usize,
        side: Side,
        operand: u32,
    },
    LetterOutOfRange {
        place: usize,
        letter: u32,
    },
    FieldNotZero {
        place: usize,
        side: Side,
        value: u32,
    },
    Repeated {
        place: usize,
        earlier: usize,
    },
    Unused {
        place: usize,
    },
    /// The word is the first over the limit.
    TooManyUntilLike {
        place: usize,
        limit: usize,
        of_plain_form: bool,
    },
    ResultTooShort {
        room: usize,
    },
    NoSample,
    TooManySamples {
        samples: usize,
    },
    LoopStartOutside {
        start: usize,
        samples: usize,
    },
    ScratchTooShort {
        room: usize,
        needed: usize,
    },
    TallyFull {
        judged: u32,
        held: u32,
    },
    /// The table of a text would have too many words: 2, as for a table.
    TextOfTooManyWords {
        limit: usize,
    },
    /// The text is no rule, whatever came after its byte of this number, counted from 1, or as far as it goes.
    NoRule {
        place: usize,
        ends_early: bool,
    },
    TextTooLong {
        bytes: usize,
    },
    /// The recording, or the sample, does not drive a letter of the rule.
    LetterNotDriven {
        place: usize,
        letter: u32,
        driven: usize,
    },
    TooManyDriven {
        driven: usize,
    },
    /// The count of the header is not the number of words after it.
    CountDiffers {
        count: usize,
        words: usize,
    },
    /// The header has another kind than 0, or another class than the table: `written` says whether a word is of kind 12 to 15.
    WrongHeader {
        kind: u32,
        class: u32,
        written: bool,
    },
    /// A limit is outside its range.
    LimitsOutside {
        limits: Limits,
    },
    /// No tally of the desk is lent: of so many desks there is one, from number 0 on.
    DeskOutside {
        desk: usize,
        desks: usize,
    },
    /// Two recordings that are compared drive different numbers of letters.
    DrivenCountsDiffer {
        first: usize,
        second: usize,
    },
    /// No state has this number: 6, at place 0.
    StateOutside {
        state: usize,
    },
    /// The last word's class lacks Delta-2.
    NotDelta2,
    /// A number that this crate does not know.
    Other {
        number: u32,
        place: usize,
    },
}

/// What a call was handed, as far as a refusal can speak of it.
#[derive(Clone, Copy, Default)]
pub(crate) struct Call<'a> {
    pub table: &'a [u32],
    pub text: Option<&'a [u8]>,
    pub limits: Limits,
    pub limit: usize,
    pub room: usize,
    pub samples: usize,
    pub start: usize,
    pub driven: usize,
    pub desks: usize,
    pub desk: usize,
    pub other_driven: usize,
    pub state: usize,
    pub tally: Tally,
    pub of_plain_form: bool,
}

impl Call<'_> {
    /// The library's number and place as a result.
    pub fn answer(self, number: u32, place: usize) -> Result<(), Refusal> {
        if number == 0 {
            return Ok(());
        }
        Err(self.refusal(number, place))
    }

    fn refusal(self, number: u32, place: usize) -> Refusal {
        // words are numbered from 1 after the header; at place 0 this is the header itself
        let word = self.table.get(place).copied().unwrap_or(0);
        let kind = word >> 28;
        let (left, right) = (word >> 14 & 0x3FFF, word & 0x3FFF);
        let words = words_of(self.table);
        let two_sided = matches!(kind, 5 | 6 | 8..=11 | 15);
        match number {
            1 => Refusal::NoWord { empty: self.table.is_empty() },
            2 if self.text.is_some() => Refusal::TextOfTooManyWords { limit: self.limit },
            2 => Refusal::TooManyWords { words: right as usize, limit: self.limit },
            3 => Refusal::KindZero { place },
            4 => Refusal::NotPlain { place, kind },
            5 => Refusal::OperandZero { place, side: if two_sided && left == 0 { Side::Left } else { Side::Right } },
            // a table that is refused by 6 has a word of that number
            6 if place == 0 => Refusal::StateOutside { state: self.state },
            6 if two_sided && left as usize >= place => Refusal::OperandNotEarlier { place, side: Side::Left, operand: left },
            6 => Refusal::OperandNotEarlier { place, side: Side::Right, operand: right },
            7 => Refusal::LetterOutOfRange { place, letter: right },
            8 if left != 0 => Refusal::FieldNotZero { place, side: Side::Left, value: left },
            8 => Refusal::FieldNotZero { place, side: Side::Right, value: right },
            9 => Refusal::Repeated { place, earlier: words.iter().position(|&w| w == word).map_or(0, |i| i + 1) },
            10 => Refusal::Unused { place },
            11 => Refusal::TooManyUntilLike { place, limit: self.limits.until_like, of_plain_form: self.of_plain_form },
            12 => Refusal::ResultTooShort { room: self.room },
            13 => Refusal::NoSample,
            14 => Refusal::TooManySamples { samples: self.samples },
            15 => Refusal::LoopStartOutside { start: self.start, samples: self.samples },
            16 => Refusal::ScratchTooShort { room: self.room, needed: scratch_words(words.len(), self.samples) },
            17 => Refusal::TallyFull { judged: self.tally.judged, held: self.tally.held },
            19 => Refusal::NoRule { place, ends_early: self.text.is_some_and(|text| place > text.len()) },
            20 => Refusal::TextTooLong { bytes: self.text.map_or(0, |text| text.len()) },
            21 => Refusal::LetterNotDriven { place, letter: right, driven: self.driven },
            22 => Refusal::TooManyDriven { driven: self.driven },
            23 => Refusal::CountDiffers { count: right as usize, words: words.len() },
            24 => Refusal::WrongHeader { kind, class: left, written: words.iter().any(|word| word >> 28 >= 12) },
            25 => Refusal::LimitsOutside { limits: self.limits },
            26 => Refusal::DeskOutside { desk: self.desk, desks: self.desks },
            27 => Refusal::DrivenCountsDiffer { first: self.other_driven, second: self.driven },
            28 => Refusal::NotDelta2,
            _ => Refusal::Other { number, place },
        }
    }
}

impl Refusal {
    /// The documents' number.
    pub fn number(&self) -> u32 {
        match *self {
            Refusal::NoWord { .. } => 1,
            Refusal::TooManyWords { .. } | Refusal::TextOfTooManyWords { .. } => 2,
            Refusal::KindZero { .. } => 3,
            Refusal::NotPlain { .. } => 4,
            Refusal::OperandZero { .. } => 5,
            Refusal::OperandNotEarlier { .. } | Refusal::StateOutside { .. } => 6,
            Refusal::LetterOutOfRange { .. } => 7,
            Refusal::FieldNotZero { .. } => 8,
            Refusal::Repeated { .. } => 9,
            Refusal::Unused { .. } => 10,
            Refusal::TooManyUntilLike { .. } => 11,
            Refusal::ResultTooShort { .. } => 12,
            Refusal::NoSample => 13,
            Refusal::TooManySamples { .. } => 14,
            Refusal::LoopStartOutside { .. } => 15,
            Refusal::ScratchTooShort { .. } => 16,
            Refusal::TallyFull { .. } => 17,
            Refusal::NoRule { .. } => 19,
            Refusal::TextTooLong { .. } => 20,
            Refusal::LetterNotDriven { .. } => 21,
            Refusal::TooManyDriven { .. } => 22,
            Refusal::CountDiffers { .. } => 23,
            Refusal::WrongHeader { .. } => 24,
            Refusal::LimitsOutside { .. } => 25,
            Refusal::DeskOutside { .. } => 26,
            Refusal::DrivenCountsDiffer { .. } => 27,
            Refusal::NotDelta2 => 28,
            Refusal::Other { number, .. } => number,
        }
    }

    /// The number of the faulty word for 3 to 11 (0 for 6 of a state) and 21, that of a byte of the text for 19, and 0 otherwise.
    pub fn place(&self) -> usize {
        match *self {
            Refusal::KindZero { place }
            | Refusal::NotPlain { place, .. }
            | Refusal::OperandZero { place, .. }
            | Refusal::OperandNotEarlier { place, .. }
            | Refusal::LetterOutOfRange { place, .. }
            | Refusal::FieldNotZero { place, .. }
            | Refusal::Repeated { place, .. }
            | Refusal::Unused { place }
            | Refusal::TooManyUntilLike { place, .. }
            | Refusal::NoRule { place, .. }
            | Refusal::LetterNotDriven { place, .. }
            | Refusal::Other { place, .. } => place,
            _ => 0,
        }
    }
}

impl fmt::Display for Side {
    fn fmt(&self, f: &mut fmt::Formatter) -> fmt::Result {
        f.write_str(match self {
            Side::Left => "left",
            Side::Right => "right",
        })
    }
}

impl fmt::Display for Refusal {
    fn fmt(&self, f: &mut fmt::Formatter) -> fmt::Result {
        match *self {
            Refusal::NoWord { empty: true } => write!(f, "the table is empty: a rule has a header and at least one word"),
            Refusal::NoWord { empty: false } => write!(f, "the header's count is 0, and a rule has at least one word"),
            Refusal::TooManyWords { words, limit } => {
                write!(f, "the table has {words} words, and this step takes at most {limit}: make the rule shorter")
            }
            Refusal::KindZero { place } => write!(f, "word {place} is of kind 0, which means nothing: its top 4 bits are 0"),
            Refusal::NotPlain { place, kind } => {
                write!(f, "word {place} is of kind {kind}, which a plain table does not have: make the plain form first")
            }
            Refusal::OperandZero { place, side } => write!(f, "word {place} names no operand: its {side} field is 0"),
            Refusal::OperandNotEarlier { place, side, operand } => {
                write!(f, "word {place} uses word {operand} ({side} field), and an operand is an earlier word")
            }
            Refusal::LetterOutOfRange { place, letter } => {
                write!(f, "word {place} names letter {letter}, and letters are 1 to 32")
            }
            Refusal::FieldNotZero { place, side, value } => {
                write!(f, "word {place} has {value} in its {side} field, which is 0 in a word of its kind")
            }
            Refusal::Repeated { place, earlier } => {
                write!(f, "word {place} is the same as word {earlier}: use word {earlier} in its place")
            }
            Refusal::Unused { place } => {
                write!(f, "word {place} is used by no other word and is not the last: use it, or leave it out")
            }
            Refusal::TooManyUntilLike { place, limit, of_plain_form } => {
                let of = if of_plain_form { " of the plain form" } else { "" };
                write!(f, "word {place}{of} is the first until-like word over the limit of {limit}: split the rule")
            }
            Refusal::ResultTooShort { room } => write!(f, "the result does not fit the slice of {room} that was lent for it"),
            Refusal::NoSample => write!(f, "the recording has no sample"),
            Refusal::TooManySamples { samples } => {
                write!(f, "the recording has {samples} samples, and at most {MOST_SAMPLES} are judged")
            }
            Refusal::LoopStartOutside { start, samples } => {
                write!(f, "the loop starts at moment {start}, and the recording's moments are 0 to {}", samples.wrapping_sub(1))
            }
            Refusal::ScratchTooShort { room, needed } => {
                write!(f, "the scratch has {room} words of 64 bits, and the rows need {needed}")
            }
            Refusal::TallyFull { judged, held } if held > judged => {
                write!(f, "the tally has {held} held of {judged} judged: it is damaged")
            }
            Refusal::TallyFull { judged, .. } => write!(f, "the tally is full: {judged} judgements are counted"),
            Refusal::TextOfTooManyWords { limit } => {
                write!(f, "the table of the text has more words than the limit of {limit}: make the rule shorter")
            }
            Refusal::NoRule { place, ends_early: false } => {
                write!(f, "no rule begins as the text does up to its byte {place}")
            }
            Refusal::NoRule { place, ends_early: true } => {
                write!(f, "the text ends before its rule does: byte {place} is missing")
            }
            Refusal::TextTooLong { bytes } => {
                write!(f, "the text has {bytes} bytes, and at most {MOST_TEXT_BYTES} are read")
            }
            Refusal::LetterNotDriven { place, letter, driven: 0 } => {
                write!(f, "word {place} names letter {letter}, and no letter is driven")
            }
            Refusal::LetterNotDriven { place, letter, driven } => {
                write!(f, "word {place} names letter {letter}, and letters 1 to {driven} are driven")
            }
            Refusal::TooManyDriven { driven } => {
                write!(f, "{driven} letters are said to be driven, and there are {MOST_DRIVEN}")
            }
            Refusal::CountDiffers { count, words } => {
                write!(
                    f,
                    "the header's count is {count}, and the number of words after it is {words}: the table was cut, or added to"
                )
            }
            Refusal::WrongHeader { kind, .. } if kind != 0 => {
                write!(f, "the header is of kind {kind}, and a header is of kind 0: look whether the table begins with one")
            }
            Refusal::WrongHeader { class, written: true, .. } => {
                write!(f, "the header has class {class:02X}, and that of a table with kinds 12 to 15 is 0")
            }
            Refusal::WrongHeader { class, .. } => {
                write!(f, "the header has class {class:02X}, which is not the class byte of the last word")
            }
            Refusal::LimitsOutside { limits } if !(1..=Limits::HIGHEST.written).contains(&limits.written) => {
                let (written, most) = (limits.written, Limits::HIGHEST.written);
                write!(f, "the limit on written words is {written}, and a house may set 1 to {most}")
            }
            Refusal::LimitsOutside { limits } => {
                let (until_like, most) = (limits.until_like, Limits::HIGHEST.until_like);
                write!(f, "the limit on until-like words is {until_like}, and a house may set 0 to {most}")
            }
            Refusal::DeskOutside { desk, desks: 0 } => write!(f, "desk {desk} has no tally: none is lent"),
            Refusal::DeskOutside { desk, desks } => {
                write!(f, "desk {desk} has no tally: those of desks 0 to {} are lent", desks - 1)
            }
            Refusal::DrivenCountsDiffer { first, second } => {
                write!(
                    f,
                    "the first recording drives {first} of the letters, and the second {second}: compare those that both drive"
                )
            }
            Refusal::StateOutside { state } => write!(f, "there is no state {state}: its number is past the last"),
            Refusal::NotDelta2 => {
                write!(f, "the rule's class lacks Delta-2, so that it has no automaton: make the normal form first")
            }
            Refusal::Other { number, place } => write!(f, "refused {number} at {place}"),
        }
    }
}

impl std::error::Error for Refusal {}
