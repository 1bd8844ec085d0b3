//! Rules typed as text and printed as text.
use crate::refusal::Call;
use crate::{check, ffi, words_of, Limits, Refusal, MOST_WORDS};
use std::fmt;
use std::ops::Deref;
use std::str::FromStr;

/// The written table of a text: the front part of `result`. What stands past it stays. The text is a rule of `true`, `false`, `p1` to
/// `p32`, the prefixes `! X F G`, and `& | -> U W R M` between two rules, always in round brackets; only spaces may stand round these,
/// so that a line end is no part of a text. Words are numbered by first need, an identical word used again. Refused as 12, every word
/// of the slice is 0; refused otherwise, it is as it was. [`Limits::written_room`] is always enough.
///
/// ```
/// use showrule::{from_text, Limits};
/// let mut result = [0; Limits::DESK.written_room()];
/// let table = from_text(b"(p1 U !p1)", Limits::DESK, &mut result)?;
/// assert_eq!(table, [0x0000_0003, 0x3000_0001, 0xC000_0001, 0x8000_4002]);
/// let refusal = from_text(b"p1 U p2", Limits::DESK, &mut result).unwrap_err();
/// assert_eq!((refusal.number(), refusal.place()), (19, 4));
/// # Ok::<(), showrule::Refusal>(())
/// ```
pub fn from_text<'a>(text: &[u8], limits: Limits, result: &'a mut [u32]) -> Result<&'a [u32], Refusal> {
    let (mut length, mut place) = (0, 0);
    let number = unsafe {
        ffi::showrule_text(
            text.as_ptr(),
            text.len(),
            limits.written,
            limits.until_like,
            result.as_mut_ptr(),
            result.len(),
            &mut length,
            &mut place,
        )
    };
    Call { text: Some(text), limits, limit: limits.written, room: result.len(), ..Call::default() }.answer(number, place)?;
    Ok(&result[..length])
}

/// A written table of at most 256 words, read from a text: with `parse` under the limits of the program, or under others with
/// [`Rule::read`]. It is its header and words wherever a table is asked for, and prints as text.
///
/// ```
/// let rule: showrule::Rule = "  ( p1 & Xp1 )".parse()?;
/// assert_eq!(*rule, [0x001F_8003, 0x3000_0001, 0x7000_0001, 0x5000_4002]);
/// assert_eq!(rule.to_string(), "(p1 & Xp1)");
/// # Ok::<(), showrule::NotRead>(())
/// ```
#[derive(Clone, Copy)]
pub struct Rule {
    table: [u32; Limits::HIGHEST.written_room()],
    length: usize,
}

impl Rule {
    /// The rule of a text, under the limits of a house.
    ///
    /// ```
    /// use showrule::{Limits, Rule};
    /// let small = Limits { written: 3, until_like: 1 };
    /// assert_eq!(Rule::read("(p1 U p2)", small)?.len(), 4);
    /// assert_eq!(Rule::read("X(p1 U p2)", small).unwrap_err().refusal().number(), 2);
    /// # Ok::<(), showrule::NotRead>(())
    /// ```
    pub fn read(text: &str, limits: Limits) -> Result<Rule, NotRead> {
        let mut table = [0; Limits::HIGHEST.written_room()];
        match from_text(text.as_bytes(), limits, &mut table).map(|made| made.len()) {
            Ok(length) => Ok(Rule { table, length }),
            Err(refusal) => Err(NotRead { refusal, text: text.into() }),
        }
    }
}

impl FromStr for Rule {
    type Err = NotRead;

    fn from_str(text: &str) -> Result<Rule, NotRead> {
        Rule::read(text, Limits::DESK)
    }
}

impl Deref for Rule {
    type Target = [u32];

    fn deref(&self) -> &[u32] {
        &self.table[..self.length]
    }
}

impl PartialEq for Rule {
    fn eq(&self, other: &Rule) -> bool {
        **self == **other
    }
}

impl Eq for Rule {}

impl fmt::Debug for Rule {
    fn fmt(&self, f: &mut fmt::Formatter) -> fmt::Result {
        write!(f, "Rule({self})")
    }
}

/// As text, which is never much longer than the one that was read: only spaces differ.
impl fmt::Display for Rule {
    fn fmt(&self, f: &mut fmt::Formatter) -> fmt::Result {
        f.write_str(&printed(words_of(self)))
    }
}

/// Why a text is not read: the refusal, and the text that it speaks of. Printed, it is the refusal's sentence and, where that has a
/// place in the text, the text on one line with a caret under the place. A character that is not printable ASCII is shown as `?`.
#[derive(Clone, PartialEq, Eq, Debug)]
pub struct NotRead {
    refusal: Refusal,
    text: String,
}

impl NotRead {
    /// The refusal.
    pub fn refusal(&self) -> Refusal {
        self.refusal
    }

    /// The text.
    pub fn text(&self) -> &str {
        &self.text
    }
}

impl fmt::Display for NotRead {
    fn fmt(&self, f: &mut fmt::Formatter) -> fmt::Result {
        write!(f, "{}", self.refusal)?;
        if let Refusal::NoRule { place, .. } = self.refusal {
            f.write_str(hint(self.text.as_bytes(), place))?;
            let shown: String = self.text.chars().map(|c| if matches!(c, ' '..='~') { c } else { '?' }).collect();
            // a character of several bytes is one column
            let before = self.text.char_indices().filter(|(at, c)| at + c.len_utf8() < place).count();
            write!(f, "\n  {shown}\n  {:before$}^", "")?;
        }
        Ok(())
    }
}

/// What is mostly meant by a byte that cannot stand where it does.
fn hint(text: &[u8], place: usize) -> &'static str {
    let in_brackets = |brackets: i32, byte: &u8| brackets + (*byte == b'(') as i32 - (*byte == b')') as i32;
    match text.get(place - 1) {
        Some(b'&' | b'|' | b'-' | b'U' | b'W' | b'R' | b'M') if text[..place].iter().fold(0, in_brackets) == 0 => {
            " (a two-sided operator and its operands stand in round brackets)"
        }
        Some(b'\t' | b'\n' | b'\r') => " (only spaces may stand round symbols)",
        _ => "",
    }
}

impl std::error::Error for NotRead {}

/// Why a table is not printed.
#[derive(Clone, Copy, PartialEq, Eq, Debug)]
pub enum NotPrinted {
    /// It does not pass the checks of a written table.
    Refused(Refusal),
    /// Its text is longer than the limit: so many bytes, the highest number standing for all that are not below it.
    TooLong {
        /// The bytes that its text would have.
        bytes: usize,
        /// The bytes that were allowed.
        limit: usize,
    },
}

impl fmt::Display for NotPrinted {
    fn fmt(&self, f: &mut fmt::Formatter) -> fmt::Result {
        match *self {
            NotPrinted::Refused(refusal) => write!(f, "{refusal}"),
            NotPrinted::TooLong { bytes: usize::MAX, limit } => {
                write!(f, "the text of the table would have {} bytes or more, and the limit is {limit}", usize::MAX)
            }
            NotPrinted::TooLong { bytes, limit } => {
                write!(f, "the text of the table would have {bytes} bytes, and the limit is {limit}")
            }
        }
    }
}

impl std::error::Error for NotPrinted {}

/// A written or plain table as text of at most so many bytes: as rules are typed, with a space on either side of a two-sided operator, and
/// kind 4 as `!p1`. A word that is used again is printed again, so that a short table can have a very long text.
///
/// ```
/// use showrule::{to_text, NotPrinted};
/// assert_eq!(to_text(&[0x0000_0003, 0x3000_0001, 0xD000_0001, 0xE000_0002], 100)?, "GFp1");
/// // each word the one before with itself
/// let mut chain = vec![showrule::header(0x7F, 61), 0x3000_0001];
/// chain.extend((1..=60).map(|n| 0x5000_0000 + (n << 14) + n));
/// assert_eq!(to_text(&chain, 1000), Err(NotPrinted::TooLong { bytes: 8_070_450_532_247_928_827, limit: 1000 }));
/// # Ok::<(), NotPrinted>(())
/// ```
pub fn to_text(table: &[u32], limit: usize) -> Result<String, NotPrinted> {
    check(table, false, MOST_WORDS).map_err(NotPrinted::Refused)?;
    let bytes = text_bytes(words_of(table));
    if bytes > limit || bytes == usize::MAX {
        return Err(NotPrinted::TooLong { bytes, limit });
    }
    Ok(printed(words_of(table)))
}

const SYMBOLS: [&str; 16] = ["", "false", "true", "p", "!p", "&", "|", "X", "U", "W", "R", "M", "!", "F", "G", "->"];

/// What is printed for a word that passes the checks.
enum Shape {
    Constant,
    Letter(u32),
    /// A prefix and its operand.
    Prefix(usize),
    TwoSided(usize, usize),
}

/// The symbol of a word, and its shape.
fn shape(word: u32) -> (&'static str, Shape) {
    let (kind, left, right) = (word >> 28, (word >> 14 & 0x3FFF) as usize, word & 0x3FFF);
    let shape = match kind {
        1 | 2 => Shape::Constant,
        3 | 4 => Shape::Letter(right),
        7 | 12..=14 => Shape::Prefix(right as usize),
        _ => Shape::TwoSided(left, right as usize),
    };
    (SYMBOLS[kind as usize], shape)
}

/// The bytes of the text of a table with these words, in one rising pass.
fn text_bytes(words: &[u32]) -> usize {
    let mut bytes: Vec<usize> = Vec::with_capacity(words.len());
    for &word in words {
        let (symbol, shape) = shape(word);
        bytes.push(match shape {
            Shape::Constant => symbol.len(),
            Shape::Letter(n) => symbol.len() + if n < 10 { 1 } else { 2 },
            Shape::Prefix(a) => bytes[a - 1].saturating_add(symbol.len()),
            Shape::TwoSided(a, b) => bytes[a - 1].saturating_add(bytes[b - 1]).saturating_add(symbol.len() + 4),
        });
    }
    bytes[bytes.len() - 1]
}

/// The text of a table that passes the checks, and has these words.
fn printed(words: &[u32]) -> String {
    enum Next {
        Word(usize),
        Symbol(&'static str),
    }
    let mut text = String::new();
    // what is still to be printed, the last first: no deep rule needs a deep stack
    let mut to_print = vec![Next::Word(words.len())];
    while let Some(next) = to_print.pop() {
        match next {
            Next::Symbol(symbol) => text.push_str(symbol),
            Next::Word(n) => match shape(words[n - 1]) {
                (symbol, Shape::Constant) => text.push_str(symbol),
                (symbol, Shape::Letter(letter)) => text.push_str(&format!("{symbol}{letter}")),
                (symbol, Shape::Prefix(a)) => {
                    text.push_str(symbol);
                    to_print.push(Next::Word(a));
                }
                (symbol, Shape::TwoSided(a, b)) => {
                    text.push('(');
                    to_print.extend([Next::Symbol(")"), Next::Word(b), Next::Symbol(" "), Next::Symbol(symbol)]);
                    to_print.extend([Next::Symbol(" "), Next::Word(a)]);
                }
            },
        }
    }
    text
}
