//! Every step as a desk calls it: the reply, and what each lent slice holds afterwards, refused calls included. Every table, handed in or
//! made, has its header in front. The steps that make a written, a plain or a normal form take the limits of the house.
use crate::after::after as remainders;
use crate::automaton::{Automaton, State};
use crate::checks::{fits, until_like, Faults, Refusal};
use crate::class::{Class, Classes};
use crate::dialect::convert;
use crate::fold::fold;
use crate::forest::{Forest, Tree};
use crate::header::{header, words};
use crate::limits::Limits;
use crate::listing::list;
use crate::map::TreeMap;
use crate::normal::normal as normal_tree;
use crate::plain::Plain;
use crate::recording::{Recording, Truth};
use crate::typed;
use crate::word::{Word, MOST_WORDS};
use std::ops::Range;

/// Judged and held, of one desk.
#[derive(Clone, Copy, PartialEq, Eq, Debug)]
pub struct Tally {
    pub judged: u32,
    pub held: u32,
}

/// Whether the rule holds at moment 0, at how many moments, and the first that fails (the number of samples if none).
#[derive(Clone, Copy, PartialEq, Eq, Debug)]
pub struct Judgement {
    pub holds: bool,
    pub moments: usize,
    pub failing: usize,
}

pub fn check(table: &[u32], plain_only: bool, limit: usize) -> Result<(), Refusal> {
    Faults::default().table(table, plain_only, limit).first()
}

/// One byte a word, none for the header.
pub fn classify(table: &[u32], bytes: &mut [u8]) -> Result<(), Refusal> {
    check(table, true, MOST_WORDS)?;
    fits(words(table).len(), bytes.len()).inspect_err(|_| bytes.fill(0))?;
    let mut forest = Forest::new();
    let trees = forest.of_words(words(table));
    let classes = Classes::of(&forest, &trees);
    for (byte, tree) in bytes.iter_mut().zip(trees) {
        *byte = classes.byte(tree);
    }
    Ok(())
}

/// The words of a rule typed as text (document 02, N1), by every check but 12: 25, then 20, then 19, then 2.
pub fn text_words(text: &[u8], limits: Limits) -> Result<Vec<Word>, Refusal> {
    limits.permitted()?;
    if text.len() > 1_024 {
        return Err(Refusal { number: 20, place: 0 });
    }
    let mut forest = Forest::new();
    let rule = typed::read(&mut forest, text).map_err(|place| Refusal { number: 19, place })?;
    let words = list(&forest, rule);
    if words.len() > limits.written {
        return Err(Refusal { number: 2, place: 0 });
    }
    Ok(words)
}

/// The words of the plain form, by every check but 12.
pub fn plain_words(table: &[u32], limits: Limits) -> Result<Vec<Word>, Refusal> {
    limits.permitted()?;
    check(table, false, limits.written)?;
    let mut forest = Forest::new();
    let trees = forest.of_words(words(table));
    let form = Plain::of(&mut forest, trees[trees.len() - 1]);
    Ok(list(&forest, form))
}

/// The rule rewritten as document 01 says, before it is folded, whatever its class, by every check but 12.
pub fn unfolded(table: &[u32], limits: Limits) -> Result<(Forest, Tree), Refusal> {
    limits.permitted()?;
    Faults::default().table(table, true, limits.plain()).until_like(words(table), limits.until_like).first()?;
    let mut forest = Forest::new();
    let trees = forest.of_words(words(table));
    let chosen: Vec<_> = until_like(words(table)).iter().map(|n| trees[n - 1]).collect();
    let form = normal_tree(&mut forest, trees[trees.len() - 1], &chosen);
    Ok((forest, form))
}

/// The words of the rule rewritten, folded and then numbered (document 02, N8), whatever its class, by every check but 12.
pub fn rewritten_words(table: &[u32], limits: Limits) -> Result<Vec<Word>, Refusal> {
    let (mut forest, form) = unfolded(table, limits)?;
    let folded = fold(&mut forest, form);
    Ok(list(&forest, folded))
}

/// What the normal-form step writes (document 02, N11): nothing where the plain table's last word is Delta-2, since the answer is the
/// source table itself; else the words of the rule rewritten. By every check but 12; 11 is one of those in the second case only.
pub fn normal_words(table: &[u32], limits: Limits) -> Result<Option<Vec<Word>>, Refusal> {
    limits.permitted()?;
    check(table, true, limits.plain())?;
    if is_delta_2(words(table)) {
        return Ok(None);
    }
    rewritten_words(table, limits).map(Some)
}

/// Whether the last word of a plain table that passes the checks is Delta-2.
pub fn is_delta_2(words: &[u32]) -> bool {
    let mut forest = Forest::new();
    let trees = forest.of_words(words);
    Classes::of(&forest, &trees).has(Class::Delta(2), trees[trees.len() - 1])
}

/// The words of the table in the dialect without W and M (document 02, N4), by every check but 12.
pub fn dialect_words(table: &[u32]) -> Result<Vec<Word>, Refusal> {
    check(table, true, MOST_WORDS)?;
    let mut forest = Forest::new();
    let trees = forest.of_words(words(table));
    let converted = convert(&mut forest, &trees);
    Ok(list(&forest, converted[converted.len() - 1]))
}

/// The words of what remains of the rule after a sample (document 02, N12), folded and then numbered as forms are, by every check but 12: 22
/// and 21 apply to a sample as to a recording.
pub fn after_words(table: &[u32], sample: u32, driven: usize) -> Result<Vec<Word>, Refusal> {
    Faults::default().table(table, true, MOST_WORDS).driven_count(driven).driven(words(table), driven).first()?;
    let mut forest = Forest::new();
    let trees = forest.of_words(words(table));
    let remaining = remainders(&mut forest, &trees, holding(sample, driven))[trees.len() - 1];
    let folded = fold(&mut forest, remaining);
    Ok(list(&forest, folded))
}

/// Whether a letter holds by a sample. It has to be driven: the bits of others are no reading.
fn holding(sample: u32, driven: usize) -> impl Fn(usize) -> bool {
    move |letter| {
        assert!((1..=driven).contains(&letter), "letter {letter} is not driven");
        sample >> (letter - 1) & 1 == 1
    }
}

/// The trees of a plain Delta-2 table's words, and the rule's automaton (document 02, N14): the checks of a table, then 28.
fn automaton(table: &[u32]) -> Result<(Forest, Vec<Tree>, Automaton), Refusal> {
    check(table, true, MOST_WORDS)?;
    if !is_delta_2(words(table)) {
        return Err(Refusal { number: 28, place: 0 });
    }
    let mut forest = Forest::new();
    let trees = forest.of_words(words(table));
    let automaton = Automaton::of(&forest, &trees);
    Ok((forest, trees, automaton))
}

/// A word for each state of the rule's automaton, by every check but 12: kind 1 if it is accepting, else 0; left the class's bit number;
/// right the table word.
pub fn state_words(table: &[u32]) -> Result<Vec<Word>, Refusal> {
    let (_, trees, automaton) = automaton(table)?;
    let numbers: TreeMap<usize> = trees.into_iter().zip(1..).collect();
    let word = |state: &State| Word::new(state.accepting().into(), state.bit(), numbers[state.tree]);
    Ok(automaton.states().iter().map(word).collect())
}

/// The words of a state's move on a sample, or of the start where the state's number is 0; none where there are more states than a word can
/// number. By every check but 12: 6 of the state's number, then 22 and 21.
pub fn move_words(table: &[u32], state: usize, sample: u32, driven: usize) -> Result<Option<Vec<Word>>, Refusal> {
    let (mut forest, _, automaton) = automaton(table)?;
    let states = automaton.states().len();
    Faults::default().state(states, state).driven_count(driven).driven(words(table), driven).first()?;
    if states > MOST_WORDS {
        return Ok(None);
    }
    let made = match state {
        0 => automaton.start(&mut forest),
        _ => automaton.moves(&mut forest, holding(sample, driven))[state - 1],
    };
    Ok(Some(list(&forest, made)))
}

/// Writes words without a header to the front of a slice, which counts for 16,383 words at most: check 12.
fn write_without_header(words: Option<Vec<Word>>, result: &mut [u32]) -> Result<usize, Refusal> {
    let Some(words) = words.filter(|words| words.len() <= result.len().min(MOST_WORDS)) else {
        result.fill(0);
        return Err(Refusal { number: 12, place: 0 });
    };
    for (place, word) in result.iter_mut().zip(&words) {
        *place = word.bits();
    }
    Ok(words.len())
}

/// The states of a rule's automaton (document 02, N14). More than 16,383 fit no slice.
pub fn states(table: &[u32], result: &mut [u32]) -> Result<usize, Refusal> {
    write_without_header(Some(state_words(table)?), result)
}

/// The move of a state on a sample, the states being counted from 1; 0 is for the start.
pub fn moved(table: &[u32], state: usize, sample: u32, driven: usize, result: &mut [u32]) -> Result<usize, Refusal> {
    write_without_header(move_words(table, state, sample, driven)?, result)
}

/// Writes a table, header and words, to the front of a slice: check 12. The length counts the header.
pub fn write(words: Result<Vec<Word>, Refusal>, result: &mut [u32]) -> Result<usize, Refusal> {
    let words = words?;
    let length = 1 + words.len();
    fits(length, result.len()).inspect_err(|_| result.fill(0))?;
    let words: Vec<u32> = words.iter().map(|word| word.bits()).collect();
    result[0] = header(&words).bits();
    result[1..length].copy_from_slice(&words);
    Ok(length)
}

pub fn text(text: &[u8], limits: Limits, result: &mut [u32]) -> Result<usize, Refusal> {
    write(text_words(text, limits), result)
}

pub fn plain(table: &[u32], limits: Limits, result: &mut [u32]) -> Result<usize, Refusal> {
    write(plain_words(table, limits), result)
}

/// Where a form stands, and its length: it is the source table itself, in the slice that has it, or the front part of the result.
#[derive(Clone, Copy, PartialEq, Eq, Debug)]
pub enum Form {
    Source(usize),
    Result(usize),
}

impl Form {
    pub fn is_source(self) -> bool {
        matches!(self, Form::Source(_))
    }

    pub fn length(self) -> usize {
        let (Form::Source(length) | Form::Result(length)) = self;
        length
    }

    /// The form, a part of the slice that has the source table at its front or of the result.
    pub fn part<'a>(self, source: &'a [u32], result: &'a [u32]) -> &'a [u32] {
        match self {
            Form::Source(length) => &source[..length],
            Form::Result(length) => &result[..length],
        }
    }
}

pub fn normal(table: &[u32], limits: Limits, result: &mut [u32]) -> Result<Form, Refusal> {
    hand_back(table, normal_words(table, limits)?, result)
}

/// The source table, or the words that are made of it in the result: check 12 is for these alone.
pub fn hand_back(table: &[u32], made: Option<Vec<Word>>, result: &mut [u32]) -> Result<Form, Refusal> {
    match made {
        None => Ok(Form::Source(table.len())),
        Some(words) => write(Ok(words), result).map(Form::Result),
    }
}

pub fn dialect(table: &[u32], result: &mut [u32]) -> Result<usize, Refusal> {
    write(dialect_words(table), result)
}

/// The table is only read: where the remainder is refused, the rule being followed is kept.
pub fn after(table: &[u32], sample: u32, driven: usize, result: &mut [u32]) -> Result<usize, Refusal> {
    write(after_words(table, sample, driven), result)
}

/// The whole way: the normal-form step is handed exactly the table that the plain-form step answered, its header too, which is the source
/// table of the form.
pub fn form(table: &[u32], limits: Limits, plain_room: &mut [u32], result: &mut [u32]) -> Result<Form, Refusal> {
    let length = plain(table, limits, plain_room)?;
    normal(&plain_room[..length], limits, result)
}

/// The rows of all words, one after the other; the header has none.
fn rows(table: &[u32], recording: Recording) -> Vec<u64> {
    let mut forest = Forest::new();
    let trees = forest.of_words(words(table));
    let truth = Truth::of(&forest, &trees, recording);
    trees.iter().flat_map(|&tree| truth.packed(tree)).collect()
}

fn rule_row(table: &[u32], recording: Recording) -> Vec<bool> {
    let mut forest = Forest::new();
    let trees = forest.of_words(words(table));
    Truth::of(&forest, &trees, recording).row(trees[trees.len() - 1]).to_vec()
}

fn row_faults(table: &[u32], recording: Recording, scratch: &[u64]) -> Faults {
    let (samples, start, driven) = (recording.len(), recording.start, recording.driven);
    let mut faults = Faults::default();
    faults.table(table, false, MOST_WORDS).recording(samples, start, driven).driven(words(table), driven);
    faults.scratch(words(table).len(), samples, scratch.len());
    faults
}

/// For the desk of this number, counted from 0, among those that have a tally.
pub fn judge(
    table: &[u32],
    recording: Recording,
    scratch: &mut [u64],
    tallies: &mut [Tally],
    desk: usize,
) -> Result<Judgement, Refusal> {
    let mut faults = row_faults(table, recording, scratch);
    faults.desk(tallies.len(), desk);
    if let Some(tally) = tallies.get(desk) {
        faults.tally(tally.judged, tally.held);
    }
    faults.first()?;
    let rows = rows(table, recording);
    scratch[..rows.len()].copy_from_slice(&rows);
    let row = rule_row(table, recording);
    tallies[desk].judged += 1;
    tallies[desk].held += row[0] as u32;
    Ok(Judgement {
        holds: row[0],
        moments: row.iter().filter(|&&holds| holds).count(),
        failing: row.iter().position(|&holds| !holds).unwrap_or(row.len()),
    })
}

/// The first moment at which two recordings, read on for ever, differ in a driven bit (document 02, N10): both are walked until the loops
/// stand as they did when both were first in them.
pub fn compare(first: Recording, second: Recording) -> Result<Option<usize>, Refusal> {
    for recording in [first, second] {
        Faults::default().recording(recording.len(), recording.start, recording.driven).first()?;
    }
    if first.driven != second.driven {
        return Err(Refusal { number: 27, place: 0 });
    }
    let walk = first.for_ever().zip(second.for_ever());
    Ok(walk.take(first.together(&second)).position(|(i, j)| !first.alike(i, &second, j)))
}

/// The row call: which part of the scratch is the rule's own row.
pub fn row(table: &[u32], recording: Recording, scratch: &mut [u64]) -> Result<Range<usize>, Refusal> {
    row_faults(table, recording, scratch).first()?;
    let rows = rows(table, recording);
    scratch[..rows.len()].copy_from_slice(&rows);
    Ok(rows.len() - recording.len().div_ceil(64)..rows.len())
}
