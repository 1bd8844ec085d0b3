//! Runs every step of a library on an input, and says where two libraries differ.
use crate::input::Input;
use crate::library::{Lent, Library, Move, Stands};
use reference::dialect::convert;
use reference::edges::headed;
use reference::forest::{Forest, Tree};
use reference::header::words as words_of;
use reference::limits::Limits;
use reference::listing::bits;
use reference::recording::Recording;
use reference::steps::check as checked;
use reference::text::{show, shown_bytes};
use reference::word::{Word, MOST_WORDS};
use showrule::Tally;
use std::collections::HashMap;
use std::fmt;

/// What a call answered and left: the number, the lent numbers, and all memory that it could have reached.
#[derive(Clone, PartialEq, Eq, Debug)]
pub struct Seen {
    step: &'static str,
    number: u32,
    lent: Vec<u64>,
    memory: Vec<u64>,
}

pub struct Difference {
    /// Which of all that is compared.
    pub which: usize,
    product: Seen,
    reference: Seen,
}

/// Memory before and after each lent slice that no call may touch.
const GUARD: usize = 4;

/// A slice in the middle of memory that held a pattern.
struct Memory<T> {
    all: Vec<T>,
    room: usize,
}

impl<T: Copy> Memory<T> {
    fn new(room: usize, pattern: impl Fn(u64) -> T) -> Memory<T> {
        let all = (0..room as u64 + 2 * GUARD as u64).map(|i| pattern((i + 1).wrapping_mul(0x9E37_79B9_7F4A_7C15))).collect();
        Memory { all, room }
    }

    fn slice(&mut self) -> &mut [T] {
        &mut self.all[GUARD..GUARD + self.room]
    }
}

fn words(room: usize) -> Memory<u32> {
    Memory::new(room, |x| (x >> 32) as u32)
}

fn held<T: Copy + Into<u64>>(memory: &Memory<T>) -> Vec<u64> {
    memory.all.iter().map(|&x| x.into()).collect()
}

/// A lent number before a call.
const BEFORE: usize = 0x5A5A_5A5A;
const STOOD: Stands = Stands { in_source: 0x5A, length: BEFORE };

/// What is compared: what a library does with an input, and what that has to be.
type Compared = fn(&dyn Library, &dyn Library, &Input) -> (Seen, Seen);

/// A step of both libraries.
macro_rules! both {
    ($step:expr) => {
        |product, reference, input| ($step(product, input), $step(reference, input))
    };
}

/// Every step of both libraries; then what has to be so of a library by itself.
const ALL: [Compared; 27] = [
    both!(|library: &dyn Library, input: &Input| check(library, input, "check", input.plain_only, input.limit)),
    both!(|library, input| check(library, input, "check, written", false, 64)),
    both!(|library, input| check(library, input, "check, plain", true, 130)),
    both!(classify),
    both!(text),
    both!(plain),
    both!(normal),
    both!(dialect),
    both!(|library, input: &Input| after(library, input, "step by a sample", input.sample)),
    both!(states),
    both!(|library, input: &Input| moved(library, input, "move", input.sample)),
    both!(form),
    both!(|library, input: &Input| judge(library, input, "judge", input.recording())),
    both!(|library, input: &Input| row(library, input, "row", input.recording())),
    both!(|library, input: &Input| recordings(library, input, "recordings", input.recording())),
    |product, _, input| (agreement(product, input), so(AGREEMENT, &AGREED)),
    |product, _, input| (round_trip(product, input), so(ROUND_TRIP, &CAME_BACK)),
    |product, _, input| (telling(product, input), so(TELLING, &[1])),
    |product, _, input| (conversion(product, input), so(CONVERSION, &CONVERTED)),
    |_, reference, input| (conversion(reference, input), so(CONVERSION, &CONVERTED)),
    |product, _, input| (following(product, input), so(FOLLOWING, &[1])),
    |product, _, input| (watching(product, input), so(WATCHING, &WATCHED)),
    // the step by a sample, a move, the judge, the row call and the comparison over samples that differ above the driven bits alone answer and leave what they did
    |product, _, input| redriven(input, |recording| judge(product, input, REDRIVEN[0], recording)),
    |product, _, input| redriven(input, |recording| row(product, input, REDRIVEN[1], recording)),
    |product, _, input| redriven(input, |recording| recordings(product, input, REDRIVEN[2], recording)),
    |product, _, input| {
        let [other, own] = [input.redriven_sample(), input.sample].map(|sample| after(product, input, REDRIVEN[3], sample));
        (other, own)
    },
    |product, _, input| {
        let [other, own] = [input.redriven_sample(), input.sample].map(|sample| moved(product, input, REDRIVEN[4], sample));
        (other, own)
    },
];

/// What has to be so.
fn so(step: &'static str, lent: &[u64]) -> Seen {
    Seen { step, number: 0, lent: lent.to_vec(), memory: vec![] }
}

fn check(library: &dyn Library, input: &Input, step: &'static str, plain: bool, limit: usize) -> Seen {
    let table = input.table.clone();
    let mut place = BEFORE;
    let number = library.check(&table, plain, limit, &mut place);
    Seen { step, number, lent: vec![place as u64], memory: table.iter().map(|&w| w.into()).collect() }
}

fn classify(library: &dyn Library, input: &Input) -> Seen {
    let mut bytes = Memory::new(input.bytes, |x| (x >> 56) as u8);
    let mut place = BEFORE;
    let number = library.classify(&input.table, bytes.slice(), &mut place);
    Seen { step: "class", number, lent: vec![place as u64], memory: held(&bytes) }
}

fn text(library: &dyn Library, input: &Input) -> Seen {
    let mut result = words(input.text_table);
    let (mut made, mut place) = (BEFORE, BEFORE);
    let number = library.text(&input.text, input.limits, result.slice(), &mut made, &mut place);
    Seen { step: "text", number, lent: vec![made as u64, place as u64], memory: held(&result) }
}

fn plain(library: &dyn Library, input: &Input) -> Seen {
    let mut result = words(input.plain);
    let (mut made, mut place) = (BEFORE, BEFORE);
    let number = library.plain(&input.table, input.limits, result.slice(), &mut made, &mut place);
    Seen { step: "plain form", number, lent: vec![made as u64, place as u64], memory: held(&result) }
}

/// The table is lent for writing too, and keeps its words.
fn normal(library: &dyn Library, input: &Input) -> Seen {
    let (source, mut result) = (input.table.clone(), words(input.normal));
    let (mut stands, mut place) = (STOOD, BEFORE);
    let number = library.normal(&source, input.limits, result.slice(), &mut stands, &mut place);
    let memory = held(&result).into_iter().chain(source.iter().map(|&word| word.into())).collect();
    let step = if stands.in_source == 1 { "normal form, the source" } else { "normal form" };
    Seen { step, number, lent: vec![stands.in_source.into(), stands.length as u64, place as u64], memory }
}

fn dialect(library: &dyn Library, input: &Input) -> Seen {
    let mut result = words(input.dialect);
    let (mut made, mut place) = (BEFORE, BEFORE);
    let number = library.dialect(&input.table, result.slice(), &mut made, &mut place);
    Seen { step: "dialect", number, lent: vec![made as u64, place as u64], memory: held(&result) }
}

/// The table is the rule being followed, and keeps its words.
fn after(library: &dyn Library, input: &Input, step: &'static str, sample: u32) -> Seen {
    let (table, mut result) = (input.table.clone(), words(input.after));
    let (mut made, mut place) = (BEFORE, BEFORE);
    let number = library.after(&table, sample, input.driven, result.slice(), &mut made, &mut place);
    let memory = held(&result).into_iter().chain(table.iter().map(|&word| word.into())).collect();
    Seen { step, number, lent: vec![made as u64, place as u64], memory }
}

fn states(library: &dyn Library, input: &Input) -> Seen {
    let mut result = words(input.states);
    let (mut made, mut place) = (BEFORE, BEFORE);
    let number = library.states(&input.table, result.slice(), &mut made, &mut place);
    Seen { step: "states", number, lent: vec![made as u64, place as u64], memory: held(&result) }
}

fn moved(library: &dyn Library, input: &Input, step: &'static str, sample: u32) -> Seen {
    let mut result = words(input.moved);
    let (mut made, mut place) = (BEFORE, BEFORE);
    let by = Move { state: input.state, sample, driven: input.driven };
    let number = library.moved(&input.table, by, result.slice(), &mut made, &mut place);
    let step = if input.state == 0 && step == "move" { "start" } else { step };
    Seen { step, number, lent: vec![made as u64, place as u64], memory: held(&result) }
}

fn form(library: &dyn Library, input: &Input) -> Seen {
    let (mut plain, mut result) = (words(input.form_plain), words(input.form));
    let (mut stands, mut place) = (STOOD, BEFORE);
    let number = library.form(&input.table, input.limits, plain.slice(), result.slice(), &mut stands, &mut place);
    let step = if stands.in_source == 1 { "whole way, the plain form" } else { "whole way" };
    let lent = vec![stands.in_source.into(), stands.length as u64, place as u64];
    Seen { step, number, lent, memory: [held(&plain), held(&result)].concat() }
}

fn judge(library: &dyn Library, input: &Input, step: &'static str, recording: Recording) -> Seen {
    let mut scratch = Memory::new(input.scratch, |x| x);
    let mut place = BEFORE;
    let mut tallies = Memory::new(input.tallies.len(), |x| Tally { judged: x as u32, held: (x >> 32) as u32 });
    for (lent, tally) in tallies.slice().iter_mut().zip(&input.tallies) {
        *lent = Tally { judged: tally.judged, held: tally.held };
    }
    let mut lent = Lent { holds: true, moments: BEFORE, failing: BEFORE };
    let number = library.judge(&input.table, recording, scratch.slice(), tallies.slice(), input.desk, &mut lent, &mut place);
    let lent = vec![lent.holds.into(), lent.moments as u64, lent.failing as u64, place as u64];
    let counts = tallies.all.iter().map(|tally| u64::from(tally.judged) << 32 | u64::from(tally.held));
    Seen { step, number, lent, memory: held(&scratch).into_iter().chain(counts).collect() }
}

fn row(library: &dyn Library, input: &Input, step: &'static str, recording: Recording) -> Seen {
    let mut scratch = Memory::new(input.scratch, |x| x);
    let (mut from, mut long, mut place) = (BEFORE, BEFORE, BEFORE);
    let number = library.row(&input.table, recording, scratch.slice(), &mut from, &mut long, &mut place);
    Seen { step, number, lent: vec![from as u64, long as u64, place as u64], memory: held(&scratch) }
}

/// Two recordings compared: the numbers, and both as they were.
fn recordings(library: &dyn Library, input: &Input, step: &'static str, first: Recording) -> Seen {
    let (mut same, mut moment, mut place) = (true, BEFORE, BEFORE);
    let second = input.other_recording();
    let number = library.compare(first, second, &mut same, &mut moment, &mut place);
    let memory = input.samples.iter().chain(second.samples).map(|&sample| sample.into()).collect();
    Seen { step, number, lent: vec![same.into(), moment as u64, place as u64], memory }
}

/// N10, tried by the library's own judge: the table holds at moment 0 of both recordings or of neither where they are the same, and where
/// they differ, a driven letter under X, as often as moments come before, holds at moment 0 of one alone.
fn telling(library: &dyn Library, input: &Input) -> Seen {
    let (mut same, mut moment, mut place) = (true, 0, 0);
    let (first, second) = (input.recording(), input.other_recording());
    let number = library.compare(first, second, &mut same, &mut moment, &mut place);
    let holds = |table: &[u32], recording: Recording| {
        let mut scratch = vec![0; words_of(table).len() * recording.len().div_ceil(64)];
        let mut lent = Lent { holds: false, moments: 0, failing: 0 };
        let tallies = &mut [Tally { judged: 0, held: 0 }];
        (library.judge(table, recording, &mut scratch, tallies, 0, &mut lent, &mut 0), lent.holds)
    };
    let under_next = |letter: u32| {
        let nexts = (1..=moment as u32).map(|operand| 0x7000_0000 + operand);
        headed(&[0x3000_0000 + letter].into_iter().chain(nexts).collect::<Vec<_>>())
    };
    let mut told = true;
    if number == 0 && same && words_of(&input.table).len() * input.others.len() < 30_000 {
        told = holds(&input.table, first) == holds(&input.table, second);
    } else if number == 0 && !same && moment < 300 {
        let letters = 1..=u32::try_from(input.driven).expect("at most 32");
        told = letters.map(under_next).any(|rule| holds(&rule, first) != holds(&rule, second));
    }
    so(TELLING, &[told.into()])
}

const TELLING: &str = "recordings that are the same, or a letter under X that tells them apart";

/// Demand 3, tried: whether the library's form of the rule holds where the rule does, and is in Delta-2, by its own judge and classes; and
/// whether it is the plain form where that is in Delta-2, and only there.
fn agreement(library: &dyn Library, input: &Input) -> Seen {
    let mut lent = AGREED.to_vec();
    let way = whole_way(library, &input.table, input.limits);
    let form = &way.form;
    if way.number == 0 && (1..=4_096).contains(&input.samples.len()) && form.len() * input.samples.len() < 400_000 {
        let delta_2 = |table: &[u32]| classes(library, table).last().expect("a table has a word") >> 6 & 1 == 1;
        let own = way.in_plain == u8::from(delta_2(&way.plain));
        lent = [same_truth(library, input, form), delta_2(form), own].map(u64::from).to_vec();
    }
    so(AGREEMENT, &lent)
}

/// Whether a table holds where the input's does, over a recording that drives every letter of the input's table, and no other where the
/// input's count is below.
fn same_truth(library: &dyn Library, input: &Input, other: &[u32]) -> bool {
    let (samples, start) = (&input.samples, input.start % input.samples.len());
    let driven = input.driven.min(32).max(highest_letter(words_of(&input.table)));
    let of = |table: &[u32]| {
        let mut scratch = vec![0; words_of(table).len() * samples.len().div_ceil(64)];
        let (mut from, mut long, mut place) = (0, 0, 0);
        let recording = Recording { samples, start, driven };
        let number = library.row(table, recording, &mut scratch, &mut from, &mut long, &mut place);
        (number, scratch[from..from + long].to_vec())
    };
    let (rule, other) = (of(&input.table), of(other));
    rule == other && rule.0 == 0
}

fn classes(library: &dyn Library, table: &[u32]) -> Vec<u8> {
    let mut bytes = vec![0; words_of(table).len()];
    library.classify(table, &mut bytes, &mut 0);
    bytes
}

/// What N4 says of a conversion, tried: it passes the checks of a plain table and has no word of kind 9 or 11; converted again it is
/// the same; for each word of the source it has one whose class byte has every bit of that word's; and it holds where the source does.
fn conversion(library: &dyn Library, input: &Input) -> Seen {
    let mut lent = CONVERTED.to_vec();
    if let Some(converted) = converted(library, &input.table) {
        let free = checked(&converted, true, MOST_WORDS).is_ok() && !converted.iter().any(|word| matches!(word >> 28, 9 | 11));
        let again = self::converted(library, &converted).as_ref() == Some(&converted);
        let judged = (1..=4_096).contains(&input.samples.len()) && converted.len() * input.samples.len() < 30_000;
        let truth = !judged || same_truth(library, input, &converted);
        lent = [free, again, free && classes_kept(library, &input.table, &converted), truth].map(u64::from).to_vec();
    }
    so(CONVERSION, &lent)
}

/// N12, tried by the library's own judge: over some steps along the recording, each handed the last remainder and the next sample, none is
/// refused but by 12, and each remainder holds at the next moment exactly if the table does at moment 0.
fn following(library: &dyn Library, input: &Input) -> Seen {
    let recording = input.recording();
    let row = |table: &[u32]| {
        let mut scratch = vec![0; words_of(table).len() * recording.len().div_ceil(64)];
        let (mut from, mut long, mut place) = (0, 0, 0);
        let number = library.row(table, recording, &mut scratch, &mut from, &mut long, &mut place);
        (number == 0).then(|| scratch[from..from + long].to_vec())
    };
    let holds = |row: &[u64], moment: usize| row[moment / 64] >> (moment % 64) & 1 == 1;
    let short = |table: &[u32]| table.len() * recording.len() < 5_000;
    let mut remainder = input.table.clone();
    let first = if short(&remainder) && checked(&remainder, true, MOST_WORDS).is_ok() { row(&remainder) } else { None };
    let Some(first) = first else { return so(FOLLOWING, &[1]) };
    let mut told = true;
    let moments: Vec<usize> = recording.for_ever().take(6).collect();
    for pair in moments.windows(2) {
        let mut result = vec![0; 1 + MOST_WORDS];
        let (mut made, mut place) = (0, 0);
        let number = library.after(&remainder, recording.samples[pair[0]], recording.driven, &mut result, &mut made, &mut place);
        result.truncate(made);
        if number == 12 || !short(&result) {
            break;
        }
        told = told && number == 0 && row(&result).is_some_and(|row| holds(&row, pair[1]) == holds(&first, 0));
        remainder = result;
    }
    so(FOLLOWING, &[told.into()])
}

/// N14, tried by the library's own judge: the automaton accepts the recording exactly if the table holds at moment 0, as far as its states
/// and moves tell; a state leads to itself and to earlier ones alone, and on any path there is at most one change between accepting and
/// other states.
fn watching(library: &dyn Library, input: &Input) -> Seen {
    let (table, recording) = (&input.table, input.recording());
    let mut result = vec![0; MOST_WORDS];
    let (mut made, mut place) = (0, 0);
    let number = library.states(table, &mut result, &mut made, &mut place);
    let states: Vec<Word> = result[..made].iter().map(|&bits| Word::of(bits)).collect();
    let mut scratch = vec![0; words_of(table).len() * recording.len().div_ceil(64)];
    let (mut from, mut long) = (0, 0);
    let short = number == 0 && (states.len() + 1) * recording.len() < 300;
    if !short || library.row(table, recording, &mut scratch, &mut from, &mut long, &mut place) != 0 {
        return so(WATCHING, &WATCHED);
    }
    let mut written = |state: usize, sample: u32| {
        let by = Move { state, sample, driven: input.driven };
        library.moved(table, by, &mut result, &mut made, &mut place);
        result[..made].iter().map(|&bits| Word::of(bits)).collect::<Vec<Word>>()
    };
    let (mut accepts, mut changes): (Vec<Vec<bool>>, Vec<usize>) = (vec![vec![]], vec![0]);
    let mut once = true;
    for (state, word) in (1..).zip(&states) {
        let moves: Vec<Vec<Word>> = recording.samples.iter().map(|&sample| written(state, sample)).collect();
        let followers = moves.iter().flatten().filter(|word| word.kind == 3).map(|word| word.right);
        once = moves.iter().all(|written| !written.is_empty()) && followers.clone().all(|other| (1..=state).contains(&other));
        if !once {
            break;
        }
        let others = followers.filter(|&other| other < state);
        let change = |other: usize| changes[other] + usize::from(states[other - 1].kind != word.kind);
        changes.push(others.map(change).max().unwrap_or(0));
        // a run may stay in an accepting state for ever: each turn settles one moment more, if there is one to settle
        accepts.push(vec![word.kind == 1; recording.len()]);
        for _ in 0..=recording.len() {
            let at = |i: usize| value(&moves[i], |other| accepts[other][recording.after(i)]);
            accepts[state] = (0..recording.len()).map(at).collect();
        }
    }
    once = once && changes.iter().all(|&changes| changes <= 1);
    let accepted = once && value(&written(0, 0), |state| accepts[state][0]);
    so(WATCHING, &[once, accepted == (scratch[from] & 1 == 1)].map(u64::from))
}

/// The value of the last word of a move, by the values of states; false where the move was refused.
fn value(written: &[Word], state: impl Fn(usize) -> bool) -> bool {
    let mut values: Vec<bool> = Vec::new();
    for word in written {
        values.push(match word.kind {
            1 | 2 => word.kind == 2,
            3 => state(word.right),
            5 => values[word.left - 1] && values[word.right - 1],
            _ => values[word.left - 1] || values[word.right - 1],
        });
    }
    values.last().copied().unwrap_or(false)
}

const WATCHING: &str = "the automaton changes once at most, and accepts where the table holds";
const WATCHED: [u64; 2] = [1, 1];

const FOLLOWING: &str = "what remains holds from the next moment on if the table held";

fn converted(library: &dyn Library, table: &[u32]) -> Option<Vec<u32>> {
    let mut result = vec![0; 1 + MOST_WORDS];
    let (mut made, mut place) = (0, 0);
    let number = library.dialect(table, &mut result, &mut made, &mut place);
    result.truncate(made);
    (number == 0).then_some(result)
}

fn classes_kept(library: &dyn Library, table: &[u32], converted: &[u32]) -> bool {
    let mut forest = Forest::new();
    let trees = forest.of_words(words_of(table));
    let conversions = convert(&mut forest, &trees);
    let made: HashMap<Tree, u8> = forest.of_words(words_of(converted)).into_iter().zip(classes(library, converted)).collect();
    conversions.iter().zip(classes(library, table)).all(|(tree, byte)| made.get(tree).is_some_and(|made| byte & !made == 0))
}

const CONVERSION: &str = "conversion free, the same again, of the same classes, and true where the table is";
const CONVERTED: [u64; 4] = [1, 1, 1, 1];

fn highest_letter(words: &[u32]) -> usize {
    let letters = words.iter().filter(|&word| matches!(word >> 28, 3 | 4));
    letters.map(|word| (word & 0x3FFF) as usize).max().unwrap_or(0)
}

/// What is seen over the samples with other bits above the driven ones, and over those of the input.
fn redriven(input: &Input, seen: impl Fn(Recording) -> Seen) -> (Seen, Seen) {
    let samples = input.redriven();
    (seen(Recording { samples: &samples, ..input.recording() }), seen(input.recording()))
}

const REDRIVEN: [&str; 5] = [
    "judge, other bits above the driven ones",
    "row, other bits above the driven ones",
    "recordings, other bits above the driven ones",
    "step by a sample, other bits above the driven ones",
    "move, other bits above the driven ones",
];

/// A written table printed as text, and that text read: whether it is printed as the reference prints it, whether the table comes back
/// in first-need order (unless it has kind 4, which is read as two words), and whether both have the same form.
fn round_trip(library: &dyn Library, input: &Input) -> Seen {
    let (table, limits) = (&input.table, input.limits);
    let mut lent = CAME_BACK.to_vec();
    let takes = limits.permitted().and_then(|()| checked(table, false, limits.written)).is_ok();
    if takes && shown_bytes(words_of(table)) <= 1_024 {
        let mut forest = Forest::new();
        let tree = *forest.of_words(words_of(table)).last().expect("a word");
        let text = show(&forest, tree);
        let mut result = vec![0; 1 + limits.written];
        let (mut made, mut place) = (0, 0);
        let number = library.text(text.as_bytes(), limits, &mut result, &mut made, &mut place);
        let kind_4 = table.iter().any(|word| word >> 28 == 4);
        let read = if number == 2 && kind_4 { table } else { &result[..made] };
        let as_printed = showrule::to_text(table, text.len()) == Ok(text);
        let back = kind_4 || read == headed(&bits(&forest, tree));
        let same = whole_way(library, table, limits) == whole_way(library, read, limits);
        lent = vec![as_printed as u64, back as u64, same as u64];
    }
    so(ROUND_TRIP, &lent)
}

/// What comes of a table's whole way with all the room there is.
#[derive(PartialEq)]
struct Way {
    number: u32,
    place: usize,
    in_plain: u8,
    plain: Vec<u32>,
    form: Vec<u32>,
}

fn whole_way(library: &dyn Library, table: &[u32], limits: Limits) -> Way {
    let (mut plain, mut result) = (vec![0; 1 + Limits::HIGHEST.plain()], vec![0; 1 + MOST_WORDS]);
    let (mut stands, mut place) = (STOOD, BEFORE);
    let number = library.form(table, limits, &mut plain, &mut result, &mut stands, &mut place);
    plain.truncate(1 + (plain[0] & 0x3FFF) as usize);
    let form = if stands.in_source == 1 { &plain } else { &result }.iter().take(stands.length).copied().collect();
    Way { number, place, in_plain: stands.in_source, plain, form }
}

const ROUND_TRIP: &str = "printed and read back, same form";
const CAME_BACK: [u64; 3] = [1, 1, 1];

const AGREEMENT: &str = "rule and form agree, form in Delta-2, plain form where that is";
const AGREED: [u64; 3] = [1, 1, 1];

/// The number that each step answered, or the first difference.
pub fn compare(
    product: &dyn Library,
    reference: &dyn Library,
    input: &Input,
) -> Result<Vec<(&'static str, u32)>, Box<Difference>> {
    (0..ALL.len()).map(|which| compare_one(product, reference, input, which)).collect()
}

/// The same of one of all.
pub fn compare_one(
    product: &dyn Library,
    reference: &dyn Library,
    input: &Input,
    which: usize,
) -> Result<(&'static str, u32), Box<Difference>> {
    let (product, reference) = ALL[which](product, reference, input);
    if product == reference {
        Ok((product.step, product.number))
    } else {
        Err(Box::new(Difference { which, product, reference }))
    }
}

impl fmt::Display for Difference {
    fn fmt(&self, f: &mut fmt::Formatter) -> fmt::Result {
        for (who, seen) in [("library", &self.product), ("reference", &self.reference)] {
            writeln!(f, "{}: the {who} answers {}, lent numbers {:?}", seen.step, seen.number, seen.lent)?;
        }
        let (a, b) = (&self.product.memory, &self.reference.memory);
        for (i, (x, y)) in a.iter().zip(b).enumerate().filter(|(_, (x, y))| x != y).take(8) {
            writeln!(f, "memory at {i} ({GUARD} before the first slice): {x:X}, and by the reference {y:X}")?;
        }
        Ok(())
    }
}
