//! Random inputs: valid tables in any word order, many of them full of constants, tables damaged by a bit or a word, too long and too short
//! ones, damaged headers, limits around what the table has, and rooms at and around what the results need.
use crate::input::Input;
use crate::library::Reference;
use crate::numbers::Numbers;
use crate::texts;
use reference::checks::until_like;
use reference::edges::headed;
use reference::header::words;
use reference::limits::Limits;
use reference::steps::{self, Tally};
use reference::word::{Word, MOST_WORDS};
use std::collections::HashMap;

pub fn input(numbers: &mut Numbers) -> Input {
    let mut words = table_words(numbers);
    if numbers.below(3) == 0 {
        damage(numbers, &mut words);
    }
    let mut table = headed(&words);
    if numbers.once_in(8) {
        damage_header(numbers, &mut table);
    }
    with_table(numbers, table)
}

/// A header that is not that of the words after it, or none, or a table that is cut or added to.
fn damage_header(numbers: &mut Numbers, table: &mut Vec<u32>) {
    let count = table[0] & 0x3FFF;
    let class = numbers.one_of(&[0, 0x40, 0x50, 0x60, 0x7A, 0x7C, 0x7E, 0x7F, 0xFF]);
    match numbers.below(16) {
        0 => table[0] = 0,
        1 => table.clear(),
        2 => table.truncate(1),
        3 => drop(table.remove(0)),
        4 => drop(table.pop()),
        5 => table.push(numbers.one_of(&[0, 0x3000_0001, 0x7000_0001])),
        6 => table[0] = table[0] & !0x3FFF | numbers.one_of(&[0, 1, 64, 65, 130, 131, 256, 257, 514, 515, 16_383]),
        7 => table[0] = table[0] & !0x3FFF | (count + 1) & 0x3FFF,
        8 => table[0] = table[0] & !0x3FFF | count.wrapping_sub(1) & 0x3FFF,
        9 | 10 => table[0] = table[0] & !0x0FFF_C000 | class << 14,
        11 => table[0] ^= 1 << numbers.between(14, 27),
        12 => table[0] ^= 1 << numbers.between(28, 31),
        13 => table[0] = table[0] & 0x0FFF_FFFF | (numbers.below(16) as u32) << 28,
        14 => table[0] = numbers.next() as u32,
        _ => table[0] ^= 1 << numbers.below(32),
    }
}

/// An input with this table, under its header.
pub fn with_table(numbers: &mut Numbers, table: Vec<u32>) -> Input {
    let text = texts::text(numbers, &table);
    let limits = limits(numbers, words(&table), &text);
    with_text(numbers, limits, table, text)
}

/// An input with this table and this text, under these limits: a recording, tallies and rooms for them.
pub fn with_text(numbers: &mut Numbers, limits: Limits, table: Vec<u32>, text: Vec<u8>) -> Input {
    let Lengths { plain, normal, dialect, form } = lengths(&table, limits);
    let count = words(&table).len();
    let samples = samples(numbers, count);
    let rows = count * samples.len().div_ceil(64);
    let tallies: Vec<Tally> = (0..numbers.one_of(&[0, 1, 1, 2, 3, 8])).map(|_| tally(numbers)).collect();
    let (start, driven) = (start(numbers, samples.len()), driven(numbers, words(&table)));
    let (others, other_start, other_driven) = recording_like(numbers, &samples, start, driven);
    let sample = sample(numbers, &table, &samples, driven);
    let input = Input {
        text_table: room(numbers, steps::text_words(&text, limits).map_or(20, |words| 1 + words.len())),
        text,
        limits,
        plain_only: numbers.once_in(2),
        limit: if numbers.once_in(3) { room(numbers, count) } else { numbers.one_of(&[0, 64, 130, 16_383, 16_384, usize::MAX]) },
        bytes: room(numbers, count),
        plain: room(numbers, plain),
        normal: room(numbers, normal),
        dialect: room(numbers, dialect),
        form_plain: if numbers.once_in(6) { room(numbers, plain) } else { 1 + Limits::HIGHEST.plain() },
        form: room(numbers, form),
        start,
        driven,
        undriven: numbers.next() as u32,
        samples,
        scratch: room(numbers, rows),
        desk: desk(numbers, tallies.len()),
        tallies,
        others,
        other_start,
        other_driven,
        sample,
        after: room(numbers, after_length(&table, sample, driven)),
        states: 0,
        moved: 0,
        state: 0,
        table,
    };
    with_state(numbers, input)
}

/// The input with a state's number round the last one, and rooms for the states and for its move.
fn with_state(numbers: &mut Numbers, input: Input) -> Input {
    let states = states_length(&input.table);
    let state = match numbers.below(16) {
        0 | 1 => 0,
        2 => 1,
        3 => states + 1,
        4 => states.saturating_mul(2),
        5 if numbers.once_in(4) => numbers.next() as usize,
        5..=9 => states,
        _ => numbers.below(states + 1),
    };
    let moved = move_length(&input.table, state, input.sample, input.driven);
    Input { states: room(numbers, states), moved: room(numbers, moved), state, ..input }
}

/// How many states there are, and how many words a move has; 0 where it is refused by another check than 12, or can't be numbered.
pub fn states_length(table: &[u32]) -> usize {
    steps::state_words(table).map_or(0, |states| states.len())
}

pub fn move_length(table: &[u32], state: usize, sample: u32, driven: usize) -> usize {
    let made = steps::move_words(table, state, sample, driven).ok().flatten();
    made.map_or(0, |made| made.len())
}

/// The lengths of what each step writes of a table, its header counted; where nothing is written, there is none.
pub struct Lengths {
    pub plain: usize,
    pub normal: usize,
    pub dialect: usize,
    pub form: usize,
}

pub fn lengths(table: &[u32], limits: Limits) -> Lengths {
    let reference = Reference::default();
    let plain: Vec<u32> = reference.plain_words(table, limits).unwrap_or_default().iter().map(|w| w.bits()).collect();
    let rewritten = |table: &[u32]| match reference.normal_words(table, limits) {
        Ok(Some(form)) => 1 + form.len(),
        _ => 0,
    };
    Lengths {
        plain: if plain.is_empty() { 0 } else { 1 + plain.len() },
        normal: rewritten(table),
        dialect: steps::dialect_words(table).map_or(0, |made| 1 + made.len()),
        form: rewritten(&headed(&plain)),
    }
}

/// The length of what the step by a sample writes, its header counted; 0 where it is refused by another check than 12.
pub fn after_length(table: &[u32], sample: u32, driven: usize) -> usize {
    steps::after_words(table, sample, driven).map_or(0, |made| 1 + made.len())
}

/// Limits of a house: often the program's, or such that the table or the text keeps to them or is one over; at times the lowest, the highest
/// or any; and some outside their ranges.
fn limits(numbers: &mut Numbers, words: &[u32], text: &[u8]) -> Limits {
    let around = |numbers: &mut Numbers, n: usize| (n + 1).saturating_sub(numbers.below(3));
    let written = match numbers.below(40) {
        0 => numbers.one_of(&[0, 257, 1_000, usize::MAX]),
        1 => 1,
        2 | 3 => 256,
        4..=8 => around(numbers, words.len()),
        // of plain tables
        9 | 10 => around(numbers, words.len().saturating_sub(1) / 2),
        11 | 12 => around(numbers, steps::text_words(text, Limits::HIGHEST).map_or(64, |words| words.len())),
        13..=24 => numbers.between(1, 256),
        _ if words.len() > 64 => 256,
        _ => 64,
    };
    // the reference takes its time over ten until-like words, and longer over long tables
    let (own, most) = (until_like(words).len(), if words.len() < 30 { 10 } else { 8 });
    let until_like = match numbers.below(40) {
        0 => numbers.one_of(&[11, 12, 1_000, usize::MAX]),
        1 => 0,
        2..=7 => around(numbers, own).min(most),
        8..=12 => numbers.between(0, most),
        13..=17 => most,
        _ if own > 8 => most,
        _ => 8,
    };
    Limits { written, until_like }
}

/// A room for something so long: mostly enough, often exactly, and sometimes too little.
fn room(numbers: &mut Numbers, long: usize) -> usize {
    match numbers.below(10) {
        0..=2 => long,
        3 => long.saturating_sub(1),
        4 => numbers.below(long + 1),
        5 if numbers.once_in(20) => 0,
        6 if numbers.once_in(400) => 16_384 + numbers.below(9),
        _ => long + numbers.below(9),
    }
}

/// The words of a written or a plain table that passes the checks, unless it is over a limit.
fn table_words(numbers: &mut Numbers) -> Vec<u32> {
    let size = match numbers.below(1000) {
        0..=599 => numbers.between(1, 12),
        600..=899 => numbers.between(8, 40),
        900..=979 => numbers.between(40, 70),
        980..=986 => numbers.between(60, 140),
        987..=997 => numbers.between(120, 520),
        998 => numbers.between(500, 1500),
        _ => numbers.one_of(&[16_382, 16_383, 16_384, 16_390]),
    };
    let plain = numbers.once_in(3);
    // few rules that are grown lie outside Delta-2, so that many are put in one that does
    let outside = numbers.once_in(2);
    let until_like = match outside {
        true => numbers.one_of(&[0, 0, 0, 1, 1, 1, 2, 2, 3, 3, 4, 5, 6, 7, usize::MAX]),
        false => numbers.one_of(&[0, 1, 2, 2, 3, 3, 3, 4, 4, 5, 6, 8, 9, 10, usize::MAX]),
    };
    let letters = numbers.one_of(&[1, 2, 2, 3, 3, 4, 32]);
    let constants = numbers.one_of(&[0, 0, 1, 2, 4]);
    let mut grown = Grown::new(numbers, size.saturating_sub(3 * outside as usize).max(1), plain, until_like, letters, constants);
    if outside {
        grown.alternate(numbers, plain);
    }
    reordered(numbers, &grown.words)
}

const PLAIN: [u32; 7] = [5, 6, 7, 8, 9, 10, 11];
const WRITTEN: [u32; 12] = [5, 6, 7, 8, 9, 10, 11, 12, 12, 13, 14, 15];

/// Words that are grown one by one until all hang together.
struct Grown {
    words: Vec<Word>,
    seen: HashMap<(u32, usize, usize), usize>,
    loose: Vec<usize>,
    until_like: usize,
    /// Of ten operands, so many are constants.
    constants: usize,
}

impl Grown {
    fn new(numbers: &mut Numbers, size: usize, plain: bool, until_like: usize, letters: usize, constants: usize) -> Grown {
        let mut grown = Grown { words: vec![], seen: HashMap::new(), loose: vec![], until_like, constants };
        grown.leaf(numbers, letters);
        while grown.words.len() + grown.loose.len() < size + 1 {
            if size < 1000 && numbers.once_in(if grown.words.len() < 6 { 3 } else { 8 }) {
                grown.leaf(numbers, letters);
            } else {
                let kind = numbers.one_of(if plain { &PLAIN[..] } else { &WRITTEN });
                grown.over(numbers, kind);
            }
        }
        grown.constants = 0;
        while grown.loose.len() > 1 {
            let kind = numbers.one_of(&[5, 6]);
            grown.over(numbers, kind);
        }
        grown.constants = constants;
        grown
    }

    /// Three more until-like words, each over the one before, of which the middle one is of the other side, so that the rule lies outside
    /// Delta-2; at times X, or another word beside them. Or two such of each side, joined: where the rule has no others, just inside Delta-2,
    /// and just outside it under X.
    fn alternate(&mut self, numbers: &mut Numbers, plain: bool) {
        let (least, greatest): (&[u32], &[u32]) = if plain { (&[8, 11], &[9, 10]) } else { (&[8, 11, 13], &[9, 10, 14]) };
        let mut last = self.words.len();
        if numbers.once_in(4) {
            let [one, other] = [[least, greatest], [greatest, least]].map(|sides| {
                let inner = self.over_word(numbers, sides[0], last);
                self.over_word(numbers, sides[1], inner)
            });
            last = self.put(numbers.one_of(&[5, 6]), one, other);
            if numbers.once_in(2) {
                self.put(7, 0, last);
            }
            return;
        }
        let sides = if numbers.once_in(2) { [least, greatest, least] } else { [greatest, least, greatest] };
        for side in sides {
            last = self.over_word(numbers, side, last);
            if numbers.once_in(4) {
                last = self.over_word(numbers, &[5, 6, 7], last);
            }
        }
    }

    /// The number of a word of one of these kinds over this one, and over a constant or any that there was before.
    fn over_word(&mut self, numbers: &mut Numbers, kinds: &[u32], word: usize) -> usize {
        let kind = numbers.one_of(kinds);
        if matches!(kind, 7 | 13 | 14) {
            return self.put(kind, 0, word);
        }
        let other = if numbers.below(10) < self.constants { self.constant(numbers) } else { numbers.between(1, word) };
        match numbers.once_in(2) {
            true => self.put(kind, word, other),
            false => self.put(kind, other, word),
        }
    }

    /// The number of a word, which is put where there is none.
    fn put(&mut self, kind: u32, left: usize, right: usize) -> usize {
        if let Some(&n) = self.seen.get(&(kind, left, right)) {
            return n;
        }
        let word = Word::new(kind, left, right);
        self.loose.retain(|n| !word.operands().contains(n));
        self.words.push(word);
        let n = self.words.len();
        self.loose.push(n);
        self.seen.insert((kind, left, right), n);
        n
    }

    fn leaf(&mut self, numbers: &mut Numbers, letters: usize) {
        match numbers.below(12) {
            0 => self.put(1, 0, 0),
            1 => self.put(2, 0, 0),
            2..=4 => self.put(4, 0, numbers.between(1, letters)),
            _ => self.put(3, 0, numbers.between(1, letters)),
        };
    }

    /// A word over earlier ones, mostly over such as nothing uses yet.
    fn over(&mut self, numbers: &mut Numbers, kind: u32) {
        let until_like = matches!(kind, 8..=11 | 13 | 14);
        if until_like && self.until_like == 0 {
            let kind = numbers.one_of(&[5, 6, 7]);
            return self.over(numbers, kind);
        }
        let before = self.words.len();
        let right = self.operand(numbers, 0);
        if matches!(kind, 7 | 12 | 13 | 14) {
            self.put(kind, 0, right);
        } else {
            let left = self.operand(numbers, right);
            if numbers.once_in(2) {
                self.put(kind, left, right);
            } else {
                self.put(kind, right, left);
            }
        }
        if until_like && self.words.len() > before && self.until_like != usize::MAX {
            self.until_like -= 1;
        }
    }

    fn operand(&mut self, numbers: &mut Numbers, other: usize) -> usize {
        if numbers.below(10) < self.constants {
            return self.constant(numbers);
        }
        let loose: Vec<usize> = self.loose.iter().rev().take(40).copied().filter(|&n| n != other).collect();
        if !loose.is_empty() && !numbers.once_in(4) {
            numbers.one_of(&loose)
        } else {
            numbers.between(1, self.words.len())
        }
    }

    /// The number of the word false or true.
    fn constant(&mut self, numbers: &mut Numbers) -> usize {
        let kind = numbers.one_of(&[1, 2]);
        self.put(kind, 0, 0)
    }
}

/// The same words in another order: any in which operands come first.
fn reordered(numbers: &mut Numbers, words: &[Word]) -> Vec<u32> {
    let mut number = vec![0; words.len() + 1];
    let mut ready: Vec<usize> = Vec::new();
    let mut waits: Vec<usize> = words.iter().map(|w| w.operands().len()).collect();
    let mut users: Vec<Vec<usize>> = vec![vec![]; words.len() + 1];
    for (n, word) in (1..).zip(words) {
        word.operands().into_iter().for_each(|o| users[o].push(n));
        if word.operands().is_empty() {
            ready.push(n);
        }
    }
    let mut order = Vec::new();
    while !ready.is_empty() {
        let n = ready.swap_remove(numbers.below(ready.len()));
        order.push(n);
        number[n] = order.len();
        for &user in &users[n] {
            waits[user - 1] -= 1;
            if waits[user - 1] == 0 {
                ready.push(user);
            }
        }
    }
    let field = |n: usize, word: Word| if word.operands().contains(&n) { number[n] } else { n };
    // past 16,383 words a number no longer fits its field
    let bits = |word: Word| {
        Word::new(word.kind, field(word.left, word) % (MOST_WORDS + 1), field(word.right, word) % (MOST_WORDS + 1)).bits()
    };
    order.into_iter().map(|n| if words[n - 1].operands().is_empty() { words[n - 1].bits() } else { bits(words[n - 1]) }).collect()
}

/// Words damaged in one way, or in two.
fn damage(numbers: &mut Numbers, words: &mut Vec<u32>) {
    loop {
        let at = numbers.below(words.len().max(1));
        match numbers.below(10) {
            0..=2 if !words.is_empty() => words[at] ^= 1 << numbers.below(32),
            3 if !words.is_empty() => words[at] = numbers.next() as u32,
            4 if !words.is_empty() => words[at] = words[numbers.below(words.len())],
            5 if !words.is_empty() => {
                words[at] = numbers.one_of(&[0, 0x7000_0000, 0x3000_0000, 0x3000_0021, 0x3000_0020, 0x5000_0001, 0xC000_4001])
            }
            6 if !words.is_empty() => drop(words.remove(at)),
            7 => words.insert(at, numbers.next() as u32 % 0xFFFF + (numbers.below(16) as u32) * 0x1000_0000),
            8 => words.truncate(at),
            _ => {
                let other = numbers.below(words.len().max(1));
                if !words.is_empty() {
                    words.swap(at, other);
                }
            }
        }
        if !numbers.once_in(4) {
            return;
        }
    }
}

/// Samples in which some letters hold mostly and others seldom. Long tables get short recordings, for the reference's sake.
fn samples(numbers: &mut Numbers, words: usize) -> Vec<u32> {
    let long = match numbers.below(1000) {
        0..=9 => 0,
        10..=12 if words < 14 => numbers.one_of(&[4095, 4096, 4097, 5000]),
        13..=60 if words < 60 => numbers.between(120, 300),
        61..=300 if words < 150 => numbers.between(60, 131),
        _ if words < 1000 => numbers.between(1, 70),
        _ => numbers.between(1, 5),
    };
    let shares: Vec<usize> = (0..32).map(|_| numbers.one_of(&[0, 1, 4, 8, 12, 15, 16])).collect();
    let bit = |numbers: &mut Numbers, share: usize| (numbers.below(16) < share) as u32;
    (0..long).map(|_| (0..).zip(&shares).map(|(b, &share)| bit(numbers, share) << b).sum()).collect()
}

/// A sample, often one of which much remains: of most tables little more than a constant does.
fn sample(numbers: &mut Numbers, table: &[u32], samples: &[u32], driven: usize) -> u32 {
    let any = numbers.next() as u32;
    if table.len() > 600 || numbers.once_in(3) {
        return any;
    }
    let some = samples.iter().take(8).copied().chain([any, !any, 0, u32::MAX]);
    some.max_by_key(|&sample| after_length(table, sample, driven)).unwrap_or(any)
}

fn start(numbers: &mut Numbers, samples: usize) -> usize {
    match numbers.below(20) {
        0 => samples,
        1 => samples.saturating_sub(1),
        2 => 0,
        3 if numbers.once_in(4) => numbers.next() as usize,
        _ => numbers.below(samples.max(1)),
    }
}

/// Mostly as many letters as the words name or more; else one too few, over 32, or any number.
fn driven(numbers: &mut Numbers, words: &[u32]) -> usize {
    let letters = words.iter().map(|&bits| Word::of(bits)).filter(|word| matches!(word.kind, 3 | 4)).map(|word| word.right);
    let highest = letters.filter(|&letter| letter <= 32).max().unwrap_or(0);
    match numbers.below(16) {
        0 | 1 => highest.saturating_sub(1),
        2 => numbers.between(0, 33),
        3 => 33,
        4 if numbers.once_in(4) => numbers.next() as usize,
        5..=7 => highest,
        8 => 0,
        _ => numbers.between(highest, 32),
    }
}

/// A recording to compare with one: mostly the same show, its loop entered later and gone round more often, then often with a bit of a
/// sample, the loop start or the driven count changed; at times another show.
fn recording_like(numbers: &mut Numbers, samples: &[u32], start: usize, driven: usize) -> (Vec<u32>, usize, usize) {
    let sound = start < samples.len() && samples.len() <= 4_096;
    let (mut others, mut other_start) = (samples.to_vec(), start);
    if sound && !numbers.once_in(8) {
        let round = samples.len() - start;
        // the reference walks as far as both loops need to begin anew at once
        let longest = if numbers.once_in(300) { 4_096 } else { numbers.one_of(&[10, 20, 60, 200]) };
        let longest = longest.max(samples.len());
        let later = numbers.below(longest - samples.len() + 1);
        let times = 1 + numbers.below((longest - start - later) / round);
        let sample = |i: usize| samples[if i < start { i } else { start + (i - start) % round }];
        others = (0..start + later + times * round).map(sample).collect();
        other_start = start + later;
    } else if numbers.once_in(2) {
        others = self::samples(numbers, 20);
        other_start = self::start(numbers, others.len());
    }
    let changes = numbers.one_of(&[0, 0, 1, 1, 2]);
    for _ in 0..changes {
        let at = numbers.below(others.len().max(1));
        let bits = if numbers.once_in(2) { 32 } else { driven.clamp(1, 32) };
        let bit = numbers.below(bits);
        match numbers.below(8) {
            0..=3 if !others.is_empty() => others[at] ^= 1 << bit,
            4 if !others.is_empty() => drop(others.pop()),
            5 => other_start = self::start(numbers, others.len()),
            6 => other_start = other_start.wrapping_sub(1),
            _ => {}
        }
    }
    let other_driven = match numbers.below(16) {
        0 => numbers.between(0, 33),
        1 => driven.wrapping_add(1),
        _ => driven,
    };
    (others, other_start, other_driven)
}

fn tally(numbers: &mut Numbers) -> Tally {
    let (judged, held) = match numbers.below(12) {
        0 => (u32::MAX, numbers.next() as u32),
        1 => (u32::MAX - 1, numbers.next() as u32),
        2 => (numbers.next() as u32, numbers.next() as u32),
        3 => (u32::MAX - 1, u32::MAX - 1),
        4 => (5, 6),
        _ => {
            let judged = numbers.next() as u32 >> 4;
            (judged, judged / 2)
        }
    };
    Tally { judged, held }
}

/// A desk, most often one that has a tally.
fn desk(numbers: &mut Numbers, desks: usize) -> usize {
    match numbers.below(16) {
        0 => desks,
        1 => numbers.between(desks, desks + 3),
        2 if numbers.once_in(2) => numbers.next() as usize,
        _ => numbers.below(desks.max(1)),
    }
}
