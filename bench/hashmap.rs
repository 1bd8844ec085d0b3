// The steps of documents 01 and 02 written straight from their definitions, for clarity, with the standard hash map: what the proved
// library is compared with, and timed beside.
use std::collections::HashMap;

// A refusal's number and place.
pub type Refused = (u32, usize);

// Where a normal form stands, and its length: the source table itself, or the front of the result.
#[derive(Clone, Copy, PartialEq, Debug)]
pub enum Form {
    Source(usize),
    Result(usize),
}

impl Form {
    pub fn length(self) -> usize {
        match self {
            Form::Source(length) | Form::Result(length) => length,
        }
    }
}

const FALSE: u32 = 1;
const TRUE: u32 = 2;
const AND: u32 = 5;
const OR: u32 = 6;
const X: u32 = 7;
const U: u32 = 8;
const W: u32 = 9;
const R: u32 = 10;
const M: u32 = 11;
const NOT: u32 = 12;
const F: u32 = 13;
const G: u32 = 14;
const IMPLIES: u32 = 15;

fn kind(w: u32) -> u32 {
    w >> 28
}

fn left(w: u32) -> usize {
    (w >> 14 & 0x3FFF) as usize
}

fn right(w: u32) -> usize {
    (w & 0x3FFF) as usize
}

// Checks 1, 2 and 23, 3 to 10, and 24: the words of a table, without its header.
pub fn check(table: &[u32], plain: bool, limit: usize) -> Result<&[u32], Refused> {
    let (&header, words) = table.split_first().ok_or((1, 0))?;
    match right(header) {
        0 => return Err((1, 0)),
        count if limit < count => return Err((2, 0)),
        count if count != words.len() => return Err((23, 0)),
        _ => {}
    }
    check_words(words, plain)?;
    if header != header_of(words) {
        return Err((24, 0));
    }
    Ok(words)
}

// The header of words that pass the checks: the class of the last one, or 0 where a written kind occurs, and their number.
pub fn header_of(words: &[u32]) -> u32 {
    let written = words.iter().any(|&w| NOT <= kind(w));
    let class = if written { 0 } else { class_bytes(words)[words.len() - 1] };
    (class as u32) << 14 | words.len() as u32
}

// Checks 3 to 10.
pub fn check_words(words: &[u32], plain: bool) -> Result<(), Refused> {
    let mut numbers = HashMap::new();
    let mut used = vec![false; words.len() + 1];
    for (n, &w) in (1..).zip(words) {
        check_word(w, n, plain)?;
        if numbers.insert(w, n).is_some() {
            return Err((9, n));
        }
        match kind(w) {
            1..=4 => {}
            X | NOT | F | G => used[right(w)] = true,
            _ => {
                used[left(w)] = true;
                used[right(w)] = true;
            }
        }
    }
    match (1..words.len()).find(|&n| !used[n]) {
        Some(n) => Err((10, n)),
        None => Ok(()),
    }
}

// Checks 3 to 8 of word number n.
fn check_word(w: u32, n: usize, plain: bool) -> Result<(), Refused> {
    let blank = |field| if field == 0 { Ok(()) } else { Err((8, n)) };
    let operand = |field| match field {
        0 => Err((5, n)),
        _ if n <= field => Err((6, n)),
        _ => Ok(()),
    };
    match kind(w) {
        0 => Err((3, n)),
        12..=15 if plain => Err((4, n)),
        1..=2 => blank(left(w)).and(blank(right(w))),
        3..=4 => blank(left(w)).and(if (1..=32).contains(&right(w)) { Ok(()) } else { Err((7, n)) }),
        X | NOT | F | G => blank(left(w)).and(operand(right(w))),
        _ => operand(left(w)).and(operand(right(w))),
    }
}

// The classes by their bits, as Definition 5 reads: which classes each contains, and which operators it is closed under besides and, or.
const CLASSES: [(&[usize], &[u32]); 7] = [
    (&[], &[]),
    (&[0], &[X, U, M]),
    (&[0], &[X, W, R]),
    (&[1, 2], &[]),
    (&[2], &[X, U, M]),
    (&[1], &[X, W, R]),
    (&[4, 5], &[]),
];

pub fn classify(table: &[u32], bytes: &mut [u8]) -> Result<(), Refused> {
    let words = check(table, true, 16383)?;
    if bytes.len() < words.len() {
        bytes.fill(0);
        return Err((12, 0));
    }
    bytes[..words.len()].copy_from_slice(&class_bytes(words));
    Ok(())
}

fn class_bytes(words: &[u32]) -> Vec<u8> {
    let mut bytes: Vec<u8> = Vec::with_capacity(words.len());
    for &w in words {
        let operands = match kind(w) {
            1..=4 => 0,
            X => bytes[right(w) - 1],
            _ => bytes[left(w) - 1] & bytes[right(w) - 1],
        };
        let mut byte = if kind(w) <= 4 { 1 } else { 0 };
        for (bit, (contained, operators)) in CLASSES.iter().enumerate() {
            let closed = matches!(kind(w), AND | OR) || operators.contains(&kind(w));
            if closed && operands >> bit & 1 == 1 || contained.iter().any(|class| byte >> class & 1 == 1) {
                byte |= 1 << bit;
            }
        }
        bytes.push(byte);
    }
    bytes
}

// As many words as a slice counts for beside the header.
fn words_in(room: usize) -> usize {
    room.min(16384).saturating_sub(1)
}

// Words listed as first needed, an identical word used again, in so much room, the header's included.
pub struct Numbering {
    pub words: Vec<u32>,
    numbers: HashMap<u32, u32>,
    room: usize,
}

impl Numbering {
    pub fn new(room: usize) -> Numbering {
        Numbering { words: Vec::new(), numbers: HashMap::new(), room: words_in(room) }
    }

    pub fn put(&mut self, kind: u32, left: u32, right: u32) -> Result<u32, Refused> {
        let w = kind << 28 | left << 14 | right;
        if let Some(&n) = self.numbers.get(&w) {
            return Ok(n);
        }
        if self.words.len() == self.room {
            return Err((12, 0));
        }
        self.words.push(w);
        let n = self.words.len() as u32;
        self.numbers.insert(w, n);
        Ok(n)
    }
}

// The form's header and words at the front of the result, or a result of zeros where they don't fit.
pub fn hand_over(form: Result<Vec<u32>, Refused>, result: &mut [u32]) -> Result<usize, Refused> {
    match form {
        Ok(words) => {
            result[0] = header_of(&words);
            result[1..=words.len()].copy_from_slice(&words);
            Ok(1 + words.len())
        }
        Err(refused) => {
            result.fill(0);
            Err(refused)
        }
    }
}

pub fn plain_form(table: &[u32], result: &mut [u32]) -> Result<usize, Refused> {
    let words = check(table, false, 64)?;
    let mut plain = PlainForm { words, out: Numbering::new(result.len()), memo: vec![[0; 2]; words.len() + 1] };
    let form = plain.form(words.len(), false);
    hand_over(form.map(|_| plain.out.words), result)
}

struct PlainForm<'a> {
    words: &'a [u32],
    out: Numbering,
    memo: Vec<[u32; 2]>,
}

impl PlainForm<'_> {
    // The number of the plain form of word j, or of its denial.
    fn form(&mut self, j: usize, denied: bool) -> Result<u32, Refused> {
        let known = self.memo[j][denied as usize];
        if known != 0 {
            return Ok(known);
        }
        let w = self.words[j - 1];
        let becomes = |kind| if denied { dual(kind) } else { kind };
        let n = match kind(w) {
            k @ 1..=4 => self.out.put(becomes(k), 0, right(w) as u32)?,
            X => {
                let b = self.form(right(w), denied)?;
                self.out.put(X, 0, b)?
            }
            NOT => self.form(right(w), !denied)?,
            F => self.over_constant(becomes(TRUE), becomes(U), right(w), denied)?,
            G => self.over_constant(becomes(FALSE), becomes(R), right(w), denied)?,
            k => {
                let premise = k == IMPLIES;
                let a = self.form(left(w), denied != premise)?;
                let b = self.form(right(w), denied)?;
                self.out.put(becomes(if premise { OR } else { k }), a, b)?
            }
        };
        self.memo[j][denied as usize] = n;
        Ok(n)
    }

    fn over_constant(&mut self, constant: u32, kind: u32, j: usize, denied: bool) -> Result<u32, Refused> {
        let a = self.out.put(constant, 0, 0)?;
        let b = self.form(j, denied)?;
        self.out.put(kind, a, b)
    }
}

// What denial makes of a plain kind.
fn dual(kind: u32) -> u32 {
    match kind {
        FALSE => TRUE,
        TRUE => FALSE,
        3 => 4,
        4 => 3,
        AND => OR,
        OR => AND,
        U => R,
        R => U,
        W => M,
        M => W,
        _ => kind,
    }
}

// A table in Delta-2 is its own form; any other is rewritten.
pub fn normal_form(table: &[u32], result: &mut [u32]) -> Result<Form, Refused> {
    let words = check(table, true, 130)?;
    if is_delta_2(words) {
        return Ok(Form::Source(table.len()));
    }
    let until_like: Vec<usize> = (1..=words.len()).filter(|j| (U..=M).contains(&kind(words[j - 1]))).collect();
    if let Some(&ninth) = until_like.get(8) {
        return Err((11, ninth));
    }
    let mut weight = vec![0; words.len() + 1];
    for (bit, &j) in until_like.iter().enumerate() {
        weight[j] = 1 << bit;
    }
    let mut normal = NormalForm { words, until_like, weight, out: Draft::new(), choice: 0, memo: Vec::new() };
    let form = normal.parts();
    hand_over(normal.out.table(form, words_in(result.len())), result).map(Form::Result)
}

// Whether the last word's class byte has bit 6.
pub fn is_delta_2(words: &[u32]) -> bool {
    class_bytes(words)[words.len() - 1] >> 6 & 1 == 1
}

// The dialect without W and M: a W b is b R (a or b), and a M b is b U (a and b).
pub fn dialect(table: &[u32], result: &mut [u32]) -> Result<usize, Refused> {
    let words = check(table, true, 16383)?;
    let mut out = Numbering::new(result.len());
    let form = convert(words, &mut out);
    hand_over(form.map(|_| out.words), result)
}

// Words that wait for their operands' numbers stand on a stack of their own: a table can be 16,383 words deep.
fn convert(words: &[u32], out: &mut Numbering) -> Result<(), Refused> {
    let mut memo = vec![0; words.len() + 1];
    let mut waiting = vec![words.len()];
    while let Some(&j) = waiting.last() {
        let w = words[j - 1];
        let (a, b) = (left(w), right(w));
        let operands = match kind(w) {
            1..=4 => vec![],
            X => vec![b],
            W | M => vec![b, a],
            _ => vec![a, b],
        };
        if let Some(&operand) = operands.iter().find(|&&operand| memo[operand] == 0) {
            waiting.push(operand);
            continue;
        }
        memo[j] = match kind(w) {
            k @ 1..=4 => out.put(k, 0, b as u32)?,
            X => out.put(X, 0, memo[b])?,
            W => {
                let either = out.put(OR, memo[a], memo[b])?;
                out.put(R, memo[b], either)?
            }
            M => {
                let both = out.put(AND, memo[a], memo[b])?;
                out.put(U, memo[b], both)?
            }
            k => out.put(k, memo[a], memo[b])?,
        };
        waiting.pop();
    }
    Ok(())
}

// The whole way, from a written table. The source of the form is the plain form.
pub fn rule_form(table: &[u32], plain: &mut [u32], result: &mut [u32]) -> Result<Form, Refused> {
    let n = plain_form(table, plain)?;
    normal_form(&plain[..n], result)
}

// The words of a form as they are made, each folded, with the numbers of its operands here. The constants come first, under the numbers of
// their kinds. Some words end up unused; the form's table leaves them out.
struct Draft {
    words: Vec<[u32; 3]>,
    numbers: HashMap<[u32; 3], u32>,
}

impl Draft {
    fn new() -> Draft {
        let mut draft = Draft { words: Vec::new(), numbers: HashMap::new() };
        draft.put(FALSE, 0, 0);
        draft.put(TRUE, 0, 0);
        draft
    }

    // The number of a word over folded ones, which is that of an operand where it folds.
    fn put(&mut self, kind: u32, left: u32, right: u32) -> u32 {
        match (kind, left, right) {
            (AND, FALSE, _) | (AND, _, FALSE) => FALSE,
            (AND, TRUE, x) | (AND, x, TRUE) => x,
            (OR, TRUE, _) | (OR, _, TRUE) => TRUE,
            (OR, FALSE, x) | (OR, x, FALSE) => x,
            (X | U | R, _, FALSE | TRUE) => right,
            (U, FALSE, x) | (R, TRUE, x) => x,
            (W, TRUE, _) | (W, _, TRUE) => TRUE,
            (W, FALSE, x) => x,
            (M, FALSE, _) | (M, _, FALSE) => FALSE,
            (M, TRUE, x) => x,
            _ => self.word([kind, left, right]),
        }
    }

    fn word(&mut self, word: [u32; 3]) -> u32 {
        if let Some(&n) = self.numbers.get(&word) {
            return n;
        }
        self.words.push(word);
        let n = self.words.len() as u32;
        self.numbers.insert(word, n);
        n
    }

    // The table of one of the words, listed as first needed, in room for so many.
    fn table(&self, root: u32, room: usize) -> Result<Vec<u32>, Refused> {
        let mut table = Vec::new();
        let mut memo = vec![0; self.words.len() + 1];
        let mut waiting = vec![root];
        while let Some(&n) = waiting.last() {
            let [kind, a, b] = self.words[n as usize - 1];
            let number = |operand: u32| memo[operand as usize];
            let (left, right) = match kind {
                1..=4 => (0, b),
                X => (0, number(b)),
                _ => (number(a), number(b)),
            };
            match kind {
                5..=6 | 8..=11 if left == 0 => waiting.push(a),
                5..=11 if right == 0 => waiting.push(b),
                _ if table.len() == room => return Err((12, 0)),
                _ => {
                    table.push(kind << 28 | left << 14 | right);
                    memo[n as usize] = table.len() as u32;
                    waiting.pop();
                }
            }
        }
        Ok(table)
    }
}

#[derive(Clone, Copy)]
enum Rewriting {
    Steady,
    Recurring,
    Opening,
}
use Rewriting::*;

struct NormalForm<'a> {
    words: &'a [u32],
    until_like: Vec<usize>,
    weight: Vec<u32>, // of each word's bit; 0 where it has none
    out: Draft,
    choice: u32,
    memo: Vec<[u32; 3]>, // of this choice's rewritings
}

impl NormalForm<'_> {
    fn parts(&mut self) -> u32 {
        let mut choices: Vec<u32> = (0..1 << self.until_like.len()).rev().collect();
        choices.sort_by_key(|choice| choice.count_ones());
        let mut n = self.part(0);
        for &choice in &choices[1..] {
            let part = self.part(choice);
            n = self.out.put(OR, n, part);
        }
        n
    }

    fn part(&mut self, choice: u32) -> u32 {
        self.choice = choice;
        self.memo = vec![[0; 3]; self.words.len() + 1];
        let mut n = self.form(Opening, self.words.len());
        for j in self.chosen([U, M]) {
            let g = self.out.put(FALSE, 0, 0);
            let f = self.out.put(TRUE, 0, 0);
            let x = self.form(Recurring, j);
            let fx = self.out.put(U, f, x);
            let gfx = self.out.put(R, g, fx);
            n = self.out.put(AND, n, gfx);
        }
        for j in self.chosen([W, R]) {
            let f = self.out.put(TRUE, 0, 0);
            let g = self.out.put(FALSE, 0, 0);
            let x = self.form(Steady, j);
            let gx = self.out.put(R, g, x);
            let fgx = self.out.put(U, f, gx);
            n = self.out.put(AND, n, fgx);
        }
        n
    }

    fn chosen(&self, kinds: [u32; 2]) -> Vec<usize> {
        let member = |&j: &usize| self.choice & self.weight[j] != 0 && kinds.contains(&kind(self.words[j - 1]));
        self.until_like.iter().copied().filter(member).collect()
    }

    // The number of a rewriting of word j.
    fn form(&mut self, m: Rewriting, j: usize) -> u32 {
        let known = self.memo[j][m as usize];
        if known != 0 {
            return known;
        }
        let w = self.words[j - 1];
        let chosen = self.choice & self.weight[j] != 0;
        let n = match (m, kind(w)) {
            (_, k @ 1..=4) => self.out.put(k, 0, right(w) as u32),
            (_, X) => {
                let b = self.form(m, right(w));
                self.out.put(X, 0, b)
            }
            (Steady, U | M) if !chosen => self.out.put(FALSE, 0, 0),
            (Steady, U) => self.both(m, W, w),
            (Steady, M) => self.both(m, R, w),
            (Recurring, W | R) if chosen => self.out.put(TRUE, 0, 0),
            (Recurring, W) => self.both(m, U, w),
            (Recurring, R) => self.both(m, M, w),
            (Opening, W) => {
                let a = self.form(m, left(w));
                let b = self.form(m, right(w));
                let or_always = self.or_always(b, left(w));
                self.out.put(U, a, or_always)
            }
            (Opening, R) => {
                let a = self.form(m, left(w));
                let or_always = self.or_always(a, right(w));
                let b = self.form(m, right(w));
                self.out.put(M, or_always, b)
            }
            (_, k) => self.both(m, k, w),
        };
        self.memo[j][m as usize] = n;
        n
    }

    fn both(&mut self, m: Rewriting, kind: u32, w: u32) -> u32 {
        let a = self.form(m, left(w));
        let b = self.form(m, right(w));
        self.out.put(kind, a, b)
    }

    // `a or G x`, with x the steady form of word j.
    fn or_always(&mut self, a: u32, j: usize) -> u32 {
        let never = self.out.put(FALSE, 0, 0);
        let x = self.form(Steady, j);
        let always = self.out.put(R, never, x);
        self.out.put(OR, a, always)
    }
}
