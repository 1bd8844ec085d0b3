//! Random texts: rules of all symbols with any spaces between them, around 64 and 256 words and 1,024 bytes among the rest; such texts cut
//! short, or with a byte changed, left out or put in; symbols in any order; any bytes.
use crate::numbers::Numbers;
use reference::forest::Forest;
use reference::header::words;
use reference::steps::check;
use reference::text::{show, shown_bytes};

/// A text, at times that of a table.
pub fn text(numbers: &mut Numbers, table: &[u32]) -> Vec<u8> {
    let mut text = match numbers.below(20) {
        0..=2 if check(table, false, 256).is_ok() && shown_bytes(words(table)) <= 1_100 => {
            let mut forest = Forest::new();
            let tree = *forest.of_words(words(table)).last().expect("a word");
            show(&forest, tree).into_bytes()
        }
        3 => any_symbols(numbers),
        4 => return (0..numbers.below(12)).map(|_| numbers.next() as u8).collect(),
        _ => any_rule(numbers),
    };
    match numbers.below(8) {
        0 | 1 => damage(numbers, &mut text),
        2 => text.truncate(numbers.below(text.len() + 1)),
        _ => {}
    }
    if numbers.once_in(12) {
        fill(numbers, &mut text);
    }
    text
}

const LEAVES: [&str; 2] = ["true", "false"];
const PREFIXES: [&str; 4] = ["!", "X", "F", "G"];
const OPERATORS: [&str; 7] = ["&", "|", "->", "U", "W", "R", "M"];

type Symbols = Vec<String>;

fn any_rule(numbers: &mut Numbers) -> Vec<u8> {
    let size = match numbers.below(100) {
        0..=59 => numbers.between(1, 12),
        60..=79 => numbers.between(8, 40),
        80..=96 => numbers.between(50, 110),
        _ => numbers.between(150, 450),
    };
    let mut shape = Shape {
        letters: numbers.one_of(&[1, 2, 4, 32]),
        prefixes: numbers.one_of(&[0, 1, 4, 4, 9, 10]),
        one_side: numbers.once_in(3),
        again: numbers.one_of(&[0, 1, 3]),
        known: vec![],
    };
    let symbols = shape.rule(numbers, size);
    spaced(numbers, &symbols)
}

/// What rules are grown like.
struct Shape {
    letters: usize,
    /// Of ten operators, so many are prefixes.
    prefixes: usize,
    /// Whether a two-sided operator has a leaf on one side.
    one_side: bool,
    /// Of ten rules, so many stand elsewhere already.
    again: usize,
    known: Vec<Symbols>,
}

impl Shape {
    fn rule(&mut self, numbers: &mut Numbers, size: usize) -> Symbols {
        if size <= 1 {
            return vec![self.leaf(numbers)];
        }
        if !self.known.is_empty() && numbers.below(10) < self.again {
            return self.known[numbers.below(self.known.len())].clone();
        }
        let symbols = if numbers.below(10) < self.prefixes || size == 2 {
            let mut symbols = vec![numbers.one_of(&PREFIXES).to_string()];
            symbols.extend(self.rule(numbers, size - 1));
            symbols
        } else {
            let left = match self.one_side {
                true => numbers.one_of(&[1, size - 2]),
                false => numbers.between(1, size - 2),
            };
            let mut symbols = vec!["(".to_string()];
            symbols.extend(self.rule(numbers, left));
            symbols.push(numbers.one_of(&OPERATORS).to_string());
            symbols.extend(self.rule(numbers, size - 1 - left));
            symbols.push(")".to_string());
            symbols
        };
        if symbols.len() < 40 {
            self.known.push(symbols.clone());
        }
        symbols
    }

    fn leaf(&self, numbers: &mut Numbers) -> String {
        match numbers.once_in(8) {
            true => numbers.one_of(&LEAVES).to_string(),
            false => format!("p{}", numbers.between(1, self.letters)),
        }
    }
}

fn any_symbols(numbers: &mut Numbers) -> Vec<u8> {
    let others = ["(", "(", ")", "p1", "p2", "p32", "p33", "p0", "-", ">", "1", "p", "t", "\n", "\t"];
    let all: Vec<&str> = [&LEAVES[..], &PREFIXES, &OPERATORS, &others].concat();
    let symbols: Symbols = (0..numbers.below(9)).map(|_| numbers.one_of(&all).to_string()).collect();
    spaced(numbers, &symbols)
}

/// Symbols with spaces round them, none or few or many.
fn spaced(numbers: &mut Numbers, symbols: &[String]) -> Vec<u8> {
    let most = numbers.one_of(&[0, 0, 1, 1, 3]);
    let spaces = |numbers: &mut Numbers| " ".repeat(numbers.below(most + 1));
    let mut text = spaces(numbers);
    for symbol in symbols {
        text += symbol;
        text += &spaces(numbers);
    }
    text.into_bytes()
}

/// Spaces between two bytes, up to the limit or a byte or two past it.
fn fill(numbers: &mut Numbers, text: &mut Vec<u8>) {
    let to = numbers.between(1_022, 1_026);
    let inside = numbers.below(text.len() + 1);
    let at = numbers.one_of(&[0, text.len(), inside]);
    let spaces = vec![b' '; to.saturating_sub(text.len())];
    text.splice(at..at, spaces);
}

/// A byte changed, left out or put in.
fn damage(numbers: &mut Numbers, text: &mut Vec<u8>) {
    let at = numbers.below(text.len() + 1);
    let byte = match numbers.below(4) {
        0 => numbers.next() as u8,
        _ => numbers.one_of(b"truefalsp0123456789!XFG&|->UWRM() \t\n\x80\xFF"),
    };
    match numbers.below(3) {
        0 if at < text.len() => text[at] = byte,
        1 if at < text.len() => drop(text.remove(at)),
        _ => text.insert(at, byte),
    }
}
