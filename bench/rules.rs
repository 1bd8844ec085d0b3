// Rules written as text, read into written tables: the header, then words listed as first needed, an identical word used again.
use crate::hashmap::header_of;

pub struct Rule {
    pub name: String,
    pub table: Vec<u32>,
}

pub fn word(kind: u32, left: usize, right: usize) -> u32 {
    kind << 28 | (left as u32) << 14 | right as u32
}

// The rules of a text, one a line after its name, each followed by its negation.
pub fn read(text: &str) -> Vec<Rule> {
    let mut rules = Vec::new();
    for line in text.lines().filter(|line| !line.starts_with('#')) {
        let (name, rule) = line.split_once(':').expect("a name, a colon, a rule");
        for (mark, rule) in [("", rule.to_string()), ("!", format!("!({rule})"))] {
            rules.push(Rule { name: format!("{mark}{name}"), table: table(&rule) });
        }
    }
    rules
}

pub fn table(rule: &str) -> Vec<u32> {
    let text = rule.bytes().filter(|c| !c.is_ascii_whitespace()).collect();
    let mut reader = Reader { text, at: 0, words: Vec::new() };
    reader.implies();
    assert_eq!(reader.at, reader.text.len(), "nothing is left of {rule}");
    headed(reader.words)
}

// Words that pass the checks, with their header in front. Over 16,383 have none; the highest count stands there.
pub fn headed(words: Vec<u32>) -> Vec<u32> {
    let header = if words.len() <= 16383 { header_of(&words) } else { 16383 };
    [vec![header], words].concat()
}

// Each method reads one formula and answers the number of its word; an operand is read, and so numbered, before its word.
struct Reader {
    text: Vec<u8>,
    at: usize,
    words: Vec<u32>,
}

impl Reader {
    fn put(&mut self, w: u32) -> usize {
        if let Some(i) = self.words.iter().position(|&x| x == w) {
            return i + 1;
        }
        self.words.push(w);
        self.words.len()
    }

    fn takes(&mut self, sign: &str) -> bool {
        let found = self.text[self.at..].starts_with(sign.as_bytes());
        if found {
            self.at += sign.len();
        }
        found
    }

    fn implies(&mut self) -> usize {
        let a = self.or();
        if self.takes("->") {
            let b = self.implies();
            return self.put(word(15, a, b));
        }
        a
    }

    fn or(&mut self) -> usize {
        let mut a = self.and();
        while self.takes("|") {
            let b = self.and();
            a = self.put(word(6, a, b));
        }
        a
    }

    fn and(&mut self) -> usize {
        let mut a = self.until();
        while self.takes("&") {
            let b = self.until();
            a = self.put(word(5, a, b));
        }
        a
    }

    fn until(&mut self) -> usize {
        let a = self.unary();
        for (sign, kind) in [("U", 8), ("W", 9), ("R", 10), ("M", 11)] {
            if self.takes(sign) {
                let b = self.until();
                return self.put(word(kind, a, b));
            }
        }
        a
    }

    fn unary(&mut self) -> usize {
        if self.takes("!") {
            return match self.letter() {
                Some(letter) => self.put(word(4, 0, letter)),
                None => self.over(12),
            };
        }
        for (sign, kind) in [("X", 7), ("F", 13), ("G", 14)] {
            if self.takes(sign) {
                return self.over(kind);
            }
        }
        if self.takes("(") {
            let a = self.implies();
            assert!(self.takes(")"), "a parenthesis is closed");
            return a;
        }
        let letter = self.letter().expect("a letter");
        self.put(word(3, 0, letter))
    }

    fn over(&mut self, kind: u32) -> usize {
        let a = self.unary();
        self.put(word(kind, 0, a))
    }

    // p1 to p32, or a to z for 1 to 26.
    fn letter(&mut self) -> Option<usize> {
        let first = *self.text.get(self.at).filter(|c| c.is_ascii_lowercase())?;
        self.at += 1;
        let from = self.at;
        while self.text.get(self.at).is_some_and(|c| c.is_ascii_digit()) {
            self.at += 1;
        }
        let digits = std::str::from_utf8(&self.text[from..self.at]).unwrap();
        Some(digits.parse().unwrap_or((first - b'a') as usize + 1))
    }
}
