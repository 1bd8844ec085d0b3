// Rules typed as text: a reader written for clarity that goes down by calls and numbers words by the hash map, and the texts that both
// readers are timed on.
use crate::hashmap::{hand_over, Numbering, Refused};
use crate::shapes::Numbers;

pub fn read(text: &[u8], result: &mut [u32]) -> Result<usize, Refused> {
    if text.len() > 1024 {
        return Err((20, 0));
    }
    let mut reader = Reader { text, at: 0, out: Numbering::new(1 + text.len()) };
    reader.spaces();
    reader.rule()?;
    reader.spaces();
    if reader.at < text.len() {
        return reader.departs();
    }
    let words = reader.out.words;
    match words.len() {
        65.. => Err((2, 0)),
        n if 1 + n > result.len() => hand_over(Err((12, 0)), result),
        _ => hand_over(Ok(words), result),
    }
}

// Each method takes as much as it can; what it cannot take departs from the grammar.
struct Reader<'a> {
    text: &'a [u8],
    at: usize,
    out: Numbering,
}

impl Reader<'_> {
    fn departs<T>(&self) -> Result<T, Refused> {
        Err((19, self.at + 1))
    }

    fn next(&self) -> u8 {
        self.text.get(self.at).copied().unwrap_or(0)
    }

    fn spaces(&mut self) {
        while self.next() == b' ' {
            self.at += 1;
        }
    }

    fn symbol(&mut self, symbol: &str) -> Result<(), Refused> {
        for byte in symbol.bytes() {
            if self.next() != byte {
                return self.departs();
            }
            self.at += 1;
        }
        Ok(())
    }

    // The number of a rule's word.
    fn rule(&mut self) -> Result<u32, Refused> {
        match self.next() {
            b't' => self.symbol("true").and_then(|()| self.out.put(2, 0, 0)),
            b'f' => self.symbol("false").and_then(|()| self.out.put(1, 0, 0)),
            b'p' => self.letter(),
            b'!' => self.over(12),
            b'X' => self.over(7),
            b'F' => self.over(13),
            b'G' => self.over(14),
            b'(' => self.bracket(),
            _ => self.departs(),
        }
    }

    fn letter(&mut self) -> Result<u32, Refused> {
        self.at += 1;
        let mut n = 0;
        while self.next().is_ascii_digit() && (1..=32).contains(&(10 * n + (self.next() - b'0') as u32)) {
            n = 10 * n + (self.next() - b'0') as u32;
            self.at += 1;
        }
        if n == 0 {
            return self.departs();
        }
        self.out.put(3, 0, n)
    }

    fn over(&mut self, kind: u32) -> Result<u32, Refused> {
        self.at += 1;
        self.spaces();
        let a = self.rule()?;
        self.out.put(kind, 0, a)
    }

    fn bracket(&mut self) -> Result<u32, Refused> {
        self.at += 1;
        self.spaces();
        let a = self.rule()?;
        self.spaces();
        let (kind, symbol) = match self.next() {
            b'&' => (5, "&"),
            b'|' => (6, "|"),
            b'U' => (8, "U"),
            b'W' => (9, "W"),
            b'R' => (10, "R"),
            b'M' => (11, "M"),
            _ => (15, "->"),
        };
        self.symbol(symbol)?;
        self.spaces();
        let b = self.rule()?;
        self.spaces();
        self.symbol(")")?;
        self.out.put(kind, a, b)
    }
}

// Texts of exactly 16 and of exactly 1,024 bytes, and what each is full of. Short of a few bytes, spaces follow.
pub fn texts() -> Vec<(&'static str, String)> {
    let doubled = |rule: String| format!("({rule}&{rule})");
    let chain = format!("{}p1", "X".repeat(44));
    let chains = (0..19).fold(chain.clone(), |rule, _| format!("({rule}|{chain})"));
    let letters = (2..=31).fold("p1".to_string(), |rule, n| format!("({rule} {} p{n})", ["&", "U", "->"][n % 3]));
    let ones = (0..6).fold("p1".to_string(), |rule, _| doubled(rule));
    let long = [
        ("prefixes", chains),
        ("brackets over one letter", format!("({ones}|({ones}&({ones}|p1)))")),
        ("brackets over 31 letters", format!("({letters}|({letters}&({letters}|p1)))")),
        ("spaces", format!("{}p1", " ".repeat(1022))),
        ("prefixes, refused", format!("{}p1", "X".repeat(1022))),
        ("deep brackets, refused", format!("{}p1{}", "(".repeat(204), "&p1)".repeat(204))),
        ("brackets never closed, refused", "(".repeat(1024)),
    ];
    let short = [
        ("prefixes", "XXXXXXXXXXXXXXp1"),
        ("brackets over one letter", "((p1 & p1) & p1)"),
        ("brackets over letters", "((p1 U p2) & p3)"),
        ("a letter and spaces", "p1"),
        ("a second operator, refused", "(p1 & p2 & p3)"),
    ];
    let filled = |text: String, bytes: usize| format!("{text}{}", " ".repeat(bytes - text.len()));
    let short = short.map(|(what, text)| (what, filled(text.to_string(), 16)));
    short.into_iter().chain(long.map(|(what, text)| (what, filled(text, 1024)))).collect()
}

// A text of any symbols and bytes, mostly one of those above with a byte changed, left out or put in.
pub fn damaged(numbers: &mut Numbers) -> Vec<u8> {
    let texts = texts();
    let mut text = texts[numbers.next(texts.len())].1.clone().into_bytes();
    text.truncate(numbers.next(3) * 400 + 1 + numbers.next(225));
    for _ in 0..numbers.next(3) {
        let at = numbers.next(text.len());
        let byte = b"p123 4567890()&|->UWRMXFG!truefals\n\xFF"[numbers.next(36)];
        match numbers.next(3) {
            0 => text[at] = byte,
            1 if text.len() > 1 => drop(text.remove(at)),
            _ => text.insert(at, byte),
        }
    }
    text
}
