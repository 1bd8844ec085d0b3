// Tables, with their header, and recordings that the figures are measured on, the same in every run.
use crate::hashmap::is_delta_2;
use crate::rules;
use crate::rules::{headed, word};

// The operators of plain and of written tables, of the dialect without W and M, and of tables in Sigma-1.
pub const PLAIN: [u32; 7] = [5, 6, 7, 8, 9, 10, 11];
pub const WRITTEN: [u32; 11] = [5, 6, 7, 8, 9, 10, 11, 12, 13, 14, 15];
pub const FREE: [u32; 5] = [5, 6, 7, 8, 10];
pub const SIGMA: [u32; 5] = [5, 6, 7, 8, 11];

// Numbers that look random.
pub struct Numbers(pub u64);

impl Numbers {
    pub fn next(&mut self, below: usize) -> usize {
        self.0 = self.0.wrapping_mul(6364136223846793005).wrapping_add(1442695040888963407);
        (self.0 >> 33) as usize % below
    }
}

// A table of n words of the given kinds over letter 1, in which each word uses the one before it, and another.
pub fn mixed(n: usize, kinds: &[u32]) -> Vec<u32> {
    over_letters(1, n, kinds)
}

// The same over more letters, which are used from the last one down.
pub fn over_letters(letters: usize, n: usize, kinds: &[u32]) -> Vec<u32> {
    let mut numbers = Numbers(1);
    let mut words: Vec<u32> = (1..=letters).map(|letter| word(3, 0, letter)).collect();
    for letter in (1..letters).rev() {
        words.push(word(5 + (letter % 2) as u32, words.len(), letter));
    }
    while words.len() < n {
        let last = words.len();
        let other = 1 + numbers.next(last);
        let kind = kinds[numbers.next(kinds.len())];
        words.push(match kind {
            7 | 12..=14 => word(kind, 0, last),
            _ if numbers.next(2) == 0 => word(kind, last, other),
            _ => word(kind, other, last),
        });
    }
    headed(words)
}

// A table of n words, 5 or more, of the given kinds over letter 1 and both constants, by numbers that look random: each word uses the one
// before it, and often one of those three.
pub fn with_constants(numbers: &mut Numbers, n: usize, kinds: &[u32]) -> Vec<u32> {
    let two_sided = |numbers: &mut Numbers| [5, 6, 8, 9, 10, 11][numbers.next(6)];
    let mut words = vec![word(1, 0, 0), word(2, 0, 0), word(3, 0, 1)];
    let constants = if numbers.next(2) == 0 { [1, 2] } else { [2, 1] };
    for constant in constants {
        words.push(word(two_sided(numbers), words.len(), constant));
    }
    while words.len() < n {
        let last = words.len();
        let among = [3, last][numbers.next(2)];
        let other = 1 + numbers.next(among);
        let kind = kinds[numbers.next(kinds.len())];
        words.push(match kind {
            7 | 12..=14 => word(kind, 0, last),
            _ if numbers.next(2) == 0 => word(kind, last, other),
            _ => word(kind, other, last),
        });
    }
    headed(words)
}

// Every letter at random.
pub fn noise(n: usize) -> Vec<u32> {
    let mut numbers = Numbers(4);
    (0..n).map(|_| (numbers.next(1 << 16) << 16 | numbers.next(1 << 16)) as u32).collect()
}

// Letter 1 mostly on, letter 2 seldom.
pub fn recording(n: usize) -> Vec<u32> {
    let mut numbers = Numbers(2);
    (0..n).map(|_| (numbers.next(8) != 0) as u32 | ((numbers.next(64) == 0) as u32) << 1).collect()
}

// A table with three more words, R, U and R over its last word and its third one, so that it lies outside Delta-2.
pub fn alternating(table: &[u32]) -> Vec<u32> {
    let last = table.len() - 1;
    let more = [word(10, 3, last), word(8, 3, last + 1), word(10, 3, last + 2)];
    headed([&table[1..], &more[..]].concat())
}

// Plain rules of eight until-like words, in rising size: nested, side by side, and chains of all operators. They have to lie outside Delta-2:
// a rule of Delta-2 is its own form, and is handed back in the time of its checks.
pub fn eight_until_like() -> Vec<(&'static str, Vec<u32>)> {
    let pairs = ["((p1 W p2) U p3)", "((p4 U p5) W p6)", "((p7 M p8) R p9)", "((p10 R p11) M p12)"];
    let rules = vec![
        ("nested", nested(8)),
        ("side by side", rules::table(&format!("X({})", pairs.join(" & ")))),
        ("mixed chain", chain(48)),
        ("mixed chain", chain(93)),
    ];
    assert!(rules.iter().all(|(_, table)| !is_delta_2(&table[1..])), "all are rewritten");
    rules
}

// So many until-like words, each with the one before it as its left operand: from five on outside Delta-2.
pub fn nested(fixpoints: usize) -> Vec<u32> {
    let over = |rule, i| format!("({rule}) {} p{}", ["U", "W", "R", "M"][i % 4], i + 1);
    rules::table(&(1..=fixpoints).fold("p1".to_string(), over))
}

// A chain of n words in which every until-like word stands over and, or and X words.
fn chain(n: usize) -> Vec<u32> {
    let mut words = vec![word(3, 0, 1), word(3, 0, 2), word(4, 0, 3), word(5, 1, 2), word(6, 3, 4)];
    let every = (n - 5) / 8;
    let mut fixpoints = 0;
    while words.len() < n {
        let last = words.len();
        let at = last - 5;
        words.push(if at % every == every - 1 && fixpoints < 8 {
            fixpoints += 1;
            word(8 + fixpoints as u32 % 4, last - 1, last)
        } else if at % 3 == 0 {
            word(7, 0, last)
        } else {
            word(5 + (at % 2) as u32, last, 1 + at % 3)
        });
    }
    headed(words)
}

// A plain table of n words, each over the one before it, so that a step that goes down by calls goes as deep as it can: X words, and
// from the top on so many words U and W by turns, from three on outside Delta-2.
pub fn deep(n: usize, fixpoints: usize) -> Vec<u32> {
    let mut words = vec![word(3, 0, 1)];
    while words.len() < n {
        let last = words.len();
        words.push(if n - last <= fixpoints { word(8 + (last % 2) as u32, last, last) } else { word(7, 0, last) });
    }
    headed(words)
}
