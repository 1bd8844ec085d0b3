//! The check table of documents 01 and 02. Every condition that applies is gathered with its rank, and the lowest rank is returned:
//! "places run downward; the first that applies is returned". Check 25 comes before all of them (`limits`), and 12 after (`fits`).
use crate::header::{count, is_right, words};
use crate::map::Set;
use crate::word::{Field, Word, MOST_WORDS};

/// A refusal: document 01's number, and the place of the faulty word, 0 where there is none.
#[derive(Clone, Copy, PartialEq, Eq, Debug)]
pub struct Refusal {
    pub number: u32,
    pub place: usize,
}

/// Row of the check table, word, order within the word.
type Rank = (u32, usize, u32);

#[derive(Default)]
pub struct Faults {
    found: Vec<(Rank, Refusal)>,
}

const WHOLE_TABLE: u32 = 1;
const EACH_WORD: u32 = 2;
const UNUSED: u32 = 3;
const HEADER: u32 = 4;
const UNTIL_LIKE: u32 = 5;
const STATE: u32 = 6;
const RECORDING: u32 = 7;
const DRIVEN: u32 = 8;
const SCRATCH: u32 = 9;
const DESK: u32 = 10;
const TALLY: u32 = 11;

impl Faults {
    fn note(&mut self, applies: bool, rank: Rank, number: u32) {
        if applies {
            let place = if matches!(number, 3..=11 | 21) { rank.1 } else { 0 };
            self.found.push((rank, Refusal { number, place }));
        }
    }

    /// Checks 1, 2 and 23, then 3 to 10, then 24.
    pub fn table(&mut self, table: &[u32], plain_only: bool, limit: usize) -> &mut Faults {
        self.note(count(table) == 0, (WHOLE_TABLE, 0, 1), 1);
        self.note(count(table) > limit.min(MOST_WORDS), (WHOLE_TABLE, 0, 2), 2);
        self.note(count(table) != words(table).len(), (WHOLE_TABLE, 0, 3), 23);
        self.words(words(table), plain_only);
        // words that don't pass have no class
        let passes = self.found.is_empty();
        self.note(passes && !is_right(table), (HEADER, 0, 0), 24);
        self
    }

    /// Checks 3 to 10, of words without their header.
    pub fn words(&mut self, words: &[u32], plain_only: bool) -> &mut Faults {
        let mut seen = Set::default();
        let mut used = Set::default();
        for (n, &bits) in (1..).zip(words) {
            let word = Word::of(bits);
            self.word(n, word, plain_only);
            self.note(!seen.insert(bits), (EACH_WORD, n, 9), 9);
            used.extend(word.operands());
        }
        for n in 1..words.len() {
            self.note(!used.contains(&n), (UNUSED, n, 0), 10);
        }
        self
    }

    /// What one word has wrong in itself.
    fn word(&mut self, n: usize, word: Word, plain_only: bool) {
        self.note(word.kind == 0, (EACH_WORD, n, 1), 3);
        self.note(plain_only && word.kind >= 12, (EACH_WORD, n, 2), 4);
        let Some((left, right)) = word.fields() else { return };
        for (field, value, order) in [(left, word.left, 4), (right, word.right, 6)] {
            match field {
                Field::Zero => self.note(value != 0, (EACH_WORD, n, 3), 8),
                Field::Operand => {
                    self.note(value == 0, (EACH_WORD, n, order), 5);
                    self.note(value >= n, (EACH_WORD, n, order + 1), 6);
                }
                Field::Letter => self.note(!(1..=32).contains(&value), (EACH_WORD, n, 8), 7),
            }
        }
    }

    /// Check 11: the place is the first until-like word over the limit.
    pub fn until_like(&mut self, words: &[u32], limit: usize) -> &mut Faults {
        if let Some(&place) = until_like(words).get(limit) {
            self.note(true, (UNTIL_LIKE, place, 0), 11);
        }
        self
    }

    /// Check 6 of a state's number, at place 0.
    pub fn state(&mut self, states: usize, state: usize) -> &mut Faults {
        self.note(state > states, (STATE, 0, 0), 6);
        self
    }

    /// Checks 13 to 15, then 22.
    pub fn recording(&mut self, samples: usize, start: usize, driven: usize) -> &mut Faults {
        self.note(samples == 0, (RECORDING, 0, 1), 13);
        self.note(samples > 4096, (RECORDING, 0, 2), 14);
        self.note(start >= samples, (RECORDING, 0, 3), 15);
        self.driven_count(driven)
    }

    /// Check 22.
    pub fn driven_count(&mut self, driven: usize) -> &mut Faults {
        self.note(driven > 32, (RECORDING, 0, 4), 22);
        self
    }

    /// Check 21: words whose letter is above the driven count, the lowest first.
    pub fn driven(&mut self, words: &[u32], driven: usize) -> &mut Faults {
        for (n, &bits) in (1..).zip(words) {
            let word = Word::of(bits);
            let names = word.fields().is_some_and(|(_, right)| right == Field::Letter);
            self.note(names && word.right > driven, (DRIVEN, n, 0), 21);
        }
        self
    }

    /// Check 16.
    pub fn scratch(&mut self, words: usize, samples: usize, scratch: usize) -> &mut Faults {
        self.note(scratch < words * samples.div_ceil(64), (SCRATCH, 0, 0), 16);
        self
    }

    /// Check 26.
    pub fn desk(&mut self, desks: usize, desk: usize) -> &mut Faults {
        self.note(desk >= desks, (DESK, 0, 0), 26);
        self
    }

    /// Check 17.
    pub fn tally(&mut self, judged: u32, held: u32) -> &mut Faults {
        self.note(judged == u32::MAX || held > judged, (TALLY, 0, 0), 17);
        self
    }

    pub fn first(&self) -> Result<(), Refusal> {
        match self.found.iter().min_by_key(|(rank, _)| *rank) {
            Some(&(_, refusal)) => Err(refusal),
            None => Ok(()),
        }
    }
}

/// The numbers of the until-like words, rising.
pub fn until_like(words: &[u32]) -> Vec<usize> {
    (1..).zip(words).filter(|(_, &w)| (8..=11).contains(&Word::of(w).kind)).map(|(n, _)| n).collect()
}

/// Check 12, last: a slice counts for 16,383 words at most, and for a header beyond them.
pub fn fits(words: usize, slice: usize) -> Result<(), Refusal> {
    if words > slice.min(1 + MOST_WORDS) {
        return Err(Refusal { number: 12, place: 0 });
    }
    Ok(())
}
