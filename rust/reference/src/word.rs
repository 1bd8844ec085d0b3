//! A word of a rule: the top 4 bits are the kind, the next 14 the left field, the low 14 the right field.

#[derive(Clone, Copy, PartialEq, Eq, Debug)]
pub struct Word {
    pub kind: u32,
    pub left: usize,
    pub right: usize,
}

/// What a field of a word has to be.
#[derive(Clone, Copy, PartialEq, Eq, Debug)]
pub enum Field {
    Zero,
    Letter,
    Operand,
}

/// The largest number that a field can hold, and so the most words that a table can have.
pub const MOST_WORDS: usize = 16_383;

impl Word {
    pub fn new(kind: u32, left: usize, right: usize) -> Word {
        Word { kind, left, right }
    }

    pub fn of(bits: u32) -> Word {
        Word::new(bits / 0x1000_0000, (bits / 0x4000 % 0x4000) as usize, (bits % 0x4000) as usize)
    }

    pub fn bits(self) -> u32 {
        assert!(self.kind < 16 && self.left <= MOST_WORDS && self.right <= MOST_WORDS);
        self.kind * 0x1000_0000 + self.left as u32 * 0x4000 + self.right as u32
    }

    /// The left and the right field of a word of this kind, as document 01's table of kinds has them. Kind 0 has no meaning.
    pub fn fields(self) -> Option<(Field, Field)> {
        match self.kind {
            0 => None,
            1 | 2 => Some((Field::Zero, Field::Zero)),
            3 | 4 => Some((Field::Zero, Field::Letter)),
            7 | 12 | 13 | 14 => Some((Field::Zero, Field::Operand)),
            _ => Some((Field::Operand, Field::Operand)),
        }
    }

    /// The operands' numbers, left first.
    pub fn operands(self) -> Vec<usize> {
        match self.fields() {
            Some((Field::Operand, Field::Operand)) => vec![self.left, self.right],
            Some((_, Field::Operand)) => vec![self.right],
            _ => vec![],
        }
    }
}

#[cfg(test)]
mod tests {
    use super::*;

    #[test]
    fn bits_there_and_back() {
        for bits in [0, 0x3000_0001, 0x8000_4002, 0xFFFF_FFFF, 0xA001_0005, 0x6000_C007] {
            assert_eq!(Word::of(bits).bits(), bits);
        }
        assert_eq!(Word::of(0xA001_0005), Word::new(10, 4, 5));
    }
}
