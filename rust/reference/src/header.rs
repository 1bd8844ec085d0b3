//! The header word, with which every table begins (document 02, N5): kind 0, left field the class byte of the last word (0 where kinds
//! 12 to 15 occur), right field the word count. Words are numbered from 1 after it.
use crate::class::Classes;
use crate::forest::Forest;
use crate::word::Word;

/// The words of a table: what comes after its header.
pub fn words(table: &[u32]) -> &[u32] {
    table.get(1..).unwrap_or(&[])
}

/// How many words the header says there are; an empty slice has no header, and says none.
pub fn count(table: &[u32]) -> usize {
    table.first().map_or(0, |&header| Word::of(header).right)
}

/// The header of words that pass the checks of a table's words.
pub fn header(words: &[u32]) -> Word {
    Word::new(0, class(words).into(), words.len())
}

/// Whether kind and class of a table's header are right, where its words pass the checks.
pub fn is_right(table: &[u32]) -> bool {
    let header = Word::of(table[0]);
    header.kind == 0 && header.left == class(words(table)).into()
}

fn class(words: &[u32]) -> u8 {
    if words.iter().any(|&bits| Word::of(bits).kind >= 12) {
        return 0;
    }
    let mut forest = Forest::new();
    let trees = forest.of_words(words);
    Classes::of(&forest, &trees).byte(*trees.last().expect("a table has a word"))
}

#[cfg(test)]
mod tests {
    use super::*;

    #[test]
    fn headers() {
        for (words, bits) in [
            (&[0x3000_0001][..], 0x001F_C001),
            (&[0x3000_0001, 0xE000_0001], 0x0000_0002),
            (&[0x2000_0000, 0x3000_0001, 0x8000_4002], 0x001E_8003),
            (&[0x1000_0000, 0x3000_0001, 0xA000_4002], 0x001F_0003),
        ] {
            assert_eq!(header(words).bits(), bits);
            let table = [&[bits], words].concat();
            assert!(is_right(&table) && count(&table) == words.len() && self::words(&table) == words);
        }
        assert_eq!((count(&[]), words(&[])), (0, &[][..]));
    }
}
