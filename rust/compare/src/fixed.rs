//! The fixed inputs: the rules of source 000's Tables 6 and 8 with their negations, and the edges that documents 01 and 02 name.
use crate::generate::{with_table, with_text};
use crate::input::Input;
use crate::numbers::Numbers;
use reference::edges::{
    alternating, bits_of, chain_of, chain_of_ands, chain_of_next, constant_forms, headed, limits_for, long_forms,
    long_forms_of_ten, long_unfolded, nested, outside_words, over_constants, over_next,
};
use reference::limits::Limits;
use reference::rules::rules;
use reference::steps::plain_words;
use reference::texts::texts;
use reference::word::Word;

pub fn inputs() -> Vec<Input> {
    // words, which get their header
    let mut tables: Vec<Vec<u32>> = rules().into_iter().map(|(_, words)| words).collect();
    tables.extend([0, 1, 63, 64, 65, 129, 130, 131, 16_383, 16_384].map(chain_of_next));
    tables.extend([59, 60, 61].map(chain_of_ands));
    tables.extend([50, 60].map(|ands| outside_words(&chain_of_ands(ands))));
    // in Delta-2 however many they are, and outside it
    tables.extend((1..=10).chain([20, 60]).flat_map(|k| [8, 9, 10, 11].map(|kind| chain_of(kind, k))));
    tables.extend((3..=10).flat_map(|k| [8, 9, 10, 11].map(|kind| alternating(kind, k))));
    // conversions as long as any slice counts for, and longer
    tables.extend([8_190, 8_191].into_iter().flat_map(|k| [9, 11].map(|kind| chain_of(kind, k))));
    // remainders likewise
    tables.extend([5_460, 5_461].into_iter().flat_map(|k| [8, 10].map(|kind| over_next(kind, k))));
    tables.extend([16_380, 16_381].map(|n| [chain_of_next(n), vec![Word::new(9, n, n - 1).bits()]].concat()));
    tables.extend([20, 510, 511].into_iter().flat_map(|k| [8, 9, 10, 11].map(|kind| over_next(kind, k))));
    // as many states as can be numbered, and more
    tables.extend([8_191, 8_192].map(chain_of_next));
    tables.extend([8, 10].map(|kind| [chain_of_next(8_191), vec![Word::new(kind, 8_191, 8_190).bits()]].concat()));
    tables.extend([16_380, 16_381].map(chain_of_ands));
    tables.extend(constant_forms().into_iter().map(|(_, words)| words));
    // just inside Delta-2, and just outside it by an X
    let sides = ["GF p1 & FG p2", "GF p1 | FG p2", "GF(p1 | X p2) & (p1 U G p2)"];
    tables.extend(sides.iter().flat_map(|text| [bits_of(text), bits_of(&format!("X({text})"))]));
    let desk = tables.iter().map(|words| headed(words)).chain(headers()).map(|table| (Limits::DESK, table));
    let long = long_forms().into_iter().chain(long_unfolded()).map(|(_, words)| (limits_for(&words), headed(&words)));
    let mut inputs = Vec::new();
    for (n, (limits, table)) in (0..).zip(desk.chain(long)) {
        // several rooms and recordings each, under these limits and others by turns
        for again in 0..if table.len() > 1000 { 2 } else { 6 } {
            let mut numbers = Numbers::new(7, n * 10 + again);
            inputs.push(match again % 2 {
                0 => with_text(&mut numbers, limits, table.clone(), vec![]),
                _ => with_table(&mut numbers, table.clone()),
            });
        }
    }
    let nested = nested(3).into_iter().chain(over_constants(&["p2", "false", "true"]));
    inputs.extend((0..).zip(nested).map(|(n, (_, words))| with_table(&mut Numbers::new(8, n), headed(&words))));
    for (n, (_, text)) in (0..).zip(texts()) {
        for text_table in [0, 1, 2, 10, 20, 63, 64, 65, 66, 70] {
            let of_letter = with_text(&mut Numbers::new(9, n), Limits::DESK, headed(&[0x3000_0001]), text.clone());
            inputs.push(Input { text_table, ..of_letter });
        }
    }
    // rules to follow are plain
    for (n, (_, words)) in (0..).zip(rules()) {
        let plain = plain_words(&headed(&words), limits_for(&words)).expect("a plain form");
        let table = headed(&plain.iter().map(|word| word.bits()).collect::<Vec<_>>());
        inputs.extend((0..3).map(|again| with_table(&mut Numbers::new(11, n * 10 + again), table.clone())));
    }
    inputs.extend((0..).zip(limits()).map(|(n, (limits, words))| {
        let text = format!("{}p1", "X".repeat(words.len().saturating_sub(1)));
        with_text(&mut Numbers::new(10, n), limits, headed(&words), text.into_bytes())
    }));
    inputs
}

/// Limits at the edges of their ranges, and tables at the edges that these set.
fn limits() -> Vec<(Limits, Vec<u32>)> {
    let house = |written, until_like| Limits { written, until_like };
    let mut inputs = Vec::new();
    for written in [0, 1, 256, 257, usize::MAX] {
        for until_like in [0, 10, 11, usize::MAX] {
            inputs.extend([0, 1, 257].map(|words| (house(written, until_like), chain_of_next(words))));
        }
    }
    for written in [1, 2, 5, 63, 65, 127, 255, 256] {
        for words in [written, 2 * written + 2] {
            inputs.extend([words - 1, words, words + 1].map(|words| (house(written, 8), chain_of_next(words))));
        }
    }
    for until_like in 0..=10 {
        for kind in 8..12 {
            let limits = house(16, until_like);
            inputs.extend([until_like.max(1), until_like + 1].map(|k| (limits, chain_of(kind, k))));
            inputs.extend([until_like.max(3), until_like.max(2) + 1].map(|k| (limits, alternating(kind, k))));
        }
    }
    inputs.extend(long_forms_of_ten().map(|(_, words)| (Limits::HIGHEST, words)));
    inputs
}

/// An empty slice; headers alone; every bit of a right header the other way; counts beside lengths at the limits.
fn headers() -> Vec<Vec<u32>> {
    let mut tables = vec![vec![]];
    tables.extend([0, 1, 64, 65, 130, 131, 16_383, 0x001F_C001, 0x1000_0001, u32::MAX].map(|header| vec![header]));
    let always = vec![0x3000_0001, 0xE000_0001];
    for words in [vec![0x3000_0001], always, chain_of(9, 3), chain_of(8, 9), alternating(8, 3), alternating(9, 9), vec![0]] {
        let table = headed(&words);
        let other = |bit: u32| [&[table[0] ^ 1 << bit], &words[..]].concat();
        tables.extend((0..32).map(other));
        tables.extend((0..table.len()).map(|length| table[..length].to_vec()));
        tables.push(words);
    }
    for count in [1, 63, 64, 65, 129, 130, 131, 16_383] {
        tables.extend([count - 1, count + 1].map(|words| [vec![0x001F_8000 + count as u32], chain_of_next(words)].concat()));
    }
    tables
}
