//! Makes an input smaller as long as it still differs. The table keeps the header of its words where it can.
use crate::generate::{after_length, lengths, move_length, states_length, Lengths};
use crate::input::Input;
use reference::edges::headed;
use reference::header::words;
use reference::limits::Limits;
use reference::steps::Tally;
use reference::word::Word;

/// The smallest input that single steps of shrinking lead to.
pub fn smallest(mut input: Input, differs: impl Fn(&Input) -> bool) -> Input {
    loop {
        let repaired = Input { table: headed(words(&input.table)), ..input.clone() };
        if !input.table.is_empty() && repaired.table != input.table && differs(&repaired) {
            input = repaired;
            continue;
        }
        let right = repaired.table == input.table;
        let smaller = || changes(&input).into_iter().map(|change| changed(&input, right, &change));
        // a fault may show only where a result just fills its slice, or in the rule's own state
        let smaller = smaller().chain(smaller().map(fitted)).chain(smaller().map(at_last_state));
        match smaller.filter(|smaller| smaller.size() < input.size()).find(&differs) {
            Some(smaller) => input = smaller,
            None => return input,
        }
    }
}

type Change = Box<dyn Fn(&mut Input)>;

/// The input after a change of anything but the header, which is that of the words again where it was; else its count is moved by as many
/// words as are gone, but not to 0.
fn changed(input: &Input, right: bool, change: &Change) -> Input {
    let mut smaller = input.clone();
    change(&mut smaller);
    let (before, after) = (words(&input.table), words(&smaller.table));
    if before == after || smaller.table.is_empty() {
        return smaller;
    }
    if right {
        smaller.table = headed(after);
    } else {
        let header = Word::of(smaller.table[0]);
        let count = header.right.saturating_sub(before.len() - after.len()).max(header.right.min(1));
        smaller.table[0] = Word { right: count, ..header }.bits();
    }
    smaller
}

/// The input with slices that the results just fill.
fn fitted(input: Input) -> Input {
    let Lengths { plain, normal, dialect, form } = lengths(&input.table, input.limits);
    let after = after_length(&input.table, input.sample, input.driven);
    let states = states_length(&input.table);
    let moved = move_length(&input.table, input.state, input.sample, input.driven);
    Input { plain, normal, dialect, after, states, moved, form_plain: plain, form, ..input }
}

/// The same, with the last state, which is the rule's own where it has one.
fn at_last_state(input: Input) -> Input {
    fitted(Input { state: states_length(&input.table), ..input })
}

/// Rooms, limits and the number of a state.
const SIZES: [fn(&mut Input) -> &mut usize; 15] = [
    |i| &mut i.text_table,
    |i| &mut i.bytes,
    |i| &mut i.plain,
    |i| &mut i.normal,
    |i| &mut i.dialect,
    |i| &mut i.after,
    |i| &mut i.states,
    |i| &mut i.moved,
    |i| &mut i.state,
    |i| &mut i.form_plain,
    |i| &mut i.form,
    |i| &mut i.scratch,
    |i| &mut i.limits.written,
    |i| &mut i.limits.until_like,
    |i| &mut i.limit,
];

/// The smallest rules outside Delta-2: U, R and U over a letter, and R, U and R.
const OUTSIDE: [[u32; 4]; 2] =
    [[0x3000_0001, 0x8000_4001, 0xA000_8002, 0x8000_C003], [0x3000_0001, 0xA000_4001, 0x8000_8002, 0xA000_C003]];

/// Changes that make an input smaller in one way, the boldest first.
fn changes(input: &Input) -> Vec<Change> {
    let mut all: Vec<Change> = Vec::new();
    let mut with = |change: Change| all.push(change);
    let (n, l, b) = (words(&input.table).len(), input.samples.len(), input.text.len());
    let o = input.others.len();
    with(Box::new(|i| i.table.clear()));
    for keep in [0, n / 2, n * 3 / 4] {
        with(Box::new(move |i| i.table.truncate(1 + keep)));
    }
    // single steps don't lead from each rule outside Delta-2 to one of these, nor from any two loops to these
    for words in OUTSIDE.into_iter().filter(|words| n > words.len() && input.table == headed(self::words(&input.table))) {
        with(Box::new(move |i| i.table = headed(&words)));
        with(Box::new(move |i| {
            (i.table, i.limits) = (headed(&words), Limits::DESK);
            (i.form_plain, i.normal, i.form) = (40, 40, 40);
        }));
    }
    with(Box::new(|i| {
        (i.samples, i.start, i.driven) = (vec![0, 0, 1], 0, 1);
        (i.others, i.other_start, i.other_driven) = (vec![0, 0, 1, 0], 0, 1);
    }));
    for keep in [0, l / 2, l * 3 / 4] {
        with(Box::new(move |i| i.samples.truncate(keep)));
    }
    for keep in [0, o / 2, o * 3 / 4] {
        with(Box::new(move |i| i.others.truncate(keep)));
    }
    // any part of the text left out
    for long in std::iter::successors(Some(b), |long| Some(long / 2)).take_while(|&long| long > 0) {
        for from in (0..=b - long).step_by(long.div_ceil(4)) {
            with(Box::new(move |i| drop(i.text.drain(from..from + long))));
        }
    }
    for j in (1..=n).rev().take(300) {
        with(Box::new(move |i| i.table = used(without(&i.table, j, |w| w.right))));
        with(Box::new(move |i| i.table = used(without(&i.table, j, |w| w.left))));
        with(Box::new(move |i| i.table = without(&i.table, j, |w| w.right)));
        with(Box::new(move |i| i.table = without(&i.table, j, |w| w.left)));
    }
    for j in (0..l).rev().take(300) {
        with(Box::new(move |i| drop(i.samples.drain(j..=j))));
    }
    for j in (0..o).rev().take(100) {
        with(Box::new(move |i| drop(i.others.drain(j..=j))));
        with(Box::new(move |i| i.others[j] &= i.others[j].wrapping_sub(1)));
    }
    with(Box::new(|i| i.other_start = 0));
    with(Box::new(|i| i.other_start = i.other_start.saturating_sub(1)));
    with(Box::new(|i| i.other_driven = i.driven));
    with(Box::new(|i| (i.driven, i.other_driven) = (i.driven.saturating_sub(1), i.other_driven.saturating_sub(1))));
    with(Box::new(|i| i.other_driven = i.other_driven.min(33)));
    with(Box::new(|i| i.other_driven = i.other_driven.saturating_sub(1)));
    // a sample less of both
    for j in (0..l.min(o)).rev().take(100) {
        with(Box::new(move |i| {
            i.samples.remove(j);
            i.others.remove(j);
        }));
    }
    // the same show from a later moment on
    for later in [l.min(o) / 2, 1] {
        with(Box::new(move |i| {
            let later = later.min(i.start).min(i.other_start);
            i.samples.drain(..later.min(l));
            i.others.drain(..later.min(o));
            (i.start, i.other_start) = (i.start - later, i.other_start - later);
        }));
    }
    with(Box::new(|i| i.start = 0));
    with(Box::new(|i| i.start = i.start.saturating_sub(1)));
    with(Box::new(|i| i.driven = 0));
    with(Box::new(|i| i.driven = i.driven.min(33)));
    with(Box::new(|i| i.driven = i.driven.saturating_sub(1)));
    with(Box::new(|i| i.limits.written = i.limits.written.min(257)));
    with(Box::new(|i| i.limits.until_like = i.limits.until_like.min(11)));
    with(Box::new(|i| i.sample = 0));
    with(Box::new(|i| i.sample &= i.sample.wrapping_sub(1)));
    with(Box::new(|i| i.undriven = 0));
    with(Box::new(|i| i.undriven &= i.undriven.wrapping_sub(1)));
    for size in SIZES {
        with(Box::new(move |i| *size(i) = 0));
        with(Box::new(move |i| *size(i) /= 2));
        with(Box::new(move |i| *size(i) = size(i).saturating_sub(1)));
    }
    with(Box::new(|i| i.tallies.truncate(i.tallies.len().saturating_sub(1))));
    with(Box::new(|i| i.desk = 0));
    with(Box::new(|i| i.desk = i.desk.saturating_sub(1)));
    with(Box::new(|i| i.desk = i.desk.min(i.tallies.len())));
    with(Box::new(|i| i.state = i.state.min(states_length(&i.table) + 1)));
    for k in 0..input.tallies.len() {
        with(Box::new(move |i| i.tallies[k] = Tally { judged: 0, held: 0 }));
        with(Box::new(move |i| i.tallies[k].held = 0));
    }
    with(Box::new(|i| i.plain_only = false));
    with(Box::new(|i| i.limit = 64));
    for j in (0..b).take(300) {
        for simpler in [b' ', b'X', b'1'] {
            with(Box::new(move |i| i.text[j] = simpler));
        }
    }
    for j in (1..=n).take(300) {
        for simpler in [0x1000_0000, 0x3000_0001, 0x3000_0002] {
            with(Box::new(move |i| i.table = used(replaced(&i.table, j, simpler))));
            with(Box::new(move |i| i.table[j] = simpler));
        }
    }
    for j in (0..l).take(300) {
        with(Box::new(move |i| i.samples[j] &= i.samples[j].wrapping_sub(1)));
    }
    if !input.table.is_empty() && input.table != headed(words(&input.table)) {
        // kind 0, class 0, or a bit less
        with(Box::new(|i| i.table[0] &= 0x0FFF_FFFF));
        with(Box::new(|i| i.table[0] &= 0xF000_3FFF));
        with(Box::new(|i| i.table[0] &= i.table[0].wrapping_sub(1)));
    }
    all
}

/// The table without word j: what used it uses the word's own operand, and later words are numbered one lower. The header stays.
fn without(table: &[u32], j: usize, instead: impl Fn(Word) -> usize) -> Vec<u32> {
    let gone = instead(Word::of(table[j]));
    let moved = |field: usize| match field.cmp(&j) {
        std::cmp::Ordering::Less => field,
        std::cmp::Ordering::Equal => gone.min(j - 1),
        std::cmp::Ordering::Greater => field - 1,
    };
    let kept = words(table).iter().zip(1..).filter(|&(_, n)| n != j);
    let kept = kept.map(|(&bits, _)| {
        let word = Word::of(bits);
        match word.operands().len() {
            2 => Word::new(word.kind, moved(word.left), moved(word.right)).bits(),
            1 => Word::new(word.kind, word.left, moved(word.right)).bits(),
            _ => bits,
        }
    });
    [table[0]].into_iter().chain(kept).collect()
}

fn replaced(table: &[u32], j: usize, word: u32) -> Vec<u32> {
    let mut table = table.to_vec();
    table[j] = word;
    table
}

/// The table without the words that the last one does not need.
fn used(mut table: Vec<u32>) -> Vec<u32> {
    for j in (1..table.len().saturating_sub(1)).rev() {
        if !table[j + 1..].iter().any(|&bits| Word::of(bits).operands().contains(&j)) {
            table = without(&table, j, |w| w.right);
        }
    }
    table
}
