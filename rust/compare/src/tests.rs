//! Libraries with a fault: each is found, and the input that shows it is made small.
use crate::fixed;
use crate::generate;
use crate::input::Input;
use crate::library::{length_told, Lent, Library, Move, Reference, Stands};
use crate::numbers::Numbers;
use crate::run::compare;
use crate::smallest_difference;
use reference::after::after;
use reference::checks::until_like;
use reference::edges::headed;
use reference::fold::fold;
use reference::forest::{Forest, Node, Tree};
use reference::header::{count, words};
use reference::limits::Limits;
use reference::listing::{list, needed};
use reference::recording::Recording;
use reference::steps::{after_words, is_delta_2, normal_words, plain_words, rewritten_words, unfolded, write};
use reference::word::{Word, MOST_WORDS};
use showrule::Tally;
use std::cmp::Ordering;
use std::collections::BTreeSet;

/// The reference with one fault.
struct Faulty {
    fault: Fault,
    right: Reference,
}

#[derive(Clone, Copy, PartialEq)]
enum Fault {
    RefusalUntouched,
    WordPastTheEnd,
    PlaceOneLow,
    RowNotLast,
    HeldForgotten,
    FirstDesk,
    AnyFull,
    FullBeforeDesk,
    GuardWritten,
    TextPlaceLate,
    WordsBeforeGrammar,
    HighestUndriven,
    UndrivenRead,
    UndrivenCounted,
    NotRenumbered,
    CountBeforeLimit,
    ClassUnread,
    KindUnread,
    HeaderNumbered,
    HeaderWithoutClass,
    HeaderLast,
    LimitsUnread,
    LimitsAfterTable,
    UntilLikeUnreadForText,
    AtLeastProgramsWords,
    LastOverTheLimit,
    NotFolded,
    UnfoldedMeasured,
    FirstLoopOnly,
    OneRoundOfEach,
    UndrivenCompared,
    CountsFirst,
    Delta2Rewritten,
    Delta2BySides,
    Delta2Written,
    Delta2Limited,
    Delta2Measured,
    PlaceOfFormUnwritten,
    PlainFormCopied,
    UndrivenStepped,
    NextKept,
    WordItselfDropped,
    RemainderNotFolded,
    OneStateEach,
    PiFirst,
    ClassUnasked,
    MoveFolded,
    LastStateRefused,
    SampleBeforeState,
}

impl Faulty {
    /// The limits as the fault takes them.
    fn limits(&self, limits: Limits) -> Limits {
        if self.fault == Fault::LimitsUnread && limits.permitted().is_err() {
            return Limits::DESK;
        }
        limits
    }
}

impl Faulty {
    /// What the fault makes of a table that is its own form.
    fn handed_back(&self, table: &[u32], limits: Limits, result: &mut [u32], stands: &mut Stands, place: &mut usize) -> u32 {
        let mut refused = |number: u32, at: usize| {
            (*stands, *place) = (Stands { in_source: 0, length: 0 }, at);
            number
        };
        let over = until_like(words(table)).get(limits.until_like).copied();
        let rewrites = match self.fault {
            Fault::Delta2Rewritten => true,
            // in neither Sigma-2 nor Pi-2
            Fault::Delta2BySides => table[0] >> 14 & 0b011_0000 == 0,
            _ => false,
        };
        match (self.fault, over) {
            (Fault::Delta2Limited, Some(over)) => return refused(11, over),
            (Fault::Delta2Measured, _) if table.len() > result.len() => {
                result.fill(0);
                return refused(12, 0);
            }
            (Fault::Delta2Written, _) if table.len() <= result.len() => result[..table.len()].copy_from_slice(table),
            _ if rewrites => match write(rewritten_words(table, limits), result) {
                Ok(length) => *stands = Stands { in_source: 0, length },
                Err(refusal) => return refused(refusal.number, refusal.place),
            },
            _ => {}
        }
        0
    }
}

impl Faulty {
    /// What the fault makes of a rule after a sample, where that is something else.
    fn remainder(&self, table: &[u32], sample: u32) -> Option<Vec<Word>> {
        let mut forest = Forest::new();
        let trees = forest.of_words(words(table));
        let remainders = after(&mut forest, &trees, |letter| sample >> (letter - 1) & 1 == 1);
        let of = |operand: Tree| remainders[trees.iter().position(|&tree| tree == operand).expect("an operand")];
        let rule = trees[trees.len() - 1];
        let made = match (self.fault, forest.node(rule)) {
            (Fault::NextKept, Node::Next(_)) => rule,
            (Fault::WordItselfDropped, Node::Until(a, b) | Node::Weak(a, b)) => forest.grow(Node::Or(of(b), of(a))),
            (Fault::WordItselfDropped, Node::Release(a, b) | Node::Strong(a, b)) => forest.grow(Node::And(of(b), of(a))),
            (Fault::RemainderNotFolded, _) => return Some(list(&forest, of(rule))),
            _ => return None,
        };
        let folded = fold(&mut forest, made);
        Some(list(&forest, folded))
    }
}

impl Faulty {
    /// What the fault makes of a state's move, where that is something else: the words of the move, and those of all states.
    fn other_move(&self, by: Move, kind: u32, made: &[u32], states: &[u32]) -> Option<Vec<Word>> {
        let mut forest = Forest::new();
        let root = *forest.of_words(made).last().expect("a word");
        // both states of a word that has two, as an or
        let both = |forest: &mut Forest, state: usize| {
            let same = |other: &usize| states[other - 1] & 0x3FFF == states[state - 1] & 0x3FFF;
            let trees: Vec<Tree> = (1..=states.len()).filter(same).map(|n| forest.grow(Node::Letter(n))).collect();
            trees.into_iter().reduce(|sigma, pi| forest.grow(Node::Or(sigma, pi))).expect("the state itself")
        };
        if self.fault == Fault::MoveFolded {
            let folded = fold(&mut forest, root);
            return Some(list(&forest, folded));
        }
        let mut other: Vec<(Tree, Tree)> = Vec::new();
        for tree in needed(&forest, root) {
            let of = |operand: Tree| other.iter().find(|(tree, _)| *tree == operand).expect("an operand").1;
            let made = match (self.fault, forest.node(tree)) {
                // of the states of a word the Pi one stands first, in the start
                (Fault::PiFirst, Node::Or(a, b)) if by.state == 0 => match (forest.node(a), forest.node(b)) {
                    (Node::Letter(n), Node::Letter(_)) if both(&mut forest, n) == tree => forest.grow(Node::Or(b, a)),
                    _ => forest.grow(Node::Or(of(a), of(b))),
                },
                // X leads to every state of its operand, whatever its own class
                (Fault::ClassUnasked, Node::Letter(n)) if kind == 7 => both(&mut forest, n),
                (_, node) => forest.grow(node.over(of)),
            };
            other.push((tree, made));
        }
        let made = other.last().expect("the root").1;
        (made != root).then(|| list(&forest, made))
    }
}

/// A table without its header, as a step that writes one leaves it.
fn write_without_header(made: Vec<Word>, result: &mut [u32], length: &mut usize) -> u32 {
    *length = 0;
    if made.len() > result.len().min(MOST_WORDS) {
        result.fill(0);
        return 12;
    }
    *length = made.len();
    result.iter_mut().zip(made).for_each(|(place, word)| *place = word.bits());
    0
}

impl Library for Faulty {
    fn check(&self, table: &[u32], plain: bool, limit: usize, place: &mut usize) -> u32 {
        let number = self.right.check(table, plain, limit, place);
        if self.fault == Fault::PlaceOneLow && number == 10 {
            *place -= 1;
        }
        if self.fault == Fault::CountBeforeLimit && number == 2 && count(table) != table.len() - 1 {
            return 23;
        }
        let kind_0 = table.first().is_some_and(|header| header >> 28 == 0);
        if number == 24 && (self.fault == Fault::ClassUnread && kind_0 || self.fault == Fault::KindUnread && !kind_0) {
            return 0;
        }
        if self.fault == Fault::HeaderNumbered && (3..=10).contains(&number) {
            *place += 1;
        }
        number
    }

    fn classify(&self, table: &[u32], bytes: &mut [u8], place: &mut usize) -> u32 {
        self.right.classify(table, bytes, place)
    }

    fn text(&self, text: &[u8], limits: Limits, result: &mut [u32], words: &mut usize, place: &mut usize) -> u32 {
        let mut limits = self.limits(limits);
        if self.fault == Fault::UntilLikeUnreadForText {
            limits.until_like = 8;
        }
        let number = self.right.text(text, limits, result, words, place);
        if self.fault == Fault::TextPlaceLate && number == 19 && *place <= text.len() && text.starts_with(b"(") {
            *place += 1;
        }
        // every word is counted, as if none were used again
        let counted = text.iter().filter(|&byte| b"pXFG!&|>UWRM".contains(byte)).count();
        if self.fault == Fault::WordsBeforeGrammar && number == 19 && counted > limits.written {
            *place = 0;
            return 2;
        }
        number
    }

    fn plain(&self, table: &[u32], limits: Limits, result: &mut [u32], words: &mut usize, place: &mut usize) -> u32 {
        let before = result.to_vec();
        let mut limits = self.limits(limits);
        if self.fault == Fault::AtLeastProgramsWords && limits.permitted().is_ok() {
            limits.written = limits.written.max(64);
        }
        let number = self.right.plain(table, limits, result, words, place);
        if self.fault == Fault::LimitsAfterTable && number == 25 {
            // the table's own refusal, where it has one
            let checked = self.right.check(table, false, MOST_WORDS, place);
            return if checked == 0 { number } else { checked };
        }
        if self.fault == Fault::RefusalUntouched && number == 12 {
            result.copy_from_slice(&before);
        }
        if self.fault == Fault::HeaderWithoutClass && number == 0 {
            result[0] &= 0x3FFF;
        }
        if self.fault == Fault::HeaderLast && number == 0 {
            result[..*words].rotate_left(1);
        }
        number
    }

    fn normal(&self, table: &[u32], limits: Limits, result: &mut [u32], stands: &mut Stands, place: &mut usize) -> u32 {
        let before = stands.in_source;
        let number = self.right.normal(table, self.limits(limits), result, stands, place);
        if number == 0 && stands.in_source == 1 {
            return self.handed_back(table, limits, result, stands, place);
        }
        let length = stands.length;
        if number == 0 && matches!(self.fault, Fault::NotFolded | Fault::UnfoldedMeasured) {
            let (forest, form) = unfolded(table, limits).expect("it has a form");
            let mut unfolded = vec![0; result.len()];
            match write(Ok(list(&forest, form)), &mut unfolded) {
                Err(refusal) => {
                    (stands.length, *place) = (0, refusal.place);
                    result.fill(0);
                    return refusal.number;
                }
                Ok(length) if self.fault == Fault::NotFolded => {
                    stands.length = length;
                    result[..length].copy_from_slice(&unfolded[..length]);
                }
                Ok(_) => {}
            }
        }
        if self.fault == Fault::LastOverTheLimit && number == 11 {
            *place = *until_like(&table[1..]).last().unwrap();
        }
        if self.fault == Fault::WordPastTheEnd && number == 0 && length < result.len() {
            result[length] = 0;
        }
        if self.fault == Fault::GuardWritten && number == 0 && length == result.len() {
            // SAFETY: the comparison lends the middle of a larger memory
            unsafe { *result.as_mut_ptr().add(result.len()) = 0 };
        }
        if self.fault == Fault::PlaceOfFormUnwritten && number == 0 {
            stands.in_source = before;
        }
        number
    }

    fn dialect(&self, table: &[u32], result: &mut [u32], words: &mut usize, place: &mut usize) -> u32 {
        let number = self.right.dialect(table, result, words, place);
        // a table that needs no other words is handed back as it is
        if self.fault == Fault::NotRenumbered && number == 0 && *words == table.len() {
            result[..*words].copy_from_slice(table);
        }
        number
    }

    fn after(&self, table: &[u32], sample: u32, driven: usize, result: &mut [u32], length: &mut usize, place: &mut usize) -> u32 {
        // an undriven letter is stepped by its bit
        let driven = if self.fault == Fault::UndrivenStepped && driven < 32 { 32 } else { driven };
        let number = self.right.after(table, sample, driven, result, length, place);
        let made = if number == 0 { self.remainder(table, sample) } else { None };
        match made {
            Some(made) => length_told(write(Ok(made), result), length, place),
            None => number,
        }
    }

    fn states(&self, table: &[u32], result: &mut [u32], states: &mut usize, place: &mut usize) -> u32 {
        let before = result.to_vec();
        let number = self.right.states(table, result, states, place);
        if self.fault != Fault::OneStateEach || number != 0 {
            return number;
        }
        let mut made: Vec<Word> = result[..*states].iter().map(|&bits| Word::of(bits)).collect();
        made.dedup_by_key(|state| state.right);
        result.copy_from_slice(&before);
        write_without_header(made, result, states)
    }

    fn moved(&self, table: &[u32], by: Move, result: &mut [u32], length: &mut usize, place: &mut usize) -> u32 {
        let before = result.to_vec();
        let number = self.right.moved(table, by, result, length, place);
        let mut states = vec![0; MOST_WORDS];
        let (mut count, mut ignored) = (0, 0);
        self.right.states(table, &mut states, &mut count, &mut ignored);
        states.truncate(count);
        match self.fault {
            Fault::LastStateRefused if number == 0 && by.state > 0 && by.state == count => {
                result.copy_from_slice(&before);
                *length = 0;
                6
            }
            Fault::SampleBeforeState if number == 6 && *place == 0 && by.driven > 32 => 22,
            Fault::PiFirst | Fault::ClassUnasked | Fault::MoveFolded if number == 0 => {
                let kind = by.state.checked_sub(1).map_or(0, |n| table[(states[n] & 0x3FFF) as usize] >> 28);
                let Some(made) = self.other_move(by, kind, &result[..*length], &states) else { return number };
                result.copy_from_slice(&before);
                write_without_header(made, result, length)
            }
            _ => number,
        }
    }

    fn form(
        &self,
        table: &[u32],
        limits: Limits,
        plain: &mut [u32],
        result: &mut [u32],
        stands: &mut Stands,
        place: &mut usize,
    ) -> u32 {
        let number = self.right.form(table, self.limits(limits), plain, result, stands, place);
        // a copy of the plain form
        if self.fault == Fault::PlainFormCopied && stands.in_source == 1 && stands.length <= result.len() {
            result[..stands.length].copy_from_slice(&plain[..stands.length]);
            stands.in_source = 0;
        }
        number
    }

    fn judge(
        &self,
        table: &[u32],
        recording: Recording,
        scratch: &mut [u64],
        tallies: &mut [Tally],
        desk: usize,
        lent: &mut Lent,
        place: &mut usize,
    ) -> u32 {
        let before = tallies.to_vec();
        // the first desk's tally for each, and any full tally
        let desk = if self.fault == Fault::FirstDesk && desk < tallies.len() { 0 } else { desk };
        let full = |tally: &Tally| tally.judged == u32::MAX || tally.held > tally.judged;
        let desk = if self.fault == Fault::AnyFull && desk < tallies.len() {
            tallies.iter().position(full).unwrap_or(desk)
        } else {
            desk
        };
        let number = self.right.judge(table, recording, scratch, tallies, desk, lent, place);
        if self.fault == Fault::HeldForgotten && number == 0 {
            tallies[desk].held = before[desk].held;
        }
        if self.fault == Fault::FullBeforeDesk && number == 26 && before.iter().any(full) {
            return 17;
        }
        if self.fault == Fault::HighestUndriven && number == 21 {
            let names = |&n: &usize| matches!(table[n] >> 28, 3 | 4) && (table[n] & 0x3FFF) as usize > recording.driven;
            *place = (1..table.len()).rev().find(names).unwrap();
        }
        number
    }

    fn row(
        &self,
        table: &[u32],
        recording: Recording,
        scratch: &mut [u64],
        from: &mut usize,
        words: &mut usize,
        place: &mut usize,
    ) -> u32 {
        // an undriven letter is read as false
        let all = Recording { driven: if recording.driven < 32 { 32 } else { recording.driven }, ..recording };
        let recording = if self.fault == Fault::UndrivenRead { all } else { recording };
        let number = self.right.row(table, recording, scratch, from, words, place);
        if self.fault == Fault::RowNotLast {
            *from = 0;
        }
        // a row has the parity of the bits above the driven ones
        if self.fault == Fault::UndrivenCounted && number == 0 && recording.driven < 32 {
            let above: u32 = recording.samples.iter().map(|sample| (sample >> recording.driven).count_ones()).sum();
            scratch[0] ^= u64::from(above % 2);
        }
        number
    }

    fn compare(&self, first: Recording, second: Recording, same: &mut bool, moment: &mut usize, place: &mut usize) -> u32 {
        if self.fault == Fault::CountsFirst && first.driven <= 32 && first.driven != second.driven {
            (*same, *moment, *place) = (false, 0, 0);
            return 27;
        }
        let number = self.right.compare(first, second, same, moment, place);
        let (p, q) = (first.len().wrapping_sub(first.start), second.len().wrapping_sub(second.start));
        let looked_at = match self.fault {
            // as many moments as the first has recorded, or as both go round once from where both loops have begun
            Fault::FirstLoopOnly => first.len(),
            Fault::OneRoundOfEach if number == 0 => first.start.max(second.start) + p.max(q),
            _ => usize::MAX,
        };
        if number == 0 && !*same && *moment >= looked_at {
            (*same, *moment) = (true, 0);
        }
        if self.fault == Fault::UndrivenCompared && number == 0 && *same && first.samples[0] != second.samples[0] {
            *same = false;
        }
        number
    }
}

/// The smallest input that shows a fault, from the first random input that does.
fn found(fault: Fault) -> Input {
    let faulty = Faulty { fault, right: Reference::default() };
    let shows = |input: &Input| compare(&faulty, &Reference::default(), input).is_err();
    let input = (0..2000).map(|n| generate::input(&mut Numbers::new(1, n))).find(shows).expect("the fault shows");
    smallest_difference(&faulty, input).0
}

const FAULTS: [Fault; 49] = [
    Fault::RefusalUntouched,
    Fault::WordPastTheEnd,
    Fault::PlaceOneLow,
    Fault::RowNotLast,
    Fault::HeldForgotten,
    Fault::FirstDesk,
    Fault::AnyFull,
    Fault::FullBeforeDesk,
    Fault::GuardWritten,
    Fault::TextPlaceLate,
    Fault::WordsBeforeGrammar,
    Fault::HighestUndriven,
    Fault::UndrivenRead,
    Fault::UndrivenCounted,
    Fault::NotRenumbered,
    Fault::CountBeforeLimit,
    Fault::ClassUnread,
    Fault::KindUnread,
    Fault::HeaderNumbered,
    Fault::HeaderWithoutClass,
    Fault::HeaderLast,
    Fault::LimitsUnread,
    Fault::LimitsAfterTable,
    Fault::UntilLikeUnreadForText,
    Fault::AtLeastProgramsWords,
    Fault::LastOverTheLimit,
    Fault::NotFolded,
    Fault::UnfoldedMeasured,
    Fault::FirstLoopOnly,
    Fault::OneRoundOfEach,
    Fault::UndrivenCompared,
    Fault::CountsFirst,
    Fault::Delta2Rewritten,
    Fault::Delta2BySides,
    Fault::Delta2Written,
    Fault::Delta2Limited,
    Fault::Delta2Measured,
    Fault::PlaceOfFormUnwritten,
    Fault::PlainFormCopied,
    Fault::UndrivenStepped,
    Fault::NextKept,
    Fault::WordItselfDropped,
    Fault::RemainderNotFolded,
    Fault::OneStateEach,
    Fault::PiFirst,
    Fault::ClassUnasked,
    Fault::MoveFolded,
    Fault::LastStateRefused,
    Fault::SampleBeforeState,
];

/// The most words of the smallest table that shows a fault, its header counted.
fn most_words(fault: Fault) -> usize {
    match fault {
        // three until-like words over a letter, outside Delta-2
        Fault::WordPastTheEnd | Fault::GuardWritten | Fault::LastOverTheLimit => 5,
        Fault::NotFolded | Fault::UnfoldedMeasured | Fault::PlaceOfFormUnwritten => 5,
        // two of them on either side of an and
        Fault::Delta2BySides => 7,
        _ => 4,
    }
}

fn is_found_and_made_small(fault: Fault) {
    let smallest = found(fault);
    assert!(smallest.table.len() <= most_words(fault), "{smallest}");
    // only faults that a wrong header shows have one
    let of_header = matches!(fault, Fault::CountBeforeLimit | Fault::ClassUnread | Fault::KindUnread);
    let right = smallest.table.is_empty() || smallest.table == headed(words(&smallest.table));
    assert!(of_header != right, "{smallest}");
    // two loops of which neither is in step with the other need more
    let loops = matches!(fault, Fault::FirstLoopOnly | Fault::OneRoundOfEach);
    assert!(smallest.samples.len() <= if loops { 4 } else { 1 }, "{smallest}");
    assert!(smallest.others.len() <= if loops { 4 } else { 1 }, "{smallest}");
    assert!(smallest.text.len() <= 2, "{smallest}");
}

#[test]
fn faults_are_found_and_made_small() {
    FAULTS.into_iter().for_each(is_found_and_made_small);
}

/// How often random tables come to a form, in the normal-form step: those that are handed back, of these those with more until-like words
/// than the limit and those in neither Sigma-2 nor Pi-2; and those that are rewritten.
#[derive(Default, Debug)]
struct Forms {
    handed_back: u32,
    over_the_limit: u32,
    between_the_sides: u32,
    rewritten: u32,
}

impl Forms {
    fn count(&mut self, table: &[u32], limits: Limits) {
        match normal_words(table, limits) {
            Ok(None) => {
                self.handed_back += 1;
                self.over_the_limit += u32::from(until_like(words(table)).len() > limits.until_like);
                self.between_the_sides += u32::from(table[0] >> 14 & 0b011_0000 == 0);
            }
            Ok(Some(_)) => self.rewritten += 1,
            Err(_) => {}
        }
    }
}

#[test]
fn rules_inside_and_outside_delta_2_come_up() {
    let (mut plain, mut written) = (Forms::default(), Forms::default());
    for n in 0..2_000 {
        let input = generate::input(&mut Numbers::new(2, n));
        plain.count(&input.table, input.limits);
        if let Ok(form) = plain_words(&input.table, input.limits) {
            let form: Vec<u32> = form.iter().map(|word| word.bits()).collect();
            written.count(&headed(&form), input.limits);
        }
    }
    for forms in [plain, written] {
        assert!(forms.handed_back >= 150 && forms.rewritten >= 80, "{forms:?}");
        assert!(forms.over_the_limit >= 10 && forms.between_the_sides >= 10, "{forms:?}");
    }
}

/// Random and fixed tables come to remainders of one word, of fewer words than the rule, of as many and of more; and to each refusal of a
/// sample.
#[test]
fn remainders_come_up() {
    let (mut constants, mut shorter, mut same, mut longer) = (0, 0, 0, 0);
    let (mut too_many, mut undriven) = (0, 0);
    let random = (0..2_000).map(|n| generate::input(&mut Numbers::new(2, n)));
    for Input { table, sample, driven, .. } in random.chain(fixed::inputs()) {
        match after_words(&table, sample, driven).map(|made| made.len()) {
            Ok(1) => constants += 1,
            Ok(made) => match made.cmp(&words(&table).len()) {
                Ordering::Less => shorter += 1,
                Ordering::Equal => same += 1,
                Ordering::Greater => longer += 1,
            },
            Err(refusal) => {
                too_many += u32::from(refusal.number == 22);
                undriven += u32::from(refusal.number == 21);
            }
        }
    }
    let counts = [constants, shorter, same, longer, too_many, undriven];
    assert!(counts.iter().all(|&count| count >= 100), "{counts:?}");
}

/// What folding comes upon in a form: an operator (of two, or X) with a constant for the left operand, for the right one, or for both.
type Clause = (&'static str, Option<bool>, Option<bool>);

fn clause(forest: &mut Forest, node: Node) -> Option<Clause> {
    let (operator, a, b) = match node {
        Node::And(a, b) => ("&", Some(a), b),
        Node::Or(a, b) => ("|", Some(a), b),
        Node::Until(a, b) => ("U", Some(a), b),
        Node::Weak(a, b) => ("W", Some(a), b),
        Node::Release(a, b) => ("R", Some(a), b),
        Node::Strong(a, b) => ("M", Some(a), b),
        Node::Next(b) => ("X", None, b),
        _ => return None,
    };
    let mut constant = |operand: Tree| {
        let folded = fold(forest, operand);
        match forest.node(folded) {
            Node::False => Some(false),
            Node::True => Some(true),
            _ => None,
        }
    };
    let clause = (operator, a.and_then(&mut constant), constant(b));
    (clause.1.is_some() || clause.2.is_some()).then_some(clause)
}

/// Every clause of folding comes up in random inputs, and so do forms that fold to false, to true, and to true by a part that is not the
/// first.
#[test]
fn clauses_of_folding_come_up() {
    let (mut clauses, mut to_false, mut to_true, mut late) = (BTreeSet::new(), 0, 0, 0);
    for n in 0..3_000 {
        let input = generate::input(&mut Numbers::new(1, n));
        let Ok((mut forest, form)) = unfolded(&input.table, Limits::DESK) else { continue };
        if is_delta_2(words(&input.table)) {
            continue;
        }
        let trees = needed(&forest, form);
        let folded = fold(&mut forest, form);
        match forest.node(folded) {
            Node::False => to_false += 1,
            Node::True => {
                to_true += 1;
                // the first part is the leftmost operand of the or of all parts
                let parts = 1 << until_like(words(&input.table)).len();
                let first = (1..parts).fold(form, |tree, _| match forest.node(tree) {
                    Node::Or(before, _) => before,
                    _ => unreachable!("the parts are joined by or, from the left"),
                });
                late += (fold(&mut forest, first) != folded) as u32;
            }
            _ => {}
        }
        if trees.len() < 300 {
            clauses.extend(trees.into_iter().filter_map(|tree| {
                let node = forest.node(tree);
                clause(&mut forest, node)
            }));
        }
    }
    // X has two; of two operands, each is false, true or no constant, and not both are none
    assert_eq!(clauses.len(), 2 + 6 * 8, "{clauses:?}");
    assert!(to_false >= 20 && to_true >= 20 && late >= 1, "{to_false} to false, {to_true} to true, {late} by a late part");
}
