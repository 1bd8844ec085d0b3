//! The watching automaton of a rule: its states, its start and its moves.
use crate::refusal::Call;
use crate::{ffi, Refusal, MOST_DRIVEN, MOST_WORDS};

/// What the word of a state says. States are numbered from 1, in the order of their words.
#[derive(Clone, Copy, PartialEq, Eq, Debug)]
pub struct State {
    /// Whether a run may stay in it for ever: its class is a Pi class.
    pub accepting: bool,
    /// The bit number of its class in the class byte: 1 Sigma-1, 2 Pi-1, 4 Sigma-2, 5 Pi-2.
    pub class: u32,
    /// The number of its word in the table, counted from 1.
    pub word: usize,
}

impl State {
    /// Of one of the words that [`states`] writes.
    pub const fn of(word: u32) -> State {
        State { accepting: word >> 28 == 1, class: word >> 14 & 0x3FFF, word: (word & 0x3FFF) as usize }
    }
}

/// The states of the automaton that watches a rule, a plain table in Delta-2 of up to 16,383 words: the front part of `result`, a word for
/// each state ([`State::of`]), without a header. Its states are the words that are neither constant, and, nor or, each with every smallest
/// one of the classes Sigma-1, Pi-1, Sigma-2 and Pi-2 that hold it, so that a word has one or two; they stand in rising word, then class
/// bit. What stands past them stays. There are at most twice as many as words, and over 16,383 are refused as 12, whatever the slice.
/// Refused as 12, every word of the slice is 0; refused otherwise, it is as it was.
///
/// The automaton begins in [`start`], and goes on by [`moved`]. It accepts a looped recording exactly if the rule holds at moment 0, and on
/// any path changes between accepting and other states at most once.
///
/// ```
/// use showrule::State;
/// // F p1: letter 1 has two states, and F p1 one
/// let finally = [0x001E_8003, 0x2000_0000, 0x3000_0001, 0x8000_4002];
/// let mut result = [0; 6];
/// let states = showrule::states(&finally, &mut result)?;
/// assert_eq!(states, [0x0000_4002, 0x1000_8002, 0x0000_4003]);
/// assert_eq!(State::of(states[1]), State { accepting: true, class: 2, word: 2 });
///
/// // from F p1 a move leads to F p1 itself, state 3, until p1 comes: false or (true and state 3)
/// let mut result = [0; 5];
/// let step = showrule::moved(&finally, 3, 0, 1, &mut result)?;
/// assert_eq!(step, [0x1000_0000, 0x2000_0000, 0x3000_0003, 0x5000_8003, 0x6000_4004]);
/// assert_eq!(showrule::start(&finally, &mut result)?, [0x3000_0003]);
/// # Ok::<(), showrule::Refusal>(())
/// ```
pub fn states<'a>(table: &[u32], result: &'a mut [u32]) -> Result<&'a [u32], Refusal> {
    let (mut states, mut place) = (0, 0);
    let number =
        unsafe { ffi::showrule_states(table.as_ptr(), table.len(), result.as_mut_ptr(), result.len(), &mut states, &mut place) };
    Call { table, limit: MOST_WORDS, room: result.len(), ..Call::default() }.answer(number, place)?;
    Ok(&result[..states])
}

/// The start of the automaton ([`states`]): the rule's own and, or and constants down to its first words that are neither, each the or of
/// its states. It is the front part of `result`, written as a move is ([`moved`]), and refused alike.
pub fn start<'a>(table: &[u32], result: &'a mut [u32]) -> Result<&'a [u32], Refusal> {
    moved(table, 0, 0, MOST_DRIVEN, result)
}

/// The move of a state of the automaton ([`states`]), counted from 1, on a sample that drives letters 1 to `driven`: the front part of
/// `result`, a table without a header of kinds 1, 2, 5, 6 and, for a state, 3 with its number. It is the step of [`after`](crate::after),
/// not folded, in which each first word of an operand that is neither constant, and, nor or stands as the or of those of its states whose
/// class is the state's own or lies within it, Sigma left of Pi. What stands past it stays. A table of n words has moves of at most 7 n + 7.
/// The bits of the sample above the driven ones are never looked at. State number 0 is the start, whatever the sample; a number past the
/// last is refused as 6 at place 0. Refused as 12, every word of the slice is 0; refused otherwise, it is as it was. More than 16,383 states
/// or words are refused as 12, whatever the slice. A table of over 512 words takes some 529 KB of stack, and one of over 4,096 some 1,681.
pub fn moved<'a>(table: &[u32], state: usize, sample: u32, driven: usize, result: &'a mut [u32]) -> Result<&'a [u32], Refusal> {
    let (mut words, mut place) = (0, 0);
    let number = unsafe {
        ffi::showrule_move(
            table.as_ptr(),
            table.len(),
            state,
            sample,
            driven,
            result.as_mut_ptr(),
            result.len(),
            &mut words,
            &mut place,
        )
    };
    Call { table, limit: MOST_WORDS, room: result.len(), driven, state, ..Call::default() }.answer(number, place)?;
    Ok(&result[..words])
}
