//! Watching automata: the states, the start and every move of rules of each kind, class and nest; shared words; result slices of exactly the
//! length, one less, and none; every refusal, 28, 6 of the state, 22 and 21 in their order; bits beyond the driven ones; as many states as a
//! word can number, and more; and the longest starts and moves.
use crate::case::{Case, Header, Step, FORM_ROOM};
use crate::delta_2::{INSIDE, OUTSIDE};
use crate::forms::{denied, plain_bits, rooms};
use reference::edges::{alternating, bits_of, chain_of, chain_of_ands, constants, headed, limits_for, over_next};
use reference::rules::rules;
use reference::steps::{is_delta_2, move_words, state_words, Tally};
use reference::word::Word;

pub fn cases() -> Vec<Case> {
    let rules = [small().iter().flat_map(|rule| whole(rule)).collect(), large(), orders()].concat();
    [rules, refused(), driven(), many_states(), long_starts(), long_moves(), of_tables()].concat()
}

fn states(label: &str, words: &[u32], room: usize) -> Case {
    Case::new(&format!("{label}, states, room {room}"), Step::States, words, room)
}

fn moved(label: &str, words: &[u32], state: usize, sample: u32, driven: usize, room: usize) -> Case {
    let label = format!("{label}, move of state {state} by sample {sample:X} of {driven} letters, room {room}");
    Case { desk: state, driven, tally: Tally { judged: sample, held: 0 }, ..Case::new(&label, Step::Move, words, room) }
}

/// The words of a rule's plain form.
fn plain(text: &str) -> Vec<u32> {
    let words = bits_of(text);
    plain_bits(&words, limits_for(&words))
}

/// How many states there are, and how many words a move has; 0 where it is refused or too long for any slice.
fn count(words: &[u32]) -> usize {
    state_words(&headed(words)).map_or(0, |states| states.len())
}

fn move_length(words: &[u32], state: usize, sample: u32) -> usize {
    let made = move_words(&headed(words), state, sample, 32).ok().flatten();
    made.map_or(0, |made| made.len())
}

/// Rules of few words, of which every move is tried.
fn small() -> Vec<String> {
    let mut texts: Vec<String> = ["true", "false", "p1", "!p1", "X p1", "XX !p2", "X true", "X(p1 & p2)", "X(p1 | false)"]
        .map(|text| text.to_string())
        .into();
    for operator in ["&", "|", "U", "W", "R", "M"] {
        for (left, right) in [("p1", "p2"), ("X p1", "p2"), ("!p1", "X p2"), ("p1", "p1"), ("(p1 & X p2)", "(p2 | true)")] {
            texts.push(format!("({left} {operator} {right})"));
        }
    }
    texts.extend(constants());
    // the start: and, or and constants down to the first proper words
    texts.extend(
        [
            "(p1 & true) | (false & p2)",
            "(p1 U p2) & (p1 W p2)",
            "((p1 R p2) | X p1) & ((p1 M p2) | !p1)",
            "(p1 & p1) | (p1 & p1)",
        ]
        .map(|text| text.to_string()),
    );
    // operands of two states under either class of the second level, and of the first
    for inner in ["p1", "X p1", "(p1 & X p2)", "(X X p1 | !p2)"] {
        texts.extend([format!("F G {inner}"), format!("G F {inner}")]);
    }
    texts.extend(["F G(p1 W p2)", "G F(p1 U p2)", "F(p1 & (p2 R X p1))", "G(p1 | (p2 M X p1))"].map(|text| text.to_string()));
    // a word that is in Sigma-2 and Pi-2, and in neither below, has two states, and under a third word one of them counts
    for both in ["X(F p1 | G p2)", "X(F p1 & G p2)", "XX(F p1 | X G p2)", "X((p1 U p2) & (p1 R X p2))"] {
        texts.extend([both.into(), format!("({both} & p1)"), format!("p1 U {both}"), format!("({both}) R X p2")]);
        texts.extend([format!("({both}) W ({both})"), format!("X {both}"), format!("p1 M ({both} | G p2)")]);
    }
    texts.extend(
        [
            // shared words and shared moves
            "(p1 U p2) & X(p1 U p2)",
            "(p1 U p2) U (p1 U p2)",
            "(p1 W p2) R (p1 W p2)",
            "((p1 U p2) U p1) M (p1 U p2)",
            "X p1 U X p1",
            "X X p1 | X p1",
            "(p1 & p1) U (p1 & p1)",
            "G(p1 -> F p2)",
            "G(p1 -> X(p1 U p2))",
            "F(p1 & X G !p2)",
            "(G F p1 & F G p2) | (G F p2 & X p1)",
        ]
        .map(|text| text.to_string()),
    );
    texts
}

/// The states in slices of many lengths; the start and every move by every sample of two letters, and one state past the last; and the
/// start and the last state's move by one sample in slices of the length, of one less, and of no word.
fn whole(rule: &str) -> Vec<Case> {
    let words = plain(rule);
    assert!(is_delta_2(&words), "{rule}");
    let count = count(&words);
    let mut cases: Vec<Case> = rooms(count, FORM_ROOM).into_iter().map(|room| states(rule, &words, room)).collect();
    for state in 0..=count + 1 {
        // the start is written whatever the sample
        let samples = if state == 0 || state > count { 2..3 } else { 0..4 };
        cases.extend(samples.map(|sample| moved(rule, &words, state, sample, 2, FORM_ROOM)));
    }
    let mut ends = vec![0, count];
    ends.dedup();
    for state in ends {
        let length = move_length(&words, state, 1);
        let mut rooms = vec![length, length - 1, 0];
        rooms.dedup();
        cases.extend(rooms.into_iter().map(|room| moved(rule, &words, state, 1, 2, room)));
    }
    cases
}

/// Rules of each kind in Delta-2, by one sample.
fn large() -> Vec<Case> {
    let mut cases = Vec::new();
    for rule in INSIDE {
        let words = plain(rule);
        let count = count(&words);
        cases.extend([count, FORM_ROOM].map(|room| states(rule, &words, room)));
        for state in 0..=count {
            let sample = (0x9E37_79B9u32 >> (state % 29)) & 7;
            let length = move_length(&words, state, sample);
            cases.push(moved(rule, &words, state, sample, 4, length));
        }
    }
    // 28, whatever the rest
    for rule in OUTSIDE {
        let words = plain(rule);
        cases.extend([FORM_ROOM, 0].map(|room| states(rule, &words, room)));
        cases.extend([(0, 32), (1, 32), (999, 33), (1, 0)].map(|(state, driven)| moved(rule, &words, state, 1, driven, 9)));
    }
    cases
}

/// Words in another order than that of first need: states go by the table's, and moves are numbered anew.
fn orders() -> Vec<Case> {
    let (p1, p2) = (0x30000001, 0x30000002);
    let tables: [(&str, &[u32]); 4] = [
        ("p1 U p2, p2 first", &[p2, p1, 0x80008001]),
        ("(p2 R p1) and X p1", &[p1, 0x70000001, p2, 0xA000C001, 0x50010002]),
        ("G(p1 U p2), p2 first", &[p2, p1, 0x80008001, 0x10000000, 0xA0010003]),
        ("X p2 or (p1 and true), true first", &[0x20000000, p1, p2, 0x70000003, 0x50008001, 0x60010005]),
    ];
    let mut cases = Vec::new();
    for (label, words) in tables {
        let count = count(words);
        cases.push(states(label, words, count));
        for (state, sample) in (0..=count).flat_map(|state| (0..4).map(move |sample| (state, sample))) {
            cases.push(moved(label, words, state, sample, 2, move_length(words, state, sample)));
        }
    }
    cases
}

fn refused() -> Vec<Case> {
    let (p1, p2) = (0x30000001, 0x30000002);
    let mut cases = Vec::new();
    let tables: [(&str, Vec<u32>); 15] = [
        ("no word", vec![]),
        ("3", vec![0]),
        ("4 before 8", vec![p1, 0xC0004001]),
        ("5", vec![p1, 0x80004000]),
        ("6 of an operand", vec![p1, 0x80008001]),
        ("7", vec![0x30000021]),
        ("8", vec![p1, 0x70004001]),
        ("9", vec![p1, p1]),
        ("10", vec![p1, p2]),
        ("X p1", vec![p1, 0x70000001]),
        ("F p2", vec![0x20000000, p2, 0x80004002]),
        ("constants", vec![0x20000000, 0x10000000, 0xB0004002]),
        ("no state", vec![0x20000000, 0x10000000, 0x60004002]),
        ("28, F G F p1", plain("F G F p1")),
        ("28, three by turns", alternating(10, 3)),
    ];
    for (label, words) in tables {
        cases.extend([9, 1, 0].map(|room| states(label, &words, room)));
        let count = count(&words);
        for state in [0, 1, count, count + 1, u32::MAX as usize] {
            for (driven, room) in [(0, 9), (33, 9), (1, 0), (2, 0)] {
                cases.push(moved(label, &words, state, 1, driven, room));
            }
        }
    }
    for kind in 1..16 {
        let (label, words) = (format!("kind {kind}"), denied(kind, 0));
        cases.push(states(&label, &words, 9));
        cases.extend([0, 1, 5, 6].map(|state| moved(&label, &words, state, 3, 2, 9)));
    }
    // 23 and 24 before 28, 6, 22, 21 and 12
    for header in [0, 0x001F8001, 0x001F8003, 0x001FC002, 0x101F8002] {
        let (label, words) = (format!("X p1 under header {header:08X}"), [p1, 0x70000001]);
        for case in [states(&label, &words, 0), moved(&label, &words, 9, 1, 33, 0)] {
            cases.push(Case { header: Header::Other(header), ..case });
        }
    }
    let outside = plain("F G F p1");
    for header in [0x00100006, 0x001FC006, 0x00000006] {
        let label = format!("F G F p1 under header {header:08X}");
        for case in [states(&label, &outside, 0), moved(&label, &outside, 9, 1, 33, 0)] {
            cases.push(Case { header: Header::Other(header), ..case });
        }
    }
    for case in [states("empty slice", &[], 0), moved("empty slice", &[], 9, 1, 33, 0)] {
        cases.push(Case { header: Header::None, ..case });
    }
    cases
}

/// Counts at the edges, and bits above the count that are 0, 1 and mixed; the start, which no sample decides, by the same counts.
fn driven() -> Vec<Case> {
    // p31 U not p32; p3 or (p2 or not p4), of which the lowest letter above the count is not that of the lowest word; G F p5
    let highest = vec![0x3000001F, 0x40000020, 0x80004002];
    let lowest = vec![0x30000003, 0x30000002, 0x40000004, 0x60008003, 0x60004004];
    let again = plain("G F p5");
    let mut cases = Vec::new();
    for (name, words) in [("p31 U not p32", highest), ("p3 p2 p4", lowest), ("G F p5", again)] {
        let count = count(&words);
        for driven in [0, 2, 3, 4, 5, 31, 32, 33, u32::MAX as usize] {
            let above = if driven < 32 { u32::MAX << driven } else { 0 };
            cases.extend([0, count + 1].map(|state| moved(name, &words, state, above, driven, 9)));
            for sample in [0x9E37_79B9, !above, above] {
                cases.push(moved(name, &words, count, sample, driven, 9));
            }
        }
    }
    // every letter by its own bit
    for letter in 1..=32 {
        let words = [Word::new(3, 0, letter).bits()];
        let bit = 1u32 << (letter - 1);
        cases.extend([(1, bit), (2, !bit)].map(|(state, sample)| moved(&format!("p{letter}"), &words, state, sample, letter, 1)));
    }
    cases
}

/// Chains of X words, of which each has two states: 16,382 of them, with a word of one state 16,383, and more than can be numbered.
fn many_states() -> Vec<Case> {
    let mut cases = Vec::new();
    let mut of = |chain: usize, listed: &[Word], rooms: &[usize], moves: &[(usize, usize)]| {
        let label = format!("{} words, a chain of {chain}", chain + listed.len());
        let listed: Vec<u32> = listed.iter().map(|word| word.bits()).collect();
        cases.extend(rooms.iter().map(|&room| Case { chain, ..states(&label, &listed, room) }));
        cases.extend(moves.iter().map(|&(state, room)| Case { chain, ..moved(&label, &listed, state, 1, 1, room) }));
    };
    of(8_191, &[], &[FORM_ROOM, 16_384, 16_382, 16_381, 0], &[(0, 9), (1, 9), (16_381, 9), (16_382, 1), (16_383, 9)]);
    for kind in 8..12 {
        let last = [Word::new(kind, 8_191, 8_190)];
        of(8_191, &last, &[FORM_ROOM, 16_383, 16_382], &[(0, 1), (0, 0), (16_382, 9), (16_383, 5), (16_383, 4), (16_384, 9)]);
        of(8_191, &[Word::new(kind, 8_191, 8_191)], &[16_383], &[(16_383, 4), (16_383, 3)]);
        // and two of one state
        let more = [Word::new(kind, 8_191, 8_190), Word::new(kind, 8_192, 8_192)];
        of(8_191, &more, &[FORM_ROOM, 0], &[(0, 9), (1, 9), (16_384, 9), (16_385, 9)]);
    }
    // both states of a word are in its or
    of(8_191, &[Word::new(5, 8_191, 8_191)], &[16_382], &[(0, 4), (0, 3), (16_382, 1)]);
    of(8_192, &[], &[FORM_ROOM, 16_384, 16_383], &[(0, 9), (1, 0), (16_384, 9), (16_385, 9)]);
    of(16_383, &[], &[FORM_ROOM, 16_384, 0], &[(0, 9), (1, 9), (20_000, 9), (32_766, 9), (32_767, 9)]);
    of(16_384, &[], &[FORM_ROOM], &[(0, 9), (1, 9)]);
    for (states_of, words) in [(64, 32), (66, 33), (512, 256), (514, 257)] {
        of(words, &[], &[states_of, states_of - 1], &[(states_of, 1), (states_of + 1, 1)]);
    }
    cases.extend([0, 33].map(|driven| Case { chain: 8_191, ..moved("8191 words", &[], 16_382, 1, driven, 0) }));
    cases.extend([0, 33].map(|driven| Case { chain: 16_383, ..moved("16383 words", &[], 32_767, 1, driven, 0) }));
    cases.extend([0, 33].map(|driven| Case { chain: 16_383, ..moved("16383 words", &[], 32_766, 1, driven, 0) }));
    cases
}

/// Ands, each of the word before with itself, over a letter: the start has its two states and their or, and every and; X over them moves to
/// those and ands of one state.
fn long_starts() -> Vec<Case> {
    let mut cases = Vec::new();
    for (ands, room) in [(16_380, 16_383), (16_380, 16_382), (16_381, FORM_ROOM)] {
        cases.push(moved(&format!("{ands} ands"), &chain_of_ands(ands), 0, 0, 1, room));
    }
    cases.extend([2, 1].map(|room| states("16382 ands", &chain_of_ands(16_382), room)));
    for ands in [60, 510, 511] {
        cases.extend([3, 2].map(|less| moved(&format!("{ands} ands"), &chain_of_ands(ands), 0, 0, 1, ands + less)));
    }
    let next = [chain_of_ands(16_381), vec![Word::new(7, 0, 16_382).bits()]].concat();
    cases.extend([(4, 16_382), (3, 16_381), (0, 3)].map(|(state, room)| moved("X over 16381 ands", &next, state, 0, 1, room)));
    cases
}

/// Until-like words, each over the word before: a move has three words for each of them.
fn long_moves() -> Vec<Case> {
    let mut cases = Vec::new();
    for kind in 8..12 {
        for k in [20, 62, 63, 508, 510] {
            let (label, words) = (format!("{k} words of kind {kind}"), chain_of(kind, k));
            let count = count(&words);
            cases.push(states(&label, &words, count));
            for (state, sample) in [(count, 0), (count, 1), (count / 2, 3), (0, 0)] {
                let length = move_length(&words, state, sample);
                cases.extend([length, length - 1].map(|room| moved(&label, &words, state, sample, 2, room)));
            }
        }
        for k in [62, 510] {
            let (label, words) = (format!("{k} words of kind {kind} over X"), over_next(kind, k));
            let length = move_length(&words, k + 4, 0);
            cases.extend([length, length - 1].map(|room| moved(&label, &words, k + 4, 0, 1, room)));
        }
    }
    // each word of U, R and so on has its state, an and and an or beside the one word of X: 16,381 words, then with two junctions 16,383
    // and with three one more
    for (kind, junctions, room) in [(8, 0, 16_381), (10, 0, 16_380), (9, 2, 16_383), (11, 2, 16_382), (8, 3, FORM_ROOM)] {
        let k = 5_459;
        let mut words = over_next(kind, k);
        let last = words.len();
        // an and over X, and ors over that
        words.extend((0..junctions).map(|n| Word::new(5 + (n > 0) as u32, 2, if n == 0 { 2 } else { last + n }).bits()));
        let goal = if junctions == 0 { 2 } else { words.len() };
        words.push(Word::new(kind, last, goal).bits());
        let label = format!("{} words of kind {kind} over X, the last over {junctions} junctions", k + 1);
        cases.push(moved(&label, &words, k + 5, 0, 1, room));
    }
    let words = over_next(9, 5_461);
    cases.extend(
        [(0, 1), (5_464, FORM_ROOM), (5_465, FORM_ROOM)]
            .map(|(state, room)| moved("5461 words of kind 9 over X", &words, state, 0, 1, room)),
    );
    cases
}

/// Each rule of source 000's tables, and its negation: its states, its start and one move, or 28.
fn of_tables() -> Vec<Case> {
    let of_rule = |(n, (name, words)): (usize, (String, Vec<u32>))| {
        let words = plain_bits(&words, limits_for(&words));
        let (count, sample) = (count(&words), (n as u32).wrapping_mul(0x9E37_79B1));
        let state = if count == 0 { 1 } else { count - n % count.min(5) };
        let moves = [0, state].map(|state| moved(&name, &words, state, sample, 32, move_length(&words, state, sample)));
        [vec![states(&name, &words, count)], moves.into()].concat()
    };
    rules().into_iter().enumerate().flat_map(of_rule).collect()
}
