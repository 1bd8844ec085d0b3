//! Folding, of rules outside Delta-2: every clause over letters, under every operator; forms that fold to a constant; slices that hold the
//! folded form and not the unfolded one, and slices a word too short for either. In Delta-2 no constant is folded.
use crate::case::{Case, Step, FORM_ROOM, PLAIN_ROOM};
use crate::forms::plain_bits;
use reference::edges::{bits_of, constant_forms, constants, headed, limits_for, long_unfolded, over_constants};
use reference::listing::list;
use reference::steps::{rewritten_words, unfolded};

pub fn cases() -> Vec<Case> {
    let mut cases: Vec<Case> = constants().iter().map(|text| whole(text, &bits_of(text), 1)).collect();
    for (label, words) in over_constants(&["p2"]) {
        let length = Lengths::of(&words).folded;
        cases.extend([length, length - 1].map(|room| whole(&label, &words, room)));
    }
    let rules = ["FGF p1", "FG(p1 -> F p2)", "FG(p1 U p2)", "((p1 R p2) W (p3 M p4)) U p5"];
    let rules = rules.map(|text| (text.to_string(), bits_of(text)));
    let long = long_unfolded().into_iter().map(|(n, words)| (format!("form of {n} words before it is folded"), words));
    for (label, words) in constant_forms().into_iter().chain(rules).chain(long) {
        let Lengths { folded, unfolded } = Lengths::of(&words);
        let mut rooms = vec![0, 1, folded - 1, folded, folded + 1, unfolded - 1, unfolded, FORM_ROOM];
        rooms.sort();
        rooms.dedup();
        cases.extend(rooms.iter().flat_map(|&room| [whole(&label, &words, room), normal(&label, &words, room)]));
    }
    cases
}

/// The length of the form, and the length that it has before it is folded.
struct Lengths {
    folded: usize,
    unfolded: usize,
}

impl Lengths {
    fn of(words: &[u32]) -> Lengths {
        let limits = limits_for(words);
        let plain = headed(&plain_bits(words, limits));
        let (forest, form) = unfolded(&plain, limits).expect("a form");
        let folded = 1 + rewritten_words(&plain, limits).expect("a form").len();
        Lengths { folded, unfolded: 1 + list(&forest, form).len() }
    }
}

fn whole(label: &str, words: &[u32], room: usize) -> Case {
    let case = Case::new(&format!("{label}, whole way, folded, room {room}"), Step::Form, words, PLAIN_ROOM);
    Case { second: room, ..case.within(limits_for(words)) }
}

fn normal(label: &str, words: &[u32], room: usize) -> Case {
    let limits = limits_for(words);
    let label = format!("{label}, normal form, folded, room {room}");
    Case::new(&label, Step::Normal, &plain_bits(words, limits), room).within(limits)
}
