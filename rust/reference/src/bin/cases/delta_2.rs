//! Rules already in the form (document 02, N11): plain tables of every kind just inside Delta-2 and just outside it, in any order of their
//! words. Inside, the table is its own form, whatever the limit on until-like words and the result, which keeps its words; outside it is
//! rewritten, and both count. Tables that are refused are refused in either case.
use crate::case::{Case, Header, Step, FORM_ROOM, PLAIN_ROOM};
use crate::forms::{in_result, plain_bits};
use reference::checks::until_like;
use reference::edges::{bits_of, headed};
use reference::limits::Limits;
use reference::steps::is_delta_2;
use reference::word::Word;

/// Rules of which the last word is of each kind, 1 to 11 in turn.
pub const INSIDE: [&str; 22] = [
    "false",
    "true",
    "p1",
    "!p1",
    "GF p1 & FG p2",
    "(GF p1 & FG p2) & (GF p3 | X FG p1)",
    "GF p1 | FG p2",
    "(G p1 U F p2) | (F p1 W G p2)",
    "X GF p1",
    "X FG p1",
    "X(F p1 | G p1)",
    "p1 U G p2",
    "(G p1) U (p2 W p3)",
    "(X F p1) U (G p2 & F p3)",
    "F p1 W p2",
    "(p1 M p2) W (p3 U p4)",
    "(G p1 | F p1) W X F p2",
    "G F p1",
    "(F p1 & G p2) R F p3",
    "F G p1",
    "G p1 M p2",
    "(G p1 & F p2) M (p3 R p4)",
];

pub const OUTSIDE: [&str; 16] = [
    "p2 & FGF p1",
    "(GF p1 & FG p2) & X(GF p1 & FG p2)",
    "FGF p1 | p2",
    "X(GF p1 & FG p2)",
    "X(GF p1 | FG p2)",
    "X FGF p1",
    "p1 U GF p2",
    "(GF p1) U p2",
    "(GF p1 & FG p2) U p3",
    "p1 W FG p2",
    "(FG p1 | GF p2) W p3",
    "G FG p1",
    "(FG p1) R p2",
    "p1 R (FG p2 & GF p3)",
    "(GF p1) M p2",
    "p1 M (GF p2 | FG p1)",
];

pub fn cases() -> Vec<Case> {
    let inside = INSIDE.iter().flat_map(|text| inside(text));
    inside.chain(OUTSIDE.iter().flat_map(|text| outside(text))).chain(orders()).chain(refused()).collect()
}

fn house(until_like: usize) -> Limits {
    Limits { until_like, ..Limits::DESK }
}

/// The normal form of a plain table, and the whole way of a rule, under a limit on until-like words.
fn normal(label: &str, words: &[u32], until_like: usize, room: usize) -> Case {
    Case::new(&format!("{label}, normal form, room {room}"), Step::Normal, words, room).within(house(until_like))
}

fn whole(label: &str, words: &[u32], until_like: usize, room: usize, second: usize) -> Case {
    let case = Case::new(&format!("{label}, whole way, rooms {room} and {second}"), Step::Form, words, room);
    Case { second, ..case.within(house(until_like)) }
}

/// No until-like word is allowed, and slices of no word, of one, of one less than the table, and of more are lent.
fn inside(text: &str) -> Vec<Case> {
    let words = bits_of(text);
    let plain = plain_bits(&words, Limits::DESK);
    assert!(is_delta_2(&plain), "{text}");
    let (label, length) = (format!("{text}, in Delta-2"), 1 + plain.len());
    let mut rooms = vec![0, 1, length - 1, FORM_ROOM];
    rooms.dedup();
    let mut cases: Vec<Case> = rooms.into_iter().map(|room| normal(&label, &plain, 0, room)).collect();
    cases.extend([(length, 0), (PLAIN_ROOM, 5), (length - 1, 5)].map(|(room, second)| whole(&label, &words, 0, room, second)));
    cases
}

/// As many until-like words are allowed as there are, and one fewer, with slices of the form's length, of one less, and of no word.
fn outside(text: &str) -> Vec<Case> {
    let words = bits_of(text);
    let plain = plain_bits(&words, Limits::DESK);
    assert!(!is_delta_2(&plain), "{text}");
    let (label, own) = (format!("{text}, outside Delta-2"), until_like(&plain).len());
    let length = in_result(&plain, house(own));
    let mut cases = Vec::new();
    for room in [length, length - 1, 0] {
        cases.extend([own, own - 1].map(|limit| normal(&label, &plain, limit, room)));
        cases.extend([own, own - 1].map(|limit| whole(&label, &words, limit, 1 + plain.len(), room)));
    }
    cases
}

/// Words in another order than that of first need, which a form that is the table keeps.
fn orders() -> Vec<Case> {
    let (p1, p2) = (Word::new(3, 0, 1), Word::new(3, 0, 2));
    let inside = [p2, p1, Word::new(8, 2, 1), Word::new(1, 0, 0), Word::new(10, 4, 3)];
    let outside = [&inside[..], &[Word::new(2, 0, 0), Word::new(8, 6, 5)]].concat();
    let bits = |words: &[Word]| words.iter().map(|word| word.bits()).collect::<Vec<u32>>();
    let tables = [("G(p1 U p2), p2 first", bits(&inside)), ("FG(p1 U p2), p2 first", bits(&outside))];
    let rooms = |(label, words): &(&str, Vec<u32>)| [FORM_ROOM, 0].map(|room| normal(label, words, 8, room));
    let ways = |(label, words): &(&str, Vec<u32>)| [FORM_ROOM, 0].map(|room| whole(label, words, 8, PLAIN_ROOM, room));
    tables.iter().flat_map(|table| [rooms(table), ways(table)].concat()).collect()
}

/// Tables whose last word would be in Delta-2, by each check of a table, with no word of a result.
fn refused() -> Vec<Case> {
    let (p1, next) = (0x30000001, 0x70000001);
    let always = plain_bits(&bits_of("G p1"), Limits::DESK);
    let theirs = |words: &[u32]| Header::Other(headed(words)[0]);
    let tables = [
        ("no word", Header::None, vec![]),
        ("count 0", Header::Other(0), vec![p1]),
        ("131 words counted", Header::Other(0x001F8083), vec![p1, next]),
        ("count 1, 2 words", Header::Other(0x001F8001), vec![p1, next]),
        ("kind 0", Header::Other(0x001F8002), vec![0, next]),
        ("kind 12", Header::Other(0x001F8003), vec![p1, 0xC0000001, 0x70000002]),
        ("operand 0", Header::Other(0x001F8002), vec![p1, 0x70000000]),
        ("operand itself", Header::Other(0x001F8002), vec![p1, 0x70000002]),
        ("letter 33", Header::Other(0x001F8002), vec![0x30000021, next]),
        ("field not 0", Header::Other(0x001F8002), vec![p1, 0x70004001]),
        ("same word", Header::Other(0x001F8003), vec![p1, p1, next]),
        ("unused word", Header::Other(0x001F8003), vec![p1, 0x30000002, next]),
        ("class 0", Header::Other(0x00000002), vec![p1, next]),
        ("class 3E", Header::Other(0x000F8002), vec![p1, next]),
        ("kind 1 of the header", Header::Other(0x101F8002), vec![p1, next]),
        ("X p1", Header::Other(0x001F8002), vec![p1, next]),
        ("G p1", theirs(&always), always),
    ];
    let case = |(label, header, words): (&str, Header, Vec<u32>)| {
        [0, 20]
            .map(|room| Case { header: header.clone(), ..normal(&format!("{label}, checked before its class"), &words, 0, room) })
    };
    tables.into_iter().flat_map(case).collect()
}
