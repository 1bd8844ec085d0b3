//! Judging and the row call: a rule of all fifteen kinds over recordings of many lengths and loop starts; refusals 13 to 17, 21, 22 and 26,
//! and their order; driven counts at their edges, with bits beyond them set; desks at the edges of their number.
use crate::case::{Case, Samples, Step};
use reference::steps::Tally;

/// A rule of all fifteen kinds.
const RULE: [u32; 32] = [
    0x30000001, 0x30000002, 0x30000003, 0x40000001, 0x10000000, 0x20000000, 0x50004003, 0x60008004, 0x70000008, 0x80004002,
    0x90004002, 0xA0008001, 0xB0008001, 0xC0000007, 0xD0000002, 0xE0000001, 0xF000C009, 0x8004400D, 0x9003800A, 0xA002C008,
    0xB002400C, 0xE000000F, 0xD0000010, 0x70000012, 0x50060013, 0x60064014, 0x80068015, 0xA001401B, 0x60070016, 0xF005C01D,
    0x50078006, 0x5007C013,
];

/// Samples and loop starts: at 0, in the middle, at word edges, at the last sample, and past it.
const RECORDINGS: [(usize, &[usize]); 8] = [
    (1, &[0]),
    (63, &[0, 31, 62]),
    (64, &[0, 32, 63]),
    (65, &[0, 32, 63, 64]),
    (127, &[0, 63, 64, 126]),
    (128, &[0, 63, 64, 127]),
    (4095, &[0, 2047, 2048, 4094]),
    (4096, &[0, 2047, 2048, 4032, 4095, 4096]),
];

pub fn cases() -> Vec<Case> {
    let mut cases = Vec::new();
    for (count, starts) in RECORDINGS {
        for &start in starts {
            let samples = Samples::Made(count, (count * 8192 + start) as u32);
            let label = format!("{count} samples, loop start {start}");
            cases.extend(both(&label, &RULE, samples, start, 32, 2_100, Tally { judged: 7, held: 3 }));
        }
    }
    cases.extend(refused());
    cases.extend(driven());
    cases.extend(desks());
    cases
}

const ALWAYS: [u32; 2] = [0x30000001, 0xE0000001];

/// A name, the table's words, how many samples, the loop start, the driven count, the room and the tally.
type Row<'a> = (&'a str, &'a [u32], usize, usize, usize, usize, Tally);

fn tally(judged: u32, held: u32) -> Tally {
    Tally { judged, held }
}

fn refused() -> Vec<Case> {
    let rows: [Row; 20] = [
        ("13", &ALWAYS, 0, 0, 1, 100, tally(5, 2)),
        ("14", &ALWAYS, 4097, 0, 1, 200, tally(5, 2)),
        ("15", &ALWAYS, 65, 65, 1, 100, tally(5, 2)),
        ("not 15", &ALWAYS, 65, 64, 1, 4, tally(5, 2)),
        ("16", &ALWAYS, 65, 64, 1, 3, tally(5, 2)),
        ("17, full", &ALWAYS, 65, 0, 1, 100, tally(u32::MAX, 2)),
        ("17, more held", &ALWAYS, 65, 0, 1, 100, tally(5, 6)),
        ("not 17", &ALWAYS, 65, 0, 1, 100, tally(u32::MAX - 1, u32::MAX - 1)),
        ("21", &ALWAYS, 65, 0, 0, 100, tally(5, 2)),
        ("22", &ALWAYS, 65, 0, 33, 100, tally(5, 2)),
        ("table before 13", &ALWAYS[1..], 0, 0, 1, 0, tally(5, 2)),
        ("table before 22", &ALWAYS[1..], 65, 0, 33, 100, tally(5, 2)),
        ("13 before 22", &ALWAYS, 0, 0, 33, 100, tally(5, 2)),
        ("14 before 22", &ALWAYS, 4097, 0, 33, 200, tally(5, 2)),
        ("15 before 22", &ALWAYS, 65, 65, 33, 100, tally(5, 2)),
        ("15 before 21", &ALWAYS, 65, 65, 0, 100, tally(5, 2)),
        ("15 before 16", &ALWAYS, 65, 70, 1, 0, tally(5, 2)),
        ("22 before 16", &ALWAYS, 65, 0, 33, 0, tally(5, 6)),
        ("21 before 16", &ALWAYS, 65, 0, 0, 0, tally(5, 6)),
        ("16 before 17", &ALWAYS, 65, 0, 1, 0, tally(5, 6)),
    ];
    let case = |&(label, table, count, start, driven, room, tally): &Row| {
        both(label, table, Samples::Listed(vec![1; count]), start, driven, room, tally)
    };
    rows.iter().flat_map(case).collect()
}

/// Counts at the edges: constants alone, letters 1, 31 and 32, and a not letter; 21 at the lowest word; samples that differ beyond
/// the count alone, which are judged alike.
fn driven() -> Vec<Case> {
    let constant: &[u32] = &[0x20000000, 0xE0000001];
    let highest: &[u32] = &[0x3000001F, 0x40000020, 0x50004002];
    // p3 or (p2 or not p4): the lowest letter above the count is not that of the lowest word
    let lowest: &[u32] = &[0x30000003, 0x30000002, 0x40000004, 0x60008003, 0x60004004];
    let mut cases = Vec::new();
    for (name, table) in
        [("constant", constant), ("p1", &ALWAYS[..1]), ("G p1", &ALWAYS), ("p31 and not p32", highest), ("p3 p2 p4", lowest)]
    {
        for driven in [0, 1, 2, 3, 4, 30, 31, 32, 33, 34, u32::MAX as usize] {
            // the bits beyond the count are 0, 1 or some of each
            for (undriven, beyond) in [("0", 0), ("1", u32::MAX), ("mixed", 0x9E37_79B9)] {
                let mask = if driven < 32 { u32::MAX << driven } else { 0 };
                let samples = [0, 0x8000_0001, 0xFFFF_FFFF, 0x4000_0000, 5].map(|s: u32| s & !mask | beyond & mask);
                let label = format!("{name}, {driven} driven, bits beyond them {undriven}");
                cases.extend(both(&label, table, Samples::Listed(samples.to_vec()), 2, driven, 20, tally(5, 2)));
            }
        }
    }
    cases
}

/// Desks at the edges of their number: 26 before 17 and after 16, and a full tally of another desk, which is not looked at.
fn desks() -> Vec<Case> {
    let mut cases = Vec::new();
    for (desks, desk) in
        [(0, 0), (0, 1), (1, 0), (1, 1), (1, u32::MAX as usize), (2, 0), (2, 1), (2, 2), (4_096, 4_095), (4_096, 4_096)]
    {
        for (name, room, tally) in [("", 4, tally(5, 2)), (", full", 4, tally(u32::MAX, 2)), (", 16", 3, tally(5, 6))] {
            let label = format!("desk {desk} of {desks}{name}");
            let judged = both(&label, &ALWAYS, Samples::Listed(vec![1; 65]), 64, 1, room, tally);
            cases.extend(judged.map(|case| Case { desks, desk, ..case }));
        }
    }
    cases
}

/// The judge, and the row call.
fn both(label: &str, table: &[u32], samples: Samples, start: usize, driven: usize, room: usize, tally: Tally) -> [Case; 2] {
    [(Step::Judge, "judge"), (Step::Row, "row")].map(|(step, name)| Case {
        samples: samples.clone(),
        start,
        driven,
        tally,
        ..Case::new(&format!("{label}, {name}"), step, table, room)
    })
}
