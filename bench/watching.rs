// A rule followed sample by sample, and the automaton that watches it: a step, the states, and the moves.
use crate::hashmap::is_delta_2;
use crate::library;
use crate::rules::Rule;
use crate::shapes::{over_letters, SIGMA};
use crate::timing::least;
use std::hint::black_box;

// The longest slice that counts.
pub const ROOM: usize = 16384;

// The sample: every second letter, from letter 1.
pub const SAMPLE: u32 = 0x5555_5555;

pub fn figures(rules: &[Rule]) {
    let plain: Vec<Vec<u32>> = rules.iter().map(plain_form).collect();
    followed(&plain);
    watched(plain.into_iter().filter(|table| is_delta_2(&table[1..])).collect());
    growth();
}

fn plain_form(rule: &Rule) -> Vec<u32> {
    let mut plain = vec![0; 131];
    let length = library::plain_form(&rule.table, &mut plain).expect("the rules of source 000 have plain forms");
    plain.truncate(length);
    plain
}

fn followed(tables: &[Vec<u32>]) {
    let mut result = vec![0; ROOM];
    let times = tables.iter().map(|table| least(|| library::after(black_box(table), SAMPLE, 32, &mut result))).collect();
    println!("a step by a sample, the plain forms of {} rules: {}", tables.len(), spread(times));
}

// Of each table the states, and the mean move of its states.
fn watched(tables: Vec<Vec<u32>>) {
    let (mut states, mut moves, mut counts) = (Vec::new(), Vec::new(), Vec::new());
    let mut result = vec![0; ROOM];
    for table in &tables {
        let count = library::states(table, &mut result).expect("it is in Delta-2");
        states.push(least(|| library::states(black_box(table), &mut result)));
        moves.push(least(|| moved_by_all(table, count, &mut result)) / count.max(1) as f64);
        counts.push(count);
    }
    counts.sort_unstable();
    let (low, middle, high) = (counts[0], counts[counts.len() / 2], counts[counts.len() - 1]);
    println!("the states, the plain forms of {} rules, {low} to {high} states, {middle} in the median: {}", tables.len(), spread(states));
    println!("a move, the mean of a table's states: {}", spread(moves));
}

fn moved_by_all(table: &[u32], count: usize, result: &mut [u32]) {
    for state in 1..=count {
        library::moved(black_box(table), state, SAMPLE, 32, result).expect("the slice is long enough");
    }
}

pub fn spread(mut times: Vec<f64>) -> String {
    times.sort_by(f64::total_cmp);
    format!("{:.0} to {:.0} ns, {:.0} in the median", times[0], times[times.len() - 1], times[times.len() / 2])
}

// Tables in Sigma-1 over eight letters. What remains, and a move, may have several words for each of the table's.
fn growth() {
    let mut result = vec![0; ROOM];
    for n in [64, 1024, 8190] {
        let table = over_letters(8, n, &SIGMA);
        let ns = |t: f64| t / n as f64;
        let step = library::after(&table, SAMPLE, 32, &mut result);
        let t = least(|| library::after(black_box(&table), SAMPLE, 32, &mut result));
        println!("a step by a sample, {n} words to {}: {:.1} ns a word", made(step.map(|length| length - 1)), ns(t));
        let states = library::states(&table, &mut result);
        let t = least(|| library::states(black_box(&table), &mut result));
        println!("the states, {n} words to {}: {:.1} ns a word", made(states), ns(t));
        let last = states.unwrap_or(1);
        let moves = library::moved(&table, last, SAMPLE, 32, &mut result);
        let t = least(|| library::moved(black_box(&table), last, SAMPLE, 32, &mut result));
        println!("the move of state {last}, {n} words to {}: {:.1} ns a word", made(moves), ns(t));
    }
}

fn made(reply: Result<usize, (u32, usize)>) -> String {
    reply.map_or_else(|(number, place)| format!("{number} at {place}"), |length| length.to_string())
}
