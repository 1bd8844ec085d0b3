// The normal forms of rules with eight until-like words, and of rules that are their own forms, and the rows of the rules of source 000 and of
// long tables, by two builds of the library in turn, the one before under names of its own. Each time is the least of 400 rounds after a warm-up; the ratio is the median over the rounds of the one after over the one before.
#![allow(dead_code)]
mod hashmap;
mod rules;
mod shapes;
mod timing;

use std::hint::black_box;

extern "C" {
    #[cfg(sources)]
    fn before_showrule_normal(
        table: *const u32, words: usize, written: usize, until_like: usize, result: *mut u32, room: usize, in_source: *mut bool,
        form: *mut usize, place: *mut usize,
    ) -> u32;
    #[cfg(all(limits, not(sources)))]
    fn before_showrule_normal(
        table: *const u32, words: usize, written: usize, until_like: usize, result: *mut u32, room: usize, form: *mut usize,
        place: *mut usize,
    ) -> u32;
    #[cfg(not(limits))]
    fn before_showrule_normal(
        table: *const u32, words: usize, result: *mut u32, room: usize, form: *mut usize, place: *mut usize,
    ) -> u32;
    fn showrule_normal(
        table: *const u32, words: usize, written: usize, until_like: usize, result: *mut u32, room: usize, in_source: *mut bool,
        form: *mut usize, place: *mut usize,
    ) -> u32;
    fn before_showrule_row(
        table: *const u32, words: usize, samples: *const u32, count: usize, start: usize, driven: usize, scratch: *mut u64, room: usize,
        from: *mut usize, row: *mut usize, place: *mut usize,
    ) -> u32;
    fn showrule_row(
        table: *const u32, words: usize, samples: *const u32, count: usize, start: usize, driven: usize, scratch: *mut u64, room: usize,
        from: *mut usize, row: *mut usize, place: *mut usize,
    ) -> u32;
}

type RowCall = unsafe extern "C" fn(
    *const u32, usize, *const u32, usize, usize, usize, *mut u64, usize, *mut usize, *mut usize, *mut usize,
) -> u32;

// The refusal's number and place, and the number of words.
type Reply = (u32, usize, usize);

fn after(table: &[u32], result: &mut [u32]) -> Reply {
    let (mut in_source, mut form, mut place) = (true, 0, 0);
    let (t, r) = (table.as_ptr(), result.as_mut_ptr());
    let number = unsafe { showrule_normal(t, table.len(), 64, 8, r, result.len(), &mut in_source, &mut form, &mut place) };
    (number, place, form)
}

#[cfg(sources)]
fn before(table: &[u32], result: &mut [u32]) -> Reply {
    let (mut in_source, mut form, mut place) = (true, 0, 0);
    let (t, r) = (table.as_ptr(), result.as_mut_ptr());
    let number = unsafe { before_showrule_normal(t, table.len(), 64, 8, r, result.len(), &mut in_source, &mut form, &mut place) };
    (number, place, form)
}

#[cfg(all(limits, not(sources)))]
fn before(table: &[u32], result: &mut [u32]) -> Reply {
    let (mut form, mut place) = (0, 0);
    let (t, r) = (table.as_ptr(), result.as_mut_ptr());
    let number = unsafe { before_showrule_normal(t, table.len(), 64, 8, r, result.len(), &mut form, &mut place) };
    (number, place, form)
}

#[cfg(not(limits))]
fn before(table: &[u32], result: &mut [u32]) -> Reply {
    let (mut form, mut place) = (0, 0);
    let number =
        unsafe { before_showrule_normal(table.as_ptr(), table.len(), result.as_mut_ptr(), result.len(), &mut form, &mut place) };
    (number, place, form)
}

// Rules that are their own forms only where both builds hand them back.
fn rules() -> Vec<(String, Vec<u32>)> {
    let eight = shapes::eight_until_like().into_iter().map(|(name, table)| (format!("8 until-like words, {name}"), table));
    let own = [1, 4].map(|k| (format!("its own, {k} until-like words, nested"), shapes::nested(k)));
    if cfg!(sources) { eight.chain(own).collect() } else { eight.collect() }
}

// Each table judged once, over the same scratch.
fn rows(call: RowCall, tables: &[Vec<u32>], samples: &[u32], start: usize, scratch: &mut [u64]) {
    for table in black_box(tables) {
        let (mut from, mut words, mut place) = (0, 0, 0);
        let (t, s, r) = (table.as_ptr(), samples.as_ptr(), scratch.as_mut_ptr());
        let number = unsafe { call(t, table.len(), s, samples.len(), start, 32, r, scratch.len(), &mut from, &mut words, &mut place) };
        assert_eq!(number, 0);
    }
}

fn judged(name: &str, tables: &[Vec<u32>], samples: &[u32], start: usize) {
    let (mut scratch, mut scratch2) = (vec![0; 16383 * 64], vec![0; 16383 * 64]);
    rows(showrule_row, tables, samples, start, &mut scratch);
    rows(before_showrule_row, tables, samples, start, &mut scratch2);
    assert!(scratch == scratch2, "the rows are the same");
    let rounds = timing::in_turn(
        100,
        &mut scratch,
        [
            &mut |r| rows(showrule_row, tables, samples, start, r),
            &mut |r| rows(before_showrule_row, tables, samples, start, r),
        ],
    );
    let us = |i| timing::least_ms(&rounds, i) * 1e3 / tables.len() as f64;
    println!(
        "rows, {name} x {} samples: before {:.2} us, after {:.2} us a table, ratio {:.3}",
        samples.len(), us(1), us(0), timing::ratio(&rounds, 1)
    );
}

fn main() {
    let short: Vec<Vec<u32>> = rules::read(include_str!("rules.txt")).into_iter().map(|rule| rule.table).collect();
    for n in [64, 640, 4096] {
        judged("rules of source 000", &short, &shapes::noise(n), n / 3);
    }
    judged("kinds 5 to 11", &[shapes::mixed(16383, &shapes::PLAIN)], &shapes::recording(4096), 0);
    judged("kinds 5 to 11, 32 letters at random", &[shapes::over_letters(32, 16383, &shapes::PLAIN)], &shapes::noise(4096), 0);
    judged("kinds 5 to 15", &[shapes::mixed(16383, &shapes::WRITTEN)], &shapes::recording(4096), 1365);
    for (name, table) in rules() {
        let (mut result, mut result2) = (vec![0; 4097], vec![0; 4097]);
        let reply = after(&table, &mut result);
        let reply2 = before(&table, &mut result2);
        if cfg!(folded) {
            assert_eq!(reply, reply2);
            assert!(result == result2, "the slices are the same");
        }
        let rounds = timing::in_turn(
            400,
            &mut result,
            [
                &mut |r| assert_eq!(after(black_box(&table), r), reply),
                &mut |r| assert_eq!(before(black_box(&table), r), reply2),
            ],
        );
        println!(
            "normal form, {name}, {} words to {}, before to {}: before {:.2} us, after {:.2} us, ratio {:.3}",
            table.len() - 1, reply.2.saturating_sub(1), reply2.2.saturating_sub(1), timing::least_ms(&rounds, 1) * 1e3, timing::least_ms(&rounds, 0) * 1e3, timing::ratio(&rounds, 1)
        );
    }
}
