// Times of the proved steps, called through their C names, beside programs written for clarity. Each figure is the least of several
// rounds after a warm-up; slices are lent again from call to call and are not cleared between. Ratios are ours over theirs.
mod agree;
mod hashmap;
mod library;
mod moments;
mod rules;
mod shapes;
mod stack;
mod timing;
mod typed;
mod watching;

use hashmap::Form;
use library::Recording;
use rules::Rule;
use shapes::{mixed, noise, over_letters, recording, FREE, PLAIN, SIGMA, WRITTEN};
use std::hint::black_box;
use timing::{in_turn, least, least_ms, pair, ratio};
use watching::{ROOM, SAMPLE};

// The slices that the program lends. Lengths of tables count the header; where words are told, they leave it out.
const PLAIN_ROOM: usize = 131;
const FORM_ROOM: usize = 4097;

fn main() {
    println!("each figure the least of {} rounds after a warm-up; slices are lent again, not cleared between", timing::ROUNDS);
    let asked: Vec<String> = std::env::args().skip(1).collect();
    let rules = || rules::read(include_str!("rules.txt"));
    let sections: [(&str, &str, &dyn Fn()); 9] = [
        ("same", "the same replies and slices", &|| same(&rules())),
        ("check", "check and plain form, beside the hash-map program", &short_steps),
        ("text", "reading texts, beside the hash-map program", &texts),
        ("form", "whole way and normal form, beside the hash-map program", &|| forms(rules())),
        ("dialect", "the dialect without W and M, beside the hash-map program", &dialects),
        ("judge", "the judge", &|| judges(&rules())),
        ("watch", "following a rule, and its automaton", &|| watches(&rules())),
        ("growth", "how cost grows", &growth),
        ("stack", "stack, bytes written to", &stacks),
    ];
    for (name, title, print) in sections {
        if asked.is_empty() || asked.iter().any(|section| section == name) {
            println!("== {title} ==");
            print();
        }
    }
}

fn same(rules: &[Rule]) {
    let seen = agree::all(rules);
    println!("calls by their reply, 0 for accepted: {:?}", seen.replies);
    println!("normal forms that were the source table {}, rewritten {}", seen.handed_back, seen.rewritten);
}

fn short_steps() {
    checks();
    plain_forms();
}

fn forms(rules: Vec<Rule>) {
    if !library::FORMS {
        return println!("the library has no C names for the normal form and the whole way");
    }
    whole_way(&accepted(rules));
    normal_forms();
}

fn checks() {
    for n in [1, 3, 8, 64] {
        let table = mixed(n, &PLAIN);
        let ours = || library::check(black_box(&table), true, 16383);
        let theirs = || hashmap::check(black_box(&table), true, 16383).map(|_| ());
        assert_eq!(ours(), theirs());
        let (o, t) = pair(ours, theirs);
        println!("check, {n} words: hash map {t:.0} ns, here {o:.0} ns, ratio {:.2}", o / t);
    }
}

fn plain_forms() {
    for n in [8, 64] {
        let table = mixed(n, &WRITTEN);
        let (mut result, mut result2) = (vec![0; PLAIN_ROOM], vec![0; PLAIN_ROOM]);
        let ours = || library::plain_form(black_box(&table), &mut result);
        let theirs = || hashmap::plain_form(black_box(&table), &mut result2);
        let (o, t) = pair(ours, theirs);
        println!("plain form, {n} words: hash map {:.2} us, here {:.2} us, ratio {:.2}", t / 1e3, o / 1e3, o / t);
    }
}

fn texts() {
    if !library::TEXTS {
        return println!("the library has no C name for reading texts");
    }
    for (what, text) in typed::texts() {
        let (mut result, mut result2) = (vec![0; 65], vec![0; 65]);
        let reply = library::text(text.as_bytes(), &mut result);
        assert_eq!(reply, typed::read(text.as_bytes(), &mut result2));
        let to = reply.map_or_else(|(number, place)| format!("{number} at {place}"), |length| format!("{} words", length - 1));
        let ours = || library::text(black_box(text.as_bytes()), &mut result);
        let theirs = || typed::read(black_box(text.as_bytes()), &mut result2);
        let (o, t) = pair(ours, theirs);
        let bytes = text.len() as f64;
        println!(
            "text, {bytes} bytes, {what}, to {to}: hash map {:.1} ns a byte, here {:.1} ns a byte ({o:.0} ns), ratio {:.2}",
            t / bytes, o / bytes, o / t
        );
    }
}

// The rules that both steps accept, each with whether its plain form is its form.
fn accepted(rules: Vec<Rule>) -> Vec<(Rule, bool)> {
    let (mut plain, mut form) = (vec![0; PLAIN_ROOM], vec![0; FORM_ROOM]);
    let (mut lengths, mut refused, mut kept) = (Vec::new(), Vec::new(), Vec::new());
    let all = rules.len();
    for rule in rules {
        match hashmap::rule_form(&rule.table, &mut plain, &mut form) {
            Ok(form) => {
                let own = matches!(form, Form::Source(_));
                if !own {
                    lengths.push(form.length() - 1);
                }
                kept.push((rule, own));
            }
            Err((number, place)) => refused.push(format!("{} ({number} at {place})", rule.name)),
        }
    }
    lengths.sort();
    println!("rules of source 000 with negations: {all}, accepted by both steps: {}", kept.len());
    println!("  refused: {}", if refused.is_empty() { "none".to_string() } else { refused.join(", ") });
    println!("  in Delta-2, their own forms: {}", kept.iter().filter(|(_, own)| *own).count());
    println!(
        "  rewritten: {}, words of the forms: {} to {}, median {}",
        lengths.len(), lengths[0], lengths[lengths.len() - 1], lengths[lengths.len() / 2]
    );
    kept
}

// The rules that are handed back, and those that are rewritten.
fn whole_way(rules: &[(Rule, bool)]) {
    for (what, wanted) in [("its own form", true), ("rewritten", false)] {
        whole_ways(what, rules.iter().filter(|(_, own)| *own == wanted).map(|(rule, _)| rule));
    }
}

fn whole_ways<'a>(what: &str, rules: impl Iterator<Item = &'a Rule>) {
    let (mut plain, mut form) = (vec![0; PLAIN_ROOM], vec![0; FORM_ROOM]);
    let (mut plain2, mut form2) = (plain.clone(), form.clone());
    let mut times = Vec::new();
    for rule in rules {
        let ours = || library::rule_form(black_box(&rule.table), &mut plain, &mut form);
        let theirs = || hashmap::rule_form(black_box(&rule.table), &mut plain2, &mut form2);
        let (o, t) = pair(ours, theirs);
        times.push((o, t, &rule.name));
    }
    times.sort_by(|x, y| x.1.total_cmp(&y.1));
    for (which, at) in [("shortest", 0), ("median", times.len() / 2), ("longest", times.len() - 1)] {
        let (o, t, name) = times[at];
        println!("whole way, {what}, {which} rule ({name}): hash map {:.2} us, here {:.2} us, ratio {:.2}", t / 1e3, o / 1e3, o / t);
    }
    let slower = times.iter().filter(|(o, t, _)| t < o).count();
    let worst = times.iter().max_by(|x, y| (x.0 / x.1).total_cmp(&(y.0 / y.1))).unwrap();
    let (o, t) = times.iter().fold((0.0, 0.0), |sum, time| (sum.0 + time.0, sum.1 + time.1));
    println!(
        "whole way, {what}, all {}: slower on {slower}, worst ratio {:.2} ({}), ratio of sums {:.2}",
        times.len(), worst.0 / worst.1, worst.2, o / t
    );
}

fn normal_forms() {
    let nested = (1..8).map(|k| ("nested", shapes::nested(k)));
    for (name, table) in nested.chain(shapes::eight_until_like()) {
        let fixpoints = table.iter().filter(|&w| (8..=11).contains(&(w >> 28))).count();
        let (mut form, mut form2) = (vec![0; FORM_ROOM], vec![0; FORM_ROOM]);
        let made = library::normal_form(&table, &mut form);
        assert_eq!(made, hashmap::normal_form(&table, &mut form2));
        assert!(form == form2, "the slices are the same");
        let to = match made.expect("it fits") {
            Form::Source(_) => "itself, in Delta-2".to_string(),
            Form::Result(length) => (length - 1).to_string(),
        };
        let ours = || library::normal_form(black_box(&table), &mut form);
        let theirs = || hashmap::normal_form(black_box(&table), &mut form2);
        let (o, t) = pair(ours, theirs);
        println!(
            "normal form, {fixpoints} until-like words, {name}, {} words to {to}: hash map {:.1} us, here {:.1} us, ratio {:.2}",
            table.len() - 1, t / 1e3, o / 1e3, o / t
        );
    }
}

// Tables of all kinds, two words in seven W or M, up to the longest whose conversion fits whatever its words; and tables that are
// renumbered only, up to the longest.
fn dialects() {
    if !library::DIALECTS {
        return println!("the library has no C name for the dialect");
    }
    for (name, kinds, sizes) in [("kinds 5 to 11", &PLAIN[..], [64, 1024, 8190]), ("no W and M", &FREE[..], [64, 1024, 16383])] {
        for n in sizes {
            let table = mixed(n, kinds);
            let (mut result, mut result2) = (vec![0; 16384], vec![0; 16384]);
            let length = library::dialect(&table, &mut result);
            assert_eq!(length, hashmap::dialect(&table, &mut result2));
            assert!(result == result2, "the conversions are the same");
            let ours = || library::dialect(black_box(&table), &mut result);
            let theirs = || hashmap::dialect(black_box(&table), &mut result2);
            let (o, t) = pair(ours, theirs);
            let (o, t) = (o / n as f64, t / n as f64);
            println!(
                "dialect, {name}, {n} words to {}: hash map {t:.1} ns a word, here {o:.1} ns a word, ratio {:.2}",
                length.expect("it fits") - 1, o / t
            );
        }
    }
}

// The rules of source 000; then long tables: kinds 5 to 11 mixed and loop start 0; the same over 32 letters at random, where few rows are
// constant; and written tables with a later loop start.
fn judges(rules: &[Rule]) {
    for n in [64, 640, 4096] {
        judge_rules(rules, &noise(n), n / 3);
    }
    judge("kinds 5 to 11", &mixed(16383, &PLAIN), &recording(4096), 0);
    judge("kinds 5 to 11, 32 letters at random", &over_letters(32, 16383, &PLAIN), &noise(4096), 0);
    judge("kinds 5 to 15", &mixed(16383, &WRITTEN), &recording(4096), 1365);
}

// Written tables of short rules, beside the judge that goes moment by moment.
fn judge_rules(rules: &[Rule], samples: &[u32], start: usize) {
    let recording = Recording { samples, start, driven: 32 };
    let (mut ours, mut theirs) = (Vec::new(), Vec::new());
    for rule in rules {
        let table = &rule.table[..];
        let mut scratch = vec![0; table.len() * 64];
        let mut expected = scratch.clone();
        assert_eq!(library::judge(table, recording, &mut scratch), moments::judge(table, recording, &mut expected));
        assert!(scratch == expected, "the rows are the same");
        let (o, t) = pair(
            || library::judge(black_box(table), recording, &mut scratch),
            || moments::judge(black_box(table), recording, &mut expected),
        );
        ours.push(o);
        theirs.push(t);
    }
    let ratio = ours.iter().sum::<f64>() / theirs.iter().sum::<f64>();
    println!("judge, {} rules x {} samples: {}", rules.len(), samples.len(), watching::spread(ours));
    println!("  moment by moment: {}, ratio {ratio:.3} in sum", watching::spread(theirs));
}

// Beside writing and copying to the same memory, and beside the judge that goes moment by moment.
fn judge(name: &str, table: &[u32], samples: &[u32], start: usize) {
    let recording = Recording { samples, start, driven: 32 };
    let mut scratch = vec![7u64; 16383 * 64];
    let mut expected = scratch.clone();
    let reply = moments::judge(table, recording, &mut expected);
    assert_eq!(library::judge(table, recording, &mut scratch), reply);
    assert!(scratch == expected, "the rows are the same");
    let fast = in_turn(
        100,
        &mut scratch,
        [
            &mut |s| assert_eq!(library::judge(black_box(table), recording, s), reply),
            &mut |s| black_box(&mut s[..]).fill(black_box(7)),
            &mut |s| black_box(&mut s[..]).copy_from_slice(black_box(&expected)),
        ],
    );
    let slow = in_turn(4, &mut scratch, [&mut |s| assert_eq!(moments::judge(black_box(table), recording, s), reply)]);
    let time = least_ms(&fast, 0);
    println!(
        "judge, 16383 words x 4096 samples, {name}, loop start {start}: {time:.2} ms, {:.2} ns a row word",
        time * 1e6 / (16383.0 * 64.0)
    );
    for (i, what) in [(1, "writing"), (2, "copying to")] {
        println!("  {what} the same memory: {:.2} ms, ratio {:.1}", least_ms(&fast, i), ratio(&fast, i));
    }
    println!("  moment by moment: {:.0} ms, ratio {:.3}", least_ms(&slow, 0), time / least_ms(&slow, 0));
}

fn watches(rules: &[Rule]) {
    if !library::WATCHES {
        return println!("the library has no C names for following and watching");
    }
    watching::figures(rules);
}

fn growth() {
    words();
    rows();
}

fn words() {
    for n in [64, 1024, 16383] {
        let table = mixed(n, &PLAIN);
        let t = least(|| library::check(black_box(&table), true, 16383));
        println!("check, {n} words: {:.1} us, {:.2} ns a word", t / 1e3, t / n as f64);
    }
    for n in [64, 1024, 16383] {
        let table = mixed(n, &PLAIN);
        let mut bytes = vec![0; n];
        let t = least(|| library::classify(black_box(&table), &mut bytes));
        println!("class, {n} words: {:.1} us, {:.2} ns a word", t / 1e3, t / n as f64);
    }
}

// Of an operator in a table of 1,000 words over 4 letters at random, the check of the table included.
fn rows() {
    let names = ["and", "or", "X", "U", "W", "R", "M", "not", "F", "G", "implies"];
    for (kind, name) in (5..).zip(names) {
        let table = over_letters(4, 1000, &[kind]);
        print!("row of {name}, ns a row word:");
        for n in [64, 640, 4096] {
            let samples = noise(n);
            let words = (n + 63) / 64;
            let mut scratch = vec![0u64; 1000 * words];
            let recording = Recording { samples: &samples, start: n / 3, driven: 4 };
            let t = least(|| library::judge(black_box(&table), recording, &mut scratch));
            print!(" {:.1} at {n} samples;", t / (1000 * words) as f64);
        }
        println!();
    }
}

// The slices are on the heap: what is counted is the call's own.
fn stacks() {
    for n in [1, 64, 130, 16383] {
        let table = mixed(n, &PLAIN);
        println!("check, {n} words: {}", stack::bytes(|| library::check(&table, true, 16383).unwrap()));
    }
    for n in [1, 16383] {
        let table = mixed(n, &PLAIN);
        println!("class, {n} words: {}", stack::bytes(|| library::classify(&table, &mut vec![0; n]).unwrap()));
        let samples = recording(4096);
        let judge = || library::judge(&table, Recording { samples: &samples, start: 0, driven: 32 }, &mut vec![0; n * 64]).unwrap();
        println!("judge, {n} words x 4096 samples: {}", stack::bytes(judge));
    }
    for n in [1, 64] {
        let table = shapes::deep(n, 0);
        println!("plain form, {n} words: {}", stack::bytes(|| library::plain_form(&table, &mut vec![0; PLAIN_ROOM]).unwrap()));
    }
    if library::DIALECTS {
        for n in [1, 64, 512, 16383] {
            let table = shapes::deep(n, 0);
            println!("dialect, {n} words: {}", stack::bytes(|| library::dialect(&table, &mut vec![0; 16384]).unwrap()));
        }
    }
    if library::WATCHES {
        for n in [1, 64, 512, 4096, 16383] {
            let table = over_letters(1, n, &SIGMA);
            let after = || library::after(&table, SAMPLE, 32, &mut vec![0; ROOM]);
            println!("a step by a sample, {n} words: {}", stack::bytes(after));
            println!("the states, {n} words: {}", stack::bytes(|| library::states(&table, &mut vec![0; ROOM])));
            println!("a move, {n} words: {}", stack::bytes(|| library::moved(&table, 1, SAMPLE, 32, &mut vec![0; ROOM])));
        }
    }
    if library::TEXTS {
        let read = |text: &str| stack::bytes(|| library::text(text.as_bytes(), &mut vec![0; 65]));
        println!("text, the most of the texts of section text: {}", typed::texts().iter().map(|(_, text)| read(text)).max().unwrap());
    }
    if !library::FORMS {
        return;
    }
    for n in [1, 64, 130] {
        let table = shapes::deep(n, 8);
        println!("normal form, {n} words: {}", stack::bytes(|| library::normal_form(&table, &mut vec![0; FORM_ROOM])));
    }
    for n in [1, 64] {
        let table = shapes::deep(n, 8);
        let form = || library::rule_form(&table, &mut vec![0; PLAIN_ROOM], &mut vec![0; FORM_ROOM]);
        println!("whole way, {n} words: {}", stack::bytes(form));
    }
}
