//! Compares the proved library with the reference: every step on the same input, and every byte of every slice afterwards, past the
//! result's end and after refusals too.
//!
//!     compare [INPUTS [SEED]]
//!
//! The fixed inputs (the rules of source 000's Tables 6 and 8 with their negations, and the edges of document 01) come first, then
//! INPUTS random ones (20,000 unless said). The same seed gives the same inputs. Where an answer differs, the input is made
//! smaller as long as some answer still differs, and printed. The last line says how many inputs were compared, and how many differed.
mod fixed;
mod generate;
mod input;
mod library;
mod numbers;
mod run;
mod shrink;
mod texts;

use input::Input;
use library::{Library, Product, Reference};
use numbers::Numbers;
use run::{compare, compare_one, Difference};
use std::collections::BTreeMap;
use std::process::ExitCode;
use std::sync::Mutex;
use std::time::Instant;

/// Differences after which a run stops looking.
const ENOUGH: usize = 3;

/// What a run has seen: how many inputs, how often each step answered each number, and the differences.
#[derive(Default)]
struct Report {
    inputs: u64,
    answers: BTreeMap<(&'static str, u32), u64>,
    differences: Vec<(Input, Box<Difference>)>,
}

fn main() -> ExitCode {
    let mut words = std::env::args().skip(1).map(|w| w.parse::<u64>().expect("usage: compare [INPUTS [SEED]]"));
    let (inputs, seed) = (words.next().unwrap_or(20_000), words.next().unwrap_or(1));
    let began = Instant::now();
    let fixed = fixed::inputs();
    let report = Mutex::new(Report::default());
    let threads = std::thread::available_parallelism().map_or(1, |n| n.get() as u64);
    std::thread::scope(|scope| {
        for thread in 0..threads {
            let (fixed, report) = (&fixed, &report);
            let mine = move |n: &u64| n % threads == thread;
            let work = move || {
                let fixed = (0..fixed.len() as u64).filter(mine).map(|n| fixed[n as usize].clone());
                let random = (0..inputs).filter(mine).map(|n| generate::input(&mut Numbers::new(seed, n)));
                compare_all(fixed.chain(random), report);
            };
            std::thread::Builder::new().stack_size(256 << 20).spawn_scoped(scope, work).expect("a thread");
        }
    });
    let report = report.into_inner().expect("no thread failed");
    print(&report);
    let (all, differences) = (report.inputs, report.differences.len());
    println!("{all} inputs compared, {differences} differences, {:.0} s", began.elapsed().as_secs_f64());
    if differences == 0 {
        ExitCode::SUCCESS
    } else {
        ExitCode::FAILURE
    }
}

fn compare_all(inputs: impl Iterator<Item = Input>, report: &Mutex<Report>) {
    let (mut compared, mut answers) = (0, BTreeMap::new());
    for input in inputs {
        compared += 1;
        match compare(&Product, &Reference::default(), &input) {
            Ok(numbers) => numbers.into_iter().for_each(|answer| *answers.entry(answer).or_default() += 1),
            Err(_) => {
                if report.lock().expect("no thread failed").differences.len() >= ENOUGH {
                    break;
                }
                let smallest = smallest_difference(&Product, input);
                report.lock().expect("no thread failed").differences.push(smallest);
            }
        }
    }
    let mut report = report.lock().expect("no thread failed");
    report.inputs += compared;
    answers.into_iter().for_each(|(answer, count): (_, u64)| *report.answers.entry(answer).or_default() += count);
}

/// The smallest input that differs where this one does first.
fn smallest_difference(library: &dyn Library, input: Input) -> (Input, Box<Difference>) {
    let first = compare(library, &Reference::default(), &input).expect_err("it differs");
    let differs = |input: &Input| compare_one(library, &Reference::default(), input, first.which).err();
    let smallest = shrink::smallest(input, |smaller| differs(smaller).is_some());
    let difference = differs(&smallest).expect("it still differs");
    (smallest, difference)
}

/// How often each step answered each number (0: accepted), and the differences.
fn print(report: &Report) {
    let mut last = "";
    for (&(step, number), count) in &report.answers {
        if step != last {
            print!("{}{step}:", if last.is_empty() { "" } else { "\n" });
        }
        print!(" {number} x {count}");
        last = step;
    }
    println!();
    for (input, difference) in &report.differences {
        println!("{input}\n{difference}");
    }
}

#[cfg(test)]
mod tests;
