//! Prints a written rule's tables with each word's rule beside it: as written, in plain form and in normal form, with class bytes. The
//! header comes first, without a number. Where the plain form is in Delta-2, it is the normal form. A rule is typed, and kept to a desk's
//! limits, as `./normalise -e` has it, and one that is refused prints the refusal. Of a word whose rule is long, no rule is printed.
//!
//!     explain TEXT        as: explain 'G(p1 -> F p2)'
use reference::checks::Refusal;
use reference::class::Classes;
use reference::edges::headed;
use reference::forest::{Forest, Tree};
use reference::header::words;
use reference::limits::Limits;
use reference::steps::{self, normal_words, plain_words};
use reference::text::{show, shown_bytes};
use reference::word::Word;
use std::process::ExitCode;

/// The longest rule that is printed beside its word, in bytes.
const LONG: u128 = 200;

fn main() -> ExitCode {
    let Some(text) = std::env::args().nth(1) else {
        eprintln!("usage: explain TEXT");
        return ExitCode::from(2);
    };
    match explain(text.as_bytes()) {
        Ok(()) => ExitCode::SUCCESS,
        Err(Refusal { number, place }) => {
            println!("refused {number} at {place}");
            ExitCode::FAILURE
        }
    }
}

fn explain(text: &[u8]) -> Result<(), Refusal> {
    let mut written = vec![0; Limits::DESK.written + 1];
    let length = steps::text(text, Limits::DESK, &mut written)?;
    let written = &written[..length];
    print("written", written, false);
    let plain = table(&plain_words(written, Limits::DESK)?);
    print("plain form", &plain, true);
    match normal_words(&plain, Limits::DESK)? {
        None => println!("normal form: the plain form, which is in Delta-2"),
        Some(form) => print("normal form", &table(&form), true),
    }
    Ok(())
}

fn table(words: &[Word]) -> Vec<u32> {
    headed(&words.iter().map(|word| word.bits()).collect::<Vec<u32>>())
}

fn print(title: &str, table: &[u32], with_class: bool) {
    let words = words(table);
    println!("{title}: {} words", words.len());
    println!("      {:08X}", table[0]);
    let mut forest = Forest::new();
    let trees: Vec<Tree> = forest.of_words(words);
    let classes = Classes::of(&forest, &trees);
    for ((n, word), &tree) in (1..).zip(words).zip(&trees) {
        let class = if with_class { format!("  {:02X}", classes.byte(tree)) } else { String::new() };
        let rule = if shown_bytes(&words[..n]) <= LONG { show(&forest, tree) } else { "..".into() };
        println!("{n:4}  {word:08X}{class}  {rule}");
    }
}
