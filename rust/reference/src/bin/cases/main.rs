//! Writes the case runner's input and what it must print, to the two files stdin and stdout of a folder:
//!
//!     cases FOLDER        as: cargo run --release --offline -p reference --bin cases ../crates/cases
//!     cases FOLDER list   prints the label of each case, a line for each line of stdout
mod after;
mod automata;
mod case;
mod comparing;
mod delta_2;
mod dialect;
mod folding;
mod forms;
mod headers;
mod judging;
mod limits;
mod tables;
mod texts;

use case::Case;
use std::{env, fs, path::Path};

fn main() {
    let folder = env::args().nth(1).expect("usage: cases FOLDER");
    let folder = Path::new(&folder);
    let forms = [forms::cases(), folding::cases(), delta_2::cases()].concat();
    let rules = [tables::cases(), headers::cases(), forms, judging::cases(), texts::cases(), dialect::cases()];
    let cases: Vec<Case> = [rules.concat(), limits::cases(), comparing::cases(), after::cases(), automata::cases()].concat();
    if env::args().nth(2).is_some() {
        cases.iter().for_each(|case| println!("{}", case.label));
        return;
    }
    let input: Vec<u8> = cases.iter().flat_map(|case| case.words()).flat_map(|word| word.to_le_bytes()).collect();
    let output: String = cases.iter().map(|case| case.prints() + "\n").collect();
    fs::write(folder.join("stdin"), input).expect("the folder can be written");
    fs::write(folder.join("stdout"), output).expect("the folder can be written");
}
