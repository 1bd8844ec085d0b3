//! Writes the runs of the program: in the folder named, NAME.in is what it is given, NAME.args its arguments where it has any, NAME.out
//! what it must print, and NAME.err what it must say on standard error where that is something.
//!
//!     runs FOLDER
use reference::edges::{
    alternating, chain_of, chain_of_ands, chain_of_next, constant_forms, headed, long_forms, long_unfolded, nested, outside_words,
};
use reference::program::{Printed, Run};
use reference::rules::rules;
use reference::texts::texts;
use reference::word::Word;
use std::{env, fs, path::Path};

fn main() {
    let folder = env::args().nth(1).expect("usage: runs FOLDER");
    let folder = Path::new(&folder);
    let write = |name: &str, arguments: &str, input: &[u8], printed: &Printed| {
        let name: String = name.chars().map(|c| if c.is_ascii_alphanumeric() { c } else { '-' }).collect();
        let file = |end: &str| folder.join(format!("{name}.{end}"));
        assert!(!file("in").exists(), "{name} is the name of one run");
        let write = |end: &str, bytes: &[u8]| fs::write(file(end), bytes).expect("the folder can be written");
        write("in", input);
        write("out", printed.output.as_bytes());
        if !arguments.is_empty() {
            write("args", format!("{arguments}\n").as_bytes());
        }
        if !printed.error.is_empty() {
            write("err", printed.error.as_bytes());
        }
    };
    for (name, run) in runs() {
        let arguments = match (run.text, run.as_text) {
            (false, false) => "",
            (true, false) => "text",
            (false, true) => "as-text",
            (true, true) => "text as-text",
        };
        write(&name, arguments, &run.input, &run.prints());
    }
    let both = Run { text: true, as_text: true, input: b"Gp1".to_vec() };
    write("other order", "as-text text", &both.input, &both.prints());
    let usage = Printed { error: "usage: program [text] [as-text]\n".into(), ..Printed::default() };
    for arguments in ["texts", "tex", "--help", "text as-texts", "text as-text text", "a-much-longer-argument"] {
        write(&format!("unknown {arguments}"), arguments, b"p1", &usage);
    }
}

fn runs() -> Vec<(String, Run)> {
    let mut runs: Vec<(String, Run)> = Vec::new();
    let mut add = |name: String, text: bool, as_text: bool, input: Vec<u8>| runs.push((name, Run { text, as_text, input }));
    for (name, input) in inputs() {
        add(format!("{name}, as text"), false, true, input.clone());
        add(name, false, false, input);
    }
    for (name, text) in typed() {
        add(format!("text {name}"), true, false, text);
    }
    // by turns in Delta-2, and in a rule outside it
    for (n, (_, words)) in (1..).zip(nested(2)) {
        let words = if n % 2 == 0 { words } else { outside_words(&words) };
        add(format!("nested {n}, as text"), false, true, bytes(&headed(&words)));
    }
    // forms whose text is as long as any that is printed or counted, a byte shorter and a byte longer
    for limit in [3, 512, 4_096, 1_048_576, 1_000_000_000_000] {
        for length in limit - 1..=limit + 1 {
            add(format!("text of {length} bytes, as text"), false, true, bytes(&headed(&with_text_of(length))));
        }
    }
    for text in
        ["p1", "!p1", " F p1\n", "(p1 W p2)\r\n", "(p1 W", "G(p1 -> (X!p2 M false))", "", "((p1 U p2) & ((p3 R p4) W p5))"]
    {
        add(format!("text {}, as text", text.escape_debug()), true, true, text.into());
    }
    runs
}

fn bytes(table: &[u32]) -> Vec<u8> {
    table.iter().flat_map(|word| word.to_le_bytes()).collect()
}

/// Tables, and bytes that are none.
fn inputs() -> Vec<(String, Vec<u8>)> {
    let tables = tables().into_iter().map(|(name, words)| (name, headed(&words))).chain(headers());
    let mut inputs: Vec<(String, Vec<u8>)> = tables.map(|(name, table)| (name, bytes(&table))).collect();
    // bytes that are no whole words, after no header and after one
    for over in 1..4 {
        for words in [0, 1, 2, 64, 65, 66, 2000] {
            let mut input = if words == 0 { vec![] } else { bytes(&headed(&chain_of_next(words))) };
            input.extend([0x30, 0, 0].iter().take(over));
            inputs.push((format!("{words} words and {over} bytes"), input));
        }
    }
    inputs
}

/// Texts at the edges, and with one line end, with two, and with what only looks like one.
fn typed() -> Vec<(String, Vec<u8>)> {
    let mut typed: Vec<(String, Vec<u8>)> = (1..).zip(texts()).map(|(n, (_, text))| (format!("{n}"), text)).collect();
    let ends: [&[u8]; 9] = [b"", b"\n", b"\r\n", b"\n\n", b"\r\n\r\n", b"\r", b"\n\r", b"\r\r\n", b" \n"];
    let texts = [("empty", String::new()), ("letter", "p1".into()), ("1024 bytes", format!("{}p1", " ".repeat(1_022)))];
    let others =
        [("early", "(p1 U".into()), ("1025 bytes", format!("{}p1", " ".repeat(1_023))), ("5000 bytes", "(".repeat(5_000))];
    for (name, text) in texts.into_iter().chain(others) {
        for (n, end) in ends.iter().enumerate() {
            typed.push((format!("{name} with end {n}"), [text.as_bytes(), end].concat()));
        }
    }
    typed
}

/// A rule of and and X over one letter, which is its own form, with a text of so many bytes: a & a has 2 n + 5 where a has n.
fn with_text_of(bytes: u64) -> Vec<u32> {
    let mut table = match bytes {
        2 => vec![0x3000_0001],
        _ if bytes % 2 == 1 && bytes >= 9 => with_text_of((bytes - 5) / 2),
        _ => with_text_of(bytes - 1),
    };
    let n = table.len();
    match bytes {
        2 => {}
        _ if bytes % 2 == 1 && bytes >= 9 => table.push(Word::new(5, n, n).bits()),
        _ => table.push(Word::new(7, 0, n).bits()),
    }
    table
}

/// Tables with a header that is missing, damaged, or not that of the words after it.
fn headers() -> Vec<(String, Vec<u32>)> {
    let mut tables: Vec<(String, Vec<u32>)> = Vec::new();
    let mut add = |name: String, table: Vec<u32>| tables.push((name, table));
    add("empty".into(), vec![]);
    let always = [0x0000_0002, 0x3000_0001, 0xE000_0001];
    add("no header".into(), always[1..].to_vec());
    for words in [1, 2] {
        add(format!("cut to {words}"), always[..words].to_vec());
    }
    for header in [0, 1, 3, 0x40, 0x41, 0x3FFF, 0x4002, 0x001F_C002, 0x0FFF_C002, 0x1000_0002, 0xF000_0002, 0xFFFF_FFFF] {
        add(format!("header {header:08X} of always"), [&[header], &always[1..]].concat());
    }
    let finally = [0x2000_0000, 0x3000_0001, 0x8000_4002];
    for header in [0x001E_8003, 0x0000_0003, 0x001E_C003, 0x003E_8003, 0x101E_8003, 0x001E_8002, 0x001E_8004] {
        add(format!("header {header:08X} of finally"), [&[header], &finally[..]].concat());
    }
    // 10 is before 24, and 24 before 11
    add("unused word under a wrong class".into(), vec![0x0000_4002, 0x3000_0001, 0x3000_0002]);
    add("9 words of kind 8 under a wrong class".into(), [vec![0x0000_400B], chain_of(8, 9)].concat());
    add("9 alternating words under a wrong class".into(), [vec![0x0010_000B], alternating(8, 9)].concat());
    // counts beside lengths, around as many words as the program reads
    for count in [0, 1, 63, 64, 65, 66, 16_383] {
        for words in [0, 1, 63, 64, 65, 66, 67, 5000] {
            add(format!("count {count} and {words} words"), [vec![0x001F_8000 + count], chain_of_next(words)].concat());
        }
    }
    tables
}

/// Words, which get their header.
fn tables() -> Vec<(String, Vec<u32>)> {
    let mut tables: Vec<(String, Vec<u32>)> = Vec::new();
    let mut add = |name: &str, words: &[u32]| tables.push((name.to_string(), words.to_vec()));
    // a refusal from each place that the program can meet
    add("no word", &[]);
    add("kind 0", &[0x2000_0000, 0x0000_0001]);
    add("field not 0", &[0x3000_4001]);
    add("left operand 0", &[0x2000_0000, 0x5000_0001]);
    add("right operand 0", &[0x2000_0000, 0x7000_0000]);
    add("left operand itself", &[0x2000_0000, 0x5000_8001]);
    add("right operand later", &[0x2000_0000, 0x7000_0003, 0x3000_0001]);
    add("letter 0", &[0x3000_0000]);
    add("letter 33", &[0x3000_0021]);
    add("same word", &[0x3000_0001, 0x7000_0001, 0x7000_0001]);
    add("unused word", &[0x3000_0001, 0x3000_0002, 0x7000_0002]);
    // document 01's rules
    add("letter", &[0x3000_0001]);
    add("always", &[0x3000_0001, 0xE000_0001]);
    add("finally", &[0x2000_0000, 0x3000_0001, 0x8000_4002]);
    add("not finally", &[0x3000_0001, 0xD000_0001, 0xC000_0002]);
    add("finally always finally", &[0x3000_0001, 0xD000_0001, 0xE000_0002, 0xD000_0003]);
    for words in [64, 65, 66, 5000] {
        add(&format!("{words} words"), &chain_of_next(words));
    }
    add("60 ands", &chain_of_ands(60));
    for kind in 8..12 {
        // as many as the program allows and one more, which counts outside Delta-2 only
        for k in [8, 9] {
            add(&format!("{k} words of kind {kind}"), &chain_of(kind, k));
        }
        for k in [2, 3, 8, 9] {
            add(&format!("{k} alternating words from kind {kind}"), &alternating(kind, k));
        }
    }
    for (form_words, words) in long_forms().into_iter().filter(|(_, words)| words.len() <= 64) {
        add(&format!("form of {form_words}"), &words);
    }
    for (form_words, words) in long_unfolded().into_iter().filter(|(_, words)| words.len() <= 64) {
        add(&format!("form of {form_words} before it is folded"), &words);
    }
    for (n, (_, words)) in (1..).zip(constant_forms()) {
        add(&format!("constant form {n}"), &words);
    }
    for (name, words) in rules() {
        add(&format!("rule {name}"), &words);
    }
    tables
}
