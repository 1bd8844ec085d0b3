//! Texts at the edges that document 02 names (N1), for the cases, the runs of the program and the comparison.

/// Name and bytes of each.
pub fn texts() -> Vec<(String, Vec<u8>)> {
    let mut texts: Vec<(String, Vec<u8>)> =
        symbols().into_iter().chain(broken()).map(|text| (text.clone(), text.into_bytes())).collect();
    texts.extend(cut("(p1 -> (false R G!p32))"));
    texts.extend(damaged("(p12 -> Xtrue)"));
    texts.extend(long().into_iter().map(|(name, text)| (name.to_string(), text.into_bytes())));
    texts
}

const OPERATORS: [&str; 7] = ["&", "|", "->", "U", "W", "R", "M"];

/// Every symbol, with spaces round it and without.
fn symbols() -> Vec<String> {
    let mut texts: Vec<String> = ["true", "false", " true ", "  p1", "p1  "].map(String::from).to_vec();
    texts.extend((1..=32).map(|n| format!("p{n}")));
    for prefix in ["!", "X", "F", "G"] {
        texts.extend([format!("{prefix}p1"), format!("{prefix} p1"), format!("{prefix}{prefix}false")]);
    }
    for operator in OPERATORS {
        texts.extend([format!("(p1{operator}p2)"), format!(" ( p1  {operator} p1 ) ")]);
    }
    texts.push("((p1&p1)|((p1&p1)->!!X(p1&p1)))".into());
    texts
}

/// No rules, between semicolons: symbols that do not exist or are broken, brackets too few or too many, and bytes that are no symbols.
const BROKEN: [&str; 4] = [
    "; ;   ;p33;p34;p40;p99;p320;p123;p01;p0;p00;p;p 1;p4 1;p1 2;p1p2;P1;q1;a;1;trve;tru;t;True;TRUE;truE",
    "tr ue;fals;falsetrue;true false;f;p1 U p2;p1&p2;(p1 U p2;(p1);p1);(p1 U p2));();(;);((p1 U p2)",
    "(p1 U p2 U p3);(p1 U);(U p1);(p1 p2);(p1 - > p2);(p1 - p2);(p1 > p2);(p1 <-> p2);(p1 && p2)",
    "(p1 u p2);!;X;G F;Xx;p1!;p1X;(!);(p1 ! p2);(p1 & ! );[p1]",
];

fn broken() -> impl Iterator<Item = String> {
    BROKEN.iter().flat_map(|row| row.split(';')).map(String::from)
}

/// A rule's text cut after each byte but the last.
fn cut(text: &str) -> Vec<(String, Vec<u8>)> {
    (1..text.len()).map(|n| (format!("{text} cut to {n}"), text.as_bytes()[..n].to_vec())).collect()
}

/// Bytes that are no symbols, at each place of a rule's text.
fn damaged(text: &str) -> Vec<(String, Vec<u8>)> {
    let mut texts = Vec::new();
    for (what, byte) in
        [("tab", 9), ("line end", 10), ("return", 13), ("0", 0), ("128", 128), ("255", 255), ("no-break space", 160)]
    {
        for at in [0, 1, 3, 5, 6, text.len()] {
            let mut bytes = text.as_bytes().to_vec();
            bytes.insert(at, byte);
            texts.push((format!("{what} after {at} bytes"), bytes));
        }
    }
    texts
}

/// Around 1,024 bytes and 64 words, and as deep as bytes allow.
fn long() -> Vec<(&'static str, String)> {
    // n X before a letter are n + 1 words
    let prefixes = |n: usize| format!("{}p1", "X".repeat(n));
    // (..((p1&p2)&p3)..&pn): 2 n - 1 words
    let letters = |n: usize| (2..=n).fold("p1".to_string(), |rule, letter| format!("({rule} & p{letter})"));
    let brackets = |n: usize| format!("{}p1{}", "(".repeat(n), "&p1)".repeat(n));
    let right = |n: usize| format!("{}p1{}", "(p1&".repeat(n), ")".repeat(n));
    let doubled = |n: usize| (0..n).fold("p1".to_string(), |rule, _| format!("({rule}|{rule})"));
    let spaces = |n: usize| " ".repeat(n);
    vec![
        ("64 words, prefixes", prefixes(63)),
        ("65 words, prefixes", prefixes(64)),
        ("65 words, then a fault", prefixes(64) + ")"),
        ("65 words, then ends early", format!("({} U", prefixes(64))),
        ("64 words, then a fault", prefixes(63) + "x"),
        ("63 words, letters", letters(32)),
        ("64 words, letters", format!("X{}", letters(32))),
        ("65 words, letters", format!("XX{}", letters(32))),
        ("64 words used again", format!("(XX{} U X{})", letters(31), letters(31))),
        ("70 words", prefixes(69)),
        ("20 words", prefixes(19)),
        ("1000 prefixes", prefixes(1_000)),
        ("1022 prefixes", prefixes(1_022)),
        ("1023 prefixes", prefixes(1_023)),
        ("1000 prefixes, no rule", "!".repeat(1_000)),
        ("1024 prefixes, no rule", "G".repeat(1_024)),
        ("64 words, brackets to the left", brackets(63)),
        ("65 words, brackets to the left", brackets(64)),
        ("204 brackets to the left", brackets(204)),
        ("204 brackets to the right", right(204)),
        ("64 words, brackets to the right", right(63)),
        ("1024 brackets opened", "(".repeat(1_024)),
        ("1025 brackets opened", "(".repeat(1_025)),
        ("7 doublings", doubled(7)),
        ("1024 bytes, spaces after", format!("p1{}", spaces(1_022))),
        ("1025 bytes, spaces after", format!("p1{}", spaces(1_023))),
        ("1024 bytes, spaces before", format!("{}p1", spaces(1_022))),
        ("1025 bytes, spaces before", format!("{}p1", spaces(1_023))),
        ("1024 bytes, spaces inside", format!("(p1 &{}p2)", spaces(1_016))),
        ("1024 spaces", spaces(1_024)),
        ("1025 spaces", spaces(1_025)),
        ("1024 bytes, the last too many", format!("p1{})", spaces(1_021))),
        ("1025 bytes, no rule", format!("x{}", spaces(1_024))),
        ("2000 bytes", spaces(2_000)),
    ]
}

#[cfg(test)]
mod tests {
    use super::*;
    use crate::limits::Limits;
    use crate::steps::text_words;

    #[test]
    fn each_is_what_its_name_says() {
        let read = |text: &str| text_words(text.as_bytes(), Limits::DESK);
        for (name, text) in long() {
            let number = read(&text).map_or_else(|refusal| refusal.number, |_| 0);
            let bytes_said = name.split_once(" bytes").and_then(|(bytes, _)| bytes.parse::<usize>().ok());
            assert_eq!(bytes_said.unwrap_or(text.len()), text.len(), "{name}");
            let words_said = name.split_once(" words").map(|(words, _)| words.parse::<usize>().expect("a number"));
            match words_said {
                _ if text.len() > 1_024 => assert_eq!(number, 20, "{name}"),
                _ if name.contains("then") || name.contains("no rule") => assert_eq!(number, 19, "{name}"),
                Some(words) if words > 64 => assert_eq!(number, 2, "{name}"),
                Some(words) => assert_eq!(read(&text).expect("a rule").len(), words, "{name}"),
                None => {}
            }
        }
        assert!(broken().all(|text| read(&text).is_err_and(|refusal| refusal.number == 19)));
    }
}
