//! The rules of Tables 6 and 8 of source 000, with their negations, as words of written tables, without a header.
use crate::forest::{Forest, Node};
use crate::listing::bits;
use crate::text::read;

const TEXTS: &str = include_str!("../data/rules.txt");

/// Name and words of each rule, and of its negation.
pub fn rules() -> Vec<(String, Vec<u32>)> {
    let mut rules = Vec::new();
    for line in TEXTS.lines().filter(|l| !l.is_empty() && !l.starts_with('#')) {
        let (name, text) = line.split_once(char::is_whitespace).expect("a name and a rule");
        let mut forest = Forest::new();
        let tree = read(&mut forest, text);
        let denied = forest.grow(Node::Not(tree));
        rules.push((name.to_string(), bits(&forest, tree)));
        rules.push((format!("not {name}"), bits(&forest, denied)));
    }
    rules
}

#[cfg(test)]
mod tests {
    use super::*;
    use crate::edges::headed;
    use crate::steps::check;

    #[test]
    fn every_rule_is_a_written_table() {
        let rules = rules();
        assert_eq!(rules.len(), 2 * (49 + 33));
        for (name, words) in rules {
            assert_eq!(check(&headed(&words), false, 64), Ok(()), "{name}");
        }
    }
}
