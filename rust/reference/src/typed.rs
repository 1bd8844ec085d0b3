//! Rules typed as text (document 02, N1), read in every way at once: after each byte there is a list of the readings that have brought
//! all bytes so far, each with what it still wants. Whatever is wanted can be brought, so a text can go on exactly if a reading is left.
//! (`text` reads the data files, whose operators bind without brackets.)
use crate::forest::{Forest, Node, Tree};
use std::sync::LazyLock;
use Wanted::*;

#[derive(Clone, Copy)]
enum Wanted {
    Byte(u8),
    /// Any number of spaces.
    Spaces,
    Rule,
    /// A two-sided operator, its right operand and the closing bracket.
    Rest,
    /// No byte: a node is made of the rules read last.
    Made(Maker),
}

#[derive(Clone, Copy)]
enum Maker {
    Leaf(Node),
    One(fn(Tree) -> Node),
    Two(fn(Tree, Tree) -> Node),
}

/// A symbol, what follows it, and what is made of them.
fn way(symbol: &str, then: &[Wanted], maker: Option<Maker>) -> Vec<Wanted> {
    symbol.bytes().map(Byte).chain(then.iter().copied()).chain(maker.map(Made)).collect()
}

/// The grammar's ways to bring a rule.
static RULE: LazyLock<Vec<Vec<Wanted>>> = LazyLock::new(|| {
    let leaf = |symbol: &str, node| way(symbol, &[], Some(Maker::Leaf(node)));
    let prefix = |symbol, node| way(symbol, &[Spaces, Rule], Some(Maker::One(node)));
    let mut ways = vec![leaf("true", Node::True), leaf("false", Node::False)];
    ways.extend((1..=32).map(|n| leaf(&format!("p{n}"), Node::Letter(n))));
    ways.extend([prefix("!", Node::Not), prefix("X", Node::Next), prefix("F", Node::Finally), prefix("G", Node::Globally)]);
    ways.push(way("(", &[Spaces, Rule, Spaces, Rest], None));
    ways
});

/// Its ways to go on after a left operand.
static REST: LazyLock<Vec<Vec<Wanted>>> = LazyLock::new(|| {
    let two = |symbol, node| way(symbol, &[Spaces, Rule, Spaces, Byte(b')')], Some(Maker::Two(node)));
    vec![
        two("&", Node::And),
        two("|", Node::Or),
        two("->", Node::Implies),
        two("U", Node::Until),
        two("W", Node::Weak),
        two("R", Node::Release),
        two("M", Node::Strong),
    ]
});

#[derive(Clone)]
struct Reading {
    /// Next comes the last.
    wanted: Vec<Wanted>,
    rules: Vec<Tree>,
}

impl Reading {
    /// The readings that go on with a byte.
    fn after(mut self, forest: &mut Forest, byte: u8) -> Vec<Reading> {
        match self.wanted.pop() {
            None => vec![],
            Some(Byte(wanted)) if wanted == byte => vec![self],
            Some(Byte(_)) => vec![],
            Some(Spaces) => {
                let mut readings = self.clone().after(forest, byte);
                if byte == b' ' {
                    self.wanted.push(Spaces);
                    readings.push(self);
                }
                readings
            }
            Some(Rule) => self.by(&RULE, forest, byte),
            Some(Rest) => self.by(&REST, forest, byte),
            Some(Made(maker)) => {
                self.make(forest, maker);
                self.after(forest, byte)
            }
        }
    }

    /// By each of the ways that begin with the byte.
    fn by(self, ways: &[Vec<Wanted>], forest: &mut Forest, byte: u8) -> Vec<Reading> {
        let begins = |way: &&Vec<Wanted>| matches!(way[0], Byte(first) if first == byte);
        let goes_on = |way: &Vec<Wanted>| {
            let mut reading = self.clone();
            reading.wanted.extend(way.iter().rev());
            reading.after(forest, byte)
        };
        ways.iter().filter(begins).flat_map(goes_on).collect()
    }

    fn make(&mut self, forest: &mut Forest, maker: Maker) {
        let mut last = || self.rules.pop().expect("an operand is read before its operator is made");
        let node = match maker {
            Maker::Leaf(node) => node,
            Maker::One(node) => node(last()),
            Maker::Two(node) => {
                let right = last();
                node(last(), right)
            }
        };
        self.rules.push(forest.grow(node));
    }

    /// The rule, where the text may end here.
    fn whole(mut self, forest: &mut Forest) -> Option<Tree> {
        while let Some(wanted) = self.wanted.pop() {
            match wanted {
                Spaces => {}
                Made(maker) => self.make(forest, maker),
                Byte(_) | Rule | Rest => return None,
            }
        }
        self.rules.pop()
    }
}

/// The rule that a text says, or the place of 19: the first byte after which no continuation could help, or the length plus 1.
pub fn read(forest: &mut Forest, text: &[u8]) -> Result<Tree, usize> {
    let mut readings = vec![Reading { wanted: vec![Spaces, Rule, Spaces], rules: vec![] }];
    for (place, &byte) in (1..).zip(text) {
        readings = readings.into_iter().flat_map(|reading| reading.after(forest, byte)).collect();
        if readings.is_empty() {
            return Err(place);
        }
    }
    let rules: Vec<Tree> = readings.into_iter().filter_map(|reading| reading.whole(forest)).collect();
    assert!(rules.len() <= 1, "every text has one reading");
    rules.first().copied().ok_or(text.len() + 1)
}

#[cfg(test)]
mod tests {
    use super::*;
    use crate::text::show;
    use std::collections::BTreeSet;

    #[test]
    fn places() {
        let places: [(&[u8], usize); 24] = [
            (b"p33", 3),
            (b"p4 1", 4),
            (b"trve", 3),
            (b"tru", 4),
            (b"p1 U p2", 4),
            (b"(p1 U p2", 9),
            (b"(p1)", 4),
            (b"p1)", 3),
            (b"", 1),
            (b"   ", 4),
            (b"p 1", 2),
            (b"p01", 2),
            (b"p0", 2),
            (b"P1", 1),
            (b"(p1 - > p2)", 6),
            (b"\tp1", 1),
            (b"p1\t", 3),
            (b"p1\n", 3),
            (b"p1 \r\n", 4),
            (b"(p1 U p2 U p3)", 10),
            (b"!", 2),
            (b"p123", 4),
            (b"(p1\xC3U p2)", 4),
            (b"\xFF", 1),
        ];
        for (text, place) in places {
            assert_eq!(read(&mut Forest::new(), text), Err(place), "{text:?}");
        }
    }

    /// Every rule of the grammar that these symbols can say, cut after so many bytes.
    fn cut_rules(symbols: &[&str], bytes: usize) -> BTreeSet<String> {
        let cut = |text: String| text.chars().take(bytes).collect::<String>();
        let joined = |parts: &[&BTreeSet<String>]| {
            parts.iter().fold(BTreeSet::from([String::new()]), |before, part| {
                let longer = |text: &String| match text.len() == bytes {
                    true => vec![text.clone()],
                    false => part.iter().map(|more| cut(format!("{text}{more}"))).collect(),
                };
                before.iter().flat_map(longer).collect()
            })
        };
        let of = |which: &dyn Fn(&str) -> bool| -> BTreeSet<String> {
            symbols.iter().filter(|symbol| which(symbol)).map(|symbol| cut(symbol.to_string())).collect()
        };
        let leaf = of(&|s| s == "true" || s == "false" || s.starts_with('p'));
        let prefix = of(&|s| ["!", "X", "F", "G"].contains(&s));
        let operator = of(&|s| ["&", "|", "->", "U", "W", "R", "M"].contains(&s));
        let [open, close] = ["(", ")"].map(|bracket| BTreeSet::from([bracket.to_string()]));
        let spaces: BTreeSet<String> = (0..=bytes).map(|n| " ".repeat(n)).collect();
        let mut rules = leaf;
        loop {
            let before = rules.len();
            let prefixed = joined(&[&prefix, &spaces, &rules]);
            let bracketed = joined(&[&open, &spaces, &rules, &spaces, &operator, &spaces, &rules, &spaces, &close]);
            rules.extend(prefixed);
            rules.extend(bracketed);
            if rules.len() == before {
                return joined(&[&spaces, &rules, &spaces]);
            }
        }
    }

    /// Holds the reader to the cut rules, on every text of fewer bytes over an alphabet.
    fn held_to_the_grammar(symbols: &[&str], alphabet: &str, bytes: usize) {
        let rules = cut_rules(symbols, bytes);
        let begins = |text: &str| rules.range(text.to_string()..).next().is_some_and(|rule| rule.starts_with(text));
        let mut texts = vec![String::new()];
        for length in 0..bytes {
            for text in &texts {
                let place = (1..=length).find(|&n| !begins(&text[..n])).unwrap_or(length + 1);
                let mut forest = Forest::new();
                let read = read(&mut forest, text.as_bytes());
                assert_eq!(read.is_ok(), rules.contains(text), "{text:?}");
                match read {
                    Err(at) => assert_eq!(at, place, "{text:?}"),
                    Ok(tree) => assert_eq!(show(&forest, tree).replace(' ', ""), text.replace(' ', "")),
                }
            }
            texts = texts.iter().flat_map(|text| alphabet.chars().map(move |byte| format!("{text}{byte}"))).collect();
        }
    }

    #[test]
    fn every_short_text_of_all_bytes() {
        let letters: Vec<String> = (1..=32).map(|n| format!("p{n}")).collect();
        let mut symbols = vec!["true", "false", "!", "X", "F", "G", "&", "|", "->", "U", "W", "R", "M"];
        symbols.extend(letters.iter().map(|letter| letter.as_str()));
        let ascii: String = (0..128u8).map(char::from).collect();
        held_to_the_grammar(&symbols, &ascii, 3);
        held_to_the_grammar(&symbols, "p01239trueF(&->)X \n", 4);
    }

    #[test]
    fn every_text_of_few_bytes() {
        held_to_the_grammar(&["p1", "p2", "p11", "p12", "p21", "p22", "!", "U"], "p12!U( )", 7);
        held_to_the_grammar(&["p1", "p3", "p11", "p13", "p31", "X", "->"], "p31X->() ", 6);
        held_to_the_grammar(&["true", "false", "|"], "truefals|() ", 6);
    }
}
