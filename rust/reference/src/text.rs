//! Rules as text, for the data files: letters p1 to p32; ! X F G before a rule; U W R M between two, then &, then |, then ->, each
//! binding less than those before it; round brackets. And rules printed, as rules are typed (`typed`).
use crate::forest::{Forest, Node, Tree};
use crate::word::Word;

/// Reads a rule; panics on what is none, since the texts are this repository's own.
pub fn read(forest: &mut Forest, text: &str) -> Tree {
    let mut reader = Reader { forest, rest: text };
    let tree = reader.implies();
    assert!(reader.rest.trim().is_empty(), "rest {:?} of {text:?}", reader.rest);
    tree
}

struct Reader<'a> {
    forest: &'a mut Forest,
    rest: &'a str,
}

impl Reader<'_> {
    fn takes(&mut self, symbol: &str) -> bool {
        let rest = self.rest.trim_start();
        match rest.strip_prefix(symbol) {
            Some(after) => {
                self.rest = after;
                true
            }
            None => false,
        }
    }

    fn implies(&mut self) -> Tree {
        let a = self.or();
        if self.takes("->") {
            let b = self.implies();
            return self.forest.grow(Node::Implies(a, b));
        }
        a
    }

    fn or(&mut self) -> Tree {
        let mut a = self.and();
        while self.takes("|") {
            let b = self.and();
            a = self.forest.grow(Node::Or(a, b));
        }
        a
    }

    fn and(&mut self) -> Tree {
        let mut a = self.until();
        while self.takes("&") {
            let b = self.until();
            a = self.forest.grow(Node::And(a, b));
        }
        a
    }

    fn until(&mut self) -> Tree {
        let a = self.prefixed();
        let node: fn(Tree, Tree) -> Node = match () {
            _ if self.takes("U") => Node::Until,
            _ if self.takes("W") => Node::Weak,
            _ if self.takes("R") => Node::Release,
            _ if self.takes("M") => Node::Strong,
            _ => return a,
        };
        let b = self.prefixed();
        self.forest.grow(node(a, b))
    }

    fn prefixed(&mut self) -> Tree {
        let node: fn(Tree) -> Node = match () {
            _ if self.takes("!") => Node::Not,
            _ if self.takes("X") => Node::Next,
            _ if self.takes("F") => Node::Finally,
            _ if self.takes("G") => Node::Globally,
            _ => return self.atom(),
        };
        let a = self.prefixed();
        self.forest.grow(node(a))
    }

    fn atom(&mut self) -> Tree {
        if self.takes("(") {
            let a = self.implies();
            assert!(self.takes(")"), "a bracket is left open before {:?}", self.rest);
            return a;
        }
        if self.takes("true") {
            return self.forest.grow(Node::True);
        }
        if self.takes("false") {
            return self.forest.grow(Node::False);
        }
        assert!(self.takes("p"), "a letter is wanted at {:?}", self.rest);
        let digits = self.rest.len() - self.rest.trim_start_matches(|c: char| c.is_ascii_digit()).len();
        let number = self.rest[..digits].parse().expect("a letter's number");
        self.rest = &self.rest[digits..];
        self.forest.grow(Node::Letter(number))
    }
}

/// A rule as it is typed, with a space on either side of a two-sided operator; a "not letter" as !p1.
pub fn show(forest: &Forest, tree: Tree) -> String {
    let one = |symbol: &str, a: Tree| format!("{symbol}{}", show(forest, a));
    let two = |symbol: &str, a: Tree, b: Tree| format!("({} {symbol} {})", show(forest, a), show(forest, b));
    match forest.node(tree) {
        Node::False => "false".into(),
        Node::True => "true".into(),
        Node::Letter(n) => format!("p{n}"),
        Node::NotLetter(n) => format!("!p{n}"),
        Node::And(a, b) => two("&", a, b),
        Node::Or(a, b) => two("|", a, b),
        Node::Next(a) => one("X", a),
        Node::Until(a, b) => two("U", a, b),
        Node::Weak(a, b) => two("W", a, b),
        Node::Release(a, b) => two("R", a, b),
        Node::Strong(a, b) => two("M", a, b),
        Node::Not(a) => one("!", a),
        Node::Finally(a) => one("F", a),
        Node::Globally(a) => one("G", a),
        Node::Implies(a, b) => two("->", a, b),
    }
}

/// How many bytes `show` prints for the last of some words that pass the checks: a shared word counts wherever it is used.
pub fn shown_bytes(words: &[u32]) -> u128 {
    let mut bytes: Vec<u128> = Vec::new();
    for &bits in words {
        let word = Word::of(bits);
        let own = match word.kind {
            1 => 5,
            2 => 4,
            3 | 4 => format!("p{}", word.right).len() as u128 + (word.kind == 4) as u128,
            7 | 12 | 13 | 14 => 1,
            15 => 6,
            _ => 5,
        };
        let operands = word.operands().into_iter().map(|n| bytes[n - 1]);
        bytes.push(operands.fold(own, u128::saturating_add));
    }
    *bytes.last().expect("a rule has a word")
}

#[cfg(test)]
mod tests {
    use super::*;
    use crate::edges::{chain_of_ands, nested};
    use crate::limits::Limits;
    use crate::listing::bits;
    use crate::steps::text_words;
    use crate::typed;

    #[test]
    fn shown_as_typed() {
        let mut forest = Forest::new();
        for text in ["p1", "!p1", "XFGp32", "((true & false) -> (p1 | !p2))", "(((p1 U p2) W p3) R (p4 M p1))"] {
            let tree = typed::read(&mut forest, text.as_bytes()).expect("a rule");
            assert_eq!(show(&forest, tree), text);
        }
        for (_, words) in nested(2) {
            let tree = *forest.of_words(&words).last().expect("a word");
            let shown = show(&forest, tree);
            assert_eq!(shown_bytes(&words), shown.len() as u128);
            let read = text_words(shown.as_bytes(), Limits::DESK).expect("a rule");
            assert_eq!(read.iter().map(|w| w.bits()).collect::<Vec<u32>>(), words);
            assert_eq!(bits(&forest, tree), words);
        }
        assert_eq!(shown_bytes(&chain_of_ands(60)), 2 * (1 << 60) + 5 * ((1 << 60) - 1));
    }

    #[test]
    fn binding() {
        let mut forest = Forest::new();
        for (text, shown) in [
            ("p1 | p2 & p3 U p4 -> X p1", "((p1 | (p2 & (p3 U p4))) -> Xp1)"),
            ("G!p1 | p2 U p1", "(G!p1 | (p2 U p1))"),
            ("p1 | p2 | p3", "((p1 | p2) | p3)"),
            ("GF p32 & (true M false)", "(GFp32 & (true M false))"),
        ] {
            let tree = read(&mut forest, text);
            assert_eq!(show(&forest, tree), shown);
        }
    }
}
