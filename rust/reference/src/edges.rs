//! Rules at the edges that documents 01 and 02 name, for the cases, the runs of the program and the comparison: words, which get their
//! header by `headed`.
use crate::checks::Faults;
use crate::forest::{Forest, Node, Tree};
use crate::header::header;
use crate::limits::Limits;
use crate::listing::bits;
use crate::text::read;
use crate::word::{Word, MOST_WORDS};

/// Any words as a table: with the header that they have, or where they don't pass the checks or are too many for the field, with class
/// 0 and the count as near as it can be.
pub fn headed(words: &[u32]) -> Vec<u32> {
    let passes = !words.is_empty() && words.len() <= MOST_WORDS && Faults::default().words(words, false).first().is_ok();
    let header = if passes { header(words) } else { Word::new(0, 0, words.len().min(MOST_WORDS)) };
    [&[header.bits()], words].concat()
}

/// Letter 1, then X of the word before.
pub fn chain_of_next(words: usize) -> Vec<u32> {
    (0..words).map(|n| if n == 0 { 0x3000_0001 } else { Word::new(7, 0, n % 16_384).bits() }).collect()
}

/// Letter 1, then the word before with itself.
pub fn chain_of_ands(ands: usize) -> Vec<u32> {
    (0..=ands).map(|n| if n == 0 { 0x3000_0001 } else { Word::new(5, n, n).bits() }).collect()
}

/// k words of one until-like kind, one over the other: in Delta-2, however many they are.
pub fn chain_of(kind: u32, k: usize) -> Vec<u32> {
    until_like_chain(k, |_| kind)
}

/// k until-like words, one over the other, of this kind and of one of the other side by turns, U with R and W with M: from three on outside
/// Delta-2.
pub fn alternating(kind: u32, k: usize) -> Vec<u32> {
    until_like_chain(k, |n| if n.is_multiple_of(2) { kind } else { kind ^ 2 })
}

fn until_like_chain(k: usize, kind: impl Fn(usize) -> u32) -> Vec<u32> {
    let mut table = vec![0x3000_0001, 0x3000_0002];
    table.extend((0..k).map(|n| Word::new(kind(n), if n == 0 { 1 } else { n + 2 }, 2).bits()));
    table
}

/// X of letter 1, and k words of one until-like kind, each over the word before and the X: no operand becomes a constant by a sample, so
/// that what remains has each word, and two more for it (document 02, N12).
pub fn over_next(kind: u32, k: usize) -> Vec<u32> {
    let mut words = chain_of_next(2);
    words.extend((0..k).map(|n| Word::new(kind, n + 2, 2).bits()));
    words
}

/// A rule outside Delta-2 in which this one stands, whatever its class: under U, G and F.
pub fn outside(text: &str) -> String {
    format!("FG(p9 U {text})")
}

/// The same of words that pass the checks; the words of a plain table if these are.
pub fn outside_words(words: &[u32]) -> Vec<u32> {
    let mut forest = Forest::new();
    let rule = *forest.of_words(words).last().expect("a word");
    let goal = forest.grow(Node::Letter(9));
    let until = forest.grow(Node::Until(goal, rule));
    let always = forest.globally(until);
    let rule = forest.finally(always);
    bits(&forest, rule)
}

/// Limits under which a table with these words is taken: those of the program, or as many written words as these.
pub fn limits_for(words: &[u32]) -> Limits {
    Limits { written: words.len().max(Limits::DESK.written), ..Limits::DESK }
}

/// Every operator nested in every other, so many deep: the rule as text, and its words.
pub fn nested(deep: usize) -> Vec<(String, Vec<u32>)> {
    let mut texts = vec!["p1".to_string()];
    for letter in (2..).take(deep) {
        let goal = format!("p{letter}");
        texts = SHAPES.iter().flat_map(|shape| texts.iter().map(|inner| shape.replace('q', &goal).replace('_', inner))).collect();
    }
    texts.into_iter().map(|text| (text.clone(), bits_of(&text))).collect()
}

const SHAPES: [&str; 16] = [
    "!_", "X _", "F _", "G _", "(_ & q)", "(q | _)", "(_ U q)", "(q U _)", "(_ W q)", "(q W _)", "(_ R q)", "(q R _)", "(_ M q)",
    "(q M _)", "(_ -> q)", "(q -> _)",
];

/// The words of a rule's text.
pub fn bits_of(text: &str) -> Vec<u32> {
    let mut forest = Forest::new();
    let tree = read(&mut forest, text);
    bits(&forest, tree)
}

/// Every operator over a constant and letter 1, on either side: rules as text, all in Delta-2, and so never folded.
pub fn constants() -> Vec<String> {
    let mut rules: Vec<String> = ["false", "true"].iter().map(|constant| format!("X {constant}")).collect();
    for operator in ["&", "|", "U", "W", "R", "M"] {
        for constant in ["false", "true"] {
            rules.extend([format!("({constant} {operator} p1)"), format!("(p1 {operator} {constant})")]);
        }
    }
    rules
}

/// Those rules, alone and under every operator with each of these goals, in rules outside Delta-2: the rule as text, and its words. Each
/// clause of folding (document 02, N8) comes up, in every rewriting.
pub fn over_constants(goals: &[&str]) -> Vec<(String, Vec<u32>)> {
    let mut texts = constants();
    for goal in goals {
        texts.extend(constants().iter().flat_map(|inner| SHAPES.map(|shape| shape.replace('q', goal).replace('_', inner))));
    }
    texts.iter().map(|text| outside(text)).map(|text| (text.clone(), bits_of(&text))).collect()
}

/// Rules of constants outside Delta-2 whose forms fold to one word: false; true, of which the first part is; and true, of which only a late
/// part is, so that the parts before it have words that no longer count. The rule as text, and its words.
pub fn constant_forms() -> Vec<(String, Vec<u32>)> {
    let falses = [
        "FGF false",
        "FG(p1 U p2) & X false",
        "FG(F p1 & (p2 M X false))",
        "(FG p1 W p2) R (p3 & false)",
        "GF(false M (p1 R p2))",
    ];
    let firsts = [
        "F(GF p1 | X true)",
        "FG(p1 U p2) | X true",
        "F(GF p1 | (p2 W X true))",
        "(GF p1 M p2) U (p3 | true)",
        "G(FG p1 W true)",
    ];
    // a part that chooses F and its operand is true; the first one is F of the goal as it opens
    let goals = ["p2", "X G p2", "G(p2 U p3)", "((p2 U p3) M (p4 U p5))", "((p2 U p3) W ((p4 M p5) & (p6 R p7)))"];
    let lates = goals.map(|goal| format!("F(true W p1) W {goal}"));
    falses.iter().chain(&firsts).map(|text| text.to_string()).chain(lates).map(|text| (text.clone(), bits_of(&text))).collect()
}

/// Plain rules outside Delta-2 whose forms have as many words as fit the program's slice, as many as any slice counts for, and one more or
/// less: the form's words, without its header, and the rule's. Six U and M words stand in one W word, joined by or, so that the rule opens
/// differently for each choice of them.
pub fn long_forms() -> Vec<(usize, Vec<u32>)> {
    LONG.iter().map(|long| (long.form_words, long.rule(Node::Or))).collect()
}

/// Six words in some order, joined two by two from the left, in a W word with a goal, which stands in a U word.
struct Long {
    form_words: usize,
    order: [usize; 6],
    /// How many X stand over the first 1, 2, .. 6 of them. Joined by or, an X over the first j adds about 2^j words to the form.
    chains: [usize; 6],
    /// How many X stand over the letter that is the goal.
    goal: usize,
}

const LONG: [Long; 5] = [
    Long { form_words: 4_096, order: [1, 0, 4, 3, 2, 5], chains: [0, 0, 0, 1, 0, 46], goal: 1 },
    Long { form_words: 4_097, order: [1, 0, 4, 3, 2, 5], chains: [0, 0, 0, 1, 0, 46], goal: 2 },
    Long { form_words: 16_382, order: [0, 1, 3, 2, 5, 4], chains: [0, 0, 0, 0, 1, 238], goal: 1 },
    Long { form_words: 16_383, order: [0, 1, 4, 3, 2, 5], chains: [0, 0, 0, 1, 0, 238], goal: 0 },
    Long { form_words: 16_384, order: [0, 1, 4, 3, 2, 5], chains: [0, 0, 0, 1, 0, 238], goal: 1 },
];

/// Plain rules outside Delta-2 whose forms are short because they are folded: the words that the form has before, without its header, which
/// are as many as the program's slice holds, as any slice counts for, and one more; and the rule's. The six words are joined by and, so that
/// what is steady in it is false unless all are chosen.
pub fn long_unfolded() -> Vec<(usize, Vec<u32>)> {
    UNFOLDED.iter().map(|long| (long.form_words, long.rule(Node::And))).collect()
}

const UNFOLDED: [Long; 4] = [
    Long { form_words: 4_096, order: [2, 0, 1, 3, 4, 5], chains: [0, 1, 1, 0, 1, 42], goal: 2 },
    Long { form_words: 4_097, order: [2, 0, 1, 3, 4, 5], chains: [0, 1, 1, 0, 1, 42], goal: 3 },
    Long { form_words: 16_383, order: [2, 0, 1, 3, 4, 5], chains: [0, 1, 1, 0, 1, 231], goal: 4 },
    Long { form_words: 16_384, order: [2, 0, 1, 3, 4, 5], chains: [0, 1, 1, 0, 1, 231], goal: 5 },
];

impl Long {
    fn rule(&self, join: fn(Tree, Tree) -> Node) -> Vec<u32> {
        let mut forest = Forest::new();
        let next = |forest: &mut Forest, tree: Tree, times: usize| (0..times).fold(tree, |t, _| forest.grow(Node::Next(t)));
        let [p, q] = [1, 2].map(|n| forest.grow(Node::Letter(n)));
        let six = six(&mut forest, p, q);
        let mut joined = None;
        for (&n, &times) in self.order.iter().zip(&self.chains) {
            let all = match joined {
                None => six[n],
                Some(before) => forest.grow(join(before, six[n])),
            };
            joined = Some(next(&mut forest, all, times));
        }
        let goal = next(&mut forest, p, self.goal);
        let weak = forest.grow(Node::Weak(joined.expect("six words"), goal));
        let rule = forest.grow(Node::Until(q, weak));
        bits(&forest, rule)
    }
}

/// Six different U and M words over two others.
fn six(forest: &mut Forest, p: Tree, q: Tree) -> [Tree; 6] {
    let (pq, qp) = (forest.grow(Node::Until(p, q)), forest.grow(Node::Until(q, p)));
    let others = [Node::Until(pq, q), Node::Strong(pq, q), Node::Strong(p, q), Node::Strong(q, p)];
    let [a, b, c, d] = others.map(|node| forest.grow(node));
    [a, b, pq, qp, c, d]
}

/// Plain rules of ten until-like words (document 02, N6), outside Delta-2, whose forms have as many words as any slice counts for, and one
/// more: the form's words, without its header, and the rule's. Eight U words stand in one W word, joined by or, and that in a U word.
pub fn long_forms_of_ten() -> [(usize, Vec<u32>); 2] {
    let until = |letter: usize| format!("(p1 U p{letter})");
    let next = |times: usize| "X".repeat(times);
    // an X over the first j of the eight adds about 2^j words to the form, one over the goal a single one
    let over_first = [0, 1, 1, 0, 1, 1, 45];
    let join = |joined: String, (letter, times)| format!("{}({joined} | {})", next(times), until(letter));
    let eight = (3..).zip(over_first).fold(until(2), join);
    [0, 1].map(|times| (16_383 + times, bits_of(&format!("p1 U ({eight} W {}p1)", next(times)))))
}

#[cfg(test)]
mod tests {
    use super::*;
    use crate::checks::until_like;
    use crate::fold::fold;
    use crate::listing::list;
    use crate::steps::{is_delta_2, plain_words, rewritten_words, unfolded};

    /// The words of the plain form.
    fn plain(words: &[u32]) -> Vec<u32> {
        plain_words(&headed(words), limits_for(words)).expect("a rule").iter().map(|w| w.bits()).collect()
    }

    /// The words of a form, and those that it has before it is folded, of a plain rule outside Delta-2.
    fn form_words(words: &[u32], limits: Limits) -> (usize, usize) {
        assert!(!is_delta_2(words));
        let table = headed(words);
        let (forest, form) = unfolded(&table, limits).expect("it has a form");
        (rewritten_words(&table, limits).expect("it has a form").len(), list(&forest, form).len())
    }

    #[test]
    fn forms_are_as_long_as_said() {
        for (words, rule) in long_forms() {
            assert_eq!(form_words(&rule, limits_for(&rule)).0, words);
        }
        for (words, rule) in long_forms_of_ten() {
            assert_eq!(until_like(&rule).len(), 10);
            assert_eq!(form_words(&rule, Limits::HIGHEST).0, words);
        }
        for (words, rule) in long_unfolded() {
            let (folded, before) = form_words(&rule, limits_for(&rule));
            assert!(folded < 4_096 && before == words, "{folded} and {before}");
        }
        // the program takes those that are as long as its slice
        let taken = |words: &[(usize, Vec<u32>)]| words.iter().filter(|(_, rule)| rule.len() <= 64).count();
        assert_eq!([taken(&long_forms()), taken(&long_unfolded())], [2, 2]);
    }

    /// The kind of the word that a rule's form is, and of that which its first part is, 0 where that is no constant.
    fn constant_kinds((text, rule): (String, Vec<u32>)) -> (u32, u32) {
        let plain = plain(&rule);
        let (folded, before) = form_words(&plain, Limits::DESK);
        assert!(folded == 1 && before >= plain.len(), "{text}");
        let (mut forest, form) = unfolded(&headed(&plain), Limits::DESK).expect("it has a form");
        // the leftmost operand of the or of all parts
        let first = (1..1 << until_like(&plain).len()).fold(form, |tree, _| match forest.node(tree) {
            Node::Or(before, _) => before,
            _ => unreachable!("the parts are joined by or, from the left"),
        });
        let mut kind = |tree| match fold(&mut forest, tree) {
            folded if forest.node(folded) == Node::False => 1,
            folded if forest.node(folded) == Node::True => 2,
            _ => 0,
        };
        (kind(form), kind(first))
    }

    #[test]
    fn constant_forms_are_constants() {
        let kinds: Vec<(u32, u32)> = constant_forms().into_iter().map(constant_kinds).collect();
        assert_eq!(kinds[..10], [[(1, 1); 5], [(2, 2); 5]].concat());
        assert!(kinds[10..].iter().all(|&(form, first)| form == 2 && first != 2));
    }

    #[test]
    fn inside_and_outside_delta_2() {
        assert!(constants().iter().all(|text| is_delta_2(&plain(&bits_of(text)))));
        assert!(over_constants(&["p2", "true"]).iter().all(|(_, words)| !is_delta_2(&plain(words))));
        assert!(nested(2).iter().all(|(_, words)| is_delta_2(&plain(words)) && !is_delta_2(&plain(&outside_words(words)))));
        for kind in 8..12 {
            assert_eq!([1, 2, 3, 20].map(|k| is_delta_2(&chain_of(kind, k))), [true; 4]);
            assert_eq!([1, 2, 3, 20].map(|k| is_delta_2(&alternating(kind, k))), [true, true, false, false]);
        }
    }
}
