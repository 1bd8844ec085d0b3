//! Looped recordings, and truth found by walking along one.
use crate::forest::{Forest, Node, Tree};
use crate::map::TreeMap;

/// Samples, the loop start, and how many letters are driven: letters 1 to that one.
#[derive(Clone, Copy)]
pub struct Recording<'a> {
    pub samples: &'a [u32],
    pub start: usize,
    pub driven: usize,
}

impl Recording<'_> {
    pub fn len(&self) -> usize {
        self.samples.len()
    }

    pub fn is_empty(&self) -> bool {
        self.samples.is_empty()
    }

    /// The recorded moment that comes after one.
    pub fn after(&self, i: usize) -> usize {
        if i + 1 < self.len() {
            i + 1
        } else {
            self.start
        }
    }

    /// Every moment from i on, the present included, each that is different once.
    fn walk(&self, i: usize) -> impl Iterator<Item = usize> + '_ {
        let different = self.len() - i.min(self.start);
        std::iter::successors(Some(i), |&k| Some(self.after(k))).take(different)
    }

    /// The recorded moment of each moment from 0 on.
    pub fn for_ever(&self) -> impl Iterator<Item = usize> + '_ {
        std::iter::successors(Some(0), |&k| Some(self.after(k)))
    }

    /// So many moments until this recording and another are both in their loops, and then until both begin them anew at once.
    pub fn together(&self, other: &Recording) -> usize {
        let (p, q) = (self.len() - self.start, other.len() - other.start);
        let again = (1..=q).map(|times| times * p).find(|moments| moments.is_multiple_of(q)).expect("q times p");
        self.start.max(other.start) + again
    }

    /// Whether recorded moment i has the same driven letters as moment j of another recording that drives as many.
    pub fn alike(&self, i: usize, other: &Recording, j: usize) -> bool {
        self.samples[i] == other.samples[j] || (1..=self.driven).all(|n| self.letter(n, i) == other.letter(n, j))
    }

    /// A letter that is driven; the bits of others are no reading.
    fn letter(&self, n: usize, i: usize) -> bool {
        assert!((1..=self.driven).contains(&n), "letter {n} is not driven");
        self.samples[i] >> (n - 1) & 1 == 1
    }

    /// b at some moment, and a at every one before it.
    fn until(&self, a: &[bool], b: &[bool], i: usize) -> bool {
        for k in self.walk(i) {
            if b[k] {
                return true;
            }
            if !a[k] {
                return false;
            }
        }
        false
    }

    /// a at some moment, and b at every one up to it, that one included.
    fn strong(&self, a: &[bool], b: &[bool], i: usize) -> bool {
        for k in self.walk(i) {
            if !b[k] {
                return false;
            }
            if a[k] {
                return true;
            }
        }
        false
    }

    fn always(&self, a: &[bool], i: usize) -> bool {
        self.walk(i).all(|k| a[k])
    }

    fn sometime(&self, a: &[bool], i: usize) -> bool {
        self.walk(i).any(|k| a[k])
    }
}

/// Truth of trees at every recorded moment.
pub struct Truth<'a> {
    recording: Recording<'a>,
    at: TreeMap<Vec<bool>>,
}

impl<'a> Truth<'a> {
    /// Of these trees; operands come before what is made of them.
    pub fn of(forest: &Forest, trees: &[Tree], recording: Recording<'a>) -> Truth<'a> {
        let mut truth = Truth { recording, at: TreeMap::default() };
        for &tree in trees {
            let moments = (0..recording.len()).map(|i| truth.holds(forest.node(tree), i)).collect();
            truth.at.insert(tree, moments);
        }
        truth
    }

    pub fn row(&self, tree: Tree) -> &[bool] {
        &self.at[tree]
    }

    /// The row as document 01 packs it: moment i is bit (i mod 64) of word i / 64.
    pub fn packed(&self, tree: Tree) -> Vec<u64> {
        self.row(tree).chunks(64).map(|c| (0..).zip(c).map(|(bit, &holds)| (holds as u64) << bit).sum()).collect()
    }

    fn holds(&self, node: Node, i: usize) -> bool {
        let r = self.recording;
        let row = |tree: Tree| self.row(tree);
        match node {
            Node::False => false,
            Node::True => true,
            Node::Letter(n) => r.letter(n, i),
            Node::NotLetter(n) => !r.letter(n, i),
            Node::And(a, b) => row(a)[i] && row(b)[i],
            Node::Or(a, b) => row(a)[i] || row(b)[i],
            Node::Next(a) => row(a)[r.after(i)],
            Node::Until(a, b) => r.until(row(a), row(b), i),
            Node::Weak(a, b) => r.always(row(a), i) || r.until(row(a), row(b), i),
            Node::Release(a, b) => r.always(row(b), i) || r.strong(row(a), row(b), i),
            Node::Strong(a, b) => r.strong(row(a), row(b), i),
            Node::Not(a) => !row(a)[i],
            Node::Finally(a) => r.sometime(row(a), i),
            Node::Globally(a) => r.always(row(a), i),
            Node::Implies(a, b) => !row(a)[i] || row(b)[i],
        }
    }
}
