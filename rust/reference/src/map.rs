//! Maps and sets whose keys are small numbers of this program's own, so that no hash has to hold against chosen keys: a quick one. Trees are numbers from 0
//! on, and what is known of them stands in a vector.

use crate::forest::Tree;
use std::collections::{HashMap, HashSet};
use std::hash::{BuildHasherDefault, Hasher};
use std::ops::Index;

pub type Map<K, V> = HashMap<K, V, BuildHasherDefault<Mixed>>;
pub type Set<K> = HashSet<K, BuildHasherDefault<Mixed>>;

/// What is known of some trees of a forest.
pub struct TreeMap<V>(Vec<Option<V>>);

pub type TreeSet = TreeMap<()>;

impl<V> Default for TreeMap<V> {
    fn default() -> TreeMap<V> {
        TreeMap(Vec::new())
    }
}

impl<V> TreeMap<V> {
    pub fn get(&self, tree: Tree) -> Option<&V> {
        self.0.get(tree.number())?.as_ref()
    }

    pub fn contains(&self, tree: Tree) -> bool {
        self.get(tree).is_some()
    }

    pub fn insert(&mut self, tree: Tree, value: V) {
        if self.0.len() <= tree.number() {
            self.0.resize_with(tree.number() + 1, || None);
        }
        self.0[tree.number()] = Some(value);
    }
}

impl<V> Index<Tree> for TreeMap<V> {
    type Output = V;

    fn index(&self, tree: Tree) -> &V {
        self.get(tree).expect("a tree of which something is known")
    }
}

impl<V> FromIterator<(Tree, V)> for TreeMap<V> {
    fn from_iter<I: IntoIterator<Item = (Tree, V)>>(known: I) -> TreeMap<V> {
        let mut map = TreeMap::default();
        known.into_iter().for_each(|(tree, value)| map.insert(tree, value));
        map
    }
}

/// Each number is mixed in by a multiplication with an odd one.
#[derive(Default)]
pub struct Mixed(u64);

impl Mixed {
    fn mix(&mut self, n: u64) {
        self.0 = (self.0.rotate_left(5) ^ n).wrapping_mul(0x517c_c1b7_2722_0a95);
    }
}

impl Hasher for Mixed {
    fn finish(&self) -> u64 {
        self.0.rotate_left(26)
    }

    fn write(&mut self, bytes: &[u8]) {
        for &b in bytes {
            self.mix(u64::from(b));
        }
    }

    fn write_u32(&mut self, n: u32) {
        self.mix(u64::from(n));
    }

    fn write_u64(&mut self, n: u64) {
        self.mix(n);
    }

    fn write_usize(&mut self, n: usize) {
        self.mix(n as u64);
    }

    fn write_isize(&mut self, n: isize) {
        self.mix(n as u64);
    }
}
