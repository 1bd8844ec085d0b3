//! Documents 01 and 02 said once more, apart from the product: rules are trees, M and N are sets of trees, classes are sets, and
//! truth is found by walking along the recording. It shares no code with the product and follows the sentences of
//! document 01 (and the definitions of source 002 that it names), not the product's definitions. It is slow on purpose.
//!
//! `steps` has every step as a desk calls it, slices and all; the other modules say what the steps are made of.

pub mod after;
pub mod automaton;
pub mod checks;
pub mod class;
pub mod dialect;
pub mod edges;
pub mod fold;
pub mod forest;
pub mod header;
pub mod limits;
pub mod listing;
pub mod map;
pub mod normal;
pub mod plain;
pub mod program;
pub mod recording;
pub mod rules;
pub mod steps;
pub mod text;
pub mod texts;
pub mod typed;
pub mod word;
