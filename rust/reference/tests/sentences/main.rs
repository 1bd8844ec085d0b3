//! The reference held to the sentences of documents 01 and 02, and to its own judge, checks and classes over random rules. One program, so that it is compiled once.
mod after;
mod automata;
mod document01;
mod document02;
mod folding;
mod forms;
mod parts;
mod random;
