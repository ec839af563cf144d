//! The command `lindypo`: order sheets run, planned, explained and checked.
//!
//! What is said is the library's; this crate only arranges it. `words` has the
//! table of the command's words, each a module of its own; what they share is in
//! `options` and `sheets` (the words that are given to them, and the sheets),
//! `input`, `output`, `json` and `status`.

#![forbid(unsafe_code)]

pub mod blocks;
pub mod check;
mod document;
mod excerpt;
pub mod explain;
mod files;
mod follow;
mod formulas;
pub mod help;
pub mod input;
pub mod json;
mod labels;
mod markup;
pub mod mentions;
mod numerals;
pub mod options;
mod outline;
pub mod output;
pub mod picture;
mod plan;
pub mod retouch;
mod rules;
mod run;
pub mod sheets;
mod show;
pub mod slip;
pub mod status;
pub mod svg;
mod table;
mod tangles;
mod tree;
mod values;
mod why;
pub mod words;
mod write;

pub use tree::{Node, Span};
