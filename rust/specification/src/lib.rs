//! Reads the Rattle crates of this repository: who uses whom.
//!
//! `uncited` finds what nothing cites, `mixed` the files that mix what readers
//! believe with what functions promise each other, `twice` the words that stand for
//! two things, `page` writes what a reader has to believe.

#![forbid(unsafe_code)]

pub mod belief;
pub mod blocks;
pub mod code;
pub mod documents;
pub mod excerpts;
pub mod files;
pub mod graph;
pub mod index;
pub mod lexemes;
pub mod names;
pub mod page;
pub mod repository;
pub mod rules;
pub mod scope;
pub mod tidy;
pub mod tokens;
pub mod twice;
pub mod uncited;
pub mod words;
