//! The fuzzer's half in Rust; fuzz/calls.c is the other.
//!
//! `settings` and `input` say what the bytes of an input stand for, `change`
//! makes new inputs of old ones, and `exports` is what C sees: for an input, all
//! that the calls are lent and what the reference wants of each.

mod change;
mod exports;
mod input;
mod settings;

pub use change::{change, join};
pub use input::decode;
pub use settings::Settings;
