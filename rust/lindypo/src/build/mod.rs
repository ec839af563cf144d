//! Sheets made by programs: Groups, values, functions and expressions go in,
//! and the text of a sheet comes out, its labels numbered.
//!
//! ```
//! use lindypo::build::{argument, call, read, Group};
//! use lindypo::{Sheet, State};
//!
//! let mut lens = Group::new();
//! lens.value("sphere", -325).value("prism", call("percent", read("sphere")));
//! let mut outermost = Group::new();
//! outermost
//!     .value("total", read("right.prism") + read("left.prism"))
//!     .function("percent", argument() * 10 / 100)
//!     .group("right", lens.clone())
//!     .group("left", lens);
//!
//! let text = outermost.text()?;
//! let sheet = Sheet::read(&text)?;
//! let run = sheet.run()?;
//! let total = sheet.find("total").unwrap();
//! assert_eq!(run.results.of(total).unwrap().state, State::Number(-66));
//! # Ok::<(), Box<dyn std::error::Error>>(())
//! ```
//!
//! What is built passes rows 1 to 3 and 5 to 11 of the paper's table of
//! refusals, or [`Group::text`] says what is wrong. Whether names are there
//! once and paths lead somewhere, rows 12 to 16, is for `Sheet::read` and
//! `Sheet::plan` to judge.

mod check;
mod expression;
mod group;
mod lines;
mod mistake;

pub(crate) use check::MOST_LINES;
pub(crate) use expression::Node;
pub use expression::{argument, call, choice, number, read, Expression};
pub use group::Group;
pub(crate) use group::{Content, Definition};
pub use mistake::Mistake;
pub(crate) use mistake::Place;
