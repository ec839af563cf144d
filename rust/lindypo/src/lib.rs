//! Order sheets of a lens laboratory: read, planned and evaluated by proved
//! code.
//!
//! A sheet is a small program: values and functions in nested Groups that name
//! each other by dotted paths, in capitals or small letters. [`Sheet::read`]
//! judges its text; the sheet then gives its lines and names, its [`Plan`], and
//! its results, by the plan or by an order of the caller's, or with new numbers
//! put in.
//!
//! ```
//! use lindypo::{Order, Sheet, State};
//!
//! let sheet = Sheet::read(
//!     b"kind name a b c\n\
//!       G - 0 - -\n\
//!       V total 1 4 -\n\
//!       V part 1 7 -\n\
//!       D - 5 6 -\n\
//!       R part - - -\n\
//!       N - 2 - -\n\
//!       N - 7 - -\n",
//! )?;
//! let run = sheet.run()?;
//! assert_eq!(run.plan.order, Order::Whole);
//! for (label, outcome) in run.values() {
//!     println!("{}: {} in {} steps", sheet.full_name(label), outcome.state, outcome.steps);
//! }
//! let total = sheet.find("total").unwrap();
//! assert_eq!(run.results.of(total).unwrap().state, State::Number(4));
//! # Ok::<(), lindypo::Refusal>(())
//! ```
//!
//! Line one names the tie rule, which says where a quotient goes that is a half:
//! under `kind name a b c` away from zero, so that 7 / 2 is 4 and 5 / 2 is 3, under
//! `kind2 name a b c` to the even neighbour, so that 7 / 2 is 4 and 5 / 2 is 2. See
//! [`Ties`].
//!
//! A sheet that breaks a rule is refused. The [`Refusal`] has the number and
//! the place that the library proves, and says in words what is wrong and where:
//!
//! ```
//! use lindypo::{Refusal, Sheet};
//!
//! let refusal = Sheet::read(b"kind name a b c\nG - 0 - -\nV x 1 3 -\nR y - - -\n").unwrap_err();
//! assert!(matches!(refusal, Refusal::Head(_)));
//! assert_eq!((refusal.number(), refusal.place()), (13, 3));
//! assert_eq!((refusal.line(), refusal.column()), (Some(4), Some(3)));
//! assert_eq!(
//!     refusal.to_string(),
//!     "refusal 13, line 4, column 3: the outermost Group has no member `y`"
//! );
//! ```
//!
//! Sheets are made by programs with [`build`], and written and shown as formulas
//! with [`formula`].
//!
//! What is proved is what the static library gives: whether a sheet is refused,
//! by which number and at which place; every cell of the table, of the plan and
//! of the results. The types here carry that and add words. The library's own
//! calls, over buffers of the caller's, are in [`raw`].

mod answer;
pub mod build;
mod diagnosis;
mod faults;
pub mod formula;
mod line;
mod names;
pub mod raw;
mod refusal;
mod sheet;
mod ties;
pub mod why;

pub use answer::{Change, Order, Outcome, Plan, Results, Retouched, Run, State};
pub use diagnosis::bytes::MOST_BYTES;
pub use diagnosis::numbers::typed as typed_number;
pub use faults::faults;
pub use line::{Kind, Line};
pub use names::same_name;
pub use refusal::{Fault, Help, Mark, Refusal};
pub use sheet::Sheet;
pub use ties::Ties;

/// Counts the lines after line one from 1: label k stands in line k + 1.
pub type Label = usize;
