//! The calls as the C interface has them: every buffer is the caller's, and
//! cells are numbers.
//!
//! A call takes every text, order list, list of pairs, label and length of
//! buffer, and writes every cell of the buffers: what an answer does not use is
//! 0, and a refusal leaves zeros throughout. It allocates nothing and runs in a
//! thread stack of 2 MiB. For n labels the table needs 8n cells, a plan n,
//! results 3n; 1,024 labels at most. For k pairs the changes need 3k; 1,024
//! pairs at most.
//!
//! Line one of the text says where a quotient goes that is a half: away from zero
//! under `kind name a b c`, to the even neighbour under `kind2 name a b c`.
//!
//! Each call is here twice: with its answer as a `Result`, and with its reply
//! as the C interface gives it. The program's print, which is no call of
//! document 01, is here once.

mod exports;
mod reply;

pub use reply::{Part, Printed, Refusal, Reply};

use crate::Order;

/// Read: writes the table and answers the number n of labels.
///
/// The table then holds eight cells for each label: kind code, name start,
/// name length, a, b, c, owner and target; and zeros after these 8n. A refusal
/// leaves zeros through the whole table.
///
/// ```
/// let sheet = b"kind name a b c\nG - 0 - -\nV x 1 3 -\nN - 7 - -\n";
/// let mut table = [-1; 25];
/// assert_eq!(lindypo::raw::read(sheet, &mut table), Ok(3));
/// assert_eq!(table[..8], [1, 0, 0, 0, 0, 0, 0, 0]);
/// assert_eq!(table[8..16], [2, 28, 1, 1, 3, 0, 1, 0]);
/// assert_eq!(table[16..24], [4, 0, 0, 7, 0, 0, 2, 0]);
/// assert_eq!(table[24], 0);
///
/// let unused = b"kind name a b c\nG - 0 - -\nN - 7 - -\n";
/// let refusal = lindypo::raw::Refusal { number: 9, place: 2 };
/// assert_eq!(lindypo::raw::read(unused, &mut table), Err(refusal));
/// assert_eq!(table, [0; 25]);
/// ```
pub fn read(text: &[u8], table: &mut [i64]) -> Result<usize, Refusal> {
    read_reply(text, table).counted()
}

/// `read` with its reply as the C interface gives it.
///
/// ```
/// let reply = lindypo::raw::read_reply(b"kind name a b c\nG - 0 - -\n", &mut [0; 7]);
/// let too_short = lindypo::raw::Reply { refusal: 4, place: 1, count: 0, order: 0 };
/// assert_eq!(reply, too_short);
/// ```
pub fn read_reply(text: &[u8], table: &mut [i64]) -> Reply {
    // SAFETY: the function asks nothing of its arguments but that each pointer
    // and length are those of a slice, the table's lent to it alone. An empty
    // slice, too, has a pointer that is not null and is aligned.
    unsafe { exports::lindypo_read(text.as_ptr(), text.len(), table.as_mut_ptr(), table.len()) }
}

/// Name: writes the table as `read` does and hands back the label's name field
/// as that very part of the text. It is empty where `read` would refuse, where
/// the label is not from 1 to n, and where the field is `-`.
///
/// ```
/// let sheet = b"kind name a b c\nG - 0 - -\nG right 1 - -\n";
/// let mut table = [0; 16];
/// let name = lindypo::raw::name(sheet, &mut table, 2);
/// assert_eq!(name, b"right");
/// assert_eq!(name.as_ptr(), sheet[28..].as_ptr());
/// assert_eq!(table[8..], [1, 28, 5, 1, 0, 0, 1, 0]);
///
/// assert_eq!(lindypo::raw::name(sheet, &mut table, 1), b"");
/// assert_eq!(lindypo::raw::name(sheet, &mut table, 3), b"");
/// ```
pub fn name<'a>(text: &'a [u8], table: &mut [i64], label: i64) -> &'a [u8] {
    name_part(text, table, label).of(text)
}

/// `name` with the part as the C interface gives it.
///
/// ```
/// let sheet = b"kind name a b c\nG - 0 - -\nG right 1 - -\n";
/// let part = lindypo::raw::name_part(sheet, &mut [0; 16], 2);
/// assert_eq!(part, lindypo::raw::Part { start: 28, length: 5 });
/// ```
pub fn name_part(text: &[u8], table: &mut [i64], label: i64) -> Part {
    let (cells, length) = (table.as_mut_ptr(), table.len());
    // SAFETY: as for `read_reply`; every label will do.
    unsafe { exports::lindypo_name(text.as_ptr(), text.len(), cells, length, label) }
}

/// Plan: writes the table as `read` does, and the plan: the labels of all
/// values, each after every value that it reaches, then zeros. Answers how many
/// there are and whether the plan is whole or mixed.
///
/// ```
/// use lindypo::raw::Refusal;
/// use lindypo::Order;
///
/// let sheet = b"kind name a b c\n\
///     G - 0 - -\n\
///     V total 1 3 -\n\
///     R part - - -\n\
///     V part 1 5 -\n\
///     N - 7 - -\n";
/// let (mut table, mut plan) = ([0; 40], [-1; 5]);
/// assert_eq!(lindypo::raw::plan(sheet, &mut table, &mut plan), Ok((2, Order::Whole)));
/// assert_eq!(plan, [4, 2, 0, 0, 0]);
///
/// let itself = b"kind name a b c\nG - 0 - -\nV x 1 3 -\nR x - - -\n";
/// let refusal = Refusal { number: 16, place: 2 };
/// assert_eq!(lindypo::raw::plan(itself, &mut table, &mut plan), Err(refusal));
/// assert_eq!(plan, [0; 5]);
/// ```
pub fn plan(text: &[u8], table: &mut [i64], plan: &mut [i64]) -> Result<(usize, Order), Refusal> {
    plan_reply(text, table, plan).planned()
}

/// `plan` with its reply as the C interface gives it.
///
/// ```
/// let sheet = b"kind name a b c\nG - 0 - -\n";
/// let reply = lindypo::raw::plan_reply(sheet, &mut [0; 8], &mut [0; 1]);
/// let whole = lindypo::raw::Reply { refusal: 0, place: 0, count: 0, order: 1 };
/// assert_eq!(reply, whole);
/// ```
pub fn plan_reply(text: &[u8], table: &mut [i64], plan: &mut [i64]) -> Reply {
    // SAFETY: as for `read_reply`; table and plan are two slices, each lent to
    // the function alone.
    unsafe {
        exports::lindypo_plan(
            text.as_ptr(),
            text.len(),
            table.as_mut_ptr(),
            table.len(),
            plan.as_mut_ptr(),
            plan.len(),
        )
    }
}

/// Run: writes table and plan as `plan` does, evaluates the values down the
/// plan and writes the results. Answers as `plan` does.
///
/// The results then hold three cells for each label: state, number and steps;
/// zeros for a line that is no value, and after these 3n. States are 1 a
/// number, 2 out of the number range, 3 divided by zero, 4 no step left of
/// 20,000, 5 a call at depth 64; the number is 0 where the state is not 1.
///
/// ```
/// use lindypo::Order;
///
/// let sheet = b"kind name a b c\n\
///     G - 0 - -\n\
///     V x 1 3 -\n\
///     D - 4 5 -\n\
///     N - 7 - -\n\
///     N - 2 - -\n";
/// let (mut table, mut plan, mut results) = ([0; 40], [0; 5], [-1; 16]);
/// let answer = lindypo::raw::run(sheet, &mut table, &mut plan, &mut results);
/// assert_eq!(answer, Ok((1, Order::Whole)));
/// assert_eq!(plan, [2, 0, 0, 0, 0]);
/// assert_eq!(results[3..6], [1, 4, 3]);
/// assert_eq!(results[6..], [0; 10]);
/// ```
pub fn run(
    text: &[u8],
    table: &mut [i64],
    plan: &mut [i64],
    results: &mut [i64],
) -> Result<(usize, Order), Refusal> {
    run_reply(text, table, plan, results).planned()
}

/// `run` with its reply as the C interface gives it.
///
/// ```
/// let sheet = b"kind name a b c\nG - 0 - -\n";
/// let reply = lindypo::raw::run_reply(sheet, &mut [0; 8], &mut [0; 1], &mut [0; 2]);
/// let too_short = lindypo::raw::Reply { refusal: 4, place: 3, count: 0, order: 0 };
/// assert_eq!(reply, too_short);
/// ```
pub fn run_reply(text: &[u8], table: &mut [i64], plan: &mut [i64], results: &mut [i64]) -> Reply {
    // SAFETY: as for `plan_reply`, with one slice more.
    unsafe {
        exports::lindypo_run(
            text.as_ptr(),
            text.len(),
            table.as_mut_ptr(),
            table.len(),
            plan.as_mut_ptr(),
            plan.len(),
            results.as_mut_ptr(),
            results.len(),
        )
    }
}

/// Follow: writes table and results as `run` does, down an order of the
/// caller's in place of a plan. Answers its length.
///
/// The order has to list every value once, each after every value that it
/// reaches; the results are then those of `run`, whichever such order it is.
///
/// ```
/// use lindypo::raw::Refusal;
///
/// let sheet = b"kind name a b c\n\
///     G - 0 - -\n\
///     V total 1 3 -\n\
///     R part - - -\n\
///     V part 1 5 -\n\
///     N - 7 - -\n";
/// let (mut table, mut results) = ([0; 40], [0; 15]);
/// assert_eq!(lindypo::raw::follow(sheet, &[4, 2], &mut table, &mut results), Ok(2));
/// assert_eq!(results, [0, 0, 0, 1, 7, 1, 0, 0, 0, 1, 7, 1, 0, 0, 0]);
///
/// let early = Refusal { number: 18, place: 1 };
/// assert_eq!(lindypo::raw::follow(sheet, &[2, 4], &mut table, &mut results), Err(early));
/// let missing = Refusal { number: 17, place: 2 };
/// assert_eq!(lindypo::raw::follow(sheet, &[4], &mut table, &mut results), Err(missing));
/// assert_eq!(results, [0; 15]);
/// ```
pub fn follow(
    text: &[u8],
    order: &[i64],
    table: &mut [i64],
    results: &mut [i64],
) -> Result<usize, Refusal> {
    follow_reply(text, order, table, results).counted()
}

/// `follow` with its reply as the C interface gives it.
///
/// ```
/// let sheet = b"kind name a b c\nG - 0 - -\n";
/// let reply = lindypo::raw::follow_reply(sheet, &[1], &mut [0; 8], &mut [0; 3]);
/// let no_value = lindypo::raw::Reply { refusal: 17, place: 1, count: 0, order: 0 };
/// assert_eq!(reply, no_value);
/// ```
pub fn follow_reply(text: &[u8], order: &[i64], table: &mut [i64], results: &mut [i64]) -> Reply {
    // SAFETY: as for `plan_reply`; the order is read only.
    unsafe {
        exports::lindypo_follow(
            text.as_ptr(),
            text.len(),
            order.as_ptr(),
            order.len(),
            table.as_mut_ptr(),
            table.len(),
            results.as_mut_ptr(),
            results.len(),
        )
    }
}

/// Retouch: writes table, plan and results as `run` does, then puts new numbers
/// into N lines, one after the other, and evaluates again what depends on them.
/// Answers as `run` does.
///
/// The pairs are label, number, label, number, and so on. After each pair the
/// value that owns the line and all values that reach its owner are evaluated
/// again, and no others. The results are those of `run` on the sheet with all
/// numbers put in, and cell a of the table has each new number.
///
/// The changes then hold three cells for each pair: how many values were
/// evaluated again, how many values of the sheet then fail, and the sum of the
/// steps of all; and zeros after these.
///
/// ```
/// use lindypo::raw::{retouch, Refusal};
/// use lindypo::Order;
///
/// let sheet = b"kind name a b c\n\
///     G - 0 - -\n\
///     V total 1 4 -\n\
///     V part 1 7 -\n\
///     D - 5 6 -\n\
///     R part - - -\n\
///     N - 2 - -\n\
///     N - 7 - -\n";
/// let (mut table, mut plan, mut results) = ([0; 56], [0; 7], [0; 21]);
/// let mut changes = [-1; 7];
/// let pairs = [7, 12, 6, 0];
/// let answer = retouch(sheet, &pairs, &mut table, &mut plan, &mut results, &mut changes);
/// assert_eq!(answer, Ok((2, Order::Whole)));
/// assert_eq!(changes, [2, 0, 4, 1, 1, 4, 0]);
/// assert_eq!(results[3..9], [3, 0, 3, 1, 12, 1]);
/// assert_eq!((table[43], table[51]), (0, 12));
///
/// let no_number = Refusal { number: 20, place: 2 };
/// let pairs = [7, 12, 3, 12];
/// let answer = retouch(sheet, &pairs, &mut table, &mut plan, &mut results, &mut changes);
/// assert_eq!(answer, Err(no_number));
/// assert_eq!(changes, [0; 7]);
/// ```
pub fn retouch(
    text: &[u8],
    pairs: &[i64],
    table: &mut [i64],
    plan: &mut [i64],
    results: &mut [i64],
    changes: &mut [i64],
) -> Result<(usize, Order), Refusal> {
    retouch_reply(text, pairs, table, plan, results, changes).planned()
}

/// `retouch` with its reply as the C interface gives it.
///
/// ```
/// use lindypo::raw::{retouch_reply, Reply};
///
/// let sheet = b"kind name a b c\nG - 0 - -\n";
/// let (table, plan, results) = (&mut [0; 8], &mut [0; 1], &mut [0; 3]);
/// let reply = retouch_reply(sheet, &[1, 7], table, plan, results, &mut [0; 2]);
/// let too_short = Reply { refusal: 4, place: 4, count: 0, order: 0 };
/// assert_eq!(reply, too_short);
///
/// let reply = retouch_reply(sheet, &[1], table, plan, results, &mut []);
/// let odd = Reply { refusal: 19, place: 0, count: 0, order: 0 };
/// assert_eq!(reply, odd);
/// ```
pub fn retouch_reply(
    text: &[u8],
    pairs: &[i64],
    table: &mut [i64],
    plan: &mut [i64],
    results: &mut [i64],
    changes: &mut [i64],
) -> Reply {
    // SAFETY: as for `run_reply`, with one slice more; the pairs are read only.
    unsafe {
        exports::lindypo_retouch(
            text.as_ptr(),
            text.len(),
            pairs.as_ptr(),
            pairs.len(),
            table.as_mut_ptr(),
            table.len(),
            plan.as_mut_ptr(),
            plan.len(),
            results.as_mut_ptr(),
            results.len(),
            changes.as_mut_ptr(),
            changes.len(),
        )
    }
}

/// No print has more bytes: 36 for the column names, 48 for each of 1,024
/// labels.
pub const PRINT_MOST: usize = 49_188;

/// The program's print of a sheet, as much of it as `out` has room for, then
/// zeros. A refusal is printed, too. The sheet is run with buffers of the
/// library's own, in which row 4 finds nothing.
///
/// The length answered is that of the whole print: where it is above that of
/// `out`, the end is missing.
///
/// ```
/// use lindypo::raw::{Printed, Refusal};
///
/// let sheet = b"kind name a b c\nG - 0 - -\nV x 1 3 -\nN - 7 - -\n";
/// let mut out = [b'?'; 60];
/// let printed = lindypo::raw::print(sheet, &mut out);
/// assert_eq!(printed, Printed { refusal: 0, place: 0, length: 52 });
/// assert_eq!(out[..52], *b"label name order state number steps\n2 x whole 1 7 1\n");
/// assert_eq!(out[52..], [0; 8]);
///
/// let mut start = [b'?'; 5];
/// assert_eq!(lindypo::raw::print(sheet, &mut start), printed);
/// assert_eq!(start, *b"label");
///
/// let refused = lindypo::raw::print(b"kind name a b c\n", &mut out).refused();
/// assert_eq!(refused, Some(Refusal { number: 3, place: 0 }));
/// assert_eq!(out[..18], *b"refusal place\n3 0\n");
/// assert_eq!(out[18..], [0; 42]);
/// ```
pub fn print(text: &[u8], out: &mut [u8]) -> Printed {
    // SAFETY: as for `read_reply`; the bytes to write are lent to the function
    // alone.
    unsafe { exports::lindypo_print(text.as_ptr(), text.len(), out.as_mut_ptr(), out.len()) }
}
