//! What C sees; fuzz/oracle.h has the same for C.

use std::slice;

use checks::{Call, Expected, Outcome, Tally, Trial};
use generator::{Case, Rng};
use lindypo::raw::{Part, Printed, Reply};

/// The input at hand, and what all inputs came to.
#[derive(Default)]
pub struct Oracle {
    held: Option<Held>,
    execution: Option<Execution>,
    tally: Tally,
}

/// What an input stands for; an execution points into it.
struct Held {
    case: Case,
    expected: Expected,
}

/// What one call replies and leaves in table, plan, results and changes.
#[repr(C)]
pub struct WantedCells {
    reply: Reply,
    cells: [*const i64; 4],
}

/// What the calls are lent, and what they have to give.
#[repr(C)]
pub struct Execution {
    text: *const u8,
    text_length: usize,
    order: *const i64,
    order_length: usize,
    pairs: *const i64,
    pairs_length: usize,
    /// Cells of table, plan, results and changes.
    lengths: [usize; 4],
    rubbish: i64,
    label: i64,
    /// Read, Plan, Run, Follow, Retouch.
    wanted: [WantedCells; Call::COUNT],
    name: Part,
    /// The bytes lent for the print, what it answers and leaves in them.
    print_length: usize,
    printed: Printed,
    print: *const u8,
}

impl Execution {
    fn new(held: &Held) -> Self {
        let Held { case, expected } = held;
        let Expected {
            calls,
            names,
            print,
        } = expected;
        Execution {
            text: case.text.as_ptr(),
            text_length: case.text.len(),
            order: case.order.as_ptr(),
            order_length: case.order.len(),
            pairs: case.pairs.as_ptr(),
            pairs_length: case.pairs.len(),
            lengths: [case.table, case.plan, case.results, case.changes],
            rubbish: case.rubbish,
            label: case.label,
            wanted: calls.each_ref().map(|wanted| WantedCells {
                reply: wanted.reply,
                cells: wanted.buffers.each_ref().map(|cells| cells.as_ptr()),
            }),
            name: names[0].part,
            print_length: case.print,
            printed: print.printed,
            print: print.out.as_ptr(),
        }
    }
}

impl Oracle {
    /// What the reference wants for an input.
    fn take(&mut self, input: &[u8]) -> &Execution {
        let case = crate::decode(input);
        let trial = Trial::of(&case);
        let expected = trial.expected(|_| vec![case.label]);
        let expected = expected.unwrap_or_else(|difference| panic!("{difference}"));
        self.tally.add(Outcome::new(&trial, &expected));
        let held = self.held.insert(Held { case, expected });
        self.execution.insert(Execution::new(held))
    }
}

/// The bytes that C passes as pointer and length.
///
/// # Safety
///
/// So many bytes can be read there until the part is let go.
unsafe fn part<'a>(data: *const u8, size: usize) -> &'a [u8] {
    match size {
        0 => &[],
        // SAFETY: the caller's promise.
        _ => unsafe { slice::from_raw_parts(data, size) },
    }
}

/// Writes a new input, if there is room for it, and gives its length.
///
/// # Safety
///
/// So many bytes as `room` says can be written there.
unsafe fn put(input: &[u8], data: *mut u8, size: usize, room: usize) -> usize {
    if input.is_empty() || input.len() > room {
        return size;
    }
    // SAFETY: the caller's promise; the input is not longer than the room.
    unsafe { data.copy_from_nonoverlapping(input.as_ptr(), input.len()) };
    input.len()
}

/// A new oracle, never let go.
#[no_mangle]
pub extern "C" fn oracle_new() -> *mut Oracle {
    Box::into_raw(Box::default())
}

/// What an input stands for; it holds until the next is taken.
///
/// # Safety
///
/// The oracle is one of `oracle_new`, used by one thread; `size` bytes can be
/// read at `data`.
#[no_mangle]
pub unsafe extern "C" fn oracle_take(
    oracle: *mut Oracle,
    data: *const u8,
    size: usize,
) -> *const Execution {
    // SAFETY: the caller's promises.
    unsafe { (*oracle).take(part(data, size)) }
}

/// The input changed in place; gives its new length.
///
/// # Safety
///
/// `size` bytes can be read at `data`, and `room` written.
#[no_mangle]
pub unsafe extern "C" fn oracle_change(
    data: *mut u8,
    size: usize,
    room: usize,
    seed: u32,
) -> usize {
    let rng = &mut Rng::new(u64::from(seed));
    // SAFETY: the caller's promises; the new input is a list of its own.
    unsafe { put(&crate::change(rng, part(data, size)), data, size, room) }
}

/// Two inputs joined into `data`; gives the length, 0 where there is no room.
///
/// # Safety
///
/// So many bytes can be read at `first` and `second`, and `room` written at
/// `data`.
#[no_mangle]
pub unsafe extern "C" fn oracle_join(
    first: *const u8,
    first_size: usize,
    second: *const u8,
    second_size: usize,
    data: *mut u8,
    room: usize,
) -> usize {
    // SAFETY: the caller's promises.
    unsafe {
        let joined = crate::join(part(first, first_size), part(second, second_size));
        put(&joined, data, 0, room)
    }
}

/// Prints what all inputs taken came to.
///
/// # Safety
///
/// The oracle is one of `oracle_new`, used by one thread.
#[no_mangle]
pub unsafe extern "C" fn oracle_report(oracle: *const Oracle) {
    // SAFETY: the caller's promise.
    println!("{}", unsafe { &(*oracle).tally });
}
