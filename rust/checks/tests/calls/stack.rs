//! Every call in a small stack.

use std::thread;

use crate::agree;

/// The stack that a thread has by default, in bytes.
const STACK: usize = 2 << 20;

/// The worst shapes, the deepest calls among them, and random sheets.
#[test]
fn small_stack() {
    let work = || {
        for shape in generator::shapes() {
            agree(&shape.text);
        }
        for seed in 0..500 {
            checks::check_seed(seed).unwrap_or_else(|difference| panic!("{difference}"));
        }
    };
    let builder = thread::Builder::new().stack_size(STACK);
    let worker = builder.spawn(work).expect("a thread");
    worker.join().expect("no overflow and no difference");
}
