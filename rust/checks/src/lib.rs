//! The proved library against the Rust reference.
//!
//! A trial lends both the same text, order list, list of pairs and lengths of
//! buffers, full of rubbish beforehand, and compares the replies and every cell:
//! for Read, Plan, Run, Follow and Retouch, for Name with each of many labels, and
//! for the print, in a buffer that may be too short for it. What the library is
//! lent stands between canaries: cells that must stay as they are, and bytes
//! around the text and cells around the lists that would change the reply if
//! they were read. A random trial also lends the library the same sheet with the
//! case of letters changed in its names and paths, which has to give the same.
//!
//! Beside the trials: the picture of the crates.

#![forbid(unsafe_code)]

mod calls;
mod crates;
mod halves;
mod lent;
mod letters;
mod retouches;
mod tally;
mod trial;

use std::thread;

use generator::Rng;

pub use calls::{Call, Lent};
pub use crates::Crates;
pub use halves::Halves;
pub use letters::Letters;
pub use retouches::Retouches;
pub use tally::Tally;
pub use trial::{Expected, Outcome, Trial, Wanted, WantedName, WantedPrint};

/// The random trial with this seed; a difference says how to run it again.
pub fn check_seed(seed: u64) -> Result<Outcome, String> {
    let case = generator::case(seed);
    let recased = generator::recased(&mut Rng::new(seed), &case.text);
    Trial::of(&case)
        .run_recased(&recased)
        .map_err(|difference| {
            format!("seed {seed}: {difference}\nagain: cargo run --release -p checks -- {seed} 1")
        })
}

/// The random trials of `count` seeds from `first` on, up to a difference, on
/// as many threads as the machine has cores.
pub fn check_seeds(first: u64, count: u64) -> Result<Tally, String> {
    let workers = thread::available_parallelism().map_or(1, usize::from);
    thread::scope(|scope| {
        let work = |worker| scope.spawn(move || check_every(workers, worker, first, count));
        let handles: Vec<_> = (0..workers).map(work).collect();
        let mut tally = Tally::default();
        for handle in handles {
            tally.merge(&handle.join().expect("a worker that ends")?);
        }
        Ok(tally)
    })
}

/// One worker's share: every `workers`-th seed.
fn check_every(workers: usize, worker: usize, first: u64, count: u64) -> Result<Tally, String> {
    let mut tally = Tally::default();
    for offset in (worker as u64..count).step_by(workers) {
        tally.add(check_seed(first.wrapping_add(offset))?);
    }
    Ok(tally)
}
