//! Many sheets, on all cores.

use std::collections::BTreeMap;
use std::sync::atomic::{AtomicUsize, Ordering};
use std::sync::mpsc::{self, Sender};
use std::thread;

/// Bytes of stack for each thread; the library needs 2 MiB.
const STACK: usize = 4 << 20;

/// Judges every item on all cores; `each` is told what they come to one after
/// the other, in their sequence.
pub fn in_sequence<I: Sync, V: Send>(
    items: &[I],
    judge: impl Fn(&I) -> V + Sync,
    mut each: impl FnMut(&I, V),
) {
    let cores = thread::available_parallelism().map_or(1, usize::from);
    let (next, judge) = (AtomicUsize::new(0), &judge);
    let (sender, verdicts) = mpsc::channel();
    thread::scope(|scope| {
        for _ in 0..cores.min(items.len()) {
            let (sender, next) = (sender.clone(), &next);
            let builder = thread::Builder::new().stack_size(STACK);
            builder
                .spawn_scoped(scope, move || work(items, next, judge, &sender))
                .expect("a thread");
        }
        drop(sender);
        let (mut early, mut at) = (BTreeMap::new(), 0);
        for (done, verdict) in verdicts {
            early.insert(done, verdict);
            while let Some(verdict) = early.remove(&at) {
                each(&items[at], verdict);
                at += 1;
            }
        }
    });
}

/// One thread's share: the next item, as long as there is one.
fn work<I, V>(
    items: &[I],
    next: &AtomicUsize,
    judge: &(impl Fn(&I) -> V + Sync),
    verdicts: &Sender<(usize, V)>,
) {
    let take = || next.fetch_add(1, Ordering::Relaxed);
    let mut at = take();
    while let Some(item) = items.get(at) {
        let verdict = (at, judge(item));
        verdicts.send(verdict).expect("somebody who listens");
        at = take();
    }
}

#[cfg(test)]
mod tests {
    use super::*;

    /// Early items take longest.
    #[test]
    fn the_sequence_is_kept() {
        let items: Vec<u64> = (0..200).collect();
        let judge = |&item: &u64| {
            thread::sleep(std::time::Duration::from_micros(200 - item));
            item * 2
        };
        let mut told = vec![];
        in_sequence(&items, judge, |&item, verdict| told.push((item, verdict)));
        let wanted: Vec<(u64, u64)> = items.iter().map(|&item| (item, item * 2)).collect();
        assert_eq!(told, wanted);
    }

    #[test]
    fn nothing_to_do() {
        in_sequence(&[], |_: &u64| (), |_, ()| panic!("no item"));
    }
}
