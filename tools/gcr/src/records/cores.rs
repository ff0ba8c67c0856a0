//! The same work on many things, on all cores, and what comes out in the order of the things.

use crate::ending::Failure;
use std::collections::BTreeMap;
use std::num::NonZero;
use std::sync::atomic::{AtomicUsize, Ordering};
use std::sync::mpsc::{sync_channel, Receiver, SyncSender};
use std::thread;

/// What may be done and not looked at yet. Others wait.
const AHEAD: usize = 64;

/// More than any call of the library takes.
const STACK: usize = 512 * 1024;

/// Takes `work(0)`, `work(1)` and so on, `count` of them. The first that is not taken ends it. What is done before its
/// turn is kept, so it should be small.
pub fn in_order<T: Send>(
    count: usize,
    work: impl Fn(usize) -> T + Sync,
    mut take: impl FnMut(T) -> Result<(), Failure>,
) -> Result<(), Failure> {
    let cores = thread::available_parallelism().map_or(1, NonZero::get);
    let next = AtomicUsize::new(0);
    let (work, next) = (&work, &next);
    thread::scope(|scope| {
        let (send, done) = sync_channel(AHEAD);
        let start = |_: &usize| {
            let send = send.clone();
            let thread = thread::Builder::new().stack_size(STACK);
            thread.spawn_scoped(scope, move || each(count, next, work, send)).is_ok()
        };
        // as many as there are cores and memory for
        let started = (0..cores.min(count)).take_while(start).count();
        drop(send);
        match started {
            0 => (0..count).try_for_each(|number| take(work(number))),
            _ => taken(done, take),
        }
    })
}

/// One core's part: whatever is next, until there is no more or nobody takes it.
fn each<T>(count: usize, next: &AtomicUsize, work: &impl Fn(usize) -> T, send: SyncSender<(usize, T)>) {
    loop {
        let number = next.fetch_add(1, Ordering::Relaxed);
        if number >= count || send.send((number, work(number))).is_err() {
            return;
        }
    }
}

fn taken<T>(done: Receiver<(usize, T)>, mut take: impl FnMut(T) -> Result<(), Failure>) -> Result<(), Failure> {
    let mut early = BTreeMap::new();
    let mut due = 0;
    for (number, made) in done {
        early.insert(number, made);
        while let Some(made) = early.remove(&due) {
            take(made)?;
            due += 1;
        }
    }
    Ok(())
}

#[cfg(test)]
mod tests {
    use super::*;

    #[test]
    fn things_are_taken_in_their_order() {
        let slow = |number: usize| {
            thread::sleep(std::time::Duration::from_micros(if number.is_multiple_of(7) { 500 } else { 0 }));
            number
        };
        let mut taken = Vec::new();
        in_order(500, slow, |number| {
            taken.push(number);
            Ok(())
        })
        .unwrap();
        assert_eq!(taken, (0..500).collect::<Vec<_>>());
    }

    #[test]
    fn what_is_not_taken_ends_it() {
        let worked = AtomicUsize::new(0);
        let count = |_| worked.fetch_add(1, Ordering::Relaxed);
        let stop = in_order(1_000_000, count, |_| Err(Failure::failed("full")));
        assert_eq!(stop, Err(Failure::failed("full")));
        assert!(worked.into_inner() < 1_000_000);
    }

    #[test]
    fn of_nothing_nothing_is_taken() {
        assert_eq!(in_order(0, |number| number, |_| Err(Failure::failed("taken"))), Ok(()));
    }
}
