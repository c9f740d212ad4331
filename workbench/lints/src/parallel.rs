//! Work that several threads do, or one where no other can be started.

use std::panic::resume_unwind;
use std::sync::atomic::{AtomicUsize, Ordering};
use std::thread::{Builder, Scope, ScopedJoinHandle, scope};

/// How many threads help the one that asks.
#[derive(Clone, Copy)]
pub(crate) struct Threads(pub(crate) usize);

/// Starts a thread; none where the system starts none, as in a browser.
fn start<'s, T: Send + 's>(
    scope: &'s Scope<'s, '_>,
    work: impl FnOnce() -> T + Send + 's,
) -> Option<ScopedJoinHandle<'s, T>> {
    Builder::new().spawn_scoped(scope, work).ok()
}

/// What a thread makes. If it panics, so does the one that asks.
fn made_by<T>(thread: ScopedJoinHandle<'_, T>) -> T {
    thread.join().unwrap_or_else(|panic| resume_unwind(panic))
}

impl Threads {
    /// Those that a text of so many tokens is worth: a short one takes less time than their start.
    pub(crate) fn for_tokens(count: usize) -> Threads {
        Threads(if count < 10_000 { 0 } else { 3 })
    }

    /// Makes two things.
    pub(crate) fn make_both<A, B: Send>(
        self,
        first: impl FnOnce() -> A,
        second: impl Fn() -> B + Sync,
    ) -> (A, B) {
        scope(|scope| {
            let helper = (self.0 != 0).then(|| start(scope, &second)).flatten();
            let made = first();
            (made, helper.map_or_else(&second, made_by))
        })
    }

    /// Makes the parts of a whole, and returns them in their order.
    pub(crate) fn make_parts<T: Send>(
        self,
        count: usize,
        part: impl Fn(usize) -> T + Sync,
    ) -> Vec<T> {
        let next = AtomicUsize::new(0);
        let work = || {
            let numbers = std::iter::repeat_with(|| next.fetch_add(1, Ordering::Relaxed));
            let numbers = numbers.take_while(|number| *number < count);
            numbers
                .map(|number| (number, part(number)))
                .collect::<Vec<_>>()
        };
        let mut made = scope(|scope| {
            let helpers = (0..self.0).map_while(|_| start(scope, work));
            let helpers: Vec<_> = helpers.collect();
            let mut made = work();
            made.extend(helpers.into_iter().flat_map(made_by));
            made
        });
        made.sort_by_key(|(number, _)| *number);
        made.into_iter().map(|(_, made)| made).collect()
    }
}

#[cfg(test)]
mod tests {
    use super::*;
    use std::panic::catch_unwind;

    #[test]
    fn parts_come_in_their_order() {
        for threads in [Threads(0), Threads(3)] {
            for count in [0, 1, 2, 1000] {
                let made = threads.make_parts(count, |number| number);
                assert!(made.into_iter().eq(0..count));
            }
            assert_eq!(threads.make_both(|| 1, || 2), (1, 2));
        }
    }

    #[test]
    fn a_panic_of_a_part_is_one_of_the_whole() {
        for threads in [Threads(0), Threads(3)] {
            let parts = || threads.make_parts(9, |number| assert_ne!(number, 7, "as a test asks"));
            assert!(catch_unwind(parts).is_err());
            let both = || threads.make_both(|| 1, || assert_eq!(1, 2, "as a test asks"));
            assert!(catch_unwind(both).is_err());
        }
    }
}
