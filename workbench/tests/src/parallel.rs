//! Work on all processors.

use std::any::Any;
use std::num::NonZero;
use std::panic::{AssertUnwindSafe, catch_unwind};
use std::sync::atomic::{AtomicUsize, Ordering};
use std::thread;

/// The stack of a worker. A build without optimization needs more than the default for deeply nested sources.
const STACK: usize = 64 << 20;

/// What a piece of work said when it panicked.
#[derive(Debug, Clone, PartialEq, Eq, thiserror::Error)]
#[error("it panicked: {0}")]
pub struct Panicked(String);

impl Panicked {
    fn new(payload: &(dyn Any + Send)) -> Panicked {
        let text = payload.downcast_ref::<&str>().map(ToString::to_string);
        Panicked(
            text.or_else(|| payload.downcast_ref::<String>().cloned())
                .unwrap_or_default(),
        )
    }
}

/// Does the same work on each item, on all processors. The results are in the order of the items.
///
/// ```
/// let lengths = edd_tests::parallel::map(&["one", "three"], |word| word.len());
/// assert_eq!(lengths, [Ok(3), Ok(5)]);
/// ```
pub fn map<T: Sync, R: Send>(
    items: &[T],
    work: impl Fn(&T) -> R + Sync,
) -> Vec<Result<R, Panicked>> {
    let next = AtomicUsize::new(0);
    let take_all = || {
        let mut done = Vec::new();
        loop {
            let place = next.fetch_add(1, Ordering::Relaxed);
            let Some(item) = items.get(place) else {
                return done;
            };
            let result = catch_unwind(AssertUnwindSafe(|| work(item)));
            done.push((place, result.map_err(|payload| Panicked::new(&*payload))));
        }
    };
    let done: Vec<_> = thread::scope(|scope| {
        let start = |_| {
            thread::Builder::new()
                .stack_size(STACK)
                .spawn_scoped(scope, take_all)
                .ok()
        };
        let workers: Vec<_> = (0..thread::available_parallelism().map_or(1, NonZero::get))
            .filter_map(start)
            .collect();
        workers
            .into_iter()
            .flat_map(|worker| worker.join().unwrap_or_default())
            .collect()
    });
    let missing = || Err(Panicked("no thread did the work".to_owned()));
    let mut results: Vec<_> = items.iter().map(|_| missing()).collect();
    for (place, result) in done {
        if let Some(slot) = results.get_mut(place) {
            *slot = result;
        }
    }
    results
}

#[cfg(test)]
mod tests {
    use super::*;

    #[test]
    fn a_panic_is_the_result_of_its_item_alone() {
        let results = map(&[1, 0], |number| 10 / number);
        assert_eq!(results[0], Ok(10));
        assert!(results[1].is_err());
    }
}
