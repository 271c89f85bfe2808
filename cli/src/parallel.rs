//! Work on all processors.

use std::sync::atomic::{AtomicUsize, Ordering};
use std::thread::{self, Builder};

/// What the work gives of each item, in their order. A thread that cannot be had leaves its work
/// to the others; the calling one is always among them.
pub fn map<'t, T: Sync, R: Send>(items: &'t [T], work: impl Fn(&'t T) -> R + Sync) -> Vec<R> {
    let next = AtomicUsize::new(0);
    let take_turns = || {
        let mut done = Vec::new();
        loop {
            let turn = next.fetch_add(1, Ordering::Relaxed);
            match items.get(turn) {
                Some(item) => done.push((turn, work(item))),
                None => return done,
            }
        }
    };
    let mut done = thread::scope(|scope| {
        let helpers: Vec<_> = (1..threads(items.len()))
            .map_while(|_| Builder::new().spawn_scoped(scope, take_turns).ok())
            .collect();
        let mut done = take_turns();
        for helper in helpers {
            match helper.join() {
                Ok(more) => done.extend(more),
                Err(panic) => std::panic::resume_unwind(panic),
            }
        }
        done
    });
    done.sort_by_key(|(turn, _)| *turn);
    done.into_iter().map(|(_, result)| result).collect()
}

/// How many threads so many items are worth.
fn threads(items: usize) -> usize {
    if items < 2 {
        return items;
    }
    thread::available_parallelism().map_or(1, |n| n.get().min(items))
}

#[cfg(test)]
mod tests {
    use super::*;

    #[test]
    fn the_order_is_kept() {
        let items: Vec<usize> = (0..1000).collect();
        let squares: Vec<usize> = items.iter().map(|n| n * n).collect();
        assert_eq!(map(&items, |n| n * n), squares);
    }

    #[test]
    fn nothing_gives_nothing() {
        assert!(map(&[], |n: &usize| *n).is_empty());
    }
}
