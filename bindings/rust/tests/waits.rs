//! Tests that callers who wait for a value are woken, and only they.

mod sleeping;

use std::num::NonZeroUsize;
use std::sync::Barrier;
use std::sync::atomic::{AtomicUsize, Ordering};
use std::thread;
use std::time::Duration;

use concurrent_lru_proved::unsharded::LruCache;
use concurrent_lru_proved::{GetError, Refusal, clock};

use sleeping::Sleepers;

/// Waits until this many callers wait. Who is counted keeps the lock until it waits, so the count
/// is seen only then.
fn wait_for_waits(cache: &LruCache<u64, u64>, waits: u64) {
    while cache.stats().waits < waits {
        thread::sleep(Duration::from_millis(1));
    }
}

/// Checks that those who wait for a value get it, if it is invalidated meanwhile or not, and if its
/// making fails, and then those of all but one that take it over.
fn all_are_woken(is_invalidated: bool, fails: bool) -> Result<(), Refusal> {
    const WAITING: usize = 8;
    let cache = LruCache::<u64, u64>::new(10)?;
    let (making, other_making) = (Barrier::new(2), Barrier::new(2));
    let (right, failed) = (AtomicUsize::new(0), AtomicUsize::new(0));
    let tried = AtomicUsize::new(0);
    let try_it = || {
        let is_failure = fails && tried.fetch_add(1, Ordering::SeqCst) < WAITING - 1;
        if is_failure { Err(()) } else { Ok(7) }
    };
    let ask = |init: &dyn Fn() -> Result<u64, ()>| match cache
        .get_or_try_init(&1, 1, |_| init())
        .as_deref()
    {
        Ok(7) => right.fetch_add(1, Ordering::SeqCst),
        Err(GetError::Init(())) => failed.fetch_add(1, Ordering::SeqCst),
        _ => 0,
    };
    thread::scope(|scope| {
        // The first that waits does so for another value, which is made last.
        scope.spawn(|| {
            cache.get_or_init(&3, 1, |_| {
                other_making.wait();
                other_making.wait();
                3
            })
        });
        other_making.wait();
        let first = scope.spawn(|| cache.get_or_init(&3, 1, |_| 4).map(|handle| *handle));
        wait_for_waits(&cache, 1);
        let maker = scope.spawn(|| {
            ask(&|| {
                making.wait();
                making.wait();
                try_it()
            })
        });
        making.wait();
        let waiting = [(); WAITING].map(|()| scope.spawn(|| ask(&try_it)));
        wait_for_waits(&cache, 1 + WAITING as u64);
        if is_invalidated {
            cache.invalidate(&1)?;
        }
        // Another value, for which nobody waits, is made meanwhile.
        cache.get_or_init(&2, 1, |_| 2)?;
        making.wait();
        maker.join().unwrap();
        for thread in waiting {
            thread.join().unwrap();
        }
        other_making.wait();
        assert_eq!(first.join().unwrap(), Ok(3));
        Ok(())
    })?;
    let expected = if fails {
        (2, WAITING - 1)
    } else {
        (WAITING + 1, 0)
    };
    assert_eq!((right.into_inner(), failed.into_inner()), expected);
    assert_eq!(cache.contains(&1)?, !is_invalidated);
    assert_eq!(cache.pinned_charge(), 0);
    Ok(())
}

#[test]
fn all_that_wait_are_woken_however_the_making_ends() -> Result<(), Refusal> {
    for is_invalidated in [false, true] {
        for fails in [false, true] {
            all_are_woken(is_invalidated, fails)?;
        }
    }
    Ok(())
}

#[test]
fn a_making_wakes_only_those_that_wait_for_it() -> Result<(), Refusal> {
    const WAITING: usize = 20;
    let cache = LruCache::<u64, u64>::new(10)?;
    let making = Barrier::new(2);
    let sleepers = Sleepers::default();
    thread::scope(|scope| {
        scope.spawn(|| {
            cache.get_or_init(&0, 1, |_| {
                making.wait();
                making.wait();
                7
            })
        });
        making.wait();
        let waiting = [(); WAITING].map(|()| {
            scope.spawn(|| {
                sleepers.add_this_thread();
                cache.get_or_init(&0, 1, |_| 8).map(|handle| *handle)
            })
        });
        wait_for_waits(&cache, WAITING as u64);
        let before = sleepers.sleeps();
        for key in 1..=200 {
            cache.get_or_init(&key, 1, |_| 1)?;
            let failed = cache.get_or_try_init(&(1000 + key), 1, |_| Err::<u64, _>("no value"));
            assert_eq!(failed.err(), Some(GetError::Init("no value")));
        }
        // Nobody has woken: who wakes goes to sleep once more.
        let woken = sleepers.sleeps() - before;
        making.wait();
        for thread in waiting {
            assert_eq!(thread.join().unwrap(), Ok(7));
        }
        assert_eq!(woken, 0);
        Ok(())
    })
}

#[test]
fn a_making_of_a_clock_wakes_only_those_that_wait_for_it() -> Result<(), Refusal> {
    const WAITING: usize = 10;
    let cache = clock::Cache::<u64, u64>::with_shards(10, NonZeroUsize::MIN)?;
    let clock::Begun::Make(maker) = cache.begin(&0, 1)? else {
        panic!("the cache is empty");
    };
    let sleepers = Sleepers::default();
    thread::scope(|scope| {
        let waiting = [(); WAITING].map(|()| {
            scope.spawn(|| {
                sleepers.add_this_thread();
                cache.get_or_init(&0, 1, |_| 8).map(|handle| *handle)
            })
        });
        while sleepers.count() < WAITING {
            thread::sleep(Duration::from_millis(1));
        }
        // Nothing counts who waits, so they get time to begin.
        thread::sleep(Duration::from_millis(200));
        let before = sleepers.sleeps();
        for key in 1..=200 {
            cache.get_or_init(&key, 1, |_| 1)?;
            let failed = cache.get_or_try_init(&(1000 + key), 1, |_| Err::<u64, _>("no value"));
            assert_eq!(failed.err(), Some(GetError::Init("no value")));
        }
        let woken = sleepers.sleeps() - before;
        maker.ready(7)?;
        for thread in waiting {
            assert_eq!(thread.join().unwrap(), Ok(7));
        }
        assert_eq!(woken, 0);
        Ok(())
    })
}
