//! Tests the strict limit of the cache whose hits take no lock, and how long its values take to be
//! made.

use std::num::NonZeroUsize;
use std::panic::{self, AssertUnwindSafe};
use std::sync::atomic::{AtomicU64, Ordering};
use std::sync::mpsc;
use std::sync::{Arc, OnceLock, Weak};
use std::thread;
use std::time::{Duration, Instant};

use concurrent_lru_proved::clock::{Begun, Cache};
use concurrent_lru_proved::{GetError, Reason, Refusal};

/// A cache of one shard whose limit is strict.
fn strict<V>(capacity: u64) -> Result<Cache<u64, V>, Refusal> {
    let cache = Cache::with_seed(capacity, NonZeroUsize::MIN, 0)?;
    cache.set_strict_limit(true);
    Ok(cache)
}

/// The keys that have a value, each with its value and charge, in order.
fn shown(cache: &Cache<u64, u64>) -> Result<Vec<(u64, u64, u64)>, Refusal> {
    let mut all = Vec::new();
    cache.for_each(|entry| all.push((entry.key[1], *entry.value, entry.charge)))?;
    all.sort_unstable();
    Ok(all)
}

/// Runs it on another thread, and fails if it does not end.
fn ends<T: Send + 'static>(run: impl FnOnce() -> T + Send + 'static) -> mpsc::Receiver<T> {
    let (sender, receiver) = mpsc::channel();
    thread::spawn(move || sender.send(run()));
    receiver
}

fn join<T>(ending: mpsc::Receiver<T>) -> T {
    let ended = ending.recv_timeout(Duration::from_secs(60));
    ended.expect("the thread ends and does not panic")
}

#[test]
fn a_strict_limit_has_no_room_beside_pinned_values() -> Result<(), Refusal> {
    assert!(!Cache::<u64, u64>::new(10)?.is_limit_strict());
    let cache = strict(10)?;
    assert!(cache.is_limit_strict());
    let one = cache.get_or_init(&1, 6, |_| 1)?;
    cache.get_or_init(&2, 2, |_| 2)?;
    cache.insert(&4, 2, 4)?;
    let full = Some(Refusal::Full);
    let is_full = |charge| {
        let try_init = cache.get_or_try_init(&3, charge, |_| Err("never")).err();
        assert_eq!(try_init, Some(GetError::Refused(Refusal::Full)));
        assert_eq!(cache.begin(&3, charge).err(), full);
        assert_eq!(cache.try_begin(&3, charge).err(), full);
        cache.get_or_init(&3, charge, |_| unreachable!()).err()
    };
    // What is above the capacity evicts nothing, nor does an insert that is refused. The old value
    // has a handle, so it takes room.
    assert_eq!((is_full(11), is_full(u64::MAX)), (full, full));
    for (key, charge) in [(3, 11), (2, 11), (1, 5), (3, 5)] {
        assert_eq!(cache.insert(&key, charge, 3).err(), full);
    }
    let refused = cache.insert(&2, u64::MAX, 3).err();
    assert_eq!(refused, Some(Refusal::Overflow));
    assert_eq!(shown(&cache)?, [(1, 1, 6), (2, 2, 2), (4, 4, 2)]);
    // Idle values leave before a value that is to be made is refused.
    assert_eq!((is_full(5), cache.stats().load_failures), (full, 0));
    assert_eq!(shown(&cache)?, [(1, 1, 6)]);

    // A value that is there is found, also with the lock, as by a thread that has no reader yet.
    assert_eq!(*cache.get_or_init(&1, 9, |_| unreachable!())?, 1);
    thread::scope(|scope| {
        let found = scope.spawn(|| cache.get_or_init(&1, 9, |_| 9).map(|handle| *handle));
        assert_eq!(found.join().ok(), Some(Ok(1)));
    });
    // All idle values leave for a new one, however often they were used.
    for key in 11..15 {
        cache.insert(&key, 1, 1)?;
        for _ in 0..5 {
            assert!(cache.get(&key)?.is_some());
        }
    }
    assert_eq!(*cache.get_or_init(&3, 4, |_| 3)?, 3);
    assert_eq!(shown(&cache)?, [(1, 1, 6), (3, 3, 4)]);
    drop(one);
    assert_eq!(*cache.insert(&4, 10, 5)?, 5);
    assert_eq!(shown(&cache)?, [(4, 5, 10)]);

    // The limit is set at any time, whatever the total is.
    cache.set_strict_limit(false);
    assert!(!cache.is_limit_strict());
    let large = cache.insert(&5, 11, 6)?;
    cache.set_strict_limit(true);
    assert_eq!((*large, cache.total_charge()), (6, 11));
    assert_eq!(is_full(1), full);
    drop(large);
    assert_eq!(*cache.get_or_init(&6, 1, |_| 7)?, 7);
    assert_eq!(cache.total_charge(), 1);
    Ok(())
}

#[test]
fn the_room_for_a_value_may_be_taken_while_it_is_made() -> Result<(), Refusal> {
    let cache = strict(10)?;
    let make = |key, charge| match cache.begin(&key, charge) {
        Ok(Begun::Make(maker)) => maker,
        other => panic!("it is made: {other:?}"),
    };
    for (failures, is_invalidated) in [(1, false), (2, true)] {
        let maker = make(1, 6);
        if is_invalidated {
            cache.invalidate(&1)?;
        }
        let held = cache.insert(&2, 5, 2)?;
        cache.insert(&3, 1, 3)?;
        assert_eq!(maker.ready(1).err(), Some(Refusal::Full));
        assert_eq!(shown(&cache)?, [(2, 2, 5)]);
        assert_eq!(cache.stats().load_failures, failures);
        drop(held);
    }
    // Idle values are room then too.
    let maker = make(1, 6);
    cache.insert(&2, 5, 2)?;
    assert_eq!(*maker.ready(1)?, 1);
    assert_eq!(shown(&cache)?, [(1, 1, 6)]);
    cache.clear()?;

    // A loader takes it itself, or the capacity is lowered, or it tells a larger charge.
    let mut held = None;
    let refused = cache.get_or_init(&1, 6, |_| {
        held = cache.insert(&2, 5, 2).ok();
        1
    });
    assert_eq!(
        (refused.err(), held.as_deref()),
        (Some(Refusal::Full), Some(&2))
    );
    let refused = cache.get_or_init_with(&1, |_| (1, 6)).err();
    assert_eq!(refused, Some(Refusal::Full));
    assert_eq!(*cache.get_or_init_with(&1, |_| (1, 5))?, 1);
    drop(held);
    cache.clear()?;
    cache.insert(&2, 2, 2)?;
    let refused = cache.get_or_init(&1, 6, |_| {
        cache.set_capacity(5);
        1
    });
    assert_eq!(refused.err(), Some(Refusal::Full));
    assert_eq!(shown(&cache)?, [(2, 2, 2)]);
    // Nobody waits for a making that was refused, and none is begun if there is no room at all.
    cache.set_capacity(10);
    drop(make(1, 6));
    let _held = cache.insert(&3, 10, 3)?;
    let refused = cache.get_or_init_with(&1, |_| unreachable!()).err();
    assert_eq!(refused, Some(Refusal::Full));
    Ok(())
}

#[test]
fn an_insert_has_the_room_of_the_old_value() -> Result<(), Refusal> {
    let cache = strict(10)?;
    cache.insert(&1, 5, 1)?;
    cache.insert(&2, 5, 2)?;
    for (key, charge, value, expected) in [
        (1, 5, 3, [(1, 3, 5), (2, 2, 5)]),
        (2, 1, 4, [(1, 3, 5), (2, 4, 1)]),
        (2, 5, 5, [(1, 3, 5), (2, 5, 5)]),
        (2, 3, 6, [(1, 3, 5), (2, 6, 3)]),
    ] {
        cache.insert(&key, charge, value)?;
        assert_eq!(shown(&cache)?, expected);
    }
    cache.insert(&2, 7, 7)?;
    assert_eq!(shown(&cache)?, [(2, 7, 7)]);
    cache.insert(&2, 3, 6)?;
    cache.insert(&1, 5, 3)?;
    // With a handle it takes room, and other values leave for the new one, if that helps.
    let held = cache.get(&1)?;
    cache.insert(&1, 5, 7)?;
    assert_eq!(
        (shown(&cache)?, cache.total_charge()),
        (vec![(1, 7, 5)], 10)
    );
    assert_eq!(cache.insert(&1, 6, 8).err(), Some(Refusal::Full));
    assert_eq!(shown(&cache)?, [(1, 7, 5)]);
    cache.insert(&1, 4, 8)?;
    assert_eq!((shown(&cache)?, cache.total_charge()), (vec![(1, 8, 4)], 9));
    drop(held);
    // A value that is refused leaves the old one, if that is idle too.
    let held = cache.insert(&2, 6, 2)?;
    assert_eq!(cache.insert(&1, 5, 9).err(), Some(Refusal::Full));
    assert_eq!(shown(&cache)?, [(1, 8, 4), (2, 2, 6)]);
    assert_eq!(cache.pinned_charge(), 6);
    drop(held);

    // The old value is room also if the total is above the capacity.
    cache.clear()?;
    cache.set_strict_limit(false);
    let _held = cache.insert(&1, 6, 1)?;
    let other = cache.insert(&2, 5, 2)?;
    cache.set_strict_limit(true);
    assert_eq!(cache.insert(&2, 1, 3).err(), Some(Refusal::Full));
    assert_eq!(cache.get(&2)?.as_deref(), Some(&2));
    drop(other);
    cache.insert(&2, 1, 3)?;
    assert_eq!(shown(&cache)?, [(1, 1, 6), (2, 3, 1)]);
    Ok(())
}

#[test]
fn a_strict_limit_is_that_of_each_shard() -> Result<(), Refusal> {
    let cache = Cache::<u64, u64>::with_seed(16, NonZeroUsize::new(16).unwrap(), 0)?;
    let hold = |first| {
        let inserted = (first..first + 500).map(|key| match key % 2 {
            0 => cache.insert(&key, 1, key),
            _ => cache.get_or_init(&key, 1, |key| *key),
        });
        inserted.filter_map(Result::ok).collect::<Vec<_>>()
    };
    cache.set_strict_limit(true);
    let held = hold(0);
    assert_eq!((held.len(), cache.total_charge()), (16, 16));
    assert!(cache.is_limit_strict());
    cache.set_strict_limit(false);
    assert_eq!(hold(1000).len(), 500);
    assert!(!cache.is_limit_strict());
    Ok(())
}

#[test]
fn one_that_waits_for_a_value_that_is_refused_asks_for_room_itself() -> Result<(), Refusal> {
    let cache = Arc::new(strict::<u64>(10)?);
    let asks = |key, charge| {
        let cache = Arc::clone(&cache);
        let asking = ends(move || cache.get_or_init(&key, charge, |_| 2).map(|handle| *handle));
        // Lets it come to where it waits. If it does not, no test fails for it.
        thread::sleep(Duration::from_millis(50));
        asking
    };
    let Begun::Make(maker) = cache.begin(&1, 6)? else {
        unreachable!("the cache is empty");
    };
    let fits = asks(1, 5);
    let _held = cache.insert(&2, 5, 2)?;
    // There is no room, but a value that is being made is waited for.
    assert!(cache.try_begin(&1, 9)?.is_none());
    assert_eq!(maker.ready(1).err(), Some(Refusal::Full));
    assert_eq!(join(fits), Ok(2));
    let Begun::Make(maker) = cache.begin(&3, 1)? else {
        unreachable!("the key has no value");
    };
    let is_too_large = asks(3, 9);
    drop(maker);
    assert_eq!(join(is_too_large), Err(Refusal::Full));
    Ok(())
}

#[test]
fn what_leaves_for_a_making_is_told_and_dropped_without_the_lock() -> Result<(), Refusal> {
    /// Calls its cache when it is dropped.
    struct Caller(Arc<OnceLock<Weak<Cache<u64, Caller>>>>);
    impl Drop for Caller {
        fn drop(&mut self) {
            if let Some(cache) = self.0.get().and_then(Weak::upgrade) {
                let _ = cache.contains(&1);
            }
        }
    }
    let (sender, left) = mpsc::channel();
    let cache = strict(2)?.with_listener(move |leaving| {
        let _ = sender.send((leaving.key[1], leaving.reason));
    });
    let cache = Arc::new(cache);
    let itself = Arc::new(OnceLock::new());
    let _ = itself.set(Arc::downgrade(&cache));
    let cloned = Arc::clone(&cache);
    let refused = join(ends(move || {
        cloned.insert(&1, 1, Caller(Arc::clone(&itself)))?;
        drop(cloned.begin(&2, 2)?);
        let _held = cloned.insert(&3, 1, Caller(Arc::clone(&itself)))?;
        cloned.insert(&4, 1, Caller(Arc::clone(&itself)))?;
        cloned.insert(&4, 1, Caller(Arc::clone(&itself)))?;
        Ok::<_, Refusal>(cloned.begin(&5, 2).err())
    }))?;
    assert_eq!(refused, Some(Refusal::Full));
    let left: Vec<_> = left.try_iter().collect();
    let evicted = |key| (key, Reason::Evicted);
    assert_eq!(left, [evicted(1), (4, Reason::Replaced), evicted(4)]);
    Ok(())
}

#[test]
fn a_making_fails_if_a_value_that_leaves_for_it_panics() -> Result<(), Refusal> {
    struct Panics;
    impl Drop for Panics {
        fn drop(&mut self) {
            panic!("it is dropped");
        }
    }
    let cache = strict(1)?;
    cache.insert(&1, 1, Panics)?;
    let panicked = panic::catch_unwind(AssertUnwindSafe(|| cache.begin(&2, 1).map(drop)));
    assert!(panicked.is_err());
    assert!(matches!(cache.try_begin(&2, 1)?, Some(Begun::Make(_))));
    assert_eq!((cache.len(), cache.stats().load_failures), (0, 2));
    Ok(())
}

#[test]
fn the_total_stays_within_a_strict_limit() -> Result<(), Refusal> {
    let cache = strict(20)?;
    let (added, refused, above) = (AtomicU64::new(0), AtomicU64::new(0), AtomicU64::new(0));
    thread::scope(|scope| {
        for thread in 0..4_u64 {
            let (cache, added, refused, above) = (&cache, &added, &refused, &above);
            scope.spawn(move || {
                let mut number = thread;
                let mut random = |below: u64| {
                    number = number
                        .wrapping_mul(6_364_136_223_846_793_005)
                        .wrapping_add(1);
                    (number >> 33) % below
                };
                let mut held = [const { None }; 4];
                for _ in 0..10_000 {
                    let (key, charge) = (random(30), 1 + random(4));
                    let result = match random(2) {
                        0 => cache.insert(&key, charge, key),
                        _ => cache.get_or_init(&key, charge, |key| *key),
                    };
                    let count = if result.is_ok() { added } else { refused };
                    count.fetch_add(1, Ordering::Relaxed);
                    held[random(4) as usize] = result.ok();
                    above.fetch_add(u64::from(cache.total_charge() > 20), Ordering::Relaxed);
                }
            });
        }
    });
    let [added, refused, above] = [added, refused, above].map(AtomicU64::into_inner);
    assert!(above == 0 && added > 1000 && refused > 100);
    assert_eq!(cache.pinned_charge(), 0);
    Ok(())
}

#[test]
fn stats_tell_how_long_makings_took() -> Result<(), Refusal> {
    /// Takes long to be dropped, which is no part of a making.
    struct Slow;
    impl Drop for Slow {
        fn drop(&mut self) {
            thread::sleep(Duration::from_millis(50));
        }
    }
    let pause = Duration::from_millis(20);
    let cache = strict(1)?.with_load_times();
    let make = |key, made: Result<Slow, ()>| {
        let (before, start) = (cache.stats().load_time, Instant::now());
        let result = cache.get_or_try_init(&key, 1, |_| {
            thread::sleep(pause);
            made
        });
        let (is_made, all) = (result.is_ok(), start.elapsed());
        let load = cache.stats().load_time - before;
        assert!(pause <= load && load <= all);
        (is_made, load, all)
    };
    assert!(make(1, Ok(Slow)).0);
    let (is_made, load, all) = make(2, Err(()));
    assert!(!is_made && load + Duration::from_millis(50) <= all);
    let before = cache.stats();
    assert_eq!((before.loads, before.load_failures), (1, 1));
    drop(cache.insert(&3, 1, Slow)?);
    assert!(cache.get_or_init(&3, 1, |_| Slow).is_ok());
    assert_eq!(cache.stats().load_time, before.load_time);
    assert_eq!(
        before.saturating_add(before).load_time,
        2 * before.load_time
    );
    let plain = Cache::<u64, u64>::new(10)?;
    drop(plain.get_or_init(&1, 1, |_| 1)?);
    assert_eq!(plain.stats().load_time, Duration::ZERO);
    Ok(())
}
