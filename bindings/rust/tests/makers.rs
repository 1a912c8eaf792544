//! Tests of `begin` and `try_begin`, and of what `stats` tells of makings.

use std::num::NonZeroUsize;
use std::sync::atomic::{AtomicBool, AtomicU64, Ordering};
use std::sync::{Arc, Barrier, Weak};
use std::thread;
use std::time::Duration;

use concurrent_lru_proved::unsharded::{Begun, CacheHandle, LruCache, Maker};
use concurrent_lru_proved::{GetError, Refusal, sharded};

type Cache = LruCache<u64, u64>;

fn maker(cache: &Cache) -> Maker<'_, u64, u64> {
    match cache.begin(&7, 1) {
        Ok(Begun::Make(maker)) => maker,
        other => panic!("{other:?} and not a maker"),
    }
}

fn hit(cache: &Cache) -> CacheHandle<'_, u64, u64> {
    match cache.try_begin(&7, 1) {
        Ok(Some(Begun::Hit(handle))) => handle,
        other => panic!("{other:?} and not a hit"),
    }
}

fn wait_for_waits(cache: &Cache, waits: u64) {
    while cache.stats().waits < waits {
        thread::sleep(Duration::from_millis(1));
    }
}

#[test]
fn a_maker_makes_a_value_that_others_find() -> Result<(), Refusal> {
    let cache = Cache::new(10)?;
    let maker = maker(&cache);
    assert_eq!((cache.len(), cache.contains(&7)?), (1, false));
    let made = maker.ready(70);
    assert_eq!((*made, *hit(&cache)), (70, 70));
    drop(made);
    assert_eq!((cache.pinned_charge(), *hit(&cache)), (0, 70));
    assert!(matches!(cache.begin(&8, 0), Err(Refusal::ZeroCharge)));
    assert!(matches!(cache.try_begin(&8, 0), Err(Refusal::ZeroCharge)));
    Ok(())
}

#[test]
fn a_maker_that_is_dropped_has_failed() -> Result<(), Refusal> {
    let cache = Cache::new(10)?;
    drop(maker(&cache));
    assert!(cache.is_empty());
    let stats = cache.stats();
    assert_eq!(
        (stats.removals, stats.loads, stats.load_failures),
        (1, 0, 1)
    );
    drop(maker(&cache).ready(1));
    assert_eq!(*hit(&cache), 1);
    // Nothing is left of it that `clear` would look for.
    cache.prune();
    drop(maker(&cache));
    let held = cache.insert(&8, 1, 80)?;
    cache.clear()?;
    assert_eq!((cache.len(), *held), (1, 80));
    Ok(())
}

#[test]
fn try_begin_does_not_wait_and_leaves_no_pin() -> Result<(), Refusal> {
    let cache = Cache::new(10)?;
    for is_made in [false, true] {
        let maker = maker(&cache);
        for _ in 0..3 {
            assert!(cache.try_begin(&7, 1)?.is_none());
        }
        if is_made {
            let handle = maker.ready(5);
            assert_eq!(cache.pinned_charge(), 1);
            drop(handle);
            assert_eq!(cache.pinned_charge(), 0);
        } else {
            drop(maker);
        }
        assert_eq!(cache.len(), u64::from(is_made));
    }
    cache.prune();
    assert!(cache.is_empty());
    Ok(())
}

#[test]
fn who_waits_for_a_dropped_maker_is_the_next() -> Result<(), Refusal> {
    let cache = Cache::new(10)?;
    let first = maker(&cache);
    // Those that tried and left are not asked to make the value.
    assert!(cache.try_begin(&7, 1)?.is_none());
    thread::scope(|scope| {
        let waiting = scope.spawn(|| match cache.begin(&7, 1) {
            Ok(Begun::Make(maker)) => *maker.ready(6),
            other => panic!("{other:?} and not a maker"),
        });
        wait_for_waits(&cache, 2);
        assert!(cache.try_begin(&7, 1)?.is_none());
        drop(first);
        assert_eq!(waiting.join().unwrap(), 6);
        assert_eq!((*hit(&cache), cache.stats().insertions), (6, 1));
        assert_eq!(cache.pinned_charge(), 0);
        Ok(())
    })
}

#[test]
fn what_is_being_made_can_be_cleared_between_two_makers() -> Result<(), Refusal> {
    let cache = Cache::new(10)?;
    let first = maker(&cache);
    let (taken, cleared) = (Barrier::new(2), Barrier::new(2));
    thread::scope(|scope| {
        scope.spawn(|| {
            let second = maker(&cache);
            taken.wait();
            cleared.wait();
            drop(second.ready(6));
        });
        wait_for_waits(&cache, 1);
        drop(first);
        taken.wait();
        cache.clear()?;
        cleared.wait();
        Ok::<_, Refusal>(())
    })?;
    assert!(cache.is_empty());
    Ok(())
}

/// Makes idle values of these keys and of charge 2.
fn fill(cache: &Cache, keys: impl Iterator<Item = u64>) -> Result<(), Refusal> {
    for key in keys {
        cache.insert(&key, 2, key)?;
    }
    Ok(())
}

#[test]
fn the_charge_may_be_told_when_the_value_is_ready() -> Result<(), Refusal> {
    let cache = Cache::new(10)?;
    fill(&cache, 0..4)?;
    let making = maker(&cache);
    assert_eq!((cache.pinned_charge(), cache.total_charge()), (1, 9));
    let made = making.ready_with(70, 5)?;
    assert_eq!((cache.pinned_charge(), cache.total_charge()), (5, 9));
    assert_eq!((*made, *hit(&cache)), (70, 70));
    // Those that were released longest ago have left, and no more.
    assert!(!cache.contains(&0)? && !cache.contains(&1)? && cache.contains(&2)?);
    drop(made);
    // A smaller one, and one above the capacity, which leaves with its handle.
    if let Begun::Make(making) = cache.begin(&8, 3)? {
        assert_eq!(*making.ready_with(80, 1)?, 80);
    }
    assert_eq!(cache.total_charge(), 8);
    if let Begun::Make(making) = cache.begin(&9, 1)? {
        let made = making.ready_with(90, 11)?;
        assert_eq!((*made, cache.len(), cache.total_charge()), (90, 1, 11));
    }
    assert!(cache.is_empty());
    let stats = cache.stats();
    assert_eq!(
        (stats.loads, stats.load_failures, stats.evictions),
        (3, 0, 7)
    );
    Ok(())
}

#[test]
fn a_charge_that_is_refused_is_that_of_no_value() -> Result<(), Refusal> {
    let cache = Cache::new(10)?;
    let pinned = cache.insert(&1, 4, 10)?;
    fill(&cache, 2..4)?;
    for (charge, is_strict, refusal) in [
        (0, false, Refusal::ZeroCharge),
        (u64::MAX - 3, false, Refusal::Overflow),
        (7, true, Refusal::Full),
    ] {
        cache.set_strict_limit(is_strict);
        let refused = maker(&cache).ready_with(70, charge);
        assert_eq!(refused.err(), Some(refusal));
        // Nothing else has left.
        assert_eq!((cache.len(), cache.total_charge()), (3, 8));
        assert!(!cache.contains(&7)?);
    }
    assert_eq!(*maker(&cache).ready_with(70, 6)?, 70);
    assert_eq!((cache.len(), cache.total_charge()), (2, 10));
    let stats = cache.stats();
    assert_eq!(
        (stats.loads, stats.load_failures, stats.removals),
        (1, 3, 3)
    );
    drop(pinned);
    Ok(())
}

/// A value that looks at its cache when it is dropped, which waits for ever if the lock is held.
struct Looks(Weak<LruCache<u64, Looks>>, Arc<AtomicU64>);

impl Drop for Looks {
    fn drop(&mut self) {
        self.0.upgrade().map(|cache| cache.len());
        self.1.fetch_add(1, Ordering::SeqCst);
    }
}

#[test]
fn those_that_wait_hear_of_a_charge() -> Result<(), Refusal> {
    for charge in [5, 0, u64::MAX] {
        let dropped = Arc::new(AtomicU64::new(0));
        let cache = Arc::new(LruCache::<u64, Looks>::new(10)?);
        let looks = || Looks(Arc::downgrade(&cache), Arc::clone(&dropped));
        let pinned = cache.insert(&1, 2, looks())?;
        cache.insert(&2, 6, looks())?;
        let Begun::Make(first) = cache.begin(&7, 1)? else {
            panic!("it is not there");
        };
        // One that tried is gone.
        assert!(cache.try_begin(&7, 1)?.is_none());
        thread::scope(|scope| {
            let waiting = scope.spawn(|| {
                let mut has_made = false;
                let made = cache.get_or_init(&7, 1, |_| {
                    has_made = true;
                    looks()
                });
                made.map(|_| has_made)
            });
            while cache.stats().waits < 2 {
                thread::sleep(Duration::from_millis(1));
            }
            let made = first.ready_with(looks(), charge);
            assert_eq!(made.is_ok(), charge == 5);
            // Either the value is dropped that is refused, or the one that left for it.
            assert_eq!(dropped.load(Ordering::SeqCst), 1);
            assert_eq!(cache.contains(&2)?, charge != 5);
            drop(made);
            assert_eq!(waiting.join().unwrap()?, charge != 5);
            Ok::<_, Refusal>(())
        })?;
        assert_eq!((cache.pinned_charge(), cache.contains(&7)?), (2, true));
        let stats = cache.stats();
        assert_eq!(
            (stats.loads, stats.load_failures),
            (1, (charge != 5).into())
        );
        drop(pinned);
    }
    Ok(())
}

#[test]
fn a_loader_may_tell_the_charge_with_the_value() -> Result<(), GetError<()>> {
    let cache = Cache::new(10)?;
    for key in 1..10 {
        let made = cache.get_or_init_with(&key, |key| (10 * key, *key))?;
        assert_eq!((*made, cache.pinned_charge()), (10 * key, key));
        assert!(cache.total_charge() <= 10);
    }
    // No loader runs for a value that is there, which keeps its charge.
    let total = cache.total_charge();
    let found = cache.get_or_init_with(&9, |_| unreachable!("it is there"))?;
    let again = cache.get_or_try_init_with(&9, |_| Err(()))?;
    assert_eq!((*found, *again, cache.total_charge()), (90, 90, total));
    drop((found, again));
    let failed = cache.get_or_try_init_with(&1, |_| Err(()));
    assert_eq!(failed.err(), Some(GetError::Init(())));
    assert!(!cache.contains(&1)?);
    // While it is made, it counts for 1.
    let made = cache.get_or_try_init_with(&1, |_| Ok((cache.pinned_charge(), 2)))?;
    assert_eq!((*made, cache.pinned_charge()), (1, 2));
    let refused = cache.get_or_init_with(&2, |_| (2, u64::MAX));
    assert_eq!(refused.err(), Some(Refusal::Overflow));
    // Under a strict limit, it may be refused before it is made, or afterwards.
    cache.set_strict_limit(true);
    let refused = cache.get_or_try_init_with(&2, |_| Ok::<_, ()>((2, 9)));
    assert_eq!(refused.err(), Some(GetError::Refused(Refusal::Full)));
    let all = cache.get_or_init_with(&2, |_| (2, 8))?;
    let refused = cache.get_or_init_with(&3, |_| unreachable!("there is no room"));
    assert_eq!(refused.err(), Some(Refusal::Full));
    assert_eq!((*all, cache.len(), cache.total_charge()), (2, 2, 10));
    Ok(())
}

#[test]
fn shards_take_charges_with_values_too() -> Result<(), GetError<()>> {
    let cache = sharded::LruCache::<u64, u64>::with_shards(10, NonZeroUsize::MIN)?;
    for key in 0..5 {
        cache.insert(&key, 2, key)?;
    }
    let made = cache.get_or_init_with(&7, |key| (10 * key, 3))?;
    let again = cache.get_or_try_init_with(&8, |key| Ok((10 * key, 4)))?;
    assert_eq!((*made, *again, cache.pinned_charge()), (70, 80, 7));
    assert_eq!((cache.len(), cache.contains(&4)?), (3, true));
    let failed = cache.get_or_try_init_with(&9, |_| Err(()));
    assert_eq!(failed.err(), Some(GetError::Init(())));
    let sharded::Begun::Make(maker) = cache.begin(&9, 1)? else {
        panic!("it is not there");
    };
    assert_eq!(maker.ready_with(90, 0).err(), Some(Refusal::ZeroCharge));
    if let sharded::Begun::Make(maker) = cache.begin(&9, 1)? {
        assert_eq!(*maker.ready_with(90, 3)?, 90);
    }
    assert_eq!((cache.total_charge(), cache.contains(&9)?), (10, true));
    Ok(())
}

#[test]
fn shards_have_makers_too() -> Result<(), Refusal> {
    let cache = sharded::LruCache::<u64, u64>::new(1000)?;
    for key in 0..100 {
        let Some(sharded::Begun::Make(maker)) = cache.try_begin(&key, 1)? else {
            panic!("there is no value yet");
        };
        assert!(cache.try_begin(&key, 1)?.is_none());
        if key % 2 == 0 {
            assert_eq!(*maker.ready(2 * key), 2 * key);
        }
    }
    for key in 0..100 {
        match cache.begin(&key, 1)? {
            sharded::Begun::Hit(handle) => assert_eq!((key % 2, *handle), (0, 2 * key)),
            sharded::Begun::Make(_) => assert_eq!(key % 2, 1),
        }
    }
    assert_eq!((cache.len(), cache.pinned_charge()), (50, 0));
    let stats = cache.stats();
    assert_eq!((stats.loads, stats.load_failures), (50, 100));
    assert_eq!(stats.load_time, Duration::ZERO);
    Ok(())
}

#[test]
fn stats_tell_how_long_makings_took() -> Result<(), Refusal> {
    let cache = Cache::new(10)?.with_load_times();
    assert_eq!(cache.stats().load_time, Duration::ZERO);
    let pause = Duration::from_millis(5);
    cache.get_or_init(&1, 1, |_| {
        thread::sleep(pause);
        1
    })?;
    let made = cache.stats();
    assert_eq!((made.loads, made.load_failures), (1, 0));
    assert!(made.load_time >= pause);
    let failed = cache.get_or_try_init(&2, 1, |_| {
        thread::sleep(pause);
        Err(())
    });
    assert_eq!(failed.err(), Some(GetError::Init(())));
    let failed = cache.stats();
    assert_eq!((failed.loads, failed.load_failures), (1, 1));
    assert!(failed.load_time >= made.load_time + pause);
    // No value is made.
    cache.get(&1)?;
    cache.insert(&3, 1, 3)?;
    assert_eq!(cache.stats().load_time, failed.load_time);
    // A charge that is told with the value may be refused.
    for charge in [1, 0] {
        let before = cache.stats().load_time;
        let made = cache.get_or_init_with(&(4 + charge), |_| {
            thread::sleep(pause);
            (4, charge)
        });
        assert_eq!(made.is_ok(), charge == 1);
        assert!(cache.stats().load_time >= before + pause);
    }
    let both = failed.saturating_add(made);
    assert_eq!((both.loads, both.load_failures), (2, 1));
    assert_eq!(both.load_time, failed.load_time + made.load_time);
    let shards = sharded::LruCache::<u64, u64>::new(160)?.with_load_times();
    shards.get_or_init(&1, 1, |_| {
        thread::sleep(pause);
        1
    })?;
    assert!(shards.stats().load_time >= pause);
    Ok(())
}

#[test]
fn there_is_one_maker_at_a_time() -> Result<(), Refusal> {
    const KEYS: u64 = 3;
    let cache = Cache::new(2)?;
    let making = [(); KEYS as usize].map(|()| AtomicBool::new(false));
    let made = AtomicU64::new(0);
    thread::scope(|scope| {
        for thread in 0..4 {
            let (cache, making, made) = (&cache, &making, &made);
            scope.spawn(move || {
                for step in 0..3000u64 {
                    let key = (step * 7 + thread) % KEYS;
                    let begun = if step % 3 == 0 {
                        cache.try_begin(&key, 1).unwrap()
                    } else {
                        Some(cache.begin(&key, 1).unwrap())
                    };
                    match begun {
                        Some(Begun::Hit(handle)) => assert_eq!(*handle, key),
                        Some(Begun::Make(maker)) => {
                            let slot = &making[key as usize];
                            assert!(!slot.swap(true, Ordering::SeqCst));
                            thread::yield_now();
                            slot.store(false, Ordering::SeqCst);
                            if step % 5 != 0 {
                                made.fetch_add(1, Ordering::SeqCst);
                                assert_eq!(*maker.ready(key), key);
                            }
                        }
                        None => thread::yield_now(),
                    }
                }
            });
        }
    });
    assert_eq!(cache.pinned_charge(), 0);
    assert!(cache.total_charge() <= 2);
    assert_eq!(cache.stats().loads, made.into_inner());
    Ok(())
}
