//! Tests of `begin` and `try_begin` of the cache whose hits take no lock.

use std::fmt::Debug;
use std::mem;
use std::num::NonZeroUsize;
use std::sync::atomic::{AtomicBool, AtomicU64, Ordering};
use std::sync::{Arc, mpsc};
use std::thread;
use std::time::Duration;

use concurrent_lru_proved::Refusal;
use concurrent_lru_proved::clock::{Begun, Cache, CacheHandle, Maker};

fn one_shard<V>(capacity: u64) -> Result<Cache<u64, V>, Refusal> {
    Cache::with_seed(capacity, NonZeroUsize::MIN, 0)
}

/// Begins to make the value of the key 7.
fn maker<V: Debug>(cache: &Cache<u64, V>) -> Maker<'_, u64, V> {
    match cache.begin(&7, 1) {
        Ok(Begun::Make(maker)) => maker,
        other => panic!("{other:?} and not a maker"),
    }
}

/// Finds the value of the key 7.
fn hit<V: Debug>(cache: &Cache<u64, V>) -> CacheHandle<'_, u64, V> {
    match cache.try_begin(&7, 1) {
        Ok(Some(Begun::Hit(handle))) => handle,
        other => panic!("{other:?} and not a hit"),
    }
}

/// Lets other threads come to where they wait. If they do not, no test fails for it.
fn pause() {
    thread::sleep(Duration::from_millis(100));
}

#[test]
fn a_maker_makes_a_value_that_others_find() -> Result<(), Refusal> {
    let cache = one_shard(10)?;
    let making = maker(&cache);
    assert_eq!((cache.len(), cache.total_charge()), (0, 0));
    assert!(cache.get(&7)?.is_none() && !cache.contains(&7)?);
    let made = making.ready(70)?;
    assert_eq!((*made, *hit(&cache)), (70, 70));
    drop(made);
    assert_eq!((cache.pinned_charge(), cache.total_charge()), (0, 1));
    for key in [7, 8] {
        assert!(matches!(cache.begin(&key, 0), Err(Refusal::ZeroCharge)));
        assert!(matches!(cache.try_begin(&key, 0), Err(Refusal::ZeroCharge)));
    }
    Ok(())
}

#[test]
fn a_maker_that_is_dropped_has_failed() -> Result<(), Refusal> {
    let cache = one_shard(10)?;
    drop(maker(&cache));
    assert!(cache.is_empty() && !cache.contains(&7)?);
    drop(maker(&cache).ready(1)?);
    assert_eq!(*hit(&cache), 1);
    cache.prune();
    drop(maker(&cache));
    cache.clear()?;
    assert!(cache.is_empty());
    Ok(())
}

#[test]
fn the_charge_may_be_told_when_the_value_is_ready() -> Result<(), Refusal> {
    let cache = one_shard(10)?;
    for key in 0..5 {
        cache.insert(&key, 2, key)?;
    }
    let making = maker(&cache);
    assert_eq!(cache.total_charge(), 10);
    let made = making.ready_with(70, 6)?;
    assert_eq!((cache.pinned_charge(), cache.total_charge()), (6, 10));
    assert_eq!((*made, *hit(&cache)), (70, 70));
    // Without another, it is that of `begin`.
    if let Begun::Make(making) = cache.begin(&8, 4)? {
        let _made = making.ready(80)?;
        assert_eq!((cache.pinned_charge(), cache.total_charge()), (10, 10));
    }
    assert!(cache.contains(&8)?);
    Ok(())
}

#[test]
fn a_value_that_is_refused_is_dropped_and_its_making_has_failed() -> Result<(), Refusal> {
    let cache = one_shard(10)?;
    let value = Arc::new(70);
    let pinned = cache.insert(&1, 1, Arc::clone(&value))?;
    for (charge, refusal) in [(0, Refusal::ZeroCharge), (u64::MAX, Refusal::Overflow)] {
        let refused = maker(&cache).ready_with(Arc::clone(&value), charge);
        assert_eq!(refused.err(), Some(refusal));
        assert_eq!((Arc::strong_count(&value), cache.len()), (2, 1));
        assert!(!cache.contains(&7)?);
    }
    assert_eq!(cache.begin(&7, u64::MAX).err(), Some(Refusal::Overflow));
    // The room for it may go while it is made.
    let making = maker(&cache);
    drop(pinned);
    cache.prune();
    let large = cache.insert(&1, u64::MAX, Arc::clone(&value))?;
    let refused = making.ready(Arc::clone(&value)).err();
    assert_eq!((refused, cache.len()), (Some(Refusal::Overflow), 1));
    drop(large);
    cache.prune();
    let made = maker(&cache).ready(Arc::clone(&value))?;
    assert_eq!((Arc::strong_count(&value), **made, cache.len()), (2, 70, 1));
    Ok(())
}

#[test]
fn try_begin_does_not_wait() -> Result<(), Refusal> {
    let cache = one_shard(10)?;
    for is_made in [false, true] {
        let making = maker(&cache);
        for _ in 0..3 {
            assert!(cache.try_begin(&7, 1)?.is_none());
        }
        // Other keys are no concern of it.
        assert!(matches!(cache.try_begin(&8, 1)?, Some(Begun::Make(_))));
        if is_made {
            assert_eq!(*making.ready(5)?, 5);
            assert_eq!(*hit(&cache), 5);
        } else {
            drop(making);
            assert!(matches!(cache.try_begin(&7, 1)?, Some(Begun::Make(_))));
        }
        assert_eq!((cache.len(), cache.pinned_charge()), (is_made.into(), 0));
    }
    Ok(())
}

#[test]
fn one_of_those_that_wait_for_a_dropped_maker_is_the_next() -> Result<(), Refusal> {
    let cache = Arc::new(one_shard(10)?);
    let first = maker(&cache);
    let (sender, got) = mpsc::channel();
    for number in 1..4 {
        let (cache, sender) = (Arc::clone(&cache), sender.clone());
        thread::spawn(move || {
            let value = match cache.begin(&7, 1)? {
                Begun::Hit(handle) => *handle,
                Begun::Make(maker) => {
                    pause();
                    *maker.ready(number)?
                }
            };
            let _ = sender.send(value);
            Ok::<_, Refusal>(())
        });
    }
    pause();
    assert!(got.try_recv().is_err());
    drop(first);
    let values = [(); 3].map(|()| got.recv_timeout(Duration::from_secs(60)));
    assert_eq!(values, [Ok(*hit(&cache)); 3]);
    assert_eq!(cache.len(), 1);
    Ok(())
}

#[test]
fn a_maker_may_be_used_on_another_thread() -> Result<(), Refusal> {
    let cache = Cache::<u64, u64>::new(100)?;
    let making = maker(&cache);
    let (sender, handles) = mpsc::channel();
    thread::scope(|scope| {
        scope.spawn(move || sender.send(making.ready(5)));
        assert_eq!(*cache.get_or_init(&7, 1, |_| 6)?, 5);
        Ok::<_, Refusal>(())
    })?;
    let made = handles.recv().expect("it was sent")?;
    assert_eq!((*made, cache.pinned_charge()), (5, 1));
    drop(made);
    cache.prune();
    let making = maker(&cache);
    let dropped = thread::scope(|scope| scope.spawn(move || drop(making)).join());
    assert!(dropped.is_ok());
    assert_eq!(*maker(&cache).ready(6)?, 6);
    Ok(())
}

#[test]
fn a_value_is_for_its_maker_alone_if_its_key_was_invalidated() -> Result<(), Refusal> {
    let cache = one_shard(10)?;
    let end = |making: Maker<'_, u64, u64>, is_made| {
        if is_made {
            let made = making.ready(1)?;
            assert_eq!((*made, made.try_clone().as_deref()), (1, Ok(&1)));
        }
        Ok::<_, Refusal>(())
    };
    for is_made in [false, true] {
        for clears in [false, true] {
            let first = maker(&cache);
            if clears {
                cache.clear()?;
            } else {
                cache.invalidate(&7)?;
            }
            let second = maker(&cache);
            end(first, is_made)?;
            // The other making goes on.
            assert!(cache.is_empty() && cache.try_begin(&7, 1)?.is_none());
            assert_eq!(*second.ready(2)?, 2);
            assert_eq!(*hit(&cache), 2);
            cache.prune();
        }
        let first = maker(&cache);
        cache.insert(&7, 1, 3)?;
        end(first, is_made)?;
        assert_eq!((*hit(&cache), cache.len()), (3, 1));
        cache.prune();
    }
    assert!(cache.is_empty());
    Ok(())
}

#[test]
fn a_maker_may_be_forgotten() -> Result<(), Refusal> {
    let cache = one_shard::<u64>(10)?;
    for number in 0..3 {
        mem::forget(maker(&cache));
        assert!(cache.try_begin(&7, 1)?.is_none());
        match number {
            0 => cache.invalidate(&7)?,
            1 => cache.clear()?,
            _ => {}
        }
    }
    assert!(cache.is_empty());
    // What is left of them is freed with the cache, and so is a value.
    let value = Arc::new(1);
    let values = one_shard(10)?;
    mem::forget(values.insert(&1, 1, Arc::clone(&value))?);
    mem::forget(maker(&values));
    drop((cache, values));
    assert_eq!(Arc::strong_count(&value), 1);
    Ok(())
}

#[test]
fn there_is_one_maker_at_a_time() -> Result<(), Refusal> {
    const KEYS: u64 = 3;
    let cache = Cache::<u64, u64>::with_seed(2, NonZeroUsize::MIN, 0)?;
    let making = [(); KEYS as usize].map(|()| AtomicBool::new(false));
    let (made, failed) = (AtomicU64::new(0), AtomicU64::new(0));
    thread::scope(|scope| {
        for thread in 0..4 {
            let (cache, making, made, failed) = (&cache, &making, &made, &failed);
            scope.spawn(move || {
                for step in 0..2000u64 {
                    let key = (step * 7 + thread) % KEYS;
                    let begun = if step % 3 == 0 {
                        cache.try_begin(&key, 1).unwrap()
                    } else {
                        Some(cache.begin(&key, 1).unwrap())
                    };
                    match begun {
                        Some(Begun::Hit(handle)) => assert_eq!(*handle, key),
                        Some(Begun::Make(maker)) => {
                            let slot = &making[key as usize];
                            assert!(!slot.swap(true, Ordering::SeqCst));
                            thread::yield_now();
                            slot.store(false, Ordering::SeqCst);
                            if step % 5 == 0 {
                                failed.fetch_add(1, Ordering::SeqCst);
                            } else {
                                made.fetch_add(1, Ordering::SeqCst);
                                assert_eq!(*maker.ready_with(key, 1 + step % 2).unwrap(), key);
                            }
                        }
                        None => thread::yield_now(),
                    }
                    if step % 4 == 0 {
                        cache.prune();
                    }
                }
            });
        }
    });
    assert_eq!(cache.pinned_charge(), 0);
    assert!(made.into_inner() > 0 && failed.into_inner() > 0);
    cache.prune();
    assert!(cache.is_empty());
    Ok(())
}
