//! Tests the cache behind one lock.

use std::borrow::Cow;
use std::fs::File;
use std::io;
use std::net::{IpAddr, Ipv4Addr, Ipv6Addr, SocketAddr, SocketAddrV4, SocketAddrV6};
use std::num::{NonZeroI8, NonZeroI128, NonZeroU64, NonZeroU128};
use std::os::unix::fs::FileExt;
use std::panic::{self, AssertUnwindSafe};
use std::path::{Path, PathBuf};
use std::ptr;
use std::sync::atomic::{AtomicU64, Ordering};
use std::sync::{Arc, Barrier, Mutex};
use std::thread;
use std::time::{Duration, Instant};

use concurrent_lru_proved::key::{Key, Word, Words};
use concurrent_lru_proved::unsharded::LruCache;
use concurrent_lru_proved::{GetError, Refusal};

#[test]
fn a_present_value_is_not_made_again() -> Result<(), Refusal> {
    let cache = LruCache::<u32, u32>::new(10)?;
    assert_eq!(*cache.get_or_init(&1, 1, |_| 1)?, 1);
    assert_eq!(*cache.get_or_init(&2, 1, |_| 2)?, 2);
    assert_eq!(cache.get_or_init(&1, 1, |_| 3)?.value(), &1);
    Ok(())
}

#[test]
fn a_seed_changes_no_result() -> Result<(), Refusal> {
    let left_in = |cache: LruCache<u64, u64>| {
        for key in 0..10 {
            cache.insert(&key, 1, key)?;
        }
        let left = (0..10).filter(|key| cache.contains(key) == Ok(true));
        Ok::<Vec<u64>, Refusal>(left.collect())
    };
    let left = left_in(LruCache::new(5)?)?;
    assert_eq!(left, [5, 6, 7, 8, 9]);
    for seed in [0, 1, u64::MAX] {
        assert_eq!(left_in(LruCache::with_seed(5, seed)?)?, left);
    }
    Ok(())
}

#[test]
fn an_evicted_value_is_made_again() -> Result<(), Refusal> {
    let cache = LruCache::<u32, u32>::new(5)?;
    assert_eq!(*cache.get_or_init(&1, 3, |_| 1)?, 1);
    assert_eq!(*cache.get_or_init(&2, 3, |_| 2)?, 2);
    assert_eq!(*cache.get_or_init(&1, 3, |_| 3)?, 3);
    Ok(())
}

#[test]
fn advice_evict_takes_only_what_no_handle_has() -> Result<(), Refusal> {
    let cache = LruCache::<u32, u32>::new(5)?;
    let handle = cache.get_or_init(&1, 3, |_| 1)?;
    cache.advice_evict(&1)?;
    assert!(cache.get(&1)?.is_some());
    drop(handle);
    cache.advice_evict(&1)?;
    assert!(cache.get(&1)?.is_none());
    cache.advice_evict(&1)?;
    assert_eq!(cache.total_charge(), 0);
    Ok(())
}

#[test]
fn contains_and_len_look_only() -> Result<(), Refusal> {
    let cache = LruCache::<String, u32>::new(2)?;
    assert!(!cache.contains("one")? && cache.is_empty());
    // A value that is being made counts, and is not there yet.
    let seen = cache.get_or_init("one", 1, |_| u32::from(cache.contains("one") == Ok(false)))?;
    assert_eq!(*seen, 1);
    drop(seen);
    cache.get_or_init("two", 1, |_| 2)?;
    assert!(cache.contains("one")? && cache.contains("two")? && cache.len() == 2);
    // Not a use: the first value is still the oldest.
    cache.get_or_init("three", 1, |_| 3)?;
    assert!(!cache.contains("one")? && cache.contains("two")? && cache.contains("three")?);
    let held = cache.get("two")?;
    cache.invalidate("two")?;
    assert!(!cache.contains("two")? && cache.len() == 2);
    drop(held);
    assert!(cache.contains("three")? && cache.len() == 1);
    Ok(())
}

#[test]
fn read_uses_a_value_under_the_lock() -> Result<(), Refusal> {
    let cache = LruCache::<u32, u32>::new(4)?;
    assert_eq!(cache.read(&1, |_| 7)?, None);
    cache.insert(&1, 2, 5)?;
    cache.insert(&2, 2, 6)?;
    thread::scope(|scope| {
        let mut pruning = None;
        let read = cache.read(&1, |number| {
            // Another thread has to wait for the lock, and the value stays.
            let thread = pruning.insert(scope.spawn(|| cache.prune()));
            thread::sleep(Duration::from_millis(20));
            assert!(!thread.is_finished());
            *number
        });
        assert_eq!(read, Ok(Some(5)));
    });
    assert!(cache.is_empty());
    // A value that was read becomes the newest.
    cache.insert(&1, 2, 5)?;
    cache.insert(&2, 2, 6)?;
    cache.read(&1, |_| ())?;
    cache.insert(&3, 2, 7)?;
    assert!(cache.contains(&1)? && !cache.contains(&2)?);
    cache.prune();
    cache.insert(&1, 2, 5)?;
    let panicked = panic::catch_unwind(AssertUnwindSafe(|| cache.read(&1, |_| panic!("unread"))));
    assert!(panicked.is_err());
    assert_eq!((cache.pinned_charge(), cache.total_charge()), (0, 2));
    Ok(())
}

#[test]
fn the_pinned_charge_is_that_of_handles_and_makings() -> Result<(), Refusal> {
    let cache = LruCache::<u32, u64>::new(10)?;
    let one = cache.get_or_init(&1, 3, |_| cache.pinned_charge())?;
    assert_eq!((*one, cache.pinned_charge()), (3, 3));
    let again = cache.get(&1)?;
    let two = cache.insert(&2, 4, 2)?;
    cache.get_or_init(&3, 1, |_| 3)?;
    assert_eq!((cache.pinned_charge(), cache.total_charge()), (7, 8));
    drop(one);
    assert_eq!(cache.pinned_charge(), 7);
    drop(again);
    // An invalidated value is pinned until its last handle is dropped.
    cache.invalidate(&2)?;
    assert_eq!((cache.pinned_charge(), cache.total_charge()), (4, 8));
    drop(two);
    assert_eq!((cache.pinned_charge(), cache.total_charge()), (0, 4));
    Ok(())
}

/// Records its number when it is dropped.
struct Recorded {
    number: u32,
    dropped: Arc<Mutex<Vec<u32>>>,
}

impl Drop for Recorded {
    fn drop(&mut self) {
        self.dropped.lock().unwrap().push(self.number);
    }
}

/// A cache of capacity 2, and the values that were dropped.
struct Recording {
    cache: LruCache<u32, Recorded>,
    dropped: Arc<Mutex<Vec<u32>>>,
}

impl Recording {
    fn new() -> Result<Self, Refusal> {
        Ok(Recording {
            cache: LruCache::new(2)?,
            dropped: Arc::default(),
        })
    }

    fn make(
        &self,
        number: u32,
    ) -> Result<concurrent_lru_proved::unsharded::CacheHandle<'_, u32, Recorded>, Refusal> {
        self.cache.get_or_init(&number, 1, |&number| Recorded {
            number,
            dropped: self.dropped.clone(),
        })
    }

    fn dropped(&self) -> Vec<u32> {
        self.dropped.lock().unwrap().clone()
    }
}

#[test]
fn what_is_evicted_is_dropped_at_once() -> Result<(), Refusal> {
    let recording = Recording::new()?;
    for number in 1..=3 {
        recording.make(number)?;
    }
    assert_eq!(recording.dropped(), [1]);
    Ok(())
}

#[test]
fn the_one_released_first_leaves_first() -> Result<(), Refusal> {
    let recording = Recording::new()?;
    for number in 1..=3 {
        recording.make(number)?;
    }
    assert_eq!(recording.dropped(), [1]);
    let pinned = recording.make(4)?;
    assert_eq!(recording.dropped(), [1, 2]);
    recording.make(5)?;
    recording.make(6)?;
    assert_eq!(recording.dropped(), [1, 2, 3, 5]);
    drop(pinned);
    assert_eq!(recording.dropped(), [1, 2, 3, 5]);
    recording.make(7)?;
    recording.make(8)?;
    assert_eq!(recording.dropped(), [1, 2, 3, 5, 6, 4]);
    Ok(())
}

#[test]
fn a_failed_making_leaves_nothing() -> Result<(), GetError<()>> {
    let cache = LruCache::<u32, u32>::new(10)?;
    for key in [1, 2] {
        cache.get_or_try_init(&key, 1, |&key| Ok::<_, ()>(key))?;
        assert_eq!(cache.get(&key)?.as_deref(), Some(&key));
    }
    let failed = cache.get_or_try_init(&3, 1, |_| Err(())).err();
    assert_eq!(failed, Some(GetError::Init(())));
    assert!(cache.get(&3)?.is_none());
    assert_eq!(cache.total_charge(), 2);
    cache.get_or_try_init(&3, 1, |&key| Ok::<_, ()>(key))?;
    assert_eq!(cache.get(&3)?.as_deref(), Some(&3));
    Ok(())
}

#[test]
fn a_panic_in_a_making_leaves_nothing() -> Result<(), Refusal> {
    let cache = LruCache::<u32, u32>::new(10)?;
    let caught = thread::scope(|scope| {
        scope
            .spawn(|| cache.get_or_init(&1, 1, |_| panic!("no value")).map(drop))
            .join()
    });
    assert!(caught.is_err());
    assert_eq!(cache.total_charge(), 0);
    assert_eq!(*cache.get_or_init(&1, 1, |_| 7)?, 7);
    Ok(())
}

/// Takes long to make and to drop.
struct Slow;

const LONG: Duration = Duration::from_millis(500);

impl Slow {
    fn new() -> Self {
        thread::sleep(LONG);
        Slow
    }
}

impl Drop for Slow {
    fn drop(&mut self) {
        thread::sleep(LONG);
    }
}

#[test]
fn callers_of_one_key_wait_for_one_making() -> Result<(), Refusal> {
    let cache = LruCache::<u32, _>::new(40)?;
    let made = AtomicU64::new(0);
    let start = Instant::now();
    thread::scope(|scope| {
        for _ in 0..20 {
            scope.spawn(|| {
                let handle = cache.get_or_init(&1, 10, |_| {
                    made.fetch_add(1, Ordering::Relaxed);
                    Slow::new()
                });
                assert!(handle.is_ok());
            });
        }
    });
    assert_eq!(made.into_inner(), 1);
    assert!(start.elapsed() < LONG * 10);
    Ok(())
}

#[test]
fn other_keys_are_served_while_a_value_is_made_and_dropped() -> Result<(), Refusal> {
    let cache = LruCache::<u32, Option<Slow>>::new(1)?;
    cache.get_or_init(&1, 1, |_| None)?;
    let making = Barrier::new(2);
    thread::scope(|scope| {
        scope.spawn(|| {
            cache.get_or_init(&2, 1, |_| {
                making.wait();
                making.wait();
                None
            })
        });
        // The other thread cannot continue before these calls have returned.
        making.wait();
        assert!(cache.get(&2).is_ok_and(|handle| handle.is_none()));
        assert!(cache.get_or_init(&3, 1, |_| None).is_ok());
        making.wait();
    });
    Ok(())
}

#[test]
fn one_that_waits_takes_a_failed_making_over() -> Result<(), Refusal> {
    let cache = LruCache::<u32, u32>::new(10)?;
    let making = Barrier::new(2);
    thread::scope(|scope| {
        let failing = scope.spawn(|| {
            let failed = cache.get_or_try_init(&1, 1, |_| {
                making.wait();
                // Gives the other thread time to wait. If it comes later, it makes the value all
                // the same.
                thread::sleep(Duration::from_millis(50));
                Err("no value")
            });
            failed.err()
        });
        making.wait();
        let handle = cache.get_or_init(&1, 5, |_| 7);
        assert_eq!(handle.as_deref(), Ok(&7));
        assert_eq!(failing.join().unwrap(), Some(GetError::Init("no value")));
    });
    assert_eq!(cache.get(&1)?.as_deref(), Some(&7));
    Ok(())
}

#[test]
fn a_pinned_value_stays_above_the_capacity() -> Result<(), Refusal> {
    let cache = LruCache::<u64, String>::new(1)?;
    let large = cache.get_or_init(&1, 100, |key| format!("value {key}"))?;
    let small = cache.get_or_init(&2, 1, |key| format!("value {key}"))?;
    assert_eq!(cache.total_charge(), 101);
    assert_eq!(
        (large.value().as_str(), small.value().as_str()),
        ("value 1", "value 2")
    );
    drop(large);
    assert_eq!(cache.total_charge(), 1);
    drop(small);
    assert_eq!(cache.total_charge(), 1);
    cache.prune();
    assert_eq!(cache.total_charge(), 0);
    Ok(())
}

#[test]
fn a_capacity_is_set_at_any_time() -> Result<(), Refusal> {
    let recording = Recording::new()?;
    assert_eq!(recording.cache.capacity(), 2);
    recording.cache.set_capacity(3);
    for number in 1..=4 {
        recording.make(number)?;
    }
    assert_eq!(recording.dropped(), [1]);
    recording.cache.set_capacity(1);
    assert_eq!(recording.dropped(), [1, 2, 3]);
    assert_eq!(recording.cache.capacity(), 1);
    Ok(())
}

#[test]
fn refusals_have_names_and_change_nothing() -> Result<(), Refusal> {
    let cache = LruCache::<u32, u32>::new(10)?;
    cache.get_or_init(&1, 1, |_| 1)?;
    let refused = cache.get_or_init(&2, 0, |_| 2).err();
    assert_eq!(refused, Some(Refusal::ZeroCharge));
    // Also if the key has a value.
    let refused = cache.get_or_init(&1, 0, |_| 2).err();
    assert_eq!(refused, Some(Refusal::ZeroCharge));
    let refused = cache.get_or_init(&2, u64::MAX, |_| 2).err();
    assert_eq!(refused, Some(Refusal::Overflow));
    assert_eq!(cache.total_charge(), 1);
    assert_eq!(cache.get(&1)?.as_deref(), Some(&1));
    Ok(())
}

#[test]
fn a_strict_limit_has_no_room_beside_pinned_values() -> Result<(), Refusal> {
    let cache = LruCache::<u32, u32>::new(10)?;
    assert!(!cache.is_limit_strict());
    cache.set_strict_limit(true);
    assert!(cache.is_limit_strict());
    let one = cache.get_or_init(&1, 6, |_| 1)?;
    cache.get_or_init(&2, 4, |_| 2)?;
    let before = cache.stats();
    let refused = cache.get_or_init(&3, 5, |_| unreachable!()).err();
    assert_eq!(refused, Some(Refusal::Full));
    let refused = cache.get_or_try_init(&3, 5, |_| Err("never")).err();
    assert_eq!(refused, Some(GetError::Refused(Refusal::Full)));
    assert_eq!(cache.insert(&3, 5, 3).err(), Some(Refusal::Full));
    // The old value has a handle, so it takes room.
    assert_eq!(cache.insert(&1, 5, 3).err(), Some(Refusal::Full));
    // Nothing is evicted or counted.
    assert_eq!(cache.stats(), before);
    assert_eq!(cache.get(&1)?.as_deref(), Some(&1));
    assert_eq!(cache.get(&2)?.as_deref(), Some(&2));

    // A value that exists is found; idle values leave for a new one.
    assert_eq!(*cache.get_or_init(&1, 9, |_| unreachable!())?, 1);
    assert_eq!(*cache.get_or_init(&3, 4, |_| 3)?, 3);
    assert!(!cache.contains(&2)?);
    assert_eq!(*cache.insert(&3, 4, 4)?, 4);
    assert_eq!(cache.total_charge(), 10);
    drop(one);
    assert_eq!(*cache.insert(&4, 10, 5)?, 5);
    assert_eq!(cache.total_charge(), 10);

    // The limit is set at any time, whatever the total is.
    cache.set_strict_limit(false);
    let large = cache.insert(&5, 11, 6)?;
    cache.set_strict_limit(true);
    assert_eq!((*large, cache.total_charge()), (6, 11));
    assert_eq!(cache.insert(&6, 1, 7).err(), Some(Refusal::Full));
    drop(large);
    assert_eq!(*cache.insert(&6, 1, 7)?, 7);
    Ok(())
}

#[test]
fn an_insert_replaces_whatever_is_there() -> Result<(), Refusal> {
    let recording = Recording::new()?;
    let put = |key: u32, number, charge| {
        let dropped = recording.dropped.clone();
        recording
            .cache
            .insert(&key, charge, Recorded { number, dropped })
    };
    put(1, 10, 1)?;
    let held = put(1, 11, 1)?;
    assert_eq!(recording.dropped(), [10]);
    let fresh = put(1, 12, 1)?;
    assert_eq!((held.number, fresh.number), (11, 12));
    assert_eq!(recording.cache.get(&1)?.map(|value| value.number), Some(12));
    assert_eq!(recording.cache.total_charge(), 2);
    drop(held);
    assert_eq!(recording.dropped(), [10, 11]);
    assert_eq!(recording.cache.total_charge(), 1);
    // Refused inserts leave the key its value.
    assert_eq!(put(1, 13, 0).err(), Some(Refusal::ZeroCharge));
    assert_eq!(put(1, 14, u64::MAX).err(), Some(Refusal::Overflow));
    assert_eq!(recording.dropped(), [10, 11, 13, 14]);
    drop(fresh);
    assert_eq!(recording.cache.get(&1)?.map(|value| value.number), Some(12));
    // This one evicts what is idle.
    drop(put(2, 20, 2)?);
    assert_eq!(recording.dropped(), [10, 11, 13, 14, 12]);
    Ok(())
}

#[test]
fn an_invalidate_takes_a_value_away() -> Result<(), Refusal> {
    let cache = LruCache::<String, u32>::new(10)?;
    cache.invalidate("a")?;
    cache.insert("a", 3, 1)?;
    cache.invalidate("a")?;
    assert!(cache.get("a")?.is_none());
    assert_eq!(cache.total_charge(), 0);
    let held = cache.insert("a", 3, 1)?;
    cache.invalidate("a")?;
    assert!(cache.get("a")?.is_none());
    assert_eq!((*held, cache.total_charge()), (1, 3));
    assert_eq!(*cache.get_or_init("a", 4, |_| 2)?, 2);
    assert_eq!(cache.total_charge(), 7);
    drop(held);
    assert_eq!(cache.get("a")?.as_deref(), Some(&2));
    assert_eq!(cache.total_charge(), 4);
    Ok(())
}

#[test]
fn a_clone_pins_its_value_too() -> Result<(), Refusal> {
    let recording = Recording::new()?;
    let cache = &recording.cache;
    let first = recording.make(1)?;
    let before = cache.stats();
    let second = first.try_clone()?;
    assert!(ptr::eq(first.value(), second.value()));
    assert_eq!(cache.stats(), before);
    drop(first);
    cache.prune();
    assert_eq!((second.number, cache.pinned_charge()), (1, 1));
    // The value is no longer the key's, and the clone of a clone has it all the same.
    cache.invalidate(&1)?;
    let dropped = recording.dropped.clone();
    cache.insert(&1, 1, Recorded { number: 2, dropped })?;
    let third = second.try_clone()?;
    drop(second);
    assert_eq!(recording.dropped(), []);
    assert_eq!(
        (third.number, cache.get(&1)?.map(|value| value.number)),
        (1, Some(2))
    );
    drop(third);
    assert_eq!((recording.dropped(), cache.total_charge()), (vec![1], 1));
    Ok(())
}

#[test]
fn clones_go_to_other_threads() -> Result<(), Refusal> {
    let cache = LruCache::<u32, u32>::new(10)?;
    let handle = cache.insert(&1, 1, 7)?;
    cache.invalidate(&1)?;
    thread::scope(|scope| {
        for _ in 0..8 {
            let clone = handle.try_clone()?;
            scope.spawn(move || assert_eq!(clone.try_clone().as_deref(), Ok(&*clone)));
        }
        Ok::<(), Refusal>(())
    })?;
    assert_eq!((*handle, cache.pinned_charge()), (7, 1));
    drop(handle);
    assert!(cache.is_empty());
    Ok(())
}

#[test]
fn a_last_release_may_evict() -> Result<(), Refusal> {
    let recording = Recording::new()?;
    let cache = &recording.cache;
    recording.make(1)?;
    let first = recording.make(2)?;
    let second = first.try_clone()?;
    first.release_and_evict();
    assert_eq!((recording.dropped(), second.number), (vec![], 2));
    // The other value is older, and stays.
    second.release_and_evict();
    assert_eq!((recording.dropped(), cache.total_charge()), (vec![2], 1));
    assert!(cache.contains(&1)? && !cache.contains(&2)?);
    assert_eq!(cache.stats().evictions, 1);
    // Whoever is last decides.
    let first = recording.make(1)?;
    let second = first.try_clone()?;
    first.release_and_evict();
    drop(second);
    assert_eq!((recording.dropped(), cache.pinned_charge()), (vec![2], 0));
    // A value that is no longer its key's.
    let held = recording.make(1)?;
    cache.invalidate(&1)?;
    held.release_and_evict();
    assert_eq!(recording.dropped(), [2, 1]);
    assert!(cache.is_empty());
    Ok(())
}

#[test]
fn a_making_that_is_invalidated_is_not_waited_for() -> Result<(), Refusal> {
    let cache = LruCache::<u32, u32>::new(10)?;
    let making = Barrier::new(2);
    thread::scope(|scope| {
        let making_first = scope.spawn(|| {
            let handle = cache.get_or_init(&1, 1, |_| {
                making.wait();
                making.wait();
                1
            });
            handle.map(|value| *value)
        });
        making.wait();
        assert_eq!(cache.invalidate(&1), Ok(()));
        assert_eq!(cache.get_or_init(&1, 1, |_| 2).as_deref(), Ok(&2));
        making.wait();
        assert_eq!(making_first.join().unwrap(), Ok(1));
    });
    assert_eq!(cache.get(&1)?.as_deref(), Some(&2));
    assert_eq!(cache.total_charge(), 1);
    Ok(())
}

#[test]
fn a_dropped_cache_drops_its_values() -> Result<(), Refusal> {
    let recording = Recording::new()?;
    let dropped = recording.dropped.clone();
    for number in 1..=3 {
        recording.make(number)?;
    }
    drop(recording);
    assert_eq!(*dropped.lock().unwrap(), [1, 2, 3]);
    Ok(())
}

#[test]
fn a_forgotten_handle_keeps_its_entry_until_the_cache_goes() -> Result<(), Refusal> {
    let recording = Recording::new()?;
    let dropped = recording.dropped.clone();
    std::mem::forget(recording.make(1)?);
    recording.cache.prune();
    assert_eq!(recording.cache.total_charge(), 1);
    drop(recording);
    assert_eq!(*dropped.lock().unwrap(), [1]);
    Ok(())
}

#[test]
fn a_drop_may_call_the_cache() -> Result<(), Refusal> {
    struct Calls {
        cache: std::sync::Weak<LruCache<u32, Calls>>,
        total: Arc<AtomicU64>,
    }

    impl Drop for Calls {
        fn drop(&mut self) {
            if let Some(cache) = self.cache.upgrade() {
                cache.prune();
                self.total
                    .fetch_add(1 + cache.total_charge(), Ordering::Relaxed);
            }
        }
    }

    let total = Arc::new(AtomicU64::new(0));
    let cache = Arc::new(LruCache::<u32, _>::new(2)?);
    for key in 0..4 {
        cache.get_or_init(&key, 1, |_| Calls {
            cache: Arc::downgrade(&cache),
            total: total.clone(),
        })?;
    }
    cache.prune();
    // Each of the four was dropped, and its drop could lock the cache.
    assert!(total.load(Ordering::Relaxed) >= 4);
    assert_eq!(cache.total_charge(), 0);
    Ok(())
}

#[test]
fn a_panicking_drop_loses_no_other() -> Result<(), Refusal> {
    struct Panics {
        number: u32,
        dropped: Arc<Mutex<Vec<u32>>>,
    }

    impl Drop for Panics {
        fn drop(&mut self) {
            self.dropped.lock().unwrap().push(self.number);
            assert!(self.number != 2 || thread::panicking(), "the drop of 2");
        }
    }

    let dropped: Arc<Mutex<Vec<u32>>> = Arc::default();
    let cache = LruCache::<u32, Panics>::new(5)?;
    for number in 1..=3 {
        cache.get_or_init(&number, 1, |&number| Panics {
            number,
            dropped: dropped.clone(),
        })?;
    }
    let caught = thread::scope(|scope| scope.spawn(|| cache.prune()).join());
    assert!(caught.is_err());
    assert_eq!(*dropped.lock().unwrap(), [1, 2, 3]);
    // The cache still works.
    assert_eq!(cache.total_charge(), 0);
    assert!(cache.get(&1)?.is_none());
    Ok(())
}

#[test]
fn a_panicking_drop_leaves_no_pin() -> Result<(), Refusal> {
    struct Panics(bool);

    impl Drop for Panics {
        fn drop(&mut self) {
            assert!(!self.0, "the drop of a value");
        }
    }

    let cache = LruCache::<u32, Panics>::new(1)?;
    cache.get_or_init(&1, 1, |_| Panics(true))?;
    // This evicts 1, before `init` runs.
    let caught = thread::scope(|scope| {
        scope
            .spawn(|| cache.get_or_init(&2, 1, |_| Panics(false)).map(drop))
            .join()
    });
    assert!(caught.is_err());
    assert_eq!(cache.total_charge(), 0);
    cache.get_or_init(&2, 1, |_| Panics(true))?;
    // This evicts 2.
    let caught = thread::scope(|scope| {
        scope
            .spawn(|| cache.insert(&3, 1, Panics(false)).map(drop))
            .join()
    });
    assert!(caught.is_err());
    assert!(cache.get(&3)?.is_some());
    cache.prune();
    assert_eq!(cache.total_charge(), 0);
    let held = cache.insert(&4, 1, Panics(true))?;
    let caught = thread::scope(|scope| scope.spawn(|| held.release_and_evict()).join());
    assert!(caught.is_err());
    assert_eq!((cache.pinned_charge(), cache.total_charge()), (0, 0));
    Ok(())
}

/// Adds its charge when it is dropped.
struct Counted<'a> {
    charge: u64,
    dropped: &'a AtomicU64,
}

impl Drop for Counted<'_> {
    fn drop(&mut self) {
        self.dropped.fetch_add(self.charge, Ordering::Relaxed);
    }
}

#[test]
fn stress() -> Result<(), Refusal> {
    const CAPACITY: u64 = 100;
    let made = AtomicU64::new(0);
    let dropped = AtomicU64::new(0);
    let cache = LruCache::<u64, _>::new(CAPACITY)?;
    thread::scope(|scope| {
        for seed in 1..=8u64 {
            let (cache, made, dropped) = (&cache, &made, &dropped);
            scope.spawn(move || {
                let mut random = seed;
                for _ in 0..10_000 {
                    random = random.wrapping_mul(6364136223846793005).wrapping_add(1);
                    let key = (random >> 33) % 100;
                    // The same for all values of a key: a caller that waited and then makes the
                    // value makes it for an entry with the charge of another caller.
                    let charge = 1 + key % 4;
                    let fails = (random >> 50) % 10 >= 8;
                    let value = || {
                        made.fetch_add(charge, Ordering::Relaxed);
                        Counted { charge, dropped }
                    };
                    match (random >> 56) % 16 {
                        0 => assert!(cache.invalidate(&key).is_ok()),
                        1 => assert!(cache.insert(&key, charge, value()).is_ok()),
                        _ => {
                            let made = |_: &u64| if fails { Err(()) } else { Ok(value()) };
                            let answer = cache.get_or_try_init(&key, charge, made);
                            assert!(fails || answer.is_ok());
                        }
                    }
                    if key % 10 == 0 {
                        thread::yield_now();
                    }
                }
            });
        }
    });
    assert!(cache.total_charge() <= CAPACITY);
    let kept = cache.total_charge();
    assert_eq!(
        made.load(Ordering::Relaxed),
        kept + dropped.load(Ordering::Relaxed)
    );
    cache.prune();
    assert_eq!(
        made.load(Ordering::Relaxed),
        dropped.load(Ordering::Relaxed)
    );
    Ok(())
}

#[test]
fn keys_of_every_form() -> Result<(), Refusal> {
    fn serves<K, Q>(one: &Q, other: &Q)
    where
        K: std::borrow::Borrow<Q>,
        Q: concurrent_lru_proved::key::Key + ?Sized,
        K: concurrent_lru_proved::key::Key<Form = Q::Form>,
    {
        let cache = LruCache::<K, &str>::new(10).unwrap();
        cache.get_or_init(one, 1, |_| "one").unwrap();
        assert!(cache.get(other).unwrap().is_none());
        assert!(cache.find(other).unwrap().is_none());
        cache.get_or_init(other, 1, |_| "other").unwrap();
        assert_eq!(cache.get(one).unwrap().as_deref(), Some(&"one"));
        assert_eq!(cache.get(other).unwrap().as_deref(), Some(&"other"));
        assert_eq!(cache.find(other).unwrap().as_deref(), Some(&"other"));
    }

    serves::<String, str>("", "a");
    serves::<&str, str>("a", "a\0");
    serves::<Vec<u8>, [u8]>(&[0], &[0, 0]);
    serves::<[u8; 3], [u8; 3]>(&[1, 2, 3], &[3, 2, 1]);
    serves::<std::ffi::OsString, std::ffi::OsStr>("a".as_ref(), "b".as_ref());
    serves::<u8, u8>(&0, &255);
    serves::<i8, i8>(&-1, &1);
    serves::<i64, i64>(&i64::MIN, &0);
    serves::<u128, u128>(&1, &(1 << 64));
    serves::<i128, i128>(&-1, &(u64::MAX as i128));
    serves::<char, char>(&'a', &'b');
    serves::<bool, bool>(&false, &true);
    serves::<(u64, u64), (u64, u64)>(&(0, 1), &(1, 0));
    serves::<[u64; 2], [u64; 2]>(&[0, u64::MAX], &[u64::MAX, 0]);
    serves::<(u32, u32), (u32, u32)>(&(0, 1), &(1, 0));
    serves::<(u32, u64), (u32, u64)>(&(0, 1), &(1, 0));
    serves::<(u64, u32), (u64, u32)>(&(0, 1), &(1, 0));
    serves::<(usize, usize), (usize, usize)>(&(0, 1), &(1, 0));
    serves::<Arc<str>, str>("a", "b");
    serves::<std::rc::Rc<[u8]>, [u8]>(&[0], &[1]);
    serves::<Arc<u64>, u64>(&1, &2);
    serves::<Ipv4Addr, Ipv4Addr>(&Ipv4Addr::LOCALHOST, &Ipv4Addr::BROADCAST);
    serves::<Ipv6Addr, Ipv6Addr>(&Ipv6Addr::LOCALHOST, &Ipv6Addr::from(1 << 64));
    serves::<(i8, u16), (i8, u16)>(&(-1, 0), &(0, u16::MAX));
    serves::<(char, Ipv4Addr), _>(&('a', Ipv4Addr::LOCALHOST), &('a', Ipv4Addr::BROADCAST));
    serves::<PathBuf, Path>("a/b".as_ref(), "/a/b".as_ref());
    serves::<PathBuf, Path>("".as_ref(), ".".as_ref());
    serves::<Arc<Path>, Path>("/".as_ref(), "..".as_ref());
    serves::<&Path, Path>("ab".as_ref(), "a/b".as_ref());
    let mapped = |address: Ipv4Addr| IpAddr::V6(address.to_ipv6_mapped());
    serves::<IpAddr, _>(&Ipv4Addr::LOCALHOST.into(), &mapped(Ipv4Addr::LOCALHOST));
    serves::<IpAddr, _>(&Ipv6Addr::LOCALHOST.into(), &Ipv6Addr::UNSPECIFIED.into());
    let v4 = |port| SocketAddrV4::new(Ipv4Addr::LOCALHOST, port);
    let v6 = |scope| SocketAddrV6::new(Ipv6Addr::LOCALHOST, 80, 0, scope);
    serves::<SocketAddrV4, _>(&v4(80), &v4(443));
    serves::<SocketAddrV6, _>(&v6(0), &v6(1));
    serves::<SocketAddr, _>(&v4(80).into(), &v6(0).into());
    serves::<NonZeroU64, _>(&NonZeroU64::MIN, &NonZeroU64::MAX);
    serves::<NonZeroI8, _>(&NonZeroI8::MIN, &NonZeroI8::MAX);
    serves::<Option<u64>, _>(&None, &Some(0));
    serves::<Option<&str>, _>(&None, &Some(""));
    serves::<Box<str>, str>("a", "b");
    serves::<Box<Path>, Path>("a".as_ref(), "b".as_ref());
    serves::<Box<u64>, u64>(&1, &2);
    serves::<Cow<'_, str>, str>("a", "b");
    serves::<Cow<'_, [u8]>, [u8]>(&[0], &[1]);
    serves::<NonZeroU128, _>(&NonZeroU128::MIN, &NonZeroU128::MAX);
    serves::<NonZeroI128, _>(&NonZeroI128::MIN, &NonZeroI128::MAX);
    Ok(())
}

/// Keys of several parts differ if one of their parts does, and if the parts meet elsewhere.
#[test]
fn keys_of_several_parts() -> Result<(), Refusal> {
    fn all_differ<K: Key>(keys: &[K]) -> Result<(), Refusal> {
        let cache = LruCache::<K, usize>::new(100)?;
        for (number, key) in keys.iter().enumerate() {
            assert!(!cache.contains(key)?);
            cache.insert(key, 1, number)?;
        }
        for (number, key) in keys.iter().enumerate() {
            assert_eq!(cache.get(key)?.as_deref(), Some(&number));
        }
        Ok(())
    }

    let texts = || ["", "a", "ab", "b", "a\0", "\0"];
    let pairs = || {
        texts()
            .into_iter()
            .flat_map(|one| texts().map(|other| (one, other)))
    };
    all_differ(&pairs().collect::<Vec<(&str, &str)>>())?;
    let owned = pairs().map(|(one, other)| (one.to_string(), Arc::<str>::from(other)));
    all_differ(&owned.collect::<Vec<_>>())?;
    let threes = pairs().map(|(one, other)| (one, 0_u8, other.as_bytes()));
    all_differ(&threes.collect::<Vec<_>>())?;
    all_differ(&[(1_u64, "a"), (1, "b"), (2, "a")])?;
    all_differ(&[("a", 1_u64), ("b", 1), ("a", 2)])?;
    all_differ(&[
        (PathBuf::from("a"), 1_i32),
        ("a/a".into(), 1),
        ("a".into(), -1),
    ])?;
    all_differ(&[
        (IpAddr::V4(Ipv4Addr::LOCALHOST), 80_u16),
        (Ipv6Addr::LOCALHOST.into(), 80),
    ])?;
    let localhost = |port| SocketAddr::from((Ipv4Addr::LOCALHOST, port));
    all_differ(&[
        (localhost(80), None),
        (localhost(80), Some("")),
        (localhost(81), None),
    ])?;
    all_differ(&[(Some(1_u8), None), (None, Some(1_u8)), (None, None)])?;
    all_differ(&[(1_u8, 2_u8, 3_u8), (1, 3, 2), (2, 1, 3), (3, 2, 1)])?;
    all_differ(&[
        (1_u8, 2_u8, "", 3_u128),
        (1, 2, "\0", 3),
        (1, 2, "", 1 << 64),
    ])?;
    all_differ(&[(1_u8, [0_u8; 4]), (0, [1, 0, 0, 0])])?;
    all_differ(&[((1_u8, "a"), "b", 2_u8), ((1, "ab"), "", 2)])?;
    // Pairs of any two keys.
    all_differ(&[(1_u64, (2_u64, 3_u64)), (1, (3, 2)), (2, (1, 3))])?;
    all_differ(&[((1_u64, 2_u64), "a".to_string()), ((2, 1), "a".into())])?;
    all_differ(&[(("a", 1_u64), 2_u64), (("a", 2), 1), (("", 1), 2)])?;
    all_differ(&[(1_u64, Box::new(2_u64)), (2, Box::new(1))])?;
    all_differ(&[(1_u128, 2_u128), (2, 1), (1, 2 << 64), (1 << 64, 2)])?;
    all_differ(&[(1_u8, 2_u128), (2, 1), (1, 2 << 64)])?;
    all_differ(&[(2_u128, 1_u8), (1, 2), (2 << 64, 1)])?;
    all_differ(&[(None, 1_u8), (Some(1_u8), 1), (Some(1), 2)])?;
    all_differ(&[(Block(1, 2), 3_u8), (Block(2, 1), 3), (Block(1, 2), 4)])?;
    all_differ(&[(3_u8, Block(1, 2)), (3, Block(2, 1)), (4, Block(1, 2))])?;
    all_differ(&[(User(1), 2_u8), (User(2), 1)])?;
    all_differ(&[(Cow::Borrowed("a"), 1_u8), (Cow::Owned("b".into()), 1)])?;
    all_differ(&[
        Duration::ZERO,
        Duration::from_nanos(1),
        Duration::from_secs(1),
    ])?;
    all_differ(&[[1_u32, 2, 3], [3, 2, 1], [1, 2, 4]])?;
    all_differ(&[["a", "b"], ["ab", ""], ["", "ab"]])?;
    all_differ(&[[-1_i64; 2], [1; 2], [-1, 1]])?;
    all_differ(&[[0_u64], [1], [1 << 63]])?;
    all_differ(&[[1_u64, 2, 3], [3, 2, 1], [1, 2, 4], [1, 2 << 32, 3]])?;
    all_differ(&[
        ([0_u64; 5], [0_u64; 6], [0_u64; 7]),
        ([0; 5], [0; 6], [1; 7]),
    ])?;
    all_differ(&[[0_u64; 8], [1; 8], [0, 0, 0, 0, 0, 0, 0, 1]])?;
    all_differ(&[[(1_u8, "a"), (2, "b")], [(1, "b"), (2, "a")]])
}

/// A key of two words, and one that is a word.
struct Block(u64, u64);
struct User(u64);

impl Key for Block {
    type Form = Words;

    fn written(&self) -> [u64; 2] {
        [self.0, self.1]
    }
}

impl Key for User {
    type Form = Word;

    fn written(&self) -> [u64; 2] {
        self.0.written()
    }
}

/// Pairs of words take no memory, and other pairs are written as triples are.
#[test]
fn pairs_of_words_are_words() {
    assert_eq!((7_u8, -1_i64).written(), [7, u64::MAX]);
    assert_eq!((User(7), 8_u32).written(), [7, 8]);
    assert_eq!(7_u16.written(), [0, 7]);
    assert_eq!([7_u64, 8].written(), [7, 8]);
    assert_eq!([7_u64; 4].written(), [7_usize; 4].written());
    let triple = ("a", 1_u8, "b").written();
    let pair = (("a", 1_u8), "b").written();
    assert!(triple.len() < pair.len());
    assert_eq!(triple[..9], ("a", 1_u8).written()[..9]);
}

#[test]
fn equal_paths_find_the_same_value() -> Result<(), Refusal> {
    let cache = LruCache::<PathBuf, u32>::new(10)?;
    cache.insert(Path::new("/a/./b//c"), 1, 7)?;
    for path in ["/a/b/c", "//a/b/c/", "/a/b/c/."] {
        assert_eq!(cache.get(Path::new(path))?.as_deref(), Some(&7));
    }
    assert!(!cache.contains(Path::new("/a/b/../b/c"))?);
    Ok(())
}

#[test]
fn caches_and_handles_cross_threads() -> Result<(), Refusal> {
    let cache = LruCache::<u32, String>::new(2)?;
    let handle = cache.get_or_init(&1, 1, |key| key.to_string())?;
    thread::scope(|scope| {
        scope.spawn(move || {
            assert_eq!(handle.value(), "1");
            drop(handle);
        });
    });
    thread::spawn(move || assert_eq!(cache.total_charge(), 1))
        .join()
        .unwrap();
    Ok(())
}

#[test]
fn errors_say_what_happened() {
    let told = |error: &dyn std::error::Error| error.to_string();
    assert_eq!(
        told(&Refusal::Memory),
        "the cache could not allocate memory"
    );
    assert_eq!(told(&Refusal::Full), "the cache is full of pinned values");
    assert_eq!(
        told(&GetError::Init(std::fmt::Error)),
        "the value could not be made"
    );
    for (error, kind) in [
        (Refusal::Memory, io::ErrorKind::OutOfMemory),
        (Refusal::Overflow, io::ErrorKind::Other),
        (Refusal::ZeroCharge, io::ErrorKind::InvalidInput),
        (Refusal::Full, io::ErrorKind::Other),
    ] {
        assert_eq!(io::Error::from(GetError::Refused(error)).kind(), kind);
    }
    let missing = GetError::Init(io::Error::from(io::ErrorKind::NotFound));
    assert_eq!(io::Error::from(missing).kind(), io::ErrorKind::NotFound);
}

#[test]
fn room_is_made_in_advance_or_refused() -> Result<(), Refusal> {
    let cache = LruCache::<u64, u64>::new(10)?;
    cache.reserve(1000)?;
    assert_eq!(cache.reserve(usize::MAX), Err(Refusal::Memory));
    let shards = concurrent_lru_proved::sharded::LruCache::<u64, u64>::new(1000)?;
    shards.reserve(1000)?;
    assert_eq!(shards.reserve(usize::MAX), Err(Refusal::Memory));
    cache.insert(&1, 1, 1)?;
    assert!(cache.contains(&1)?);
    Ok(())
}

/// What `for_each` shows, in the order of the values: value, charge, pins.
fn shown(cache: &LruCache<u64, u64>) -> Vec<(u64, u64, u32)> {
    let mut all = Vec::new();
    cache.for_each(|entry| all.push((*entry.value, entry.charge, entry.pins)));
    all.sort_unstable();
    all
}

#[test]
fn values_that_keys_find_are_shown() -> Result<(), Refusal> {
    let cache = LruCache::new(10)?;
    assert_eq!(shown(&cache), []);
    let held = cache.insert(&1, 1, 10)?;
    cache.insert(&2, 2, 20)?;
    cache.insert(&3, 3, 30)?;
    let twice = cache.insert(&4, 4, 40)?;
    let again = twice.try_clone()?;
    let all = [(10, 1, 1), (20, 2, 0), (30, 3, 0), (40, 4, 2)];
    assert_eq!(shown(&cache), all);
    cache.get_or_init(&5, 1, |_| {
        // Not while it is being made. The making evicted the oldest: to be shown is no use.
        assert_eq!(shown(&cache), [(10, 1, 1), (30, 3, 0), (40, 4, 2)]);
        50
    })?;
    cache.invalidate(&1)?;
    drop(again);
    assert_eq!(shown(&cache), [(30, 3, 0), (40, 4, 1), (50, 1, 0)]);
    drop(held);
    assert_eq!(cache.len(), 3);
    Ok(())
}

#[test]
fn a_value_is_shown_where_it_is() -> Result<(), Refusal> {
    let cache = LruCache::<u64, String>::new(10)?;
    let held = cache.insert(&1, 1, "one".to_string())?;
    let mut at = ptr::null();
    cache.for_each(|entry| at = entry.value);
    assert!(ptr::eq(at, &*held));
    Ok(())
}

#[test]
fn a_visit_may_panic() -> Result<(), Refusal> {
    let cache = LruCache::new(10)?;
    for key in 0..3 {
        cache.insert(&key, 1, key)?;
    }
    let mut visits = 0;
    let visited = panic::catch_unwind(AssertUnwindSafe(|| {
        cache.for_each(|_| {
            visits += 1;
            assert!(visits < 2, "enough");
        });
    }));
    assert!(visited.is_err());
    assert_eq!((visits, shown(&cache).len()), (2, 3));
    Ok(())
}

/// In a function that returns `io::Result`, `?` is enough for an `init` that opens a file.
#[test]
fn errors_become_those_of_io() -> io::Result<()> {
    fn head(files: &LruCache<PathBuf, File>, path: &Path) -> io::Result<[u8; 4]> {
        let file = files.get_or_try_init(path, 1, |path| File::open(path))?;
        let mut head = [0; 4];
        file.read_exact_at(&mut head, 0)?;
        Ok(head)
    }

    let files = LruCache::new(10)?;
    assert_eq!(head(&files, &std::env::current_exe()?)?, *b"\x7fELF");
    let missing = head(&files, Path::new("/there/is/no/such/file"));
    assert_eq!(
        missing.map_err(|error| error.kind()),
        Err(io::ErrorKind::NotFound)
    );
    assert_eq!(files.len(), 1);
    Ok(())
}
