//! Tests the calls that take many values away, and the keys that a walk shows.

use std::borrow::Cow;
use std::num::NonZeroUsize;
use std::panic::{self, AssertUnwindSafe};
use std::path::PathBuf;
use std::sync::{Arc, Barrier, Mutex};
use std::thread;
use std::time::Duration;

use concurrent_lru_proved::key::Key;
use concurrent_lru_proved::unsharded::LruCache;
use concurrent_lru_proved::{Refusal, sharded};

/// Records its number when it is dropped.
#[derive(Debug)]
struct Recorded {
    number: usize,
    dropped: Arc<Mutex<Vec<usize>>>,
}

impl Drop for Recorded {
    fn drop(&mut self) {
        self.dropped.lock().unwrap().push(self.number);
    }
}

/// Checks `clear` with the keys that a function makes of numbers.
fn clears<K: Key + Send + Sync>(key: fn(usize) -> K) -> Result<(), Refusal> {
    let dropped = Arc::new(Mutex::new(Vec::new()));
    let value = |number| Recorded {
        number,
        dropped: Arc::clone(&dropped),
    };
    let taken = || std::mem::take(&mut *dropped.lock().unwrap());
    let cache = LruCache::<K, Recorded>::new(10)?;
    cache.clear()?;
    for number in 1..=3 {
        cache.insert(&key(number), 1, value(number))?;
    }
    cache.clear()?;
    // The one that was released first leaves first.
    assert_eq!((taken(), cache.len()), (vec![1, 2, 3], 0));

    // A value with a handle leaves with it. So does one that was replaced before.
    let held = cache.insert(&key(4), 1, value(4))?;
    let replaced = cache.insert(&key(5), 1, value(5))?;
    cache.insert(&key(5), 1, value(50))?;
    cache.insert(&key(150), 1, value(6))?;
    cache.clear()?;
    assert_eq!((taken(), cache.len()), (vec![50, 6], 2));
    for number in [4, 5, 150] {
        assert!(!cache.contains(&key(number))?);
    }
    let fresh = cache.insert(&key(4), 1, value(40))?;
    assert_eq!((held.number, replaced.number, fresh.number), (4, 5, 40));
    drop((held, replaced, fresh));
    assert_eq!((taken(), cache.contains(&key(4))?), (vec![4, 5], true));

    // No key finds a value whose making had begun.
    let making = Barrier::new(2);
    thread::scope(|scope| {
        let maker = scope.spawn(|| {
            let made = cache.get_or_init(&key(7), 1, |_| {
                // This one begins later and ends earlier.
                let other = cache.get_or_init(&key(8), 1, |_| {
                    making.wait();
                    making.wait();
                    value(8)
                });
                assert_eq!(other.map(|handle| handle.number), Ok(8));
                assert_eq!(cache.contains(&key(8)), Ok(false));
                value(7)
            });
            made.map(|handle| handle.number)
        });
        making.wait();
        let waiting = scope.spawn(|| {
            // It has asked before the clear.
            let got = cache.get_or_init(&key(7), 1, |_| value(0));
            got.map(|handle| handle.number)
        });
        while cache.stats().waits == 0 {
            thread::sleep(Duration::from_millis(1));
        }
        cache.clear()?;
        assert_eq!((taken(), cache.len()), (vec![40], 2));
        let fresh = cache.get_or_init(&key(7), 1, |_| value(70))?;
        assert_eq!(fresh.number, 70);
        making.wait();
        assert_eq!(maker.join().unwrap(), Ok(7));
        assert_eq!(waiting.join().unwrap(), Ok(7));
        Ok(())
    })?;
    assert_eq!(taken(), [8, 7]);
    assert_eq!(cache.read(&key(7), |value| value.number)?, Some(70));
    Ok(())
}

#[test]
fn a_clear_leaves_nothing_to_be_found() -> Result<(), Refusal> {
    clears(|number| number)?;
    // Keys of different lengths, as each form writes them.
    clears(|number| "k".repeat(number))?;
    clears(|number| (number, "k".repeat(number)))
}

#[test]
fn what_is_not_retained_leaves() -> Result<(), Refusal> {
    let dropped = Arc::new(Mutex::new(Vec::new()));
    let value = |number| Recorded {
        number,
        dropped: Arc::clone(&dropped),
    };
    let cache = LruCache::<String, Recorded>::new(100)?;
    let longest = "x".repeat(100);
    cache.retain(|_, _, _| false)?;
    cache.insert("a", 1, value(1))?;
    cache.insert("bb", 2, value(2))?;
    let held = cache.insert("", 3, value(3))?;
    let invalidated = cache.insert("gone", 4, value(4))?;
    cache.invalidate("gone")?;
    cache.insert(&longest, 5, value(5))?;
    let before = cache.stats();

    // Each key, value and charge is shown once. Nothing is dropped meanwhile.
    let mut seen = Vec::new();
    cache.retain(|key, value, charge| {
        seen.push((
            String::from_utf8(key.to_vec()).unwrap(),
            value.number,
            charge,
        ));
        assert!(dropped.lock().unwrap().is_empty());
        true
    })?;
    seen.sort();
    let shown = [("", 3, 3), ("a", 1, 1), ("bb", 2, 2), (&longest, 5, 5)];
    assert_eq!(
        seen,
        shown.map(|(key, number, charge)| (key.to_string(), number, charge))
    );
    assert_eq!(cache.len(), 5);

    // By key, by value and by charge. A value with a handle leaves with it.
    cache.retain(|key, _, _| key != b"bb")?;
    cache.retain(|_, value, _| value.number != 5)?;
    assert_eq!(*dropped.lock().unwrap(), [2, 5]);
    cache.retain(|_, _, charge| charge != 3)?;
    assert!(!cache.contains("")? && !cache.contains("bb")? && cache.contains("a")?);
    assert_eq!((held.number, dropped.lock().unwrap().len()), (3, 2));
    drop(held);
    assert_eq!(*dropped.lock().unwrap(), [2, 5, 3]);
    let after = cache.stats();
    assert_eq!(
        (after.evictions, after.hits),
        (before.evictions + 3, before.hits)
    );

    // A value that is being made is not shown, and stays.
    cache.get_or_init("made", 1, |_| {
        assert_eq!(cache.retain(|key, _, _| key != b"a"), Ok(()));
        value(6)
    })?;
    assert!(cache.contains("made")? && cache.len() == 2);
    drop(invalidated);
    assert_eq!(*dropped.lock().unwrap(), [2, 5, 3, 1, 4]);
    Ok(())
}

/// Calls its cache when it is dropped.
struct Calling(Option<Arc<LruCache<u64, Calling>>>);

impl Drop for Calling {
    fn drop(&mut self) {
        if let Some(cache) = &self.0 {
            cache.prune();
        }
    }
}

#[test]
fn no_lock_is_held_while_what_left_is_dropped() -> Result<(), Refusal> {
    let cache = Arc::new(LruCache::new(10)?);
    let calling = || Calling(Some(Arc::clone(&cache)));
    cache.insert(&1, 1, calling())?;
    cache.retain(|_, _, _| false)?;
    cache.insert(&1, 1, calling())?;
    cache.insert(&2, 1, Calling(None))?;
    cache.clear()?;
    assert!(cache.is_empty());
    Ok(())
}

#[test]
fn a_closure_that_panics_removes_nothing() -> Result<(), Refusal> {
    let cache = LruCache::<u64, u64>::new(10)?;
    for key in 1..=3 {
        cache.insert(&key, 1, key)?;
    }
    let mut calls = 0;
    let panicked = panic::catch_unwind(AssertUnwindSafe(|| {
        cache.retain(|_, _, _| {
            calls += 1;
            assert!(calls < 3, "enough");
            false
        })
    }));
    assert!(panicked.is_err() && calls == 3);
    // The cache goes on.
    assert!(cache.len() == 3 && cache.contains(&1)?);
    assert_eq!(*cache.get_or_init(&4, 1, |_| 4)?, 4);
    cache.retain(|[_, key], value, _| key % 2 == 0 && *value == key)?;
    assert!(cache.len() == 2 && !cache.contains(&1)? && cache.contains(&2)?);
    Ok(())
}

#[test]
fn every_shard_is_cleared() -> Result<(), Refusal> {
    let shards = NonZeroUsize::new(4).unwrap();
    let cache = sharded::LruCache::<u64, u64>::with_shards(1000, shards)?;
    for key in 0..100 {
        cache.insert(&key, 1, key)?;
    }
    cache.retain(|[_, key], _, _| key % 2 == 1)?;
    assert!(cache.len() == 50 && !cache.contains(&42)? && cache.contains(&43)?);
    let held = cache.get(&43)?.unwrap();
    cache.clear()?;
    assert!(cache.len() == 1 && !cache.contains(&43)?);
    assert_eq!(*held, 43);
    Ok(())
}

#[test]
fn keys_are_shown_as_they_are_written() -> Result<(), Refusal> {
    let texts = LruCache::<String, u8>::new(10)?;
    texts.insert("one", 1, 1)?;
    texts.for_each(|entry| assert_eq!((entry.key, *entry.value), (&b"one"[..], 1)));
    let pairs = LruCache::<(u8, i64), u8>::new(10)?;
    pairs.insert(&(2, -1), 1, 2)?;
    pairs.for_each(|entry| assert_eq!(entry.key, [2, u64::MAX]));
    let paths = sharded::LruCache::<PathBuf, u8>::new(10)?;
    let path = PathBuf::from("/a/b");
    paths.insert(&path, 1, 3)?;
    let mut shown = Vec::new();
    paths.for_each(|entry| shown.push(Cow::into_owned(entry.key)));
    assert_eq!(shown, [path.written().into_owned()]);
    Ok(())
}
