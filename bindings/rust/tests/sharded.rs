//! Tests the cache of several shards.

use std::hash::{BuildHasher, BuildHasherDefault, DefaultHasher, Hasher};
use std::num::NonZeroUsize;
use std::path::PathBuf;
use std::sync::atomic::{AtomicU64, Ordering};
use std::thread;

use concurrent_lru_proved::sharded::{LruCache, shards_for};
use concurrent_lru_proved::{GetError, Refusal};

/// The hash of a `u64` is the number itself.
#[derive(Clone, Copy, Default)]
struct Itself(u64);

impl Hasher for Itself {
    fn finish(&self) -> u64 {
        self.0
    }

    fn write(&mut self, bytes: &[u8]) {
        for byte in bytes {
            self.0 = self.0 << 8 | u64::from(*byte);
        }
    }

    fn write_u64(&mut self, number: u64) {
        self.0 = number;
    }
}

type ByItself = BuildHasherDefault<Itself>;

fn by_itself(capacity: u64, shards: usize) -> Result<LruCache<u64, u64, ByItself>, Refusal> {
    let shards = NonZeroUsize::new(shards).unwrap();
    LruCache::with_shards_hasher(capacity, shards, ByItself::default())
}

#[test]
fn each_shard_has_its_share_rounded_up() -> Result<(), Refusal> {
    assert_eq!(by_itself(10, 3)?.capacity(), 12);
    assert_eq!(by_itself(0, 3)?.capacity(), 0);
    assert_eq!(by_itself(u64::MAX, 1)?.capacity(), u128::from(u64::MAX));
    assert_eq!(by_itself(u64::MAX, 2)?.capacity(), 1 << 64);
    assert_eq!(LruCache::<u64, u64>::new(1000)?.capacity(), 16 * 63);
    Ok(())
}

#[test]
fn a_small_cache_has_few_shards() -> Result<(), Refusal> {
    let numbers = [
        (0, 1, 1),
        (63, 1, 1),
        (64, 1, 2),
        (511, 1, 15),
        (512, 1, 16),
        (u64::MAX, 0, 16),
        (u64::MAX, u64::MAX, 1),
        (10_000, 4096, 1),
        (1 << 20, 4096, 8),
    ];
    for (capacity, charge, shards) in numbers {
        assert_eq!(shards_for(capacity, charge).get(), shards);
    }
    let kept = |cache: LruCache<u64, u64>| {
        for key in 0..20 {
            cache.insert(&key, 3, key)?;
        }
        Ok::<u64, Refusal>(cache.len())
    };
    // 16 shards of 2 keep nothing.
    let sixteen = NonZeroUsize::new(16).unwrap();
    assert_eq!(kept(LruCache::new(30)?)?, 10);
    assert_eq!(kept(LruCache::with_shards(30, sixteen)?)?, 0);
    assert_eq!(kept(LruCache::with_shards(30, NonZeroUsize::MIN)?)?, 10);
    // 15 shards of 34; with charges of about 16 one of 500, and with charges of about 8 three of
    // 334.
    assert_eq!(LruCache::<u64, u64>::new(500)?.capacity(), 510);
    let typical = |charge| LruCache::with_typical_charge(500, charge);
    assert_eq!((typical(16)?.capacity(), kept(typical(16)?)?), (500, 20));
    let three = LruCache::<u64, u64>::with_typical_charge(1001, 8)?;
    assert_eq!(three.capacity(), 1002);
    Ok(())
}

#[test]
fn keys_of_several_parts_choose_shards() -> Result<(), Refusal> {
    let cache = LruCache::<(PathBuf, u64), u64>::new(1000)?;
    for page in 0..100 {
        cache.insert(&("a//b".into(), page), 1, page)?;
    }
    for page in 0..100 {
        assert_eq!(cache.get(&("a/b/".into(), page))?.as_deref(), Some(&page));
    }
    assert_eq!(cache.len(), 100);
    Ok(())
}

#[test]
fn a_seed_does_not_choose_shards() -> Result<(), Refusal> {
    for seed in [0, 1, u64::MAX] {
        let shards = NonZeroUsize::new(2).unwrap();
        let cache = LruCache::<u64, u64, _>::with_seed(4, shards, ByItself::default(), seed)?;
        for key in [0_u64, 1, 2, 3, 4] {
            cache.insert(&key, 1, key)?;
        }
        assert!(!cache.contains(&0)? && cache.contains(&1)? && cache.contains(&4)?);
        assert_eq!(cache.len(), 4);
    }
    Ok(())
}

#[test]
fn an_entry_leaves_where_its_own_shard_is_full() -> Result<(), Refusal> {
    let cache = by_itself(4, 2)?;
    for key in [0, 1, 2, 3, 4] {
        cache.get_or_init(&key, 1, |key| key * 10)?;
    }
    let is_there = |key| Ok::<_, Refusal>(cache.get(&key)?.as_deref() == Some(&(key * 10)));
    assert!(!is_there(0)? && !cache.contains(&0)?);
    assert!(is_there(1)? && is_there(2)? && is_there(3)? && is_there(4)?);
    assert!(cache.contains(&1)? && cache.contains(&4)? && !cache.is_empty());
    assert_eq!((cache.total_charge(), cache.len()), (4, 4));
    Ok(())
}

#[test]
fn calls_reach_the_shard_of_their_key() -> Result<(), GetError<()>> {
    let cache = LruCache::<String, usize>::new(1000)?;
    for number in 0..100usize {
        let key = format!("key {number}");
        let handle = cache.get_or_try_init(key.as_str(), 1, |_| Ok::<_, ()>(number))?;
        assert_eq!(handle.value(), &number);
    }
    assert_eq!((cache.total_charge(), cache.pinned_charge()), (100, 0));
    for number in 0..100usize {
        let key = format!("key {number}");
        assert_eq!(cache.get(key.as_str())?.as_deref(), Some(&number));
        assert_eq!(
            cache.read(key.as_str(), |value| value + 1)?,
            Some(number + 1)
        );
        cache.advice_evict(key.as_str())?;
        assert!(cache.get(key.as_str())?.is_none());
    }
    assert_eq!(cache.total_charge(), 0);
    for number in 0..100usize {
        let key = format!("key {number}");
        assert_eq!(*cache.insert(key.as_str(), 1, number)?, number);
        assert_eq!(cache.find(key.as_str())?.as_deref(), Some(&number));
        cache.invalidate(key.as_str())?;
        assert!(cache.find(key.as_str())?.is_none());
    }
    assert_eq!(cache.total_charge(), 0);
    let failed = cache.get_or_try_init("none", 1, |_| Err(())).err();
    assert_eq!(failed, Some(GetError::Init(())));
    Ok(())
}

#[test]
fn clones_and_releases_reach_the_shard_of_their_value() -> Result<(), Refusal> {
    let cache = by_itself(100, 4)?;
    let mut handles = Vec::new();
    for key in 0..20 {
        let handle = cache.insert(&key, 1, key)?;
        handles.push(handle.try_clone()?);
        cache.invalidate(&key)?;
        cache.insert(&key, 2, key + 100)?;
        handle.release_and_evict();
    }
    assert_eq!((cache.pinned_charge(), cache.total_charge()), (20, 60));
    for (key, handle) in handles.into_iter().enumerate() {
        assert_eq!(*handle, key as u64);
        handle.release_and_evict();
    }
    assert_eq!((cache.pinned_charge(), cache.total_charge()), (0, 40));
    assert_eq!(cache.stats().evictions, 20);
    let held = cache.get(&7)?.expect("it was inserted");
    held.release_and_evict();
    assert!(!cache.contains(&7)? && cache.contains(&3)?);
    Ok(())
}

#[test]
fn prune_and_set_capacity_reach_every_shard() -> Result<(), Refusal> {
    let cache = by_itself(100, 4)?;
    let held = cache.get_or_init(&7, 1, |_| 0)?;
    for key in 0..20 {
        cache.get_or_init(&key, 1, |_| 1)?;
    }
    cache.set_capacity(8);
    assert_eq!(cache.capacity(), 8);
    assert_eq!(cache.total_charge(), 8);
    assert_eq!(cache.get(&7)?.as_deref(), Some(&0));
    cache.prune();
    assert_eq!(cache.total_charge(), 1);
    drop(held);
    cache.prune();
    assert_eq!(cache.total_charge(), 0);
    Ok(())
}

#[test]
fn a_strict_limit_is_that_of_each_shard() -> Result<(), Refusal> {
    let cache = by_itself(4, 2)?;
    assert!(!cache.is_limit_strict());
    cache.set_strict_limit(true);
    assert!(cache.is_limit_strict());
    let even = cache.insert(&0, 2, 0)?;
    assert_eq!(cache.insert(&2, 1, 2).err(), Some(Refusal::Full));
    assert_eq!(*cache.insert(&1, 2, 1)?, 1);
    cache.set_strict_limit(false);
    assert!(!cache.is_limit_strict());
    assert_eq!((*cache.insert(&2, 1, 2)?, *even), (2, 0));
    Ok(())
}

#[test]
fn totals_of_shards_never_wrap() -> Result<(), Refusal> {
    let cache = by_itself(0, 2)?;
    let zero = cache.get_or_init(&0, u64::MAX, |_| 0)?;
    let one = cache.get_or_init(&1, u64::MAX, |_| 1)?;
    assert_eq!(cache.total_charge(), 2 * u128::from(u64::MAX));
    assert_eq!(cache.pinned_charge(), 2 * u128::from(u64::MAX));
    assert_eq!((*zero, *one), (0, 1));
    assert_eq!(
        cache.get_or_init(&2, 1, |_| 2).err(),
        Some(Refusal::Overflow)
    );
    Ok(())
}

/// Adds its charge when it is dropped.
struct Counted<'a> {
    charge: u64,
    dropped: &'a AtomicU64,
}

impl Drop for Counted<'_> {
    fn drop(&mut self) {
        self.dropped.fetch_add(self.charge, Ordering::Relaxed);
    }
}

#[test]
fn stress() -> Result<(), Refusal> {
    const CAPACITY: u64 = 128;
    let made = AtomicU64::new(0);
    let dropped = AtomicU64::new(0);
    let cache = LruCache::<u64, _>::with_shards(CAPACITY, NonZeroUsize::new(16).unwrap())?;
    thread::scope(|scope| {
        for seed in 1..=8u64 {
            let (cache, made, dropped) = (&cache, &made, &dropped);
            scope.spawn(move || {
                let numbers = BuildHasherDefault::<DefaultHasher>::default();
                for call in 0..10_000u64 {
                    let random = numbers.hash_one((seed, call));
                    let key = random % 100;
                    // The same for all values of a key: a caller that waited and then makes the
                    // value makes it for an entry with the charge of another caller.
                    let charge = 1 + key % 4;
                    let fails = (random >> 40) % 10 >= 8;
                    let value = || {
                        made.fetch_add(charge, Ordering::Relaxed);
                        Counted { charge, dropped }
                    };
                    match (random >> 56) % 16 {
                        0 => assert!(cache.invalidate(&key).is_ok()),
                        1 => assert!(cache.insert(&key, charge, value()).is_ok()),
                        _ => {
                            let made = |_: &u64| if fails { Err(()) } else { Ok(value()) };
                            let answer = cache.get_or_try_init(&key, charge, made);
                            assert!(fails || answer.is_ok());
                        }
                    }
                    if key % 10 == 0 {
                        thread::yield_now();
                    }
                }
            });
        }
    });
    let kept = cache.total_charge();
    assert!(kept <= u128::from(CAPACITY));
    let so_far = dropped.load(Ordering::Relaxed);
    assert_eq!(
        u128::from(made.load(Ordering::Relaxed)),
        kept + u128::from(so_far)
    );
    cache.prune();
    assert_eq!(
        made.load(Ordering::Relaxed),
        dropped.load(Ordering::Relaxed)
    );
    Ok(())
}

#[test]
fn values_of_all_shards_are_shown() -> Result<(), Refusal> {
    let cache = by_itself(1000, 4)?;
    for key in 0..100 {
        cache.insert(&key, 1 + key % 3, key)?;
    }
    let mut all = Vec::new();
    cache.for_each(|entry| all.push((*entry.value, entry.charge, entry.pins)));
    all.sort_unstable();
    let wanted: Vec<(u64, u64, u32)> = (0..100).map(|key| (key, 1 + key % 3, 0)).collect();
    assert_eq!(all, wanted);
    Ok(())
}
