//! Compares the numbers of `stats` with those of a plain cache, after random calls.

use std::num::NonZeroUsize;
use std::sync::Barrier;
use std::thread;
use std::time::Duration;

use concurrent_lru_proved::unsharded::{CacheHandle, LruCache};
use concurrent_lru_proved::{GetError, Refusal, Stats, sharded};

/// An entry of the plain cache. The key is `None` once the entry is invalidated or replaced.
struct Entry {
    stamp: usize,
    key: Option<u64>,
    charge: u64,
    pins: usize,
}

/// The same cache, written as plainly as possible. The entries without a pin are in the order of
/// their last releases.
#[derive(Default)]
struct Plain {
    capacity: u64,
    entries: Vec<Entry>,
    stamps: usize,
    hits: u64,
    misses: u64,
    evictions: u64,
    removals: u64,
}

impl Plain {
    fn place(&self, key: u64) -> Option<usize> {
        self.entries.iter().position(|entry| entry.key == Some(key))
    }

    fn total(&self) -> u64 {
        self.entries.iter().map(|entry| entry.charge).sum()
    }

    fn evict(&mut self, place: usize) {
        self.entries.remove(place);
        self.evictions += 1;
    }

    fn settle(&mut self) {
        while self.total() > self.capacity {
            let Some(idle) = self.entries.iter().position(|entry| entry.pins == 0) else {
                return;
            };
            self.evict(idle);
        }
    }

    fn add(&mut self, key: u64, charge: u64) -> usize {
        self.stamps += 1;
        self.entries.push(Entry {
            stamp: self.stamps,
            key: Some(key),
            charge,
            pins: 1,
        });
        self.settle();
        self.stamps
    }

    /// Pins the entry of a key, and returns its stamp.
    fn get(&mut self, key: u64) -> Option<usize> {
        let Some(place) = self.place(key) else {
            self.misses += 1;
            return None;
        };
        self.hits += 1;
        self.entries[place].pins += 1;
        Some(self.entries[place].stamp)
    }

    fn fail(&mut self, stamp: usize) {
        self.entries.retain(|entry| entry.stamp != stamp);
        self.removals += 1;
    }

    fn pinned(&self, stamp: usize) -> usize {
        let place = self.entries.iter().position(|entry| entry.stamp == stamp);
        place.expect("a pinned entry stays")
    }

    fn pin_again(&mut self, stamp: usize) {
        let place = self.pinned(stamp);
        self.entries[place].pins += 1;
    }

    /// Takes a pin of an entry, and returns the place of the entry if it was the last.
    fn unpin(&mut self, stamp: usize) -> Option<usize> {
        let place = self.pinned(stamp);
        self.entries[place].pins -= 1;
        (self.entries[place].pins == 0).then_some(place)
    }

    fn release_and_evict(&mut self, stamp: usize) {
        if let Some(place) = self.unpin(stamp) {
            self.evict(place);
        }
    }

    fn release(&mut self, stamp: usize) {
        let Some(place) = self.unpin(stamp) else {
            return;
        };
        if self.entries[place].key.is_none() {
            return self.evict(place);
        }
        let entry = self.entries.remove(place);
        self.entries.push(entry);
        self.settle();
    }

    fn invalidate(&mut self, key: u64) {
        match self.place(key) {
            Some(place) if self.entries[place].pins == 0 => self.evict(place),
            Some(place) => self.entries[place].key = None,
            None => {}
        }
    }

    fn advice_evict(&mut self, key: u64) {
        let is_idle = |place: &usize| self.entries[*place].pins == 0;
        if let Some(place) = self.place(key).filter(is_idle) {
            self.evict(place);
        }
    }

    fn check(&self, stats: Stats) {
        let pinned = self.entries.iter().filter(|entry| entry.pins > 0);
        let pinned: u64 = pinned.map(|entry| entry.charge).sum();
        assert_eq!((stats.hits, stats.misses), (self.hits, self.misses));
        assert_eq!(stats.waits, 0);
        assert_eq!(stats.insertions, self.stamps as u64);
        assert_eq!(stats.evictions, self.evictions);
        assert_eq!(stats.removals, self.removals);
        assert_eq!(stats.entries, self.entries.len() as u64);
        assert_eq!(stats.charge, u128::from(self.total()));
        assert_eq!(stats.pinned_charge, u128::from(pinned));
        assert_eq!(stats.capacity, u128::from(self.capacity));
    }
}

/// SplitMix64.
fn below(state: &mut u64, end: u64) -> u64 {
    *state = state.wrapping_add(0x9e37_79b9_7f4a_7c15);
    let mut mixed = *state;
    mixed = (mixed ^ (mixed >> 30)).wrapping_mul(0xbf58_476d_1ce4_e5b9);
    mixed = (mixed ^ (mixed >> 27)).wrapping_mul(0x94d0_49bb_1331_11eb);
    (mixed ^ (mixed >> 31)) % end
}

#[test]
fn counts_are_those_of_a_plain_cache() -> Result<(), Refusal> {
    for seed in 0..20 {
        let mut random = seed;
        let mut draw = |end| below(&mut random, end);
        let cache = LruCache::<u64, u64>::new(10)?;
        let mut plain = Plain {
            capacity: 10,
            ..Plain::default()
        };
        let mut held: Vec<(CacheHandle<'_, u64, u64>, usize)> = Vec::new();
        for _ in 0..2000 {
            let (key, charge) = (draw(8), 1 + draw(4));
            match draw(13) {
                0..=3 => {
                    let fails = draw(4) == 0;
                    let found = plain.get(key);
                    let stamp = found.unwrap_or_else(|| plain.add(key, charge));
                    let init = |key: &u64| if fails { Err(()) } else { Ok(*key) };
                    match cache.get_or_try_init(&key, charge, init) {
                        Ok(handle) => held.push((handle, stamp)),
                        Err(GetError::Init(())) => plain.fail(stamp),
                        Err(GetError::Refused(refusal)) => return Err(refusal),
                    }
                }
                4 => {
                    let stamp = plain.get(key);
                    held.extend(cache.get(&key)?.zip(stamp));
                }
                5 => {
                    let stamp = plain.get(key);
                    assert_eq!(cache.read(&key, |_| ())?.is_some(), stamp.is_some());
                    stamp.into_iter().for_each(|stamp| plain.release(stamp));
                }
                6 => {
                    plain.invalidate(key);
                    let stamp = plain.add(key, charge);
                    held.push((cache.insert(&key, charge, 1)?, stamp));
                }
                7 => {
                    plain.invalidate(key);
                    cache.invalidate(&key)?;
                }
                8 => {
                    plain.advice_evict(key);
                    cache.advice_evict(&key)?;
                }
                9 => {
                    plain.capacity = draw(20);
                    plain.settle();
                    cache.set_capacity(plain.capacity);
                }
                10 => assert_eq!(cache.contains(&key)?, plain.place(key).is_some()),
                11 => {
                    if let Some((handle, stamp)) = held.last() {
                        let clone = (handle.try_clone()?, *stamp);
                        plain.pin_again(clone.1);
                        held.push(clone);
                    }
                }
                _ => {
                    if draw(8) == 0 {
                        let idle = plain.entries.iter().filter(|entry| entry.pins == 0);
                        plain.evictions += idle.count() as u64;
                        plain.entries.retain(|entry| entry.pins > 0);
                        cache.prune();
                    }
                }
            }
            while held.len() > draw(4) as usize {
                let (handle, stamp) = held.swap_remove(draw(held.len() as u64) as usize);
                if draw(8) == 0 {
                    handle.release_and_evict();
                    plain.release_and_evict(stamp);
                } else {
                    drop(handle);
                    plain.release(stamp);
                }
            }
            plain.check(cache.stats());
        }
        // Each kind of call must have been counted often enough to mean something.
        assert!(plain.hits > 40 && plain.misses > 40 && plain.evictions > 40);
        assert!(plain.removals > 10);
    }
    Ok(())
}

#[test]
fn callers_that_wait_are_counted() -> Result<(), Refusal> {
    let cache = LruCache::<u64, u64>::new(10)?;
    let begun = Barrier::new(2);
    thread::scope(|scope| {
        scope.spawn(|| {
            begun.wait();
            cache.get_or_init(&1, 1, |_| 6).map(|handle| *handle)
        });
        let made = cache.get_or_init(&1, 1, |_| {
            begun.wait();
            while cache.stats().waits == 0 {
                thread::sleep(Duration::from_millis(1));
            }
            5
        });
        made.map(|handle| *handle)
    })?;
    let stats = cache.stats();
    assert_eq!((stats.hits, stats.misses, stats.waits), (0, 1, 1));
    assert_eq!((stats.insertions, stats.entries), (1, 1));
    assert_eq!(stats.hit_ratio(), Some(0.0));
    Ok(())
}

#[test]
fn counts_of_shards_are_added() -> Result<(), Refusal> {
    let shards = NonZeroUsize::new(4).unwrap();
    let hasher = std::hash::RandomState::new();
    let cache = sharded::LruCache::<u64, u64>::with_shards_hasher(400, shards, hasher)?;
    assert_eq!(cache.stats().hit_ratio(), None);
    for key in 0..50 {
        cache.get_or_init(&key, 1, |key| *key)?;
    }
    for key in 0..100 {
        cache.get(&key)?;
    }
    let held = cache.insert(&7, 3, 7)?;
    let stats = cache.stats();
    assert_eq!((stats.hits, stats.misses), (50, 100));
    assert_eq!(
        (stats.insertions, stats.evictions, stats.removals),
        (51, 1, 0)
    );
    assert_eq!((stats.entries, stats.charge), (50, 52));
    assert_eq!((stats.pinned_charge, stats.capacity), (3, 400));
    drop(held);
    assert_eq!(cache.stats().pinned_charge, 0);
    Ok(())
}
