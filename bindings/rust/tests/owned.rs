//! Tests handles that keep their cache alive.

use std::num::NonZeroUsize;
use std::sync::Arc;
use std::sync::atomic::{AtomicU64, Ordering};
use std::thread;

use concurrent_lru_proved::{GetError, Refusal, sharded, unsharded};

/// Counts how many of it have been dropped.
#[derive(Debug)]
struct Counted(Arc<AtomicU64>, u64);

impl Drop for Counted {
    fn drop(&mut self) {
        self.0.fetch_add(1, Ordering::SeqCst);
    }
}

/// A struct that keeps a handle needs no lifetime.
struct Reader {
    page: unsharded::OwnedHandle<u64, Counted>,
}

#[test]
fn a_handle_outlives_every_other_use_of_its_cache() -> Result<(), Refusal> {
    let dropped = Arc::new(AtomicU64::new(0));
    let cache = Arc::new(unsharded::LruCache::<u64, Counted>::new(1)?);
    let make = |key: &u64| Counted(Arc::clone(&dropped), *key);
    assert!(unsharded::LruCache::get_owned(&cache, &1)?.is_none());
    let first = unsharded::LruCache::get_or_init_owned(&cache, &1, 1, make)?;
    let again = unsharded::LruCache::get_owned(&cache, &1)?.expect("it is there");
    assert_eq!((first.1, again.value().1, cache.pinned_charge()), (1, 1, 1));
    // It is evicted with its last handle, as the capacity is 0 by then.
    cache.set_capacity(0);
    drop(first);
    assert_eq!((dropped.load(Ordering::SeqCst), cache.len()), (0, 1));
    drop(again);
    assert_eq!((dropped.load(Ordering::SeqCst), cache.len()), (1, 0));

    cache.set_capacity(10);
    drop(cache.get_or_init(&2, 1, make)?);
    let page = unsharded::LruCache::get_or_init_owned(&cache, &3, 1, make)?;
    drop(cache);
    let reader = Reader { page };
    // The cache is still there, with the idle value.
    assert_eq!(dropped.load(Ordering::SeqCst), 1);
    let read = thread::spawn(move || reader.page.1).join();
    assert_eq!(read.ok(), Some(3));
    assert_eq!(dropped.load(Ordering::SeqCst), 3);
    Ok(())
}

#[test]
fn a_clone_keeps_the_cache_alive() -> Result<(), Refusal> {
    let dropped = Arc::new(AtomicU64::new(0));
    let count = || dropped.load(Ordering::SeqCst);
    let make = |key: &u64| Counted(Arc::clone(&dropped), *key);
    let cache = Arc::new(unsharded::LruCache::<u64, Counted>::new(10)?);
    let first = unsharded::LruCache::get_or_init_owned(&cache, &1, 1, make)?;
    cache.invalidate(&1)?;
    let second = first.try_clone()?;
    drop((cache, first));
    assert_eq!((second.1, count()), (1, 0));
    let third = thread::spawn(move || second.try_clone()).join();
    let third = third.expect("it does not panic")?;
    assert_eq!((third.1, count()), (1, 0));
    drop(third);
    assert_eq!(count(), 1);

    let cache = Arc::new(sharded::LruCache::<u64, Counted>::new(1000)?);
    let clones: Result<Vec<_>, Refusal> = (0..20)
        .map(|key| sharded::LruCache::get_or_init_owned(&cache, &key, 1, make)?.try_clone())
        .collect();
    assert_eq!((cache.pinned_charge(), cache.stats().hits), (20, 0));
    drop(cache);
    assert_eq!(count(), 1);
    let sum: u64 = clones?.iter().map(|handle| handle.1).sum();
    assert_eq!((sum, count()), (190, 21));
    Ok(())
}

#[test]
fn a_last_release_may_evict() -> Result<(), Refusal> {
    let dropped = Arc::new(AtomicU64::new(0));
    let count = || dropped.load(Ordering::SeqCst);
    let make = |key: &u64| Counted(Arc::clone(&dropped), *key);
    let cache = Arc::new(unsharded::LruCache::<u64, Counted>::new(10)?);
    let first = unsharded::LruCache::get_or_init_owned(&cache, &1, 1, make)?;
    let second = first.try_clone()?;
    first.release_and_evict();
    assert_eq!((count(), cache.pinned_charge()), (0, 1));
    second.release_and_evict();
    assert_eq!((count(), cache.len()), (1, 0));
    // Handles give back their part of the cache too.
    assert_eq!(Arc::strong_count(&cache), 1);
    let last = unsharded::LruCache::get_or_init_owned(&cache, &2, 1, make)?;
    drop(cache);
    last.release_and_evict();
    assert_eq!((count(), Arc::strong_count(&dropped)), (2, 1));

    let cache = Arc::new(sharded::LruCache::<u64, Counted>::new(1000)?);
    for key in 0..20 {
        sharded::LruCache::get_or_init_owned(&cache, &key, 1, make)?.release_and_evict();
    }
    assert_eq!(
        (count(), cache.len(), Arc::strong_count(&cache)),
        (22, 0, 1)
    );
    Ok(())
}

#[test]
fn a_failed_making_gives_no_handle() -> Result<(), Refusal> {
    let cache = Arc::new(unsharded::LruCache::<u64, u64>::new(1)?);
    let failed = unsharded::LruCache::get_or_try_init_owned(&cache, &1, 1, |_| Err(7));
    assert!(matches!(failed, Err(GetError::Init(7))));
    let made = unsharded::LruCache::get_or_try_init_owned(&cache, &1, 1, |_| Ok::<_, ()>(8));
    assert_eq!(made.ok().as_deref(), Some(&8));
    assert_eq!((cache.len(), cache.pinned_charge()), (1, 0));
    Ok(())
}

#[test]
fn handles_of_shards_keep_the_whole_cache() -> Result<(), Refusal> {
    let dropped = Arc::new(AtomicU64::new(0));
    let shards = NonZeroUsize::new(4).unwrap();
    let hasher = std::hash::RandomState::new();
    let cache = sharded::LruCache::<u64, Counted>::with_shards_hasher(400, shards, hasher)?;
    let cache = Arc::new(cache);
    let make = |key: &u64| Counted(Arc::clone(&dropped), *key);
    let mut handles = Vec::new();
    for key in 0..20 {
        handles.push(sharded::LruCache::get_or_init_owned(&cache, &key, 1, make)?);
        let again = sharded::LruCache::get_owned(&cache, &key)?;
        assert_eq!(again.map(|handle| handle.1), Some(key));
        let third = sharded::LruCache::get_or_try_init_owned(&cache, &key, 1, |_| Err(()));
        assert_eq!(third.map(|handle| handle.1).ok(), Some(key));
    }
    assert_eq!((cache.pinned_charge(), cache.stats().hits), (20, 40));
    drop(cache);
    let threads = handles
        .into_iter()
        .map(|handle| thread::spawn(move || handle.1));
    let sum: u64 = threads.filter_map(|thread| thread.join().ok()).sum();
    assert_eq!(sum, 190);
    assert_eq!(dropped.load(Ordering::SeqCst), 20);
    Ok(())
}

#[test]
fn owned_handles_come_from_methods_and_functions() -> Result<(), GetError<()>> {
    let cache = Arc::new(unsharded::LruCache::<u64, u64>::new(10)?);
    assert_eq!(*cache.get_or_init_owned(&1, 1, |_| 5)?, 5);
    assert_eq!(*cache.get_or_try_init_owned(&2, 1, |_| Ok(6))?, 6);
    let owned = cache.get_owned(&1)?.map(|handle| *handle);
    let by_function = unsharded::LruCache::get_owned(&cache, &1)?.map(|handle| *handle);
    assert_eq!((owned, by_function), (Some(5), Some(5)));
    let cache = Arc::new(sharded::LruCache::<u64, u64>::new(1000)?);
    assert_eq!(*cache.get_or_init_owned(&1, 1, |_| 5)?, 5);
    assert_eq!(*cache.get_or_try_init_owned(&2, 1, |_| Ok(6))?, 6);
    let owned = cache.get_owned(&1)?.map(|handle| *handle);
    let by_function = sharded::LruCache::get_owned(&cache, &1)?.map(|handle| *handle);
    assert_eq!((owned, by_function), (Some(5), Some(5)));
    Ok(())
}
