//! Tests that a listener is told of each value that leaves, and why.

use std::cmp::Reverse;
use std::panic::{self, AssertUnwindSafe};
use std::sync::{Arc, Mutex, OnceLock, Weak};

use concurrent_lru_proved::{Reason, Refusal};

/// The key, the value, the charge and the reason of each value that left.
type Told = (u64, u64, u64, Reason);
type Left = Arc<Mutex<Vec<Told>>>;

/// What the listener was told since the last call.
fn told(left: &Left) -> Vec<Told> {
    std::mem::take(&mut left.lock().unwrap())
}

/// The tests of both caches. Where they stand, `new` makes a `Cache`, and `Begun` is what its
/// `begin` returns; `Shared` is a cache with shards, if there is one of its own for that; `LEFT` is
/// how many values are in a cache after a call that added one has panicked; and `REPLACES_FIRST`
/// says whether what is replaced leaves before what makes room.
macro_rules! tests {
    () => {
        fn heard(capacity: u64) -> Result<(Cache<u64, u64>, Left), Refusal> {
            let left = Left::default();
            let list = Arc::clone(&left);
            let cache = new(capacity)?.with_listener(move |leaving| {
                let key = leaving.key[1];
                let told = (key, *leaving.value, leaving.charge, leaving.reason);
                list.lock().unwrap().push(told);
            });
            Ok((cache, left))
        }

        #[test]
        fn idle_values_leave_at_once() -> Result<(), Refusal> {
            let (cache, left) = heard(10)?;
            cache.insert(&1, 4, 10)?;
            cache.insert(&2, 4, 20)?;
            cache.get_or_init(&3, 3, |_| 30)?;
            let [(first, value, 4, Reason::Evicted)] = told(&left)[..] else {
                panic!("one makes room");
            };
            assert_eq!(value, 10 * first);
            let other = 3 - first;
            cache.insert(&3, 7, 31)?;
            let mut left_for_it = told(&left);
            if !REPLACES_FIRST {
                left_for_it.sort_by_key(|(key, ..)| Reverse(*key));
            }
            let expected = [
                (3, 30, 3, Reason::Replaced),
                (other, 10 * other, 4, Reason::Evicted),
            ];
            assert_eq!(left_for_it, expected);
            cache.invalidate(&3)?;
            cache.invalidate(&4)?;
            assert_eq!(told(&left), [(3, 31, 7, Reason::Invalidated)]);
            cache.insert(&5, 1, 50)?;
            cache.set_capacity(0);
            cache.set_capacity(10);
            assert_eq!(told(&left), [(5, 50, 1, Reason::Evicted)]);
            cache.insert(&6, 1, 60)?;
            cache.prune();
            assert_eq!(told(&left), [(6, 60, 1, Reason::Evicted)]);
            cache.get_or_init(&7, 1, |_| 70)?;
            cache.insert(&8, 2, 80)?;
            cache.retain(|[_, key], _, _| key != 7)?;
            assert_eq!(told(&left), [(7, 70, 1, Reason::Invalidated)]);
            cache.clear()?;
            assert_eq!(told(&left), [(8, 80, 2, Reason::Cleared)]);
            cache.insert(&9, 2, 90)?;
            drop(cache);
            assert!(told(&left).is_empty());
            Ok(())
        }

        #[test]
        fn held_values_leave_with_their_last_handles() -> Result<(), Refusal> {
            let (cache, left) = heard(10)?;
            let [a, b, c, d] = [1, 2, 3, 4].map(|key| cache.insert(&key, 1, 10 * key));
            let (a, b, c, d) = (a?, b?, c?, d?);
            let clone = a.try_clone()?;
            cache.invalidate(&1)?;
            let new_b = cache.insert(&2, 1, 21)?;
            cache.retain(|[_, key], _, _| key != 4)?;
            cache.clear()?;
            let newest_b = cache.insert(&2, 1, 22)?;
            assert!(told(&left).is_empty());
            drop((a, b, d));
            let expected = [
                (2, 20, 1, Reason::Replaced),
                (4, 40, 1, Reason::Invalidated),
            ];
            assert_eq!(told(&left), expected);
            drop((clone, c, new_b));
            let expected = [
                (1, 10, 1, Reason::Invalidated),
                (3, 30, 1, Reason::Cleared),
                (2, 21, 1, Reason::Cleared),
            ];
            assert_eq!(told(&left), expected);
            drop(newest_b);
            assert!(told(&left).is_empty());
            cache.prune();
            assert_eq!(told(&left), [(2, 22, 1, Reason::Evicted)]);
            Ok(())
        }

        #[test]
        fn values_that_are_made_are_told_of_and_failures_are_not() -> Result<(), Refusal> {
            let (cache, left) = heard(10)?;
            for reason in [Reason::Invalidated, Reason::Cleared, Reason::Replaced] {
                let Begun::Make(maker) = cache.begin(&1, 2)? else {
                    panic!("it was taken away");
                };
                match reason {
                    Reason::Cleared => cache.clear()?,
                    Reason::Replaced => drop(cache.insert(&1, 1, 10)?),
                    _ => cache.invalidate(&1)?,
                }
                drop(maker.ready(11));
                assert_eq!(told(&left), [(1, 11, 2, reason)]);
            }
            cache.prune();
            assert_eq!(told(&left), [(1, 10, 1, Reason::Evicted)]);
            // One that failed leaves nothing behind, by which a later value could be mistaken.
            drop(cache.begin(&2, 1)?);
            drop(cache.begin(&2, 3)?);
            cache.insert(&2, 1, 20)?;
            assert!(told(&left).is_empty());
            cache.prune();
            assert_eq!(told(&left), [(2, 20, 1, Reason::Evicted)]);
            Ok(())
        }

        #[test]
        fn the_listener_may_call_the_cache() -> Result<(), Refusal> {
            let shared: Arc<OnceLock<Weak<Shared<u64, u64>>>> = Arc::default();
            let listener = Arc::clone(&shared);
            let cache = Arc::new(
                Shared::<u64, u64>::new(1000)?.with_listener(move |leaving| {
                    let cache = listener.get().unwrap().upgrade().unwrap();
                    // No lock is held, of this shard or another one.
                    assert!(!cache.contains(leaving.value).unwrap());
                    if *leaving.value < 100 {
                        cache.insert(&(1000 + leaving.value), 1, 1000).unwrap();
                    }
                }),
            );
            shared.set(Arc::downgrade(&cache)).unwrap();
            for key in 0..100 {
                let held = cache.insert(&key, 1, key)?;
                if key % 2 == 0 {
                    drop(held);
                    cache.invalidate(&key)?;
                } else {
                    cache.invalidate(&key)?;
                    drop(held);
                }
            }
            assert_eq!(cache.len(), 100);
            assert!((1000..1100).all(|key| cache.contains(&key) == Ok(true)));
            Ok(())
        }

        #[test]
        fn a_listener_that_panics_is_told_of_all() -> Result<(), Refusal> {
            let told = Arc::new(Mutex::new(Vec::new()));
            let list = Arc::clone(&told);
            let alive = Arc::new(());
            let cache = new::<Arc<()>>(10)?.with_listener(move |leaving| {
                list.lock().unwrap().push(leaving.charge);
                panic!("no ears");
            });
            for key in 1..=3 {
                cache.insert(&key, key, Arc::clone(&alive))?;
            }
            let panicked = panic::catch_unwind(AssertUnwindSafe(|| cache.prune()));
            assert!(panicked.is_err());
            let mut charges = std::mem::take(&mut *told.lock().unwrap());
            charges.sort_unstable();
            assert_eq!(charges, [1, 2, 3]);
            assert_eq!((Arc::strong_count(&alive), cache.len()), (1, 0));
            // A call that panics in the listener gives its pins back, while another panic goes on
            // too.
            cache.insert(&4, 9, Arc::clone(&alive))?;
            let init = |_: &u64| Arc::clone(&alive);
            let panicked = panic::catch_unwind(AssertUnwindSafe(|| cache.get_or_init(&5, 2, init)));
            assert!(panicked.is_err());
            assert_eq!((cache.len(), cache.pinned_charge()), (LEFT, 0));
            let panicked = panic::catch_unwind(AssertUnwindSafe(|| {
                let held = cache.insert(&6, 1, Arc::clone(&alive));
                cache.invalidate(&6).unwrap();
                let _held = held;
                panic!("first");
            }));
            assert_eq!(*panicked.unwrap_err().downcast::<&str>().unwrap(), "first");
            assert_eq!((cache.len(), cache.pinned_charge()), (LEFT, 0));
            assert_eq!(Arc::strong_count(&alive) as u64, 1 + LEFT);
            drop(cache.get_or_init(&7, 1, |_| Arc::clone(&alive))?);
            assert!(cache.contains(&7)?);
            Ok(())
        }

        #[test]
        fn charges_are_those_told_last_and_refusals_tell_nothing() -> Result<(), Refusal> {
            let (cache, left) = heard(10)?;
            let Begun::Make(maker) = cache.begin(&1, 2)? else {
                panic!("it is not there");
            };
            drop(maker.ready_with(10, 3)?);
            drop(cache.get_or_init_with(&2, |_| (20, 4)));
            cache.invalidate(&1)?;
            cache.invalidate(&2)?;
            let expected = [
                (1, 10, 3, Reason::Invalidated),
                (2, 20, 4, Reason::Invalidated),
            ];
            assert_eq!(told(&left), expected);
            let _held = cache.insert(&2, 1, 20)?;
            let refused = [(0, Refusal::ZeroCharge), (u64::MAX, Refusal::Overflow)];
            for (charge, refusal) in refused {
                let made = cache.get_or_init_with(&3, |_| (30, charge));
                assert_eq!(made.err(), Some(refusal));
                assert_eq!(cache.insert(&3, charge, 30).err(), Some(refusal));
            }
            assert!(told(&left).is_empty());
            // What leaves for a charge that is told.
            cache.insert(&5, 8, 50)?;
            cache.get_or_init_with(&6, |_| (60, 6))?;
            assert_eq!(told(&left), [(5, 50, 8, Reason::Evicted)]);
            Ok(())
        }
    };
}

mod exact {
    use super::*;
    use concurrent_lru_proved::sharded::LruCache as Shared;
    use concurrent_lru_proved::unsharded::{Begun, LruCache as Cache};

    const LEFT: u64 = 0;
    const REPLACES_FIRST: bool = true;

    fn new<V>(capacity: u64) -> Result<Cache<u64, V>, Refusal> {
        Cache::new(capacity)
    }

    tests!();

    #[test]
    fn idle_values_leave_oldest_first() -> Result<(), Refusal> {
        let (cache, left) = heard(10)?;
        for key in [1, 2, 3] {
            cache.insert(&key, 3, 10 * key)?;
        }
        cache.get(&1)?;
        cache.prune();
        let keys: Vec<_> = told(&left).iter().map(|left| left.0).collect();
        assert_eq!(keys, [2, 3, 1]);
        cache.insert(&4, 1, 40)?;
        cache.advice_evict(&4)?;
        assert_eq!(told(&left), [(4, 40, 1, Reason::Evicted)]);
        cache.insert(&5, 1, 50)?.release_and_evict();
        assert_eq!(told(&left), [(5, 50, 1, Reason::Evicted)]);
        Ok(())
    }

    #[test]
    fn the_key_is_shown_as_it_is_written() -> Result<(), Refusal> {
        let keys = Arc::new(Mutex::new(Vec::new()));
        let list = Arc::clone(&keys);
        let cache = Cache::<String, u64>::new(10)?
            .with_listener(move |leaving| list.lock().unwrap().push(leaving.key.to_vec()));
        cache.insert("a", 1, 1)?;
        cache.insert("", 1, 1)?;
        cache.prune();
        assert_eq!(*keys.lock().unwrap(), [b"a".to_vec(), Vec::new()]);
        Ok(())
    }

    #[test]
    fn a_refused_call_tells_nothing() -> Result<(), Refusal> {
        let (cache, left) = heard(3)?;
        cache.set_strict_limit(true);
        let one = cache.insert(&1, 2, 10)?;
        assert_eq!(cache.insert(&1, 2, 20).err(), Some(Refusal::Full));
        assert_eq!(cache.insert(&2, 2, 20).err(), Some(Refusal::Full));
        drop(one);
        cache.prune();
        assert_eq!(told(&left), [(1, 10, 2, Reason::Evicted)]);
        Ok(())
    }
}

mod clock {
    use super::*;
    use concurrent_lru_proved::clock::{Begun, Cache, Cache as Shared};
    use std::num::NonZeroUsize;

    // A value is in the cache before those that it evicts leave, and the old one leaves last,
    // unless the clock chose it to make room.
    const LEFT: u64 = 1;
    const REPLACES_FIRST: bool = false;

    fn new<V>(capacity: u64) -> Result<Cache<u64, V>, Refusal> {
        Cache::with_seed(capacity, NonZeroUsize::MIN, 0)
    }

    tests!();

    #[test]
    fn an_old_value_that_is_evicted_for_the_new_one_is_replaced() -> Result<(), Refusal> {
        let (cache, left) = heard(3)?;
        let _held = cache.insert(&1, 2, 10)?;
        cache.insert(&2, 1, 20)?;
        // All others are pinned.
        let new = cache.insert(&2, 2, 21)?;
        assert_eq!(told(&left), [(2, 20, 1, Reason::Replaced)]);
        assert_eq!(cache.total_charge(), 4);
        drop(new);
        assert_eq!(told(&left), [(2, 21, 2, Reason::Evicted)]);
        Ok(())
    }

    #[test]
    fn a_release_and_an_advice_evict() -> Result<(), Refusal> {
        let (cache, left) = heard(3)?;
        cache.insert(&1, 1, 10)?;
        cache.advice_evict(&1)?;
        assert_eq!(told(&left), [(1, 10, 1, Reason::Evicted)]);
        cache.insert(&2, 1, 20)?.release_and_evict();
        assert_eq!(told(&left), [(2, 20, 1, Reason::Evicted)]);
        Ok(())
    }
}
