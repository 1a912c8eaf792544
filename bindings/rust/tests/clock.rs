//! Tests the cache whose hits take no lock.

use std::cell::RefCell;
use std::env;
use std::net::Ipv6Addr;
use std::num::NonZeroUsize;
use std::panic::{self, AssertUnwindSafe, RefUnwindSafe, UnwindSafe};
use std::sync::atomic::{AtomicBool, AtomicU32, AtomicU64, Ordering};
use std::sync::mpsc::{self, Receiver, Sender};
use std::sync::{Arc, Barrier};
use std::thread;
use std::time::Duration;

use concurrent_lru_proved::clock::{Begun, Cache, CacheHandle, Maker, OwnedHandle};
use concurrent_lru_proved::key::{Key, Words};
use concurrent_lru_proved::{GetError, Refusal};

/// A cache of one shard, which evicts exactly down to its capacity.
fn one_shard<V>(capacity: u64) -> Result<Cache<u64, V>, Refusal> {
    Cache::with_seed(capacity, NonZeroUsize::MIN, 0)
}

/// Runs it on another thread, and fails if it does not end.
fn ends<T: Send + 'static>(run: impl FnOnce() -> T + Send + 'static) -> Pending<T> {
    let (sender, receiver) = mpsc::channel();
    thread::spawn(move || sender.send(run()));
    Pending(receiver)
}

struct Pending<T>(Receiver<T>);

impl<T> Pending<T> {
    fn join(self) -> T {
        let ended = self.0.recv_timeout(Duration::from_secs(60));
        ended.expect("the thread ends and does not panic")
    }
}

/// Lets other threads come to where they wait. If they do not, no test fails for it.
fn pause() {
    thread::sleep(Duration::from_millis(100));
}

/// Counts how many of it have been dropped.
struct Counted(Arc<AtomicU64>, u64);

impl Drop for Counted {
    fn drop(&mut self) {
        self.0.fetch_add(1, Ordering::SeqCst);
    }
}

/// Makes values, and tells how many of them have been dropped.
#[derive(Clone, Default)]
struct Counter(Arc<AtomicU64>);

impl Counter {
    fn make(&self, number: u64) -> Counted {
        Counted(Arc::clone(&self.0), number)
    }

    fn dropped(&self) -> u64 {
        self.0.load(Ordering::SeqCst)
    }
}

#[test]
fn threads_may_share_and_send_everything() {
    fn is_shared<T: Send + Sync + UnwindSafe + RefUnwindSafe>() {}
    is_shared::<Cache<u64, String>>();
    is_shared::<CacheHandle<'static, u64, String>>();
    is_shared::<OwnedHandle<u64, String>>();
    is_shared::<Maker<'static, u64, String>>();
}

#[test]
fn a_value_is_found_by_its_key_alone() -> Result<(), Refusal> {
    let cache = Cache::<u64, String>::new(1000)?;
    assert!(cache.is_empty() && cache.get(&1)?.is_none() && !cache.contains(&1)?);
    for key in 0..500 {
        cache.insert(&key, 1, key.to_string())?;
    }
    for key in 0..500 {
        assert_eq!(*cache.get(&key)?.expect("it has room"), key.to_string());
        assert_eq!(*cache.find(&key)?.expect("it has room"), key.to_string());
        assert!(cache.contains(&key)?);
    }
    for key in 500..1000 {
        assert!(cache.get(&key)?.is_none() && !cache.contains(&key)?);
        assert!(cache.find(&key)?.is_none());
    }
    assert_eq!((cache.len(), cache.total_charge()), (500, 500));
    Ok(())
}

#[test]
fn keys_are_what_is_written_as_words() -> Result<(), Refusal> {
    /// A block of a file.
    #[derive(Clone, Copy)]
    struct Block {
        file: u64,
        offset: u64,
    }
    impl Key for Block {
        type Form = Words;

        fn written(&self) -> [u64; 2] {
            [self.file, self.offset]
        }
    }
    let blocks = Cache::<Block, u64>::new(10)?;
    let block = Block { file: 1, offset: 2 };
    blocks.insert(&block, 1, 12)?;
    assert_eq!(blocks.get(&block)?.as_deref(), Some(&12));
    assert!(!blocks.contains(&Block { offset: 1, ..block })?);
    assert!(!blocks.contains(&Block { file: 2, ..block })?);

    let pairs = Cache::<(u32, i16), u64>::new(10)?;
    pairs.insert(&(7, -1), 1, 1)?;
    assert!(pairs.contains(&(7, -1))? && !pairs.contains(&(7, 1))?);
    let addresses = Cache::<Ipv6Addr, u64>::new(10)?;
    addresses.insert(&Ipv6Addr::LOCALHOST, 1, 1)?;
    assert!(!addresses.contains(&Ipv6Addr::UNSPECIFIED)?);
    let boxed = Cache::<Box<u64>, u64>::new(10)?;
    boxed.insert(&7, 1, 70)?;
    assert_eq!(boxed.get(&Box::new(7))?.as_deref(), Some(&70));
    Ok(())
}

#[test]
fn capacities_are_shared_out_and_rounded_up() -> Result<(), Refusal> {
    let shards = |count| NonZeroUsize::new(count).unwrap();
    assert_eq!(Cache::<u64, u64>::new(1000)?.capacity(), 16 * 63);
    let three = Cache::<u64, u64>::with_typical_charge(1001, 8)?;
    assert_eq!(three.capacity(), 3 * 334);
    let cache = Cache::<u64, u64>::with_shards(10, shards(3))?;
    assert_eq!(cache.capacity(), 12);
    cache.set_capacity(u64::MAX);
    assert_eq!(cache.capacity(), 3 * u128::from(u64::MAX.div_ceil(3)));
    // More shards than fit a line of readers, and keys in all of them.
    let cache = Cache::<u64, u64>::with_seed(10_000, shards(101), 7)?;
    for key in 0..1000 {
        cache.insert(&key, 1, key)?;
    }
    assert_eq!(cache.len(), 1000);
    for key in 0..1000 {
        assert_eq!(cache.get(&key)?.as_deref(), Some(&key));
    }
    Ok(())
}

#[test]
fn a_charge_must_be_above_0() -> Result<(), Refusal> {
    let cache = one_shard(10)?;
    let counter = Counter::default();
    assert_eq!(
        cache.insert(&1, 0, counter.make(1)).err(),
        Some(Refusal::ZeroCharge)
    );
    assert_eq!(counter.dropped(), 1);
    drop(cache.insert(&1, 1, counter.make(1))?);
    let made = cache.get_or_init(&1, 0, |_| unreachable!("it is refused"));
    assert_eq!(made.err(), Some(Refusal::ZeroCharge));
    let made = cache.get_or_try_init(&1, 0, |_| Err(()));
    assert_eq!(made.err(), Some(GetError::Refused(Refusal::ZeroCharge)));
    assert!(cache.contains(&1)?);
    Ok(())
}

#[test]
fn the_total_does_not_overflow() -> Result<(), Refusal> {
    let cache = one_shard(u64::MAX)?;
    let counter = Counter::default();
    let old = cache.insert(&1, u64::MAX, counter.make(1))?;
    // A value that is refused is dropped, and the old one stays.
    let refused = cache.insert(&1, 1, counter.make(2)).err();
    assert_eq!((refused, counter.dropped()), (Some(Refusal::Overflow), 1));
    assert_eq!(cache.get(&1)?.map(|found| found.1), Some(1));
    let refused = cache.get_or_init(&2, 1, |_| counter.make(3)).err();
    assert_eq!((refused, cache.len()), (Some(Refusal::Overflow), 1));
    // One that no longer has room once it was made is dropped too, and others make another.
    drop(old);
    cache.prune();
    let refused = cache.get_or_init(&2, 1, |_| {
        std::mem::forget(cache.insert(&3, u64::MAX, counter.make(4)));
        counter.make(5)
    });
    assert_eq!(refused.err(), Some(Refusal::Overflow));
    cache.invalidate(&3)?;
    assert_eq!((cache.contains(&2)?, cache.contains(&3)?), (false, false));
    let made = counter.dropped() + cache.len();
    drop(cache);
    assert_eq!(counter.dropped(), made);
    Ok(())
}

#[test]
fn idle_values_leave_for_new_ones_and_pinned_values_stay() -> Result<(), Refusal> {
    let cache = one_shard(3)?;
    let counter = Counter::default();
    let pinned = cache.insert(&0, 1, counter.make(0))?;
    for key in 1..10 {
        match key % 2 {
            0 => cache.insert(&key, 1, counter.make(key))?,
            _ => cache.get_or_init(&key, 1, |key| counter.make(*key))?,
        };
        assert!(cache.total_charge() <= 3);
    }
    assert_eq!((cache.len(), counter.dropped()), (3, 7));
    assert_eq!((pinned.1, cache.pinned_charge()), (0, 1));
    // Values that are pinned may take the total above the capacity. Then those that lose their last
    // handle leave, until it is down.
    let handles: Result<Vec<_>, _> = (10..15)
        .map(|key| cache.insert(&key, 1, counter.make(key)))
        .collect();
    assert_eq!((cache.len(), cache.pinned_charge()), (6, 6));
    let handles = handles?;
    let clone = handles[0].try_clone()?;
    drop(handles);
    assert_eq!((clone.1, cache.len(), cache.pinned_charge()), (10, 3, 2));
    drop(clone);
    cache.insert(&15, 1, counter.make(15))?;
    assert_eq!(cache.total_charge(), 3);
    cache.set_capacity(0);
    assert_eq!((cache.len(), cache.total_charge()), (1, 1));
    drop(pinned);
    cache.prune();
    assert_eq!((cache.len(), counter.dropped()), (0, 16));
    Ok(())
}

#[test]
fn a_value_that_is_used_stays_longer() -> Result<(), Refusal> {
    let cache = one_shard(100)?;
    for key in 0..1000 {
        cache.insert(&key, 1, key)?;
        assert!(key < 10 || cache.get(&7)?.is_some());
        if key >= 7 {
            cache.get(&7)?;
        }
    }
    Ok(())
}

#[test]
fn a_release_and_an_advice_evict() -> Result<(), Refusal> {
    let cache = Arc::new(one_shard(10)?);
    let counter = Counter::default();
    let first = cache.insert(&1, 1, counter.make(1))?;
    let second = first.try_clone()?;
    cache.advice_evict(&1)?;
    second.release_and_evict();
    assert_eq!(
        (first.1, cache.contains(&1)?, counter.dropped()),
        (1, true, 0)
    );
    first.release_and_evict();
    assert_eq!(
        (cache.contains(&1)?, cache.len(), counter.dropped()),
        (false, 0, 1)
    );

    cache.insert(&2, 1, counter.make(2))?;
    cache.advice_evict(&1)?;
    assert!(cache.contains(&2)?);
    cache.advice_evict(&2)?;
    assert_eq!((cache.contains(&2)?, counter.dropped()), (false, 2));

    // A value that its key does not find, and one that is being made.
    let old = cache.insert(&3, 1, counter.make(3))?;
    let new = cache.insert(&3, 1, counter.make(4))?;
    old.release_and_evict();
    assert_eq!((new.1, cache.len(), counter.dropped()), (4, 1, 3));
    let Begun::Make(maker) = cache.begin(&5, 1)? else {
        panic!("nobody has made it");
    };
    cache.advice_evict(&5)?;
    drop(maker.ready(counter.make(5))?);
    assert!(cache.contains(&5)?);

    let owned = cache.get_owned(&5)?.expect("it was made");
    let clone = owned.try_clone()?;
    owned.release_and_evict();
    assert_eq!((clone.1, counter.dropped()), (5, 3));
    drop(new);
    let weak = Arc::downgrade(&cache);
    drop(cache);
    clone.release_and_evict();
    assert_eq!((weak.strong_count(), counter.dropped()), (0, 5));
    Ok(())
}

#[test]
fn an_invalidated_value_is_dropped_with_its_last_handle() -> Result<(), Refusal> {
    let cache = one_shard(10)?;
    let counter = Counter::default();
    cache.insert(&1, 1, counter.make(1))?;
    cache.invalidate(&1)?;
    assert_eq!((cache.len(), counter.dropped()), (0, 1));
    cache.invalidate(&1)?;
    let first = cache.insert(&1, 1, counter.make(2))?;
    let second = cache.get(&1)?.expect("it was inserted");
    cache.invalidate(&1)?;
    assert!(cache.get(&1)?.is_none());
    let clone = first.try_clone()?;
    drop((first, second));
    assert_eq!((clone.1, cache.len(), counter.dropped()), (2, 1, 1));
    // Another value of the key is another value.
    let new = cache.get_or_init(&1, 1, |_| counter.make(3))?;
    assert_eq!((clone.1, new.1, cache.len()), (2, 3, 2));
    drop(clone);
    assert_eq!((cache.len(), counter.dropped()), (1, 2));
    let newer = cache.insert(&1, 1, counter.make(4))?;
    assert_eq!((new.1, newer.1, cache.len()), (3, 4, 2));
    drop(new);
    assert_eq!((cache.len(), counter.dropped()), (1, 3));
    drop(newer);
    assert_eq!(cache.get(&1)?.map(|found| found.1), Some(4));
    Ok(())
}

#[test]
fn a_value_is_read_without_a_lock() -> Result<(), Refusal> {
    let cache = one_shard(10)?;
    cache.insert(&1, 1, "one".to_string())?;
    // The reader may call the cache, even to take the value away.
    let read = cache.read(&1, |value| {
        cache.invalidate(&1)?;
        cache.insert(&2, 1, "two".to_string())?;
        Ok::<_, Refusal>(value.len())
    })?;
    assert_eq!(read, Some(Ok(3)));
    assert_eq!((cache.read(&1, String::len)?, cache.len()), (None, 1));
    let panicked = panic::catch_unwind(|| cache.read(&2, |_| panic!("it cannot be read")));
    assert!(panicked.is_err());
    assert_eq!(cache.pinned_charge(), 0);
    Ok(())
}

#[test]
fn a_loader_runs_only_if_there_is_no_value() -> Result<(), GetError<String>> {
    let cache = one_shard(10)?;
    assert_eq!(*cache.get_or_init(&1, 2, |key| key * 10)?, 10);
    assert_eq!(*cache.get_or_init(&1, 3, |_| unreachable!("there is"))?, 10);
    assert_eq!((cache.total_charge(), cache.len()), (2, 1));
    assert_eq!(
        *cache.get_or_try_init(&1, 2, |_| Err("none".to_string()))?,
        10
    );
    let failed = cache.get_or_try_init(&2, 2, |_| Err("none".to_string()));
    assert_eq!(failed.err(), Some(GetError::Init("none".to_string())));
    assert!(!cache.contains(&2)?);
    assert_eq!(*cache.get_or_try_init(&2, 2, |_| Ok::<_, String>(20))?, 20);
    // A loader may call the cache for other keys.
    let sum = cache.get_or_try_init(&3, 1, |_| {
        let four = cache.get_or_init(&4, 1, |_| 40)?;
        Ok::<_, Refusal>(*four + cache.get(&1)?.map_or(0, |one| *one))
    });
    assert_eq!(sum.ok().as_deref(), Some(&50));
    Ok(())
}

#[test]
fn a_loader_may_tell_the_charge_with_the_value() -> Result<(), GetError<()>> {
    let cache = one_shard(10)?;
    let counter = Counter::default();
    for key in 1..10 {
        let made = cache.get_or_init_with(&key, |key| (counter.make(*key), *key))?;
        assert_eq!((made.1, cache.pinned_charge()), (key, key.into()));
        assert!(cache.total_charge() <= 10);
    }
    // No loader runs for a value that is there, which keeps its charge.
    let total = cache.total_charge();
    let found = cache.get_or_init_with(&9, |_| unreachable!("it is there"))?;
    let again = cache.get_or_try_init_with(&9, |_| Err(()))?;
    assert_eq!((found.1, again.1, cache.total_charge()), (9, 9, total));
    drop((found, again));
    let failed = cache.get_or_try_init_with(&1, |_| Err(()));
    assert_eq!(failed.err(), Some(GetError::Init(())));
    assert!(!cache.contains(&1)?);
    // Everything leaves for a charge above the capacity, except what is pinned.
    let large = cache.get_or_try_init_with(&1, |_| Ok((counter.make(1), 11)))?;
    assert_eq!((large.1, cache.len(), cache.total_charge()), (1, 1, 11));
    // One that is too large beside it is refused and dropped, and the making has failed.
    let dropped = counter.dropped();
    let refused = cache.get_or_init_with(&2, |_| (counter.make(2), u64::MAX));
    assert_eq!(refused.err(), Some(Refusal::Overflow));
    assert_eq!((counter.dropped(), cache.len()), (dropped + 1, 1));
    let made = cache.get_or_init_with(&2, |_| (counter.make(2), 1))?;
    assert_eq!((made.1, cache.pinned_charge()), (2, 12));
    Ok(())
}

#[test]
fn a_charge_of_0_that_a_loader_returns_is_refused() -> Result<(), Refusal> {
    let cache = Arc::new(one_shard(10)?);
    let counter = Counter::default();
    let refused = cache.get_or_try_init_with(&7, |_| Ok::<_, ()>((counter.make(1), 0)));
    assert_eq!(refused.err(), Some(GetError::Refused(Refusal::ZeroCharge)));
    assert_eq!((counter.dropped(), cache.contains(&7)?), (1, false));
    // One of those that wait makes the value.
    let (begun, is_begun) = mpsc::channel();
    let (go_on, may_go_on) = mpsc::channel::<()>();
    let maker = (Arc::clone(&cache), counter.clone());
    let first = ends(move || {
        let (cache, counter) = maker;
        let made = cache.get_or_init_with(&7, |_| {
            let _ = begun.send(());
            let _ = may_go_on.recv();
            (counter.make(1), 0)
        });
        made.err()
    });
    assert!(is_begun.recv().is_ok());
    let others = [2, 3].map(|number| {
        let (cache, counter) = (Arc::clone(&cache), counter.clone());
        ends(move || {
            let made = cache.get_or_init_with(&7, |_| (counter.make(number), number))?;
            Ok::<_, Refusal>(made.1)
        })
    });
    pause();
    assert!(go_on.send(()).is_ok());
    assert_eq!(first.join(), Some(Refusal::ZeroCharge));
    let [one, other] = others.map(Pending::join);
    let number = one?;
    assert_eq!(other, Ok(number));
    assert_eq!((cache.len(), counter.dropped()), (1, 2));
    assert_eq!(cache.total_charge(), number.into());
    Ok(())
}

#[test]
fn one_thread_makes_a_value_and_the_others_wait() -> Result<(), Refusal> {
    let cache = Arc::new(Cache::<u64, u64>::new(1000)?);
    let made = Arc::new(AtomicU64::new(0));
    let start = Arc::new(Barrier::new(8));
    let threads: Vec<_> = (0..8)
        .map(|_| {
            let (cache, made, start) = (cache.clone(), made.clone(), start.clone());
            ends(move || {
                let mut sum = 0;
                for key in 0..50 {
                    start.wait();
                    let handle = cache.get_or_init(&key, 1, |key| {
                        thread::sleep(Duration::from_millis(1));
                        made.fetch_add(1, Ordering::SeqCst);
                        *key
                    })?;
                    sum += *handle;
                }
                Ok::<_, Refusal>(sum)
            })
        })
        .collect();
    for thread in threads {
        assert_eq!(thread.join()?, 1225);
    }
    assert_eq!(made.load(Ordering::SeqCst), 50);
    Ok(())
}

/// Has one thread begin to make the value of a key and three others wait for it, and then does this
/// with the cache while it is made. Returns what the first thread and the others got.
fn while_it_is_made(
    change: impl FnOnce(&Cache<u64, u64>) -> Result<(), Refusal>,
    end: impl FnOnce() -> Result<u64, ()> + Send + 'static,
) -> Result<(Option<u64>, Vec<u64>), Refusal> {
    let cache = Arc::new(one_shard(10)?);
    let (begun, is_begun) = mpsc::channel();
    let (go_on, may_go_on) = mpsc::channel::<()>();
    let maker = Arc::clone(&cache);
    let first = ends(move || {
        let made = panic::catch_unwind(AssertUnwindSafe(|| {
            let handle = maker.get_or_try_init(&7, 1, |_| {
                begun.send(()).map_err(drop)?;
                may_go_on.recv().map_err(drop)?;
                end()
            });
            handle.map(|handle| *handle).ok()
        }));
        made.ok().flatten()
    });
    assert!(is_begun.recv().is_ok());
    assert!(cache.get(&7)?.is_none() && !cache.contains(&7)?);
    assert_eq!((cache.len(), cache.total_charge()), (0, 0));
    let others: Vec<_> = (2..5)
        .map(|number| {
            let cache = Arc::clone(&cache);
            ends(move || cache.get_or_init(&7, 1, |_| number).map(|handle| *handle))
        })
        .collect();
    pause();
    change(&cache)?;
    pause();
    assert!(go_on.send(()).is_ok());
    let first = first.join();
    let others: Result<_, Refusal> = others.into_iter().map(Pending::join).collect();
    Ok((first, others?))
}

#[test]
fn those_that_wait_get_the_value_that_was_made() -> Result<(), Refusal> {
    let (first, others) = while_it_is_made(|_| Ok(()), || Ok(1))?;
    assert_eq!((first, others), (Some(1), vec![1; 3]));
    Ok(())
}

#[test]
fn if_a_loader_fails_one_of_those_that_wait_makes_the_value() -> Result<(), Refusal> {
    let (first, others) = while_it_is_made(|_| Ok(()), || Err(()))?;
    assert_eq!(first, None);
    assert!((2..5).contains(&others[0]) && others == [others[0]; 3]);
    let (first, others) = while_it_is_made(|_| Ok(()), || panic!("the loader panics"))?;
    assert_eq!(first, None);
    assert!((2..5).contains(&others[0]) && others == [others[0]; 3]);
    Ok(())
}

#[test]
fn those_that_wait_need_not_wait_for_a_value_that_was_invalidated() -> Result<(), Refusal> {
    for clears in [false, true] {
        let change = |cache: &Cache<u64, u64>| match clears {
            true => cache.clear(),
            false => cache.invalidate(&7),
        };
        let cache_after = Arc::new(AtomicU64::new(0));
        let seen = Arc::clone(&cache_after);
        let (first, others) = while_it_is_made(
            |cache| {
                change(cache)?;
                // One of those that wait makes the value, before the first one is done.
                let value = cache.get_or_init(&7, 1, |_| 5)?;
                seen.store(*value, Ordering::SeqCst);
                Ok(())
            },
            || Ok(1),
        )?;
        let value = cache_after.load(Ordering::SeqCst);
        assert!((2..=5).contains(&value));
        assert_eq!((first, others), (Some(1), vec![value; 3]));
    }
    Ok(())
}

#[test]
fn those_that_wait_get_a_value_that_is_inserted() -> Result<(), Refusal> {
    let (first, others) = while_it_is_made(
        |cache| {
            cache.insert(&7, 1, 6)?;
            pause();
            assert_eq!(cache.get(&7)?.as_deref(), Some(&6));
            Ok(())
        },
        || Ok(1),
    )?;
    assert_eq!((first, others), (Some(1), vec![6; 3]));
    Ok(())
}

#[test]
fn a_value_whose_key_was_invalidated_is_for_its_maker_alone() -> Result<(), Refusal> {
    let cache = one_shard(10)?;
    let counter = Counter::default();
    let made = cache.get_or_try_init(&1, 1, |_| {
        cache.invalidate(&1)?;
        Ok::<_, Refusal>(counter.make(1))
    });
    let made = made.map_err(|_| Refusal::Memory)?;
    assert!(cache.get(&1)?.is_none());
    let mut visited = 0;
    cache.for_each(|_| visited += 1)?;
    assert_eq!((made.1, cache.len(), visited), (1, 1, 0));
    drop(made);
    assert_eq!((cache.len(), counter.dropped()), (0, 1));
    let made = cache.get_or_init_with(&1, |_| {
        let charge = cache.clear().map_or(0, |()| 2);
        (counter.make(1), charge)
    })?;
    assert!(cache.get(&1)?.is_none());
    assert_eq!((made.1, cache.total_charge()), (1, 2));
    drop(made);
    assert_eq!((cache.len(), counter.dropped()), (0, 2));
    // The same, where the key has another value by then.
    let made = cache.get_or_try_init(&1, 1, |_| {
        cache.insert(&1, 1, counter.make(2))?;
        Ok::<_, Refusal>(counter.make(3))
    });
    let made = made.map_err(|_| Refusal::Memory)?;
    assert_eq!((made.1, cache.get(&1)?.map(|found| found.1)), (3, Some(2)));
    drop(made);
    assert_eq!((cache.len(), counter.dropped()), (1, 3));
    Ok(())
}

#[test]
fn all_values_are_visited() -> Result<(), Refusal> {
    let cache = Cache::<u64, u64>::with_seed(1000, NonZeroUsize::new(5).unwrap(), 3)?;
    let mut handles = Vec::new();
    for key in 0..100 {
        let handle = cache.insert(&key, key + 1, 10 * key)?;
        if key % 3 == 0 {
            handles.push(handle);
        }
    }
    cache.set_capacity(u64::MAX);
    let replaced = cache.insert(&200, 1, 1)?;
    cache.insert(&200, 201, 2000)?;
    let mut visited = Vec::new();
    cache.for_each(|entry| {
        let [zero, key] = entry.key;
        assert_eq!((zero, entry.charge, *entry.value), (0, key + 1, 10 * key));
        assert!(cache.contains(&key).is_ok_and(|contains| contains));
        visited.push(key);
    })?;
    visited.sort_unstable();
    let mut found: Vec<_> = (0..100)
        .filter(|key| cache.contains(key) == Ok(true))
        .collect();
    found.push(200);
    assert_eq!((visited, *replaced), (found, 1));
    Ok(())
}

#[test]
fn values_are_retained_or_taken_away() -> Result<(), Refusal> {
    let cache = Cache::<(u32, u64), Counted>::new(1000)?;
    let counter = Counter::default();
    for key in 0..100 {
        cache.insert(&(key as u32 % 2, key), 1, counter.make(key))?;
    }
    let held = cache.get(&(1, 7))?.expect("it was inserted");
    cache.retain(|[file, _], value, charge| {
        assert_eq!((file, charge), (value.1 % 2, 1));
        file != 1
    })?;
    assert_eq!((cache.len(), counter.dropped(), held.1), (51, 49, 7));
    assert!(cache.contains(&(0, 6))? && !cache.contains(&(1, 7))?);
    drop(held);
    assert_eq!((cache.len(), counter.dropped()), (50, 50));
    // A value that replaces another while it is judged stays.
    cache.retain(|[_, key], _, _| {
        assert!(key != 8 || cache.insert(&(0, 8), 1, counter.make(1)).is_ok());
        key != 8
    })?;
    assert_eq!(cache.get(&(0, 8))?.map(|found| found.1), Some(1));
    let panicked = panic::catch_unwind(AssertUnwindSafe(|| {
        cache.retain(|_, _, _| panic!("it cannot tell"))
    }));
    assert!(panicked.is_err());
    assert_eq!((cache.len(), cache.pinned_charge()), (50, 0));
    Ok(())
}

#[test]
fn no_key_finds_what_was_cleared() -> Result<(), Refusal> {
    let cache = Cache::<u64, Counted>::new(1000)?;
    let counter = Counter::default();
    for key in 0..100 {
        cache.insert(&key, 1, counter.make(key))?;
    }
    let held = cache.get(&7)?.expect("it was inserted");
    let detached = cache.get(&8)?.expect("it was inserted");
    cache.invalidate(&8)?;
    cache.insert(&8, 1, counter.make(800))?;
    cache.clear()?;
    assert_eq!((cache.len(), counter.dropped()), (2, 99));
    for key in 0..100 {
        assert!(cache.get(&key)?.is_none());
    }
    assert_eq!((held.1, detached.1), (7, 8));
    drop((held, detached));
    assert_eq!((cache.len(), counter.dropped()), (0, 101));
    Ok(())
}

#[test]
fn values_are_dropped_without_a_lock() -> Result<(), Refusal> {
    /// Looks into the cache when it is dropped.
    struct Looks(Option<Arc<Cache<u64, Looks>>>, Sender<usize>);
    impl Drop for Looks {
        fn drop(&mut self) {
            if let Some(cache) = &self.0 {
                let _ = self.1.send(cache.capacity() as usize);
            }
        }
    }
    let (sender, dropped) = mpsc::channel();
    let run = ends(move || {
        let cache = Arc::new(one_shard(2)?);
        let make = || Looks(Some(Arc::clone(&cache)), sender.clone());
        let first = cache.insert(&1, 1, make())?;
        cache.insert(&1, 1, make())?;
        drop(first);
        cache.insert(&2, 1, make())?;
        cache.insert(&3, 1, make())?;
        cache.invalidate(&3)?;
        drop(cache.get_or_init(&4, 1, |_| make())?);
        drop(cache.get_or_init(&5, 2, |_| make())?);
        cache.retain(|_, _, _| false)?;
        cache.insert(&6, 1, make())?;
        cache.set_capacity(0);
        cache.set_capacity(2);
        cache.insert(&7, 1, make())?;
        cache.prune();
        cache.insert(&8, 1, make())?;
        cache.clear()?;
        assert!(cache.insert(&9, 0, make()).is_err());
        assert!(cache.is_empty());
        Ok::<_, Refusal>(())
    });
    run.join()?;
    assert_eq!(dropped.iter().count(), 10);
    Ok(())
}

#[test]
fn a_value_that_panics_when_it_is_dropped_harms_no_other() -> Result<(), Refusal> {
    struct Panics(Counted);
    impl Drop for Panics {
        fn drop(&mut self) {
            assert_ne!(self.0.1, 5, "the drop of a value panics");
        }
    }
    let counter = Counter::default();
    let cache = one_shard(10)?;
    for key in 0..10 {
        cache.insert(&key, 1, Panics(counter.make(key)))?;
    }
    let panicked = panic::catch_unwind(AssertUnwindSafe(|| cache.prune()));
    assert!(panicked.is_err());
    assert_eq!((cache.len(), counter.dropped()), (0, 10));
    // A handle that a call was to return is dropped.
    cache.insert(&5, 10, Panics(counter.make(5)))?;
    let panicked = panic::catch_unwind(AssertUnwindSafe(|| {
        drop(cache.insert(&6, 10, Panics(counter.make(6))));
    }));
    assert!(panicked.is_err());
    assert_eq!(
        (cache.len(), cache.pinned_charge(), counter.dropped()),
        (1, 0, 11)
    );
    Ok(())
}

#[test]
fn every_value_is_dropped_with_its_cache() -> Result<(), Refusal> {
    let counter = Counter::default();
    let cache = Cache::<u64, Counted>::new(100)?;
    for key in 0..50 {
        let handle = cache.insert(&key, 1, counter.make(key))?;
        match key % 4 {
            0 => std::mem::forget(handle),
            1 => {
                std::mem::forget(handle.try_clone()?);
                std::mem::forget(handle);
                cache.invalidate(&key)?;
            }
            _ => {}
        }
    }
    let kept = 50 - counter.dropped();
    assert_eq!(cache.len(), kept);
    assert!(cache.pinned_charge() >= 25);
    drop(cache);
    assert_eq!(counter.dropped(), 50);
    Ok(())
}

#[test]
fn handles_may_be_dropped_on_other_threads() -> Result<(), Refusal> {
    let counter = Counter::default();
    let cache = Cache::<u64, Counted>::new(1000)?;
    // More threads at once than the first room for readers holds.
    let all = Barrier::new(40);
    thread::scope(|scope| {
        for number in 0..40 {
            let (cache, counter, all) = (&cache, &counter, &all);
            scope.spawn(move || {
                let handle = cache.insert(&number, 1, counter.make(number));
                all.wait();
                let found = cache.get(&((number + 1) % 40));
                all.wait();
                assert!(found.is_ok_and(|found| found.is_some_and(|it| it.1 < 40)));
                assert!(cache.invalidate(&number).is_ok());
                all.wait();
                // Dropped by a thread that has not called the cache.
                let other = thread::scope(|scope| scope.spawn(move || drop(handle)).join().is_ok());
                assert!(other);
            });
        }
    });
    assert_eq!((cache.len(), counter.dropped()), (0, 40));
    Ok(())
}

#[test]
fn a_thread_that_has_not_called_the_cache_finds_what_is_there() -> Result<(), Refusal> {
    let cache = one_shard(10)?;
    cache.insert(&1, 1, "one")?;
    let found = thread::scope(|scope| {
        let thread = scope.spawn(|| cache.get(&1).map(|found| found.map(|value| *value)));
        thread.join().unwrap_or(Ok(None))
    })?;
    assert_eq!(found, Some("one"));
    Ok(())
}

#[test]
fn handles_may_be_dropped_while_their_thread_ends() -> Result<(), Refusal> {
    /// Uses a handle and the cache when its thread ends.
    struct AtEnd(OwnedHandle<u64, Counted>, Arc<Cache<u64, Counted>>);
    impl Drop for AtEnd {
        fn drop(&mut self) {
            let clone = self.0.try_clone().map(|clone| clone.1);
            let found = self.1.get(&clone.unwrap_or(0));
            if found.is_ok_and(|found| found.is_some()) {
                self.0.0.fetch_add(100, Ordering::SeqCst);
            }
        }
    }
    thread_local! {
        static AT_END: RefCell<Option<AtEnd>> = const { RefCell::new(None) };
    }
    let counter = Counter::default();
    let cache = Arc::new(one_shard(10)?);
    // The handle is dropped after or before the thread has lost its readers.
    for (key, is_first) in [(1, true), (2, false)] {
        let (cache, counter) = (Arc::clone(&cache), counter.clone());
        let thread = thread::spawn(move || {
            if is_first {
                AT_END.set(None);
            }
            let handle = cache.get_or_init_owned(&key, 1, |_| counter.make(key))?;
            AT_END.set(Some(AtEnd(handle, cache)));
            Ok::<_, Refusal>(())
        });
        thread.join().expect("it does not panic")?;
    }
    assert_eq!(
        (counter.dropped(), cache.len(), cache.pinned_charge()),
        (200, 2, 0)
    );
    Ok(())
}

#[test]
fn an_owned_handle_keeps_its_cache_alive() -> Result<(), Refusal> {
    let counter = Counter::default();
    let cache = Arc::new(Cache::<u64, Counted>::new(10)?);
    assert!(cache.get_owned(&1)?.is_none());
    let made = cache.get_or_init_owned(&1, 1, |key| counter.make(*key))?;
    let found = cache.get_owned(&1)?.expect("it was made");
    let other = cache.get_or_try_init_owned(&2, 1, |_| Ok::<_, ()>(counter.make(2)));
    let failed = cache.get_or_try_init_owned(&3, 1, |_| Err(()));
    assert_eq!(failed.err(), Some(GetError::Init(())));
    let clone = found.try_clone()?;
    cache.invalidate(&1)?;
    assert_eq!(cache.pinned_charge(), 2);
    drop((cache, made, found));
    assert_eq!((counter.dropped(), clone.value().1), (0, 1));
    let clone = ends(move || clone.try_clone().map(|clone| clone.1)).join();
    assert_eq!((clone, counter.dropped()), (Ok(1), 1));
    // The cache is dropped by the last handle, on another thread.
    ends(move || drop(other)).join();
    assert_eq!(counter.dropped(), 2);
    Ok(())
}

#[test]
fn stats_tell_what_was_stored_made_and_evicted() -> Result<(), Refusal> {
    let cache = Cache::with_seed(12, NonZeroUsize::new(3).unwrap(), 7)?;
    let counts = |cache: &Cache<u64, u64>| {
        let stats = cache.stats();
        assert_eq!(stats.insertions, stats.evictions + stats.entries);
        assert_eq!(
            (stats.entries, stats.charge),
            (cache.len(), cache.total_charge())
        );
        assert_eq!(stats.capacity, 12);
        (stats.insertions, stats.loads, stats.load_failures)
    };
    assert_eq!(counts(&cache), (0, 0, 0));
    let held: Result<Vec<_>, _> = (0..30).map(|key| cache.insert(&key, 1, key)).collect();
    let held = held?;
    let refused = cache.get_or_init_with(&30, |_| (30, u64::MAX)).err();
    assert_eq!((refused, held.len()), (Some(Refusal::Overflow), 30));
    drop(held);
    assert_eq!(counts(&cache), (30, 0, 1));
    cache.set_capacity(12);
    assert!(cache.stats().evictions >= 18);
    cache.prune();
    let held = cache.get_or_init(&1, 2, |_| 1)?;
    cache.get_or_init(&1, 2, |_| 2)?;
    cache.get(&1)?;
    assert_eq!((counts(&cache), cache.stats().charge), ((31, 1, 1), 2));
    drop(cache.get_or_try_init(&2, 1, |_| Err(())));
    drop(cache.begin(&2, 1)?);
    drop(cache.get_or_init_with(&2, |_| (2, 0)));
    drop(cache.insert(&1, u64::MAX, 2));
    let panicked = panic::catch_unwind(AssertUnwindSafe(|| {
        cache.get_or_init(&2, 1, |_| panic!("no value")).map(drop)
    }));
    assert!(panicked.is_err());
    assert_eq!(counts(&cache), (31, 1, 5));
    // One that no key finds is present as long as it has a handle.
    cache.invalidate(&1)?;
    assert_eq!(cache.stats().entries, 1);
    drop(held);
    assert_eq!((cache.stats().entries, cache.stats().evictions), (0, 31));
    // A value for its maker alone was stored too.
    if let Begun::Make(maker) = cache.begin(&1, 1)? {
        cache.insert(&1, 1, 3)?;
        drop(maker.ready(4)?);
    }
    assert_eq!((counts(&cache), cache.stats().evictions), ((33, 2, 5), 32));
    let both = cache.stats().saturating_add(cache.stats());
    assert_eq!(
        (both.insertions, both.load_failures, both.charge),
        (66, 10, 2)
    );
    Ok(())
}

#[test]
fn debug_prints_values_and_numbers() -> Result<(), Refusal> {
    let cache = Arc::new(one_shard(10)?);
    let handle = cache.insert(&1, 2, "one")?;
    assert_eq!(format!("{handle:?}"), "CacheHandle(\"one\")");
    let owned = cache.get_owned(&1)?.expect("it was inserted");
    assert_eq!(format!("{owned:?}"), "OwnedHandle(\"one\")");
    let numbers = "Cache { capacity: 10, total_charge: 2, .. }";
    assert_eq!(format!("{cache:?}"), numbers);
    Ok(())
}

const THREADS: u64 = 8;
const KEYS: u64 = 150;

/// How many calls a thread of the stress test makes, of which CALLS tells another number for a run
/// under valgrind.
fn calls() -> u64 {
    env::var("CALLS").map_or(20_000, |number| number.parse().expect("CALLS is a number"))
}

/// What is known of the values of the stress test, by their numbers.
struct Known {
    next: AtomicU64,
    dropped: Vec<AtomicU32>,
}

/// A value of the stress test.
struct Watched {
    key: u64,
    number: usize,
    users: AtomicU32,
    is_dropped: AtomicBool,
    known: Arc<Known>,
}

impl Watched {
    fn new(known: &Arc<Known>, key: u64) -> Watched {
        Watched {
            key,
            number: known.next.fetch_add(1, Ordering::SeqCst) as usize,
            users: AtomicU32::new(0),
            is_dropped: AtomicBool::new(false),
            known: Arc::clone(known),
        }
    }

    fn check(&self, key: u64) {
        self.users.fetch_add(1, Ordering::SeqCst);
        assert_eq!(self.key, key);
        assert!(!self.is_dropped.load(Ordering::SeqCst));
        self.users.fetch_sub(1, Ordering::SeqCst);
    }
}

impl Drop for Watched {
    fn drop(&mut self) {
        self.is_dropped.store(true, Ordering::SeqCst);
        assert_eq!(self.users.load(Ordering::SeqCst), 0);
        self.known.dropped[self.number].fetch_add(1, Ordering::SeqCst);
    }
}

type Sent = OwnedHandle<u64, Watched>;

/// A thread of the stress test, which passes handles on to the next one.
fn stress(
    thread: u64,
    cache: &Arc<Cache<u64, Watched>>,
    known: &Arc<Known>,
    next: &Sender<Sent>,
    passed: &Receiver<Sent>,
) -> Result<(), Refusal> {
    let mut random = thread + 1;
    let mut kept: Vec<Sent> = Vec::new();
    // A value that is pinned and that nobody invalidates is always found.
    let own = KEYS + thread;
    let _own = cache.get_or_init(&own, 1, |key| Watched::new(known, *key))?;
    for _ in 0..calls() {
        random = random
            .wrapping_mul(6_364_136_223_846_793_005)
            .wrapping_add(1_442_695_040_888_963_407);
        let key = (random >> 33) % KEYS;
        let make = |key: &u64| Watched::new(known, *key);
        cache.get(&own)?.expect("it is pinned").check(own);
        match (random >> 50) % 64 {
            0..32 => {
                if let Some(found) = cache.get(&key)? {
                    found.check(key);
                }
            }
            32..38 => cache.get_or_init(&key, 1 + key % 3, make)?.check(key),
            38..42 => cache
                .get_or_init_with(&key, |key| (make(key), 1 + key % 3))?
                .check(key),
            42..44 => match cache.try_begin(&key, 1)? {
                Some(Begun::Hit(found)) => found.check(key),
                Some(Begun::Make(_)) if key % 5 == 0 => {}
                Some(Begun::Make(maker)) => {
                    maker.ready_with(make(&key), 1 + key % 4)?.check(key);
                }
                None => {}
            },
            44 => {
                let failed = cache.get_or_try_init(&key, 1, |_| Err(()));
                assert!(failed.is_err() || failed.is_ok_and(|found| found.key == key));
            }
            45..48 => cache.insert(&key, 1, make(&key))?.check(key),
            48..51 => cache.invalidate(&key)?,
            51..56 => {
                let handle = cache.get_or_init_owned(&key, 1, make)?;
                kept.push(handle.try_clone()?);
                let _ = next.send(handle);
            }
            56..61 => {
                for handle in passed.try_iter() {
                    handle.check(handle.key);
                    kept.push(handle);
                }
                kept.truncate(20);
            }
            61 => cache.set_capacity((random >> 40) % KEYS),
            62 if key < 10 => cache.for_each(|entry| {
                entry.value.check(entry.key[1]);
            })?,
            62 if key < 15 => cache.retain(|[_, key], _, _| key % 7 != 0 || key >= KEYS)?,
            62 if key < 20 => cache.prune(),
            _ => {
                cache.read(&key, |value| value.check(key))?;
            }
        }
    }
    Ok(())
}

#[test]
fn no_value_is_dropped_while_held_or_seen_under_another_key() -> Result<(), Refusal> {
    let most = (2 * THREADS * calls()) as usize;
    let known = Arc::new(Known {
        next: AtomicU64::new(0),
        dropped: (0..most).map(|_| AtomicU32::new(0)).collect(),
    });
    let cache = Arc::new(Cache::with_seed(100, NonZeroUsize::new(2).unwrap(), 1)?);
    let (senders, receivers): (Vec<_>, Vec<_>) = (0..THREADS).map(|_| mpsc::channel()).unzip();
    let threads: Vec<_> = receivers
        .into_iter()
        .enumerate()
        .map(|(thread, passed)| {
            let next = senders[(thread + 1) % senders.len()].clone();
            let (cache, known) = (Arc::clone(&cache), Arc::clone(&known));
            thread::spawn(move || stress(thread as u64, &cache, &known, &next, &passed))
        })
        .collect();
    for thread in threads {
        thread.join().expect("it does not panic")?;
    }
    drop(senders);
    assert_eq!(cache.pinned_charge(), 0);
    let idle = cache.len();
    assert!(idle >= 1);
    assert!(Arc::into_inner(cache).is_some());
    let made = known.next.load(Ordering::SeqCst) as usize;
    assert!(made as u64 > idle);
    for (number, dropped) in known.dropped.iter().enumerate() {
        assert_eq!(dropped.load(Ordering::SeqCst), u32::from(number < made));
    }
    Ok(())
}
