//! Tests of the calls for tasks of the cache whose hits take no lock.

mod executor;

use std::num::NonZeroUsize;
use std::panic::{self, AssertUnwindSafe};
use std::pin::pin;
use std::sync::Arc;
use std::sync::atomic::{AtomicUsize, Ordering::SeqCst};
use std::task::{Poll, Wake, Waker};
use std::thread;
use std::time::Duration;

use concurrent_lru_proved::clock::{Begun, Cache, Maker};
use concurrent_lru_proved::{GetError, Refusal};

use executor::{block_on, counting, pause, poll};

fn one_shard<V>(capacity: u64) -> Result<Cache<u64, V>, Refusal> {
    Cache::with_seed(capacity, NonZeroUsize::MIN, 0)
}

fn maker(cache: &Cache<u64, u64>, key: u64) -> Maker<'_, u64, u64> {
    match cache.begin(&key, 1) {
        Ok(Begun::Make(maker)) => maker,
        other => panic!("{other:?} and not a maker"),
    }
}

/// Has each of these futures wait, and returns how often each was woken since.
macro_rules! wait {
    ($tasks:expr) => {{
        let (counts, wakers): (Vec<_>, Vec<_>) = $tasks.iter().map(|_| counting()).unzip();
        for (task, waker) in $tasks.iter_mut().zip(&wakers) {
            assert!(poll(task.as_mut(), waker).is_pending());
        }
        let woken = move || -> Vec<_> {
            let woken = counts.iter().map(|count| count.woken.load(SeqCst));
            woken.collect()
        };
        (woken, wakers)
    }};
}

#[test]
fn one_making_serves_tasks_and_threads() -> Result<(), Refusal> {
    let cache = one_shard(10)?;
    for is_made in [true, false] {
        let makings = AtomicUsize::new(0);
        let make = |number| {
            makings.fetch_add(1, SeqCst);
            number
        };
        let making = maker(&cache, 7);
        let mut tasks =
            [1, 2, 3].map(|n| Box::pin(cache.get_or_init_async(&7, 1, async move { make(n) })));
        let (woken, wakers) = wait!(tasks);
        thread::scope(|scope| {
            let threads = [4, 5].map(|n| {
                let (cache, make) = (&cache, &make);
                scope.spawn(move || cache.get_or_init(&7, 1, |_| make(n)).map(|made| *made))
            });
            thread::sleep(Duration::from_millis(50));
            assert_eq!((woken(), makings.load(SeqCst)), (vec![0; 3], 0));
            if is_made {
                drop(making.ready(70)?);
            } else {
                drop(making);
            }
            assert_eq!(woken(), [1; 3]);
            let mut found = threads.map(|thread| thread.join().unwrap()).to_vec();
            for (task, waker) in tasks.iter_mut().zip(&wakers) {
                match poll(task.as_mut(), waker) {
                    Poll::Ready(made) => found.push(made.map(|made| *made)),
                    Poll::Pending => panic!("the making has ended"),
                }
            }
            let expected = if is_made { Ok(70) } else { found[0] };
            assert_eq!(found, [expected; 5]);
            Ok::<_, Refusal>(())
        })?;
        assert_eq!(makings.load(SeqCst), usize::from(!is_made));
        assert_eq!((cache.len(), cache.pinned_charge()), (1, 0));
        cache.prune();
    }
    Ok(())
}

#[test]
fn a_task_makes_a_value_for_threads() -> Result<(), Refusal> {
    let cache = one_shard(10)?;
    for fails in [false, true] {
        cache.prune();
        thread::scope(|scope| {
            let (_, waker) = counting();
            let mut making = pin!(cache.get_or_try_init_async(&7, 1, async {
                pause(1).await;
                if fails { Err(()) } else { Ok(70) }
            }));
            assert!(poll(making.as_mut(), &waker).is_pending());
            let waiting = scope.spawn(|| cache.get_or_init(&7, 1, |_| 71).map(|made| *made));
            thread::sleep(Duration::from_millis(50));
            let Poll::Ready(made) = poll(making, &waker) else {
                panic!("it pauses once");
            };
            assert_eq!(made.as_deref().err(), fails.then_some(&GetError::Init(())));
            assert_eq!(waiting.join().unwrap(), Ok(if fails { 71 } else { 70 }));
        });
    }
    assert_eq!(cache.pinned_charge(), 0);
    Ok(())
}

#[test]
fn a_maker_that_is_dropped_hands_over() -> Result<(), Refusal> {
    let cache = one_shard(10)?;
    let slow = async |n| {
        pause(9).await;
        n
    };
    let (_, idle) = counting();
    let mut first = Box::pin(cache.get_or_init_async(&7, 1, slow(1)));
    assert!(poll(first.as_mut(), &idle).is_pending());
    let mut tasks = [2, 3, 4].map(|n| Box::pin(cache.get_or_init_async(&7, 1, slow(n))));
    let (woken, wakers) = wait!(tasks);
    assert_eq!(woken(), [0; 3]);
    drop(first);
    assert_eq!(woken(), [1; 3]);
    // One that has taken over is dropped too, and one that was only woken.
    let [mut second, third, mut fourth] = tasks;
    assert!(poll(second.as_mut(), &wakers[0]).is_pending());
    assert!(poll(fourth.as_mut(), &wakers[2]).is_pending());
    drop(third);
    assert_eq!(woken()[2], 1);
    drop(second);
    assert_eq!(woken()[2], 2);
    assert_eq!(block_on(fourth).as_deref(), Ok(&4));
    assert_eq!((cache.len(), cache.pinned_charge()), (1, 0));
    Ok(())
}

#[test]
fn one_that_comes_may_take_over_before_those_that_were_woken() -> Result<(), Refusal> {
    let cache = one_shard(10)?;
    for is_made in [true, false] {
        let first = maker(&cache, 7);
        let mut tasks = [8, 9].map(|n| Box::pin(cache.get_or_init_async(&7, 1, async move { n })));
        let (woken, wakers) = wait!(tasks);
        drop(first);
        assert_eq!(woken(), [1, 1]);
        let second = maker(&cache, 7);
        // The same tasks wait for another making now, in another order.
        for place in [1, 0, 0, 1] {
            assert!(poll(tasks[place].as_mut(), &wakers[place]).is_pending());
        }
        if is_made {
            drop(second.ready(7)?);
        } else {
            drop(second);
        }
        assert_eq!(woken(), [2, 2]);
        for (task, waker) in tasks.iter_mut().zip(&wakers) {
            let Poll::Ready(found) = poll(task.as_mut(), waker) else {
                panic!("the making has ended");
            };
            assert_eq!(found.as_deref(), Ok(if is_made { &7 } else { &8 }));
        }
        cache.prune();
    }
    assert!(cache.is_empty());
    Ok(())
}

#[test]
fn those_that_wait_are_woken_if_their_key_is_invalidated() -> Result<(), Refusal> {
    for change in 0..3 {
        let cache = one_shard(10)?;
        let _makings = [7, 8].map(|key| maker(&cache, key));
        let mut tasks =
            [&7, &8].map(|key| Box::pin(cache.get_or_init_async(key, 1, async { *key })));
        let (woken, wakers) = wait!(tasks);
        match change {
            0 => cache.invalidate(&7)?,
            1 => drop(cache.insert(&7, 1, 70)?),
            _ => cache.clear()?,
        }
        let (expected, is_all) = ([7, 70, 7][change], change == 2);
        assert_eq!(woken(), [1, usize::from(is_all)]);
        let polled = tasks.iter_mut().zip(&wakers);
        let found = polled.map(|(task, waker)| match poll(task.as_mut(), waker) {
            Poll::Ready(found) => found.map(|found| Some(*found)),
            Poll::Pending => Ok(None),
        });
        let found: Result<Vec<_>, _> = found.collect();
        assert_eq!(found?, [Some(expected), is_all.then_some(8)]);
    }
    Ok(())
}

#[test]
fn a_cancelled_waiter_leaves_nothing() -> Result<(), Refusal> {
    let cache = one_shard(10)?;
    // Whether the waiter is dropped before the making ends, and whether a value is made.
    for (is_before, is_made) in [(true, true), (true, false), (false, true), (false, false)] {
        let making = maker(&cache, 7);
        let mut tasks =
            [8, 9].map(|n| Some(Box::pin(cache.get_or_init_async(&7, 1, async move { n }))));
        let (count, waker) = counting();
        let (other_count, other_waker) = counting();
        let [waiting, other] = &mut tasks;
        for (task, waker) in [(waiting, &waker), (other, &other_waker)] {
            let task = task
                .as_mut()
                .map(|task| poll(task.as_mut(), waker).is_pending());
            assert_eq!(task, Some(true));
        }
        // How many copies of each waker the cache has.
        let copies = || [&count, &other_count].map(|count| Arc::strong_count(count) - 2);
        assert_eq!(copies(), [1, 1]);
        let [waiting, other] = &mut tasks;
        if is_before {
            drop(waiting.take());
            assert_eq!(copies(), [0, 1]);
        }
        if is_made {
            let made = making.ready(7)?;
            assert_eq!((*made, cache.pinned_charge()), (7, 1));
        } else {
            drop(making);
        }
        assert_eq!(count.woken.load(SeqCst), usize::from(!is_before));
        assert_eq!(other_count.woken.load(SeqCst), 1);
        drop(waiting.take());
        let found = other.take().map(block_on);
        let found = found.ok_or(Refusal::Memory)??;
        assert_eq!(*found, if is_made { 7 } else { 9 });
        drop(found);
        assert_eq!(copies(), [0, 0]);
        assert_eq!((cache.len(), cache.pinned_charge()), (1, 0));
        cache.prune();
        assert!(cache.is_empty());
    }
    Ok(())
}

#[test]
fn a_waker_wakes_only_for_its_value_and_only_the_last_one() -> Result<(), Refusal> {
    let cache = one_shard(10)?;
    let (old_count, old) = counting();
    let (count, waker) = counting();
    let making = maker(&cache, 7);
    let mut waiting = pin!(cache.get_or_init_async(&7, 1, async { 8 }));
    assert!(poll(waiting.as_mut(), &old).is_pending());
    assert!(poll(waiting.as_mut(), &waker).is_pending());
    drop(old);
    // The cache has kept no copy of the waker that was replaced.
    assert_eq!(Arc::strong_count(&old_count), 1);
    cache.get_or_init(&8, 1, |_| 8)?;
    cache.insert(&9, 1, 9)?;
    cache.invalidate(&9)?;
    drop(cache.get_or_try_init(&9, 1, |_| Err(())));
    drop(cache.get_or_init_with(&9, |_| (9, 0)));
    cache.prune();
    cache.retain(|_, _, _| false)?;
    assert!(cache.try_begin(&7, 1)?.is_none());
    assert_eq!(count.woken.load(SeqCst), 0);
    drop(making.ready(7)?);
    let woken = [&old_count, &count].map(|count| count.woken.load(SeqCst));
    assert_eq!(woken, [0, 1]);
    let Poll::Ready(found) = poll(waiting, &waker) else {
        panic!("the value was made");
    };
    assert_eq!(found.as_deref(), Ok(&7));
    drop(waker);
    assert_eq!(Arc::strong_count(&count), 1);
    Ok(())
}

/// Calls the cache when it wakes, and when it is dropped.
struct Calling(Arc<Cache<u64, u64>>);

impl Wake for Calling {
    fn wake(self: Arc<Self>) {
        assert_eq!(self.0.capacity(), 10);
    }
}

impl Drop for Calling {
    fn drop(&mut self) {
        assert_eq!(self.0.capacity(), 10);
    }
}

#[test]
fn wakers_run_and_drop_without_the_lock() -> Result<(), Refusal> {
    let cache = Arc::new(one_shard(10)?);
    let calling = || Waker::from(Arc::new(Calling(Arc::clone(&cache))));
    for key in 0..5 {
        let making = maker(&cache, key);
        let mut tasks = [(); 3].map(|()| Box::pin(cache.get_or_init_async(&key, 1, async { 8 })));
        for task in &mut tasks {
            assert!(poll(task.as_mut(), &calling()).is_pending());
            assert!(poll(task.as_mut(), &calling()).is_pending());
        }
        let [mut first, second, mut third] = tasks;
        drop(second);
        match key {
            0 => drop(making),
            1 => drop(making.ready(7)?),
            2 => cache.invalidate(&key)?,
            3 => drop(cache.insert(&key, 1, 7)?),
            _ => cache.clear()?,
        }
        assert!(poll(first.as_mut(), &calling()).is_ready());
        assert!(poll(third.as_mut(), &calling()).is_ready());
    }
    Ok(())
}

#[test]
fn a_future_that_panics_or_fails_leaves_the_value_to_the_next() -> Result<(), Refusal> {
    let cache = Arc::new(one_shard(10)?);
    let panicking = cache.get_or_init_owned_async(&7, 1, async {
        pause(1).await;
        panic!("no value")
    });
    let mut panicking = Box::pin(panicking);
    let (_, waker) = counting();
    assert!(poll(panicking.as_mut(), &waker).is_pending());
    let mut failing = Box::pin(cache.get_or_try_init_owned_async(&7, 1, async { Err("failed") }));
    assert!(poll(failing.as_mut(), &waker).is_pending());
    let mut making = Box::pin(cache.get_or_init_async(&7, 1, async { 9 }));
    assert!(poll(making.as_mut(), &waker).is_pending());
    let panicked = panic::catch_unwind(AssertUnwindSafe(|| poll(panicking.as_mut(), &waker)));
    assert!(panicked.is_err());
    let failed = block_on(failing).err();
    assert_eq!(failed, Some(GetError::Init("failed")));
    assert_eq!(block_on(making).as_deref(), Ok(&9));
    let refused = block_on(cache.get_or_init_async(&8, 0, async { 1 })).err();
    assert_eq!(refused, Some(Refusal::ZeroCharge));
    assert_eq!((cache.len(), cache.pinned_charge()), (1, 0));
    Ok(())
}

#[test]
fn a_task_may_tell_the_charge_with_the_value() -> Result<(), Refusal> {
    let cache = one_shard(10)?;
    let made = block_on(async {
        match cache.begin_async(&7, 1).await? {
            Begun::Hit(handle) => Ok(handle),
            Begun::Make(maker) => {
                pause(2).await;
                maker.ready_with(70, 6)
            }
        }
    })?;
    assert_eq!((*made, cache.pinned_charge()), (70, 6));
    let found = block_on(cache.begin_async(&7, 1))?;
    assert!(matches!(found, Begun::Hit(handle) if *handle == 70));
    Ok(())
}

#[test]
fn an_owned_handle_keeps_the_cache_in_a_task() -> Result<(), Refusal> {
    let cache = Arc::new(Cache::<u64, String>::new(1000)?);
    let task = async move {
        let init = async { "value".to_string() };
        let handle = cache.get_or_init_owned_async(&7, 1, init).await?;
        drop(cache);
        pause(1).await;
        Ok::<_, Refusal>(handle)
    };
    let handle = thread::spawn(move || block_on(task)).join().unwrap()?;
    assert_eq!(*handle, "value");
    // Each handle gives its pin back to its own shard.
    let cache = Arc::new(Cache::<u64, u64>::new(1000)?);
    for key in 0..20 {
        let made = block_on(cache.get_or_init_owned_async(&key, 1, async { key }))?;
        let found = block_on(cache.get_or_try_init_owned_async(&key, 1, async { Err(()) }));
        assert_eq!((*made, found.as_deref()), (key, Ok(&key)));
    }
    assert_eq!((cache.len(), cache.pinned_charge()), (20, 0));
    Ok(())
}
