//! Tests of the calls for tasks.

mod executor;

use std::future;
use std::panic::{self, AssertUnwindSafe};
use std::pin::pin;
use std::sync::atomic::{AtomicUsize, Ordering::SeqCst};
use std::sync::{Arc, Mutex};
use std::task::{Poll, Wake, Waker};
use std::thread;
use std::time::Duration;

use concurrent_lru_proved::unsharded::{Begun, LruCache};
use concurrent_lru_proved::{GetError, Refusal, clock, sharded};

use executor::{Task, block_on, counting, pause, poll, run};

type Cache = LruCache<u64, u64>;

/// Drops a future that is pending after so many polls, and returns `None`.
async fn at_most<T>(polls: usize, task: impl Future<Output = T>) -> Option<T> {
    let mut task = Box::pin(task);
    let mut polls = polls;
    future::poll_fn(move |context| {
        if let Poll::Ready(result) = task.as_mut().poll(context) {
            return Poll::Ready(Some(result));
        }
        if polls == 0 {
            return Poll::Ready(None);
        }
        polls -= 1;
        context.waker().wake_by_ref();
        Poll::Pending
    })
    .await
}

fn sends<T: Send>(task: T) -> T {
    task
}

#[test]
fn tasks_can_be_sent() {
    fn unsharded(cache: &Arc<LruCache<String, String>>) {
        let init = || async { String::new() };
        let may_fail = || async { Ok::<_, ()>(String::new()) };
        drop(sends(cache.begin_async("a", 1)));
        drop(sends(cache.get_or_init_async("a", 1, init())));
        drop(sends(cache.get_or_try_init_async("a", 1, may_fail())));
        drop(sends(cache.get_or_init_owned_async("a", 1, init())));
        drop(sends(cache.get_or_try_init_owned_async("a", 1, may_fail())));
    }
    fn sharded(cache: &Arc<sharded::LruCache<String, String>>) {
        let init = || async { String::new() };
        let may_fail = || async { Ok::<_, ()>(String::new()) };
        drop(sends(cache.begin_async("a", 1)));
        drop(sends(cache.get_or_init_async("a", 1, init())));
        drop(sends(cache.get_or_try_init_async("a", 1, may_fail())));
        drop(sends(cache.get_or_init_owned_async("a", 1, init())));
        drop(sends(cache.get_or_try_init_owned_async("a", 1, may_fail())));
    }
    fn clock(cache: &Arc<clock::Cache<u64, String>>) {
        let init = || async { String::new() };
        let may_fail = || async { Ok::<_, ()>(String::new()) };
        drop(sends(cache.begin_async(&7, 1)));
        drop(sends(cache.get_or_init_async(&7, 1, init())));
        drop(sends(cache.get_or_try_init_async(&7, 1, may_fail())));
        drop(sends(cache.get_or_init_owned_async(&7, 1, init())));
        drop(sends(cache.get_or_try_init_owned_async(&7, 1, may_fail())));
    }
    unsharded(&Arc::new(LruCache::new(10).unwrap()));
    sharded(&Arc::new(sharded::LruCache::new(10).unwrap()));
    clock(&Arc::new(clock::Cache::new(10).unwrap()));
}

#[test]
fn one_making_serves_tasks_and_threads() -> Result<(), Refusal> {
    const TASKS: usize = 4;
    const THREADS: usize = 3;
    let cache = Arc::new(Cache::new(10)?);
    let made = AtomicUsize::new(0);
    let all = (TASKS * THREADS + THREADS - 1) as u64;
    // The first to come makes the value once all others wait.
    let init = || {
        made.fetch_add(1, SeqCst);
        while cache.stats().waits < all {
            thread::sleep(Duration::from_millis(1));
        }
        70
    };
    thread::scope(|scope| {
        let maker = scope.spawn(|| cache.get_or_init(&7, 1, |_| init()).map(|made| *made));
        while made.load(SeqCst) == 0 {
            thread::sleep(Duration::from_millis(1));
        }
        for _ in 1..THREADS {
            scope.spawn(|| assert_eq!(cache.get_or_init(&7, 1, |_| 0).as_deref(), Ok(&70)));
        }
        for _ in 0..THREADS {
            scope.spawn(|| {
                let task = async || {
                    let handle = cache.get_or_init_owned_async(&7, 1, async { 0 }).await;
                    pause(2).await;
                    assert_eq!(handle.as_deref(), Ok(&70));
                };
                run((0..TASKS).map(|_| Box::pin(task()) as Task<'_>).collect());
            });
        }
        assert_eq!(maker.join().unwrap(), Ok(70));
    });
    assert_eq!((made.into_inner(), cache.pinned_charge()), (1, 0));
    Ok(())
}

#[test]
fn a_task_makes_a_value_for_threads() -> Result<(), Refusal> {
    let cache = Cache::new(10)?;
    for fails in [false, true] {
        cache.prune();
        let waits = cache.stats().waits;
        thread::scope(|scope| {
            let (_, waker) = counting();
            let mut making = pin!(cache.get_or_try_init_async(&7, 1, async {
                pause(1).await;
                if fails { Err(()) } else { Ok(70) }
            }));
            assert!(poll(making.as_mut(), &waker).is_pending());
            let waiting = scope.spawn(|| cache.get_or_init(&7, 1, |_| 71).map(|made| *made));
            while cache.stats().waits == waits {
                thread::sleep(Duration::from_millis(1));
            }
            let Poll::Ready(made) = poll(making, &waker) else {
                panic!("it pauses once");
            };
            assert_eq!(made.as_deref().err(), fails.then_some(&GetError::Init(())));
            assert_eq!(waiting.join().unwrap(), Ok(if fails { 71 } else { 70 }));
        });
    }
    assert_eq!(cache.pinned_charge(), 0);
    Ok(())
}

#[test]
fn a_maker_that_is_dropped_hands_over() -> Result<(), Refusal> {
    let cache = Cache::new(10)?;
    let (_, idle) = counting();
    let (counts, wakers): (Vec<_>, Vec<_>) = (0..3).map(|_| counting()).unzip();
    let woken = || [0, 1, 2].map(|task| counts[task].woken.load(SeqCst));
    let mut first = Box::pin(cache.get_or_init_async(&7, 1, async {
        pause(9).await;
        1
    }));
    let mut tasks = [2, 3, 4].map(|n| {
        Box::pin(cache.get_or_init_async(&7, 1, async move {
            pause(9).await;
            n
        }))
    });
    assert!(poll(first.as_mut(), &idle).is_pending());
    for (task, waker) in tasks.iter_mut().zip(&wakers) {
        assert!(poll(task.as_mut(), waker).is_pending());
    }
    assert_eq!(woken(), [0, 0, 0]);
    drop(first);
    assert!(woken()[0] > 0);
    let [mut second, third, fourth] = tasks;
    // One that has taken over is dropped too, and one that was only woken.
    assert!(poll(second.as_mut(), &wakers[0]).is_pending());
    drop(second);
    drop(third);
    assert!(woken()[2] > 0);
    assert_eq!(block_on(fourth).as_deref(), Ok(&4));
    let stats = cache.stats();
    assert_eq!(
        (stats.load_failures, stats.loads, stats.insertions),
        (2, 1, 1)
    );
    assert_eq!(cache.pinned_charge(), 0);
    Ok(())
}

#[test]
fn one_that_comes_may_take_over_before_those_that_were_woken() -> Result<(), Refusal> {
    let cache = Cache::new(10)?;
    let (count, waker) = counting();
    for is_made in [true, false] {
        let first = cache.begin(&7, 1)?;
        let mut waiting = Box::pin(cache.get_or_init_async(&7, 1, async { 8 }));
        assert!(poll(waiting.as_mut(), &waker).is_pending());
        drop(first);
        let Begun::Make(second) = cache.begin(&7, 1)? else {
            panic!("the first was dropped");
        };
        assert!(poll(waiting.as_mut(), &waker).is_pending());
        let woken = count.woken.load(SeqCst);
        if is_made {
            drop(second.ready(7));
        } else {
            drop(second);
        }
        assert_eq!(count.woken.load(SeqCst), woken + 1);
        let Poll::Ready(found) = poll(waiting.as_mut(), &waker) else {
            panic!("the making has ended");
        };
        assert_eq!(found.as_deref(), Ok(if is_made { &7 } else { &8 }));
        drop(found);
        assert_eq!((cache.len(), cache.pinned_charge()), (1, 0));
        cache.prune();
    }
    Ok(())
}

#[test]
fn a_cancelled_waiter_loses_no_pin() -> Result<(), Refusal> {
    let cache = Cache::new(10)?;
    let (count, waker) = counting();
    // Whether the waiter is dropped before the making ends, and whether a value is made.
    for (is_before, is_made) in [(true, true), (true, false), (false, true), (false, false)] {
        let mut making = Box::pin(cache.get_or_init_async(&7, 1, async {
            pause(1).await;
            7
        }));
        assert!(poll(making.as_mut(), &waker).is_pending());
        let mut waiting = Box::pin(cache.get_or_init_async(&7, 1, async { 8 }));
        let mut other = Box::pin(cache.get_or_init_async(&7, 1, async { 9 }));
        assert!(poll(waiting.as_mut(), &waker).is_pending());
        assert!(poll(other.as_mut(), &waker).is_pending());
        let kept = Arc::strong_count(&count);
        drop(other);
        assert_eq!(Arc::strong_count(&count), kept - 1);
        let mut waiting = Some(waiting);
        if is_before {
            drop(waiting.take());
        }
        if is_made {
            let Poll::Ready(made) = poll(making.as_mut(), &waker) else {
                panic!("it pauses once");
            };
            assert_eq!((made.as_deref(), cache.pinned_charge()), (Ok(&7), 1));
        } else {
            drop(making);
        }
        drop(waiting);
        assert_eq!(cache.pinned_charge(), 0);
        assert_eq!(cache.len(), u64::from(is_made));
        cache.prune();
        assert!(cache.is_empty());
    }
    Ok(())
}

#[test]
fn a_waker_wakes_only_for_its_value_and_only_the_last_one() -> Result<(), Refusal> {
    let cache = Cache::new(10)?;
    let (_, idle) = counting();
    let (old_count, old) = counting();
    let (count, waker) = counting();
    let mut making = pin!(cache.get_or_init_async(&7, 1, async {
        pause(1).await;
        7
    }));
    assert!(poll(making.as_mut(), &idle).is_pending());
    let mut waiting = pin!(cache.get_or_init_async(&7, 1, async { 8 }));
    assert!(poll(waiting.as_mut(), &old).is_pending());
    assert!(poll(waiting.as_mut(), &waker).is_pending());
    drop(old);
    // The cache has kept no copy of the waker that was replaced.
    assert_eq!(Arc::strong_count(&old_count), 1);
    cache.get_or_init(&8, 1, |_| 8)?;
    drop(cache.get_or_try_init(&9, 1, |_| Err(())));
    assert_eq!(count.woken.load(SeqCst), 0);
    assert!(poll(making, &idle).is_ready());
    assert_eq!(
        (old_count.woken.load(SeqCst), count.woken.load(SeqCst)),
        (0, 1)
    );
    let Poll::Ready(found) = poll(waiting, &waker) else {
        panic!("the value was made");
    };
    assert_eq!(found.as_deref(), Ok(&7));
    drop(waker);
    assert_eq!(Arc::strong_count(&count), 1);
    Ok(())
}

/// Calls the cache when it wakes, and when it is dropped.
struct Calling(Arc<Cache>, AtomicUsize);

impl Wake for Calling {
    fn wake(self: Arc<Self>) {
        self.1.fetch_add(1, SeqCst);
        assert_eq!(self.0.len(), 1);
    }
}

impl Drop for Calling {
    fn drop(&mut self) {
        assert!(self.0.len() <= 1);
    }
}

#[test]
fn wakers_run_and_drop_without_the_lock() -> Result<(), Refusal> {
    let cache = Arc::new(Cache::new(10)?);
    let calling = || Waker::from(Arc::new(Calling(Arc::clone(&cache), AtomicUsize::new(0))));
    let making = cache.begin(&7, 1)?;
    let mut tasks = [(); 3].map(|()| Box::pin(cache.get_or_init_async(&7, 1, async { 8 })));
    for task in &mut tasks {
        assert!(poll(task.as_mut(), &calling()).is_pending());
        assert!(poll(task.as_mut(), &calling()).is_pending());
    }
    let [mut first, second, mut third] = tasks;
    drop(second);
    drop(making);
    assert!(poll(first.as_mut(), &calling()).is_ready());
    assert!(poll(third.as_mut(), &calling()).is_ready());
    Ok(())
}

#[test]
fn a_future_that_panics_or_fails_leaves_the_value_to_the_next() -> Result<(), Refusal> {
    let cache = Arc::new(Cache::new(10)?);
    let panicking = cache.get_or_init_owned_async(&7, 1, async {
        pause(1).await;
        panic!("no value")
    });
    let mut panicking = Box::pin(panicking);
    let (_, waker) = counting();
    assert!(poll(panicking.as_mut(), &waker).is_pending());
    let mut failing = Box::pin(cache.get_or_try_init_owned_async(&7, 1, async { Err("failed") }));
    assert!(poll(failing.as_mut(), &waker).is_pending());
    let mut making = Box::pin(cache.get_or_init_async(&7, 1, async { 9 }));
    assert!(poll(making.as_mut(), &waker).is_pending());
    let panicked = panic::catch_unwind(AssertUnwindSafe(|| poll(panicking.as_mut(), &waker)));
    assert!(panicked.is_err());
    let failed = block_on(failing).err();
    assert_eq!(failed, Some(GetError::Init("failed")));
    assert_eq!(block_on(making).as_deref(), Ok(&9));
    let refused = block_on(cache.get_or_init_async(&8, 0, async { 1 })).err();
    assert_eq!(refused, Some(Refusal::ZeroCharge));
    assert_eq!((cache.len(), cache.pinned_charge()), (1, 0));
    Ok(())
}

#[test]
fn an_owned_handle_keeps_the_cache_in_a_task() -> Result<(), Refusal> {
    let cache = Arc::new(sharded::LruCache::<String, String>::new(10)?);
    let task = async move {
        let init = async { "value".to_string() };
        let handle = cache.get_or_init_owned_async("key", 1, init).await?;
        drop(cache);
        pause(1).await;
        Ok::<_, Refusal>(handle)
    };
    let task = sends(task);
    let handle = thread::spawn(move || block_on(task)).join().unwrap()?;
    assert_eq!(*handle, "value");
    // Each handle gives its pin back to its own shard.
    let cache = Arc::new(sharded::LruCache::<u64, u64>::new(1000)?);
    for key in 0..20 {
        let made = block_on(cache.get_or_init_owned_async(&key, 1, async { key }))?;
        let found = block_on(cache.get_or_try_init_owned_async(&key, 1, async { Err(()) }));
        assert_eq!((*made, found.as_deref()), (key, Ok(&key)));
    }
    assert_eq!((cache.len(), cache.pinned_charge()), (20, 0));
    Ok(())
}

/// A value that is counted.
struct Counted(u64, Arc<AtomicUsize>);

impl Counted {
    fn new(key: u64, alive: &Arc<AtomicUsize>) -> Counted {
        alive.fetch_add(1, SeqCst);
        Counted(key, Arc::clone(alive))
    }
}

impl Drop for Counted {
    fn drop(&mut self) {
        self.1.fetch_sub(1, SeqCst);
    }
}

/// Tasks on several threads, and threads that block, ask for few keys. Futures pause, fail, panic
/// or are dropped after some polls. `$evict` evicts the value of a key if it is idle, and `$at_end`
/// is called when no value has a handle.
macro_rules! random_tasks {
    ($name:ident, $cache:expr, $evict:expr, $at_end:expr) => {
        #[test]
        fn $name() -> Result<(), Refusal> {
            const KEYS: u64 = 6;
            let cache = Arc::new($cache);
            let alive = Arc::new(AtomicUsize::new(0));
            let making = Mutex::new([false; KEYS as usize]);
            // Ends the making of a key, however its future ends.
            struct End<'a>(&'a Mutex<[bool; KEYS as usize]>, usize);
            impl Drop for End<'_> {
                fn drop(&mut self) {
                    self.0.lock().unwrap()[self.1] = false;
                }
            }
            let begin = |key: u64| {
                let mut making = making.lock().unwrap();
                assert!(!making[key as usize], "two make the value of {key}");
                making[key as usize] = true;
            };
            let client = async |seed: usize| {
                for step in 0..300usize {
                    let draw = (step * 31 + seed * 17) ^ (step >> 3);
                    let key = (draw % KEYS as usize) as u64;
                    let init = async {
                        begin(key);
                        let _end = End(&making, key as usize);
                        pause(draw % 4).await;
                        if draw % 7 == 0 {
                            Err(())
                        } else {
                            Ok(Counted::new(key, &alive))
                        }
                    };
                    if draw % 3 == 0 {
                        let asked = cache.get_or_try_init_async(&key, 1, init);
                        if let Some(Ok(handle)) = at_most(draw % 5, asked).await {
                            pause(draw % 2).await;
                            assert_eq!(handle.0, key);
                        }
                    } else {
                        let asked = cache.get_or_try_init_owned_async(&key, 1, init);
                        if let Ok(handle) = asked.await {
                            pause(draw % 2).await;
                            assert_eq!(handle.0, key);
                        }
                    }
                    if draw % 11 == 0 {
                        $evict(&*cache, key);
                    }
                }
            };
            thread::scope(|scope| {
                for thread in 0..3 {
                    let (client, cache, alive) = (&client, &cache, &alive);
                    scope.spawn(move || {
                        let tasks =
                            (0..4).map(|task| Box::pin(client(4 * thread + task)) as Task<'_>);
                        run(tasks.collect());
                    });
                    scope.spawn(move || {
                        for step in 0..1000u64 {
                            let key = step % KEYS;
                            let made = cache.get_or_try_init(&key, 1, |_| match step % 5 {
                                0 => Err(()),
                                _ => Ok(Counted::new(key, alive)),
                            });
                            if let Ok(handle) = made {
                                assert_eq!(handle.0, key);
                            }
                        }
                    });
                }
            });
            assert_eq!(cache.pinned_charge(), 0);
            assert_eq!(cache.len(), alive.load(SeqCst) as u64);
            $at_end(&*cache);
            assert!(u128::from(cache.total_charge()) <= u128::from(cache.capacity()));
            cache.prune();
            assert_eq!((cache.len(), alive.load(SeqCst)), (0, 0));
            Ok(())
        }
    };
}

random_tasks!(
    random_tasks_share_a_cache,
    LruCache::<u64, Counted>::new(3)?,
    |cache: &LruCache<u64, Counted>, key| cache.advice_evict(&key).unwrap(),
    |_| {}
);
random_tasks!(
    random_tasks_share_shards,
    sharded::LruCache::<u64, Counted>::with_shards(3, std::num::NonZeroUsize::new(2).unwrap())?,
    |cache: &sharded::LruCache<u64, Counted>, key| cache.advice_evict(&key).unwrap(),
    |_| {}
);
// Dropping a last handle of a clock evicts down to the capacity, but not if another thread looks
// the value up meanwhile.
random_tasks!(
    random_tasks_share_a_clock,
    clock::Cache::<u64, Counted>::with_shards(3, std::num::NonZeroUsize::new(2).unwrap())?,
    |cache: &clock::Cache<u64, Counted>, _| cache.prune(),
    |cache: &clock::Cache<u64, Counted>| cache.set_capacity(3)
);
