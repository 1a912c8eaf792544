//! Eight clients make ten thousand requests to each kind of cache, as tasks of tokio on four
//! threads. Loaders fail, requests time out or are aborted, and blocking threads ask for the same
//! keys. Prints one line. A check that fails panics.

use std::error::Error;
use std::sync::Arc;
use std::sync::atomic::{AtomicBool, AtomicU64, Ordering::SeqCst};
use std::time::Duration;

use concurrent_lru_proved::{GetError, clock, sharded, unsharded};
use tokio::{runtime, task, time};

const CLIENTS: u64 = 8;
const REQUESTS: u64 = 10_000;
const KEYS: u64 = 32;
const CAPACITY: u64 = 20;

/// What the clients share besides a cache.
#[derive(Default)]
struct Ledger {
    alive: AtomicU64,
    is_making: [AtomicBool; KEYS as usize],
    found: AtomicU64,
    failed: AtomicU64,
    timed_out: AtomicU64,
    aborted: AtomicU64,
}

struct Value(u64, Arc<Ledger>);

impl Drop for Value {
    fn drop(&mut self) {
        self.1.alive.fetch_sub(1, SeqCst);
    }
}

/// The making of a key's value. There must be one at a time, however the last one ended.
struct Making(u64, Arc<Ledger>);

impl Making {
    fn new(key: u64, ledger: &Arc<Ledger>) -> Making {
        let was_making = ledger.is_making[key as usize].swap(true, SeqCst);
        assert!(!was_making, "two make the value of {key}");
        Making(key, Arc::clone(ledger))
    }

    fn end(self) -> Value {
        self.1.alive.fetch_add(1, SeqCst);
        Value(self.0, Arc::clone(&self.1))
    }
}

impl Drop for Making {
    fn drop(&mut self) {
        self.1.is_making[self.0 as usize].store(false, SeqCst);
    }
}

async fn load(key: u64, draw: u64, ledger: Arc<Ledger>) -> Result<Value, u64> {
    let making = Making::new(key, &ledger);
    match draw % 4 {
        0 => task::yield_now().await,
        1 => time::sleep(Duration::from_micros(draw % 2000)).await,
        _ => {}
    }
    if draw % 7 == 0 {
        Err(key)
    } else {
        Ok(making.end())
    }
}

/// All kinds of caches have the same calls. `$waits` is called at the end, and returns how many
/// calls waited, if the cache counts them.
macro_rules! clients {
    ($name:ident, $cache:ty, $waits:expr) => {
        async fn request(cache: Arc<$cache>, draw: u64, ledger: Arc<Ledger>) {
            let key = draw / 8 % KEYS;
            let load = load(key, draw, Arc::clone(&ledger));
            match cache.get_or_try_init_owned_async(&key, 1, load).await {
                Ok(handle) => {
                    task::yield_now().await;
                    assert_eq!(handle.0, key);
                    ledger.found.fetch_add(1, SeqCst);
                }
                Err(GetError::Init(of)) => {
                    assert_eq!(of, key);
                    ledger.failed.fetch_add(1, SeqCst);
                }
                Err(GetError::Refused(refusal)) => panic!("{refusal}"),
            }
        }

        async fn client(cache: Arc<$cache>, number: u64, ledger: Arc<Ledger>) {
            let mut random = number;
            for _ in 0..REQUESTS / CLIENTS {
                random = random
                    .wrapping_mul(0x5851_f42d_4c95_7f2d)
                    .wrapping_add(2 * number + 1);
                let draw = random >> 33;
                let request = request(Arc::clone(&cache), draw, Arc::clone(&ledger));
                match draw % 8 {
                    0 | 1 => {
                        let limit = Duration::from_micros(draw % 1500);
                        if time::timeout(limit, request).await.is_err() {
                            ledger.timed_out.fetch_add(1, SeqCst);
                        }
                    }
                    2 => {
                        let request = task::spawn(request);
                        task::yield_now().await;
                        request.abort();
                        match request.await {
                            Ok(()) => {}
                            Err(error) => {
                                assert!(error.is_cancelled());
                                ledger.aborted.fetch_add(1, SeqCst);
                            }
                        }
                    }
                    3 => {
                        let (cache, ledger) = (Arc::clone(&cache), Arc::clone(&ledger));
                        let key = draw / 8 % KEYS;
                        let blocking = task::spawn_blocking(move || {
                            let made =
                                cache.get_or_init(&key, 1, |_| Making::new(key, &ledger).end());
                            assert_eq!(made.map(|value| value.0), Ok(key));
                            ledger.found.fetch_add(1, SeqCst);
                        });
                        blocking.await.unwrap();
                    }
                    _ => request.await,
                }
            }
        }

        let ledger = Arc::new(Ledger::default());
        let cache = Arc::new($name);
        let mut clients = Vec::new();
        for number in 0..CLIENTS {
            clients.push(task::spawn(client(
                Arc::clone(&cache),
                number,
                Arc::clone(&ledger),
            )));
        }
        for client in clients {
            client.await?;
        }
        assert_eq!(u128::from(cache.pinned_charge()), 0);
        let waits: Option<u64> = $waits(&*cache);
        assert!(u128::from(cache.total_charge()) <= u128::from(cache.capacity()));
        assert_eq!(cache.len(), ledger.alive.load(SeqCst));
        let stats = cache.stats();
        cache.prune();
        assert_eq!((cache.len(), ledger.alive.load(SeqCst)), (0, 0));
        let ends = [
            &ledger.found,
            &ledger.failed,
            &ledger.timed_out,
            &ledger.aborted,
        ];
        let ends = ends.map(|end| end.load(SeqCst));
        assert_eq!(ends.iter().sum::<u64>(), REQUESTS / CLIENTS * CLIENTS);
        assert!(ends.iter().all(|end| *end > 10), "{ends:?}");
        assert!(stats.loads > 10 && stats.load_failures > ends[1]);
        assert!(waits.is_none_or(|waits| waits > 10));
        println!(
            "{}: found, failed, timed out, aborted {ends:?}; waited {waits:?}",
            stringify!($cache)
        );
    };
}

async fn all() -> Result<(), Box<dyn Error>> {
    {
        let cache = unsharded::LruCache::<u64, Value>::new(CAPACITY)?;
        clients!(
            cache,
            unsharded::LruCache<u64, Value>,
            |cache: &unsharded::LruCache<u64, Value>| Some(cache.stats().waits)
        );
    }
    {
        let shards = std::num::NonZeroUsize::new(4).unwrap();
        let cache = sharded::LruCache::<u64, Value>::with_shards(CAPACITY, shards)?;
        clients!(
            cache,
            sharded::LruCache<u64, Value>,
            |cache: &sharded::LruCache<u64, Value>| Some(cache.stats().waits)
        );
    }
    {
        let shards = std::num::NonZeroUsize::new(4).unwrap();
        let cache = clock::Cache::<u64, Value>::with_shards(CAPACITY, shards)?;
        clients!(
            cache,
            clock::Cache<u64, Value>,
            |cache: &clock::Cache<u64, Value>| {
                // A last release evicts nothing if another thread looks the value up meanwhile.
                cache.set_capacity(CAPACITY);
                None
            }
        );
    }
    Ok(())
}

fn main() -> Result<(), Box<dyn Error>> {
    let mut builder = runtime::Builder::new_multi_thread();
    builder
        .worker_threads(4)
        .enable_time()
        .build()?
        .block_on(all())
}
