//! Times *read_mostly* in Rust: `get_or_init` of keys of 200,000, drawn by Zipf's law with the
//! exponent 0.99 as `clock_bench.cc` draws them, on caches that have room for 100,000 entries of
//! charge 1 in 16 shards. Beside them, the same calls on Debian's crate `lru` in one `Mutex`, whose
//! values are `Arc`s that are cloned.
//!
//! `read_mostly [ROUNDS]`: by default 9, in each of which each cache is filled anew.
//!
//! Prints for each cache, with 1, 2, 4 and 8 threads, the median time of a call of all threads
//! together, as `NAME read_mostly_16 100000 THREADS NANOSECONDS`, and the median hit ratio, as
//! `# hits NAME read_mostly_16 100000 THREADS RATIO`.

use std::env;
use std::hint::black_box;
use std::num::NonZeroUsize;
use std::sync::{Arc, Mutex};
use std::thread;
use std::time::Instant;

use concurrent_lru_proved::{Refusal, clock, sharded};
use lru::LruCache;

const KEYS: u64 = 200_000;
const CAPACITY: u64 = 100_000;
const SHARDS: NonZeroUsize = NonZeroUsize::MIN.saturating_add(15);
const DRAWS: usize = 1 << 20;

/// How many calls each thread makes, and how many draws lie between the first ones of two threads.
const CALLS: usize = 300_000;
const STRIDE: usize = 131_072;

fn draw() -> Vec<u64> {
    let mut total = 0.0;
    let totals: Vec<f64> = (1..=KEYS)
        .map(|rank| {
            total += (rank as f64).powf(-0.99);
            total
        })
        .collect();
    let mut x = 1_u64;
    (0..DRAWS)
        .map(|_| {
            x = x
                .wrapping_mul(6_364_136_223_846_793_005)
                .wrapping_add(1_442_695_040_888_963_407);
            let part = (x >> 11) as f64 / 9_007_199_254_740_992.0;
            let rank = totals.partition_point(|it| *it <= part * total) as u64;
            // The ranks of neighbours differ, so that keys that are often drawn lie far apart.
            rank.min(KEYS - 1) * 130_363 % KEYS
        })
        .collect()
}

struct Measured {
    nanoseconds: f64,
    hit_ratio: f64,
}

/// Fills a cache by calls of all keys, and measures the calls of so many threads. A call returns
/// whether its key was there.
fn measure(
    keys: &[u64],
    threads: usize,
    call: impl Fn(u64) -> Result<bool, Refusal> + Sync,
) -> Result<Measured, Refusal> {
    for &key in keys {
        call(key)?;
    }
    let call_all = |thread: usize| {
        let (last, first) = keys.split_at(thread * STRIDE % keys.len());
        let asked = first.iter().chain(last).take(CALLS);
        asked.map(|&key| call(key).map(u64::from)).sum()
    };
    let begin = Instant::now();
    let hits: Result<u64, Refusal> = thread::scope(|scope| {
        let call_all = &call_all;
        let threads: Vec<_> = (0..threads)
            .map(|thread| scope.spawn(move || -> Result<u64, Refusal> { call_all(thread) }))
            .collect();
        let ended = threads.into_iter().map(|it| it.join());
        ended.map(|it| it.expect("no call panics")).sum()
    });
    let calls = (threads * CALLS) as f64;
    Ok(Measured {
        nanoseconds: begin.elapsed().as_secs_f64() * 1e9 / calls,
        hit_ratio: hits? as f64 / calls,
    })
}

fn on_clock(keys: &[u64], threads: usize) -> Result<Measured, Refusal> {
    let cache = clock::Cache::<u64, u64>::with_shards(CAPACITY, SHARDS)?;
    measure(keys, threads, |key| {
        let mut is_hit = true;
        black_box(*cache.get_or_init(&key, 1, |key| {
            is_hit = false;
            *key
        })?);
        Ok(is_hit)
    })
}

fn on_sharded(keys: &[u64], threads: usize) -> Result<Measured, Refusal> {
    let cache = sharded::LruCache::<u64, u64>::with_shards(CAPACITY, SHARDS)?;
    measure(keys, threads, |key| {
        let mut is_hit = true;
        black_box(*cache.get_or_init(&key, 1, |key| {
            is_hit = false;
            *key
        })?);
        Ok(is_hit)
    })
}

fn on_mutex(keys: &[u64], threads: usize) -> Result<Measured, Refusal> {
    let cache = Mutex::new(LruCache::new(CAPACITY as usize));
    measure(keys, threads, |key| {
        let mut cache = cache.lock().expect("no call panics");
        let found = cache.get(&key).cloned();
        let value = found.clone().unwrap_or_else(|| {
            let value = Arc::new(key);
            cache.put(key, Arc::clone(&value));
            value
        });
        drop(cache);
        black_box(*value);
        Ok(found.is_some())
    })
}

type Measure = fn(&[u64], usize) -> Result<Measured, Refusal>;

const SYSTEMS: [(&str, Measure); 3] = [
    ("rust-clock", on_clock),
    ("rust-sharded", on_sharded),
    ("mutex-lru", on_mutex),
];

fn median(mut numbers: Vec<f64>) -> f64 {
    numbers.sort_by(f64::total_cmp);
    numbers[numbers.len() / 2]
}

fn main() -> Result<(), Refusal> {
    let rounds = env::args().nth(1).map_or(Ok(9), |word| word.parse());
    let Ok(rounds @ 1..) = rounds else {
        eprintln!("usage: read_mostly [ROUNDS]");
        std::process::exit(2);
    };
    let keys = draw();
    for threads in [1, 2, 4, 8] {
        let mut measured = SYSTEMS.map(|_| Vec::new());
        for _ in 0..rounds {
            for ((_, measure), measured) in SYSTEMS.iter().zip(&mut measured) {
                measured.push(measure(&keys, threads)?);
            }
        }
        for ((name, _), measured) in SYSTEMS.iter().zip(&measured) {
            let time = median(measured.iter().map(|it| it.nanoseconds).collect());
            let ratio = median(measured.iter().map(|it| it.hit_ratio).collect());
            println!("{name} read_mostly_16 {CAPACITY} {threads} {time:.1}");
            println!("# hits {name} read_mostly_16 {CAPACITY} {threads} {ratio:.3}");
        }
    }
    Ok(())
}
