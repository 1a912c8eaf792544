//! Compares a hit, with the drop of what it returns, and a hit by `read`, of the caches of this
//! crate with a hit of Debian's crate `lru` in a `Mutex`, whose values are cloned `Arc`s: among
//! 1,000 and 100,000 entries, with one thread and with four, by pairs of runs, since a machine that
//! is shared has slow minutes.
//!
//! `clock_bench [ROUNDS]`: by default 301. Rounds are short, so that some are not interrupted.
//!
//! Prints for each cache and call the median of the nanoseconds that it takes on its thread, as
//! `NAME get ENTRIES THREADS NANOSECONDS` or `NAME read ..`, and for those of this crate the median
//! of their ratios, each of a time and the mean of the other's before and after it, and between
//! which ratios half of them lie.

use std::env;
use std::hint::black_box;
use std::num::NonZeroUsize;
use std::sync::{Arc, Barrier, Mutex};
use std::thread;
use std::time::Instant;

use concurrent_lru_proved::{Refusal, clock, sharded, unsharded};
use lru::LruCache;

const HITS: u64 = 10_000;

/// A cache and its call, and what makes all calls of a thread with so many keys, in an order that
/// depends on a seed.
struct System<'a> {
    name: &'static str,
    called: &'static str,
    call_all: Box<dyn Fn(u64, u64) + Sync + 'a>,
}

/// A cache whose call returns the value of a key.
fn system<'a>(
    name: &'static str,
    called: &'static str,
    call: impl Fn(u64) -> Option<u64> + Sync + 'a,
) -> System<'a> {
    let call_all = move |seed: u64, entries| {
        let mut random = seed.wrapping_mul(0x9e37_79b9_7f4a_7c15);
        let mut sum = 0;
        for _ in 0..HITS {
            random ^= random << 13;
            random ^= random >> 7;
            random ^= random << 17;
            sum += call((random >> 11) % entries).expect("each key is there");
        }
        black_box(sum);
    };
    System {
        name,
        called,
        call_all: Box::new(call_all),
    }
}

/// Returns the nanoseconds that a call takes on its thread.
fn time_of_run(system: &System, entries: u64, threads: u64, run: u64) -> f64 {
    let start = Barrier::new(threads as usize);
    let times: Vec<f64> = thread::scope(|scope| {
        let threads: Vec<_> = (1..=threads)
            .map(|thread| {
                let start = &start;
                scope.spawn(move || {
                    start.wait();
                    let begin = Instant::now();
                    (system.call_all)(8 * run + thread, entries);
                    begin.elapsed().as_secs_f64() * 1e9 / HITS as f64
                })
            })
            .collect();
        let ended = threads.into_iter().map(|it| it.join());
        ended.collect::<Result<_, _>>().expect("each key is there")
    });
    times.iter().sum::<f64>() / threads as f64
}

/// The number below which this part of the numbers lies.
fn quantile(numbers: &mut [f64], part: f64) -> f64 {
    numbers.sort_by(f64::total_cmp);
    numbers[(part * (numbers.len() - 1) as f64).round() as usize]
}

/// Runs the first system before and after each run of another one.
fn compare(systems: &[System], entries: u64, threads: u64, rounds: u64) {
    let mut times = vec![Vec::new(); systems.len()];
    let mut ratios = vec![Vec::new(); systems.len()];
    let mut run = 0;
    let mut time_of = |n: usize| {
        run += 1;
        let time = time_of_run(&systems[n], entries, threads, run);
        times[n].push(time);
        time
    };
    let mut before = time_of(0);
    for _ in 0..rounds {
        for (n, ratios) in ratios.iter_mut().enumerate().skip(1) {
            let own = time_of(n);
            let after = time_of(0);
            ratios.push(2.0 * own / (before + after));
            before = after;
        }
    }
    for (System { name, called, .. }, times) in systems.iter().zip(&mut times) {
        let time = quantile(times, 0.5);
        println!("{name} {called} {entries} {threads} {time:.1}");
    }
    for (System { name, called, .. }, ratios) in systems.iter().zip(&mut ratios).skip(1) {
        let (low, high) = (quantile(ratios, 0.25), quantile(ratios, 0.75));
        println!(
            "# {called} {entries} {threads}, {name} to {}: {:.2} (half of them {low:.2} to \
             {high:.2})",
            systems[0].name,
            quantile(ratios, 0.5)
        );
    }
}

fn compare_among(entries: u64, rounds: u64) -> Result<(), Refusal> {
    // Twice as many fit, as shards are not filled evenly.
    let shards = NonZeroUsize::MIN.saturating_add(15);
    let clock = clock::Cache::<u64, u64>::with_shards(2 * entries, shards)?;
    let sharded = sharded::LruCache::<u64, u64>::with_shards(2 * entries, shards)?;
    let unsharded = unsharded::LruCache::<u64, u64>::new(2 * entries)?;
    let mut lru = LruCache::new(2 * entries as usize);
    for key in 0..entries {
        clock.insert(&key, 1, key)?;
        sharded.insert(&key, 1, key)?;
        unsharded.insert(&key, 1, key)?;
        lru.put(key, Arc::new(key));
    }
    let lru = Mutex::new(lru);
    let systems = [
        system("mutex-lru", "get", |key| {
            let value = lru.lock().ok()?.get(&key).cloned()?;
            Some(*value)
        }),
        system("rust-clock", "get", |key| {
            clock.get(&key).ok()?.map(|handle| *handle)
        }),
        system("rust-clock", "read", |key| {
            clock.read(&key, |value| *value).ok()?
        }),
        system("rust-unsharded", "get", |key| {
            unsharded.get(&key).ok()?.map(|handle| *handle)
        }),
        system("rust-unsharded", "read", |key| {
            unsharded.read(&key, |value| *value).ok()?
        }),
        system("rust-sharded", "get", |key| {
            sharded.get(&key).ok()?.map(|handle| *handle)
        }),
        system("rust-sharded", "read", |key| {
            sharded.read(&key, |value| *value).ok()?
        }),
    ];
    for threads in [1, 4] {
        compare(&systems, entries, threads, rounds);
    }
    Ok(())
}

fn main() -> Result<(), Refusal> {
    let rounds = env::args().nth(1).map_or(Ok(301), |word| word.parse());
    let Ok(rounds @ 1..) = rounds else {
        eprintln!("usage: clock_bench [ROUNDS]");
        std::process::exit(2);
    };
    compare_among(1_000, rounds)?;
    compare_among(100_000, rounds)
}
