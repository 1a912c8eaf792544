//! The workloads of `lru_bench run` on the cache of the original crate: `run WORKLOAD ENTRIES
//! CALLS` prints the same sum as that program does.

use concurrent_lru::unsharded::LruCache;
use std::env;
use std::process::ExitCode;

type Cache = LruCache<u64, u64>;

/// The first key that no cache is filled with.
const FIRST_ABSENT: u64 = 10_000_000;

/// The keys below a number of entries that the worker of a number draws.
fn draws(entries: u64, worker: u64) -> impl Iterator<Item = u64> {
    let mut state = worker * 77 + 1;
    std::iter::from_fn(move || {
        state = state
            .wrapping_mul(6_364_136_223_846_793_005)
            .wrapping_add(1_442_695_040_888_963_407);
        Some((state >> 33) % entries)
    })
}

fn get(cache: &Cache, key: u64) -> u64 {
    cache.get(key).map_or(0, |handle| *handle.value())
}

fn get_or_init(cache: &Cache, key: u64) -> u64 {
    *cache.get_or_init(key, 1, |key| *key).value()
}

/// Makes the call on each key, and returns the sum of the values.
fn sum(
    cache: &Cache,
    keys: impl Iterator<Item = u64>,
    call: impl Fn(&Cache, u64) -> u64,
) -> u64 {
    keys.fold(0, |sum, key| sum.wrapping_add(call(cache, key)))
}

fn run(workload: &str, entries: u64, calls: u64) -> Option<u64> {
    let cache = Cache::new(entries);
    sum(&cache, 0..entries, get_or_init);
    let before = draws(entries, 1).take(2 * entries as usize);
    sum(&cache, before, get_or_init);
    let present = draws(entries, 0).take(calls as usize);
    match workload {
        "hit_get" => Some(sum(&cache, present, get)),
        "hit_init" => Some(sum(&cache, present, get_or_init)),
        "miss_evict" => {
            let absent = FIRST_ABSENT..FIRST_ABSENT + calls;
            Some(sum(&cache, absent, get_or_init))
        }
        _ => None,
    }
}

/// The sum that the arguments ask for.
fn asked() -> Option<u64> {
    let words: Vec<String> = env::args().skip(1).collect();
    let [command, workload, entries, calls] = words.as_slice() else {
        return None;
    };
    let (entries, calls) = (entries.parse().ok()?, calls.parse().ok()?);
    (command == "run" && entries > 0).then(|| run(workload, entries, calls))?
}

fn main() -> ExitCode {
    match asked() {
        Some(sum) => {
            println!("{sum}");
            ExitCode::SUCCESS
        }
        None => {
            eprintln!("usage: run hit_get|hit_init|miss_evict ENTRIES CALLS");
            ExitCode::from(2)
        }
    }
}
