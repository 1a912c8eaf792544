//! Measures a miss while 0, 10 and 100 threads wait for the slow value of another key, as
//! `wait_bench.cc` does for C++. Prints nanoseconds per miss, the least of all rounds, and its
//! ratio to that with none waiting. Rounds are short, so that some of them are not interrupted.

use std::sync::Barrier;
use std::thread;
use std::time::Instant;

use concurrent_lru_proved::Refusal;
use concurrent_lru_proved::unsharded::LruCache;

const ROUNDS: u64 = 500;
const MISSES: u64 = 500;

/// Nanoseconds per miss of keys that nobody waits for, in the shortest round.
fn time_per_miss(waiting: u64) -> Result<f64, Refusal> {
    let cache = LruCache::<(u64, u64), u64>::new(1000)?;
    let slow = (1, 0);
    let making = Barrier::new(2);
    thread::scope(|scope| {
        scope.spawn(|| {
            cache.get_or_init(&slow, 1, |_| {
                making.wait();
                making.wait();
                1
            })
        });
        making.wait();
        for _ in 0..waiting {
            scope.spawn(|| cache.get_or_init(&slow, 1, |_| 2));
        }
        while cache.stats().waits < waiting {
            thread::yield_now();
        }
        let mut least = f64::MAX;
        for round in 2..2 + ROUNDS {
            let start = Instant::now();
            for number in 0..MISSES {
                cache.get_or_init(&(round, number), 1, |_| 3)?;
            }
            least = least.min(start.elapsed().as_secs_f64());
        }
        making.wait();
        Ok(least * 1e9 / MISSES as f64)
    })
}

fn main() -> Result<(), Refusal> {
    let alone = time_per_miss(0)?;
    for waiting in [0, 10, 100] {
        let time = time_per_miss(waiting)?;
        let ratio = time / alone;
        println!("{waiting:3} waiting: {time:.0} ns a miss, {ratio:.2}");
    }
    Ok(())
}
