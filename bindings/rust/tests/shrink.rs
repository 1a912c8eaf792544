//! Tests that the memory of the tables can be had back. There is one test in this file, as it
//! counts the memory of the whole program.
#![cfg(target_env = "gnu")]

use concurrent_lru_proved::unsharded::LruCache;
use concurrent_lru_proved::{Refusal, sharded};

/// What glibc tells about the memory that malloc has given out.
#[repr(C)]
struct Mallinfo2 {
    before: [usize; 4],
    /// The bytes of blocks that have mappings of their own.
    hblkhd: usize,
    between: [usize; 2],
    /// The bytes of all other blocks.
    uordblks: usize,
    after: [usize; 2],
}

unsafe extern "C" {
    fn mallinfo2() -> Mallinfo2;
}

fn allocated() -> usize {
    // SAFETY: it only reads what malloc knows.
    let told = unsafe { mallinfo2() };
    told.hblkhd + told.uordblks
}

const VALUES: u64 = 10_000;
/// The least that the tables take for so many values.
const TABLES: usize = 48 * VALUES as usize;

#[test]
fn empty_tables_are_given_back() -> Result<(), Refusal> {
    let cache = LruCache::<u64, u64>::new(VALUES)?;
    let before = allocated();
    for round in 1..=2 {
        for key in 0..VALUES {
            cache.get_or_init(&key, 1, |key| *key)?;
        }
        let held = cache.get(&7)?;
        assert!(!cache.shrink_to_fit()?);
        cache.prune();
        assert!(!cache.shrink_to_fit()?);
        assert_eq!(held.as_deref(), Some(&7));
        drop(held);
        cache.prune();
        let pruned = allocated();
        assert!(pruned > before + TABLES);
        let stats = cache.stats();
        assert_eq!((stats.misses, stats.hits), (round * VALUES, round));
        assert_eq!(
            (stats.insertions, stats.loads),
            (round * VALUES, round * VALUES)
        );
        assert!(cache.shrink_to_fit()?);
        assert!(allocated() < before + TABLES / 10);
        // What was counted stays.
        assert_eq!(cache.stats(), stats);
    }
    assert!(!cache.contains(&7)?);

    let shards = sharded::LruCache::<u64, u64>::new(VALUES)?;
    let before = allocated();
    shards.reserve(VALUES as usize)?;
    assert!(allocated() > before + TABLES);
    let held = shards.insert(&7, 1, 70)?;
    assert!(!shards.shrink_to_fit()?);
    // All other shards have given theirs back.
    assert!(allocated() < before + TABLES / 4);
    drop(held);
    shards.prune();
    assert!(shards.shrink_to_fit()?);
    assert!(allocated() < before + TABLES / 10);
    Ok(())
}
