//! Counts of what the calls on a cache have found and done.

use std::time::Duration;

use crate::ffi;
use crate::makings::Loads;

/// What the calls on a cache have found and done since it was created, and what it holds now.
///
/// The values inserted are those present, those evicted and those removed: `insertions` is the sum
/// of `entries`, `evictions` and `removals`. To count from some time on, subtract the numbers of
/// that time.
///
/// # Examples
///
/// ```
/// use concurrent_lru_proved::unsharded::LruCache;
///
/// # fn main() -> Result<(), concurrent_lru_proved::Refusal> {
/// let cache = LruCache::<u64, String>::new(10)?;
/// for key in [7, 8, 7, 7] {
///     cache.get_or_init(&key, 1, |key| key.to_string())?;
/// }
/// let stats = cache.stats();
/// assert_eq!((stats.hits, stats.misses, stats.insertions), (2, 2, 2));
/// assert_eq!(stats.hit_ratio(), Some(0.5));
/// # Ok(())
/// # }
/// ```
#[derive(Debug, Clone, Copy, Default, PartialEq, Eq)]
#[non_exhaustive]
pub struct Stats {
    /// Calls that asked for a value and found it.
    pub hits: u64,
    /// Calls that asked for a value and found none, and did not wait.
    pub misses: u64,
    /// Calls that found the value being made, and waited for it, or were told so by `try_begin`.
    pub waits: u64,
    /// Values that were inserted, or whose making was begun.
    pub insertions: u64,
    /// Values that were evicted.
    pub evictions: u64,
    /// Values whose making failed while no caller waited for them.
    pub removals: u64,
    /// Values that were made, by an `init` or by other holders of a `Maker`.
    pub loads: u64,
    /// Values that could not be made: `init` failed, panicked or was dropped, a `Maker` was, or the
    /// cache refused the charge that was told with the value.
    pub load_failures: u64,
    /// The time that these took in all, from the call that was to make the value until it was made
    /// or could not be made. Zero unless the cache was created `with_load_times`.
    pub load_time: Duration,
    /// Values present, as `len` returns it.
    pub entries: u64,
    /// The total of their charges, as `total_charge` returns it.
    pub charge: u128,
    /// The total of the charges of those that have a handle or are being made, as `pinned_charge`
    /// returns it.
    pub pinned_charge: u128,
    /// The capacity, as `capacity` returns it.
    pub capacity: u128,
}

impl Stats {
    /// Returns the part of the calls that asked for a value and found it: `hits` divided by the sum
    /// of `hits` and `misses`. Returns `None` if both are 0. Calls that waited do not count.
    pub fn hit_ratio(&self) -> Option<f64> {
        let asked = self.hits as f64 + self.misses as f64;
        (asked > 0.0).then(|| self.hits as f64 / asked)
    }

    /// Returns the sums of these numbers and those of another cache, one by one. A sum stays at the
    /// maximum of its type.
    pub fn saturating_add(self, other: Stats) -> Stats {
        Stats {
            hits: self.hits.saturating_add(other.hits),
            misses: self.misses.saturating_add(other.misses),
            waits: self.waits.saturating_add(other.waits),
            insertions: self.insertions.saturating_add(other.insertions),
            evictions: self.evictions.saturating_add(other.evictions),
            removals: self.removals.saturating_add(other.removals),
            loads: self.loads.saturating_add(other.loads),
            load_failures: self.load_failures.saturating_add(other.load_failures),
            load_time: self.load_time.saturating_add(other.load_time),
            entries: self.entries.saturating_add(other.entries),
            charge: self.charge.saturating_add(other.charge),
            pinned_charge: self.pinned_charge.saturating_add(other.pinned_charge),
            capacity: self.capacity.saturating_add(other.capacity),
        }
    }

    pub(crate) fn new(told: ffi::Stats, loads: Loads) -> Stats {
        Stats {
            hits: told.hits,
            misses: told.misses,
            waits: told.waits,
            insertions: told.insertions,
            evictions: told.evictions,
            removals: told.removals,
            loads: loads.made,
            load_failures: loads.failed,
            load_time: loads.time,
            entries: told.entries,
            charge: told.charge.into(),
            pinned_charge: told.pinned_charge.into(),
            capacity: told.capacity.into(),
        }
    }
}
