//! A cache of several shards, each behind its own lock.

use std::borrow::Borrow;
use std::fmt;
use std::hash::{BuildHasher, Hash, RandomState};
use std::mem::ManuallyDrop;
use std::num::NonZeroUsize;
use std::ops::Deref;
use std::ptr::{self, NonNull};
use std::sync::Arc;

use crate::entry::EntryRef;
use crate::error::{GetError, Refusal};
use crate::ffi::Pin;
use crate::form::Written;
use crate::key::Key;
use crate::leaving::{Leaving, Listener};
use crate::makings;
use crate::proved::random_seed;
use crate::stats::Stats;
use crate::unsharded;

/// Returns a good number of shards for a cache with this capacity whose values have about this
/// charge: the most, from 1 to 16, that leave each shard room for 32 values.
///
/// A charge of 0 counts as 1.
///
/// # Examples
///
/// ```
/// use concurrent_lru_proved::sharded::shards_for;
///
/// assert_eq!(shards_for(1000, 1).get(), 16);
/// assert_eq!(shards_for(1 << 20, 4096).get(), 8);
/// assert_eq!(shards_for(10_000, 4096).get(), 1);
/// ```
pub fn shards_for(capacity: u64, charge: u64) -> NonZeroUsize {
    let values = capacity / charge.max(1);
    let shards = (values / 32).clamp(1, 16);
    // It fits, and is not 0.
    NonZeroUsize::new(shards as usize).unwrap_or(NonZeroUsize::MIN)
}

/// A cache of heavy values that threads share, in several shards.
///
/// Each shard is an [`unsharded::LruCache`] with its own lock and an equal share of the capacity,
/// rounded up. The hasher chooses the shard of a key. Threads contend less, but a value is evicted
/// when its own shard is full. A shard whose share is smaller than a value's charge does not keep
/// that value once it is idle. So if charges are larger than 1, say about how large they are, by
/// [`LruCache::with_typical_charge`].
///
/// # Examples
///
/// ```
/// use concurrent_lru_proved::sharded::LruCache;
///
/// # fn main() -> Result<(), concurrent_lru_proved::Refusal> {
/// let cache = LruCache::<u64, String>::new(1000)?;
/// let handle = cache.get_or_init(&7, 1, |key| key.to_string())?;
/// assert_eq!(*handle, "7");
/// # Ok(())
/// # }
/// ```
pub struct LruCache<K: Key + ?Sized, V, S = RandomState> {
    shards: Box<[unsharded::LruCache<K, V>]>,
    hasher: S,
}

impl<K: Key + ?Sized, V> LruCache<K, V> {
    /// Creates an empty cache with the number of shards that [`shards_for`] returns for charges of
    /// 1: 16 from a capacity of 512 on, and less below. It stays the same if the capacity is set
    /// later.
    ///
    /// The type of the keys must be named, as in [`unsharded::LruCache::new`].
    ///
    /// # Errors
    ///
    /// [`Refusal::Memory`] if there is no memory for the cache.
    pub fn new(capacity: u64) -> Result<Self, Refusal> {
        LruCache::with_typical_charge(capacity, 1)
    }

    /// Creates an empty cache with the number of shards that [`shards_for`] returns for charges of
    /// about this size, which is 1 for [`LruCache::new`].
    ///
    /// # Errors
    ///
    /// [`Refusal::Memory`] if there is no memory for the cache.
    ///
    /// # Examples
    ///
    /// ```
    /// use concurrent_lru_proved::sharded::LruCache;
    ///
    /// # fn main() -> Result<(), concurrent_lru_proved::Refusal> {
    /// const PAGE: u64 = 4096;
    /// let pages = LruCache::<u64, Vec<u8>>::with_typical_charge(100_000, PAGE)?; // bytes
    /// pages.insert(&7, PAGE, vec![0; 4096])?;
    /// assert!(pages.contains(&7)?);
    /// # Ok(())
    /// # }
    /// ```
    pub fn with_typical_charge(capacity: u64, charge: u64) -> Result<Self, Refusal> {
        LruCache::with_shards(capacity, shards_for(capacity, charge))
    }

    /// Creates an empty cache with the given number of shards.
    ///
    /// # Errors
    ///
    /// [`Refusal::Memory`] if there is no memory for the cache.
    pub fn with_shards(capacity: u64, shards: NonZeroUsize) -> Result<Self, Refusal> {
        LruCache::with_shards_hasher(capacity, shards, RandomState::new())
    }
}

impl<K: Key + ?Sized, V, S> LruCache<K, V, S> {
    /// Creates an empty cache with the given number of shards and hasher. The hasher only chooses
    /// the shard of a key: within the shards, keys are hashed with a random seed.
    ///
    /// # Errors
    ///
    /// [`Refusal::Memory`] if there is no memory for the cache.
    pub fn with_shards_hasher(
        capacity: u64,
        shards: NonZeroUsize,
        hasher: S,
    ) -> Result<Self, Refusal> {
        LruCache::with_seed(capacity, shards, hasher, random_seed())
    }

    /// Creates an empty cache with the given number of shards, hasher and seed, for tests that must
    /// be the same in each run. Each shard adds its number to the seed, and hashes keys with the
    /// sum, as a cache made by [`unsharded::LruCache::with_seed`] does.
    ///
    /// # Errors
    ///
    /// [`Refusal::Memory`] if there is no memory for the cache.
    pub fn with_seed(
        capacity: u64,
        shards: NonZeroUsize,
        hasher: S,
        seed: u64,
    ) -> Result<Self, Refusal> {
        let share = share(capacity, shards.get());
        let shards: Result<_, Refusal> = (0..shards.get() as u64)
            .map(|shard| unsharded::LruCache::with_seed(share, seed.wrapping_add(shard)))
            .collect();
        Ok(LruCache {
            shards: shards?,
            hasher,
        })
    }

    /// Has `listener` told of each value that leaves the cache, as
    /// [`unsharded::LruCache::with_listener`] does. Threads may call it at the same time.
    #[must_use]
    pub fn with_listener(
        self,
        listener: impl Fn(Leaving<'_, V, Written<'_, K::Form>>) + Send + Sync + 'static,
    ) -> Self {
        let listener: Listener<K::Form, V> = Arc::new(listener);
        let shards = self.shards.into_iter();
        LruCache {
            shards: shards
                .map(|shard| shard.with_shared_listener(Arc::clone(&listener)))
                .collect(),
            hasher: self.hasher,
        }
    }

    /// Also measures how long it takes to make values, as
    /// [`unsharded::LruCache::with_load_times`] does.
    #[must_use]
    pub fn with_load_times(self) -> Self {
        let shards = self.shards.into_iter();
        LruCache {
            shards: shards.map(unsharded::LruCache::with_load_times).collect(),
            hasher: self.hasher,
        }
    }

    /// Makes room for `entries` values, an equal share in each shard, as
    /// [`unsharded::LruCache::reserve`] does.
    ///
    /// # Errors
    ///
    /// As [`unsharded::LruCache::reserve`]. The shards before the one that refused have room then.
    pub fn reserve(&self, entries: usize) -> Result<(), Refusal> {
        let share = entries.div_ceil(self.shards.len());
        self.shards
            .iter()
            .try_for_each(|shard| shard.reserve(share))
    }

    /// Gives back the memory of the tables of each shard that has no value, as
    /// [`unsharded::LruCache::shrink_to_fit`] does, and returns whether all of them did.
    ///
    /// # Errors
    ///
    /// As [`unsharded::LruCache::shrink_to_fit`]. The shards before the one that refused have been
    /// served then.
    pub fn shrink_to_fit(&self) -> Result<bool, Refusal> {
        let mut all = true;
        for shard in &self.shards {
            all &= shard.shrink_to_fit()?;
        }
        Ok(all)
    }

    /// Evicts every idle value, one shard after another.
    pub fn prune(&self) {
        for shard in &self.shards {
            shard.prune();
        }
    }

    /// Takes the value of every key away, one shard after another, as
    /// [`unsharded::LruCache::clear`] does. What other threads insert meanwhile may stay.
    ///
    /// # Errors
    ///
    /// As [`unsharded::LruCache::clear`]. The shards before the one that refused are cleared then.
    pub fn clear(&self) -> Result<(), Refusal> {
        self.shards.iter().try_for_each(|shard| shard.clear())
    }

    /// Takes the values away for which `keep` returns `false`, one shard after another, as
    /// [`unsharded::LruCache::retain`] does, each with its own lock held. What other threads insert
    /// meanwhile may stay.
    ///
    /// # Errors
    ///
    /// As [`unsharded::LruCache::retain`]. From the shards before the one that refused, values have
    /// left then; so they have if `keep` panics.
    pub fn retain(
        &self,
        mut keep: impl FnMut(Written<'_, K::Form>, &V, u64) -> bool,
    ) -> Result<(), Refusal> {
        self.shards
            .iter()
            .try_for_each(|shard| shard.retain(&mut keep))
    }

    /// Calls `visit` for each value that its key finds, as the cache behind one lock does, one
    /// shard after another, each with its own lock held.
    ///
    /// # Panics
    ///
    /// As [`unsharded::LruCache::for_each`].
    pub fn for_each(&self, mut visit: impl FnMut(EntryRef<'_, V, Written<'_, K::Form>>)) {
        for shard in &self.shards {
            shard.for_each(&mut visit);
        }
    }

    /// Returns the number of values, including those that are being made, and those that were
    /// invalidated or replaced and still have a handle. The shards are read one after another, so
    /// it is no snapshot if other threads call the cache.
    pub fn len(&self) -> u64 {
        self.shards.iter().map(|shard| shard.len()).sum()
    }

    /// Returns whether [`len`](Self::len) is 0.
    pub fn is_empty(&self) -> bool {
        self.len() == 0
    }

    /// Returns the total of the charges of these values. No snapshot, as [`len`](Self::len).
    pub fn total_charge(&self) -> u128 {
        let totals = self.shards.iter().map(|shard| shard.total_charge());
        totals.map(u128::from).sum()
    }

    /// Returns the total of the charges of the values that have a handle or are being made. No
    /// snapshot, as [`len`](Self::len).
    pub fn pinned_charge(&self) -> u128 {
        let charges = self.shards.iter().map(|shard| shard.pinned_charge());
        charges.map(u128::from).sum()
    }

    /// Returns the total of the capacities of all shards. Rounding may make it more than the
    /// capacity that was set.
    pub fn capacity(&self) -> u128 {
        let capacities = self.shards.iter().map(|shard| shard.capacity());
        capacities.map(u128::from).sum()
    }

    /// Returns the sums of the counts of all shards, as [`unsharded::LruCache::stats`] returns them
    /// of each. No snapshot, as [`len`](Self::len).
    pub fn stats(&self) -> Stats {
        let stats = self.shards.iter().map(|shard| shard.stats());
        stats.fold(Stats::default(), Stats::saturating_add)
    }

    /// Sets the capacity, of which each shard gets an equal share, rounded up. Idle values that
    /// exceed it are evicted at once.
    pub fn set_capacity(&self, capacity: u64) {
        let share = share(capacity, self.shards.len());
        for shard in &self.shards {
            shard.set_capacity(share);
        }
    }

    /// Sets whether the capacity of each shard is a strict limit, one shard after another, as
    /// [`unsharded::LruCache::set_strict_limit`] does. A value has no room if its own shard has
    /// none.
    pub fn set_strict_limit(&self, strict: bool) {
        for shard in &self.shards {
            shard.set_strict_limit(strict);
        }
    }

    /// Returns whether the capacity of every shard is a strict limit. No snapshot, as
    /// [`len`](Self::len).
    pub fn is_limit_strict(&self) -> bool {
        self.shards.iter().all(|shard| shard.is_limit_strict())
    }
}

impl<K: Key + ?Sized, V, S: BuildHasher> LruCache<K, V, S> {
    /// Returns a handle of the key's value, or `None` if there is no value or it is still being
    /// made. Does not wait.
    ///
    /// # Errors
    ///
    /// As [`unsharded::LruCache::get`].
    #[inline]
    pub fn get<Q>(&self, key: &Q) -> Result<Option<CacheHandle<'_, K, V>>, Refusal>
    where
        K: Borrow<Q>,
        Q: Key<Form = K::Form> + Hash + ?Sized,
    {
        let found = self.shard(key).get(key)?;
        Ok(found.map(CacheHandle))
    }

    /// Does what [`get`](Self::get) does. This is its name in the caches in Rattle.
    ///
    /// # Errors
    ///
    /// As [`get`](Self::get).
    #[inline]
    pub fn find<Q>(&self, key: &Q) -> Result<Option<CacheHandle<'_, K, V>>, Refusal>
    where
        K: Borrow<Q>,
        Q: Key<Form = K::Form> + Hash + ?Sized,
    {
        self.get(key)
    }

    /// Calls `reader` with the key's value, and returns its result, or `None` if there is no value
    /// or it is still being made. Does not wait. The lock of the shard is held meanwhile, so
    /// `reader` must not call the cache or drop a handle of it.
    ///
    /// # Errors
    ///
    /// As [`unsharded::LruCache::read`].
    pub fn read<Q, T>(&self, key: &Q, reader: impl FnOnce(&V) -> T) -> Result<Option<T>, Refusal>
    where
        K: Borrow<Q>,
        Q: Key<Form = K::Form> + Hash + ?Sized,
    {
        self.shard(key).read(key, reader)
    }

    /// Returns a handle of the key's value. If there is none, `init` makes it, while other callers
    /// that ask for the key wait.
    ///
    /// # Errors
    ///
    /// As [`unsharded::LruCache::get_or_init`].
    pub fn get_or_init<Q>(
        &self,
        key: &Q,
        charge: u64,
        init: impl FnOnce(&Q) -> V,
    ) -> Result<CacheHandle<'_, K, V>, Refusal>
    where
        K: Borrow<Q>,
        Q: Key<Form = K::Form> + Hash + ?Sized,
    {
        let handle = self.shard(key).get_or_init(key, charge, init)?;
        Ok(CacheHandle(handle))
    }

    /// Returns a handle of the key's value. If there is none, `init` makes it, while other callers
    /// that ask for the key wait; if it fails, one of them makes the value.
    ///
    /// # Errors
    ///
    /// As [`unsharded::LruCache::get_or_try_init`].
    pub fn get_or_try_init<Q, E>(
        &self,
        key: &Q,
        charge: u64,
        init: impl FnOnce(&Q) -> Result<V, E>,
    ) -> Result<CacheHandle<'_, K, V>, GetError<E>>
    where
        K: Borrow<Q>,
        Q: Key<Form = K::Form> + Hash + ?Sized,
    {
        let handle = self.shard(key).get_or_try_init(key, charge, init)?;
        Ok(CacheHandle(handle))
    }

    /// Returns a handle of the key's value. If there is none, `init` makes it, and returns it with
    /// its charge, while other callers that ask for the key wait.
    ///
    /// # Errors
    ///
    /// As [`unsharded::LruCache::get_or_init_with`].
    pub fn get_or_init_with<Q>(
        &self,
        key: &Q,
        init: impl FnOnce(&Q) -> (V, u64),
    ) -> Result<CacheHandle<'_, K, V>, Refusal>
    where
        K: Borrow<Q>,
        Q: Key<Form = K::Form> + Hash + ?Sized,
    {
        let handle = self.shard(key).get_or_init_with(key, init)?;
        Ok(CacheHandle(handle))
    }

    /// Returns a handle of the key's value. If there is none, `init` makes it, and returns it with
    /// its charge, while other callers that ask for the key wait; if it fails, one of them makes
    /// the value.
    ///
    /// # Errors
    ///
    /// As [`unsharded::LruCache::get_or_try_init_with`].
    pub fn get_or_try_init_with<Q, E>(
        &self,
        key: &Q,
        init: impl FnOnce(&Q) -> Result<(V, u64), E>,
    ) -> Result<CacheHandle<'_, K, V>, GetError<E>>
    where
        K: Borrow<Q>,
        Q: Key<Form = K::Form> + Hash + ?Sized,
    {
        let handle = self.shard(key).get_or_try_init_with(key, init)?;
        Ok(CacheHandle(handle))
    }

    /// Returns a handle of the key's value, or a guard with which the caller makes it, while other
    /// callers that ask for the key wait.
    ///
    /// # Errors
    ///
    /// As [`unsharded::LruCache::get_or_init`].
    pub fn begin<Q>(&self, key: &Q, charge: u64) -> Result<Begun<'_, K, V>, Refusal>
    where
        K: Borrow<Q>,
        Q: Key<Form = K::Form> + Hash + ?Sized,
    {
        Ok(wrap(self.shard(key).begin(key, charge)?))
    }

    /// Returns what [`begin`](Self::begin) returns, or `None` if another caller makes the value.
    /// Does not wait.
    ///
    /// # Errors
    ///
    /// As [`unsharded::LruCache::try_begin`].
    pub fn try_begin<Q>(&self, key: &Q, charge: u64) -> Result<Option<Begun<'_, K, V>>, Refusal>
    where
        K: Borrow<Q>,
        Q: Key<Form = K::Form> + Hash + ?Sized,
    {
        Ok(self.shard(key).try_begin(key, charge)?.map(wrap))
    }

    /// Returns what [`begin`](Self::begin) returns, without blocking the thread meanwhile.
    ///
    /// # Errors
    ///
    /// As [`unsharded::LruCache::begin_async`].
    pub async fn begin_async<Q>(&self, key: &Q, charge: u64) -> Result<Begun<'_, K, V>, Refusal>
    where
        K: Borrow<Q>,
        Q: Key<Form = K::Form> + Hash + ?Sized,
    {
        Ok(wrap(self.shard(key).begin_async(key, charge).await?))
    }

    /// Returns what [`get_or_init`](Self::get_or_init) returns, without blocking the thread
    /// meanwhile, as [`unsharded::LruCache::get_or_init_async`] does.
    ///
    /// # Errors
    ///
    /// As [`unsharded::LruCache::begin_async`].
    pub async fn get_or_init_async<Q>(
        &self,
        key: &Q,
        charge: u64,
        init: impl Future<Output = V>,
    ) -> Result<CacheHandle<'_, K, V>, Refusal>
    where
        K: Borrow<Q>,
        Q: Key<Form = K::Form> + Hash + ?Sized,
    {
        let shard = self.shard(key);
        let handle = shard.get_or_init_async(key, charge, init).await?;
        Ok(CacheHandle(handle))
    }

    /// Returns what [`get_or_try_init`](Self::get_or_try_init) returns, without blocking the thread
    /// meanwhile, as [`unsharded::LruCache::get_or_try_init_async`] does.
    ///
    /// # Errors
    ///
    /// As [`unsharded::LruCache::get_or_try_init_async`].
    pub async fn get_or_try_init_async<Q, E>(
        &self,
        key: &Q,
        charge: u64,
        init: impl Future<Output = Result<V, E>>,
    ) -> Result<CacheHandle<'_, K, V>, GetError<E>>
    where
        K: Borrow<Q>,
        Q: Key<Form = K::Form> + Hash + ?Sized,
    {
        let shard = self.shard(key);
        let handle = shard.get_or_try_init_async(key, charge, init).await?;
        Ok(CacheHandle(handle))
    }

    /// Returns what [`get_or_init_async`](Self::get_or_init_async) returns, with a handle that
    /// borrows nothing and keeps the cache alive.
    ///
    /// # Errors
    ///
    /// As [`unsharded::LruCache::begin_async`].
    pub async fn get_or_init_owned_async<Q>(
        self: &Arc<Self>,
        key: &Q,
        charge: u64,
        init: impl Future<Output = V>,
    ) -> Result<OwnedHandle<K, V, S>, Refusal>
    where
        K: Borrow<Q>,
        Q: Key<Form = K::Form> + Hash + ?Sized,
    {
        let shard = self.shard_of(key);
        let made = self.shards[shard].get_or_init_async(key, charge, init);
        Ok(OwnedHandle::of(self, shard, made.await?))
    }

    /// Returns what [`get_or_try_init_async`](Self::get_or_try_init_async) returns, with a handle
    /// that borrows nothing and keeps the cache alive.
    ///
    /// # Errors
    ///
    /// As [`unsharded::LruCache::get_or_try_init_async`].
    pub async fn get_or_try_init_owned_async<Q, E>(
        self: &Arc<Self>,
        key: &Q,
        charge: u64,
        init: impl Future<Output = Result<V, E>>,
    ) -> Result<OwnedHandle<K, V, S>, GetError<E>>
    where
        K: Borrow<Q>,
        Q: Key<Form = K::Form> + Hash + ?Sized,
    {
        let shard = self.shard_of(key);
        let made = self.shards[shard].get_or_try_init_async(key, charge, init);
        Ok(OwnedHandle::of(self, shard, made.await?))
    }

    /// Returns what [`get`](Self::get) returns, with a handle that borrows nothing and keeps the
    /// cache alive.
    ///
    /// # Errors
    ///
    /// As [`unsharded::LruCache::get`].
    pub fn get_owned<Q>(self: &Arc<Self>, key: &Q) -> Result<Option<OwnedHandle<K, V, S>>, Refusal>
    where
        K: Borrow<Q>,
        Q: Key<Form = K::Form> + Hash + ?Sized,
    {
        let shard = self.shard_of(key);
        let found = self.shards[shard].get(key)?;
        Ok(found.map(|handle| OwnedHandle::of(self, shard, handle)))
    }

    /// Returns what [`get_or_init`](Self::get_or_init) returns, with a handle that borrows nothing
    /// and keeps the cache alive.
    ///
    /// # Errors
    ///
    /// As [`unsharded::LruCache::get_or_init`].
    pub fn get_or_init_owned<Q>(
        self: &Arc<Self>,
        key: &Q,
        charge: u64,
        init: impl FnOnce(&Q) -> V,
    ) -> Result<OwnedHandle<K, V, S>, Refusal>
    where
        K: Borrow<Q>,
        Q: Key<Form = K::Form> + Hash + ?Sized,
    {
        let shard = self.shard_of(key);
        let handle = self.shards[shard].get_or_init(key, charge, init)?;
        Ok(OwnedHandle::of(self, shard, handle))
    }

    /// Returns what [`get_or_try_init`](Self::get_or_try_init) returns, with a handle that borrows
    /// nothing and keeps the cache alive.
    ///
    /// # Errors
    ///
    /// As [`unsharded::LruCache::get_or_try_init`].
    pub fn get_or_try_init_owned<Q, E>(
        self: &Arc<Self>,
        key: &Q,
        charge: u64,
        init: impl FnOnce(&Q) -> Result<V, E>,
    ) -> Result<OwnedHandle<K, V, S>, GetError<E>>
    where
        K: Borrow<Q>,
        Q: Key<Form = K::Form> + Hash + ?Sized,
    {
        let shard = self.shard_of(key);
        let handle = self.shards[shard].get_or_try_init(key, charge, init)?;
        Ok(OwnedHandle::of(self, shard, handle))
    }

    /// Makes `value` the key's value, whatever the key had, and returns a handle of it. Handles of
    /// the old value keep it.
    ///
    /// # Errors
    ///
    /// As [`unsharded::LruCache::insert`].
    pub fn insert<Q>(
        &self,
        key: &Q,
        charge: u64,
        value: V,
    ) -> Result<CacheHandle<'_, K, V>, Refusal>
    where
        K: Borrow<Q>,
        Q: Key<Form = K::Form> + Hash + ?Sized,
    {
        let handle = self.shard(key).insert(key, charge, value)?;
        Ok(CacheHandle(handle))
    }

    /// Returns whether the key has a value, as [`get`](Self::get) looks for it. Pins nothing, and
    /// does not count as a use.
    ///
    /// # Errors
    ///
    /// As [`unsharded::LruCache::contains`].
    pub fn contains<Q>(&self, key: &Q) -> Result<bool, Refusal>
    where
        K: Borrow<Q>,
        Q: Key<Form = K::Form> + Hash + ?Sized,
    {
        self.shard(key).contains(key)
    }

    /// Takes the key's value away: the next caller that asks for the key makes a new one. Handles
    /// of the old value keep it.
    ///
    /// # Errors
    ///
    /// As [`unsharded::LruCache::invalidate`].
    pub fn invalidate<Q>(&self, key: &Q) -> Result<(), Refusal>
    where
        K: Borrow<Q>,
        Q: Key<Form = K::Form> + Hash + ?Sized,
    {
        self.shard(key).invalidate(key)
    }

    /// Evicts the key's value if it is idle. If it is pinned, nothing happens, now or later.
    ///
    /// # Errors
    ///
    /// As [`unsharded::LruCache::advice_evict`].
    pub fn advice_evict<Q>(&self, key: &Q) -> Result<(), Refusal>
    where
        K: Borrow<Q>,
        Q: Key<Form = K::Form> + Hash + ?Sized,
    {
        self.shard(key).advice_evict(key)
    }

    fn shard<Q: Hash + ?Sized>(&self, key: &Q) -> &unsharded::LruCache<K, V> {
        &self.shards[self.shard_of(key)]
    }

    fn shard_of<Q: Hash + ?Sized>(&self, key: &Q) -> usize {
        let number = self.hasher.hash_one(key) % self.shards.len() as u64;
        // The remainder is less than the number of shards, so it fits.
        number as usize
    }
}

/// The capacity of each shard.
pub(crate) fn share(capacity: u64, shards: usize) -> u64 {
    capacity.div_ceil(shards as u64)
}

impl<K: Key + ?Sized, V, S> fmt::Debug for LruCache<K, V, S> {
    fn fmt(&self, f: &mut fmt::Formatter<'_>) -> fmt::Result {
        f.debug_list().entries(&self.shards).finish()
    }
}

/// What a caller that asks for a value gets.
pub type Begun<'a, K, V> = makings::Begun<CacheHandle<'a, K, V>, Maker<'a, K, V>>;

fn wrap<K: Key + ?Sized, V>(begun: unsharded::Begun<'_, K, V>) -> Begun<'_, K, V> {
    match begun {
        makings::Begun::Hit(handle) => Begun::Hit(CacheHandle(handle)),
        makings::Begun::Make(maker) => Begun::Make(Maker(maker)),
    }
}

/// The duty to make a value, as [`unsharded::Maker`].
#[derive(Debug)]
#[must_use = "the making fails if this is dropped"]
pub struct Maker<'a, K: Key + ?Sized, V>(unsharded::Maker<'a, K, V>);

impl<'a, K: Key + ?Sized, V> Maker<'a, K, V> {
    /// Makes `value` the value, as [`unsharded::Maker::ready`] does.
    pub fn ready(self, value: V) -> CacheHandle<'a, K, V> {
        CacheHandle(self.0.ready(value))
    }

    /// Makes `value` the value with this charge, as [`unsharded::Maker::ready_with`] does.
    ///
    /// # Errors
    ///
    /// As [`unsharded::Maker::ready_with`].
    pub fn ready_with(self, value: V, charge: u64) -> Result<CacheHandle<'a, K, V>, Refusal> {
        Ok(CacheHandle(self.0.ready_with(value, charge)?))
    }
}

/// A pinned value, as [`unsharded::CacheHandle`].
pub struct CacheHandle<'a, K: Key + ?Sized, V>(unsharded::CacheHandle<'a, K, V>);

impl<K: Key + ?Sized, V> CacheHandle<'_, K, V> {
    /// Returns the value.
    pub fn value(&self) -> &V {
        self.0.value()
    }

    /// Returns another handle of the same value, as [`unsharded::CacheHandle::try_clone`] does.
    ///
    /// # Errors
    ///
    /// As [`unsharded::CacheHandle::try_clone`].
    pub fn try_clone(&self) -> Result<Self, Refusal> {
        Ok(CacheHandle(self.0.try_clone()?))
    }

    /// Drops the handle, and evicts the value at once if this was its last handle, as
    /// [`unsharded::CacheHandle::release_and_evict`] does.
    pub fn release_and_evict(self) {
        self.0.release_and_evict();
    }
}

impl<K: Key + ?Sized, V> Deref for CacheHandle<'_, K, V> {
    type Target = V;

    fn deref(&self) -> &V {
        self.value()
    }
}

impl<K: Key + ?Sized, V: fmt::Debug> fmt::Debug for CacheHandle<'_, K, V> {
    fn fmt(&self, f: &mut fmt::Formatter<'_>) -> fmt::Result {
        self.0.fmt(f)
    }
}

/// A pinned value, as [`unsharded::OwnedHandle`].
pub struct OwnedHandle<K: Key + ?Sized, V, S = RandomState> {
    cache: Arc<LruCache<K, V, S>>,
    /// The number of the shard that has the entry.
    shard: usize,
    pin: Pin,
    /// The value of the entry that is pinned.
    value: NonNull<V>,
}

// SAFETY: as for `unsharded::OwnedHandle`. Dropping the handle may also drop the hasher.
unsafe impl<K: Key + ?Sized, V: Send + Sync, S: Send + Sync> Send for OwnedHandle<K, V, S> {}

// SAFETY: a shared handle gives shared access to its value only.
unsafe impl<K: Key + ?Sized, V: Send + Sync, S: Send + Sync> Sync for OwnedHandle<K, V, S> {}

impl<K: Key + ?Sized, V, S> OwnedHandle<K, V, S> {
    /// Takes over the pin of a handle of this shard.
    fn of(
        cache: &Arc<LruCache<K, V, S>>,
        shard: usize,
        handle: unsharded::CacheHandle<'_, K, V>,
    ) -> OwnedHandle<K, V, S> {
        let cache = Arc::clone(cache);
        let (pin, value) = handle.into_pin();
        OwnedHandle {
            cache,
            shard,
            pin,
            value,
        }
    }

    /// Returns the value.
    pub fn value(&self) -> &V {
        // SAFETY: the handle has a pin of the entry and keeps the cache alive, so the value is not
        // dropped before the handle is. Nothing has mutable access to a value in the cache.
        unsafe { self.value.as_ref() }
    }

    /// Returns another handle of the same value, as [`unsharded::OwnedHandle::try_clone`] does.
    ///
    /// # Errors
    ///
    /// As [`unsharded::CacheHandle::try_clone`].
    pub fn try_clone(&self) -> Result<Self, Refusal> {
        let handle = self.cache.shards[self.shard].repin(self.pin)?;
        Ok(OwnedHandle::of(&self.cache, self.shard, handle))
    }

    /// Drops the handle, and evicts the value at once if this was its last handle, as
    /// [`unsharded::CacheHandle::release_and_evict`] does.
    pub fn release_and_evict(self) {
        let this = ManuallyDrop::new(self);
        // SAFETY: `this` is not dropped, so only the copy drops the `Arc`. No other field of a
        // handle has to be dropped.
        let cache = unsafe { ptr::read(&this.cache) };
        cache.shards[this.shard].release_and_evict(this.pin);
    }
}

impl<K: Key + ?Sized, V, S> Deref for OwnedHandle<K, V, S> {
    type Target = V;

    fn deref(&self) -> &V {
        self.value()
    }
}

impl<K: Key + ?Sized, V: fmt::Debug, S> fmt::Debug for OwnedHandle<K, V, S> {
    fn fmt(&self, f: &mut fmt::Formatter<'_>) -> fmt::Result {
        f.debug_tuple("OwnedHandle").field(self.value()).finish()
    }
}

impl<K: Key + ?Sized, V, S> Drop for OwnedHandle<K, V, S> {
    fn drop(&mut self) {
        self.cache.shards[self.shard].release(self.pin);
    }
}
