//! A cache whose hits take no lock.
//!
//! [`Cache`] has the names of [`sharded::LruCache`](crate::sharded::LruCache), and its threads do
//! not wait for each other where they find values. A look-up that finds nothing takes the lock of
//! its shard and looks again, as it may miss a value that is there while another thread changes the
//! shard. The cache differs in these points:
//!
//! - Values are not evicted in the exact order of their last uses. A new one is on trial, and
//!   leaves unless it is used. The others have up to three chances: a hit adds one, and a hand that
//!   moves from value to value takes one away, and evicts a value that has none.
//! - Keys are written as words ([`WordsKey`]): integers, pairs of them, and the like. The cache
//!   hashes them by itself, so it takes no hasher.
//! - Dropping a last handle evicts down to the capacity if the total is above it, as there. But if
//!   another thread looks the value up at the same time, that may be left to the next call that
//!   stores a value.
//! - Values are evicted when a new one is stored, not when its making begins, and a value that is
//!   being made does not count. So its charge need not be known before it is made
//!   ([`get_or_init_with`](Cache::get_or_init_with)).
//! - [`read`](Cache::read), [`retain`](Cache::retain) and [`for_each`](Cache::for_each) hold no
//!   lock while they call back. `for_each` does not tell how many handles a value has, and may be
//!   refused.
//! - [`contains`](Cache::contains) counts as a use.
//! - [`Maker::ready`] may be refused.
//! - There is no `shrink_to_fit`.
//! - A strict limit ([`set_strict_limit`](Cache::set_strict_limit)) may refuse a value once it was
//!   made, if others took its room meanwhile. Values are evicted before one that is made is
//!   refused, and before the making begins too: only then it is known that all that is left is
//!   pinned.
//! - [`stats`](Cache::stats) counts what is made, stored and evicted, but no hits and misses.
//!
//! A cache has a reader of each shard for each thread that calls it, in 64 bytes for four shards.
//! When a thread ends, its readers are left for another one. They are freed with the cache.
//!
//! # Examples
//!
//! ```
//! use concurrent_lru_proved::clock::Cache;
//! use std::thread;
//!
//! # fn main() -> Result<(), concurrent_lru_proved::Refusal> {
//! // The keys are a file and a page of it.
//! let pages = Cache::<(u32, u64), Vec<u8>>::new(1000)?;
//! thread::scope(|scope| {
//!     for _ in 0..4 {
//!         scope.spawn(|| pages.get_or_init(&(1, 7), 1, |_| vec![0; 4096]).map(drop));
//!     }
//! });
//! let page = pages.get(&(1, 7))?.expect("it is there");
//! assert_eq!(page.len(), 4096);
//! pages.invalidate(&(1, 7))?;
//! assert!(pages.get(&(1, 7))?.is_none());
//! assert_eq!(page.len(), 4096); // until the handle is dropped
//! # Ok(())
//! # }
//! ```

mod lanes;
mod numbers;
mod shard;

use std::borrow::Borrow;
use std::convert::Infallible;
use std::fmt;
use std::future;
use std::marker::PhantomData;
use std::mem::ManuallyDrop;
use std::num::NonZeroUsize;
use std::ops::Deref;
use std::panic::AssertUnwindSafe;
use std::ptr;
use std::sync::{Arc, MutexGuard};
use std::task::{Context, Poll};
use std::time::{Duration, Instant};

use crate::error::{self, GetError, Refusal};
use crate::ffi;
use crate::key::WordsKey;
use crate::leaving::{Leaving, Reason};
use crate::makings::{self, UNKNOWN_CHARGE};
use crate::proved::random_seed;
use crate::sharded::{shards_for, share};

use lanes::Lanes;
use shard::{Left, Listener, Node, Pin, Route, Shard, State, Turn, told};

/// A cache of heavy values that threads share, whose hits take no lock.
///
/// A [`CacheHandle`] pins its value: a pinned value is not evicted. A value without a handle is
/// idle. Idle values are evicted to make room for a value that is stored, until the total of all
/// charges is not above the capacity. Pinned values may take the total above the capacity, unless
/// the limit is strict ([`set_strict_limit`](Self::set_strict_limit)).
///
/// Each shard has an equal share of the capacity, rounded up, and a lock, which every call takes
/// that does not find a value. A value is evicted when its own shard is full. So if charges are
/// larger than 1, say about how large they are, by
/// [`with_typical_charge`](Self::with_typical_charge).
///
/// No lock is held while values are made, read, visited or dropped. So `init` and `Drop` of a value
/// may be slow, may panic, and may call the cache. But `init` must not ask for the key whose value
/// it makes, and must not wait for another thread that does: it would wait for itself.
///
/// # Examples
///
/// ```
/// use concurrent_lru_proved::clock::Cache;
///
/// # fn main() -> Result<(), concurrent_lru_proved::Refusal> {
/// let cache = Cache::<u64, String>::new(1000)?;
/// let handle = cache.get_or_init(&7, 1, |key| key.to_string())?;
/// assert_eq!(*handle, "7");
/// # Ok(())
/// # }
/// ```
///
/// A cache can be shared between threads only if its values can be shared and sent:
///
/// ```compile_fail,E0277
/// use concurrent_lru_proved::clock::Cache;
/// use std::cell::Cell;
///
/// fn share<T: Sync>(_: &T) {}
///
/// share(&Cache::<u64, Cell<u64>>::new(10).unwrap());
/// ```
///
/// ```compile_fail,E0277
/// use concurrent_lru_proved::clock::Cache;
/// use std::sync::MutexGuard;
///
/// fn share<T: Sync>(_: &T) {}
///
/// share(&Cache::<u64, MutexGuard<'static, u64>>::new(10).unwrap());
/// ```
///
/// Its keys are written as words:
///
/// ```compile_fail,E0277
/// use concurrent_lru_proved::clock::Cache;
///
/// let cache = Cache::<String, u64>::new(10);
/// ```
pub struct Cache<K: WordsKey + ?Sized, V> {
    // A hit reads these fields. They share no line with others, as `Lanes` has lines of its own.
    lanes: Lanes,
    shards: Box<[Shard<V>]>,
    seed: u64,
    listener: Option<AssertUnwindSafe<Listener<V>>>,
    times_loads: bool,
    keys: PhantomData<fn(&K)>,
    // Threads that share a cache also share its values, through handles.
    values: PhantomData<V>,
}

impl<K: WordsKey + ?Sized, V> Cache<K, V> {
    /// Creates an empty cache with the number of shards that [`shards_for`] returns for charges of
    /// 1: 16 from a capacity of 512 on, and less below. It stays the same if the capacity is set
    /// later. Keys are hashed with a random seed.
    ///
    /// The type of the keys must be named, as in `Cache::<u64, _>::new(10)`: calls take any type
    /// that it can be borrowed as, so it cannot be inferred from them.
    ///
    /// # Errors
    ///
    /// [`Refusal::Memory`] if there is no memory for the cache.
    pub fn new(capacity: u64) -> Result<Self, Refusal> {
        Self::with_typical_charge(capacity, 1)
    }

    /// Creates an empty cache with the number of shards that [`shards_for`] returns for charges of
    /// about this size, which is 1 for [`Cache::new`].
    ///
    /// # Errors
    ///
    /// [`Refusal::Memory`] if there is no memory for the cache.
    pub fn with_typical_charge(capacity: u64, charge: u64) -> Result<Self, Refusal> {
        Self::with_shards(capacity, shards_for(capacity, charge))
    }

    /// Creates an empty cache with the given number of shards.
    ///
    /// # Errors
    ///
    /// [`Refusal::Memory`] if there is no memory for the cache.
    pub fn with_shards(capacity: u64, shards: NonZeroUsize) -> Result<Self, Refusal> {
        Self::with_seed(capacity, shards, random_seed())
    }

    /// Creates an empty cache with the given number of shards that hashes keys with the given seed,
    /// for tests that must be the same in each run.
    ///
    /// Whoever knows the seed can choose keys whose hashes are all equal, so that each look-up of
    /// such a key visits all of them.
    ///
    /// # Errors
    ///
    /// [`Refusal::Memory`] if there is no memory for the cache.
    pub fn with_seed(capacity: u64, shards: NonZeroUsize, seed: u64) -> Result<Self, Refusal> {
        let count = shards.get();
        let share = share(capacity, count);
        let mut shards = Vec::new();
        error::room(shards.try_reserve_exact(count))?;
        for _ in 0..count {
            shards.push(Shard::new(share)?);
        }
        Ok(Cache {
            lanes: Lanes::new(count),
            shards: shards.into_boxed_slice(),
            seed,
            listener: None,
            times_loads: false,
            keys: PhantomData,
            values: PhantomData,
        })
    }

    /// Has `listener` told of each value that leaves the cache, just before the value is dropped,
    /// with its key as it is [written](crate::key::Key::written), its charge and the [`Reason`].
    ///
    /// No lock is held meanwhile, so the listener may call the cache. If it panics, it is told of
    /// all other values that leave with the same call, which are dropped too, and then the panic
    /// reaches the caller. It is not told of values that are dropped with the cache, nor of those
    /// that were refused. It costs a hit nothing.
    ///
    /// # Examples
    ///
    /// ```
    /// use concurrent_lru_proved::Reason;
    /// use concurrent_lru_proved::clock::Cache;
    /// use std::sync::mpsc;
    ///
    /// # fn main() -> Result<(), concurrent_lru_proved::Refusal> {
    /// let (sender, left) = mpsc::channel();
    /// let cache = Cache::<u64, &str>::new(10)?.with_listener(move |leaving| {
    ///     let [_, key] = leaving.key;
    ///     let _ = sender.send((key, *leaving.value, leaving.reason));
    /// });
    /// cache.insert(&7, 1, "seven")?;
    /// cache.insert(&7, 1, "another seven")?;
    /// assert_eq!(left.recv(), Ok((7, "seven", Reason::Replaced)));
    /// # Ok(())
    /// # }
    /// ```
    #[must_use]
    pub fn with_listener(
        mut self,
        listener: impl Fn(Leaving<'_, V, [u64; 2]>) + Send + Sync + 'static,
    ) -> Self {
        self.listener = Some(AssertUnwindSafe(Arc::new(listener)));
        self
    }

    /// Also measures how long it takes to make values, as [`Stats::load_time`] tells. A miss then
    /// takes about 0.1 microseconds longer.
    #[must_use]
    pub fn with_load_times(mut self) -> Self {
        self.times_loads = true;
        self
    }

    /// Returns a handle of the key's value, or `None` if there is no value or it is still being
    /// made. Does not wait for a value that is being made. A hit takes no lock; a miss looks once
    /// more with the lock of the shard.
    ///
    /// # Errors
    ///
    /// [`Refusal::Overflow`] if the value has about a billion handles.
    #[inline]
    pub fn get<Q>(&self, key: &Q) -> Result<Option<CacheHandle<'_, K, V>>, Refusal>
    where
        K: Borrow<Q>,
        Q: WordsKey<Form = K::Form> + ?Sized,
    {
        let route = self.route(key);
        match self.look(route) {
            Ok(pin) => Ok(Some(self.handle(route.shard, pin))),
            Err(code) => self.look_again(route, code),
        }
    }

    /// Does what [`get`](Self::get) does. This is its name in the caches in Rattle.
    ///
    /// # Errors
    ///
    /// As [`get`](Self::get).
    #[inline]
    pub fn find<Q>(&self, key: &Q) -> Result<Option<CacheHandle<'_, K, V>>, Refusal>
    where
        K: Borrow<Q>,
        Q: WordsKey<Form = K::Form> + ?Sized,
    {
        self.get(key)
    }

    /// Calls `reader` with the key's value, and returns its result, or `None` if there is no value
    /// or it is still being made. No lock is held meanwhile: this is a [`get`](Self::get) whose
    /// handle is dropped at the end.
    ///
    /// # Errors
    ///
    /// As [`get`](Self::get).
    ///
    /// # Examples
    ///
    /// ```
    /// use concurrent_lru_proved::clock::Cache;
    ///
    /// # fn main() -> Result<(), concurrent_lru_proved::Refusal> {
    /// let cache = Cache::<u64, String>::new(10)?;
    /// cache.insert(&7, 1, "seven".to_string())?;
    /// assert_eq!(cache.read(&7, |value| value.len())?, Some(5));
    /// assert_eq!(cache.read(&8, |value| value.len())?, None);
    /// # Ok(())
    /// # }
    /// ```
    pub fn read<Q, T>(&self, key: &Q, reader: impl FnOnce(&V) -> T) -> Result<Option<T>, Refusal>
    where
        K: Borrow<Q>,
        Q: WordsKey<Form = K::Form> + ?Sized,
    {
        Ok(self.get(key)?.map(|handle| reader(&handle)))
    }

    /// Returns a handle of the key's value. If there is none, `init` makes it.
    ///
    /// Only one caller at a time makes a key's value; the others wait for it. If `init` panics and
    /// others are waiting, one of them makes the value, with its own `init`. If the key is
    /// invalidated meanwhile, or gets another value, only this caller gets the value that it made.
    ///
    /// `charge` is what the value counts for against the capacity, in units of the caller's choice;
    /// it must be above 0, even if the key has a value. If the value exists already, its charge
    /// does not change.
    ///
    /// # Errors
    ///
    /// [`Refusal::ZeroCharge`] if `charge` is 0, even if the key has a value. [`Refusal::Overflow`]
    /// if the total of the charges of the shard would exceed `u64::MAX`, or if the value has about
    /// a billion handles. [`Refusal::Memory`] if there is no memory for a new entry.
    /// [`Refusal::Full`] if the limit is strict, the key has no value and none is being made for
    /// it, and there is no room for one beside the pinned values; also after `init` has run, if
    /// others have taken the room. In these cases no value is stored. If `init` has run, its value
    /// is dropped. Others may have been evicted for it, and in the case of [`Refusal::Full`] also
    /// if `init` has not run.
    #[inline]
    pub fn get_or_init<Q>(
        &self,
        key: &Q,
        charge: u64,
        init: impl FnOnce(&Q) -> V,
    ) -> Result<CacheHandle<'_, K, V>, Refusal>
    where
        K: Borrow<Q>,
        Q: WordsKey<Form = K::Form> + ?Sized,
    {
        self.get_or_try_init(key, charge, |key| Ok::<_, Infallible>(init(key)))
            .map_err(GetError::into_refusal)
    }

    /// Returns a handle of the key's value. If there is none, `init` makes it, or fails.
    ///
    /// This is [`get_or_init`](Self::get_or_init) for an `init` that may fail. The cache keeps no
    /// entry then. If others are waiting, one of them makes the value, with its own `init`.
    ///
    /// # Errors
    ///
    /// [`GetError::Init`] with the error of `init`, and [`GetError::Refused`] in the cases of
    /// [`get_or_init`](Self::get_or_init).
    #[inline]
    pub fn get_or_try_init<Q, E>(
        &self,
        key: &Q,
        charge: u64,
        init: impl FnOnce(&Q) -> Result<V, E>,
    ) -> Result<CacheHandle<'_, K, V>, GetError<E>>
    where
        K: Borrow<Q>,
        Q: WordsKey<Form = K::Form> + ?Sized,
    {
        match self.begin(key, charge)? {
            Begun::Hit(handle) => Ok(handle),
            Begun::Make(maker) => Ok(maker.ready(init(key).map_err(GetError::Init)?)?),
        }
    }

    /// Returns a handle of the key's value. If there is none, `init` makes it, and returns it with
    /// its charge.
    ///
    /// This is [`get_or_init`](Self::get_or_init) for a charge that is not known before the value,
    /// as the length of a file that is read.
    ///
    /// # Errors
    ///
    /// [`Refusal::ZeroCharge`] if `init` returns a charge of 0: its value is dropped, and if others
    /// are waiting, one of them makes the value. [`Refusal::Overflow`], [`Refusal::Memory`] and
    /// [`Refusal::Full`] as [`get_or_init`](Self::get_or_init), but before `init` runs
    /// [`Refusal::Full`] only if there is no room for a charge of 1.
    ///
    /// # Examples
    ///
    /// ```
    /// use concurrent_lru_proved::clock::Cache;
    ///
    /// # fn main() -> Result<(), concurrent_lru_proved::Refusal> {
    /// let cache = Cache::<u64, String>::new(1000)?;
    /// let handle = cache.get_or_init_with(&7, |key| {
    ///     let text = format!("the number {key}");
    ///     let charge = text.len() as u64;
    ///     (text, charge)
    /// })?;
    /// assert_eq!((&**handle, cache.total_charge()), ("the number 7", 12));
    /// # Ok(())
    /// # }
    /// ```
    #[inline]
    pub fn get_or_init_with<Q>(
        &self,
        key: &Q,
        init: impl FnOnce(&Q) -> (V, u64),
    ) -> Result<CacheHandle<'_, K, V>, Refusal>
    where
        K: Borrow<Q>,
        Q: WordsKey<Form = K::Form> + ?Sized,
    {
        self.get_or_try_init_with(key, |key| Ok::<_, Infallible>(init(key)))
            .map_err(GetError::into_refusal)
    }

    /// Returns a handle of the key's value. If there is none, `init` makes it, and returns it with
    /// its charge, or fails.
    ///
    /// This is [`get_or_try_init`](Self::get_or_try_init) for a charge that is not known before the
    /// value.
    ///
    /// # Errors
    ///
    /// [`GetError::Init`] with the error of `init`, and [`GetError::Refused`] in the cases of
    /// [`get_or_init_with`](Self::get_or_init_with).
    ///
    /// # Examples
    ///
    /// ```no_run
    /// use concurrent_lru_proved::clock::Cache;
    /// use std::{fs, io};
    ///
    /// # fn main() -> io::Result<()> {
    /// // A megabyte of parts of a file.
    /// let parts = Cache::<u64, Vec<u8>>::new(1 << 20)?;
    /// let part = parts.get_or_try_init_with(&7, |number| {
    ///     let bytes = fs::read(format!("part_{number}"))?;
    ///     let charge = bytes.len() as u64 + 64;
    ///     Ok::<_, io::Error>((bytes, charge))
    /// })?;
    /// println!("{} bytes", part.len());
    /// # Ok(())
    /// # }
    /// ```
    #[inline]
    pub fn get_or_try_init_with<Q, E>(
        &self,
        key: &Q,
        init: impl FnOnce(&Q) -> Result<(V, u64), E>,
    ) -> Result<CacheHandle<'_, K, V>, GetError<E>>
    where
        K: Borrow<Q>,
        Q: WordsKey<Form = K::Form> + ?Sized,
    {
        match self.begin(key, UNKNOWN_CHARGE)? {
            Begun::Hit(handle) => Ok(handle),
            Begun::Make(maker) => {
                let (value, charge) = init(key).map_err(GetError::Init)?;
                Ok(maker.ready_with(value, charge)?)
            }
        }
    }

    /// Returns a handle of the key's value, or a guard with which the caller makes it.
    ///
    /// This is [`get_or_init`](Self::get_or_init) for a caller that does not make the value by a
    /// function. Other callers that ask for the key wait until it calls [`Maker::ready`], or drops
    /// the guard: one of them makes the value then. If the charge is not known yet, pass 1, and
    /// call [`Maker::ready_with`] later.
    ///
    /// # Errors
    ///
    /// As [`get_or_init`](Self::get_or_init).
    ///
    /// # Examples
    ///
    /// ```
    /// use concurrent_lru_proved::Begun;
    /// use concurrent_lru_proved::clock::Cache;
    ///
    /// # fn main() -> Result<(), concurrent_lru_proved::Refusal> {
    /// let cache = Cache::<u64, String>::new(10)?;
    /// let handle = match cache.begin(&7, 1)? {
    ///     Begun::Hit(handle) => handle,
    ///     Begun::Make(maker) => maker.ready("seven".to_string())?,
    /// };
    /// assert_eq!(*handle, "seven");
    /// # Ok(())
    /// # }
    /// ```
    #[inline]
    pub fn begin<Q>(&self, key: &Q, charge: u64) -> Result<Begun<'_, K, V>, Refusal>
    where
        K: Borrow<Q>,
        Q: WordsKey<Form = K::Form> + ?Sized,
    {
        if charge == 0 {
            return Err(Refusal::ZeroCharge);
        }
        let route = self.route(key);
        match self.look(route) {
            Ok(pin) => Ok(Begun::Hit(self.handle(route.shard, pin))),
            Err(code) => self.begin_locked(code, route, charge),
        }
    }

    /// Returns what [`begin`](Self::begin) returns, or `None` if another caller makes the value.
    /// Does not wait for it.
    ///
    /// # Errors
    ///
    /// As [`get_or_init`](Self::get_or_init).
    ///
    /// # Examples
    ///
    /// ```
    /// use concurrent_lru_proved::Begun;
    /// use concurrent_lru_proved::clock::Cache;
    ///
    /// # fn main() -> Result<(), concurrent_lru_proved::Refusal> {
    /// let cache = Cache::<u64, String>::new(10)?;
    /// let making = cache.try_begin(&7, 1)?;
    /// assert!(matches!(making, Some(Begun::Make(_))));
    /// assert!(cache.try_begin(&7, 1)?.is_none());
    /// # Ok(())
    /// # }
    /// ```
    pub fn try_begin<Q>(&self, key: &Q, charge: u64) -> Result<Option<Begun<'_, K, V>>, Refusal>
    where
        K: Borrow<Q>,
        Q: WordsKey<Form = K::Form> + ?Sized,
    {
        match self.ask(self.route(key), charge)? {
            Answer::Begun(begun) => Ok(Some(begun)),
            Answer::Wait(..) => Ok(None),
        }
    }

    /// Returns what [`begin`](Self::begin) returns, without blocking the thread meanwhile.
    ///
    /// It needs no particular runtime. Tasks and threads may wait for the same value. If the future
    /// is dropped while it waits, the caller waits no more.
    ///
    /// # Errors
    ///
    /// As [`get_or_init`](Self::get_or_init), and [`Refusal::Memory`] if there is no memory for the
    /// list of the tasks that wait.
    pub async fn begin_async<Q>(&self, key: &Q, charge: u64) -> Result<Begun<'_, K, V>, Refusal>
    where
        K: Borrow<Q>,
        Q: WordsKey<Form = K::Form> + ?Sized,
    {
        let route = self.route(key);
        let mut waiter = match self.ask(route, charge)? {
            Answer::Begun(begun) => return Ok(begun),
            Answer::Wait(_, ticket) => Waiter::new(self, route, charge, ticket),
        };
        future::poll_fn(|context| waiter.poll(context)).await
    }

    /// Returns what [`get_or_init`](Self::get_or_init) returns, without blocking the thread
    /// meanwhile. If the key has no value, `init` makes it, and is else dropped without a poll.
    ///
    /// If the future that this returns is dropped while `init` runs, or if `init` panics, another
    /// caller that waits makes the value, with its own `init`. It is [`Send`] if `init`, keys and
    /// values may be sent and shared.
    ///
    /// # Errors
    ///
    /// As [`begin_async`](Self::begin_async).
    ///
    /// # Examples
    ///
    /// ```
    /// use concurrent_lru_proved::Refusal;
    /// use concurrent_lru_proved::clock::Cache;
    ///
    /// async fn length(cache: &Cache<u64, String>, number: u64) -> Result<usize, Refusal> {
    ///     let page = cache.get_or_init_async(&number, 1, fetch(number)).await?;
    ///     Ok(page.len())
    /// }
    ///
    /// async fn fetch(number: u64) -> String {
    ///     // ...
    /// #   number.to_string()
    /// }
    /// ```
    pub async fn get_or_init_async<Q>(
        &self,
        key: &Q,
        charge: u64,
        init: impl Future<Output = V>,
    ) -> Result<CacheHandle<'_, K, V>, Refusal>
    where
        K: Borrow<Q>,
        Q: WordsKey<Form = K::Form> + ?Sized,
    {
        match self.begin_async(key, charge).await? {
            Begun::Hit(handle) => Ok(handle),
            Begun::Make(maker) => maker.ready(init.await),
        }
    }

    /// Returns what [`get_or_try_init`](Self::get_or_try_init) returns, without blocking the thread
    /// meanwhile, as [`get_or_init_async`](Self::get_or_init_async) does.
    ///
    /// # Errors
    ///
    /// [`GetError::Init`] with the error of `init`, and [`GetError::Refused`] in the cases of
    /// [`begin_async`](Self::begin_async).
    pub async fn get_or_try_init_async<Q, E>(
        &self,
        key: &Q,
        charge: u64,
        init: impl Future<Output = Result<V, E>>,
    ) -> Result<CacheHandle<'_, K, V>, GetError<E>>
    where
        K: Borrow<Q>,
        Q: WordsKey<Form = K::Form> + ?Sized,
    {
        match self.begin_async(key, charge).await? {
            Begun::Hit(handle) => Ok(handle),
            Begun::Make(maker) => Ok(maker.ready(init.await.map_err(GetError::Init)?)?),
        }
    }

    /// Returns what [`get`](Self::get) returns, with a handle that borrows nothing and keeps the
    /// cache alive.
    ///
    /// # Errors
    ///
    /// As [`get`](Self::get).
    ///
    /// # Examples
    ///
    /// ```
    /// use concurrent_lru_proved::clock::Cache;
    /// use std::sync::Arc;
    ///
    /// # fn main() -> Result<(), concurrent_lru_proved::Refusal> {
    /// let cache = Arc::new(Cache::<u64, String>::new(10)?);
    /// cache.insert(&7, 1, "seven".to_string())?;
    /// let handle = cache.get_owned(&7)?.expect("it was inserted");
    /// drop(cache);
    /// assert_eq!(*handle, "seven");
    /// # Ok(())
    /// # }
    /// ```
    pub fn get_owned<Q>(self: &Arc<Self>, key: &Q) -> Result<Option<OwnedHandle<K, V>>, Refusal>
    where
        K: Borrow<Q>,
        Q: WordsKey<Form = K::Form> + ?Sized,
    {
        let found = self.get(key)?;
        Ok(found.map(|handle| OwnedHandle::of(self, handle)))
    }

    /// Returns what [`get_or_init`](Self::get_or_init) returns, with a handle that borrows nothing
    /// and keeps the cache alive.
    ///
    /// # Errors
    ///
    /// As [`get_or_init`](Self::get_or_init).
    pub fn get_or_init_owned<Q>(
        self: &Arc<Self>,
        key: &Q,
        charge: u64,
        init: impl FnOnce(&Q) -> V,
    ) -> Result<OwnedHandle<K, V>, Refusal>
    where
        K: Borrow<Q>,
        Q: WordsKey<Form = K::Form> + ?Sized,
    {
        let handle = self.get_or_init(key, charge, init)?;
        Ok(OwnedHandle::of(self, handle))
    }

    /// Returns what [`get_or_try_init`](Self::get_or_try_init) returns, with a handle that borrows
    /// nothing and keeps the cache alive.
    ///
    /// # Errors
    ///
    /// As [`get_or_try_init`](Self::get_or_try_init).
    pub fn get_or_try_init_owned<Q, E>(
        self: &Arc<Self>,
        key: &Q,
        charge: u64,
        init: impl FnOnce(&Q) -> Result<V, E>,
    ) -> Result<OwnedHandle<K, V>, GetError<E>>
    where
        K: Borrow<Q>,
        Q: WordsKey<Form = K::Form> + ?Sized,
    {
        let handle = self.get_or_try_init(key, charge, init)?;
        Ok(OwnedHandle::of(self, handle))
    }

    /// Returns what [`get_or_init_async`](Self::get_or_init_async) returns, with a handle that
    /// borrows nothing and keeps the cache alive.
    ///
    /// # Errors
    ///
    /// As [`begin_async`](Self::begin_async).
    pub async fn get_or_init_owned_async<Q>(
        self: &Arc<Self>,
        key: &Q,
        charge: u64,
        init: impl Future<Output = V>,
    ) -> Result<OwnedHandle<K, V>, Refusal>
    where
        K: Borrow<Q>,
        Q: WordsKey<Form = K::Form> + ?Sized,
    {
        let handle = self.get_or_init_async(key, charge, init).await?;
        Ok(OwnedHandle::of(self, handle))
    }

    /// Returns what [`get_or_try_init_async`](Self::get_or_try_init_async) returns, with a handle
    /// that borrows nothing and keeps the cache alive.
    ///
    /// # Errors
    ///
    /// As [`get_or_try_init_async`](Self::get_or_try_init_async).
    pub async fn get_or_try_init_owned_async<Q, E>(
        self: &Arc<Self>,
        key: &Q,
        charge: u64,
        init: impl Future<Output = Result<V, E>>,
    ) -> Result<OwnedHandle<K, V>, GetError<E>>
    where
        K: Borrow<Q>,
        Q: WordsKey<Form = K::Form> + ?Sized,
    {
        let handle = self.get_or_try_init_async(key, charge, init).await?;
        Ok(OwnedHandle::of(self, handle))
    }

    /// Makes `value` the key's value, whatever the key had, and returns a handle of it. Does not
    /// wait for a value that is being made: only its maker gets that one.
    ///
    /// Handles of the old value keep it, and it counts against the capacity, until the last of them
    /// is dropped.
    ///
    /// # Errors
    ///
    /// [`Refusal::ZeroCharge`] if `charge` is 0. [`Refusal::Overflow`] if the total of the charges
    /// of the shard, with the old value, would exceed `u64::MAX`. [`Refusal::Full`] if the limit is
    /// strict and there is no room for the new value beside the pinned ones, such as the old one
    /// may be. [`Refusal::Memory`] if there is no memory for a new entry. The new value is dropped
    /// then, and nothing else changes: the key keeps its old value. Only if other threads take
    /// handles during the call may [`Refusal::Full`] come after idle values were evicted, the old
    /// one among them.
    ///
    /// # Examples
    ///
    /// ```
    /// use concurrent_lru_proved::clock::Cache;
    ///
    /// # fn main() -> Result<(), concurrent_lru_proved::Refusal> {
    /// let cache = Cache::<u64, u32>::new(10)?;
    /// let old = cache.insert(&7, 1, 5)?;
    /// let new = cache.insert(&7, 1, 6)?;
    /// assert_eq!((*old, *new), (5, 6));
    /// assert_eq!(cache.get(&7)?.as_deref(), Some(&6));
    /// # Ok(())
    /// # }
    /// ```
    pub fn insert<Q>(
        &self,
        key: &Q,
        charge: u64,
        value: V,
    ) -> Result<CacheHandle<'_, K, V>, Refusal>
    where
        K: Borrow<Q>,
        Q: WordsKey<Form = K::Form> + ?Sized,
    {
        if charge == 0 {
            return Err(Refusal::ZeroCharge);
        }
        let route = self.route(key);
        let node = Node::new(route.key, charge, value);
        let mut left = self.left();
        let shard = &self.shards[route.shard];
        let mut state = shard.lock();
        let (inserted, ended) = state.insert(route, node, &mut left);
        let inserted = inserted.map(|pin| self.handle(route.shard, pin));
        shard.unlock(state, ended);
        // A value that is refused is dropped, and the listener is not told of it.
        let handle = inserted.map_err(|(refusal, _node)| refusal)?;
        // If the drop of a value panics, the handle is dropped too. It would be leaked if it were
        // the return value already.
        drop(left);
        Ok(handle)
    }

    /// Returns whether the key has a value, as [`get`](Self::get) looks for it. Takes the lock of
    /// the shard, and counts as a use.
    ///
    /// # Errors
    ///
    /// As [`get`](Self::get).
    pub fn contains<Q>(&self, key: &Q) -> Result<bool, Refusal>
    where
        K: Borrow<Q>,
        Q: WordsKey<Form = K::Form> + ?Sized,
    {
        let route = self.route(key);
        let mut left = self.left();
        let mut state = self.shards[route.shard].lock();
        let found = state.find(route)?;
        if let Some(pin) = found {
            state.unpin(pin.place, &mut left);
        }
        drop(state);
        Ok(found.is_some())
    }

    /// Takes the key's value away: the next caller that asks for the key makes a new one, even if
    /// one is being made. Handles of the old value keep it, as with [`insert`](Self::insert).
    ///
    /// # Errors
    ///
    /// None: this call is never refused.
    pub fn invalidate<Q>(&self, key: &Q) -> Result<(), Refusal>
    where
        K: Borrow<Q>,
        Q: WordsKey<Form = K::Form> + ?Sized,
    {
        self.erase_if(self.route(key), || true);
        Ok(())
    }

    /// Evicts the key's value if it is idle. If it has a handle, nothing changes, except that this
    /// counts as a use of it.
    ///
    /// # Errors
    ///
    /// None: this call is never refused.
    pub fn advice_evict<Q>(&self, key: &Q) -> Result<(), Refusal>
    where
        K: Borrow<Q>,
        Q: WordsKey<Form = K::Form> + ?Sized,
    {
        let route = self.route(key);
        let mut left = self.left();
        let mut state = self.shards[route.shard].lock();
        // A value that cannot be pinned once more is not idle.
        if let Ok(Some(pin)) = state.find(route) {
            state.release_and_evict(pin.place, &mut left);
        }
        drop(state);
        Ok(())
    }

    /// Evicts every idle value, one shard after another.
    pub fn prune(&self) {
        for shard in &self.shards {
            let mut left = self.left();
            shard.lock().prune(&mut left);
        }
    }

    /// Takes the value of every key away, as [`invalidate`](Self::invalidate) does for one key, one
    /// shard after another. What other threads insert meanwhile may stay.
    ///
    /// # Errors
    ///
    /// [`Refusal::Overflow`] if a value has about a billion handles. Other values have left then.
    ///
    /// # Examples
    ///
    /// ```
    /// use concurrent_lru_proved::clock::Cache;
    ///
    /// # fn main() -> Result<(), concurrent_lru_proved::Refusal> {
    /// let cache = Cache::<u64, &str>::new(10)?;
    /// let seven = cache.insert(&7, 1, "seven")?;
    /// cache.insert(&8, 1, "eight")?;
    /// cache.clear()?;
    /// assert!(!cache.contains(&7)? && !cache.contains(&8)?);
    /// assert_eq!((*seven, cache.len()), ("seven", 1));
    /// # Ok(())
    /// # }
    /// ```
    pub fn clear(&self) -> Result<(), Refusal> {
        self.shards.iter().try_for_each(|shard| {
            let mut left = self.left();
            let mut state = shard.lock();
            let (cleared, ended) = state.clear(self.seed, self.shards.len(), &mut left);
            shard.unlock(state, ended);
            cleared
        })
    }

    /// Takes the values away, as [`invalidate`](Self::invalidate) does, for which `keep` returns
    /// `false`. It is called with each key, as it is written, each value and its charge, in no
    /// particular order. Values that are being made stay, and those that other threads insert
    /// meanwhile may stay.
    ///
    /// No lock is held while `keep` runs, and the value is pinned, so `keep` may call the cache. If
    /// it panics, the values have left for which it has returned `false`.
    ///
    /// # Errors
    ///
    /// [`Refusal::Overflow`] if a value has about a billion handles. Other values have left then.
    ///
    /// # Examples
    ///
    /// ```
    /// use concurrent_lru_proved::clock::Cache;
    ///
    /// # fn main() -> Result<(), concurrent_lru_proved::Refusal> {
    /// // The keys are a file and a page of it.
    /// let pages = Cache::<(u32, u64), &str>::new(100)?;
    /// pages.insert(&(1, 7), 1, "a page")?;
    /// pages.insert(&(2, 7), 1, "a page of another file")?;
    /// pages.retain(|[file, _], _, _| file != 1)?;
    /// assert!(!pages.contains(&(1, 7))? && pages.contains(&(2, 7))?);
    /// # Ok(())
    /// # }
    /// ```
    pub fn retain(&self, mut keep: impl FnMut([u64; 2], &V, u64) -> bool) -> Result<(), Refusal> {
        self.visit(|handle| {
            let node = handle.node();
            if !keep(node.key, &node.value, node.charge) {
                let route = Route::new(node.key, self.seed, self.shards.len());
                self.erase_if(route, || node.is_listed());
            }
        })
    }

    /// Calls `visit` for each value that its key finds, in no particular order. Values that are
    /// being made are left out, and so are those that were invalidated or replaced; those that
    /// other threads insert meanwhile may be. This is no use of a value.
    ///
    /// No lock is held while `visit` runs, and the value is pinned, so `visit` may call the cache.
    ///
    /// # Errors
    ///
    /// [`Refusal::Overflow`] if a value has about a billion handles. Other values have been visited
    /// then.
    ///
    /// # Examples
    ///
    /// ```
    /// use concurrent_lru_proved::clock::Cache;
    ///
    /// # fn main() -> Result<(), concurrent_lru_proved::Refusal> {
    /// let cache = Cache::<u64, &str>::new(10)?;
    /// cache.insert(&7, 3, "seven")?;
    /// let mut all = Vec::new();
    /// cache.for_each(|entry| {
    ///     let [_, key] = entry.key;
    ///     all.push((key, *entry.value, entry.charge));
    /// })?;
    /// assert_eq!(all, [(7, "seven", 3)]);
    /// # Ok(())
    /// # }
    /// ```
    pub fn for_each(&self, mut visit: impl FnMut(EntryRef<'_, V>)) -> Result<(), Refusal> {
        self.visit(|handle| {
            let node = handle.node();
            visit(EntryRef {
                key: node.key,
                value: &node.value,
                charge: node.charge,
            });
        })
    }

    /// Returns the number of values, including those that were invalidated or replaced and still
    /// have a handle, but not those that are being made. The shards are read one after another, so
    /// it is no snapshot if other threads call the cache.
    pub fn len(&self) -> u64 {
        self.shards.iter().map(|shard| shard.lock().len()).sum()
    }

    /// Returns whether [`len`](Self::len) is 0.
    pub fn is_empty(&self) -> bool {
        self.len() == 0
    }

    /// Returns the total of the charges of these values. No snapshot, as [`len`](Self::len).
    pub fn total_charge(&self) -> u128 {
        let totals = self.shards.iter().map(|shard| shard.lock().total());
        totals.map(u128::from).sum()
    }

    /// Returns the total of the charges of the values that have a handle. Visits all values. No
    /// snapshot, as [`len`](Self::len).
    pub fn pinned_charge(&self) -> u128 {
        let charges = self.shards.iter().map(|shard| shard.lock().pinned_charge());
        charges.map(u128::from).sum()
    }

    /// Returns the total of the capacities of all shards. Rounding may make it more than the
    /// capacity that was set.
    pub fn capacity(&self) -> u128 {
        let capacities = self.shards.iter().map(|shard| shard.lock().capacity());
        capacities.map(u128::from).sum()
    }

    /// Returns how many values were stored and have left since the cache was created, how many were
    /// made or could not be made, and what the cache holds. It costs a hit nothing. No snapshot, as
    /// [`len`](Self::len).
    ///
    /// # Examples
    ///
    /// ```
    /// use concurrent_lru_proved::clock::Cache;
    ///
    /// # fn main() -> Result<(), concurrent_lru_proved::Refusal> {
    /// let cache = Cache::<u64, String>::new(10)?;
    /// for key in [7, 8, 7, 7] {
    ///     cache.get_or_init(&key, 1, |key| key.to_string())?;
    /// }
    /// cache.invalidate(&8)?;
    /// let stats = cache.stats();
    /// assert_eq!((stats.loads, stats.evictions, stats.entries), (2, 1, 1));
    /// # Ok(())
    /// # }
    /// ```
    pub fn stats(&self) -> Stats {
        let shards = self.shards.iter().map(|shard| shard.lock().stats());
        shards.fold(Stats::default(), Stats::saturating_add)
    }

    /// Sets the capacity, of which each shard gets an equal share, rounded up. Idle values that
    /// exceed it are evicted at once.
    pub fn set_capacity(&self, capacity: u64) {
        let share = share(capacity, self.shards.len());
        for shard in &self.shards {
            let mut left = self.left();
            shard.lock().set_capacity(share, &mut left);
        }
    }

    /// Makes room for `entries` values, an equal share in each shard, rounded up, so that no call
    /// that stores one makes room for more under the lock until there are more in its shard.
    ///
    /// # Errors
    ///
    /// [`Refusal::Memory`] if there is no memory for them. [`Refusal::Overflow`] if a share is
    /// above 4,294,966,784. The shards before the one that refused have room then.
    pub fn reserve(&self, entries: usize) -> Result<(), Refusal> {
        let share = entries.div_ceil(self.shards.len());
        let mut shards = self.shards.iter();
        shards.try_for_each(|shard| shard.lock().reserve(share))
    }

    /// Sets whether the capacity of each shard is a strict limit, which it is not in a new cache,
    /// one shard after another. It costs a hit nothing.
    ///
    /// If it is, no value is stored whose charge, with the charges of the pinned values of its
    /// shard, is above the capacity of the shard: [`get_or_init`](Self::get_or_init),
    /// [`insert`](Self::insert), [`Maker::ready`] and the calls named after them return
    /// [`Refusal::Full`]. All idle values are evicted before that, unless the call is an `insert`
    /// or the charge alone is above the capacity. A value that exists is found as before. The total
    /// is then never above the capacity, unless it is already, or
    /// [`set_capacity`](Self::set_capacity) lowers the capacity below the charges of the pinned
    /// values.
    ///
    /// # Examples
    ///
    /// ```
    /// use concurrent_lru_proved::Refusal;
    /// use concurrent_lru_proved::clock::Cache;
    ///
    /// # fn main() -> Result<(), Refusal> {
    /// let cache = Cache::<u64, &str>::new(10)?;
    /// cache.set_strict_limit(true);
    /// let seven = cache.insert(&7, 6, "seven")?;
    /// assert_eq!(cache.insert(&8, 5, "eight").err(), Some(Refusal::Full));
    /// drop(seven); // idle, so it leaves
    /// assert_eq!(*cache.insert(&8, 5, "eight")?, "eight");
    /// # Ok(())
    /// # }
    /// ```
    pub fn set_strict_limit(&self, strict: bool) {
        for shard in &self.shards {
            shard.lock().set_strict_limit(strict);
        }
    }

    /// Returns whether the capacity of every shard is a strict limit. No snapshot, as
    /// [`len`](Self::len).
    pub fn is_limit_strict(&self) -> bool {
        self.shards
            .iter()
            .all(|shard| shard.lock().is_limit_strict())
    }

    /// An empty list, whose values the listener is told of.
    fn left(&self) -> Left<'_, V> {
        Left::new(self.listener.as_deref())
    }

    #[inline]
    fn route<Q: WordsKey + ?Sized>(&self, key: &Q) -> Route {
        Route::new(key.words(), self.seed, self.shards.len())
    }

    fn handle(&self, shard: usize, pin: Pin<V>) -> CacheHandle<'_, K, V> {
        CacheHandle {
            cache: self,
            shard,
            pin,
        }
    }

    /// Pins the value of a key without the lock. Returns another code than that of a hit.
    #[inline]
    fn look(&self, route: Route) -> Result<Pin<V>, u32> {
        let Some(reader) = self.lanes.reader(route.shard) else {
            return Err(ffi::CLOSED);
        };
        let [first, second] = route.key;
        // SAFETY: only this thread uses the reader.
        let found = unsafe { ffi::lru_reader_pin(reader, route.hash, first, second) };
        match found.code {
            ffi::HIT => Ok(Pin::of(found)),
            code => Err(code),
        }
    }

    /// Locks a shard after a call with a reader was told this code. If the reader is not open,
    /// opens it.
    fn lock_after(&self, code: u32, shard: usize) -> MutexGuard<'_, State<V>> {
        let reader = match code {
            ffi::CLOSED => self.lanes.make(shard),
            _ => None,
        };
        let mut state = self.shards[shard].lock();
        if let Some(reader) = reader {
            state.open(reader);
        }
        state
    }

    /// Pins the value of a key with the lock, after a look without it was told this code: it may
    /// have missed a value that is there.
    #[cold]
    fn look_again(
        &self,
        route: Route,
        code: u32,
    ) -> Result<Option<CacheHandle<'_, K, V>>, Refusal> {
        let found = self.lock_after(code, route.shard).find(route)?;
        Ok(found.map(|pin| self.handle(route.shard, pin)))
    }

    /// Begins with the lock, after a look without it was told this code.
    #[cold]
    fn begin_locked(
        &self,
        code: u32,
        route: Route,
        charge: u64,
    ) -> Result<Begun<'_, K, V>, Refusal> {
        match self.ask_again(self.lock_after(code, route.shard), route, charge)? {
            Answer::Begun(begun) => Ok(begun),
            Answer::Wait(state, ticket) => self.sleep(state, ticket, route, charge),
        }
    }

    /// Pins the value of a key, or begins to make it, or tells that another caller makes it.
    fn ask(&self, route: Route, charge: u64) -> Result<Answer<'_, K, V>, Refusal> {
        if charge == 0 {
            return Err(Refusal::ZeroCharge);
        }
        match self.look(route) {
            Ok(pin) => Ok(Answer::Begun(Begun::Hit(self.handle(route.shard, pin)))),
            Err(code) => self.ask_again(self.lock_after(code, route.shard), route, charge),
        }
    }

    /// Asks with the lock.
    fn ask_again<'a>(
        &'a self,
        mut state: MutexGuard<'a, State<V>>,
        route: Route,
        charge: u64,
    ) -> Result<Answer<'a, K, V>, Refusal> {
        let mut left = self.left();
        let begun = match state.begin(route, charge, &mut left) {
            Ok(Turn::Wait(ticket)) => return Ok(Answer::Wait(state, ticket)),
            Ok(Turn::Hit(pin)) => Ok(Begun::Hit(self.handle(route.shard, pin))),
            Ok(Turn::Make(ticket)) => Ok(Begun::Make(Maker {
                cache: self,
                route,
                charge,
                ticket,
                begun: None,
            })),
            Err(refusal) => Err(refusal),
        };
        drop(state);
        // If the drop of a value panics, what was begun is dropped too.
        drop(left);
        let mut begun = begun?;
        if let Begun::Make(maker) = &mut begun {
            maker.begun = self.times_loads.then(Instant::now);
        }
        Ok(Answer::Begun(begun))
    }

    /// Blocks the thread until the making with this ticket has ended, and asks again, until this
    /// caller gets the value or makes it.
    fn sleep<'a>(
        &'a self,
        mut state: MutexGuard<'a, State<V>>,
        mut ticket: u64,
        route: Route,
        charge: u64,
    ) -> Result<Begun<'a, K, V>, Refusal> {
        loop {
            state = self.shards[route.shard].wait(state, ticket);
            (state, ticket) = match self.ask_again(state, route, charge)? {
                Answer::Begun(begun) => return Ok(begun),
                Answer::Wait(state, ticket) => (state, ticket),
            };
        }
    }

    /// Invalidates a key if this is so when the lock is held.
    fn erase_if(&self, route: Route, is_so: impl FnOnce() -> bool) {
        let mut left = self.left();
        let shard = &self.shards[route.shard];
        let mut state = shard.lock();
        let reason = Reason::Invalidated;
        let ended = is_so().then(|| state.erase(route, reason, &mut left));
        shard.unlock(state, ended.flatten());
    }

    /// Calls `visit` with a handle of each value that its key finds.
    fn visit(&self, mut visit: impl FnMut(&CacheHandle<'_, K, V>)) -> Result<(), Refusal> {
        for (shard, locked) in self.shards.iter().enumerate() {
            let places = locked.lock().places();
            for place in 0..places {
                if let Some(handle) = self.pin_at(shard, place)? {
                    if handle.node().is_listed() {
                        visit(&handle);
                    }
                }
            }
        }
        Ok(())
    }

    /// Pins the value at a place.
    fn pin_at(&self, shard: usize, place: u32) -> Result<Option<CacheHandle<'_, K, V>>, Refusal> {
        let mut found = ffi::Found::CLOSED;
        if let Some(reader) = self.lanes.reader(shard) {
            // SAFETY: only this thread uses the reader.
            found = unsafe { ffi::lru_reader_pin_at(reader, place) };
        }
        if found.code == ffi::CLOSED {
            found = self.lock_after(found.code, shard).pin_at(place);
        }
        Ok(told(found)?.map(|pin| self.handle(shard, pin)))
    }

    /// Pins the value of a handle once more.
    fn pin_again(&self, shard: usize, pin: Pin<V>) -> Result<CacheHandle<'_, K, V>, Refusal> {
        match self.pin_at(shard, pin.place)? {
            Some(handle) => Ok(handle),
            None => unreachable!("the value is pinned"),
        }
    }

    /// Gives back the pin of a handle, which is not used again, and evicts the value if the handle
    /// was its last.
    fn release_and_evict(&self, shard: usize, place: u32) {
        let mut left = self.left();
        self.shards[shard]
            .lock()
            .release_and_evict(place, &mut left);
    }

    /// Gives back the pin of a handle, which is not used again.
    #[inline]
    fn unpin(&self, shard: usize, place: u32) {
        let mut code = ffi::CLOSED;
        if let Some(reader) = self.lanes.reader(shard) {
            // SAFETY: only this thread uses the reader.
            code = unsafe { ffi::lru_reader_unpin(reader, place) };
        }
        if code != ffi::DONE {
            self.unpin_locked(shard, place, code);
        }
    }

    /// Does with the lock what is left to do after the reader was told this code.
    #[cold]
    fn unpin_locked(&self, shard: usize, place: u32, code: u32) {
        let mut left = self.left();
        let mut state = self.lock_after(code, shard);
        if code == ffi::CLOSED {
            state.unpin(place, &mut left);
        } else {
            state.finish_unpin(code, place, &mut left);
        }
        // The lock is released before values are dropped.
        drop(state);
    }
}

impl<K: WordsKey + ?Sized, V> fmt::Debug for Cache<K, V> {
    fn fmt(&self, f: &mut fmt::Formatter<'_>) -> fmt::Result {
        f.debug_struct("Cache")
            .field("capacity", &self.capacity())
            .field("total_charge", &self.total_charge())
            .finish_non_exhaustive()
    }
}

/// What the calls on a cache have done since it was created, and what it holds now.
///
/// Hits are not counted: a counter that all threads write would cost a hit as much as a lock. The
/// values inserted are those present and those that have left: `insertions` is the sum of `entries`
/// and `evictions`. To count from some time on, subtract the numbers of that time.
#[derive(Debug, Clone, Copy, Default, PartialEq, Eq)]
#[non_exhaustive]
pub struct Stats {
    /// Values that were stored, by [`insert`](Cache::insert) or by those who made them.
    pub insertions: u64,
    /// Values that have left, for whatever [`Reason`].
    pub evictions: u64,
    /// Values that were made, by an `init` or by other holders of a [`Maker`], and stored.
    pub loads: u64,
    /// Values that could not be made, as `init` failed, panicked or was dropped or a [`Maker`] was
    /// dropped, and those that were made and refused.
    pub load_failures: u64,
    /// The time that these took in all, from the call that was to make the value until it was
    /// stored or could not be. Zero unless the cache was created
    /// [`with_load_times`](Cache::with_load_times).
    pub load_time: Duration,
    /// Values present, as [`len`](Cache::len) returns it.
    pub entries: u64,
    /// The total of their charges, as [`total_charge`](Cache::total_charge) returns it.
    pub charge: u128,
    /// The capacity, as [`capacity`](Cache::capacity) returns it.
    pub capacity: u128,
}

impl Stats {
    /// Returns the sums of these numbers and those of another cache, one by one. A sum stays at the
    /// maximum of its type.
    pub fn saturating_add(self, other: Stats) -> Stats {
        Stats {
            insertions: self.insertions.saturating_add(other.insertions),
            evictions: self.evictions.saturating_add(other.evictions),
            loads: self.loads.saturating_add(other.loads),
            load_failures: self.load_failures.saturating_add(other.load_failures),
            load_time: self.load_time.saturating_add(other.load_time),
            entries: self.entries.saturating_add(other.entries),
            charge: self.charge.saturating_add(other.charge),
            capacity: self.capacity.saturating_add(other.capacity),
        }
    }
}

/// A value of a cache by reference, with its key. [`Cache::for_each`] passes one for each value.
#[derive(Debug, Clone, Copy, PartialEq, Eq)]
#[non_exhaustive]
pub struct EntryRef<'a, V> {
    /// The key, as it is [written](crate::key::Key::written). A number is the second word.
    pub key: [u64; 2],
    /// The value.
    pub value: &'a V,
    /// What the value counts for against the capacity.
    pub charge: u64,
}

/// What a caller that asks for a value gets.
pub type Begun<'a, K, V> = makings::Begun<CacheHandle<'a, K, V>, Maker<'a, K, V>>;

/// What a caller that asked for a key has got.
enum Answer<'a, K: WordsKey + ?Sized, V> {
    Begun(Begun<'a, K, V>),
    /// Another caller makes the value, with this ticket. The lock is still held.
    Wait(MutexGuard<'a, State<V>>, u64),
}

/// The duty to make a value, while other callers that ask for its key wait.
///
/// If it is dropped, the making has failed, as if `init` of
/// [`get_or_try_init`](Cache::get_or_try_init) had: the cache keeps no entry, and one of those that
/// wait makes the value. If it is forgotten, they wait until the key is invalidated or gets another
/// value.
#[must_use = "the making fails if this is dropped"]
pub struct Maker<'a, K: WordsKey + ?Sized, V> {
    cache: &'a Cache<K, V>,
    route: Route,
    charge: u64,
    ticket: u64,
    /// Is `None` if the cache does not measure how long it takes to make values.
    begun: Option<Instant>,
}

impl<'a, K: WordsKey + ?Sized, V> Maker<'a, K, V> {
    fn time(&self) -> Duration {
        self.begun.map_or(Duration::ZERO, |begun| begun.elapsed())
    }

    /// Makes `value` the value, which those that wait get too, and returns a handle of it. If the
    /// key was invalidated or got another value meanwhile, only this caller gets the value.
    ///
    /// # Errors
    ///
    /// [`Refusal::Overflow`] if the total of the charges of the shard would exceed `u64::MAX`.
    /// [`Refusal::Memory`] if there is no memory for a new entry. [`Refusal::Full`] if the limit is
    /// strict and there is no room any more. The making has failed then, and the value is dropped.
    /// Others may have been evicted for it.
    pub fn ready(self, value: V) -> Result<CacheHandle<'a, K, V>, Refusal> {
        let charge = self.charge;
        self.ready_with(value, charge)
    }

    /// Makes `value` the value, as [`ready`](Self::ready) does, with this charge in place of that
    /// with which the making was begun.
    ///
    /// # Errors
    ///
    /// [`Refusal::ZeroCharge`] if `charge` is 0: the making has failed then, and the value is
    /// dropped. Otherwise as [`ready`](Self::ready).
    ///
    /// # Examples
    ///
    /// ```
    /// use concurrent_lru_proved::Begun;
    /// use concurrent_lru_proved::clock::Cache;
    ///
    /// # fn main() -> Result<(), concurrent_lru_proved::Refusal> {
    /// let cache = Cache::<u64, Vec<u8>>::new(10_000)?;
    /// if let Begun::Make(maker) = cache.begin(&7, 1)? {
    ///     let bytes = vec![0; 100];
    ///     let charge = bytes.len() as u64;
    ///     maker.ready_with(bytes, charge)?;
    /// }
    /// assert_eq!(cache.total_charge(), 100);
    /// # Ok(())
    /// # }
    /// ```
    pub fn ready_with(self, value: V, charge: u64) -> Result<CacheHandle<'a, K, V>, Refusal> {
        if charge == 0 {
            // The making ends before the value is dropped, which may take long.
            drop(self);
            return Err(Refusal::ZeroCharge);
        }
        let this = ManuallyDrop::new(self);
        let node = Node::new(this.route.key, charge, value);
        let time = this.time();
        let mut left = this.cache.left();
        let shard = &this.cache.shards[this.route.shard];
        let mut state = shard.lock();
        let (made, ended) = state.ready(this.route, this.ticket, node, time, &mut left);
        let made = made.map(|pin| this.cache.handle(this.route.shard, pin));
        shard.unlock(state, ended);
        // As in `insert`.
        let handle = made.map_err(|(refusal, _node)| refusal)?;
        drop(left);
        Ok(handle)
    }
}

impl<K: WordsKey + ?Sized, V> fmt::Debug for Maker<'_, K, V> {
    fn fmt(&self, f: &mut fmt::Formatter<'_>) -> fmt::Result {
        f.debug_struct("Maker").finish_non_exhaustive()
    }
}

impl<K: WordsKey + ?Sized, V> Drop for Maker<'_, K, V> {
    fn drop(&mut self) {
        let time = self.time();
        let shard = &self.cache.shards[self.route.shard];
        let mut state = shard.lock();
        let ended = state.fail(self.ticket, time);
        shard.unlock(state, ended);
    }
}

/// A task that waits for a value. If it is dropped, it waits no more.
struct Waiter<'a, K: WordsKey + ?Sized, V> {
    cache: &'a Cache<K, V>,
    route: Route,
    charge: u64,
    /// The ticket of the making that it waits for.
    making: u64,
    /// By which the list of those that wait for that making finds its waker.
    ticket: Option<u64>,
}

impl<'a, K: WordsKey + ?Sized, V> Waiter<'a, K, V> {
    fn new(cache: &'a Cache<K, V>, route: Route, charge: u64, making: u64) -> Self {
        Waiter {
            cache,
            route,
            charge,
            making,
            ticket: None,
        }
    }

    /// Asks again if the making has ended. Otherwise has the task woken when it ends.
    fn poll(&mut self, context: &mut Context<'_>) -> Poll<Result<Begun<'a, K, V>, Refusal>> {
        // A waker runs code of its task when it is cloned or dropped, which may call the cache.
        let mut waker = Some(context.waker().clone());
        let cache = self.cache;
        let mut state = cache.shards[self.route.shard].lock();
        if state.wait_list(self.making).is_none() {
            self.ticket = None;
            (state, self.making) = match cache.ask_again(state, self.route, self.charge)? {
                Answer::Begun(begun) => return Poll::Ready(Ok(begun)),
                Answer::Wait(state, making) => (state, making),
            };
        }
        if let Some(list) = state.wait_list(self.making) {
            list.add_task(&mut self.ticket, &mut waker)?;
        }
        Poll::Pending
    }
}

impl<K: WordsKey + ?Sized, V> Drop for Waiter<'_, K, V> {
    fn drop(&mut self) {
        let Some(ticket) = self.ticket else {
            return;
        };
        // When a making ends, all that wait for it are woken. So if this one was, it need not wake
        // another.
        let mut state = self.cache.shards[self.route.shard].lock();
        let list = state.wait_list(self.making);
        let waker = list.and_then(|list| list.remove_task(ticket));
        drop(state);
        drop(waker);
    }
}

/// A pinned value: it is not evicted while the handle lives.
///
/// Without its last handle the value is idle. If a handle is forgotten, its value stays until the
/// cache is dropped.
///
/// Other threads may have a handle, or a reference to one, only if values can be shared and sent:
///
/// ```compile_fail,E0277
/// use concurrent_lru_proved::clock::CacheHandle;
/// use std::cell::Cell;
///
/// fn send<T: Send>() {}
///
/// send::<CacheHandle<'static, u64, Cell<u64>>>();
/// ```
///
/// ```compile_fail,E0277
/// use concurrent_lru_proved::clock::CacheHandle;
/// use std::sync::MutexGuard;
///
/// fn share<T: Sync>() {}
///
/// share::<CacheHandle<'static, u64, MutexGuard<'static, u64>>>();
/// ```
pub struct CacheHandle<'a, K: WordsKey + ?Sized, V> {
    cache: &'a Cache<K, V>,
    /// The number of the shard that has the entry.
    shard: usize,
    pin: Pin<V>,
}

// SAFETY: a handle gives shared access to its value, and dropping it may drop values of the cache.
// Both are sound on any thread if values are `Sync` and `Send`.
unsafe impl<K: WordsKey + ?Sized, V: Send + Sync> Send for CacheHandle<'_, K, V> {}

// SAFETY: a shared handle gives shared access to its value only.
unsafe impl<K: WordsKey + ?Sized, V: Send + Sync> Sync for CacheHandle<'_, K, V> {}

impl<K: WordsKey + ?Sized, V> CacheHandle<'_, K, V> {
    /// Returns the value.
    pub fn value(&self) -> &V {
        &self.node().value
    }

    /// Returns another handle of the same value, even if the key has another value by now, or none.
    /// No key is looked up, and it takes no lock.
    ///
    /// Handles do not implement [`Clone`], as `clone` could only panic if the cache refuses. If the
    /// type of the value has a `try_clone` too, as [`File`](std::fs::File) has, call that one by
    /// `handle.value().try_clone()`.
    ///
    /// # Errors
    ///
    /// [`Refusal::Overflow`] if the value has about a billion handles: in practice, only if handles
    /// are forgotten, as by [`mem::forget`](std::mem::forget).
    ///
    /// # Examples
    ///
    /// ```
    /// use concurrent_lru_proved::clock::Cache;
    ///
    /// # fn main() -> Result<(), concurrent_lru_proved::Refusal> {
    /// let cache = Cache::<u64, String>::new(10)?;
    /// let handle = cache.insert(&7, 1, "seven".to_string())?;
    /// cache.invalidate(&7)?;
    /// let clone = handle.try_clone()?;
    /// drop(handle);
    /// assert_eq!(*clone, "seven");
    /// # Ok(())
    /// # }
    /// ```
    pub fn try_clone(&self) -> Result<Self, Refusal> {
        self.cache.pin_again(self.shard, self.pin)
    }

    /// Drops the handle, with the lock of the shard, and evicts the value at once if this was its
    /// last handle, in place of leaving it idle.
    ///
    /// If the value has another handle, this is the same as [`drop`].
    ///
    /// # Examples
    ///
    /// ```
    /// use concurrent_lru_proved::clock::Cache;
    ///
    /// # fn main() -> Result<(), concurrent_lru_proved::Refusal> {
    /// let cache = Cache::<u64, String>::new(10)?;
    /// let first = cache.insert(&7, 1, "seven".to_string())?;
    /// let second = first.try_clone()?;
    /// first.release_and_evict();
    /// assert!(cache.contains(&7)?);
    /// second.release_and_evict();
    /// assert!(!cache.contains(&7)?);
    /// # Ok(())
    /// # }
    /// ```
    pub fn release_and_evict(self) {
        let this = ManuallyDrop::new(self);
        this.cache.release_and_evict(this.shard, this.pin.place);
    }

    fn node(&self) -> &Node<V> {
        // SAFETY: the handle has a pin of the entry, so its node is not dropped before the handle
        // is. Nothing has mutable access to a node in the cache.
        unsafe { self.pin.node.as_ref() }
    }
}

impl<K: WordsKey + ?Sized, V> Deref for CacheHandle<'_, K, V> {
    type Target = V;

    fn deref(&self) -> &V {
        self.value()
    }
}

impl<K: WordsKey + ?Sized, V: fmt::Debug> fmt::Debug for CacheHandle<'_, K, V> {
    fn fmt(&self, f: &mut fmt::Formatter<'_>) -> fmt::Result {
        f.debug_tuple("CacheHandle").field(self.value()).finish()
    }
}

impl<K: WordsKey + ?Sized, V> Drop for CacheHandle<'_, K, V> {
    #[inline]
    fn drop(&mut self) {
        self.cache.unpin(self.shard, self.pin.place);
    }
}

/// A pinned value, as [`CacheHandle`], with a handle that borrows nothing and keeps its cache
/// alive.
///
/// Calls such as [`Cache::get_owned`] return it for a cache in an [`Arc`]. If a value of the cache
/// has such a handle of the same cache, neither is ever dropped.
///
/// It can be sent and shared as a [`CacheHandle`]:
///
/// ```compile_fail,E0277
/// use concurrent_lru_proved::clock::OwnedHandle;
/// use std::cell::Cell;
///
/// fn send<T: Send>() {}
///
/// send::<OwnedHandle<u64, Cell<u64>>>();
/// ```
///
/// ```compile_fail,E0277
/// use concurrent_lru_proved::clock::OwnedHandle;
/// use std::sync::MutexGuard;
///
/// fn share<T: Sync>() {}
///
/// share::<OwnedHandle<u64, MutexGuard<'static, u64>>>();
/// ```
pub struct OwnedHandle<K: WordsKey + ?Sized, V> {
    cache: Arc<Cache<K, V>>,
    /// The number of the shard that has the entry.
    shard: usize,
    pin: Pin<V>,
}

// SAFETY: as for `CacheHandle`. Dropping the handle may also drop the cache, which may move to
// another thread if its values may.
unsafe impl<K: WordsKey + ?Sized, V: Send + Sync> Send for OwnedHandle<K, V> {}

// SAFETY: a shared handle gives shared access to its value only.
unsafe impl<K: WordsKey + ?Sized, V: Send + Sync> Sync for OwnedHandle<K, V> {}

impl<K: WordsKey + ?Sized, V> OwnedHandle<K, V> {
    /// Takes over the pin of a handle of this cache.
    fn of(cache: &Arc<Cache<K, V>>, handle: CacheHandle<'_, K, V>) -> OwnedHandle<K, V> {
        let handle = ManuallyDrop::new(handle);
        OwnedHandle {
            cache: Arc::clone(cache),
            shard: handle.shard,
            pin: handle.pin,
        }
    }

    /// Returns the value.
    pub fn value(&self) -> &V {
        // SAFETY: the handle has a pin of the entry and keeps the cache alive, so its node is not
        // dropped before the handle is. Nothing has mutable access to a node in the cache.
        let node = unsafe { self.pin.node.as_ref() };
        &node.value
    }

    /// Returns another handle of the same value, as [`CacheHandle::try_clone`] does, which keeps
    /// the cache alive too.
    ///
    /// # Errors
    ///
    /// As [`CacheHandle::try_clone`].
    pub fn try_clone(&self) -> Result<Self, Refusal> {
        let handle = self.cache.pin_again(self.shard, self.pin)?;
        Ok(OwnedHandle::of(&self.cache, handle))
    }

    /// Drops the handle, and evicts the value at once if this was its last handle, as
    /// [`CacheHandle::release_and_evict`] does.
    pub fn release_and_evict(self) {
        let this = ManuallyDrop::new(self);
        // SAFETY: `this` is not dropped, so only the copy drops the `Arc`. No other field of a
        // handle has to be dropped.
        let cache = unsafe { ptr::read(&this.cache) };
        cache.release_and_evict(this.shard, this.pin.place);
    }
}

impl<K: WordsKey + ?Sized, V> Deref for OwnedHandle<K, V> {
    type Target = V;

    fn deref(&self) -> &V {
        self.value()
    }
}

impl<K: WordsKey + ?Sized, V: fmt::Debug> fmt::Debug for OwnedHandle<K, V> {
    fn fmt(&self, f: &mut fmt::Formatter<'_>) -> fmt::Result {
        f.debug_tuple("OwnedHandle").field(self.value()).finish()
    }
}

impl<K: WordsKey + ?Sized, V> Drop for OwnedHandle<K, V> {
    fn drop(&mut self) {
        self.cache.unpin(self.shard, self.pin.place);
    }
}

#[cfg(test)]
mod tests {
    use std::mem::ManuallyDrop;
    use std::num::NonZeroUsize;
    use std::sync::{Barrier, mpsc};
    use std::thread;
    use std::time::Duration;

    use super::Cache;
    use crate::error::Refusal;

    #[test]
    fn hits_clones_and_drops_take_no_lock() -> Result<(), Refusal> {
        let cache = Cache::<u64, u64>::with_shards(10, NonZeroUsize::MIN)?;
        cache.insert(&1, 1, 10)?;
        let (is_open, is_locked) = (Barrier::new(2), Barrier::new(2));
        let (sender, done) = mpsc::channel();
        thread::scope(|scope| {
            scope.spawn(|| {
                // The first call opens the reader of the thread.
                let opened = cache.get(&1).map(drop);
                is_open.wait();
                is_locked.wait();
                let found = cache.get(&1).ok().flatten();
                let clone = found.as_ref().map(|handle| handle.try_clone());
                let hit = cache.get_or_init(&1, 1, |_| 11).map(|handle| *handle);
                let clone = clone.and_then(|clone| clone.ok().map(|handle| *handle));
                let _ = sender.send((opened, clone, hit));
            });
            is_open.wait();
            let locked = cache.shards[0].lock();
            is_locked.wait();
            let told = done.recv_timeout(Duration::from_secs(60));
            drop(locked);
            assert_eq!(told, Ok((Ok(()), Some(10), Ok(10))));
        });
        Ok(())
    }

    #[test]
    fn room_is_reserved_in_each_shard() -> Result<(), Refusal> {
        let shards = NonZeroUsize::new(4).unwrap();
        let cache = Cache::<u64, u64>::with_seed(1000, shards, 0)?;
        let places = || {
            let shards = cache.shards.iter();
            shards
                .map(|shard| shard.lock().places())
                .collect::<Vec<_>>()
        };
        assert_eq!(places(), [0; 4]);
        cache.reserve(398)?;
        let reserved = places();
        assert!(reserved.iter().all(|places| *places >= 100));
        for key in 0..200 {
            cache.insert(&key, 1, key)?;
        }
        assert_eq!((cache.len(), places()), (200, reserved));
        assert_eq!(cache.reserve(usize::MAX), Err(Refusal::Overflow));
        Ok(())
    }

    #[test]
    fn what_a_reader_misses_is_found_with_the_lock() -> Result<(), Refusal> {
        let cache = Cache::<u64, u64>::with_shards(10, NonZeroUsize::MIN)?;
        let empty = Cache::<u64, u64>::with_shards(10, NonZeroUsize::MIN)?;
        // A reader of another clock misses everything, as a reader seldom does.
        let reader = cache.lanes.make(0).ok_or(Refusal::Memory)?;
        empty.shards[0].lock().open(reader);
        // The handles are not dropped, as this reader has not their pins.
        let inserted = ManuallyDrop::new(cache.insert(&1, 1, 10)?);
        let found = ManuallyDrop::new(cache.get(&1)?);
        let hit = ManuallyDrop::new(cache.get_or_init(&1, 1, |_| 11)?);
        assert_eq!((**inserted, found.as_deref(), **hit), (10, Some(&10), 10));
        assert!(cache.get(&2)?.is_none());
        Ok(())
    }
}
