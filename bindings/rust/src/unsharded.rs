//! A cache behind one lock.

use std::borrow::Borrow;
use std::convert::Infallible;
use std::fmt;
use std::future;
use std::marker::PhantomData;
use std::mem::{self, ManuallyDrop};
use std::ops::Deref;
use std::panic::AssertUnwindSafe;
use std::ptr::{self, NonNull};
use std::sync::{Arc, Condvar, Mutex, MutexGuard, PoisonError};
use std::task::{Context, Poll};
use std::time::{Duration, Instant};

use crate::entry::EntryRef;
use crate::error::{GetError, Refusal};
use crate::ffi::{Gone, Pin};
use crate::form::{self, Form, Hashed, Written};
use crate::key::Key;
use crate::leaving::{Evicted, Leaving, Listener, Reason};
use crate::makings::{self, Loads, Makings, UNKNOWN_CHARGE};
use crate::proved::{Asked, Core, Stored, random_seed};
use crate::stats::Stats;
use crate::waiting::Sleepers;

/// A cache of heavy values that threads share, behind one lock.
///
/// A [`CacheHandle`] pins its value: a pinned value is not evicted. A value without a handle is
/// idle. While the total of all charges is above the capacity, idle values are evicted, the least
/// recently released first. Pinned values may take the total above the capacity, unless the limit
/// is strict ([`set_strict_limit`](Self::set_strict_limit)).
///
/// No lock is held while values are made or dropped. So `init` and `Drop` of a value may be slow,
/// may panic, and may call the cache. But `init` must not ask for the key whose value it makes, and
/// must not wait for another thread that does: it would wait for itself. The same applies to the
/// `Drop` of a value that is evicted for the new one.
///
/// Keys are passed by reference, as in [`HashMap`](std::collections::HashMap): a cache with keys of
/// type `String` takes a `&str`. Each call hashes its key before it takes the lock. If the key is
/// written as bytes, it is copied with the lock held, so very long keys make other threads wait.
///
/// # Examples
///
/// ```
/// use concurrent_lru_proved::unsharded::LruCache;
///
/// # fn main() -> Result<(), concurrent_lru_proved::Refusal> {
/// let cache = LruCache::<String, usize>::new(10)?;
/// let handle = cache.get_or_init("seven", 1, |key| key.len())?;
/// assert_eq!(*handle, 5);
/// # Ok(())
/// # }
/// ```
///
/// A cache can be shared between threads only if its values can be shared and sent:
///
/// ```compile_fail,E0277
/// use concurrent_lru_proved::unsharded::LruCache;
/// use std::cell::Cell;
///
/// fn share<T: Sync>(_: &T) {}
///
/// share(&LruCache::<u64, Cell<u64>>::new(10).unwrap());
/// ```
///
/// ```compile_fail,E0277
/// use concurrent_lru_proved::unsharded::LruCache;
/// use std::sync::MutexGuard;
///
/// fn share<T: Sync>(_: &T) {}
///
/// share(&LruCache::<u64, MutexGuard<'static, u64>>::new(10).unwrap());
/// ```
pub struct LruCache<K: Key + ?Sized, V> {
    shared: Mutex<Shared<K::Form, V>>,
    /// With this, keys are hashed before the lock is taken.
    seed: u64,
    /// Notified when a value was made, or could not be made, that threads wait for.
    ended: Condvar,
    listener: Option<AssertUnwindSafe<Listener<K::Form, V>>>,
    times_loads: bool,
    keys: PhantomData<fn(&K)>,
    // Threads that share a cache also share its values, through handles.
    values: PhantomData<V>,
}

/// What the lock guards.
struct Shared<F: Form, V> {
    core: Core<F, V>,
    makings: Makings,
    loads: Loads,
}

impl<F: Form, V> Shared<F, V> {
    /// Asks for a key, as [`Core::begin`] does. A caller that is told to wait is counted.
    #[inline]
    fn begin(
        &mut self,
        key: Hashed<'_, F>,
        charge: u64,
        evicted: &mut Evicted<'_, F, V>,
    ) -> Result<Asked<V>, Refusal> {
        self.makings.reserve()?;
        let asked = self.core.begin(key, charge, evicted)?;
        match asked {
            Asked::Make(pin) => self.makings.add(pin),
            Asked::Wait(pin) => {
                if let Some(making) = self.makings.get(pin) {
                    making.join();
                }
            }
            Asked::Hit(..) => {}
        }
        Ok(asked)
    }

    /// Stores the value that the caller has made.
    fn ready(&mut self, pin: Pin, value: Box<V>) -> (NonNull<V>, Sleepers) {
        let value = self.core.ready(pin, value);
        (value, self.end(pin))
    }

    /// Stores the value that the caller has made, with its charge. If the core refuses it, the
    /// making has failed.
    fn ready_with(
        &mut self,
        pin: Pin,
        value: Box<V>,
        charge: u64,
        evicted: &mut Evicted<'_, F, V>,
    ) -> (Stored<V>, Sleepers) {
        let made = self.core.ready_with(pin, value, charge, evicted);
        let sleepers = match made {
            Ok(_) => self.end(pin),
            Err(_) => self.fail(pin),
        };
        (made, sleepers)
    }

    /// Ends a making whose value is stored.
    fn end(&mut self, pin: Pin) -> Sleepers {
        let Some(mut making) = self.makings.remove(pin) else {
            return Sleepers::default();
        };
        // The caller has a pin too, so nothing is evicted.
        for _ in 0..making.left() {
            self.core.unpin(pin);
        }
        making.wait_list.sleepers()
    }

    /// Tells that the caller could not make the value, and gives its pin back.
    fn fail(&mut self, pin: Pin) -> Sleepers {
        let mut has_others = self.core.fail(pin);
        if let Some(making) = self.makings.get(pin) {
            if making.is_awaited() {
                return making.wait_list.sleepers();
            }
        }
        // All others have left, so each of them fails in turn.
        while has_others && matches!(self.core.poll(pin), Ok(Asked::Make(_))) {
            has_others = self.core.fail(pin);
        }
        self.makings.remove(pin);
        Sleepers::default()
    }
}

impl<K: Key + ?Sized, V> LruCache<K, V> {
    /// Creates an empty cache. It evicts idle values while the total of all charges is above
    /// `capacity`. Keys are hashed with a random seed.
    ///
    /// The type of the keys must be named, as in `LruCache::<String, _>::new(10)`: calls take any
    /// type that it can be borrowed as, so it cannot be inferred from them.
    ///
    /// # Errors
    ///
    /// [`Refusal::Memory`] if there is no memory for the cache.
    pub fn new(capacity: u64) -> Result<Self, Refusal> {
        Self::with_seed(capacity, random_seed())
    }

    /// Creates an empty cache that hashes keys with the given seed, for tests that must be the same
    /// in each run.
    ///
    /// Whoever knows the seed can choose keys whose hashes are all equal, so that each look-up of
    /// such a key visits all of them while the cache is locked. No result depends on the seed.
    ///
    /// # Errors
    ///
    /// [`Refusal::Memory`] if there is no memory for the cache.
    ///
    /// # Examples
    ///
    /// ```
    /// use concurrent_lru_proved::unsharded::LruCache;
    ///
    /// # fn main() -> Result<(), concurrent_lru_proved::Refusal> {
    /// let cache = LruCache::<u64, &str>::with_seed(10, 0)?;
    /// cache.insert(&7, 1, "seven")?;
    /// assert_eq!(cache.get(&7)?.as_deref(), Some(&"seven"));
    /// # Ok(())
    /// # }
    /// ```
    pub fn with_seed(capacity: u64, seed: u64) -> Result<Self, Refusal> {
        Ok(LruCache {
            shared: Mutex::new(Shared {
                core: Core::new(capacity, seed)?,
                makings: Makings::default(),
                loads: Loads::default(),
            }),
            seed,
            ended: Condvar::new(),
            listener: None,
            times_loads: false,
            keys: PhantomData,
            values: PhantomData,
        })
    }

    /// Has `listener` told of each value that leaves the cache, just before the value is dropped,
    /// with its key as it is [written](Key::written), its charge and the [`Reason`].
    ///
    /// No lock is held meanwhile, so the listener may call the cache. If it panics, it is told of
    /// all other values that leave with the same call, which are dropped too, and then the panic
    /// reaches the caller. It is not told of values that are dropped with the cache, nor of those
    /// that the cache has already. With a listener, the cache keeps two more references to a copy
    /// of each key; without one, it costs nothing.
    ///
    /// # Examples
    ///
    /// ```
    /// use concurrent_lru_proved::unsharded::LruCache;
    /// use std::sync::mpsc;
    ///
    /// # fn main() -> Result<(), concurrent_lru_proved::Refusal> {
    /// let (sender, left) = mpsc::channel();
    /// let cache = LruCache::<String, u64>::new(1)?.with_listener(move |leaving| {
    ///     let key = String::from_utf8_lossy(leaving.key).into_owned();
    ///     let _ = sender.send((key, *leaving.value, leaving.reason));
    /// });
    /// cache.insert("seven", 1, 7)?;
    /// cache.insert("eight", 1, 8)?;
    /// let (key, value, reason) = left.recv().unwrap();
    /// assert_eq!((&*key, value), ("seven", 7));
    /// assert_eq!(reason, concurrent_lru_proved::Reason::Evicted);
    /// # Ok(())
    /// # }
    /// ```
    #[must_use]
    pub fn with_listener(
        self,
        listener: impl Fn(Leaving<'_, V, Written<'_, K::Form>>) + Send + Sync + 'static,
    ) -> Self {
        self.with_shared_listener(Arc::new(listener))
    }

    pub(crate) fn with_shared_listener(mut self, listener: Listener<K::Form, V>) -> Self {
        self.lock().core.keep_keys();
        self.listener = Some(AssertUnwindSafe(listener));
        self
    }

    /// Also measures how long it takes to make values, as [`Stats::load_time`](crate::Stats) tells.
    /// A miss then takes about 0.1 microseconds longer.
    #[must_use]
    pub fn with_load_times(mut self) -> Self {
        self.times_loads = true;
        self
    }

    /// Returns a handle of the key's value, or `None` if there is no value or it is still being
    /// made. Does not wait.
    ///
    /// # Errors
    ///
    /// [`Refusal::Overflow`] if the value has `u32::MAX` handles. [`Refusal::Memory`] if the key is
    /// longer than any before and there is no memory for a copy.
    #[inline]
    pub fn get<Q>(&self, key: &Q) -> Result<Option<CacheHandle<'_, K, V>>, Refusal>
    where
        K: Borrow<Q>,
        Q: Key<Form = K::Form> + ?Sized,
    {
        let written = key.written();
        let hashed = self.hashed(&written);
        let found = self.lock().core.get(hashed)?;
        Ok(found.map(|(pin, value)| self.handle(pin, value)))
    }

    /// Does what [`get`](Self::get) does. This is its name in the caches in Rattle.
    ///
    /// # Errors
    ///
    /// As [`get`](Self::get).
    #[inline]
    pub fn find<Q>(&self, key: &Q) -> Result<Option<CacheHandle<'_, K, V>>, Refusal>
    where
        K: Borrow<Q>,
        Q: Key<Form = K::Form> + ?Sized,
    {
        self.get(key)
    }

    /// Calls `reader` with the key's value, and returns its result, or `None` if there is no value
    /// or it is still being made. Does not wait.
    ///
    /// The lock is held meanwhile, once for the whole call, so `reader` must not call the cache or
    /// drop a handle of it, which would wait for the lock for ever, and other calls wait. If it
    /// needs more time than to look at the value, call [`get`](Self::get).
    ///
    /// # Errors
    ///
    /// As [`get`](Self::get).
    ///
    /// # Examples
    ///
    /// ```
    /// use concurrent_lru_proved::unsharded::LruCache;
    ///
    /// # fn main() -> Result<(), concurrent_lru_proved::Refusal> {
    /// let cache = LruCache::<u64, String>::new(10)?;
    /// cache.insert(&7, 1, "seven".to_string())?;
    /// assert_eq!(cache.read(&7, |value| value.len())?, Some(5));
    /// assert_eq!(cache.read(&8, |value| value.len())?, None);
    /// # Ok(())
    /// # }
    /// ```
    pub fn read<Q, T>(&self, key: &Q, reader: impl FnOnce(&V) -> T) -> Result<Option<T>, Refusal>
    where
        K: Borrow<Q>,
        Q: Key<Form = K::Form> + ?Sized,
    {
        let written = key.written();
        let hashed = self.hashed(&written);
        self.lock().core.read(hashed, reader)
    }

    /// Returns a handle of the key's value. If there is none, `init` makes it.
    ///
    /// Only one caller at a time makes a key's value; the others wait for it. If `init` panics and
    /// others are waiting, one of them makes the value, with its own `init`.
    ///
    /// `charge` is what the value counts for against the capacity, in units of the caller's choice;
    /// it must be above 0, even if the key has a value. If the value exists already or is being
    /// made, its charge does not change, even if the other caller fails and this one makes the
    /// value.
    ///
    /// # Errors
    ///
    /// [`Refusal::ZeroCharge`] if `charge` is 0, even if the key has a value. [`Refusal::Overflow`]
    /// if the total of all charges would exceed `u64::MAX`, if the value has `u32::MAX` handles, or
    /// if `u64::MAX` values have been made. [`Refusal::Memory`] if there is no memory for a new
    /// entry. [`Refusal::Full`] if the limit is strict, the key has no value and none is being made
    /// for it, and there is no room for one. In these cases `init` does not run and nothing is
    /// evicted.
    #[inline]
    pub fn get_or_init<Q>(
        &self,
        key: &Q,
        charge: u64,
        init: impl FnOnce(&Q) -> V,
    ) -> Result<CacheHandle<'_, K, V>, Refusal>
    where
        K: Borrow<Q>,
        Q: Key<Form = K::Form> + ?Sized,
    {
        self.get_or_try_init(key, charge, |key| Ok::<_, Infallible>(init(key)))
            .map_err(GetError::into_refusal)
    }

    /// Returns a handle of the key's value. If there is none, `init` makes it, or fails.
    ///
    /// This is [`get_or_init`](Self::get_or_init) for an `init` that may fail. The cache keeps no
    /// entry then. If others are waiting, one of them makes the value, with its own `init`. Values
    /// are evicted before `init` runs, and stay evicted if it fails.
    ///
    /// # Errors
    ///
    /// [`GetError::Init`] with the error of `init`, and [`GetError::Refused`] in the cases of
    /// [`get_or_init`](Self::get_or_init).
    #[inline]
    pub fn get_or_try_init<Q, E>(
        &self,
        key: &Q,
        charge: u64,
        init: impl FnOnce(&Q) -> Result<V, E>,
    ) -> Result<CacheHandle<'_, K, V>, GetError<E>>
    where
        K: Borrow<Q>,
        Q: Key<Form = K::Form> + ?Sized,
    {
        match self.begin(key, charge)? {
            Begun::Hit(handle) => Ok(handle),
            Begun::Make(maker) => Ok(maker.ready(init(key).map_err(GetError::Init)?)),
        }
    }

    /// Returns a handle of the key's value. If there is none, `init` makes it, and returns it with
    /// its charge.
    ///
    /// This is [`get_or_init`](Self::get_or_init) for a charge that is not known before the value,
    /// as the length of a file that is read. While the value is made, it counts for 1.
    ///
    /// # Errors
    ///
    /// Before `init` runs, as [`get_or_init`](Self::get_or_init) with a charge of 1. Afterwards
    /// [`Refusal::ZeroCharge`], [`Refusal::Overflow`] or [`Refusal::Full`] if the cache refuses the
    /// charge that `init` returns, as [`Maker::ready_with`] says: the value is dropped, and if
    /// others are waiting, one of them makes the value.
    ///
    /// # Examples
    ///
    /// ```
    /// use concurrent_lru_proved::unsharded::LruCache;
    ///
    /// # fn main() -> Result<(), concurrent_lru_proved::Refusal> {
    /// let cache = LruCache::<u64, String>::new(1000)?;
    /// let handle = cache.get_or_init_with(&7, |key| {
    ///     let text = format!("the number {key}");
    ///     let charge = text.len() as u64;
    ///     (text, charge)
    /// })?;
    /// assert_eq!((&**handle, cache.total_charge()), ("the number 7", 12));
    /// # Ok(())
    /// # }
    /// ```
    #[inline]
    pub fn get_or_init_with<Q>(
        &self,
        key: &Q,
        init: impl FnOnce(&Q) -> (V, u64),
    ) -> Result<CacheHandle<'_, K, V>, Refusal>
    where
        K: Borrow<Q>,
        Q: Key<Form = K::Form> + ?Sized,
    {
        self.get_or_try_init_with(key, |key| Ok::<_, Infallible>(init(key)))
            .map_err(GetError::into_refusal)
    }

    /// Returns a handle of the key's value. If there is none, `init` makes it, and returns it with
    /// its charge, or fails.
    ///
    /// This is [`get_or_try_init`](Self::get_or_try_init) for a charge that is not known before the
    /// value.
    ///
    /// # Errors
    ///
    /// [`GetError::Init`] with the error of `init`, and [`GetError::Refused`] in the cases of
    /// [`get_or_init_with`](Self::get_or_init_with).
    ///
    /// # Examples
    ///
    /// ```no_run
    /// use concurrent_lru_proved::unsharded::LruCache;
    /// use std::{fs, io};
    ///
    /// # fn main() -> io::Result<()> {
    /// // A megabyte of parts of a file.
    /// let parts = LruCache::<u64, Vec<u8>>::new(1 << 20)?;
    /// let part = parts.get_or_try_init_with(&7, |number| {
    ///     let bytes = fs::read(format!("part_{number}"))?;
    ///     let charge = bytes.len() as u64 + 64;
    ///     Ok::<_, io::Error>((bytes, charge))
    /// })?;
    /// println!("{} bytes", part.len());
    /// # Ok(())
    /// # }
    /// ```
    #[inline]
    pub fn get_or_try_init_with<Q, E>(
        &self,
        key: &Q,
        init: impl FnOnce(&Q) -> Result<(V, u64), E>,
    ) -> Result<CacheHandle<'_, K, V>, GetError<E>>
    where
        K: Borrow<Q>,
        Q: Key<Form = K::Form> + ?Sized,
    {
        match self.begin(key, UNKNOWN_CHARGE)? {
            Begun::Hit(handle) => Ok(handle),
            Begun::Make(maker) => {
                let (value, charge) = init(key).map_err(GetError::Init)?;
                Ok(maker.ready_with(value, charge)?)
            }
        }
    }

    /// Returns a handle of the key's value, or a guard with which the caller makes it.
    ///
    /// This is [`get_or_init`](Self::get_or_init) for a caller that does not make the value by a
    /// function. Other callers that ask for the key wait until it calls [`Maker::ready`], or drops
    /// the guard: one of them makes the value then. If the charge is not known yet, pass 1, and
    /// call [`Maker::ready_with`] later.
    ///
    /// # Errors
    ///
    /// As [`get_or_init`](Self::get_or_init).
    ///
    /// # Examples
    ///
    /// ```
    /// use concurrent_lru_proved::Begun;
    /// use concurrent_lru_proved::unsharded::LruCache;
    ///
    /// # fn main() -> Result<(), concurrent_lru_proved::Refusal> {
    /// let cache = LruCache::<u64, String>::new(10)?;
    /// let handle = match cache.begin(&7, 1)? {
    ///     Begun::Hit(handle) => handle,
    ///     Begun::Make(maker) => maker.ready("seven".to_string()),
    /// };
    /// assert_eq!(*handle, "seven");
    /// # Ok(())
    /// # }
    /// ```
    #[inline]
    pub fn begin<Q>(&self, key: &Q, charge: u64) -> Result<Begun<'_, K, V>, Refusal>
    where
        K: Borrow<Q>,
        Q: Key<Form = K::Form> + ?Sized,
    {
        match self.ask(key, charge)? {
            Answer::Begun(begun) => Ok(begun),
            Answer::Wait(shared, waiter) => waiter.sleep(shared),
        }
    }

    /// Returns what [`begin`](Self::begin) returns, or `None` if another caller makes the value.
    /// Does not wait.
    ///
    /// Such a call is counted among the `waits` of [`stats`](Self::stats), and as a handle of the
    /// value until it has been made.
    ///
    /// # Errors
    ///
    /// As [`get_or_init`](Self::get_or_init).
    ///
    /// # Examples
    ///
    /// ```
    /// use concurrent_lru_proved::Begun;
    /// use concurrent_lru_proved::unsharded::LruCache;
    ///
    /// # fn main() -> Result<(), concurrent_lru_proved::Refusal> {
    /// let cache = LruCache::<u64, String>::new(10)?;
    /// let making = cache.try_begin(&7, 1)?;
    /// assert!(matches!(making, Some(Begun::Make(_))));
    /// assert!(cache.try_begin(&7, 1)?.is_none());
    /// # Ok(())
    /// # }
    /// ```
    pub fn try_begin<Q>(&self, key: &Q, charge: u64) -> Result<Option<Begun<'_, K, V>>, Refusal>
    where
        K: Borrow<Q>,
        Q: Key<Form = K::Form> + ?Sized,
    {
        match self.ask(key, charge)? {
            Answer::Begun(begun) => Ok(Some(begun)),
            // The lock is released first, which the drop of the other takes.
            Answer::Wait(shared, _waiter) => {
                drop(shared);
                Ok(None)
            }
        }
    }

    /// Returns what [`begin`](Self::begin) returns, without blocking the thread meanwhile.
    ///
    /// It needs no particular runtime. Tasks and threads may wait for the same value. If the future
    /// is dropped while it waits, the caller waits no more.
    ///
    /// # Errors
    ///
    /// As [`get_or_init`](Self::get_or_init), and [`Refusal::Memory`] if there is no memory for the
    /// list of the tasks that wait.
    pub async fn begin_async<Q>(&self, key: &Q, charge: u64) -> Result<Begun<'_, K, V>, Refusal>
    where
        K: Borrow<Q>,
        Q: Key<Form = K::Form> + ?Sized,
    {
        let mut waiter = match self.ask(key, charge)? {
            Answer::Begun(begun) => return Ok(begun),
            Answer::Wait(_, waiter) => waiter,
        };
        future::poll_fn(|context| waiter.poll(context)).await
    }

    /// Returns what [`get_or_init`](Self::get_or_init) returns, without blocking the thread
    /// meanwhile. If the key has no value, `init` makes it, and is else dropped without a poll.
    ///
    /// If the future that this returns is dropped while `init` runs, or if `init` panics, another
    /// caller that waits makes the value, with its own `init`. It is [`Send`] if `init`, keys and
    /// values may be sent and shared.
    ///
    /// # Errors
    ///
    /// As [`begin_async`](Self::begin_async).
    ///
    /// # Examples
    ///
    /// ```
    /// use concurrent_lru_proved::Refusal;
    /// use concurrent_lru_proved::unsharded::LruCache;
    ///
    /// async fn length(cache: &LruCache<String, String>, url: &str) -> Result<usize, Refusal> {
    ///     let page = cache.get_or_init_async(url, 1, fetch(url)).await?;
    ///     Ok(page.len())
    /// }
    ///
    /// async fn fetch(url: &str) -> String {
    ///     // ...
    /// #   url.to_string()
    /// }
    /// ```
    pub async fn get_or_init_async<Q>(
        &self,
        key: &Q,
        charge: u64,
        init: impl Future<Output = V>,
    ) -> Result<CacheHandle<'_, K, V>, Refusal>
    where
        K: Borrow<Q>,
        Q: Key<Form = K::Form> + ?Sized,
    {
        match self.begin_async(key, charge).await? {
            Begun::Hit(handle) => Ok(handle),
            Begun::Make(maker) => Ok(maker.ready(init.await)),
        }
    }

    /// Returns what [`get_or_try_init`](Self::get_or_try_init) returns, without blocking the thread
    /// meanwhile, as [`get_or_init_async`](Self::get_or_init_async) does.
    ///
    /// # Errors
    ///
    /// [`GetError::Init`] with the error of `init`, and [`GetError::Refused`] in the cases of
    /// [`begin_async`](Self::begin_async).
    pub async fn get_or_try_init_async<Q, E>(
        &self,
        key: &Q,
        charge: u64,
        init: impl Future<Output = Result<V, E>>,
    ) -> Result<CacheHandle<'_, K, V>, GetError<E>>
    where
        K: Borrow<Q>,
        Q: Key<Form = K::Form> + ?Sized,
    {
        match self.begin_async(key, charge).await? {
            Begun::Hit(handle) => Ok(handle),
            Begun::Make(maker) => Ok(maker.ready(init.await.map_err(GetError::Init)?)),
        }
    }

    /// Returns what [`get`](Self::get) returns, with a handle that borrows nothing and keeps the
    /// cache alive.
    ///
    /// # Errors
    ///
    /// As [`get`](Self::get).
    ///
    /// # Examples
    ///
    /// ```
    /// use concurrent_lru_proved::unsharded::LruCache;
    /// use std::sync::Arc;
    ///
    /// # fn main() -> Result<(), concurrent_lru_proved::Refusal> {
    /// let cache = Arc::new(LruCache::<u64, String>::new(10)?);
    /// cache.insert(&7, 1, "seven".to_string())?;
    /// let handle = cache.get_owned(&7)?.expect("it was inserted");
    /// drop(cache);
    /// assert_eq!(*handle, "seven");
    /// # Ok(())
    /// # }
    /// ```
    pub fn get_owned<Q>(self: &Arc<Self>, key: &Q) -> Result<Option<OwnedHandle<K, V>>, Refusal>
    where
        K: Borrow<Q>,
        Q: Key<Form = K::Form> + ?Sized,
    {
        let found = self.get(key)?;
        Ok(found.map(|handle| OwnedHandle::of(self, handle)))
    }

    /// Returns what [`get_or_init`](Self::get_or_init) returns, with a handle that borrows nothing
    /// and keeps the cache alive.
    ///
    /// # Errors
    ///
    /// As [`get_or_init`](Self::get_or_init).
    pub fn get_or_init_owned<Q>(
        self: &Arc<Self>,
        key: &Q,
        charge: u64,
        init: impl FnOnce(&Q) -> V,
    ) -> Result<OwnedHandle<K, V>, Refusal>
    where
        K: Borrow<Q>,
        Q: Key<Form = K::Form> + ?Sized,
    {
        let handle = self.get_or_init(key, charge, init)?;
        Ok(OwnedHandle::of(self, handle))
    }

    /// Returns what [`get_or_try_init`](Self::get_or_try_init) returns, with a handle that borrows
    /// nothing and keeps the cache alive.
    ///
    /// # Errors
    ///
    /// As [`get_or_try_init`](Self::get_or_try_init).
    pub fn get_or_try_init_owned<Q, E>(
        self: &Arc<Self>,
        key: &Q,
        charge: u64,
        init: impl FnOnce(&Q) -> Result<V, E>,
    ) -> Result<OwnedHandle<K, V>, GetError<E>>
    where
        K: Borrow<Q>,
        Q: Key<Form = K::Form> + ?Sized,
    {
        let handle = self.get_or_try_init(key, charge, init)?;
        Ok(OwnedHandle::of(self, handle))
    }

    /// Returns what [`get_or_init_async`](Self::get_or_init_async) returns, with a handle that
    /// borrows nothing and keeps the cache alive.
    ///
    /// # Errors
    ///
    /// As [`begin_async`](Self::begin_async).
    pub async fn get_or_init_owned_async<Q>(
        self: &Arc<Self>,
        key: &Q,
        charge: u64,
        init: impl Future<Output = V>,
    ) -> Result<OwnedHandle<K, V>, Refusal>
    where
        K: Borrow<Q>,
        Q: Key<Form = K::Form> + ?Sized,
    {
        let handle = self.get_or_init_async(key, charge, init).await?;
        Ok(OwnedHandle::of(self, handle))
    }

    /// Returns what [`get_or_try_init_async`](Self::get_or_try_init_async) returns, with a handle
    /// that borrows nothing and keeps the cache alive.
    ///
    /// # Errors
    ///
    /// As [`get_or_try_init_async`](Self::get_or_try_init_async).
    pub async fn get_or_try_init_owned_async<Q, E>(
        self: &Arc<Self>,
        key: &Q,
        charge: u64,
        init: impl Future<Output = Result<V, E>>,
    ) -> Result<OwnedHandle<K, V>, GetError<E>>
    where
        K: Borrow<Q>,
        Q: Key<Form = K::Form> + ?Sized,
    {
        let handle = self.get_or_try_init_async(key, charge, init).await?;
        Ok(OwnedHandle::of(self, handle))
    }

    /// Makes `value` the key's value, whatever the key had, and returns a handle of it. Does not
    /// wait.
    ///
    /// Handles of the old value keep it, and it counts against the capacity, until the last of them
    /// is dropped. Callers that wait for a value that is being made still get that one.
    ///
    /// # Errors
    ///
    /// [`Refusal::ZeroCharge`] if `charge` is 0. [`Refusal::Overflow`] if the total of all charges,
    /// not counting an idle value of the key, would exceed `u64::MAX`, or if `u64::MAX` values have
    /// been made. [`Refusal::Memory`] if there is no memory for a new entry. [`Refusal::Full`] if
    /// the limit is strict and there is no room for the new value; an old value that has a handle
    /// takes room too. The key keeps its old value then, and the new one is dropped.
    ///
    /// # Examples
    ///
    /// ```
    /// use concurrent_lru_proved::unsharded::LruCache;
    ///
    /// # fn main() -> Result<(), concurrent_lru_proved::Refusal> {
    /// let cache = LruCache::<String, u32>::new(10)?;
    /// let old = cache.insert("key", 1, 5)?;
    /// let new = cache.insert("key", 1, 6)?;
    /// assert_eq!((*old, *new), (5, 6));
    /// assert_eq!(cache.get("key")?.as_deref(), Some(&6));
    /// # Ok(())
    /// # }
    /// ```
    pub fn insert<Q>(
        &self,
        key: &Q,
        charge: u64,
        value: V,
    ) -> Result<CacheHandle<'_, K, V>, Refusal>
    where
        K: Borrow<Q>,
        Q: Key<Form = K::Form> + ?Sized,
    {
        let written = key.written();
        let hashed = self.hashed(&written);
        let value = Box::new(value);
        let mut evicted = self.evicted();
        // The lock is released at the end of this statement, before any value is dropped.
        let inserted = self.lock().core.insert(hashed, charge, value, &mut evicted);
        match inserted {
            Ok((pin, value)) => {
                let handle = self.handle(pin, value);
                // If the drop of a value panics, the handle is dropped too. It would be leaked if
                // it were the return value already.
                drop(evicted);
                Ok(handle)
            }
            Err((refusal, _value)) => Err(refusal),
        }
    }

    /// Takes the key's value away: the next caller that asks for the key makes a new one. Handles
    /// of the old value keep it, as with [`insert`](Self::insert).
    ///
    /// # Errors
    ///
    /// [`Refusal::Memory`] if the key is longer than any before and there is no memory for a copy.
    pub fn invalidate<Q>(&self, key: &Q) -> Result<(), Refusal>
    where
        K: Borrow<Q>,
        Q: Key<Form = K::Form> + ?Sized,
    {
        let written = key.written();
        let hashed = self.hashed(&written);
        let mut evicted = self.evicted();
        self.lock()
            .core
            .invalidate(hashed, Reason::Invalidated, &mut evicted)
    }

    /// Evicts the key's value if it is idle. If it is pinned, nothing happens, now or later.
    ///
    /// # Errors
    ///
    /// [`Refusal::Memory`] if the key is longer than any before and there is no memory for a copy.
    pub fn advice_evict<Q>(&self, key: &Q) -> Result<(), Refusal>
    where
        K: Borrow<Q>,
        Q: Key<Form = K::Form> + ?Sized,
    {
        let written = key.written();
        let hashed = self.hashed(&written);
        let mut evicted = self.evicted();
        self.lock().core.advice_evict(hashed, &mut evicted)
    }

    /// Evicts every idle value.
    pub fn prune(&self) {
        let mut evicted = self.evicted();
        self.lock().core.prune(Reason::Evicted, &mut evicted);
    }

    /// Takes the value of every key away, as [`invalidate`](Self::invalidate) does for one key, so
    /// that no key finds what was there or was being made.
    ///
    /// Idle values are evicted, and the others with their last handles. Callers that wait for a
    /// value that is being made still get that one.
    ///
    /// # Errors
    ///
    /// [`Refusal::Memory`] if there is no memory for a list of all values. Nothing has changed
    /// then.
    ///
    /// # Examples
    ///
    /// ```
    /// use concurrent_lru_proved::unsharded::LruCache;
    ///
    /// # fn main() -> Result<(), concurrent_lru_proved::Refusal> {
    /// let cache = LruCache::<u64, &str>::new(10)?;
    /// let seven = cache.insert(&7, 1, "seven")?;
    /// cache.insert(&8, 1, "eight")?;
    /// cache.clear()?;
    /// assert!(!cache.contains(&7)? && !cache.contains(&8)?);
    /// assert_eq!((*seven, cache.len()), ("seven", 1));
    /// # Ok(())
    /// # }
    /// ```
    pub fn clear(&self) -> Result<(), Refusal> {
        let mut evicted = self.evicted();
        let mut shared = self.lock();
        let Shared { core, makings, .. } = &mut *shared;
        core.clear(makings.pins(), self.seed, &mut evicted)
    }

    /// Takes the values away, as [`invalidate`](Self::invalidate) does, for which `keep` returns
    /// `false`. It is called with each key, value and charge once, in no particular order. Values
    /// that are being made stay.
    ///
    /// Keys are passed as they are written, like those of [`for_each`](Self::for_each). The lock is
    /// held meanwhile, so `keep` must not call the cache or drop a handle of it, which would wait
    /// for the lock for ever, and other calls wait. Values are dropped after the lock is released.
    /// If `keep` panics, no value has left.
    ///
    /// # Errors
    ///
    /// [`Refusal::Memory`] if there is no memory for a list of all values or for a copy of a key.
    /// Nothing has changed then.
    ///
    /// # Examples
    ///
    /// ```
    /// use concurrent_lru_proved::unsharded::LruCache;
    ///
    /// # fn main() -> Result<(), concurrent_lru_proved::Refusal> {
    /// // The keys are a file and a page of it.
    /// let pages = LruCache::<(u32, u64), &str>::new(100)?;
    /// pages.insert(&(1, 7), 1, "a page")?;
    /// pages.insert(&(2, 7), 1, "a page of another file")?;
    /// pages.retain(|[file, _], _, _| file != 1)?;
    /// assert!(!pages.contains(&(1, 7))? && pages.contains(&(2, 7))?);
    ///
    /// let texts = LruCache::<String, &str>::new(100)?;
    /// texts.insert("/tmp/a", 1, "short")?;
    /// texts.insert("/etc/b", 90, "large")?;
    /// texts.retain(|path, _, charge| !path.starts_with(b"/tmp/") && charge < 50)?;
    /// assert!(texts.is_empty());
    /// # Ok(())
    /// # }
    /// ```
    pub fn retain(
        &self,
        keep: impl FnMut(Written<'_, K::Form>, &V, u64) -> bool,
    ) -> Result<(), Refusal> {
        let mut evicted = self.evicted();
        // The lock is released at the end of this expression, before any value is dropped.
        self.lock().core.retain(self.seed, &mut evicted, keep)
    }

    /// Returns whether the key has a value, as [`get`](Self::get) looks for it. Pins nothing, and
    /// does not count as a use.
    ///
    /// # Errors
    ///
    /// [`Refusal::Memory`] if the key is longer than any before and there is no memory for a copy.
    pub fn contains<Q>(&self, key: &Q) -> Result<bool, Refusal>
    where
        K: Borrow<Q>,
        Q: Key<Form = K::Form> + ?Sized,
    {
        let written = key.written();
        let hashed = self.hashed(&written);
        self.lock().core.contains(hashed)
    }

    /// Returns the number of values, including those that are being made, and those that were
    /// invalidated or replaced and still have a handle.
    pub fn len(&self) -> u64 {
        self.lock().core.len()
    }

    /// Returns whether [`len`](Self::len) is 0.
    pub fn is_empty(&self) -> bool {
        self.len() == 0
    }

    /// Returns the total of the charges of these values.
    pub fn total_charge(&self) -> u64 {
        self.lock().core.total()
    }

    /// Returns the total of the charges of the values that have a handle or are being made. It is
    /// 0 if and only if there is none.
    pub fn pinned_charge(&self) -> u64 {
        self.lock().core.pinned_charge()
    }

    /// Returns the capacity.
    pub fn capacity(&self) -> u64 {
        self.lock().core.capacity()
    }

    /// Calls `visit` for each value that its key finds, in no particular order. Values that are
    /// being made are left out, and so are those that were invalidated or replaced. This is no use
    /// of a value: the order of eviction stays as it is.
    ///
    /// The library stores a key as it is [written](Key::written), and so it is passed. A number is
    /// the second of two words.
    ///
    /// The lock is held meanwhile, so `visit` must not call the cache or drop a handle of it, which
    /// would wait for the lock for ever, and other calls wait until all values are visited.
    ///
    /// # Examples
    ///
    /// ```
    /// use concurrent_lru_proved::unsharded::LruCache;
    ///
    /// # fn main() -> Result<(), concurrent_lru_proved::Refusal> {
    /// let cache = LruCache::<u64, &str>::new(10)?;
    /// cache.insert(&7, 3, "seven")?;
    /// let eight = cache.insert(&8, 4, "eight")?;
    /// let mut idle = Vec::new();
    /// cache.for_each(|entry| {
    ///     if entry.pins == 0 {
    ///         let [_, key] = entry.key;
    ///         idle.push((key, *entry.value, entry.charge));
    ///     }
    /// });
    /// assert_eq!(idle, [(7, "seven", 3)]);
    /// drop(eight);
    /// # Ok(())
    /// # }
    /// ```
    ///
    /// # Panics
    ///
    /// If there is no memory for a list of all values or for a copy of a key.
    pub fn for_each(&self, visit: impl FnMut(EntryRef<'_, V, Written<'_, K::Form>>)) {
        let visited = self.lock().core.for_each(visit);
        visited.expect("there is memory for the list of all values");
    }

    /// Returns how often calls hit and missed since the cache was created, what was inserted and
    /// evicted, how long the making of values took, and what the cache holds, all at one time.
    /// [`get`](Self::get), [`read`](Self::read), [`begin`](Self::begin),
    /// [`get_or_init`](Self::get_or_init) and the calls named after these are counted as hits,
    /// misses and waits; [`contains`](Self::contains), [`insert`](Self::insert) and clones of
    /// handles are not.
    pub fn stats(&self) -> Stats {
        let mut shared = self.lock();
        Stats::new(shared.core.stats(), shared.loads)
    }

    /// Makes room for `entries` values in all, so that no call that adds one has to make room for
    /// more under the lock, until there are more.
    ///
    /// # Errors
    ///
    /// [`Refusal::Memory`] if there is no memory for them. Nothing has changed then.
    pub fn reserve(&self, entries: usize) -> Result<(), Refusal> {
        self.lock().core.reserve(entries)
    }

    /// Gives back the memory of the tables if there is no value, as after [`prune`](Self::prune) or
    /// [`clear`](Self::clear) if no handle is left, and returns whether it did. Tables have room
    /// for as many values as there ever were at once, or as were reserved, and otherwise keep it.
    ///
    /// # Errors
    ///
    /// [`Refusal::Memory`] if there is no memory for the empty tables. Nothing has changed then.
    pub fn shrink_to_fit(&self) -> Result<bool, Refusal> {
        self.lock().core.shrink(self.seed)
    }

    /// Sets the capacity. Idle values that exceed it are evicted at once.
    pub fn set_capacity(&self, capacity: u64) {
        let mut evicted = self.evicted();
        self.lock().core.set_capacity(capacity, &mut evicted);
    }

    /// Sets whether the capacity is a strict limit, which it is not in a new cache.
    ///
    /// If it is, no value is inserted whose charge, with the charges of the pinned values, is above
    /// the capacity: [`get_or_init`](Self::get_or_init), [`insert`](Self::insert) and the calls
    /// named after them return [`Refusal::Full`], and nothing is evicted. A value that exists is
    /// found as before. The total is then never above the capacity, unless it is already, or
    /// [`set_capacity`](Self::set_capacity) lowers the capacity below the charges of the pinned
    /// values.
    ///
    /// # Examples
    ///
    /// ```
    /// use concurrent_lru_proved::Refusal;
    /// use concurrent_lru_proved::unsharded::LruCache;
    ///
    /// # fn main() -> Result<(), Refusal> {
    /// let cache = LruCache::<u64, &str>::new(10)?;
    /// cache.set_strict_limit(true);
    /// let seven = cache.insert(&7, 6, "seven")?;
    /// assert_eq!(cache.insert(&8, 5, "eight").err(), Some(Refusal::Full));
    /// drop(seven); // idle, so it leaves
    /// assert_eq!(*cache.insert(&8, 5, "eight")?, "eight");
    /// # Ok(())
    /// # }
    /// ```
    pub fn set_strict_limit(&self, strict: bool) {
        self.lock().core.set_strict_limit(strict);
    }

    /// Returns whether the capacity is a strict limit.
    pub fn is_limit_strict(&self) -> bool {
        self.lock().core.is_limit_strict()
    }

    /// Hashes a key. A call does so before it takes the lock.
    fn hashed<'a>(&self, written: &'a Written<'_, K::Form>) -> Hashed<'a, K::Form> {
        form::hashed::<K::Form>(written, self.seed)
    }

    /// Finds the key's value, or begins to make it, or to wait for it.
    #[inline]
    fn ask<Q>(&self, key: &Q, charge: u64) -> Result<Answer<'_, K, V>, Refusal>
    where
        K: Borrow<Q>,
        Q: Key<Form = K::Form> + ?Sized,
    {
        let written = key.written();
        let hashed = self.hashed(&written);
        let mut evicted = self.evicted();
        let mut shared = self.lock();
        let begun = match shared.begin(hashed, charge, &mut evicted)? {
            Asked::Hit(pin, value) => Begun::Hit(self.handle(pin, value)),
            Asked::Make(pin) => Begun::Make(Maker::new(self, pin)),
            // A call that waits has evicted nothing.
            Asked::Wait(pin) => return Ok(Answer::Wait(shared, Waiter::new(self, pin))),
        };
        drop(shared);
        // If the drop of a value panics, `begun` is dropped too. It would be leaked if it were the
        // return value already.
        drop(evicted);
        Ok(Answer::Begun(begun))
    }

    /// An empty list, whose values the listener is told of.
    fn evicted(&self) -> Evicted<'_, K::Form, V> {
        Evicted::new(self.listener.as_deref())
    }

    fn handle(&self, pin: Pin, value: NonNull<V>) -> CacheHandle<'_, K, V> {
        CacheHandle {
            cache: self,
            pin,
            value,
        }
    }

    /// Returns another handle of the value that the pin of a handle pins.
    pub(crate) fn repin(&self, pin: Pin) -> Result<CacheHandle<'_, K, V>, Refusal> {
        let (pin, value) = self.lock().core.repin(pin)?;
        Ok(self.handle(pin, value))
    }

    /// Gives back the pin of a handle, which is not used again.
    pub(crate) fn release(&self, pin: Pin) {
        let mut shared = self.lock();
        // Most releases evict nothing.
        if let Some(first) = shared.core.release(pin) {
            self.drop_evicted(shared, first);
        }
    }

    #[cold]
    fn drop_evicted(&self, mut shared: MutexGuard<'_, Shared<K::Form, V>>, first: Gone) {
        let mut evicted = self.evicted();
        let core = &mut shared.core;
        core.take_all_evicted(Some(first), &mut evicted, Reason::Evicted);
        drop(shared);
        drop(evicted);
    }

    /// Gives back the pin of a handle, which is not used again, and evicts the value if the handle
    /// was its last.
    pub(crate) fn release_and_evict(&self, pin: Pin) {
        let mut evicted = self.evicted();
        self.lock().core.release_and_evict(pin, &mut evicted);
    }

    fn lock(&self) -> MutexGuard<'_, Shared<K::Form, V>> {
        unpoisoned(self.shared.lock())
    }

    /// Releases the lock, and wakes those that wait for the value that was made, or could not be
    /// made.
    fn wake(&self, shared: MutexGuard<'_, Shared<K::Form, V>>, sleepers: Sleepers) {
        drop(shared);
        sleepers.wake(&self.ended);
    }
}

/// Code of the user that runs under the lock, as in `for_each` and `retain`, only looks. So a
/// poisoned lock guards a sound cache.
pub(crate) fn unpoisoned<T>(locked: Result<T, PoisonError<T>>) -> T {
    locked.unwrap_or_else(PoisonError::into_inner)
}

impl<K: Key + ?Sized, V> fmt::Debug for LruCache<K, V> {
    fn fmt(&self, f: &mut fmt::Formatter<'_>) -> fmt::Result {
        f.debug_struct("LruCache")
            .field("capacity", &self.capacity())
            .field("total_charge", &self.total_charge())
            .finish_non_exhaustive()
    }
}

/// What a caller that asks for a value gets.
pub type Begun<'a, K, V> = makings::Begun<CacheHandle<'a, K, V>, Maker<'a, K, V>>;

/// What a caller that asked for a key has got.
enum Answer<'a, K: Key + ?Sized, V> {
    Begun(Begun<'a, K, V>),
    /// Another caller makes the value. The lock is still held.
    Wait(MutexGuard<'a, Shared<K::Form, V>>, Waiter<'a, K, V>),
}

/// The duty to make a value, while other callers that ask for its key wait.
///
/// If it is dropped, the making has failed, as if `init` of
/// [`get_or_try_init`](LruCache::get_or_try_init) had: the cache keeps no entry, or one of those
/// that wait makes the value. If it is forgotten, they wait for ever.
#[must_use = "the making fails if this is dropped"]
pub struct Maker<'a, K: Key + ?Sized, V> {
    cache: &'a LruCache<K, V>,
    pin: Pin,
    /// Is `None` if the cache does not measure how long it takes to make values.
    begun: Option<Instant>,
}

impl<'a, K: Key + ?Sized, V> Maker<'a, K, V> {
    fn new(cache: &'a LruCache<K, V>, pin: Pin) -> Self {
        Maker {
            cache,
            pin,
            begun: cache.times_loads.then(Instant::now),
        }
    }

    fn time(&self) -> Duration {
        self.begun.map_or(Duration::ZERO, |begun| begun.elapsed())
    }

    /// Makes `value` the value, which those that wait get too, and returns a handle of it.
    ///
    /// This is never refused, as the room for the value was made before.
    pub fn ready(self, value: V) -> CacheHandle<'a, K, V> {
        let this = ManuallyDrop::new(self);
        let value = Box::new(value);
        let time = this.time();
        let mut shared = this.cache.lock();
        shared.loads.made += 1;
        shared.loads.time += time;
        let (value, sleepers) = shared.ready(this.pin, value);
        let handle = this.cache.handle(this.pin, value);
        this.cache.wake(shared, sleepers);
        handle
    }

    /// Makes `value` the value, as [`ready`](Self::ready) does, with this charge in place of that
    /// with which the making was begun. Idle values that exceed the capacity then are evicted.
    ///
    /// # Errors
    ///
    /// [`Refusal::ZeroCharge`] if `charge` is 0. [`Refusal::Overflow`] if the total of all charges
    /// would exceed `u64::MAX`. [`Refusal::Full`] if the limit is strict and there is no room for
    /// the charge beside the other pinned values. The making has failed then, and the value is
    /// dropped; nothing is evicted.
    ///
    /// # Examples
    ///
    /// ```
    /// use concurrent_lru_proved::Begun;
    /// use concurrent_lru_proved::unsharded::LruCache;
    ///
    /// # fn main() -> Result<(), concurrent_lru_proved::Refusal> {
    /// let cache = LruCache::<u64, Vec<u8>>::new(1000)?;
    /// if let Begun::Make(maker) = cache.begin(&7, 1)? {
    ///     let bytes = vec![0; 100];
    ///     let charge = bytes.len() as u64;
    ///     maker.ready_with(bytes, charge)?;
    /// }
    /// assert_eq!(cache.total_charge(), 100);
    /// # Ok(())
    /// # }
    /// ```
    pub fn ready_with(self, value: V, charge: u64) -> Result<CacheHandle<'a, K, V>, Refusal> {
        let this = ManuallyDrop::new(self);
        let value = Box::new(value);
        let time = this.time();
        let mut evicted = this.cache.evicted();
        let mut shared = this.cache.lock();
        let (made, sleepers) = shared.ready_with(this.pin, value, charge, &mut evicted);
        match made {
            Ok(_) => shared.loads.made += 1,
            Err(_) => shared.loads.failed += 1,
        }
        shared.loads.time += time;
        let made = made.map(|value| this.cache.handle(this.pin, value));
        this.cache.wake(shared, sleepers);
        // As in `insert`.
        let handle = made.map_err(|(refusal, _value)| refusal)?;
        drop(evicted);
        Ok(handle)
    }
}

impl<K: Key + ?Sized, V> fmt::Debug for Maker<'_, K, V> {
    fn fmt(&self, f: &mut fmt::Formatter<'_>) -> fmt::Result {
        f.debug_struct("Maker").finish_non_exhaustive()
    }
}

impl<K: Key + ?Sized, V> Drop for Maker<'_, K, V> {
    fn drop(&mut self) {
        let time = self.time();
        let mut shared = self.cache.lock();
        shared.loads.failed += 1;
        shared.loads.time += time;
        let sleepers = shared.fail(self.pin);
        self.cache.wake(shared, sleepers);
    }
}

/// A caller that waits for a value. If it is dropped, it waits no more.
struct Waiter<'a, K: Key + ?Sized, V> {
    cache: &'a LruCache<K, V>,
    pin: Pin,
    /// By which the making finds the waker of a task.
    ticket: Option<u64>,
    has_ended: bool,
}

impl<'a, K: Key + ?Sized, V> Waiter<'a, K, V> {
    fn new(cache: &'a LruCache<K, V>, pin: Pin) -> Self {
        Waiter {
            cache,
            pin,
            ticket: None,
            has_ended: false,
        }
    }

    /// Asks again. Returns `None` if the value is still being made.
    fn ask(&mut self, shared: &mut Shared<K::Form, V>) -> Result<Option<Begun<'a, K, V>>, Refusal> {
        let begun = match shared.core.poll(self.pin)? {
            Asked::Hit(pin, value) => Begun::Hit(self.cache.handle(pin, value)),
            Asked::Make(pin) => {
                if let Some(making) = shared.makings.get(pin) {
                    making.take_over();
                }
                Begun::Make(Maker::new(self.cache, pin))
            }
            Asked::Wait(_) => return Ok(None),
        };
        self.has_ended = true;
        Ok(Some(begun))
    }

    /// Blocks the thread until the value was made or could not be made.
    fn sleep(
        mut self,
        mut shared: MutexGuard<'_, Shared<K::Form, V>>,
    ) -> Result<Begun<'a, K, V>, Refusal> {
        loop {
            if let Some(making) = shared.makings.get(self.pin) {
                making.wait_list.add_thread();
            }
            shared = unpoisoned(self.cache.ended.wait(shared));
            if let Some(making) = shared.makings.get(self.pin) {
                making.wait_list.remove_thread();
            }
            if let Some(begun) = self.ask(&mut shared)? {
                return Ok(begun);
            }
        }
    }

    /// Has the task woken when the value was made or could not be made, unless it was already.
    fn poll(&mut self, context: &mut Context<'_>) -> Poll<Result<Begun<'a, K, V>, Refusal>> {
        // A waker runs code of its task when it is cloned or dropped, which may call the cache.
        let mut waker = Some(context.waker().clone());
        let cache = self.cache;
        let mut shared = cache.lock();
        if let Some(begun) = self.ask(&mut shared)? {
            return Poll::Ready(Ok(begun));
        }
        if let Some(making) = shared.makings.get(self.pin) {
            making.wait_list.add_task(&mut self.ticket, &mut waker)?;
        }
        Poll::Pending
    }
}

impl<K: Key + ?Sized, V> Drop for Waiter<'_, K, V> {
    fn drop(&mut self) {
        if self.has_ended {
            return;
        }
        let mut sleepers = Sleepers::default();
        let _waker;
        let mut shared = self.cache.lock();
        match shared.core.poll(self.pin) {
            Ok(Asked::Wait(pin)) => {
                let making = shared.makings.get(pin);
                _waker = making.and_then(|making| making.leave(self.ticket));
            }
            Ok(Asked::Make(pin)) => {
                if let Some(making) = shared.makings.get(pin) {
                    making.take_over();
                }
                sleepers = shared.fail(pin);
            }
            Ok(Asked::Hit(pin, _)) => {
                drop(shared);
                return self.cache.release(pin);
            }
            Err(_) => {}
        }
        self.cache.wake(shared, sleepers);
    }
}

/// A pinned value: it is not evicted while the handle lives.
///
/// Without its last handle the value is idle, and is evicted at once if the total of all charges is
/// above the capacity. If a handle is forgotten, its value stays until the cache is dropped.
pub struct CacheHandle<'a, K: Key + ?Sized, V> {
    cache: &'a LruCache<K, V>,
    pin: Pin,
    /// The value of the entry that is pinned.
    value: NonNull<V>,
}

// SAFETY: a handle gives shared access to its value, and dropping it may drop values of the cache.
// Both are sound on any thread if values are `Sync` and `Send`.
unsafe impl<K: Key + ?Sized, V: Send + Sync> Send for CacheHandle<'_, K, V> {}

// SAFETY: a shared handle gives shared access to its value only.
unsafe impl<K: Key + ?Sized, V: Send + Sync> Sync for CacheHandle<'_, K, V> {}

impl<K: Key + ?Sized, V> CacheHandle<'_, K, V> {
    /// Returns the value.
    pub fn value(&self) -> &V {
        // SAFETY: the handle has a pin of the entry, so the value is not dropped before the handle
        // is. Nothing has mutable access to a value in the cache.
        unsafe { self.value.as_ref() }
    }

    /// Returns another handle of the same value, even if the key has another value by now, or none.
    /// No key is looked up, so this is counted neither as a hit nor as a miss.
    ///
    /// Handles do not implement [`Clone`], as `clone` could only panic if the cache refuses. If the
    /// type of the value has a `try_clone` too, as [`File`](std::fs::File) has, call that one by
    /// `handle.value().try_clone()`.
    ///
    /// # Errors
    ///
    /// [`Refusal::Overflow`] if the value has `u32::MAX` handles: in practice, only if handles are
    /// forgotten, as by [`mem::forget`].
    ///
    /// # Examples
    ///
    /// ```
    /// use concurrent_lru_proved::unsharded::LruCache;
    ///
    /// # fn main() -> Result<(), concurrent_lru_proved::Refusal> {
    /// let cache = LruCache::<u64, String>::new(10)?;
    /// let handle = cache.insert(&7, 1, "seven".to_string())?;
    /// cache.invalidate(&7)?;
    /// let clone = handle.try_clone()?;
    /// drop(handle);
    /// assert_eq!(*clone, "seven");
    /// # Ok(())
    /// # }
    /// ```
    pub fn try_clone(&self) -> Result<Self, Refusal> {
        self.cache.repin(self.pin)
    }

    /// Drops the handle, and evicts the value at once if this was its last handle, in place of
    /// leaving it idle.
    ///
    /// If the value has another handle, this is the same as [`drop`].
    ///
    /// # Examples
    ///
    /// ```
    /// use concurrent_lru_proved::unsharded::LruCache;
    ///
    /// # fn main() -> Result<(), concurrent_lru_proved::Refusal> {
    /// let cache = LruCache::<u64, String>::new(10)?;
    /// let first = cache.insert(&7, 1, "seven".to_string())?;
    /// let second = first.try_clone()?;
    /// first.release_and_evict();
    /// assert!(cache.contains(&7)?);
    /// second.release_and_evict();
    /// assert!(!cache.contains(&7)?);
    /// # Ok(())
    /// # }
    /// ```
    pub fn release_and_evict(self) {
        let cache = self.cache;
        let (pin, _value) = self.into_pin();
        cache.release_and_evict(pin);
    }

    /// The pin and the value of the entry, without giving the pin back.
    pub(crate) fn into_pin(self) -> (Pin, NonNull<V>) {
        let pinned = (self.pin, self.value);
        mem::forget(self);
        pinned
    }
}

impl<K: Key + ?Sized, V> Deref for CacheHandle<'_, K, V> {
    type Target = V;

    fn deref(&self) -> &V {
        self.value()
    }
}

impl<K: Key + ?Sized, V: fmt::Debug> fmt::Debug for CacheHandle<'_, K, V> {
    fn fmt(&self, f: &mut fmt::Formatter<'_>) -> fmt::Result {
        f.debug_tuple("CacheHandle").field(self.value()).finish()
    }
}

impl<K: Key + ?Sized, V> Drop for CacheHandle<'_, K, V> {
    fn drop(&mut self) {
        self.cache.release(self.pin);
    }
}

/// A pinned value, as [`CacheHandle`], with a handle that borrows nothing and keeps its cache
/// alive.
///
/// Calls such as [`LruCache::get_owned`] return it for a cache in an [`Arc`]. If a value of the
/// cache has such a handle of the same cache, neither is ever dropped.
pub struct OwnedHandle<K: Key + ?Sized, V> {
    cache: Arc<LruCache<K, V>>,
    pin: Pin,
    /// The value of the entry that is pinned.
    value: NonNull<V>,
}

// SAFETY: as for `CacheHandle`. Dropping the handle may also drop the cache, which may move to
// another thread if its values may.
unsafe impl<K: Key + ?Sized, V: Send + Sync> Send for OwnedHandle<K, V> {}

// SAFETY: a shared handle gives shared access to its value only.
unsafe impl<K: Key + ?Sized, V: Send + Sync> Sync for OwnedHandle<K, V> {}

impl<K: Key + ?Sized, V> OwnedHandle<K, V> {
    /// Takes over the pin of a handle of this cache.
    fn of(cache: &Arc<LruCache<K, V>>, handle: CacheHandle<'_, K, V>) -> OwnedHandle<K, V> {
        let cache = Arc::clone(cache);
        let (pin, value) = handle.into_pin();
        OwnedHandle { cache, pin, value }
    }

    /// Returns the value.
    pub fn value(&self) -> &V {
        // SAFETY: the handle has a pin of the entry and keeps the cache alive, so the value is not
        // dropped before the handle is. Nothing has mutable access to a value in the cache.
        unsafe { self.value.as_ref() }
    }

    /// Returns another handle of the same value, as [`CacheHandle::try_clone`] does, which keeps
    /// the cache alive too.
    ///
    /// # Errors
    ///
    /// As [`CacheHandle::try_clone`].
    ///
    /// # Examples
    ///
    /// ```
    /// use concurrent_lru_proved::unsharded::LruCache;
    /// use std::sync::Arc;
    /// use std::thread;
    ///
    /// # fn main() -> Result<(), concurrent_lru_proved::Refusal> {
    /// let cache = Arc::new(LruCache::<u64, String>::new(10)?);
    /// let handle = cache.get_or_init_owned(&7, 1, |key| key.to_string())?;
    /// let clone = handle.try_clone()?;
    /// let length = thread::spawn(move || clone.len());
    /// assert_eq!(length.join().ok(), Some(handle.len()));
    /// # Ok(())
    /// # }
    /// ```
    pub fn try_clone(&self) -> Result<Self, Refusal> {
        let handle = self.cache.repin(self.pin)?;
        Ok(OwnedHandle::of(&self.cache, handle))
    }

    /// Drops the handle, and evicts the value at once if this was its last handle, as
    /// [`CacheHandle::release_and_evict`] does.
    pub fn release_and_evict(self) {
        let this = ManuallyDrop::new(self);
        // SAFETY: `this` is not dropped, so only the copy drops the `Arc`. No other field of a
        // handle has to be dropped.
        let cache = unsafe { ptr::read(&this.cache) };
        cache.release_and_evict(this.pin);
    }
}

impl<K: Key + ?Sized, V> Deref for OwnedHandle<K, V> {
    type Target = V;

    fn deref(&self) -> &V {
        self.value()
    }
}

impl<K: Key + ?Sized, V: fmt::Debug> fmt::Debug for OwnedHandle<K, V> {
    fn fmt(&self, f: &mut fmt::Formatter<'_>) -> fmt::Result {
        f.debug_tuple("OwnedHandle").field(self.value()).finish()
    }
}

impl<K: Key + ?Sized, V> Drop for OwnedHandle<K, V> {
    fn drop(&mut self) {
        self.cache.release(self.pin);
    }
}
