//! Makes random calls of all kinds on the caches of the Rust crate, for `tests/soak`.
//!
//! ```text
//! soak_rust SEED
//! ```
//!
//! Calls of one thread are also made on a plain cache: each answer and each drop must be the same.
//! Then eight threads share a cache. Each value must be of the key that was asked for, and no older
//! than the thread's own last `invalidate` or `insert` of the key allows. Of some keys, which only
//! one thread uses, the thread knows the value. Once all threads have ended, the numbers of the
//! cache must be those of its objects, each of which must be dropped exactly once.
//!
//! Prints one line. A check that fails panics.

use std::env;
use std::hash::{BuildHasher, BuildHasherDefault, DefaultHasher, Hash};
use std::mem;
use std::num::NonZeroUsize;
use std::ops::Deref;
use std::panic::{self, AssertUnwindSafe};
use std::path::PathBuf;
use std::sync::atomic::{AtomicBool, AtomicU64, Ordering::SeqCst};
use std::sync::{Arc, Mutex};
use std::thread;

use concurrent_lru_proved::key::Key;
use concurrent_lru_proved::{GetError, Refusal, Stats, sharded, unsharded};

// ------------------------------------------------------------------- numbers, keys and objects

struct Random(u64);

impl Random {
    fn new(seed: u64) -> Random {
        Random(seed.wrapping_mul(0x9e37_79b9_7f4a_7c15).wrapping_add(1))
    }

    fn below(&mut self, end: u64) -> u64 {
        self.0 ^= self.0 << 13;
        self.0 ^= self.0 >> 7;
        self.0 ^= self.0 << 17;
        (self.0 >> 11) % end
    }

    fn slot<'a, T>(&mut self, of: &'a mut [T]) -> &'a mut T {
        &mut of[self.below(of.len() as u64) as usize]
    }
}

/// Keys by number.
trait Numbered: Key + Hash + Send + Sync + 'static {
    fn of(n: u64) -> Self;
}

impl Numbered for u64 {
    fn of(n: u64) -> u64 {
        n
    }
}

impl Numbered for String {
    fn of(n: u64) -> String {
        format!("key {n}")
    }
}

impl Numbered for (PathBuf, u32) {
    fn of(n: u64) -> (PathBuf, u32) {
        (format!("/a//b{}/", n / 7).into(), n as u32)
    }
}

/// The same for all values of a key: a caller that takes over a making that failed makes its value
/// for the charge that the other caller passed.
fn charge_of(n: u64) -> u64 {
    1 + n % 4
}

/// All objects, by their numbers.
struct Ledger {
    made: AtomicU64,
    alive: AtomicU64,
    charge: AtomicU64,
    dropped: Vec<AtomicBool>,
    /// The numbers of the objects that were dropped, for one thread.
    order: Mutex<Vec<u64>>,
}

impl Ledger {
    fn new(most: u64) -> Arc<Ledger> {
        Arc::new(Ledger {
            made: AtomicU64::new(0),
            alive: AtomicU64::new(0),
            charge: AtomicU64::new(0),
            dropped: (0..most).map(|_| AtomicBool::new(false)).collect(),
            order: Mutex::default(),
        })
    }

    fn make(self: &Arc<Self>, n: u64, by: By) -> Object {
        self.alive.fetch_add(1, SeqCst);
        self.charge.fetch_add(charge_of(n), SeqCst);
        Object {
            n,
            by,
            number: self.made.fetch_add(1, SeqCst),
            ledger: Arc::clone(self),
        }
    }

    fn made(&self) -> u64 {
        self.made.load(SeqCst)
    }

    fn alive(&self) -> u64 {
        self.alive.load(SeqCst)
    }
}

/// Which call made an object.
#[derive(Clone, Copy, PartialEq)]
enum By {
    Init,
    Insert,
}

struct Object {
    n: u64,
    by: By,
    number: u64,
    ledger: Arc<Ledger>,
}

impl Object {
    fn fits(&self, n: u64) -> bool {
        self.n == n && !self.ledger.dropped[self.number as usize].load(SeqCst)
    }
}

impl Drop for Object {
    fn drop(&mut self) {
        let again = self.ledger.dropped[self.number as usize].swap(true, SeqCst);
        assert!(!again, "object {} was dropped twice", self.number);
        self.ledger.order.lock().unwrap().push(self.number);
        self.ledger.charge.fetch_sub(charge_of(self.n), SeqCst);
        self.ledger.alive.fetch_sub(1, SeqCst);
    }
}

// ----------------------------------------------------------------------------------- the caches

/// What both kinds of caches can do.
trait Cache: Send + Sync + Sized + 'static {
    /// A handle that borrows the cache.
    type Handle<'a>: Deref<Target = Object> + Send;
    /// A handle that keeps the cache alive.
    type Owned: Deref<Target = Object> + Send;

    const SHARDS: u64;

    fn with_seed(capacity: u64, seed: u64) -> Self;
    fn shard_of(&self, n: u64) -> usize;
    fn get(&self, n: u64) -> Option<Self::Handle<'_>>;
    fn get_owned(cache: &Arc<Self>, n: u64) -> Option<Self::Owned>;
    fn read<T>(&self, n: u64, reader: impl FnOnce(&Object) -> T) -> Option<T>;
    fn init<E>(
        &self,
        n: u64,
        charge: u64,
        init: impl FnOnce() -> Result<Object, E>,
    ) -> Result<Self::Handle<'_>, GetError<E>>;
    fn init_owned<E>(
        cache: &Arc<Self>,
        n: u64,
        charge: u64,
        init: impl FnOnce() -> Result<Object, E>,
    ) -> Result<Self::Owned, GetError<E>>;
    fn insert(&self, n: u64, charge: u64, value: Object) -> Result<Self::Handle<'_>, Refusal>;
    fn invalidate(&self, n: u64);
    fn advice_evict(&self, n: u64);
    fn contains(&self, n: u64) -> bool;
    fn prune(&self);
    fn set_capacity(&self, capacity: u64);
    fn stats(&self) -> Stats;
    /// `len`, `total_charge`, `pinned_charge` and `capacity`.
    fn numbers(&self) -> (u64, u128, u128, u128);
}

type ByDefault = BuildHasherDefault<DefaultHasher>;

macro_rules! cache {
    ($of:ident, [$($hasher:ty)?], $shards:literal, $with_seed:expr) => {
        impl<K: Numbered> Cache for $of::LruCache<K, Object $(, $hasher)?> {
            type Handle<'a> = $of::CacheHandle<'a, K, Object>;
            type Owned = $of::OwnedHandle<K, Object $(, $hasher)?>;

            const SHARDS: u64 = $shards;

            fn with_seed(capacity: u64, seed: u64) -> Self {
                let with_seed: fn(u64, u64) -> Result<Self, Refusal> = $with_seed;
                with_seed(capacity, seed).unwrap()
            }

            fn shard_of(&self, n: u64) -> usize {
                (ByDefault::default().hash_one(K::of(n)) % Self::SHARDS) as usize
            }

            fn get(&self, n: u64) -> Option<Self::Handle<'_>> {
                self.get(&K::of(n)).unwrap()
            }

            fn get_owned(cache: &Arc<Self>, n: u64) -> Option<Self::Owned> {
                Self::get_owned(cache, &K::of(n)).unwrap()
            }

            fn read<T>(&self, n: u64, reader: impl FnOnce(&Object) -> T) -> Option<T> {
                self.read(&K::of(n), reader).unwrap()
            }

            fn init<E>(
                &self,
                n: u64,
                charge: u64,
                init: impl FnOnce() -> Result<Object, E>,
            ) -> Result<Self::Handle<'_>, GetError<E>> {
                self.get_or_try_init(&K::of(n), charge, |_| init())
            }

            fn init_owned<E>(
                cache: &Arc<Self>,
                n: u64,
                charge: u64,
                init: impl FnOnce() -> Result<Object, E>,
            ) -> Result<Self::Owned, GetError<E>> {
                Self::get_or_try_init_owned(cache, &K::of(n), charge, |_| init())
            }

            fn insert(
                &self,
                n: u64,
                charge: u64,
                value: Object,
            ) -> Result<Self::Handle<'_>, Refusal> {
                self.insert(&K::of(n), charge, value)
            }

            fn invalidate(&self, n: u64) {
                self.invalidate(&K::of(n)).unwrap();
            }

            fn advice_evict(&self, n: u64) {
                self.advice_evict(&K::of(n)).unwrap();
            }

            fn contains(&self, n: u64) -> bool {
                self.contains(&K::of(n)).unwrap()
            }

            fn prune(&self) {
                self.prune();
            }

            fn set_capacity(&self, capacity: u64) {
                self.set_capacity(capacity);
            }

            fn stats(&self) -> Stats {
                self.stats()
            }

            fn numbers(&self) -> (u64, u128, u128, u128) {
                let (total, pinned) = (self.total_charge(), self.pinned_charge());
                (self.len(), total.into(), pinned.into(), self.capacity().into())
            }
        }
    };
}

cache!(unsharded, [], 1, |capacity, seed| Self::with_seed(
    capacity, seed
));
cache!(sharded, [ByDefault], 16, |capacity, seed| {
    let shards = NonZeroUsize::new(Self::SHARDS as usize).unwrap();
    Self::with_seed(capacity, shards, ByDefault::default(), seed)
});

/// A handle of either kind.
enum Held<'a, C: Cache + 'a> {
    Borrowed(C::Handle<'a>),
    Owned(C::Owned),
}

impl<'a, C: Cache> Deref for Held<'a, C> {
    type Target = Object;

    fn deref(&self) -> &Object {
        match self {
            Held::Borrowed(handle) => handle,
            Held::Owned(handle) => handle,
        }
    }
}

/// Why an `init` made no object.
struct Failed;

/// Fails by an error, or by a panic that prints nothing.
fn fail(random: &mut Random) -> Result<Object, Failed> {
    if random.below(4) == 0 {
        panic::resume_unwind(Box::new(Failed));
    }
    Err(Failed)
}

/// Asks for a value by a handle of either kind.
fn ask<'a, C: Cache>(
    cache: &'a Arc<C>,
    n: u64,
    charge: u64,
    owned: bool,
    init: impl FnOnce() -> Result<Object, Failed>,
) -> Result<Held<'a, C>, GetError<Failed>> {
    let asked = panic::catch_unwind(AssertUnwindSafe(|| {
        if owned {
            C::init_owned(cache, n, charge, init).map(Held::Owned)
        } else {
            cache.init(n, charge, init).map(Held::Borrowed)
        }
    }));
    match asked {
        Ok(answer) => answer,
        Err(panic) if panic.is::<Failed>() => Err(GetError::Init(Failed)),
        Err(panic) => panic::resume_unwind(panic),
    }
}

/// Looks for a value by a handle of either kind.
fn look<C: Cache>(cache: &Arc<C>, n: u64, owned: bool) -> Option<Held<'_, C>> {
    if owned {
        C::get_owned(cache, n).map(Held::Owned)
    } else {
        cache.get(n).map(Held::Borrowed)
    }
}

/// Each value that was inserted is present, was evicted or was removed.
fn is_balanced(stats: &Stats) {
    let left = stats.evictions + stats.removals;
    assert_eq!(stats.insertions, stats.entries + left);
}

// ---------------------------------------------------------------- one thread and a plain cache

const STEPS: u64 = 3000;
const SMALL: u64 = 40;

struct Entry {
    n: u64,
    number: u64,
    charge: u64,
    pins: u64,
    /// Whether its key finds it.
    found: bool,
}

/// What a plain cache answers a caller that asks for a value.
#[derive(Debug, PartialEq)]
enum Told {
    /// The number of the value, which has one pin more.
    Found(u64),
    Make,
    Refused(Refusal),
}

/// A shard as a list of entries, those released last at the end.
#[derive(Default)]
struct Plain {
    capacity: u64,
    entries: Vec<Entry>,
    evicted: Vec<u64>,
}

impl Plain {
    fn total(&self) -> u64 {
        self.entries.iter().map(|entry| entry.charge).sum()
    }

    fn pinned(&self) -> u64 {
        let pinned = self.entries.iter().filter(|entry| entry.pins > 0);
        pinned.map(|entry| entry.charge).sum()
    }

    fn find(&mut self, n: u64) -> Option<&mut Entry> {
        self.entries
            .iter_mut()
            .find(|entry| entry.n == n && entry.found)
    }

    fn len(&self) -> u64 {
        self.entries.len() as u64
    }

    /// Finds the value of a key and pins it.
    fn get(&mut self, n: u64) -> Option<u64> {
        let entry = self.find(n)?;
        entry.pins += 1;
        Some(entry.number)
    }

    fn begin(&mut self, n: u64, number: u64, charge: u64) -> Told {
        if charge == 0 {
            return Told::Refused(Refusal::ZeroCharge);
        }
        if let Some(number) = self.get(n) {
            return Told::Found(number);
        }
        if charge > u64::MAX - self.total() {
            return Told::Refused(Refusal::Overflow);
        }
        self.add(n, number, charge);
        Told::Make
    }

    fn insert(&mut self, n: u64, number: u64, charge: u64) -> Result<(), Refusal> {
        if charge == 0 {
            return Err(Refusal::ZeroCharge);
        }
        let idle = self.find(n).filter(|entry| entry.pins == 0);
        let idle = idle.map_or(0, |entry| entry.charge);
        if charge > u64::MAX - (self.total() - idle) {
            return Err(Refusal::Overflow);
        }
        self.invalidate(n);
        self.add(n, number, charge);
        Ok(())
    }

    fn evict(&mut self, at: usize) {
        let entry = self.entries.remove(at);
        self.evicted.push(entry.number);
    }

    /// Evicts idle entries while the total is above this.
    fn settle(&mut self, capacity: u64) {
        while self.total() > capacity {
            let Some(at) = self.entries.iter().position(|entry| entry.pins == 0) else {
                return;
            };
            self.evict(at);
        }
    }

    /// Adds an entry with one pin.
    fn add(&mut self, n: u64, number: u64, charge: u64) {
        self.entries.push(Entry {
            n,
            number,
            charge,
            pins: 1,
            found: true,
        });
        self.settle(self.capacity);
    }

    fn remove(&mut self, number: u64) {
        self.entries.retain(|entry| entry.number != number);
    }

    fn release(&mut self, number: u64) {
        let at = self
            .entries
            .iter()
            .position(|entry| entry.number == number)
            .unwrap();
        self.entries[at].pins -= 1;
        if self.entries[at].pins > 0 {
            return;
        }
        if self.entries[at].found {
            let entry = self.entries.remove(at);
            self.entries.push(entry);
            self.settle(self.capacity);
        } else {
            self.evict(at);
        }
    }

    fn advice_evict(&mut self, n: u64) {
        if let Some(at) = self
            .entries
            .iter()
            .position(|it| it.n == n && it.found && it.pins == 0)
        {
            self.evict(at);
        }
    }

    fn invalidate(&mut self, n: u64) {
        self.advice_evict(n);
        if let Some(entry) = self.find(n) {
            entry.found = false;
        }
    }
}

/// A cache, and a plain cache for each of its shards.
struct Beside<'a, C: Cache> {
    cache: &'a Arc<C>,
    ledger: &'a Arc<Ledger>,
    random: Random,
    plain: Vec<Plain>,
    held: [Option<(usize, Held<'a, C>)>; 5],
}

impl<'a, C: Cache> Beside<'a, C> {
    fn run(mut self) {
        for _ in 0..STEPS {
            self.call();
            self.compare();
        }
        for slot in 0..self.held.len() {
            self.release(slot);
        }
        self.compare();
        assert_eq!(self.cache.numbers().2, 0);
    }

    fn slot(&mut self) -> usize {
        self.random.below(self.held.len() as u64) as usize
    }

    fn call(&mut self) {
        let n = self.random.below(30);
        let shard = self.cache.shard_of(n);
        match self.random.below(16) {
            0 => {
                self.cache.advice_evict(n);
                self.plain[shard].advice_evict(n);
            }
            1 => {
                self.cache.invalidate(n);
                self.plain[shard].invalidate(n);
            }
            2 | 3 => self.insert(n, shard),
            4 | 5 => self.get(n, shard),
            6 => self.read(n, shard),
            7 => self.settle(),
            8 | 9 => {
                let slot = self.slot();
                self.release(slot);
            }
            _ => self.init(n, shard),
        }
    }

    fn hold(&mut self, shard: usize, handle: Held<'a, C>) {
        let slot = self.slot();
        self.release(slot);
        self.held[slot] = Some((shard, handle));
    }

    fn release(&mut self, slot: usize) {
        if let Some((shard, handle)) = self.held[slot].take() {
            self.plain[shard].release(handle.number);
        }
    }

    /// A charge, which may be one that is refused.
    fn charge(&mut self) -> u64 {
        match self.random.below(40) {
            0 => 0,
            1 => u64::MAX,
            _ => 1 + self.random.below(6),
        }
    }

    fn init(&mut self, n: u64, shard: usize) {
        let charge = self.charge();
        let fails = self.random.below(6) == 0;
        let owned = self.random.below(2) == 0;
        let number = self.ledger.made();
        let told = self.plain[shard].begin(n, number, charge);
        let (random, ledger) = (&mut self.random, self.ledger);
        let answer = ask(self.cache, n, charge, owned, || {
            assert_eq!(told, Told::Make);
            if fails {
                fail(random)
            } else {
                Ok(ledger.make(n, By::Init))
            }
        });
        match answer {
            Ok(handle) => {
                assert!(told == Told::Found(handle.number) || told == Told::Make && !fails);
                assert!(told != Told::Make || handle.number == number);
                self.hold(shard, handle);
            }
            Err(GetError::Init(Failed)) => {
                assert!(told == Told::Make && fails);
                self.plain[shard].remove(number);
            }
            Err(GetError::Refused(refusal)) => assert_eq!(told, Told::Refused(refusal)),
        }
    }

    fn insert(&mut self, n: u64, shard: usize) {
        let charge = self.charge();
        let object = self.ledger.make(n, By::Insert);
        let number = object.number;
        let told = self.plain[shard].insert(n, number, charge);
        match self.cache.insert(n, charge, object) {
            Ok(handle) => {
                assert_eq!((told, handle.number), (Ok(()), number));
                self.hold(shard, Held::Borrowed(handle));
            }
            Err(refusal) => {
                assert_eq!(told, Err(refusal));
                // A value that is refused is dropped at once.
                self.plain[shard].evicted.push(number);
            }
        }
    }

    fn get(&mut self, n: u64, shard: usize) {
        let owned = self.random.below(2) == 0;
        let found = look(self.cache, n, owned);
        let number = found.as_ref().map(|handle| handle.number);
        assert_eq!(number, self.plain[shard].get(n));
        if let Some(handle) = found {
            self.hold(shard, handle);
        }
    }

    fn read(&mut self, n: u64, shard: usize) {
        let plain = &mut self.plain[shard];
        let number = plain.get(n);
        assert_eq!(self.cache.read(n, |object| object.number), number);
        if let Some(number) = number {
            plain.release(number);
        }
    }

    /// Evicts all idle values, or sets the capacity.
    fn settle(&mut self) {
        let capacity = self.random.below(2 * SMALL);
        if self.random.below(4) == 0 {
            self.cache.prune();
            self.plain.iter_mut().for_each(|shard| shard.settle(0));
        } else {
            self.cache.set_capacity(capacity);
            for shard in &mut self.plain {
                shard.capacity = capacity.div_ceil(C::SHARDS);
                shard.settle(shard.capacity);
            }
        }
    }

    fn compare(&mut self) {
        self.compare_drops();
        self.compare_numbers();
        for n in 0..30 {
            let shard = self.cache.shard_of(n);
            assert_eq!(self.cache.contains(n), self.plain[shard].find(n).is_some());
        }
    }

    /// Compares what was dropped, and with one shard also in which order.
    fn compare_drops(&mut self) {
        let mut evicted = Vec::new();
        for shard in &mut self.plain {
            evicted.append(&mut shard.evicted);
        }
        let mut dropped = mem::take(&mut *self.ledger.order.lock().unwrap());
        if C::SHARDS > 1 {
            evicted.sort_unstable();
            dropped.sort_unstable();
        }
        assert_eq!(evicted, dropped);
    }

    fn compare_numbers(&self) {
        let sum = |number: fn(&Plain) -> u64| self.plain.iter().map(number).map(u128::from).sum();
        let len = self.plain.iter().map(Plain::len).sum();
        let (total, pinned) = (sum(Plain::total), sum(Plain::pinned));
        let capacity = sum(|shard| shard.capacity);
        assert_eq!(self.cache.numbers(), (len, total, pinned, capacity));
        let stats = self.cache.stats();
        assert_eq!((stats.entries, stats.charge), (len, total));
        assert_eq!((stats.pinned_charge, stats.capacity), (pinned, capacity));
        is_balanced(&stats);
    }
}

/// Runs the calls of one thread on a cache.
fn beside<C: Cache>(seed: u64) {
    let ledger = Ledger::new(2 * STEPS);
    let cache = Arc::new(C::with_seed(SMALL, seed));
    let plain = || Plain {
        capacity: SMALL.div_ceil(C::SHARDS),
        ..Plain::default()
    };
    Beside {
        cache: &cache,
        ledger: &ledger,
        random: Random::new(seed),
        plain: (0..C::SHARDS).map(|_| plain()).collect(),
        held: [const { None }; 5],
    }
    .run();
    drop(cache);
    assert_eq!(ledger.alive(), 0);
}

// --------------------------------------------------------------------------------- many threads

const THREADS: u64 = 8;
const CALLS: u64 = 4000;
const SHARED_KEYS: u64 = 40;
const OWN_KEYS: u64 = 5;
const KEYS: u64 = SHARED_KEYS + THREADS * OWN_KEYS;
const CAPACITY: u64 = 100;

/// What a thread knows of a key.
#[derive(Clone, Default)]
struct Known {
    /// No object that an `init` made is older.
    floor: u64,
    /// The object of the key, if the key is the thread's own.
    current: Option<u64>,
}

/// Where threads leave handles for each other.
type Post<'a, C> = Mutex<[Option<Held<'a, C>>; 4]>;

struct Worker<'a, 'p, C: Cache> {
    cache: &'a Arc<C>,
    ledger: &'a Arc<Ledger>,
    post: &'p Post<'a, C>,
    thread: u64,
    random: Random,
    /// How many calls asked for a value.
    asked: u64,
    held: [Option<Held<'a, C>>; 4],
    known: Vec<Known>,
}

impl<'a, C: Cache> Worker<'a, '_, C> {
    /// Returns how many calls asked for a value.
    fn run(mut self) -> u64 {
        for _ in 0..CALLS {
            self.call();
            assert!(
                self.held
                    .iter()
                    .flatten()
                    .all(|handle| handle.fits(handle.n))
            );
        }
        self.asked
    }

    fn any_key(&mut self) -> u64 {
        if self.random.below(3) > 0 {
            self.random.below(SHARED_KEYS)
        } else {
            SHARED_KEYS + self.thread * OWN_KEYS + self.random.below(OWN_KEYS)
        }
    }

    fn is_own(&self, n: u64) -> bool {
        n >= SHARED_KEYS && (n - SHARED_KEYS) / OWN_KEYS == self.thread
    }

    fn known(&mut self, n: u64) -> &mut Known {
        &mut self.known[n as usize]
    }

    /// Whether this thread has a handle of the value that its own key has.
    fn pins(&mut self, n: u64) -> bool {
        let Some(current) = self.known(n).current else {
            return false;
        };
        self.is_own(n)
            && self
                .held
                .iter()
                .flatten()
                .any(|handle| handle.number == current)
    }

    fn call(&mut self) {
        let n = self.any_key();
        match self.random.below(32) {
            0 => self.cache.advice_evict(n),
            1 => self.invalidate(n),
            2 | 3 => self.insert(n),
            4..=6 => self.get(n),
            7 | 8 => self.read(n),
            9 => self.contains(n),
            10 => self.numbers(),
            11 => self.settle(),
            12 => self.refused(n),
            13 => {
                let held = self.random.slot(&mut self.held);
                mem::swap(held, self.random.slot(&mut *self.post.lock().unwrap()));
            }
            14..=16 => *self.random.slot(&mut self.held) = None,
            _ => self.init(n),
        }
    }

    /// A call on this key found this object.
    fn found(&mut self, n: u64, object: &Object) {
        assert!(object.fits(n));
        let is_own = self.is_own(n);
        let known = self.known(n);
        assert!(object.by != By::Init || object.number >= known.floor);
        assert!(!is_own || known.current == Some(object.number));
    }

    fn missed(&mut self, n: u64) {
        assert!(!self.pins(n));
        self.known(n).current = None;
    }

    fn hold(&mut self, handle: Option<Held<'a, C>>) {
        *self.random.slot(&mut self.held) = handle;
    }

    fn init(&mut self, n: u64) {
        let fails = self.random.below(8) == 0;
        let owned = self.random.below(2) == 0;
        let pinned = self.pins(n);
        let mut ran = false;
        self.asked += 1;
        let answer = ask(self.cache, n, charge_of(n), owned, || {
            ran = true;
            if self.random.below(8) == 0 {
                thread::yield_now();
            }
            if n + 1 < SHARED_KEYS && self.random.below(16) == 0 {
                self.init_above(n);
            }
            if fails {
                fail(&mut self.random)
            } else {
                Ok(self.ledger.make(n, By::Init))
            }
        });
        assert!(!ran || !pinned);
        match answer {
            Ok(handle) => {
                assert!(!ran || !fails);
                if ran {
                    self.known(n).current = Some(handle.number);
                }
                self.found(n, &handle);
                self.hold(Some(handle));
            }
            Err(GetError::Init(Failed)) => {
                assert!(ran && fails);
                self.missed(n);
            }
            Err(GetError::Refused(refusal)) => panic!("refused: {refusal}"),
        }
    }

    /// An `init` may ask for other keys. The order of the keys keeps two from waiting for each
    /// other.
    fn init_above(&mut self, n: u64) {
        let above = n + 1 + self.random.below(SHARED_KEYS - n - 1);
        let make = || Ok::<_, Failed>(self.ledger.make(above, By::Init));
        self.asked += 1;
        match self.cache.init(above, charge_of(above), make) {
            Ok(handle) => self.found(above, &handle),
            Err(_) => panic!("the init cannot fail"),
        }
    }

    fn insert(&mut self, n: u64) {
        self.known(n).floor = self.ledger.made();
        let object = self.ledger.make(n, By::Insert);
        let handle = self.cache.insert(n, charge_of(n), object).unwrap();
        self.known(n).current = Some(handle.number);
        self.found(n, &handle);
        self.hold(Some(Held::Borrowed(handle)));
    }

    fn invalidate(&mut self, n: u64) {
        self.known(n).floor = self.ledger.made();
        self.cache.invalidate(n);
        self.known(n).current = None;
    }

    fn get(&mut self, n: u64) {
        let owned = self.random.below(2) == 0;
        self.asked += 1;
        let handle = look(self.cache, n, owned);
        match &handle {
            Some(object) => self.found(n, object),
            None => self.missed(n),
        }
        self.hold(handle);
    }

    fn read(&mut self, n: u64) {
        self.asked += 1;
        let cache = self.cache;
        let is_there = cache.read(n, |object| self.found(n, object));
        if is_there.is_none() {
            self.missed(n);
        }
    }

    fn contains(&mut self, n: u64) {
        if !self.cache.contains(n) {
            self.missed(n);
        } else if self.is_own(n) {
            assert!(self.known(n).current.is_some());
        }
    }

    fn numbers(&self) {
        let stats = self.cache.stats();
        is_balanced(&stats);
        // With one lock, the numbers are those of one time, and nothing idle is above the capacity.
        let fits = stats.charge <= stats.capacity || stats.charge == stats.pinned_charge;
        assert!(fits || C::SHARDS > 1);
        assert!(self.cache.numbers().3 > 0);
    }

    fn settle(&mut self) {
        if self.random.below(4) == 0 {
            self.cache.prune();
        } else {
            let capacity = CAPACITY / 2 + self.random.below(CAPACITY);
            self.cache.set_capacity(capacity);
        }
    }

    fn refused(&self, n: u64) {
        let answer = self.cache.init(n, 0, || Err(()));
        assert!(matches!(
            answer,
            Err(GetError::Refused(Refusal::ZeroCharge))
        ));
    }
}

/// Checks the numbers of a cache that nobody calls, and of which nobody has a handle.
fn is_quiet<C: Cache>(cache: &C, ledger: &Ledger, asked: u64) {
    let stats = cache.stats();
    assert!(stats.charge <= stats.capacity && stats.pinned_charge == 0);
    assert_eq!(stats.entries, ledger.alive());
    assert_eq!(stats.charge, ledger.charge.load(SeqCst).into());
    assert_eq!(stats.hits + stats.misses + stats.waits, asked);
    is_balanced(&stats);
    assert_eq!(
        cache.numbers(),
        (stats.entries, stats.charge, 0, stats.capacity)
    );
}

fn threads<C: Cache>(seed: u64) {
    // A call makes two objects at most.
    let ledger = Ledger::new(2 * THREADS * CALLS);
    let cache = Arc::new(C::with_seed(CAPACITY, seed));
    let post = Mutex::new([const { None }; 4]);
    let worker = |thread| Worker {
        cache: &cache,
        ledger: &ledger,
        post: &post,
        thread,
        random: Random::new(seed.wrapping_mul(THREADS) + thread + 1),
        asked: 0,
        held: [const { None }; 4],
        known: vec![Known::default(); KEYS as usize],
    };
    let asked = thread::scope(|scope| {
        let threads: Vec<_> = (0..THREADS)
            .map(|thread| {
                let worker = worker(thread);
                scope.spawn(move || worker.run())
            })
            .collect();
        threads
            .into_iter()
            .map(|thread| thread.join().unwrap())
            .sum()
    });
    drop(post);
    is_quiet(&*cache, &ledger, asked);
    // In half of the runs the drop of the cache drops what is left.
    if seed % 2 == 0 {
        cache.prune();
        assert_eq!(
            (ledger.alive(), cache.numbers().0, cache.numbers().1),
            (0, 0, 0)
        );
    }
    drop(cache);
    assert_eq!((ledger.alive(), ledger.charge.load(SeqCst)), (0, 0));
}

fn all_of<C: Cache>(seed: u64) {
    beside::<C>(seed);
    threads::<C>(seed);
}

fn main() {
    let Some(seed) = env::args().nth(1).and_then(|word| word.parse().ok()) else {
        eprintln!("usage: soak_rust SEED");
        std::process::exit(2);
    };
    all_of::<unsharded::LruCache<String, Object>>(seed);
    all_of::<unsharded::LruCache<u64, Object>>(seed);
    all_of::<sharded::LruCache<(PathBuf, u32), Object, ByDefault>>(seed);
    all_of::<sharded::LruCache<u64, Object, ByDefault>>(seed);
    println!(
        "soak_rust: seed {seed}: {} calls beside plain caches, {} calls of eight threads: ok",
        4 * STEPS,
        4 * THREADS * CALLS
    );
}
