//! The library behind a safe interface, for one owner.

use std::hash::{BuildHasher, Hasher, RandomState};
use std::marker::PhantomData;
use std::ptr::{self, NonNull};

use crate::entry::EntryRef;
use crate::error::{self, Refusal};
use crate::ffi::{self, Entry, Gone, Handle, Pin, Told};
use crate::form::sealed::Calls;
use crate::form::{CallsOf, Form, Hashed, Written, hashed};
use crate::leaving::{Evicted, Keys, Reason};

/// The answer to a caller that asks for a key. The caller has a pin of the entry.
pub(crate) enum Asked<V> {
    /// The caller makes the value, and then calls `ready` or `fail` with this pin.
    Make(Pin),
    /// Another caller makes the value. Ask again by `poll` with this pin.
    Wait(Pin),
    /// The pin, and the value.
    Hit(Pin, NonNull<V>),
}

/// A value that was stored; or why not, and the value.
pub(crate) type Stored<V> = Result<NonNull<V>, (Refusal, Box<V>)>;

/// A cache of the library for keys of one form, with values in boxes. The library stores the
/// address of a box, which the core owns from `ready` or `insert` until the entry is evicted.
///
/// A key comes with its hash, which the caller makes before it takes the lock.
///
/// A pin names its entry. The value stays until the pin is given back by `release` or `fail`.
pub(crate) struct Core<F: Form, V> {
    cache: Handle,
    /// Where the library puts evicted entries. Empty between calls.
    chain: Handle,
    /// Whether `begin`, `ready_with` and `insert` are strict.
    strict: bool,
    /// If there is a listener.
    keys: Option<Keys<F>>,
    /// What was counted before the cache was opened in place of another one.
    before: ffi::Stats,
    form: PhantomData<fn() -> F>,
    values: PhantomData<Box<V>>,
}

// SAFETY: a handle of the library may move to another thread. Otherwise a core owns values only.
unsafe impl<F: Form, V: Send> Send for Core<F, V> {}

impl<F: Form, V> Core<F, V> {
    /// An empty cache that hashes keys with a seed.
    pub(crate) fn new(capacity: u64, seed: u64) -> Result<Self, Refusal> {
        let mut core = Core {
            cache: Handle::CLOSED,
            chain: Handle::CLOSED,
            strict: false,
            keys: None,
            before: ffi::Stats::default(),
            form: PhantomData,
            values: PhantomData,
        };
        // SAFETY: the chain is closed, and there is no other copy of it.
        let code = unsafe { ffi::lru_chain_new(&mut core.chain) };
        done(code)?;
        // SAFETY: the cache is closed, and there is no other copy of it.
        let code =
            unsafe { ffi::lru_cache_new(CallsOf::<F>::KIND, capacity, seed, &mut core.cache) };
        done(code)?;
        Ok(core)
    }

    /// Finds the entry of a key or makes one, and pins it. If the limit is strict, makes none that
    /// the capacity has no room for.
    #[inline]
    pub(crate) fn begin(
        &mut self,
        key: Hashed<'_, F>,
        charge: u64,
        evicted: &mut Evicted<'_, F, V>,
    ) -> Result<Asked<V>, Refusal> {
        let (cache, chain) = (&mut self.cache, &mut self.chain);
        // SAFETY: this core has the only copies of both handles.
        let told = unsafe { CallsOf::<F>::begin(cache, key, charge, self.strict, chain) };
        // Only a new entry needs room, for which others are evicted.
        if told.code == ffi::MAKE {
            self.add_key(key, told.pin);
            self.take_evicted(evicted, Reason::Evicted);
        }
        Self::asked(told)
    }

    /// Asks again for a value that another caller makes.
    pub(crate) fn poll(&mut self, pin: Pin) -> Result<Asked<V>, Refusal> {
        // SAFETY: this core has the only copy of the handle.
        let told = unsafe { ffi::lru_cache_poll(&mut self.cache, pin) };
        Self::asked(told)
    }

    /// Stores the value that the caller was asked to make.
    pub(crate) fn ready(&mut self, pin: Pin, value: Box<V>) -> NonNull<V> {
        // Every handle of this value gets the same pointer, made from this word.
        let word = word_of(Box::into_raw(value));
        // SAFETY: this core has the only copy of the handle.
        let code = unsafe {
            ffi::lru_cache_ready_at(&mut self.cache, pin.stamp, pin.hash, pin.place, word)
        };
        debug_assert_eq!(code, ffi::DONE);
        value_of(word)
    }

    /// Stores the value that the caller was asked to make, with a charge that takes the place of
    /// the one with which its entry was begun. If it is refused, as it is if the limit is strict
    /// and the capacity has no room, returns the value, and nothing has changed.
    pub(crate) fn ready_with(
        &mut self,
        pin: Pin,
        value: Box<V>,
        charge: u64,
        evicted: &mut Evicted<'_, F, V>,
    ) -> Stored<V> {
        let word = word_of(Box::into_raw(value));
        // SAFETY: this core has the only copies of both handles.
        let code = unsafe {
            ffi::lru_cache_ready_with_at(
                &mut self.cache,
                pin.stamp,
                pin.hash,
                pin.place,
                word,
                charge,
                self.strict,
                &mut self.chain,
            )
        };
        if code == ffi::DONE {
            self.take_evicted(evicted, Reason::Evicted);
            return Ok(value_of(word));
        }
        // SAFETY: as in `insert`.
        let value = unsafe { Box::from_raw(value_of(word).as_ptr()) };
        Err((refusal(code), value))
    }

    /// Tells that the caller could not make the value, and gives its pin back. Returns whether
    /// others have pins too, one of which makes the value now.
    pub(crate) fn fail(&mut self, pin: Pin) -> bool {
        // SAFETY: this core has the only copy of the handle.
        let code = unsafe { ffi::lru_cache_fail(&mut self.cache, pin) };
        debug_assert!(matches!(code, ffi::LEFT | ffi::REMOVED));
        if code == ffi::REMOVED {
            self.forget_key(pin);
        }
        code == ffi::LEFT
    }

    /// Finds the value of a key and pins its entry.
    pub(crate) fn get(&mut self, key: Hashed<'_, F>) -> Result<Option<(Pin, NonNull<V>)>, Refusal> {
        // SAFETY: this core has the only copy of the handle.
        let told = unsafe { CallsOf::<F>::get(&mut self.cache, key) };
        match told.code {
            ffi::HIT => Ok(Some((told_pin(&told.pin), value_of(told.value)))),
            ffi::MISSED => Ok(None),
            code => Err(refusal(code)),
        }
    }

    /// Calls `reader` with the value of a key. This counts as a use.
    pub(crate) fn read<T>(
        &mut self,
        key: Hashed<'_, F>,
        reader: impl FnOnce(&V) -> T,
    ) -> Result<Option<T>, Refusal> {
        let Some((pin, value)) = self.get(key)? else {
            return Ok(None);
        };
        /// Gives the pin back, also if `reader` panics.
        struct Pinned<'a, F: Form, V>(&'a mut Core<F, V>, Pin);
        impl<F: Form, V> Drop for Pinned<'_, F, V> {
            fn drop(&mut self) {
                self.0.unpin(self.1);
            }
        }
        let _pinned = Pinned(self, pin);
        // SAFETY: the entry is pinned, so its value stays. Others have shared references only.
        let value = unsafe { value.as_ref() };
        Ok(Some(reader(value)))
    }

    /// Whether `get` would find a value of the key.
    pub(crate) fn contains(&mut self, key: Hashed<'_, F>) -> Result<bool, Refusal> {
        // SAFETY: this core has the only copy of the handle.
        let code = unsafe { CallsOf::<F>::contains(&mut self.cache, key) };
        match code {
            ffi::MISSED => Ok(false),
            code => done(code).map(|()| true),
        }
    }

    /// Pins an entry that has a value once more, by a pin that the caller has.
    pub(crate) fn repin(&mut self, pin: Pin) -> Result<(Pin, NonNull<V>), Refusal> {
        // SAFETY: this core has the only copy of the handle.
        let told = unsafe { ffi::lru_cache_repin(&mut self.cache, pin) };
        match told.code {
            ffi::PINNED => Ok((told_pin(&told.pin), value_of(told.value))),
            code => Err(refusal(code)),
        }
    }

    /// Gives back a pin of an entry that has a value. Returns the first entry that this evicts, if
    /// there is any, for `take_evicted`.
    pub(crate) fn release(&mut self, pin: Pin) -> Option<Gone> {
        self.unpin(pin);
        self.pop()
    }

    /// Gives back a pin of an entry that has a value. What this evicts is left in the chain:
    /// nothing, if the entry has another pin, or was found by its key under the same lock.
    pub(crate) fn unpin(&mut self, pin: Pin) {
        let (cache, chain) = (&mut self.cache, &mut self.chain);
        // SAFETY: this core has the only copies of both handles.
        let code =
            unsafe { ffi::lru_cache_release_at(cache, pin.stamp, pin.hash, pin.place, chain) };
        debug_assert_eq!(code, ffi::DONE);
    }

    /// Gives back a pin of an entry that has a value, and evicts the entry if it was its last.
    pub(crate) fn release_and_evict(&mut self, pin: Pin, evicted: &mut Evicted<'_, F, V>) {
        // SAFETY: this core has the only copies of both handles.
        let code =
            unsafe { ffi::lru_cache_release_and_evict(&mut self.cache, pin, &mut self.chain) };
        debug_assert_eq!(code, ffi::DONE);
        self.take_evicted(evicted, Reason::Evicted);
    }

    /// Evicts the entry of a key if it has no pin.
    pub(crate) fn advice_evict(
        &mut self,
        key: Hashed<'_, F>,
        evicted: &mut Evicted<'_, F, V>,
    ) -> Result<(), Refusal> {
        // SAFETY: this core has the only copies of both handles.
        let code = unsafe { CallsOf::<F>::evict(&mut self.cache, key, false, &mut self.chain) };
        self.take_evicted(evicted, Reason::Evicted);
        done(code)
    }

    /// Detaches the entry of a key, so that the key does not find it. It is evicted if it has no
    /// pin, and else with its last release.
    pub(crate) fn invalidate(
        &mut self,
        key: Hashed<'_, F>,
        reason: Reason,
        evicted: &mut Evicted<'_, F, V>,
    ) -> Result<(), Refusal> {
        // SAFETY: this core has the only copies of both handles.
        let code = unsafe { CallsOf::<F>::evict(&mut self.cache, key, true, &mut self.chain) };
        done(code)?;
        self.detach_key(key, reason);
        self.take_evicted(evicted, reason);
        Ok(())
    }

    /// Detaches the entry of a key as `invalidate` does, and makes one with this value, of which
    /// the caller has a pin. If it is refused, as it is if the limit is strict and the capacity has
    /// no room, returns the value, and nothing has changed.
    pub(crate) fn insert(
        &mut self,
        key: Hashed<'_, F>,
        charge: u64,
        value: Box<V>,
        evicted: &mut Evicted<'_, F, V>,
    ) -> Result<(Pin, NonNull<V>), (Refusal, Box<V>)> {
        let word = word_of(Box::into_raw(value));
        let (cache, chain) = (&mut self.cache, &mut self.chain);
        // SAFETY: this core has the only copies of both handles.
        let told = unsafe { CallsOf::<F>::insert(cache, key, charge, word, self.strict, chain) };
        if told.code == ffi::DONE {
            self.detach_key(key, Reason::Replaced);
            self.add_key(key, told.pin);
            self.take_evicted(evicted, Reason::Evicted);
            return Ok((told_pin(&told.pin), value_of(word)));
        }
        // SAFETY: the pointer is that of the box above, and the library has not stored it.
        let value = unsafe { Box::from_raw(value_of(word).as_ptr()) };
        Err((refusal(told.code), value))
    }

    /// Evicts every entry without a pin.
    pub(crate) fn prune(&mut self, reason: Reason, evicted: &mut Evicted<'_, F, V>) {
        // SAFETY: this core has the only copies of both handles.
        unsafe { ffi::lru_cache_prune(&mut self.cache, &mut self.chain) };
        self.take_evicted(evicted, reason);
    }

    /// Sets the capacity, and evicts entries without a pin while the total is above it.
    pub(crate) fn set_capacity(&mut self, capacity: u64, evicted: &mut Evicted<'_, F, V>) {
        // SAFETY: this core has the only copies of both handles.
        unsafe { ffi::lru_cache_set_capacity(&mut self.cache, capacity, &mut self.chain) };
        self.take_evicted(evicted, Reason::Evicted);
    }

    /// Sets whether the limit is strict.
    pub(crate) fn set_strict_limit(&mut self, strict: bool) {
        self.strict = strict;
    }

    /// Whether the limit is strict.
    pub(crate) fn is_limit_strict(&self) -> bool {
        self.strict
    }

    /// Makes room for so many entries in all.
    pub(crate) fn reserve(&mut self, entries: usize) -> Result<(), Refusal> {
        // SAFETY: this core has the only copy of the handle.
        let code = unsafe { ffi::lru_cache_reserve(&mut self.cache, entries) };
        done(code)
    }

    /// If there is no entry, opens a cache in place of this one, whose tables take no memory.
    /// Returns whether it did. If it is refused, nothing has changed.
    pub(crate) fn shrink(&mut self, seed: u64) -> Result<bool, Refusal> {
        if self.len() != 0 {
            return Ok(false);
        }
        let capacity = self.capacity();
        let mut fresh = Handle::CLOSED;
        // SAFETY: the cache is closed, and there is no other copy of it.
        let code = unsafe { ffi::lru_cache_new(CallsOf::<F>::KIND, capacity, seed, &mut fresh) };
        done(code)?;
        self.before = self.stats();
        // SAFETY: this core has the only copies of both handles.
        unsafe { ffi::lru_cache_free(&mut self.cache, &mut self.chain) };
        self.cache = fresh;
        Ok(true)
    }

    /// The total of the charges of all entries.
    pub(crate) fn total(&mut self) -> u64 {
        // SAFETY: this core has the only copy of the handle.
        let told = unsafe { ffi::lru_cache_total(&mut self.cache) };
        told.value
    }

    /// The total of the charges of the entries that have a pin.
    pub(crate) fn pinned_charge(&mut self) -> u64 {
        // SAFETY: this core has the only copy of the handle.
        let told = unsafe { ffi::lru_cache_pinned_charge(&mut self.cache) };
        told.value
    }

    /// The number of entries.
    pub(crate) fn len(&mut self) -> u64 {
        // SAFETY: this core has the only copy of the handle.
        let told = unsafe { ffi::lru_cache_len(&mut self.cache) };
        told.value
    }

    /// The capacity.
    pub(crate) fn capacity(&mut self) -> u64 {
        // SAFETY: this core has the only copy of the handle.
        let told = unsafe { ffi::lru_cache_capacity(&mut self.cache) };
        told.value
    }

    /// Calls `visit` for each value that its key finds.
    pub(crate) fn for_each(
        &mut self,
        mut visit: impl FnMut(EntryRef<'_, V, Written<'_, F>>),
    ) -> Result<(), Refusal> {
        let mut room = <CallsOf<F> as Calls>::Room::default();
        for entry in self.findable()? {
            let key = self.key_of(entry.pin, &mut room)?;
            visit(EntryRef {
                key,
                value: self.value_of_entry(&entry),
                charge: entry.charge,
                pins: entry.pins,
            });
        }
        Ok(())
    }

    /// Detaches the entries for whose values `keep` returns false, as `invalidate` does. If `keep`
    /// panics, or if it is refused, nothing has changed.
    pub(crate) fn retain(
        &mut self,
        seed: u64,
        evicted: &mut Evicted<'_, F, V>,
        mut keep: impl FnMut(Written<'_, F>, &V, u64) -> bool,
    ) -> Result<(), Refusal> {
        let mut room = <CallsOf<F> as Calls>::Room::default();
        let mut pins = Vec::new();
        let entries = self.findable()?;
        error::room(pins.try_reserve(entries.len()))?;
        for entry in &entries {
            let key = self.key_of(entry.pin, &mut room)?;
            if !keep(key, self.value_of_entry(entry), entry.charge) {
                pins.push(entry.pin);
            }
        }
        evicted.reserve(pins.len())?;
        self.detach(&pins, seed, &mut room, Reason::Invalidated, evicted)
    }

    /// Detaches every entry, as `invalidate` does. `makings` has the pins of those whose values are
    /// being made. If it is refused, nothing has changed.
    pub(crate) fn clear(
        &mut self,
        makings: impl Iterator<Item = Pin>,
        seed: u64,
        evicted: &mut Evicted<'_, F, V>,
    ) -> Result<(), Refusal> {
        let mut room = <CallsOf<F> as Calls>::Room::default();
        let mut pins = Vec::new();
        evicted.reserve(self.room_for_all())?;
        if self.pinned_charge() != 0 {
            error::room(pins.try_reserve(self.room_for_all()))?;
            let entries = self.findable()?;
            let held = entries.iter().filter(|entry| entry.pins != 0);
            pins.extend(held.map(|entry| entry.pin).chain(makings));
            // Once there is room for each of these keys, nothing is refused any more.
            for pin in &pins {
                self.key_of(*pin, &mut room)?;
            }
        }
        self.detach(&pins, seed, &mut room, Reason::Cleared, evicted)?;
        self.prune(Reason::Cleared, evicted);
        Ok(())
    }

    /// Detaches entries by their pins. The keys of all of them were copied to this room before.
    fn detach(
        &mut self,
        pins: &[Pin],
        seed: u64,
        room: &mut <CallsOf<F> as Calls>::Room,
        reason: Reason,
        evicted: &mut Evicted<'_, F, V>,
    ) -> Result<(), Refusal> {
        for pin in pins {
            let key = self.key_of(*pin, room)?;
            self.invalidate(hashed::<F>(&key, seed), reason, evicted)?;
        }
        Ok(())
    }

    /// The entries that have a value which their keys find.
    fn findable(&mut self) -> Result<Vec<Entry>, Refusal> {
        let len = self.room_for_all();
        let mut entries = Vec::new();
        error::room(entries.try_reserve(len))?;
        entries.resize(len, Entry::NONE);
        // SAFETY: this core has the only copy of the handle, and the buffer has room for `len`
        // entries, which is enough.
        let told = unsafe {
            ffi::lru_cache_entries_nonnull(&mut self.cache, entries.as_mut_ptr(), entries.len())
        };
        debug_assert_eq!(told.code, ffi::NUMBER);
        entries.truncate(usize::try_from(told.value).unwrap_or(len));
        entries.retain(|entry| entry.is_detached == 0);
        Ok(entries)
    }

    /// How many entries a list of all of them has room for.
    fn room_for_all(&mut self) -> usize {
        usize::try_from(self.len()).expect("each entry takes memory")
    }

    /// The key of an entry of this core.
    fn key_of<'a>(
        &mut self,
        pin: Pin,
        room: &'a mut <CallsOf<F> as Calls>::Room,
    ) -> Result<Written<'a, F>, Refusal> {
        // SAFETY: this core has the only copy of the handle, and the entry.
        unsafe { CallsOf::<F>::key_of(&mut self.cache, pin, room) }.map(F::of_raw)
    }

    /// The value of an entry that this core told.
    fn value_of_entry(&self, entry: &Entry) -> &V {
        // SAFETY: the word is the address of a box that `ready` or `insert` stored, and no entry is
        // evicted while this core is borrowed. Others have shared references only.
        unsafe { value_of(entry.value).as_ref() }
    }

    /// What the calls have answered, and what the cache holds.
    pub(crate) fn stats(&mut self) -> ffi::Stats {
        let mut stats = ffi::Stats::default();
        // SAFETY: this core has the only copy of the handle.
        let code = unsafe { ffi::lru_cache_stats(&mut self.cache, &mut stats) };
        debug_assert_eq!(code, ffi::DONE);
        let before = self.before;
        ffi::Stats {
            hits: stats.hits.saturating_add(before.hits),
            misses: stats.misses.saturating_add(before.misses),
            waits: stats.waits.saturating_add(before.waits),
            insertions: stats.insertions.saturating_add(before.insertions),
            evictions: stats.evictions.saturating_add(before.evictions),
            removals: stats.removals.saturating_add(before.removals),
            ..stats
        }
    }

    #[inline]
    fn asked(told: Told) -> Result<Asked<V>, Refusal> {
        match told.code {
            ffi::MAKE => Ok(Asked::Make(told_pin(&told.pin))),
            ffi::WAIT => Ok(Asked::Wait(told_pin(&told.pin))),
            ffi::HIT => Ok(Asked::Hit(told_pin(&told.pin), value_of(told.value))),
            code => Err(refusal(code)),
        }
    }

    /// Keeps the keys of all entries from now on, for a listener.
    pub(crate) fn keep_keys(&mut self) {
        self.keys = Some(Keys::new());
    }

    fn add_key(&mut self, key: Hashed<'_, F>, pin: Pin) {
        if let Some(keys) = &mut self.keys {
            keys.add(key, pin.stamp);
        }
    }

    fn detach_key(&mut self, key: Hashed<'_, F>, reason: Reason) {
        if let Some(keys) = &mut self.keys {
            keys.detach(key, reason);
        }
    }

    fn forget_key(&mut self, pin: Pin) {
        if let Some(keys) = &mut self.keys {
            keys.remove(pin.stamp, 0, Reason::Evicted);
        }
    }

    /// Takes the first entry out of the chain.
    fn pop(&mut self) -> Option<Gone> {
        let mut gone = Gone {
            stamp: 0,
            charge: 0,
            value: 0,
        };
        // SAFETY: this core has the only copy of the handle.
        unsafe { ffi::lru_chain_pop(&mut self.chain, &mut gone) }.then_some(gone)
    }

    /// Moves the values of evicted entries out of the chain. They leave for this reason, if they
    /// were not detached for another one.
    fn take_evicted(&mut self, evicted: &mut Evicted<'_, F, V>, reason: Reason) {
        let first = self.pop();
        self.take_all_evicted(first, evicted, reason);
    }

    /// The same, where the first entry was taken out of the chain already.
    pub(crate) fn take_all_evicted(
        &mut self,
        first: Option<Gone>,
        evicted: &mut Evicted<'_, F, V>,
        reason: Reason,
    ) {
        let mut next = first;
        while let Some(gone) = next {
            let value = value_of(gone.value).as_ptr();
            // SAFETY: the word is the address of a box that `ready`, `ready_with` or `insert`
            // stored. The library tells each word once, and only when its entry has no pin.
            let value = unsafe { Box::from_raw(value) };
            let keys = self.keys.as_mut();
            let departure = keys.and_then(|keys| keys.remove(gone.stamp, gone.charge, reason));
            evicted.push(value, departure);
            next = self.pop();
        }
    }
}

impl<F: Form, V> Drop for Core<F, V> {
    fn drop(&mut self) {
        // SAFETY: this core has the only copies of both handles.
        unsafe { ffi::lru_cache_free(&mut self.cache, &mut self.chain) };
        // Handles borrow the cache that owns this core, so there is none left. A pin that is left
        // is one whose handle was forgotten.
        let mut left = Evicted::new(None);
        self.take_evicted(&mut left, Reason::Evicted);
        // SAFETY: as above.
        unsafe { ffi::lru_chain_free(&mut self.chain) };
    }
}

/// Copies a pin that the library has just told, word by word. A copy of two words at once would
/// have to wait until each of them, which the library wrote by itself, has reached the cache of the
/// processor. That would take a tenth of a hit.
#[inline]
fn told_pin(pin: &Pin) -> Pin {
    Pin {
        stamp: told_word(&pin.stamp),
        hash: told_word(&pin.hash),
        place: told_word(&pin.place),
    }
}

/// A word, which the compiler does not join to its neighbours.
#[inline]
fn told_word<T: Copy>(word: &T) -> T {
    // SAFETY: a reference can be read.
    unsafe { ptr::from_ref(word).read_volatile() }
}

/// A seed that nobody can guess.
pub(crate) fn random_seed() -> u64 {
    RandomState::new().build_hasher().finish()
}

/// The word that the library stores for a value.
pub(crate) fn word_of<V>(value: *mut V) -> u64 {
    value.expose_provenance() as u64
}

/// The value of a word that `word_of` made.
pub(crate) fn value_of<V>(word: u64) -> NonNull<V> {
    let at = ptr::with_exposed_provenance_mut(word as usize);
    // SAFETY: the word is the address of a box, which is not null.
    unsafe { NonNull::new_unchecked(at) }
}

pub(crate) fn done(code: u32) -> Result<(), Refusal> {
    match code {
        ffi::DONE => Ok(()),
        code => Err(refusal(code)),
    }
}

/// The refusal of a code.
pub(crate) fn refusal(code: u32) -> Refusal {
    match code {
        ffi::OVERFLOW => Refusal::Overflow,
        ffi::MEMORY => Refusal::Memory,
        ffi::NO_CHARGE => Refusal::ZeroCharge,
        ffi::FULL => Refusal::Full,
        // No other code is possible: the handles are open, the chain is empty, and the pins and
        // tickets are those that the library told.
        _ => unreachable!("the library answered code {code}"),
    }
}

#[cfg(test)]
mod tests {
    use super::{Asked, Core};
    use crate::error::Refusal;
    use crate::form::Words;
    use crate::leaving::{Evicted, Reason};

    #[test]
    fn no_key_is_kept_of_an_entry_that_is_gone() -> Result<(), Refusal> {
        let mut core = Core::<Words, u64>::new(10, 0)?;
        core.keep_keys();
        let mut evicted = Evicted::new(None);
        let keys = |core: &Core<Words, u64>| core.keys.as_ref().map(|keys| keys.counts());
        let Asked::Make(failing) = core.begin([0, 1], 1, &mut evicted)? else {
            unreachable!("the cache is empty");
        };
        assert_eq!(keys(&core), Some((1, 1)));
        assert!(!core.fail(failing));
        assert_eq!(keys(&core), Some((0, 0)));
        let (idle, _) = core.insert([0, 2], 1, Box::new(2), &mut evicted).unwrap();
        let (held, _) = core.insert([0, 3], 1, Box::new(3), &mut evicted).unwrap();
        core.invalidate([0, 3], Reason::Invalidated, &mut evicted)?;
        assert_eq!(keys(&core), Some((2, 1)));
        for pin in [idle, held] {
            let first = core.release(pin);
            core.take_all_evicted(first, &mut evicted, Reason::Evicted);
        }
        assert_eq!(keys(&core), Some((1, 1)));
        core.prune(Reason::Evicted, &mut evicted);
        assert_eq!(keys(&core), Some((0, 0)));
        Ok(())
    }
}
