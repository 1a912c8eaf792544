//! Values that leave a cache, and the listener that is told of them.

use std::collections::HashMap;
use std::panic::{self, AssertUnwindSafe};
use std::sync::Arc;
use std::thread;

use crate::error::{Refusal, room};
use crate::form::sealed::Calls;
use crate::form::{CallsOf, Form, Hashed, Written};

/// Why a value leaves a cache.
#[derive(Debug, Clone, Copy, PartialEq, Eq, Hash)]
#[non_exhaustive]
pub enum Reason {
    /// It was idle, and left to make room, or as `prune`, `advice_evict` or `release_and_evict`
    /// asked for.
    Evicted,
    /// Its key was passed to `invalidate`, or `retain` was told not to keep it.
    Invalidated,
    /// `insert` gave its key another value.
    Replaced,
    /// `clear` took the values of all keys away.
    Cleared,
}

/// A value that leaves a cache, as a listener is told of it (`with_listener`).
///
/// `W` is what keys are written as, as for [`EntryRef`](crate::EntryRef).
#[derive(Debug, Clone, Copy, PartialEq, Eq)]
#[non_exhaustive]
pub struct Leaving<'a, V, W> {
    /// The key, as it is written.
    pub key: W,
    /// The value, which is dropped next.
    pub value: &'a V,
    /// What the value counted for against the capacity.
    pub charge: u64,
    /// Why the value leaves.
    pub reason: Reason,
}

/// Is told of each value that leaves.
pub(crate) type Listener<F, V> = Arc<dyn Fn(Leaving<'_, V, Written<'_, F>>) + Send + Sync>;

/// What a listener is told of a value, besides the value.
pub(crate) struct Departure<F: Form> {
    key: <CallsOf<F> as Calls>::Copied,
    charge: u64,
    reason: Reason,
}

/// The keys of a cache that has a listener, as the library tells no key of an entry that left.
pub(crate) struct Keys<F: Form> {
    /// The keys by the stamps of their entries, and why those leave that no key finds any more.
    keys: HashMap<u64, (<CallsOf<F> as Calls>::Copied, Option<Reason>)>,
    /// The stamps of the entries that their keys find.
    stamps: HashMap<<CallsOf<F> as Calls>::Copied, u64>,
}

impl<F: Form> Keys<F> {
    pub(crate) fn new() -> Keys<F> {
        Keys {
            keys: HashMap::new(),
            stamps: HashMap::new(),
        }
    }

    /// The numbers of entries, and of those that their keys find.
    #[cfg(test)]
    pub(crate) fn counts(&self) -> (usize, usize) {
        (self.keys.len(), self.stamps.len())
    }

    /// Adds an entry, unless it is there already.
    pub(crate) fn add(&mut self, key: Hashed<'_, F>, stamp: u64) {
        let key = CallsOf::<F>::copied(key);
        self.stamps.insert(key.clone(), stamp);
        self.keys.entry(stamp).or_insert((key, None));
    }

    /// Notes that a key no longer finds its entry, if it had one, and why.
    pub(crate) fn detach(&mut self, key: Hashed<'_, F>, reason: Reason) {
        if let Some(stamp) = self.stamps.remove(&CallsOf::<F>::copied(key)) {
            if let Some((_, why)) = self.keys.get_mut(&stamp) {
                *why = Some(reason);
            }
        }
    }

    /// Removes an entry, whose key still finds it if it was not detached. The reason is that of
    /// its detachment, or the given one. Returns `None` if the entry is older than the listener.
    pub(crate) fn remove(
        &mut self,
        stamp: u64,
        charge: u64,
        reason: Reason,
    ) -> Option<Departure<F>> {
        let (key, why) = self.keys.remove(&stamp)?;
        if why.is_none() {
            self.stamps.remove(&key);
        }
        let reason = why.unwrap_or(reason);
        Some(Departure {
            key,
            charge,
            reason,
        })
    }
}

/// Values that left a cache, oldest first. They must be dropped after the lock is released: the
/// listener is told of each of them first.
pub(crate) struct Evicted<'a, F: Form, V> {
    listener: Option<&'a Listener<F, V>>,
    values: Vec<Box<V>>,
    /// One for each value, if there is a listener.
    departures: Vec<Option<Departure<F>>>,
}

impl<'a, F: Form, V> Evicted<'a, F, V> {
    pub(crate) fn new(listener: Option<&'a Listener<F, V>>) -> Self {
        Evicted {
            listener,
            values: Vec::new(),
            departures: Vec::new(),
        }
    }

    /// Makes room for more values, so that pushing them needs no memory.
    pub(crate) fn reserve(&mut self, more: usize) -> Result<(), Refusal> {
        room(self.values.try_reserve(more))?;
        if self.listener.is_some() {
            room(self.departures.try_reserve(more))?;
        }
        Ok(())
    }

    /// Adds a value. The listener needs its departure.
    pub(crate) fn push(&mut self, value: Box<V>, departure: Option<Departure<F>>) {
        self.values.push(value);
        if self.listener.is_some() {
            self.departures.push(departure);
        }
    }
}

impl<F: Form, V> Drop for Evicted<'_, F, V> {
    fn drop(&mut self) {
        let Some(listener) = self.listener else {
            return;
        };
        let all = self.values.iter().zip(&self.departures);
        tell_all::<F, V>(
            listener,
            all.filter_map(|(value, departure)| {
                let departure = departure.as_ref()?;
                Some(Leaving {
                    key: F::of_raw(CallsOf::<F>::of_copy(&departure.key)),
                    value: &**value,
                    charge: departure.charge,
                    reason: departure.reason,
                })
            }),
        );
    }
}

/// Has a listener told of values that leave. If it panics, it is told of the others in any case,
/// and then the panic goes on.
pub(crate) fn tell_all<'a, F: Form, V: 'a>(
    listener: &Listener<F, V>,
    all: impl Iterator<Item = Leaving<'a, V, Written<'a, F>>>,
) {
    let mut panicked = None;
    for leaving in all {
        let told = panic::catch_unwind(AssertUnwindSafe(|| listener(leaving)));
        panicked = panicked.or(told.err());
    }
    // A second panic would end the program.
    if let Some(panic) = panicked.filter(|_| !thread::panicking()) {
        panic::resume_unwind(panic);
    }
}
