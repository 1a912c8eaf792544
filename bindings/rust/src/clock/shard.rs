//! A shard: a clock of the library behind a lock, with values in boxes.

use std::iter;
use std::marker::PhantomData;
use std::mem;
use std::ptr::{self, NonNull};
use std::sync::{Condvar, Mutex, MutexGuard, OnceLock};
use std::time::Duration;

use super::Stats;
use crate::error::{self, Refusal};
use crate::ffi::{self, Found, Handle};
use crate::form::Words;
use crate::hash::hash_of_words;
use crate::leaving::{self, Leaving, Reason};
use crate::makings::Loads;
use crate::proved::{done, refusal, value_of, word_of};
use crate::unsharded::unpoisoned;
use crate::waiting::WaitList;

/// A value with what a visit of all values shows of it. The library stores the address of a node,
/// and owns it from `insert` or `ready` until it tells that the entry has left.
pub(super) struct Node<V> {
    pub(super) value: V,
    pub(super) key: [u64; 2],
    pub(super) charge: u64,
    /// Why its key does not find it any more. Written with the lock of the shard held.
    detached: OnceLock<Reason>,
    /// The next node in a list of those that left.
    next: Option<Box<Node<V>>>,
}

impl<V> Node<V> {
    pub(super) fn new(key: [u64; 2], charge: u64, value: V) -> Box<Node<V>> {
        Box::new(Node {
            value,
            key,
            charge,
            detached: OnceLock::new(),
            next: None,
        })
    }

    /// Whether the key finds it. It may cease to meanwhile, unless the caller has the lock.
    pub(super) fn is_listed(&self) -> bool {
        self.detached.get().is_none()
    }

    /// Notes that its key does not find it any more.
    fn detach(&self, reason: Reason) {
        // The first reason stays.
        let _ = self.detached.set(reason);
    }

    /// What a listener is told when it leaves.
    fn leaving(&self) -> Leaving<'_, V, [u64; 2]> {
        Leaving {
            key: self.key,
            value: &self.value,
            charge: self.charge,
            reason: self.detached.get().copied().unwrap_or(Reason::Evicted),
        }
    }
}

/// Is told of each value that leaves.
pub(super) type Listener<V> = leaving::Listener<Words, V>;

/// The nodes of entries that left. They must be dropped after the lock is released: the listener is
/// told of each of them first.
pub(super) struct Left<'a, V> {
    listener: Option<&'a Listener<V>>,
    nodes: Nodes<V>,
}

impl<'a, V> Left<'a, V> {
    pub(super) fn new(listener: Option<&'a Listener<V>>) -> Self {
        let nodes = Nodes(None);
        Left { listener, nodes }
    }

    /// Takes over the node of an entry that left.
    fn take(&mut self, left: ffi::Left) {
        // SAFETY: the word is the address of a box that `insert` or `ready` stored. The library
        // tells each word once, and only when its entry has no pin.
        let node: Box<Node<V>> = unsafe { Box::from_raw(value_of(left.value).as_ptr()) };
        self.nodes.push(node);
    }
}

impl<V> Drop for Left<'_, V> {
    fn drop(&mut self) {
        // The last one that was pushed is the first. Those that left first are told of first.
        let mut nodes = Nodes(None);
        while let Some(node) = self.nodes.pop() {
            nodes.push(node);
        }
        if let Some(listener) = self.listener {
            leaving::tell_all::<Words, V>(listener, nodes.iter().map(Node::leaving));
        }
    }
}

/// A list of nodes.
struct Nodes<V>(Option<Box<Node<V>>>);

impl<V> Nodes<V> {
    fn push(&mut self, mut node: Box<Node<V>>) {
        node.next = self.0.take();
        self.0 = Some(node);
    }

    fn pop(&mut self) -> Option<Box<Node<V>>> {
        let mut node = self.0.take()?;
        self.0 = node.next.take();
        Some(node)
    }

    fn iter(&self) -> impl Iterator<Item = &Node<V>> {
        iter::successors(self.0.as_deref(), |node| node.next.as_deref())
    }
}

impl<V> Drop for Nodes<V> {
    fn drop(&mut self) {
        /// Drops the others if the drop of a value panics.
        struct Others<'a, V>(&'a mut Nodes<V>);
        impl<V> Drop for Others<'_, V> {
            fn drop(&mut self) {
                while let Some(node) = self.0.pop() {
                    drop(node);
                }
            }
        }
        let others = Others(self);
        while let Some(node) = others.0.pop() {
            drop(node);
        }
    }
}

/// Names a pin of an entry, and its node, which stays until the pin is given back.
pub(super) struct Pin<V> {
    pub(super) place: u32,
    pub(super) node: NonNull<Node<V>>,
}

impl<V> Clone for Pin<V> {
    fn clone(&self) -> Self {
        *self
    }
}

impl<V> Copy for Pin<V> {}

impl<V> Pin<V> {
    /// The pin that the library told.
    #[inline]
    pub(super) fn of(found: Found) -> Pin<V> {
        Pin {
            place: found.place,
            node: value_of(found.value),
        }
    }
}

/// The pin that a look-up was told, if there is one.
#[inline]
pub(super) fn told<V>(found: Found) -> Result<Option<Pin<V>>, Refusal> {
    match found.code {
        ffi::HIT => Ok(Some(Pin::of(found))),
        ffi::MISSED => Ok(None),
        code => Err(refusal(code)),
    }
}

/// A key with its hash, and the number of its shard.
#[derive(Clone, Copy)]
pub(super) struct Route {
    pub(super) shard: usize,
    pub(super) hash: u64,
    pub(super) key: [u64; 2],
}

impl Route {
    /// The lower half of the hash chooses the shard. The clock of the shard takes the upper half.
    #[inline]
    pub(super) fn new(key: [u64; 2], seed: u64, shards: usize) -> Route {
        let hash = hash_of_words(key, seed);
        let shard = (u128::from(hash as u32) * shards as u128) >> 32;
        Route {
            shard: shard as usize,
            hash,
            key,
        }
    }
}

/// The answer to a caller that asks for a key.
pub(super) enum Turn<V> {
    /// The key has a value, which is pinned.
    Hit(Pin<V>),
    /// The caller makes the value, and then calls `ready` or `fail` with this ticket.
    Make(u64),
    /// Another caller makes the value, with this ticket.
    Wait(u64),
}

/// The pin of a node that was stored, or the node and why it was refused.
pub(super) type Stored<V> = Result<Pin<V>, (Refusal, Box<Node<V>>)>;

/// A value that is being made, and that its key will find.
pub(super) struct Making {
    ticket: u64,
    route: Route,
    /// Those that sleep until the making has ended.
    wait_list: WaitList,
}

/// A shard of a cache. Look-ups without the lock do not read it, so they share no line with what
/// the holders of the lock write.
#[repr(align(64))]
pub(super) struct Shard<V> {
    state: Mutex<State<V>>,
    /// Notified when a making has ended that threads wait for.
    ended: Condvar,
}

impl<V> Shard<V> {
    pub(super) fn new(capacity: u64) -> Result<Shard<V>, Refusal> {
        let mut state = State {
            clock: Handle::CLOSED,
            reader: Handle::CLOSED,
            is_strict: false,
            makings: Vec::new(),
            detached: Vec::new(),
            inserted: 0,
            loads: Loads::default(),
            nodes: PhantomData,
        };
        // SAFETY: the clock is closed, and there is no other copy of it.
        done(unsafe { ffi::lru_clock_new(capacity, &mut state.clock) })?;
        // SAFETY: the state has the only copies of both handles.
        done(unsafe { ffi::lru_reader_new(&mut state.clock, &mut state.reader) })?;
        Ok(Shard {
            state: Mutex::new(state),
            ended: Condvar::new(),
        })
    }

    pub(super) fn lock(&self) -> MutexGuard<'_, State<V>> {
        unpoisoned(self.state.lock())
    }

    /// Blocks the thread until a making has ended.
    pub(super) fn wait<'a>(
        &'a self,
        mut state: MutexGuard<'a, State<V>>,
        ticket: u64,
    ) -> MutexGuard<'a, State<V>> {
        if let Some(list) = state.wait_list(ticket) {
            list.add_thread();
        }
        while state.wait_list(ticket).is_some() {
            state = unpoisoned(self.ended.wait(state));
        }
        state
    }

    /// Releases the lock, and wakes those that wait for makings that have ended.
    pub(super) fn unlock(
        &self,
        state: MutexGuard<'_, State<V>>,
        ended: impl IntoIterator<Item = Making>,
    ) {
        drop(state);
        for mut making in ended {
            making.wait_list.sleepers().wake(&self.ended);
        }
    }
}

/// What the lock of a shard guards.
pub(super) struct State<V> {
    clock: Handle,
    /// A reader for whoever has the lock.
    reader: Handle,
    /// Whether no value is stored that takes the total above the capacity.
    is_strict: bool,
    makings: Vec<Making>,
    /// The tickets of those whose keys were invalidated or got another value meanwhile, and why. It
    /// has room for those of `makings` too.
    detached: Vec<(u64, Reason)>,
    /// How many values were stored that were not made by those who asked for them.
    inserted: u64,
    /// The makings that have ended, by whether the value was stored.
    loads: Loads,
    nodes: PhantomData<Box<Node<V>>>,
}

// SAFETY: handles of the library may move to another thread. Otherwise a state owns nodes only.
unsafe impl<V: Send> Send for State<V> {}

impl<V> State<V> {
    /// Opens a reader for a thread. If there is no memory, leaves it closed.
    pub(super) fn open(&mut self, reader: *mut Handle) {
        // SAFETY: the caller's thread is the only one that uses the reader, and this state has the
        // only copy of the clock.
        unsafe { ffi::lru_reader_new(&mut self.clock, reader) };
    }

    /// Pins the entry of a key.
    pub(super) fn find(&mut self, route: Route) -> Result<Option<Pin<V>>, Refusal> {
        let [first, second] = route.key;
        // SAFETY: this state has the only copy of the handle.
        told(unsafe { ffi::lru_clock_find(&mut self.clock, route.hash, first, second) })
    }

    /// Pins the entry at a place.
    pub(super) fn pin_at(&mut self, place: u32) -> Found {
        // SAFETY: this state has the only copy of the handle.
        unsafe { ffi::lru_reader_pin_at(&mut self.reader, place) }
    }

    /// Gives a pin back.
    pub(super) fn unpin(&mut self, place: u32, left: &mut Left<'_, V>) {
        // SAFETY: this state has the only copy of the handle.
        let code = unsafe { ffi::lru_reader_unpin(&mut self.reader, place) };
        self.finish_unpin(code, place, left);
    }

    /// Takes out what has to leave after a pin was given back, with this answer.
    pub(super) fn finish_unpin(&mut self, code: u32, place: u32, left: &mut Left<'_, V>) {
        match code {
            ffi::LAST => {
                let mut gone = ffi::Left::default();
                let clock = &mut self.clock;
                // SAFETY: this state has the only copy of the handle.
                if unsafe { ffi::lru_clock_collect(clock, place, &mut gone) } == ffi::GONE {
                    left.take(gone);
                }
            }
            ffi::ABOVE => self.make_room(0, left),
            _ => {}
        }
    }

    /// Gives a pin back, and evicts the entry if that was its last pin.
    pub(super) fn release_and_evict(&mut self, place: u32, left: &mut Left<'_, V>) {
        let mut gone = ffi::Left::default();
        let clock = &mut self.clock;
        // SAFETY: this state has the only copy of the handle.
        if unsafe { ffi::lru_clock_release_and_evict(clock, place, &mut gone) } == ffi::GONE {
            left.take(gone);
        }
    }

    /// Finds the value of a key, or begins to make it. If the limit is strict, makes room for a new
    /// value, and begins to make none that has no room.
    pub(super) fn begin(
        &mut self,
        route: Route,
        charge: u64,
        left: &mut Left<'_, V>,
    ) -> Result<Turn<V>, Refusal> {
        error::room(self.makings.try_reserve(1))?;
        error::room(self.detached.try_reserve(self.makings.len() + 1))?;
        if self.is_strict && !self.has_room(charge) {
            if let Some(pin) = self.find(route)? {
                return Ok(Turn::Hit(pin));
            }
            // A value that is being made is waited for.
            let mut makings = self.makings.iter();
            if !makings.any(|making| making.route.key == route.key) {
                self.make_room(charge, left);
                if !self.has_room(charge) {
                    return Err(Refusal::Full);
                }
            }
        }
        let [first, second] = route.key;
        // SAFETY: this state has the only copy of the handle.
        let found =
            unsafe { ffi::lru_clock_begin(&mut self.clock, route.hash, first, second, charge) };
        match found.code {
            ffi::HIT => Ok(Turn::Hit(Pin::of(found))),
            ffi::MAKE => {
                let ticket = found.value;
                self.makings.push(Making {
                    ticket,
                    route,
                    wait_list: WaitList::default(),
                });
                Ok(Turn::Make(ticket))
            }
            ffi::WAIT => {
                let mut makings = self.makings.iter();
                let Some(making) = makings.find(|making| making.route.key == route.key) else {
                    unreachable!("the library and the list have the same makings");
                };
                Ok(Turn::Wait(making.ticket))
            }
            code => Err(refusal(code)),
        }
    }

    /// Those that sleep until a making has ended. Returns `None` if it has.
    pub(super) fn wait_list(&mut self, ticket: u64) -> Option<&mut WaitList> {
        let mut makings = self.makings.iter_mut();
        let making = makings.find(|making| making.ticket == ticket)?;
        Some(&mut making.wait_list)
    }

    /// Stores the value that was made with a ticket, in this time, and pins it. If it is refused,
    /// the making has failed. Also returns the making, if it had not ended before.
    pub(super) fn ready(
        &mut self,
        route: Route,
        ticket: u64,
        node: Box<Node<V>>,
        time: Duration,
        left: &mut Left<'_, V>,
    ) -> (Stored<V>, Option<Making>) {
        self.make_room(node.charge, left);
        let ended = match self.end(ticket) {
            Ok(making) => Some(making),
            Err(reason) => {
                node.detach(reason);
                None
            }
        };
        let is_strict = self.is_strict;
        let stored = self.store(node, |clock, charge, word| {
            // SAFETY: this state has the only copy of the handle.
            unsafe { ffi::lru_clock_ready(clock, ticket, route.hash, charge, word, is_strict) }
        });
        match &stored {
            Ok(_) => self.loads.made += 1,
            Err((refusal, _)) => {
                self.loads.failed += 1;
                if *refusal == Refusal::Full {
                    // The making would go on.
                    self.give_up(ticket);
                }
            }
        }
        self.loads.time += time;
        self.make_room(0, left); // as after an insert
        (stored, ended)
    }

    /// Ends a making that failed after this time. Returns it, if it had not ended before.
    pub(super) fn fail(&mut self, ticket: u64, time: Duration) -> Option<Making> {
        self.give_up(ticket);
        self.loads.failed += 1;
        self.loads.time += time;
        self.end(ticket).ok()
    }

    /// Tells the library that a making has failed.
    fn give_up(&mut self, ticket: u64) {
        // SAFETY: this state has the only copy of the handle.
        let code = unsafe { ffi::lru_clock_fail(&mut self.clock, ticket) };
        debug_assert_eq!(code, ffi::DONE);
    }

    /// Makes room for a value, and stores it in place of the one that the key has. The new value is
    /// pinned. Also returns the making that this has ended, if one.
    pub(super) fn insert(
        &mut self,
        route: Route,
        node: Box<Node<V>>,
        left: &mut Left<'_, V>,
    ) -> (Stored<V>, Option<Making>) {
        let old = self.listed(route);
        let [first, second] = route.key;
        let is_strict = self.is_strict;
        let stored = self.store(node, |clock, charge, word| {
            let mut gone = ffi::Left::default();
            loop {
                // SAFETY: this state has the only copy of the handle.
                let found = unsafe {
                    ffi::lru_clock_insert(
                        clock, route.hash, first, second, charge, word, is_strict, &mut gone,
                    )
                };
                if matches!(found.code, ffi::GONE | ffi::REPLACED) {
                    left.take(gone);
                }
                if found.code != ffi::GONE {
                    return found;
                }
            }
        });
        if stored.is_err() {
            self.make_room(0, left);
            return (stored, None);
        }
        if let Some(old) = old {
            match left.nodes.iter().find(|node| ptr::eq(*node, old.as_ptr())) {
                Some(gone) => gone.detach(Reason::Replaced),
                // SAFETY: the entry has not left, so its node stays while the lock is held.
                None => unsafe { old.as_ref() }.detach(Reason::Replaced),
            }
        }
        self.inserted += 1;
        // Whoever gave back a pin in between was not told that the total is above the capacity.
        self.make_room(0, left);
        (stored, self.detach_making(route, Reason::Replaced))
    }

    /// Stores a node by a function of the library, which is given its charge and its word.
    fn store(
        &mut self,
        node: Box<Node<V>>,
        store: impl FnOnce(*mut Handle, u64, u64) -> Found,
    ) -> Stored<V> {
        let charge = node.charge;
        let word = word_of(Box::into_raw(node));
        let found = store(&mut self.clock, charge, word);
        if matches!(found.code, ffi::DONE | ffi::REPLACED) {
            return Ok(Pin::of(found));
        }
        // SAFETY: the pointer is that of the box above, and the library has not stored it.
        let node = unsafe { Box::from_raw(value_of(word).as_ptr()) };
        Err((refusal(found.code), node))
    }

    /// Invalidates a key. Returns the making that this has ended, if one.
    pub(super) fn erase(
        &mut self,
        route: Route,
        reason: Reason,
        left: &mut Left<'_, V>,
    ) -> Option<Making> {
        if let Some(node) = self.listed(route) {
            // SAFETY: the entry has not left, so its node stays while the lock is held.
            unsafe { node.as_ref() }.detach(reason);
        }
        let [first, second] = route.key;
        let mut gone = ffi::Left::default();
        let clock = &mut self.clock;
        // SAFETY: this state has the only copy of the handle.
        let code = unsafe { ffi::lru_clock_erase(clock, route.hash, first, second, &mut gone) };
        if code == ffi::GONE {
            left.take(gone);
        }
        self.detach_making(route, reason)
    }

    /// The node of a key's value, unless that cannot be pinned once more. Evicts nothing, even if
    /// the total is above the capacity: the caller takes the entry out, or makes room.
    fn listed(&mut self, route: Route) -> Option<NonNull<Node<V>>> {
        let pin = self.find(route).ok().flatten()?;
        // SAFETY: this state has the only copy of the handle.
        unsafe { ffi::lru_reader_unpin(&mut self.reader, pin.place) };
        Some(pin.node)
    }

    /// Leaves the value that is being made for a key to its maker alone. Returns the making, which
    /// this has ended.
    fn detach_making(&mut self, route: Route, reason: Reason) -> Option<Making> {
        let mut makings = self.makings.iter();
        let place = makings.position(|making| making.route.key == route.key)?;
        let making = self.makings.swap_remove(place);
        self.detached.push((making.ticket, reason));
        Some(making)
    }

    /// Removes the making with a ticket. Returns it, or why its key does not find its value if this
    /// was invalidated or got another value meanwhile.
    fn end(&mut self, ticket: u64) -> Result<Making, Reason> {
        let mut makings = self.makings.iter();
        if let Some(place) = makings.position(|making| making.ticket == ticket) {
            return Ok(self.makings.swap_remove(place));
        }
        let mut detached = self.detached.iter();
        let Some(place) = detached.position(|detached| detached.0 == ticket) else {
            unreachable!("each ticket is in one of the lists, and ends once");
        };
        Err(self.detached.swap_remove(place).1)
    }

    /// The ticket of a making.
    fn any_ticket(&self) -> Option<u64> {
        let making = self.makings.last().map(|making| making.ticket);
        making.or(self.detached.last().map(|detached| detached.0))
    }

    /// Whether the capacity has room for another charge.
    fn has_room(&mut self, charge: u64) -> bool {
        let room = self.capacity().checked_sub(charge);
        room.is_some_and(|room| self.total() <= room)
    }

    /// Evicts entries until a charge has room, or all that are left are pinned. Evicts none for a
    /// charge that a strict limit refuses in any case.
    pub(super) fn make_room(&mut self, charge: u64, left: &mut Left<'_, V>) {
        if self.is_strict && charge > self.capacity() {
            return;
        }
        let mut gone = ffi::Left::default();
        // SAFETY: this state has the only copy of the handle.
        while unsafe { ffi::lru_clock_make_room(&mut self.clock, charge, &mut gone) } == ffi::GONE {
            left.take(gone);
        }
    }

    /// Evicts every entry without a pin.
    pub(super) fn prune(&mut self, left: &mut Left<'_, V>) {
        let mut next = 0;
        let mut gone = ffi::Left::default();
        // SAFETY: this state has the only copy of the handle.
        while unsafe { ffi::lru_clock_prune(&mut self.clock, &mut next, &mut gone) } == ffi::GONE {
            left.take(gone);
        }
    }

    /// Invalidates every key of the cache with this seed and number of shards. Also returns the
    /// makings that this has ended.
    pub(super) fn clear(
        &mut self,
        seed: u64,
        shards: usize,
        left: &mut Left<'_, V>,
    ) -> (Result<(), Refusal>, Vec<Making>) {
        let ended = mem::take(&mut self.makings);
        for making in &ended {
            self.erase(making.route, Reason::Cleared, left);
            self.detached.push((making.ticket, Reason::Cleared));
        }
        for place in 0..self.places() {
            let pin: Pin<V> = match told(self.pin_at(place)) {
                Ok(Some(pin)) => pin,
                Ok(None) => continue,
                Err(refusal) => return (Err(refusal), ended),
            };
            // SAFETY: the entry is pinned, so its node stays.
            let node = unsafe { pin.node.as_ref() };
            if node.is_listed() {
                let route = Route::new(node.key, seed, shards);
                self.erase(route, Reason::Cleared, left);
            }
            self.unpin(place, left);
        }
        (Ok(()), ended)
    }

    /// Sets the capacity, and evicts down to it.
    pub(super) fn set_capacity(&mut self, capacity: u64, left: &mut Left<'_, V>) {
        // SAFETY: this state has the only copy of the handle.
        unsafe { ffi::lru_clock_set_capacity(&mut self.clock, capacity) };
        self.make_room(0, left);
    }

    /// Makes room in memory for so many entries.
    pub(super) fn reserve(&mut self, entries: usize) -> Result<(), Refusal> {
        // SAFETY: this state has the only copy of the handle.
        done(unsafe { ffi::lru_clock_reserve(&mut self.clock, entries) })
    }

    pub(super) fn set_strict_limit(&mut self, strict: bool) {
        self.is_strict = strict;
    }

    pub(super) fn is_limit_strict(&self) -> bool {
        self.is_strict
    }

    /// The total of the charges of all entries.
    pub(super) fn total(&mut self) -> u64 {
        // SAFETY: this state has the only copy of the handle.
        let found = unsafe { ffi::lru_clock_total(&mut self.clock) };
        found.value
    }

    /// The total of the charges of the entries that are pinned.
    pub(super) fn pinned_charge(&mut self) -> u64 {
        // SAFETY: this state has the only copy of the handle.
        let found = unsafe { ffi::lru_clock_pinned_charge(&mut self.clock) };
        found.value
    }

    /// The capacity.
    pub(super) fn capacity(&mut self) -> u64 {
        // SAFETY: this state has the only copy of the handle.
        let found = unsafe { ffi::lru_clock_capacity(&mut self.clock) };
        found.value
    }

    /// The number of entries.
    pub(super) fn len(&mut self) -> u64 {
        // SAFETY: this state has the only copy of the handle.
        let found = unsafe { ffi::lru_clock_len(&mut self.clock) };
        found.value
    }

    /// What the calls on the clock have done, and what it holds.
    pub(super) fn stats(&mut self) -> Stats {
        let entries = self.len();
        let insertions = self.inserted + self.loads.made;
        Stats {
            insertions,
            evictions: insertions - entries,
            loads: self.loads.made,
            load_failures: self.loads.failed,
            load_time: self.loads.time,
            entries,
            charge: self.total().into(),
            capacity: self.capacity().into(),
        }
    }

    /// The number of places. It fits, as places are numbered by 32 bits.
    pub(super) fn places(&mut self) -> u32 {
        // SAFETY: this state has the only copy of the handle.
        let found = unsafe { ffi::lru_clock_places(&mut self.clock) };
        found.value as u32
    }
}

impl<V> Drop for State<V> {
    fn drop(&mut self) {
        let mut left = Left::new(None);
        self.prune(&mut left);
        // SAFETY: this state has the only copy of the handle.
        if unsafe { ffi::lru_clock_free(&mut self.clock) } == ffi::NOT_EMPTY {
            // The pins that are left are those of handles that were forgotten, and the makings
            // those of guards that were.
            for place in 0..self.places() {
                // SAFETY: this state has the only copy of the handle.
                while unsafe { ffi::lru_reader_unpin(&mut self.reader, place) } == ffi::DONE {}
            }
            self.prune(&mut left);
            while let Some(ticket) = self.any_ticket() {
                self.fail(ticket, Duration::ZERO);
            }
            // SAFETY: this state has the only copy of the handle.
            let code = unsafe { ffi::lru_clock_free(&mut self.clock) };
            debug_assert_eq!(code, ffi::DONE);
        }
        // SAFETY: this state has the only copy of the handle.
        unsafe { ffi::lru_reader_free(&mut self.reader) };
    }
}

#[cfg(test)]
mod tests {
    use std::num::NonZeroUsize;
    use std::panic::{self, AssertUnwindSafe};
    use std::sync::atomic::{AtomicBool, Ordering};
    use std::thread;
    use std::time::Duration;

    use crate::clock::{Begun, Cache};
    use crate::error::Refusal;
    use crate::unsharded::unpoisoned;

    #[test]
    fn a_making_that_nobody_waits_for_wakes_nobody() -> Result<(), Refusal> {
        let cache = Cache::<u64, u64>::with_shards(10, NonZeroUsize::MIN)?;
        let is_over = AtomicBool::new(false);
        let makings = || {
            for key in 0..20 {
                drop(cache.get_or_init(&key, 1, |_| 1)?);
                drop(cache.get_or_try_init(&(100 + key), 1, |_| Err(())));
                drop(cache.begin(&(200 + key), 1)?);
                if let Begun::Make(making) = cache.begin(&(300 + key), 1)? {
                    // It is not waited for either.
                    drop(cache.try_begin(&(300 + key), 1)?);
                    match key % 3 {
                        0 => cache.invalidate(&(300 + key))?,
                        1 => drop(cache.insert(&(300 + key), 1, 3)?),
                        _ => cache.clear()?,
                    }
                    drop(making.ready(4)?);
                }
            }
            Ok::<_, Refusal>(())
        };
        let shard = &cache.shards[0];
        thread::scope(|scope| {
            let state = shard.lock();
            let thread = scope.spawn(|| {
                let made = panic::catch_unwind(AssertUnwindSafe(makings));
                // Who was woken has time to see that it was too early.
                thread::sleep(Duration::from_millis(50));
                is_over.store(true, Ordering::SeqCst);
                shard.ended.notify_all();
                made
            });
            // This thread is not counted among those that wait.
            drop(unpoisoned(shard.ended.wait(state)));
            assert!(is_over.load(Ordering::SeqCst));
            let made = thread.join().and_then(|made| made);
            made.unwrap_or_else(|panic| panic::resume_unwind(panic))
        })
    }
}
