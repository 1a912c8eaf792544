//! The types and codes of `bindings/c/lru.h`, under their names there without `lru_`, and its
//! functions, except those on a cache that take a key.

use std::ffi::c_void;
use std::ptr;

/// `lru_cache`, `lru_chain`, `lru_clock` and `lru_reader`: a cache, a chain of evicted entries, a
/// clock, or a reader of one.
#[repr(C)]
pub struct Handle {
    at: *mut c_void,
    open: u64,
}

impl Handle {
    /// A handle that is not open.
    pub const CLOSED: Handle = Handle {
        at: ptr::null_mut(),
        open: 0,
    };
}

/// `lru_pin`: names an entry that the caller has pinned.
#[repr(C)]
#[derive(Debug, Clone, Copy)]
pub struct Pin {
    pub stamp: u64,
    pub hash: u64,
    pub place: usize,
}

/// `lru_told`: the answer of a function.
#[repr(C)]
#[derive(Debug, Clone, Copy)]
pub struct Told {
    pub pin: Pin,
    pub value: u64,
    pub code: u32,
}

/// `lru_gone`: an evicted entry.
#[repr(C)]
#[derive(Debug, Clone, Copy)]
pub struct Gone {
    pub stamp: u64,
    pub charge: u64,
    pub value: u64,
}

/// `lru_entry`: an entry of a cache that has a value.
#[repr(C)]
#[derive(Debug, Clone, Copy)]
pub struct Entry {
    pub pin: Pin,
    pub value: u64,
    pub charge: u64,
    pub pins: u32,
    pub is_detached: u32,
}

impl Entry {
    /// What a buffer is filled with before the entries are written to it.
    pub const NONE: Entry = Entry {
        pin: Pin {
            stamp: 0,
            hash: 0,
            place: 0,
        },
        value: 0,
        charge: 0,
        pins: 0,
        is_detached: 0,
    };
}

/// `lru_stats`: what the calls on a cache have answered, and what it holds.
#[repr(C)]
#[derive(Debug, Clone, Copy, Default)]
pub struct Stats {
    pub hits: u64,
    pub misses: u64,
    pub waits: u64,
    pub insertions: u64,
    pub evictions: u64,
    pub removals: u64,
    pub entries: u64,
    pub charge: u64,
    pub pinned_charge: u64,
    pub capacity: u64,
}

/// `lru_found`: the answer of a function of the clock.
#[repr(C)]
#[derive(Debug, Clone, Copy)]
pub struct Found {
    pub value: u64,
    pub code: u32,
    pub place: u32,
}

impl Found {
    /// The answer for a handle that is not open.
    pub const CLOSED: Found = Found {
        value: 0,
        code: CLOSED,
        place: 0,
    };
}

/// `lru_left`: an entry that left a clock.
#[repr(C)]
#[derive(Debug, Clone, Copy, Default)]
pub struct Left {
    pub first: u64,
    pub second: u64,
    pub value: u64,
}

pub const MAKE: u32 = 0;
pub const WAIT: u32 = 1;
pub const HIT: u32 = 2;
pub const DONE: u32 = 3;
pub const LEFT: u32 = 4;
pub const REMOVED: u32 = 5;
pub const MISSED: u32 = 6;
pub const OVERFLOW: u32 = 7;
pub const MEMORY: u32 = 9;
pub const NUMBER: u32 = 10;
pub const NO_CHARGE: u32 = 11;
pub const CLOSED: u32 = 14;
pub const NOT_EMPTY: u32 = 16;
pub const NO_ROOM: u32 = 17;
pub const PINNED: u32 = 18;
pub const FULL: u32 = 20;
pub const GONE: u32 = 22;
pub const LAST: u32 = 23;
pub const REPLACED: u32 = 24;
pub const ABOVE: u32 = 25;

pub const BYTES: u32 = 0;
pub const WORDS: u32 = 1;

// A caller of these guarantees that `cache` points to a cache and `gone`, `left` and `chain` to a
// chain, that they are the only copies of these handles, and that nothing else uses them during the
// call. Handles that are not open are refused.
unsafe extern "C" {
    pub fn lru_cache_new(keys: u32, capacity: u64, seed: u64, out: *mut Handle) -> u32;
    pub fn lru_cache_free(cache: *mut Handle, left: *mut Handle) -> u32;
    pub fn lru_cache_poll(cache: *mut Handle, pin: Pin) -> Told;
    pub fn lru_cache_ready_at(
        cache: *mut Handle,
        stamp: u64,
        hash: u64,
        place: usize,
        value: u64,
    ) -> u32;
    pub fn lru_cache_ready_with_at(
        cache: *mut Handle,
        stamp: u64,
        hash: u64,
        place: usize,
        value: u64,
        charge: u64,
        strict: bool,
        gone: *mut Handle,
    ) -> u32;
    pub fn lru_cache_fail(cache: *mut Handle, pin: Pin) -> u32;
    pub fn lru_cache_repin(cache: *mut Handle, pin: Pin) -> Told;
    pub fn lru_cache_release_at(
        cache: *mut Handle,
        stamp: u64,
        hash: u64,
        place: usize,
        gone: *mut Handle,
    ) -> u32;
    pub fn lru_cache_release_and_evict(cache: *mut Handle, pin: Pin, gone: *mut Handle) -> u32;
    pub fn lru_cache_prune(cache: *mut Handle, gone: *mut Handle) -> u32;
    pub fn lru_cache_set_capacity(cache: *mut Handle, capacity: u64, gone: *mut Handle) -> u32;
    pub fn lru_cache_reserve(cache: *mut Handle, entries: usize) -> u32;
    pub fn lru_cache_total(cache: *mut Handle) -> Told;
    pub fn lru_cache_pinned_charge(cache: *mut Handle) -> Told;
    pub fn lru_cache_capacity(cache: *mut Handle) -> Told;
    pub fn lru_cache_len(cache: *mut Handle) -> Told;
    pub fn lru_cache_stats(cache: *mut Handle, out: *mut Stats) -> u32;
    pub fn lru_cache_entries_nonnull(cache: *mut Handle, out: *mut Entry, room: usize) -> Told;
    pub fn lru_chain_new(out: *mut Handle) -> u32;
    pub fn lru_chain_free(chain: *mut Handle) -> u32;
    pub fn lru_chain_pop(chain: *mut Handle, out: *mut Gone) -> bool;
}

// A caller of these guarantees that `clock` points to a clock and `reader` to a reader, that they
// are the only copies of these handles, and that nothing else uses them during the call. Handles
// that are not open are refused.
unsafe extern "C" {
    pub fn lru_clock_new(capacity: u64, out: *mut Handle) -> u32;
    pub fn lru_clock_free(clock: *mut Handle) -> u32;
    pub fn lru_reader_new(clock: *mut Handle, out: *mut Handle) -> u32;
    pub fn lru_reader_free(reader: *mut Handle) -> u32;
    pub fn lru_reader_pin(reader: *mut Handle, hash: u64, first: u64, second: u64) -> Found;
    pub fn lru_reader_pin_at(reader: *mut Handle, place: u32) -> Found;
    pub fn lru_reader_unpin(reader: *mut Handle, place: u32) -> u32;
    pub fn lru_clock_begin(
        clock: *mut Handle,
        hash: u64,
        first: u64,
        second: u64,
        charge: u64,
    ) -> Found;
    pub fn lru_clock_ready(
        clock: *mut Handle,
        ticket: u64,
        hash: u64,
        charge: u64,
        value: u64,
        strict: bool,
    ) -> Found;
    pub fn lru_clock_fail(clock: *mut Handle, ticket: u64) -> u32;
    pub fn lru_clock_make_room(clock: *mut Handle, charge: u64, left: *mut Left) -> u32;
    pub fn lru_clock_insert(
        clock: *mut Handle,
        hash: u64,
        first: u64,
        second: u64,
        charge: u64,
        value: u64,
        strict: bool,
        left: *mut Left,
    ) -> Found;
    pub fn lru_clock_find(clock: *mut Handle, hash: u64, first: u64, second: u64) -> Found;
    pub fn lru_clock_erase(
        clock: *mut Handle,
        hash: u64,
        first: u64,
        second: u64,
        left: *mut Left,
    ) -> u32;
    pub fn lru_clock_release_and_evict(clock: *mut Handle, place: u32, left: *mut Left) -> u32;
    pub fn lru_clock_collect(clock: *mut Handle, place: u32, left: *mut Left) -> u32;
    pub fn lru_clock_prune(clock: *mut Handle, next: *mut u32, left: *mut Left) -> u32;
    pub fn lru_clock_set_capacity(clock: *mut Handle, capacity: u64) -> u32;
    pub fn lru_clock_reserve(clock: *mut Handle, entries: usize) -> u32;
    pub fn lru_clock_total(clock: *mut Handle) -> Found;
    pub fn lru_clock_pinned_charge(clock: *mut Handle) -> Found;
    pub fn lru_clock_capacity(clock: *mut Handle) -> Found;
    pub fn lru_clock_len(clock: *mut Handle) -> Found;
    pub fn lru_clock_places(clock: *mut Handle) -> Found;
}
