//! The values that are being made, and who waits for them.

use std::collections::HashMap;
use std::hash::{BuildHasherDefault, Hasher};
use std::task::Waker;
use std::time::Duration;

use crate::error::{Refusal, room};
use crate::ffi::Pin;
use crate::waiting::WaitList;

/// A charge for the beginning of a making whose charge is told with the value.
pub(crate) const UNKNOWN_CHARGE: u64 = 1;

/// What a caller that asks for a value gets: `H` is a handle, and `M` a guard of the making.
#[derive(Debug)]
pub enum Begun<H, M> {
    /// The key has a value, which this handle pins.
    Hit(H),
    /// The key has no value, and the caller makes it, while others that ask for the key wait. The
    /// making fails if the guard is dropped.
    Make(M),
}

/// A value that is being made, or whose making failed and that others wait for.
#[derive(Debug)]
pub(crate) struct Making {
    pin: Pin,
    /// How many callers wait for the value.
    waiting: usize,
    /// Those of them that sleep.
    pub(crate) wait_list: WaitList,
    /// How many callers do not wait any more. The library takes their pins back only when the value
    /// has been made, or when each of them has failed to make it.
    left: usize,
}

impl Making {
    fn new(pin: Pin) -> Making {
        Making {
            pin,
            waiting: 0,
            wait_list: WaitList::default(),
            left: 0,
        }
    }

    /// Counts a caller that waits.
    pub(crate) fn join(&mut self) {
        self.waiting += 1;
    }

    /// Counts one that waits no more, as it makes the value now.
    pub(crate) fn take_over(&mut self) {
        self.waiting -= 1;
    }

    /// Counts one that waits no more, and whose pin is left. Returns its waker.
    pub(crate) fn leave(&mut self, ticket: Option<u64>) -> Option<Waker> {
        self.waiting -= 1;
        self.left += 1;
        self.wait_list.remove_task(ticket?)
    }

    pub(crate) fn is_awaited(&self) -> bool {
        self.waiting > 0
    }

    pub(crate) fn left(&self) -> usize {
        self.left
    }
}

/// The values that are being made, by the stamps of their entries. No call of the library shows
/// these entries.
#[derive(Debug, Default)]
pub(crate) struct Makings(HashMap<u64, Making, BuildHasherDefault<StampHasher>>);

impl Makings {
    /// Makes room for one more, so that adding it needs no memory.
    pub(crate) fn reserve(&mut self) -> Result<(), Refusal> {
        room(self.0.try_reserve(1))
    }

    /// Adds one, unless others wait for it already.
    pub(crate) fn add(&mut self, pin: Pin) {
        self.0.entry(pin.stamp).or_insert_with(|| Making::new(pin));
    }

    /// The one of an entry, if its value is not made yet.
    pub(crate) fn get(&mut self, pin: Pin) -> Option<&mut Making> {
        self.0.get_mut(&pin.stamp)
    }

    pub(crate) fn remove(&mut self, pin: Pin) -> Option<Making> {
        self.0.remove(&pin.stamp)
    }

    /// The pins.
    pub(crate) fn pins(&self) -> impl Iterator<Item = Pin> {
        self.0.values().map(|making| making.pin)
    }
}

/// Stamps are drawn in order, and nobody chooses them.
#[derive(Default)]
struct StampHasher(u64);

impl Hasher for StampHasher {
    fn write(&mut self, bytes: &[u8]) {
        for byte in bytes {
            self.write_u64((*byte).into());
        }
    }

    fn write_u64(&mut self, number: u64) {
        self.0 = (self.0 ^ number).wrapping_mul(0x9e37_79b9_7f4a_7c15);
    }

    fn finish(&self) -> u64 {
        self.0
    }
}

/// How many makings have ended, and how long they took.
#[derive(Debug, Clone, Copy, Default)]
pub(crate) struct Loads {
    pub(crate) made: u64,
    pub(crate) failed: u64,
    pub(crate) time: Duration,
}
