//! The readers of a cache: each thread has its own of each shard.

use std::cell::UnsafeCell;
use std::panic::{RefUnwindSafe, UnwindSafe};
use std::sync::OnceLock;

use super::numbers;
use crate::ffi::{self, Handle};

/// How many lanes the first chunk has. Each other one has twice as many as the one before.
const FIRST_CHUNK: u64 = 8;

/// Enough for all numbers of threads, which have 32 bits.
const CHUNKS: usize = 30;

const READERS_PER_LINE: usize = 4;

/// For each thread, by its number, a lane of readers, one of each shard. Lanes are made in chunks,
/// which never move.
///
/// A look-up reads this and writes nothing. So it shares no line with what others write.
#[repr(align(64))]
pub(super) struct Lanes {
    chunks: [OnceLock<Box<[Line]>>; CHUNKS],
    lines_per_lane: usize,
}

/// A part of a lane: no other thread uses a reader that lies in the same line of the processor's
/// cache.
#[repr(align(64))]
struct Line([UnsafeCell<Handle>; READERS_PER_LINE]);

// SAFETY: a handle of the library may move to another thread.
unsafe impl Send for Line {}

// SAFETY: a reader is used only by the thread that has the number of its lane.
unsafe impl Sync for Line {}

// Nothing panics while it uses a reader.
impl UnwindSafe for Line {}
impl RefUnwindSafe for Line {}

impl Lanes {
    /// Lanes for so many shards. No reader is open.
    pub(super) fn new(shards: usize) -> Lanes {
        Lanes {
            chunks: [const { OnceLock::new() }; CHUNKS],
            lines_per_lane: shards.div_ceil(READERS_PER_LINE),
        }
    }

    /// This thread's reader of a shard, which may not be open. Returns `None` if the thread has no
    /// lane. No other thread uses the reader before this one has ended.
    #[inline]
    pub(super) fn reader(&self, shard: usize) -> Option<*mut Handle> {
        let (chunk, lane) = place_of(numbers::current()?);
        let lines = self.chunks[chunk].get()?;
        let line = &lines[lane * self.lines_per_lane + shard / READERS_PER_LINE];
        Some(line.0[shard % READERS_PER_LINE].get())
    }

    /// The same, but makes a lane if the thread has none. Returns `None` if the thread is ending or
    /// there is no memory.
    pub(super) fn make(&self, shard: usize) -> Option<*mut Handle> {
        let (chunk, _) = place_of(numbers::take()?);
        if self.chunks[chunk].get().is_none() {
            let lanes = (FIRST_CHUNK as usize) << chunk;
            // If another thread has made the chunk meanwhile, this one is dropped.
            let _ = self.chunks[chunk].set(closed(lanes.checked_mul(self.lines_per_lane)?)?);
        }
        self.reader(shard)
    }
}

/// So many lines of readers that are not open. Returns `None` if there is no memory.
fn closed(lines: usize) -> Option<Box<[Line]>> {
    let mut all = Vec::new();
    all.try_reserve_exact(lines).ok()?;
    all.resize_with(lines, || {
        Line([const { UnsafeCell::new(Handle::CLOSED) }; READERS_PER_LINE])
    });
    Some(all.into_boxed_slice())
}

/// The chunk of a thread's lane, and which of its lanes it is.
#[inline]
fn place_of(number: u32) -> (usize, usize) {
    let number = u64::from(number) + FIRST_CHUNK;
    let chunk = number.ilog2() - FIRST_CHUNK.ilog2();
    (chunk as usize, (number - (FIRST_CHUNK << chunk)) as usize)
}

impl Drop for Lanes {
    fn drop(&mut self) {
        let lines = self.chunks.iter_mut().filter_map(OnceLock::get_mut);
        for reader in lines.flatten().flat_map(|line| &mut line.0) {
            // SAFETY: this is the only copy of the handle.
            unsafe { ffi::lru_reader_free(reader.get_mut()) };
        }
    }
}

#[cfg(test)]
mod tests {
    use super::{CHUNKS, FIRST_CHUNK, place_of};

    #[test]
    fn each_number_has_a_place_of_its_own() {
        let mut next = (0, 0);
        for number in 0..1000 {
            assert_eq!(place_of(number), next);
            next.1 += 1;
            if next.1 == (FIRST_CHUNK as usize) << next.0 {
                next = (next.0 + 1, 0);
            }
        }
        assert_eq!(place_of(u32::MAX).0, CHUNKS - 1);
    }
}
