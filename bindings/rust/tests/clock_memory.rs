//! Tests the cache whose hits take no lock where memory is refused. The functions below take the
//! places of those of the C library, of which glibc has other names too.
#![cfg(target_env = "gnu")]

use std::cell::Cell;
use std::ffi::c_void;
use std::num::NonZeroUsize;
use std::ptr;
use std::sync::Arc;
use std::sync::atomic::{AtomicU64, Ordering};

use concurrent_lru_proved::Refusal;
use concurrent_lru_proved::clock::{Begun, Cache};

thread_local! {
    /// Which request of this thread is refused, counted down.
    static REFUSED: Cell<u32> = const { Cell::new(0) };
}

fn is_refused() -> bool {
    let refused = REFUSED.get();
    REFUSED.set(refused.saturating_sub(1));
    refused == 1
}

unsafe extern "C" {
    fn __libc_malloc(size: usize) -> *mut c_void;
    fn __libc_realloc(block: *mut c_void, size: usize) -> *mut c_void;
}

#[unsafe(no_mangle)]
extern "C" fn malloc(size: usize) -> *mut c_void {
    if is_refused() {
        return ptr::null_mut();
    }
    // SAFETY: it may be called with any size.
    unsafe { __libc_malloc(size) }
}

/// # Safety
///
/// As of the C library's.
#[unsafe(no_mangle)]
unsafe extern "C" fn realloc(block: *mut c_void, size: usize) -> *mut c_void {
    if is_refused() {
        return ptr::null_mut();
    }
    // SAFETY: the caller ensures what this requires.
    unsafe { __libc_realloc(block, size) }
}

/// Makes a call in which one request is refused. Also returns whether that was made.
fn with_refused<T>(request: u32, call: impl FnOnce() -> T) -> (T, bool) {
    REFUSED.set(request);
    let called = call();
    (called, REFUSED.replace(0) == 0)
}

/// The keys that have a value, each with its value, in order.
fn shown(cache: &Cache<u64, u64>) -> Result<Vec<(u64, u64)>, Refusal> {
    let mut all = Vec::new();
    cache.for_each(|entry| all.push((entry.key[1], *entry.value)))?;
    all.sort_unstable();
    Ok(all)
}

/// What a key has before a value is inserted.
#[derive(PartialEq)]
enum Has {
    Nothing,
    Maker,
    Idle,
    Handle,
}

#[test]
fn an_insert_without_memory_changes_nothing() -> Result<(), Refusal> {
    for has in [Has::Nothing, Has::Maker, Has::Idle, Has::Handle] {
        let left = Arc::new(AtomicU64::new(0));
        let count = Arc::clone(&left);
        let cache =
            Cache::<u64, u64>::with_seed(1000, NonZeroUsize::MIN, 0)?.with_listener(move |_| {
                count.fetch_add(1, Ordering::Relaxed);
            });
        drop(cache.get(&0)?); // this makes the readers
        let mut refusals = 0;
        for key in 0..200 {
            let (mut maker, mut held) = (None, None);
            match has {
                Has::Nothing => {}
                Has::Maker => match cache.begin(&key, 1)? {
                    Begun::Make(begun) => maker = Some(begun),
                    Begun::Hit(_) => panic!("it is not there"),
                },
                Has::Idle => drop(cache.insert(&key, 1, 1)?),
                Has::Handle => held = Some(cache.insert(&key, 1, 1)?),
            }
            let before = (shown(&cache)?, cache.stats());
            left.store(0, Ordering::Relaxed);
            // The first request is that for the value itself.
            let (inserted, was_refused) = with_refused(2, || cache.insert(&key, 1, 2));
            let refusal = inserted.err();
            assert_eq!(refusal, was_refused.then_some(Refusal::Memory));
            if was_refused {
                refusals += 1;
                assert_eq!((shown(&cache)?, cache.stats()), before);
                assert_eq!(left.load(Ordering::Relaxed), 0);
                if let Some(held) = held {
                    let found = cache.get(&key)?.expect("it was not replaced");
                    assert!(ptr::eq(found.value(), held.value()));
                }
                if let Some(maker) = maker {
                    // Its value is that of the key.
                    drop(maker.ready(3)?);
                    assert_eq!(cache.get(&key)?.as_deref(), Some(&3));
                    assert!(shown(&cache)?.contains(&(key, 3)));
                }
                cache.insert(&key, 1, 2)?;
            }
            assert_eq!(cache.get(&key)?.as_deref(), Some(&2));
        }
        assert!(refusals > 0);
    }
    Ok(())
}

#[test]
fn a_making_without_memory_fails_and_can_be_repeated() -> Result<(), Refusal> {
    for request in 1..=3 {
        let cache = Cache::<u64, u64>::with_seed(1000, NonZeroUsize::MIN, 0)?;
        drop(cache.get(&0)?); // this makes the readers
        let (mut refused_begins, mut refused_values) = (0, 0);
        for key in 0..200 {
            let (begun, was_refused) = with_refused(request, || cache.begin(&key, 1));
            let begun = match begun {
                Err(refusal) => {
                    assert_eq!((refusal, was_refused), (Refusal::Memory, true));
                    refused_begins += 1;
                    cache.begin(&key, 1)?
                }
                Ok(begun) => begun,
            };
            let Begun::Make(maker) = begun else {
                panic!("it is not there");
            };
            // The first request is that for the value itself.
            let (stored, was_refused) = with_refused(1 + request, || maker.ready(key));
            if let Err(refusal) = stored {
                assert_eq!((refusal, was_refused), (Refusal::Memory, true));
                refused_values += 1;
                assert_eq!(cache.stats().load_failures, refused_values);
                assert!(cache.get(&key)?.is_none());
                drop(cache.get_or_init(&key, 1, |key| *key)?);
            }
            assert_eq!(cache.get(&key)?.as_deref(), Some(&key));
        }
        assert!(request > 1 || refused_begins > 0 && refused_values > 0);
        assert_eq!((cache.len(), cache.total_charge()), (200, 200));
    }
    Ok(())
}
