//! Small numbers for threads, each of which one thread at a time has.

use std::cell::Cell;
use std::sync::{Mutex, PoisonError};

/// The number of a thread that has none.
const NONE: u32 = u32::MAX;

thread_local! {
    /// Has no destructor, so that it can be read while those of others run.
    static NUMBER: Cell<u32> = const { Cell::new(NONE) };
    static RETURN: Return = const { Return };
}

/// Gives the number of its thread back when the thread ends.
struct Return;

impl Drop for Return {
    fn drop(&mut self) {
        let number = NUMBER.replace(NONE);
        if number != NONE {
            let mut numbers = NUMBERS.lock().unwrap_or_else(PoisonError::into_inner);
            numbers.free.push(number);
        }
    }
}

static NUMBERS: Mutex<Numbers> = Mutex::new(Numbers {
    free: Vec::new(),
    next: 0,
});

struct Numbers {
    /// Those that were given back. It has room for every number below `next`.
    free: Vec<u32>,
    next: u32,
}

impl Numbers {
    fn take(&mut self) -> Option<u32> {
        if let Some(number) = self.free.pop() {
            return Some(number);
        }
        // All numbers below `next` are in use.
        self.free.try_reserve(self.next as usize + 1).ok()?;
        let number = self.next;
        self.next = number.checked_add(1)?;
        Some(number)
    }
}

/// The number of this thread, if it has one.
#[inline]
pub(super) fn current() -> Option<u32> {
    let number = NUMBER.get();
    (number != NONE).then_some(number)
}

/// The number of this thread, which gets one if it has none. Returns `None` if the thread is ending
/// or there is no memory.
pub(super) fn take() -> Option<u32> {
    if let Some(number) = current() {
        return Some(number);
    }
    RETURN.try_with(|_| ()).ok()?;
    let number = NUMBERS
        .lock()
        .unwrap_or_else(PoisonError::into_inner)
        .take()?;
    NUMBER.set(number);
    Some(number)
}

#[cfg(test)]
mod tests {
    use super::{Numbers, current, take};
    use std::cell::RefCell;
    use std::sync::{Barrier, mpsc};
    use std::thread;

    #[test]
    fn a_number_is_given_out_again_only_after_it_was_given_back() {
        let mut numbers = Numbers {
            free: Vec::new(),
            next: 0,
        };
        assert_eq!((numbers.take(), numbers.take()), (Some(0), Some(1)));
        numbers.free.push(0);
        assert_eq!((numbers.take(), numbers.take()), (Some(0), Some(2)));
        assert!(numbers.free.capacity() >= 3);
    }

    #[test]
    fn threads_that_live_at_the_same_time_have_different_numbers() {
        let all = Barrier::new(20);
        let mut numbers: Vec<_> = thread::scope(|scope| {
            let threads: Vec<_> = (0..20)
                .map(|_| {
                    scope.spawn(|| {
                        let number = take();
                        all.wait();
                        assert_eq!((take(), current()), (number, number));
                        number
                    })
                })
                .collect();
            threads
                .into_iter()
                .filter_map(|it| it.join().ok()?)
                .collect()
        });
        numbers.sort_unstable();
        numbers.dedup();
        assert_eq!(numbers.len(), 20);
    }

    #[test]
    fn a_thread_that_ends_gives_its_number_back() {
        for _ in 0..2000 {
            let number = thread::spawn(take).join().ok().flatten();
            assert!(number.is_some_and(|number| number < 1000));
        }
    }

    #[test]
    fn a_thread_that_has_given_its_number_back_has_none() {
        struct AtEnd(mpsc::Sender<bool>);
        impl Drop for AtEnd {
            fn drop(&mut self) {
                let _ = self.0.send(current().is_none() && take().is_none());
            }
        }
        thread_local! {
            static AT_END: RefCell<Option<AtEnd>> = const { RefCell::new(None) };
        }
        // One of them is dropped before the number is given back, and one after that.
        let has_none = [true, false].map(|is_first| {
            let (sender, has_none) = mpsc::channel();
            let thread = thread::spawn(move || {
                if is_first {
                    AT_END.set(None);
                }
                assert!(take().is_some());
                AT_END.set(Some(AtEnd(sender)));
            });
            assert!(thread.join().is_ok());
            has_none.recv()
        });
        assert!(has_none.contains(&Ok(true)) && has_none.contains(&Ok(false)));
    }
}
