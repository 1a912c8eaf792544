//! Four threads ask a cache for the same page, which one of them makes. The README shows this.

use concurrent_lru_proved::{Refusal, unsharded::LruCache};
use std::sync::atomic::{AtomicU32, Ordering::SeqCst};
use std::thread;

fn main() -> Result<(), Refusal> {
    let pages = LruCache::<u64, String>::new(100)?; // keys are integers, and values are strings
    let made = AtomicU32::new(0);
    let ask = || {
        // The charge is 1. One thread runs the closure; the others wait for what it returns.
        let page = pages.get_or_init(&7, 1, |number| {
            made.fetch_add(1, SeqCst);
            format!("page {number}")
        })?;
        println!("{}", *page); // pinned: it is not evicted while the handle `page` lives
        Ok(())
    };
    thread::scope(|scope| {
        let threads = [(); 4].map(|()| scope.spawn(ask));
        threads.into_iter().try_for_each(|it| it.join().unwrap())
    })?;
    println!("{} was made", made.load(SeqCst));
    Ok(())
}
