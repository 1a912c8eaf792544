//! Prints the numbers of lines of files, each of which is read once while tasks wait for it. Any
//! runtime can run such tasks; here four threads run one each, with nothing but the standard
//! library.
//!
//! ```text
//! cargo run --example tasks -- FILE ..
//! ```

use std::env;
use std::fs;
use std::io;
use std::pin::pin;
use std::sync::Arc;
use std::task::{Context, Poll, Wake, Waker};
use std::thread::{self, Thread};

use concurrent_lru_proved::unsharded::LruCache;

/// Returns the number of lines of a file, which one task reads while the others wait.
async fn lines(texts: &LruCache<String, String>, path: &str) -> io::Result<usize> {
    let text = texts.get_or_try_init_async(path, 1, read(path)).await?;
    Ok(text.lines().count())
}

/// Reads a file. A runtime has a function for this that does not block the thread.
async fn read(path: &str) -> io::Result<String> {
    fs::read_to_string(path)
}

/// Wakes a thread.
struct Unpark(Thread);

impl Wake for Unpark {
    fn wake(self: Arc<Self>) {
        self.0.unpark();
    }
}

/// Runs a task on this thread.
fn block_on<T>(task: impl Future<Output = T>) -> T {
    let waker = Waker::from(Arc::new(Unpark(thread::current())));
    let mut task = pin!(task);
    loop {
        match task.as_mut().poll(&mut Context::from_waker(&waker)) {
            Poll::Ready(result) => return result,
            Poll::Pending => thread::park(),
        }
    }
}

fn main() -> io::Result<()> {
    let paths: Vec<String> = env::args().skip(1).collect();
    let texts = LruCache::<String, String>::new(32)?;
    thread::scope(|scope| {
        for _ in 0..4 {
            scope.spawn(|| {
                for path in &paths {
                    // Errors are reported below.
                    let _ = block_on(lines(&texts, path));
                }
            });
        }
    });
    for path in &paths {
        println!("{path}: {}", block_on(lines(&texts, path))?);
    }
    println!("{} files were read", texts.stats().loads);
    Ok(())
}
