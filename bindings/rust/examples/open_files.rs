//! Prints the first bytes of files, from a pool of open files that threads share. A file is opened
//! once and stays open while a thread reads it. Beyond 32 open files, those that no thread reads
//! are closed, the least recently used first.
//!
//! ```text
//! cargo run --example open_files -- FILE ..
//! ```

use std::env;
use std::error::Error;
use std::fs::File;
use std::os::unix::fs::FileExt;
use std::thread;

use concurrent_lru_proved::unsharded::LruCache;

/// Returns the first bytes of a file, which is opened if it is not open yet.
fn head(files: &LruCache<String, File>, path: &str) -> Result<Vec<u8>, Box<dyn Error>> {
    let file = files.get_or_try_init(path, 1, |path| File::open(path))?;
    let mut head = [0; 16];
    // The handle keeps the file open, whatever other threads do.
    let length = file.read_at(&mut head, 0)?;
    Ok(head[..length].to_vec())
}

fn main() -> Result<(), Box<dyn Error>> {
    let paths: Vec<String> = env::args().skip(1).collect();
    let files = LruCache::<String, File>::new(32)?;
    thread::scope(|scope| {
        for _ in 0..4 {
            scope.spawn(|| {
                for path in &paths {
                    // Errors are reported below.
                    let _ = head(&files, path);
                }
            });
        }
    });
    for path in &paths {
        println!("{path}: {}", head(&files, path)?.escape_ascii());
    }
    println!("{} files are open", files.total_charge());
    Ok(())
}
