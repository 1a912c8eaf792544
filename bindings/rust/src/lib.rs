//! A concurrent LRU cache for heavy values, such as open files or pages, with a proved core.
//!
//! The core is a static library. It is proved to follow the rules of the cache: which value is
//! found, which ones are evicted, and in which order. This crate adds the locks and the values. It
//! is ordinary Rust: a [`Mutex`](std::sync::Mutex) guards each core, and while another caller makes
//! their value, threads wait at a [`Condvar`](std::sync::Condvar), and tasks until their
//! [`Waker`](std::task::Waker) is called.
//!
//! The names are those of the crate `concurrent_lru` 0.2.0:
//!
//! - [`unsharded::LruCache`] has one lock,
//! - [`sharded::LruCache`] has one for each shard.
//!
//! [`clock::Cache`] is for threads that mostly find what they ask for: a hit takes no lock. Its
//! keys are written as words, such as integers and pairs of them, it does not evict in the exact
//! order of the last uses, and less of it is proved. [`clock`] tells how else it differs.
//!
//! The first two differ from that crate in these points:
//!
//! - Keys are passed by reference, so their type has to be named where a cache is created, as in
//!   `LruCache::<String, _>::new(10)`. It implements [`key::Key`], as many types of std do.
//! - Calls return a [`Refusal`] if the cache cannot serve them. If `init` returns an
//!   [`io::Error`](std::io::Error), `?` converts either error to one.
//! - A charge must be above 0, even if the key has a value.
//! - A number of shards is a [`NonZeroUsize`](std::num::NonZeroUsize), and a small capacity is
//!   divided among fewer than 16 shards ([`sharded::shards_for`]).
//! - It has more calls: `insert`, `invalidate`, `clear`, `retain`, `find`, `read`, `contains`,
//!   `len`, `pinned_charge`, `capacity`, `set_capacity`, `set_strict_limit`, `is_limit_strict`,
//!   `reserve`, `shrink_to_fit`, `for_each`, `stats`, `with_listener`, and those that return an
//!   [`unsharded::OwnedHandle`], a handle that keeps its cache alive. Handles have `try_clone` and
//!   `release_and_evict`.
//! - `begin` and `try_begin` return a handle or an [`unsharded::Maker`], a guard of the making.
//!   Calls whose names end in `_async` are for tasks, on any runtime.
//!
//! # Examples
//!
//! ```no_run
//! use concurrent_lru_proved::sharded::LruCache;
//! use std::fs::File;
//!
//! # fn main() -> std::io::Result<()> {
//! let files = LruCache::<String, File>::new(10)?;
//! let hosts = files.get_or_try_init("/etc/hosts", 1, |path| File::open(path))?;
//! println!("{} bytes", hosts.metadata()?.len());
//! drop(hosts); // idle, but still open
//! assert!(files.get("/etc/hosts")?.is_some());
//! files.prune(); // closes it
//! assert!(files.get("/etc/hosts")?.is_none());
//! # Ok(())
//! # }
//! ```
//!
//! # Building
//!
//! A package of this crate has the archive of the core, `liblru.a`, for one target: it needs
//! nothing else. In the repository, the build script looks for the archive in `bindings/c/build`,
//! where `make -C bindings/c` puts it. The environment variable `LRU_LIB_DIR` may name another
//! folder by its absolute path.

pub mod clock;
mod entry;
mod error;
mod ffi;
mod form;
mod hash;
pub mod key;
mod leaving;
mod makings;
mod proved;
pub mod sharded;
mod stats;
pub mod unsharded;
mod waiting;

pub use entry::EntryRef;
pub use error::{GetError, Refusal};
pub use leaving::{Leaving, Reason};
pub use makings::Begun;
pub use stats::Stats;
