//! Puts the keys that it reads, 16 bytes each, into a cache, and looks each of them up. The first
//! argument says whether they are `words` or `bytes`. The seed of the cache is the number that is
//! passed next, or random. Prints the number of entries. `tests/attack` counts the instructions.

use std::env;
use std::error::Error;
use std::io::{self, Read};

use concurrent_lru_proved::key::Key;
use concurrent_lru_proved::unsharded::LruCache;

fn read_keys() -> io::Result<Vec<[u8; 16]>> {
    let mut bytes = Vec::new();
    io::stdin().read_to_end(&mut bytes)?;
    let keys = bytes.chunks_exact(16);
    Ok(keys.map(|it| it.try_into().unwrap()).collect())
}

fn words_of(key: &[u8; 16]) -> [u64; 2] {
    let (first, second) = key.split_at(8);
    [first, second].map(|it| u64::from_ne_bytes(it.try_into().unwrap()))
}

fn main() -> Result<(), Box<dyn Error>> {
    let keys = read_keys()?;
    match env::args().nth(1).as_deref() {
        Some("bytes") => fill(&keys),
        _ => fill(&keys.iter().map(words_of).collect::<Vec<_>>()),
    }
}

fn fill<K: Key>(keys: &[K]) -> Result<(), Box<dyn Error>> {
    let cache = match env::args().nth(2) {
        Some(seed) => LruCache::<K, usize>::with_seed(u64::MAX, seed.parse()?)?,
        None => LruCache::new(u64::MAX)?,
    };
    for (number, key) in keys.iter().enumerate() {
        cache.insert(key, 1, number)?;
    }
    for (number, key) in keys.iter().enumerate() {
        assert_eq!(cache.get(key)?.as_deref(), Some(&number));
    }
    println!("{}", cache.len());
    Ok(())
}
