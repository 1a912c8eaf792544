//! Reads steps, a line each, and prints each with what the original crate answers to it, in the
//! form of `crates/examples/stdout`. The steps and the answers are told in docs/REPLAY.md.
//!
//! ```text
//! cargo run < ../../crates/examples/stdin | diff - ../../crates/examples/stdout
//! ```

use concurrent_lru::unsharded::{CacheHandle, LruCache};
use std::fmt;
use std::io::{self, Read};
use std::sync::{Arc, Mutex};

/// A value, which writes its number down when it is dropped.
struct Value {
    number: u64,
    dropped: Arc<Mutex<Vec<u64>>>,
}

impl Drop for Value {
    fn drop(&mut self) {
        self.dropped.lock().unwrap().push(self.number);
    }
}

/// What a step is answered.
enum Answer {
    Made(u64),
    Hit(u64),
    Failed,
    Found(u64),
    Missed,
    Total(u64),
    Done,
}

impl fmt::Display for Answer {
    fn fmt(&self, f: &mut fmt::Formatter<'_>) -> fmt::Result {
        match self {
            Answer::Made(number) => write!(f, "made {number}"),
            Answer::Hit(number) => write!(f, "hit {number}"),
            Answer::Failed => write!(f, "err"),
            Answer::Found(number) => write!(f, "some {number}"),
            Answer::Missed => write!(f, "none"),
            Answer::Total(total) => write!(f, "total {total}"),
            Answer::Done => write!(f, "done"),
        }
    }
}

type Handle<'a> = CacheHandle<'a, u64, Value>;

/// A cache from a `new` to the next, its four slots, and the numbers dropped since the last line.
struct Run<'a> {
    cache: &'a LruCache<u64, Value>,
    slots: [Option<Handle<'a>>; 4],
    dropped: Arc<Mutex<Vec<u64>>>,
    steps: u64,
}

impl<'a> Run<'a> {
    fn step(&mut self, words: &[&str]) -> Answer {
        self.steps += 1;
        match words {
            ["init", key, charge, outcome, fate @ ..] => {
                self.init(number(key), number(charge), *outcome == "ok", fate)
            }
            ["get", key, fate @ ..] => match self.cache.get(number(key)) {
                Some(handle) => {
                    let found = Answer::Found(handle.value().number);
                    self.settle(handle, fate);
                    found
                }
                None => Answer::Missed,
            },
            ["release", slot] => {
                self.slots[number(slot) as usize] = None;
                Answer::Done
            }
            ["advice", key] => {
                self.cache.advice_evict(number(key));
                Answer::Done
            }
            ["prune"] => {
                self.cache.prune();
                Answer::Done
            }
            ["total"] => Answer::Total(self.cache.total_charge()),
            _ => panic!("no step: {}", words.join(" ")),
        }
    }

    fn init(&mut self, key: u64, charge: u64, gives: bool, fate: &[&str]) -> Answer {
        let (step, dropped) = (self.steps, &self.dropped);
        let mut called = false;
        let asked = self.cache.get_or_try_init(key, charge, |_| {
            called = true;
            if !gives {
                return Err(());
            }
            Ok(Value { number: step, dropped: dropped.clone() })
        });
        match asked {
            Ok(handle) => {
                let number = handle.value().number;
                self.settle(handle, fate);
                if called { Answer::Made(number) } else { Answer::Hit(number) }
            }
            Err(()) => Answer::Failed,
        }
    }

    /// Drops a handle, or keeps it in a slot, whose own is dropped after that.
    fn settle(&mut self, handle: Handle<'a>, fate: &[&str]) {
        match fate {
            ["drop"] => drop(handle),
            ["keep", slot] => drop(self.slots[number(slot) as usize].replace(handle)),
            _ => panic!("no fate of a handle: {}", fate.join(" ")),
        }
    }

    fn tell(&self, line: &str, answer: Answer) {
        let dropped: Vec<String> =
            self.dropped.lock().unwrap().drain(..).map(|number| number.to_string()).collect();
        println!("{line} => {answer} [{}]", dropped.join(", "));
    }
}

fn number(word: &str) -> u64 {
    word.parse().unwrap_or_else(|_| panic!("no number: {word}"))
}

/// The lines of each run: a `new` and what follows it up to the next.
fn runs(text: &str) -> Vec<Vec<&str>> {
    let mut runs: Vec<Vec<&str>> = Vec::new();
    for line in text.lines() {
        if line.starts_with("new ") {
            runs.push(Vec::new());
        }
        runs.last_mut().expect("`new CAPACITY` comes first").push(line);
    }
    runs
}

fn main() -> io::Result<()> {
    let mut text = String::new();
    io::stdin().read_to_string(&mut text)?;
    for lines in runs(&text) {
        let cache = LruCache::new(number(&lines[0]["new ".len()..]));
        let mut run = Run {
            cache: &cache,
            slots: [None, None, None, None],
            dropped: Arc::new(Mutex::new(Vec::new())),
            steps: 0,
        };
        run.tell(lines[0], Answer::Done);
        for line in &lines[1..] {
            let words: Vec<&str> = line.split(' ').collect();
            let answer = run.step(&words);
            run.tell(line, answer);
        }
    }
    Ok(())
}
