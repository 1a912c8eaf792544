//! How often threads have gone to sleep, as Linux tells: a thread that was woken goes to sleep
//! again.

use std::sync::Mutex;
use std::time::Duration;
use std::{fs, thread};

/// Some threads.
#[derive(Default)]
pub struct Sleepers {
    /// Where Linux tells about them.
    folders: Mutex<Vec<String>>,
}

impl Sleepers {
    /// Adds the calling thread.
    pub fn add_this_thread(&self) {
        let folder = fs::read_link("/proc/thread-self").unwrap();
        let folder = folder.into_os_string().into_string().unwrap();
        self.folders.lock().unwrap().push(folder);
    }

    /// The number of these threads.
    pub fn count(&self) -> usize {
        self.folders.lock().unwrap().len()
    }

    /// How often these threads have gone to sleep, once all of them sleep.
    pub fn sleeps(&self) -> u64 {
        let folders = self.folders.lock().unwrap();
        folders.iter().map(|folder| sleeps_of(folder)).sum()
    }
}

fn sleeps_of(folder: &str) -> u64 {
    loop {
        let status = fs::read_to_string(format!("/proc/{folder}/status")).unwrap();
        let told = |name| status.lines().find_map(|line| line.strip_prefix(name));
        if told("State:").is_some_and(|state| state.trim().starts_with('S')) {
            return told("voluntary_ctxt_switches:")
                .unwrap()
                .trim()
                .parse()
                .unwrap();
        }
        thread::sleep(Duration::from_millis(1));
    }
}
