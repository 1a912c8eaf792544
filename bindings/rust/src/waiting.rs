//! Callers that sleep while they wait for a value.

use std::mem;
use std::sync::Condvar;
use std::task::Waker;

use crate::error::{Refusal, room};

/// Those that sleep until the making of one value has ended. A lock guards this.
#[derive(Debug, Default)]
pub(crate) struct WaitList {
    /// How many of them are threads.
    threads: usize,
    /// The wakers of those that are tasks, each with its ticket. Tickets ascend.
    tasks: Vec<(u64, Waker)>,
    next_ticket: u64,
}

impl WaitList {
    /// Counts a thread, which then waits at the condition of the lock.
    pub(crate) fn add_thread(&mut self) {
        self.threads += 1;
    }

    /// Counts a thread that woke.
    pub(crate) fn remove_thread(&mut self) {
        self.threads -= 1;
    }

    /// Stores the waker of a task, which is woken once, and gives it a ticket if it has none. Puts
    /// the old waker of the task in its place, as wakers must be dropped without the lock.
    pub(crate) fn add_task(
        &mut self,
        ticket: &mut Option<u64>,
        waker: &mut Option<Waker>,
    ) -> Result<(), Refusal> {
        if let Some(place) = ticket.and_then(|ticket| self.place(ticket)) {
            if let Some(waker) = waker {
                mem::swap(&mut self.tasks[place].1, waker);
            }
            return Ok(());
        }
        room(self.tasks.try_reserve(1))?;
        if let Some(waker) = waker.take() {
            *ticket = Some(self.next_ticket);
            self.tasks.push((self.next_ticket, waker));
            self.next_ticket += 1;
        }
        Ok(())
    }

    /// Removes a task that waits no more, if it was not woken yet. Returns its waker.
    pub(crate) fn remove_task(&mut self, ticket: u64) -> Option<Waker> {
        let place = self.place(ticket)?;
        Some(self.tasks.remove(place).1)
    }

    /// Those that sleep, who must be woken. A thread is counted until it has woken.
    pub(crate) fn sleepers(&mut self) -> Sleepers {
        Sleepers {
            has_threads: self.threads > 0,
            tasks: mem::take(&mut self.tasks),
        }
    }

    fn place(&self, ticket: u64) -> Option<usize> {
        let place = self.tasks.binary_search_by_key(&ticket, |task| task.0);
        place.ok()
    }
}

/// Callers that sleep and must be woken.
#[derive(Debug, Default)]
#[must_use = "they sleep until they are woken"]
pub(crate) struct Sleepers {
    has_threads: bool,
    tasks: Vec<(u64, Waker)>,
}

impl Sleepers {
    /// Wakes them, after the lock was released: wakers run code of their tasks, which may call the
    /// cache.
    ///
    /// All threads that wait, for whatever value, wait at one condition: a slow value whose key
    /// many ask for would else make them wake for each value that is made meanwhile. Who waits is
    /// counted with the lock held, and lets go of the lock only by waiting, so no notification is
    /// missed.
    pub(crate) fn wake(self, ended: &Condvar) {
        if self.has_threads {
            ended.notify_all();
        }
        for (_, task) in self.tasks {
            task.wake();
        }
    }
}
