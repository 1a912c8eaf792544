//! An executor that is as plain as possible, and wakers that count.

use std::collections::VecDeque;
use std::future;
use std::pin::Pin;
use std::sync::Arc;
use std::sync::atomic::{AtomicBool, AtomicUsize, Ordering::SeqCst};
use std::task::{Context, Poll, Wake, Waker};
use std::thread::{self, Thread};

/// Wakes a task of a thread.
struct TaskOf {
    thread: Thread,
    is_woken: AtomicBool,
}

impl Wake for TaskOf {
    fn wake(self: Arc<Self>) {
        self.is_woken.store(true, SeqCst);
        self.thread.unpark();
    }
}

pub type Task<'a> = Pin<Box<dyn Future<Output = ()> + 'a>>;

/// Runs tasks on this thread until all have ended.
pub fn run(tasks: Vec<Task<'_>>) {
    let mut tasks: VecDeque<_> = tasks
        .into_iter()
        .map(|task| {
            let thread = thread::current();
            let is_woken = AtomicBool::new(true);
            (task, Arc::new(TaskOf { thread, is_woken }))
        })
        .collect();
    while !tasks.is_empty() {
        let mut has_run = false;
        for _ in 0..tasks.len() {
            let (mut task, waker) = tasks.pop_front().unwrap();
            if waker.is_woken.swap(false, SeqCst) {
                has_run = true;
                let waker = Waker::from(Arc::clone(&waker));
                if task
                    .as_mut()
                    .poll(&mut Context::from_waker(&waker))
                    .is_ready()
                {
                    continue;
                }
            }
            tasks.push_back((task, waker));
        }
        if !has_run {
            thread::park();
        }
    }
}

pub fn block_on<T>(task: impl Future<Output = T>) -> T {
    let mut result = None;
    run(vec![Box::pin(async { result = Some(task.await) })]);
    result.unwrap()
}

/// Is polled so many times before it is ready.
pub fn pause(mut times: usize) -> impl Future<Output = ()> {
    future::poll_fn(move |context| {
        if times == 0 {
            return Poll::Ready(());
        }
        times -= 1;
        context.waker().wake_by_ref();
        Poll::Pending
    })
}

/// Counts how often it wakes.
#[derive(Default)]
pub struct Count {
    pub woken: AtomicUsize,
}

impl Wake for Count {
    fn wake(self: Arc<Self>) {
        self.woken.fetch_add(1, SeqCst);
    }
}

pub fn counting() -> (Arc<Count>, Waker) {
    let count = Arc::new(Count::default());
    (Arc::clone(&count), Waker::from(count))
}

pub fn poll<F: Future>(task: Pin<&mut F>, waker: &Waker) -> Poll<F::Output> {
    task.poll(&mut Context::from_waker(waker))
}
