//! Runs a future on a blocked thread.
use std::cell::Cell;
use std::future::Future;
use std::pin::pin;
use std::sync::atomic::{AtomicU8, Ordering::SeqCst};
use std::sync::{Arc, Condvar, Mutex, MutexGuard, PoisonError};
use std::task::{Context, Poll, Wake, Waker};
use std::thread;
use std::time::Instant;

/// The primitive on which a thread blocks. It is not `thread::park`, whose token belongs to the caller.
#[derive(Default)]
struct Parker {
    state: AtomicU8,
    asleep: Mutex<()>,
    bell: Condvar,
}

// The states of a parker.
const AWAKE: u8 = 0;
const ASLEEP: u8 = 1;
const WOKEN: u8 = 2;

impl Parker {
    fn lock(&self) -> MutexGuard<'_, ()> {
        self.asleep.lock().unwrap_or_else(PoisonError::into_inner)
    }

    // Returns whether a wake-up arrived since the last call.
    fn take_wake(&self) -> bool {
        self.change(WOKEN, AWAKE)
    }

    fn change(&self, from: u8, to: u8) -> bool {
        let changed = self.state.compare_exchange(from, to, SeqCst, SeqCst);
        changed.is_ok()
    }

    // Blocks until a wake-up, or until the deadline, which returns `false`. It yields first: the thread that wakes it
    // often needs the processor only for a moment, and needs no system call if this one has not gone to sleep by
    // then.
    fn park(&self, deadline: Option<Instant>) -> bool {
        if self.take_wake() {
            return true;
        }
        thread::yield_now();
        self.take_wake() || self.sleep(deadline)
    }

    fn sleep(&self, deadline: Option<Instant>) -> bool {
        let mut guard = self.lock();
        if !self.change(AWAKE, ASLEEP) {
            return self.take_wake();
        }
        while !self.take_wake() {
            guard = match deadline.map(|deadline| deadline.checked_duration_since(Instant::now())) {
                None => self
                    .bell
                    .wait(guard)
                    .unwrap_or_else(PoisonError::into_inner),
                Some(None) => return self.state.swap(AWAKE, SeqCst) == WOKEN,
                Some(Some(left)) => {
                    let waited = self.bell.wait_timeout(guard, left);
                    waited.unwrap_or_else(PoisonError::into_inner).0
                }
            };
        }
        true
    }
}

impl Wake for Parker {
    fn wake(self: Arc<Parker>) {
        self.wake_by_ref();
    }

    fn wake_by_ref(self: &Arc<Parker>) {
        if self.state.swap(WOKEN, SeqCst) == ASLEEP {
            // The thread sleeps or is about to: the lock orders this wake-up after the start of its wait.
            drop(self.lock());
            self.bell.notify_one();
        }
    }
}

thread_local! {
    // The thread's parker, while no call blocks on it. A nested call, as of a hook, has its own, so that it takes no
    // wake-up of the outer one.
    static PARKER: Cell<Option<Arc<Parker>>> = const { Cell::new(None) };
}

/// Runs a future to completion on this thread.
pub(crate) fn block_on<F: Future>(future: F) -> F::Output {
    match block_until(future, None) {
        Some(output) => output,
        None => unreachable!("there is no deadline"),
    }
}

/// Runs a future on this thread until the deadline. Then it drops the future and returns `None`.
pub(crate) fn block_until<F: Future>(future: F, deadline: Option<Instant>) -> Option<F::Output> {
    let mut future = pin!(future);
    let kept = PARKER.try_with(Cell::take).ok().flatten();
    let parker = kept.unwrap_or_default();
    let waker = Waker::from(Arc::clone(&parker));
    let mut context = Context::from_waker(&waker);
    let output = loop {
        if let Poll::Ready(output) = future.as_mut().poll(&mut context) {
            break Some(output);
        }
        if !parker.park(deadline) {
            break None;
        }
    };
    let _ = PARKER.try_with(|kept| kept.set(Some(parker)));
    output
}

#[cfg(test)]
mod tests {
    use super::*;

    // No test of sessions makes a wake-up arrive between the last poll and the sleep.
    #[test]
    fn a_wake_before_the_sleep_ends_it() {
        let (parker, now) = (Arc::new(Parker::default()), Some(Instant::now()));
        parker.wake_by_ref();
        assert!(parker.sleep(now));
        assert!(!parker.sleep(now));
    }
}
