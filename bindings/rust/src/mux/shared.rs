use super::events::{Event, Hook, Reports};
use super::io::Breaker;
use super::state::State;
use crate::{Channel, Closed};
use std::collections::VecDeque;
use std::mem;
use std::sync::atomic::{AtomicBool, AtomicU8, Ordering::Relaxed, Ordering::SeqCst};
use std::sync::{Mutex, MutexGuard, PoisonError, TryLockError};
use std::task::Waker;
use std::thread;

/// How often a thread that finds the session locked yields the processor before it blocks.
const YIELDS: usize = 16;

/// The actions that follow once the lock is free: wakers and hooks may run any code, wakers also when they are dropped.
#[derive(Default)]
pub(crate) struct Wakes {
    /// The first waker: most calls wake only one.
    next: Option<Waker>,
    wakers: VecDeque<Waker>,
    stale: Vec<Waker>,
    breaker: Option<Breaker>,
    reports: Option<Box<Reports>>,
}

impl Wakes {
    pub fn wake(&mut self, waker: Option<Waker>) {
        match self.next {
            None => self.next = waker,
            Some(_) => self.wakers.extend(waker),
        }
    }

    pub fn discard(&mut self, waker: Option<Waker>) {
        self.stale.extend(waker);
    }

    pub fn break_by(&mut self, breaker: Option<Breaker>) {
        self.breaker = breaker;
    }

    pub fn report(&mut self, hooks: &[Hook], event: Event) {
        let reports = self.reports.get_or_insert_with(|| Reports::to(hooks));
        reports.add(event);
    }

    /// Takes all actions, if there are any.
    fn take(&mut self) -> Option<Wakes> {
        let is_empty = self.next.is_none()
            && self.stale.is_empty()
            && self.breaker.is_none()
            && self.reports.is_none();
        (!is_empty).then(|| mem::take(self))
    }

    fn run(&mut self) {
        if let Some(breaker) = self.breaker.take() {
            breaker();
        }
        while let Some(waker) = self.next.take() {
            self.next = self.wakers.pop_front();
            waker.wake();
        }
        if let Some(reports) = self.reports.take() {
            reports.call();
        }
    }
}

// A waker that panics does not prevent the wake-up of the others.
impl Drop for Wakes {
    fn drop(&mut self) {
        self.run();
    }
}

/// The session that its handles, its driver and its `Mux` share.
pub(crate) struct Shared {
    state: Mutex<State>,
    /// Channels whose borrowed message was returned and whose free bytes the state does not know of yet, as bits.
    given_back: AtomicU8,
    /// Whether the writing half waits for a frame: then the state is notified at once.
    is_idle: AtomicBool,
}

impl Shared {
    pub fn new(state: State) -> Shared {
        Shared {
            state: Mutex::new(state),
            given_back: AtomicU8::new(0),
            is_idle: AtomicBool::new(false),
        }
    }

    /// Changes the state under the lock, and then wakes the tasks that can proceed.
    pub fn with<T>(&self, call: impl FnOnce(&mut State) -> T) -> T {
        let rescue = Rescue(self);
        let mut state = self.lock();
        self.apply_given_back(&mut state);
        let answer = call(&mut state);
        self.note_idle(&mut state);
        let wakes = state.wakes.take();
        drop(state);
        mem::forget(rescue);
        if let Some(mut wakes) = wakes {
            wakes.run();
        }
        answer
    }

    /// Returns a borrowed message of a channel: its bytes are free. The lock is not taken for it while the writing
    /// half is active. The next call that takes the lock notifies the state, at the latest the writing half before it
    /// waits.
    pub fn give_back(&self, channel: Channel) {
        self.given_back.fetch_or(1 << channel.number(), SeqCst);
        if self.is_idle.load(SeqCst) {
            self.with(|_| {});
        }
    }

    fn apply_given_back(&self, state: &mut State) {
        if self.given_back.load(SeqCst) != 0 {
            state.give_back_lent(self.given_back.swap(0, SeqCst));
        }
    }

    // Either `give_back` observes that the writing half waits, or this method observes the returned message.
    fn note_idle(&self, state: &mut State) {
        let is_idle = state.is_idle();
        if self.is_idle.load(Relaxed) != is_idle {
            self.is_idle.store(is_idle, SeqCst);
            self.apply_given_back(state);
        }
    }

    // It yields before it blocks: the lock is held for a moment, and a thread that blocks on it makes all threads block
    // that come after, with two system calls each.
    fn lock(&self) -> MutexGuard<'_, State> {
        for _ in 0..YIELDS {
            match self.state.try_lock() {
                Ok(state) => return state,
                Err(TryLockError::Poisoned(state)) => return state.into_inner(),
                Err(TryLockError::WouldBlock) => thread::yield_now(),
            }
        }
        self.state.lock().unwrap_or_else(PoisonError::into_inner)
    }
}

/// Aborts a session if a call panicked under the lock, so that no call waits for a change that happened in part.
struct Rescue<'a>(&'a Shared);

impl Drop for Rescue<'_> {
    fn drop(&mut self) {
        let mut state = self.0.lock();
        state.fail(Closed::Aborted);
        let mut wakes = mem::take(&mut state.wakes);
        drop(state);
        wakes.run();
    }
}

#[cfg(test)]
mod tests {
    use super::*;
    use crate::mux::state::Pulled;
    use crate::Channel::{Data, Overlap};
    use crate::{Config, Take, CHANNELS};
    use std::sync::atomic::AtomicUsize;
    use std::sync::Arc;
    use std::task::Wake;

    #[derive(Default)]
    struct Count(AtomicUsize);

    impl Wake for Count {
        fn wake(self: Arc<Count>) {
            self.0.fetch_add(1, Relaxed);
        }
    }

    struct Session {
        shared: Shared,
        buffer: [u8; 64],
        count: Arc<Count>,
    }

    impl Session {
        /// A session whose first issues are written, and that lends a message on channel 2.
        fn new() -> Session {
            let state = State::new(&Config::new([64; CHANNELS], 16)).unwrap();
            let mut session = Session {
                shared: Shared::new(state),
                buffer: [0; 64],
                count: Arc::default(),
            };
            assert_eq!(session.pull().len(), 35);
            session.lend(Overlap, b"\x12\0\x02hi");
            session
        }

        fn lend(&self, channel: Channel, frame: &[u8]) {
            let lent = self.shared.with(|state| {
                state.deliver(frame).unwrap();
                state.lend(channel)
            });
            assert!(matches!(lent, Ok(Take::Took(front)) if *front == *b"hi"));
        }

        /// Returns the bytes that the writing half has to write; if there are none, it waits.
        fn pull(&mut self) -> &[u8] {
            self.pull_and(|_| {})
        }

        // Runs `also` before the lock is free again.
        fn pull_and(&mut self, also: impl FnOnce(&Shared)) -> &[u8] {
            let waker = Waker::from(Arc::clone(&self.count));
            let pulled = self.shared.with(|state| {
                let pulled = state.pull(&mut self.buffer, false, &waker);
                also(&self.shared);
                pulled
            });
            match pulled {
                Pulled::Bytes(count, _) => &self.buffer[..count],
                Pulled::Idle => &[],
                Pulled::Soon | Pulled::End | Pulled::Over(_) => unreachable!(),
            }
        }

        fn wakes(&self) -> usize {
            self.count.0.load(Relaxed)
        }
    }

    const ISSUE: &[u8] = b"\x22\0\0\0\x02";

    #[test]
    fn a_returned_message_is_issued_at_the_next_pull() {
        let mut session = Session::new();
        session.shared.give_back(Overlap);
        assert_eq!(session.pull(), ISSUE);
        assert_eq!(session.wakes(), 0);
    }

    #[test]
    fn returned_messages_of_two_channels_are_issued_on_both() {
        let mut session = Session::new();
        session.lend(Data, b"\x11\0\x02hi");
        session.shared.give_back(Overlap);
        session.shared.give_back(Data);
        assert_eq!(session.pull(), [b"\x21\0\0\0\x02", ISSUE].concat());
    }

    #[test]
    fn a_returned_message_wakes_an_idle_writing_half() {
        let mut session = Session::new();
        assert_eq!(session.pull(), b"");
        session.shared.give_back(Overlap);
        assert_eq!(session.wakes(), 1);
        assert_eq!(session.pull(), ISSUE);
    }

    // Between its last poll and its wait. `give_back` takes no lock there, so this does not deadlock.
    #[test]
    fn a_message_returned_just_before_the_writing_half_waits_wakes_it() {
        let mut session = Session::new();
        assert_eq!(session.pull_and(|shared| shared.give_back(Overlap)), b"");
        assert_eq!(session.wakes(), 1);
        assert_eq!(session.pull(), ISSUE);
    }
}
