//! Cooperative scheduling: a handle whose futures are always ready yields to other tasks now and then.
use std::sync::atomic::{AtomicU8, Ordering::Relaxed};
use std::task::{Context, Poll};

/// How many futures of a handle complete in a row before one yields once.
const IN_A_ROW: u8 = 128;

fn yields_by_simulator() -> bool {
    #[cfg(feature = "simulation")]
    return crate::hooks::yields();
    #[cfg(not(feature = "simulation"))]
    false
}

/// Counts the futures of a handle that complete in a row. On a runtime that polls a task until it is pending, a loop
/// of calls that are always ready would else starve all other tasks of its thread.
#[derive(Debug, Default)]
pub(super) struct Coop(AtomicU8);

impl Coop {
    /// Counts a future that outlives the handle. The count of that future goes on where the one of the handle is, so that
    /// a loop of such futures yields, too.
    pub fn fork(&self) -> Coop {
        let count = self.0.load(Relaxed);
        self.0.store((count + 1) % (IN_A_ROW + 1), Relaxed);
        Coop(AtomicU8::new(count))
    }

    /// Counts further messages of the last call.
    pub fn count(&self, messages: usize) {
        let room = IN_A_ROW.saturating_sub(self.0.load(Relaxed));
        self.0.fetch_add(messages.min(room.into()) as u8, Relaxed);
    }

    /// Polls a call of the handle, or yields before the call has begun.
    pub fn poll<T>(
        &self,
        cx: &mut Context<'_>,
        poll: impl FnOnce(&mut Context<'_>) -> Poll<T>,
    ) -> Poll<T> {
        if self.0.load(Relaxed) >= IN_A_ROW || yields_by_simulator() {
            self.0.store(0, Relaxed);
            cx.waker().wake_by_ref();
            return Poll::Pending;
        }
        let polled = poll(cx);
        match polled {
            Poll::Ready(_) => self.0.fetch_add(1, Relaxed),
            Poll::Pending => self.0.swap(0, Relaxed),
        };
        polled
    }
}

#[cfg(test)]
mod tests {
    use super::*;
    use std::sync::atomic::AtomicUsize;
    use std::sync::Arc;
    use std::task::{Wake, Waker};

    #[derive(Default)]
    struct Count(AtomicUsize);

    impl Wake for Count {
        fn wake(self: Arc<Count>) {
            self.0.fetch_add(1, Relaxed);
        }
    }

    #[test]
    fn the_129th_ready_call_yields_once_and_is_woken() {
        let count = Arc::new(Count::default());
        let waker = Waker::from(Arc::clone(&count));
        let mut cx = Context::from_waker(&waker);
        let coop = Coop::default();
        for round in 1..=3 {
            for call in 1..=128 {
                assert_eq!(coop.poll(&mut cx, |_| Poll::Ready(call)), Poll::Ready(call));
            }
            assert_eq!(coop.poll(&mut cx, |_| Poll::Ready(129)), Poll::Pending);
            assert_eq!(count.0.load(Relaxed), round);
        }
    }

    #[test]
    fn a_call_that_waits_begins_the_row_anew() {
        let waker = Waker::from(Arc::new(Count::default()));
        let mut cx = Context::from_waker(&waker);
        let coop = Coop::default();
        for _ in 0..2 {
            for _ in 0..128 {
                assert!(coop.poll(&mut cx, |_| Poll::Ready(())).is_ready());
            }
            // The same call is polled after the yield.
            assert!(coop.poll(&mut cx, |_| Poll::Ready(())).is_pending());
            assert!(coop.poll(&mut cx, |_| Poll::<()>::Pending).is_pending());
        }
    }
}
