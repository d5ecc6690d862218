use std::future::Future;
use std::pin::Pin;
use std::task::{Context, Poll};
use std::time::Duration;
use tokio::time::{sleep_until, Instant, Sleep};

/// The longest timeout: a longer one is cut to it.
const LONGEST: Duration = Duration::from_secs(365 * 24 * 60 * 60);

/// A deadline that is often postponed and seldom reached: its timer is set again only when it fires.
pub(crate) struct Alarm {
    after: Duration,
    deadline: Instant,
    timer: Pin<Box<Sleep>>,
}

impl Alarm {
    pub fn new(after: Duration) -> Alarm {
        let after = after.min(LONGEST);
        let deadline = Instant::now() + after;
        Alarm {
            after,
            deadline,
            timer: Box::pin(sleep_until(deadline)),
        }
    }

    /// Restarts the timeout.
    pub fn restart(&mut self) {
        self.deadline = Instant::now() + self.after;
    }

    /// Returns whether the timeout expired. If not, it registers the task's waker.
    pub fn is_over(&mut self, cx: &mut Context<'_>) -> bool {
        while let Poll::Ready(()) = self.timer.as_mut().poll(cx) {
            if self.deadline <= Instant::now() {
                return true;
            }
            self.timer.as_mut().reset(self.deadline);
        }
        false
    }
}
