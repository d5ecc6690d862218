//! Calls that are polled by hand, and wakers that count their wake-ups.
use std::future::Future;
use std::pin::Pin;
use std::sync::atomic::{AtomicUsize, Ordering};
use std::sync::Arc;
use std::task::{Context, Poll, Wake, Waker};

#[derive(Default)]
pub struct Count(AtomicUsize);

impl Wake for Count {
    fn wake(self: Arc<Count>) {
        self.0.fetch_add(1, Ordering::Relaxed);
    }
}

impl Count {
    pub fn count(&self) -> usize {
        self.0.load(Ordering::Relaxed)
    }
}

/// A call that is polled by hand and counts its wake-ups.
pub struct Call<'a, T> {
    future: Pin<Box<dyn Future<Output = T> + 'a>>,
    count: Arc<Count>,
}

impl<'a, T> Call<'a, T> {
    pub fn new(future: impl Future<Output = T> + 'a) -> Call<'a, T> {
        Call {
            future: Box::pin(future),
            count: Arc::default(),
        }
    }

    /// A call that was polled and is pending.
    pub fn waiting(future: impl Future<Output = T> + 'a) -> Call<'a, T> {
        let mut call = Call::new(future);
        assert!(call.poll().is_none());
        call
    }

    pub fn poll(&mut self) -> Option<T> {
        let waker = Waker::from(Arc::clone(&self.count));
        match self.future.as_mut().poll(&mut Context::from_waker(&waker)) {
            Poll::Ready(output) => Some(output),
            Poll::Pending => None,
        }
    }

    pub fn wakes(&self) -> usize {
        self.count.count()
    }

    /// Polls a call that was woken once, and that is ready then.
    pub fn woken(mut self) -> T {
        assert_eq!(self.wakes(), 1);
        self.poll().expect("it was woken")
    }
}
