//! Tasks that are cancelled at each of their awaits.
use crate::*;
use lcmux_tokio::lcmux::Channel::Data;
use lcmux_tokio::lcmux::{Receiver, Sender};
use std::future::poll_fn;
use std::pin::pin;
use std::sync::atomic::{AtomicU8, Ordering};
use std::sync::Arc;
use tokio::sync::Mutex;

/// Polls a future until it was pending this many times, and then drops it: `None`.
async fn cut<F: Future>(future: F, waits: usize) -> Option<F::Output> {
    let mut future = pin!(future);
    let mut left = waits;
    poll_fn(|cx| match future.as_mut().poll(cx) {
        std::task::Poll::Ready(output) => std::task::Poll::Ready(Some(output)),
        std::task::Poll::Pending if left == 0 => std::task::Poll::Ready(None),
        std::task::Poll::Pending => {
            left -= 1;
            std::task::Poll::Pending
        }
    })
    .await
}

/// A side that sends messages 0 to 19 and receives as many. It may be cancelled and restarted at any time, and keeps
/// its progress.
struct Side {
    sender: Sender,
    receiver: Mutex<Receiver>,
    sent: AtomicU8,
    taken: AtomicU8,
}

const COUNT: u8 = 20;

/// Message k, few of which fit a ring of 16 bytes.
fn message(number: u8) -> Vec<u8> {
    vec![number; 5 + usize::from(number % 7)]
}

impl Side {
    fn new(mux: &mut Mux) -> Arc<Side> {
        Arc::new(Side {
            sender: mux.take_sender(Data).unwrap(),
            receiver: Mutex::new(mux.take_receiver(Data).unwrap()),
            sent: AtomicU8::new(0),
            taken: AtomicU8::new(0),
        })
    }

    // Uses each waiting call in turn; no await separates a call from its count.
    async fn send(&self) {
        while self.sent.load(Ordering::Relaxed) < COUNT {
            let number = self.sent.load(Ordering::Relaxed);
            let message = message(number);
            match number % 2 {
                0 => self.sender.send(&message).await.unwrap(),
                _ => {
                    let permit = self.sender.reserve(16).await.unwrap();
                    tokio::task::yield_now().await;
                    permit.send(&message).unwrap();
                }
            }
            self.sent.store(number + 1, Ordering::Relaxed);
        }
    }

    async fn take(&self) {
        let mut receiver = self.receiver.lock().await;
        while self.taken.load(Ordering::Relaxed) < COUNT {
            let number = self.taken.load(Ordering::Relaxed);
            match number % 2 {
                0 => assert_eq!(receiver.recv().await, Ok(Some(message(number)))),
                _ => {
                    let lent = receiver.recv_ref().await.unwrap().unwrap();
                    assert_eq!(*lent, *message(number));
                    self.taken.store(number + 1, Ordering::Relaxed);
                    tokio::task::yield_now().await;
                    continue;
                }
            }
            self.taken.store(number + 1, Ordering::Relaxed);
        }
    }

    // Whether all guarantees are held again, those of the peer, too.
    async fn has_all_back(&self) -> bool {
        let (sent, taken) = (self.sender.book(), self.receiver.lock().await.book());
        (sent.held, taken.outstanding, taken.buffered) == (16, 16, 0)
    }

    async fn work(self: Arc<Side>) {
        tokio::join!(self.send(), self.take());
    }
}

/// Whichever call is cancelled, no message is lost, duplicated or out of order, and no guarantee is lost.
#[test]
fn a_task_that_is_given_up_at_any_await_has_done_all_or_nothing() {
    on_each("a task that is given up", || async {
        for waits in 0.. {
            let mut sides = both(tokio::io::duplex(11), rings(16));
            let alice = Side::new(&mut sides[0].0);
            let bob = Side::new(&mut sides[1].0);
            let other = tokio::spawn(Arc::clone(&bob).work());
            let whole = cut(Arc::clone(&alice).work(), waits).await;
            Arc::clone(&alice).work().await;
            other.await.unwrap();
            for side in [&alice, &bob] {
                while !side.has_all_back().await {
                    tokio::task::yield_now().await;
                }
            }
            close(sides).await;
            if whole.is_some() {
                // The task yields ten times to the others in each direction.
                assert!(waits > 9, "{waits} waits");
                return;
            }
        }
    });
}

/// The task that moves the bytes is cancelled: all calls of both sides end, and the messages that were received are a
/// prefix of those that were sent.
#[test]
fn a_session_whose_task_is_given_up_at_any_await_ends() {
    on_each("a session that is given up", || async {
        for waits in 0.. {
            let (here, there) = tokio::io::duplex(11);
            let (mut mux, driver) = Mux::new(rings(16)).unwrap();
            let (mut other, other_run) = connect(there, rings(16)).unwrap();
            let alice = Side::new(&mut mux);
            let bob = Side::new(&mut other);
            let run = lcmux_tokio::run(driver, here);
            let [mut one, another] =
                [&alice, &bob].map(|side| tokio::spawn(Arc::clone(side).work()));
            // After the last message nothing wakes the session's task, however few its waits were.
            let was_done = tokio::select! {
                ended = cut(run, waits) => {
                    assert_eq!(ended, None, "no one closes the session");
                    false
                }
                done = &mut one => {
                    done.unwrap();
                    true
                }
            };
            assert_eq!(mux.closed().await, Err(Closed::Aborted));
            let is_done = was_done || one.await.is_ok();
            other.close();
            let _ = (another.await, other_run.await);
            for (from, to) in [(&alice, &bob), (&bob, &alice)] {
                assert!(to.taken.load(Ordering::Relaxed) <= from.sent.load(Ordering::Relaxed));
            }
            if is_done {
                assert!(waits > 0);
                return;
            }
        }
    });
}
