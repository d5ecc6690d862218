//! Events between two steps of a half of the driver: wakers whose last clone, when it is dropped there, closes,
//! aborts, sends or drops the last handle.
use crate::hand::{Count, Hand};
use crate::*;
use lcmux::Channel::Data;
use lcmux::{Closed, Mux};
use std::sync::{Arc, Mutex};
use std::task::{Context, Poll, Wake, Waker};

/// A waker that runs a closure once, when its last clone is dropped.
struct OnDrop(Mutex<Option<Box<dyn FnOnce() + Send>>>);

impl OnDrop {
    fn waker(call: impl FnOnce() + Send + 'static) -> Waker {
        let call: Box<dyn FnOnce() + Send> = Box::new(call);
        Waker::from(Arc::new(OnDrop(Mutex::new(Some(call)))))
    }
}

impl Wake for OnDrop {
    fn wake(self: Arc<OnDrop>) {}
}

impl Drop for OnDrop {
    fn drop(&mut self) {
        if let Some(call) = self.0.lock().unwrap().take() {
            call();
        }
    }
}

/// The writing half is idle with this waker, which another one then replaces: how often the other one is woken, and
/// the result of the next poll.
fn writing_half(hand: &mut Hand, call: impl FnOnce() + Send + 'static) -> Poll<Result<(), Closed>> {
    let waker = OnDrop::waker(call);
    let mut sink = Vec::new();
    let polled = hand
        .driver
        .poll_write(&mut Context::from_waker(&waker), &mut sink);
    assert!(polled.is_pending());
    drop(waker);
    let woken = Arc::new(Count::default());
    let waker = Waker::from(Arc::clone(&woken));
    let polled = hand
        .driver
        .poll_write(&mut Context::from_waker(&waker), &mut sink);
    assert!(polled.is_pending(), "it found nothing to write");
    assert_eq!(
        woken.count(),
        1,
        "and was woken for what happened meanwhile"
    );
    hand.driver
        .poll_write(&mut Context::from_waker(&waker), &mut sink)
}

// All channels of this side are finished, so that a close has no frame to write.
fn finished() -> Hand {
    let mut hand = Hand::started(narrow());
    for channel in ALL {
        hand.mux.take_sender(channel).unwrap().finish().unwrap();
    }
    hand.written();
    hand
}

#[test]
fn a_close_just_before_the_writing_half_waits_ends_its_stream() {
    let mut hand = finished();
    let mux = Arc::new(std::mem::replace(
        &mut hand.mux,
        Mux::new(narrow()).unwrap().0,
    ));
    let closing = Arc::clone(&mux);
    assert_eq!(
        writing_half(&mut hand, move || closing.close()),
        Poll::Ready(Ok(()))
    );
    assert_eq!(
        hand.read(&mut &[GREETING, &finishes()].concat()[..]),
        Poll::Ready(Ok(()))
    );
    assert_eq!(mux.closed_blocking(), Ok(()));
}

#[test]
fn an_abort_just_before_the_writing_half_waits_ends_it() {
    let mut hand = finished();
    let mux = std::mem::replace(&mut hand.mux, Mux::new(narrow()).unwrap().0);
    let polled = writing_half(&mut hand, move || mux.abort());
    assert_eq!(polled, Poll::Ready(Err(Closed::Aborted)));
}

#[test]
fn the_last_drop_just_before_the_writing_half_waits_closes() {
    let mut hand = Hand::started(narrow());
    let mux = std::mem::replace(&mut hand.mux, Mux::new(narrow()).unwrap().0);
    assert_eq!(
        writing_half(&mut hand, move || drop(mux)),
        Poll::Ready(Ok(()))
    );
}

#[test]
fn a_send_just_before_the_writing_half_waits_is_written() {
    let mut hand = Hand::started(narrow());
    hand.feed(&room_on_all());
    let sender = hand.mux.take_sender(Data).unwrap();
    let _kept = sender.clone();
    let polled = writing_half(&mut hand, move || sender.try_send(b"x").unwrap());
    assert_eq!(polled, Poll::Pending);
    assert_eq!(hand.mux.stats()[Data].messages_sent, 1);
}
