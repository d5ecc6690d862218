//! Senders that are polled: one call that keeps its slot of the wait queue between two polls.
use crate::hand::{Call, Count, Hand};
use crate::*;
use lcmux::Channel::Data;
use lcmux::{Closed, Needs, Permit, PollSender, Refusal, SendError, TrySendError};
use std::future::poll_fn;
use std::sync::Arc;
use std::task::{Context, Poll, Waker};

/// A session without guarantees, and its sender of channel 1.
fn polled() -> (Hand, PollSender) {
    polled_with(14)
}

fn polled_with(slots: u32) -> (Hand, PollSender) {
    let mut hand = Hand::started(with_slots(slots));
    let sender = hand.mux.take_sender(Data).unwrap();
    (hand, PollSender::new(sender))
}

type Sent = Result<(), SendError>;

fn sending<'a>(sender: &'a mut PollSender, body: &'a [u8]) -> Call<'a, Sent> {
    Call::new(poll_fn(|cx| sender.poll_send(cx, body)))
}

fn poll_once(sender: &mut PollSender, body: &[u8]) -> Option<Sent> {
    sending(sender, body).poll()
}

#[test]
fn a_polled_send_waits_for_guarantees_and_is_woken_once() {
    let (mut hand, mut sender) = polled();
    let mut call = sending(&mut sender, b"hello");
    assert_eq!(call.poll(), None);
    hand.feed(&greeted("issue 1 4"));
    assert_eq!((call.wakes(), call.poll()), (0, None));
    hand.feed(&frames("issue 1 1"));
    assert_eq!(call.woken(), Ok(()));
    assert_eq!(hand.written(), frames("send 1 68656c6c6f"));
    assert!(!sender.cancel(), "no call waits");
}

/// The future that polled first is dropped; the next one continues its call.
#[test]
fn a_polled_send_keeps_its_place_between_futures() {
    let (mut hand, mut sender) = polled_with(32);
    let other = sender.get_ref().clone();
    assert_eq!(poll_once(&mut sender, b"first"), None);
    let second = Call::waiting(other.send(b"second"));
    assert_eq!(poll_once(&mut sender, b"first"), None);
    hand.feed(&greeted("issue 1 64"));
    assert_eq!(second.wakes(), 0);
    assert_eq!(poll_once(&mut sender, b"first"), Some(Ok(())));
    assert_eq!(second.woken(), Ok(()));
    let written = frames("send 1 6669727374, send 1 7365636f6e64");
    assert_eq!(hand.written(), written);
}

#[test]
fn the_last_waker_alone_is_woken() {
    let (mut hand, mut sender) = polled();
    let counts: [Arc<Count>; 3] = Default::default();
    for count in &counts {
        let waker = Waker::from(Arc::clone(count));
        let polled = sender.poll_send(&mut Context::from_waker(&waker), b"hi");
        assert_eq!(polled, Poll::Pending);
    }
    hand.feed(&greeted("issue 1 2"));
    assert_eq!(counts.map(|count| count.count()), [0, 0, 1]);
    assert_eq!(poll_once(&mut sender, b"hi"), Some(Ok(())));
}

/// A call that was woken, and lost what it waited for meanwhile, is woken again.
#[test]
fn a_call_that_waits_again_is_woken_again() {
    let (mut hand, mut sender) = polled();
    hand.feed(GREETING);
    let other = sender.get_ref().clone();
    for round in 1..4 {
        let mut call = sending(&mut sender, b"hi");
        assert_eq!(call.poll(), None);
        hand.feed(&frames("issue 1 2"));
        assert_eq!(call.wakes(), 1, "in round {round}");
        other.absolve(1).unwrap();
        assert_eq!(call.poll(), None);
        hand.feed(&frames("issue 1 1"));
        assert_eq!(call.wakes(), 2, "in round {round}");
        assert_eq!(call.poll(), Some(Ok(())));
        hand.written();
    }
}

#[test]
fn a_poll_for_another_length_begins_at_the_end_of_the_wait_queue() {
    for (body, is_first) in [(b"4444".as_slice(), true), (b"55555", false), (b"3", false)] {
        let (mut hand, mut sender) = polled_with(32);
        let other = sender.get_ref().clone();
        assert_eq!(poll_once(&mut sender, b"four"), None);
        let mut second = Call::waiting(other.send(b"two"));
        assert_eq!(poll_once(&mut sender, body), None);
        hand.feed(&greeted("issue 1 64"));
        assert_eq!(second.wakes(), usize::from(!is_first));
        assert_eq!(second.poll().is_some(), !is_first);
        assert_eq!(poll_once(&mut sender, body), Some(Ok(())));
        hand.written();
        assert_eq!(
            sender.get_ref().book().held,
            64 - body.len() as u64 - 3 * u64::from(!is_first)
        );
    }
}

/// The wait queue knows the length alone.
#[test]
fn the_last_body_of_a_length_is_sent_or_a_permit_reserved() {
    let (mut hand, mut sender) = polled();
    assert_eq!(poll_once(&mut sender, b"this"), None);
    assert_eq!(poll_once(&mut sender, b"that"), None);
    hand.feed(&greeted("issue 1 64"));
    assert_eq!(poll_once(&mut sender, b"what"), Some(Ok(())));
    assert_eq!(poll_once(&mut sender, b"wait"), None);
    assert_eq!(hand.written(), frames("send 1 77686174"));
    let reserve = poll_fn(|cx| sender.poll_reserve(cx, 4).map_ok(Permit::into_owned));
    let permit = Call::new(reserve).poll().unwrap().unwrap();
    assert_eq!((permit.len(), sender.get_ref().held()), (4, 56));
    permit.send(b"x").unwrap();
    assert_eq!(sender.get_ref().held(), 59);
    assert_eq!(hand.written(), frames("send 1 78"));
    assert!(!sender.cancel(), "no call waits");
}

#[test]
fn a_polled_permit_waits_and_is_given_back() {
    let (mut hand, mut sender) = polled();
    let mut call = Call::waiting(poll_fn(|cx| {
        let reserved = sender.poll_reserve(cx, 5);
        reserved.map_ok(|permit| permit.len())
    }));
    hand.feed(&greeted("issue 1 5"));
    assert_eq!((call.wakes(), call.poll()), (1, Some(Ok(5))));
    drop(call);
    assert_eq!(sender.get_ref().held(), 5);
    assert_eq!(hand.written(), []);
}

/// Cancelled, dropped, or taken apart: each leaves the place to the next call.
#[test]
fn a_call_that_is_given_up_leaves_its_place_to_the_next() {
    for way in 0..3 {
        let (mut hand, mut sender) = polled();
        let other = sender.get_ref().clone();
        assert_eq!(poll_once(&mut sender, b"long"), None);
        let next = Call::waiting(other.send(b"s"));
        let full = Err(TrySendError::Full(Needs::Slot));
        hand.feed(&greeted("issue 1 2"));
        assert_eq!((next.wakes(), other.try_send(b"t")), (0, full));
        let kept = match way {
            0 => {
                assert!(sender.cancel());
                assert!(!sender.cancel());
                Some(sender.into_inner())
            }
            1 => Some(sender.into_inner()),
            _ => {
                drop(sender);
                None
            }
        };
        assert_eq!(next.woken(), Ok(()));
        assert_eq!(hand.written(), frames("send 1 73"));
        drop(other);
        let end = if kept.is_some() {
            vec![]
        } else {
            frames("finish 1")
        };
        assert_eq!(hand.written(), end);
        drop(kept);
    }
}

/// An error ends the call and not the sender.
#[test]
fn an_error_ends_the_call_alone() {
    let (mut hand, mut sender) = polled();
    let refused = |refusal| Some(Err(SendError::Refused(refusal)));
    assert_eq!(poll_once(&mut sender, b""), refused(Refusal::EmptyBody));
    assert_eq!(poll_once(&mut sender, b"hello"), None);
    let mut call = sending(&mut sender, b"hello");
    assert_eq!(call.poll(), None);
    hand.feed(&greeted("issue 1 1, limit-receiving 1 3"));
    let unwanted = SendError::Unwanted { held: 1, left: 3 };
    assert_eq!(call.woken(), Err(unwanted));
    assert!(!sender.cancel(), "no call waits");
    assert_eq!(poll_once(&mut sender, b"x"), Some(Ok(())));
    assert_eq!(poll_once(&mut sender, b"yy"), None);
    hand.mux.close();
    for body in [b"yy", b"zz"] {
        let closed = SendError::Closed(Closed::Local);
        assert_eq!(poll_once(&mut sender, body), Some(Err(closed)));
    }
}

#[test]
fn the_129th_send_in_a_row_yields_once() {
    let (mut hand, mut sender) = polled_with(400);
    hand.feed(&room_on_all());
    hand.feed(&frames("issue 1 200"));
    for count in 1..=128 {
        assert_eq!(poll_once(&mut sender, b"x"), Some(Ok(())), "{count}");
    }
    let mut call = sending(&mut sender, b"x");
    assert_eq!((call.poll(), call.wakes()), (None, 1));
    assert_eq!(call.poll(), Some(Ok(())));
    assert_eq!(hand.written().len(), 129 * 6);
}
