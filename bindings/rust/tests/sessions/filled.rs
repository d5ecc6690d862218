//! Messages that a closure writes in place, and messages that a call owns.
use crate::hand::{Call, Hand};
use crate::*;
use lcmux::Channel::{Data, Overlap};
use lcmux::{Closed, Refusal, SendError, Sender};
use std::cell::Cell;
use std::future::Future;
use std::panic::{catch_unwind, AssertUnwindSafe};
use std::sync::Arc;
use std::thread;

fn with_room() -> (Hand, Sender) {
    let mut hand = Hand::started(narrow());
    hand.feed(&room_on_all());
    let sender = hand.mux.take_sender(Data).unwrap();
    (hand, sender)
}

/// Fills a permit of either kind.
fn fill(
    sender: &Sender,
    len: usize,
    is_owned: bool,
    fill: impl FnOnce(&mut [u8]) -> usize,
) -> Result<usize, SendError> {
    let permit = sender.try_reserve(len).unwrap();
    match is_owned {
        true => permit.into_owned().fill(fill),
        false => permit.fill(fill),
    }
}

#[test]
fn a_filled_permit_sends_as_many_bytes_as_the_closure_returns() {
    for is_owned in [false, true] {
        let (mut hand, sender) = with_room();
        let sent = fill(&sender, 10, is_owned, |message| {
            assert_eq!(message, [0; 10]);
            message.fill(9);
            message[..2].copy_from_slice(b"hi");
            2
        });
        assert_eq!((sent, sender.held()), (Ok(2), 62));
        assert_eq!(hand.written(), frames("send 1 6869"));
        // A longer one in the same memory, which is all 0 again, up to its last byte.
        let sent = fill(&sender, 12, is_owned, |message| {
            assert_eq!(message, [0; 12]);
            message[11] = 1;
            message.len()
        });
        assert_eq!((sent, sender.held()), (Ok(12), 50));
        assert_eq!(hand.written(), frames("send 1 000000000000000000000001"));
        let stats = sender.stats();
        assert_eq!((stats.messages_sent, stats.bytes_sent), (2, 14));
    }
}

#[test]
fn a_permit_that_is_filled_with_no_byte_or_too_many_is_refused_and_used_up() {
    for is_owned in [false, true] {
        let (mut hand, sender) = with_room();
        for (count, refusal) in [
            (0, Refusal::EmptyBody),
            (4, Refusal::NoGuarantee { held: 3 }),
            (usize::MAX, Refusal::NoGuarantee { held: 3 }),
        ] {
            let sent = fill(&sender, 3, is_owned, |_| count);
            assert_eq!(sent, Err(SendError::Refused(refusal)));
            assert_eq!((sender.held(), hand.written()), (64, vec![]));
        }
        // The slot was given back each time: there is one.
        assert_eq!(fill(&sender, 3, is_owned, |_| 3), Ok(3));
        assert_eq!(hand.written(), frames("send 1 000000"));
    }
}

/// The closure runs without the session's lock: each of these calls takes it.
#[test]
fn a_closure_may_call_the_session() {
    let (mut hand, sender) = with_room();
    let other = hand.mux.take_sender(Overlap).unwrap();
    let sent = fill(&sender, 3, false, |message| {
        assert_eq!(sender.held(), 61);
        let within = fill(&other, 2, false, |message| {
            message.copy_from_slice(b"hi");
            2
        });
        assert_eq!(within, Ok(2));
        message.copy_from_slice(b"abc");
        3
    });
    assert_eq!(sent, Ok(3));
    assert_eq!(hand.written(), frames("send 2 6869, send 1 616263"));
}

#[test]
fn a_permit_whose_session_or_channel_ends_while_it_is_filled_sends_nothing() {
    let (mut hand, sender) = with_room();
    let finish = |_: &mut [u8]| {
        sender.finish().unwrap();
        1
    };
    let refused = Err(SendError::Refused(Refusal::ChannelFinished));
    assert_eq!(fill(&sender, 3, false, finish), refused);
    assert_eq!(hand.written(), frames("finish 1"));

    let (hand, sender) = with_room();
    let close = |_: &mut [u8]| {
        hand.mux.close();
        1
    };
    let closed = Err(SendError::Closed(Closed::Local));
    assert_eq!(fill(&sender, 3, false, close), closed);
}

/// The permit is given back. That of an owned one is of no use then: a panic that drops a sender aborts the session.
#[test]
fn a_closure_that_panics_gives_the_permit_back() {
    let panics = |_: &mut [u8]| -> usize { std::panic::resume_unwind(Box::new("it panics")) };
    let (mut hand, sender) = with_room();
    let permit = sender.try_reserve(60).unwrap();
    let call = Call::waiting(sender.send(b"hello"));
    let result = catch_unwind(AssertUnwindSafe(|| permit.fill(panics)));
    assert!(result.is_err());
    assert_eq!((sender.held(), call.woken()), (64, Ok(())));
    assert_eq!(hand.written(), frames("send 1 68656c6c6f"));
    assert_eq!(fill(&sender, 1, false, |_| 1), Ok(1));
    assert_eq!(hand.written(), frames("send 1 00"));

    let permit = sender.try_reserve_owned(3).unwrap();
    let result = catch_unwind(AssertUnwindSafe(|| permit.fill(panics)));
    assert!(result.is_err());
    assert_eq!(hand.mux.closed_blocking(), Err(Closed::Aborted));
}

#[test]
fn a_call_owns_its_message_of_any_type() {
    fn goes<T: Send + 'static>(call: T) -> T {
        call
    }
    let (mut hand, sender) = with_room();
    let calls = [
        Call::new(goes(sender.send_owned(vec![b'a']))),
        Call::new(goes(sender.send_owned(Box::<[u8]>::from(*b"b")))),
        Call::new(goes(sender.send_owned(Arc::<[u8]>::from(*b"c")))),
        Call::new(goes(sender.send_owned(String::from("d")))),
    ];
    for (mut call, byte) in calls.into_iter().zip(0x61..) {
        assert_eq!(hand.written(), [], "before the first poll");
        assert_eq!(call.poll(), Some(Ok(())));
        assert_eq!(hand.written(), frames(&format!("send 1 {byte:x}")));
    }
}

/// A message that may move to another thread, and be used by one thread at a time.
struct Counted(Vec<u8>, Cell<u32>);

impl AsRef<[u8]> for Counted {
    fn as_ref(&self) -> &[u8] {
        self.1.set(self.1.get() + 1);
        &self.0
    }
}

#[test]
fn a_call_goes_to_another_thread_as_its_message_does() {
    let (mut hand, sender) = with_room();
    let call = sender.send_owned(Counted(vec![b'a'], Cell::new(0)));
    let sent = thread::spawn(move || Call::new(call).poll());
    assert_eq!(sent.join().unwrap(), Some(Ok(())));
    assert_eq!(hand.written(), frames("send 1 61"));
}

/// It outlives the sender, whose channel ends behind it.
#[test]
fn an_owned_message_waits_with_a_sender_of_its_own() {
    let mut hand = Hand::started(narrow());
    let sender = hand.mux.take_sender(Data).unwrap();
    let call = Call::waiting(sender.send_owned(String::from("hello")));
    drop(sender);
    hand.feed(&greeted("issue 1 4"));
    assert_eq!((call.wakes(), hand.written()), (0, vec![]));
    hand.feed(&frames("issue 1 1"));
    assert_eq!(call.woken(), Ok(()));
    assert_eq!(hand.written(), frames("send 1 68656c6c6f, finish 1"));
}

#[test]
fn an_owned_message_that_is_dropped_is_not_sent() {
    let mut hand = Hand::started(narrow());
    let sender = hand.mux.take_sender(Data).unwrap();
    let message = Arc::<[u8]>::from(*b"hello");
    let dropped = Call::waiting(sender.send_owned(Arc::clone(&message)));
    let next = Call::waiting(sender.send(b"x"));
    hand.feed(&greeted("issue 1 5"));
    assert_eq!((dropped.wakes(), next.wakes()), (1, 0));
    drop(dropped);
    assert_eq!(Arc::strong_count(&message), 1);
    assert_eq!(next.woken(), Ok(()));
    assert_eq!((sender.held(), hand.written()), (4, frames("send 1 78")));
    let refused = Err(SendError::Refused(Refusal::EmptyBody));
    assert_eq!(Call::new(sender.send_owned("")).poll(), Some(refused));
}

/// Each future is another one, and still the 129th of them in a row yields.
#[test]
fn the_129th_owned_message_in_a_row_yields_once() {
    let mut hand = Hand::started(narrow());
    hand.feed(&greeted("issue 1 1000"));
    let sender = hand.mux.take_sender(Data).unwrap();
    let mut send = || {
        let mut call = Call::new(sender.send_owned("x"));
        let is_ready = call.poll().is_some();
        assert!(is_ready || call.wakes() == 1 && call.poll().is_some());
        hand.written();
        is_ready
    };
    for _ in 0..3 {
        assert!((0..128).all(|_| send()));
        assert!(!send());
    }
}

/// The types of the calls, by name, so that a field of a struct may hold one.
#[test]
fn an_owned_message_is_a_future_without_a_borrow() {
    fn boxed(sender: &Sender) -> Box<dyn Future<Output = Result<(), SendError>> + Send> {
        Box::new(sender.send_owned(vec![7]))
    }
    let (_hand, sender) = with_room();
    let call = boxed(&sender);
    drop(sender);
    assert_eq!(Call::new(Box::into_pin(call)).poll(), Some(Ok(())));
}
