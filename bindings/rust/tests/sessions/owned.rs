//! Permits that have a clone of their sender.
use crate::hand::{Call, Hand};
use crate::*;
use lcmux::Channel::{Data, Overlap};
use lcmux::{Closed, Needs, Refusal, SendError, Sender, TrySendError};
use std::mem;
use std::panic::{catch_unwind, AssertUnwindSafe};
use std::thread;

fn with_room() -> (Hand, Sender) {
    let mut hand = Hand::started(narrow());
    hand.feed(&room_on_all());
    let sender = hand.mux.take_sender(Data).unwrap();
    (hand, sender)
}

#[test]
fn an_owned_permit_outlives_its_sender_and_finishes_the_channel() {
    let (mut hand, sender) = with_room();
    let permit = sender.try_reserve_owned(10).unwrap();
    assert_eq!((permit.len(), sender.held()), (10, 54));
    drop(sender);
    assert_eq!(hand.written(), [], "the channel is open");
    let sent = thread::spawn(move || permit.send(b"hi"));
    assert_eq!(sent.join().unwrap(), Ok(()));
    assert_eq!(hand.written(), frames("send 1 6869, finish 1"));
}

#[test]
fn an_owned_permit_that_is_dropped_gives_back_once_and_finishes_the_channel() {
    let (mut hand, sender) = with_room();
    let permit = sender.try_reserve_owned(60).unwrap();
    let call = Call::waiting(sender.send(b"hello"));
    drop(permit);
    assert_eq!(sender.held(), 64);
    assert_eq!(call.woken(), Ok(()));
    hand.written();
    let permit = sender.try_reserve_owned(59).unwrap();
    drop(sender);
    assert_eq!(hand.written(), []);
    drop(permit);
    assert_eq!(hand.written(), frames("finish 1"));
}

/// The guarantees and the slot move to the owned permit.
#[test]
fn a_permit_that_becomes_an_owned_one_gives_nothing_back() {
    let (mut hand, sender) = with_room();
    let permit = sender.try_reserve(60).unwrap().into_owned();
    assert_eq!((permit.len(), sender.held()), (60, 4));
    let full = Err(TrySendError::Full(Needs::Slot));
    assert_eq!(sender.try_send(b"x"), full);
    let other = hand.mux.take_sender(Overlap).unwrap();
    other.try_send(b"y").unwrap();
    permit.send(&[7; 60]).unwrap();
    assert_eq!(sender.held(), 4);
    assert_eq!(hand.written().len(), 6 + 65);
    assert!(sender.try_reserve_owned(4).is_ok());
}

#[test]
fn a_reserve_waits_for_an_owned_permit_unless_it_is_dropped() {
    let mut hand = Hand::started(narrow());
    let sender = hand.mux.take_sender(Data).unwrap();
    let full = TrySendError::Full(Needs::Guarantees(5));
    assert_eq!(sender.try_reserve_owned(5).err(), Some(full));
    let given_up = Call::waiting(sender.reserve_owned(5));
    let call = Call::waiting(sender.reserve_owned(4));
    hand.feed(&greeted("issue 1 4"));
    assert_eq!(call.wakes(), 0);
    drop(given_up);
    let permit = call.woken().unwrap();
    drop(sender);
    assert_eq!(permit.send(b"four"), Ok(()));
    assert_eq!(hand.written(), frames("send 1 666f7572, finish 1"));
}

/// An owned permit is refused as any permit is, and used up all the same.
#[test]
fn an_owned_permit_that_is_refused_is_used_up() {
    let (mut hand, sender) = with_room();
    let refused = |refusal| Err(SendError::Refused(refusal));
    let permit = || sender.try_reserve_owned(3).unwrap();
    let no_guarantee = Refusal::NoGuarantee { held: 3 };
    assert_eq!(permit().send(b"four"), refused(no_guarantee));
    assert_eq!(permit().send(b""), refused(Refusal::EmptyBody));
    assert_eq!(sender.held(), 64);
    let permit = permit();
    sender.finish().unwrap();
    assert_eq!(permit.send(b"x"), refused(Refusal::ChannelFinished));
    assert_eq!(hand.written(), frames("finish 1"));
}

#[test]
fn an_owned_permit_that_a_panic_drops_aborts_the_session() {
    let (hand, sender) = with_room();
    let permit = sender.try_reserve_owned(3).unwrap();
    let result = catch_unwind(AssertUnwindSafe(move || {
        let _permit = permit;
        std::panic::resume_unwind(Box::new("a task panics"));
    }));
    assert!(result.is_err());
    assert_eq!(hand.mux.closed_blocking(), Err(Closed::Aborted));
}

/// A forgotten one keeps its channel open, and delays no other.
#[test]
fn an_owned_permit_that_is_forgotten_keeps_its_channel_alone() {
    let (mut hand, sender) = with_room();
    mem::forget(sender.try_reserve_owned(3).unwrap());
    drop(sender);
    let other = hand.mux.take_sender(Overlap).unwrap();
    other.try_send(b"y").unwrap();
    assert_eq!(hand.written(), frames("send 2 79"));
}
