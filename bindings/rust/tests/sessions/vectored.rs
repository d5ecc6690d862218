//! Messages in several slices.
use crate::hand::{Call, Hand};
use crate::*;
use lcmux::Channel::{Data, Overlap};
use lcmux::{Needs, Refusal, SendError, Sender, TrySendError};
use std::io::IoSlice;
use std::thread;
use std::time::Duration;

/// Version Two, with rings that a message of 100,000 bytes fits.
fn wide() -> Config {
    let mut config = Config::new([1 << 20; CHANNELS], Mux::LEAST_SLOTS);
    config.version = Version::Two;
    config
}

fn with_room(guarantees: u32) -> (Hand, Sender) {
    let mut hand = Hand::started(wide());
    hand.feed(&greeted(&format!(
        "issue 1 {guarantees}, issue 2 {guarantees}"
    )));
    let sender = hand.mux.take_sender(Data).unwrap();
    (hand, sender)
}

/// One message on channel 1.
fn message(body: &[u8]) -> Vec<u8> {
    [&[0x11], &(body.len() as u32).to_be_bytes()[..], body].concat()
}

fn slices<'a, const N: usize>(parts: [&'a [u8]; N]) -> [IoSlice<'a>; N] {
    parts.map(IoSlice::new)
}

fn refused(refusal: Refusal) -> SendError {
    SendError::Refused(refusal)
}

/// Bodies by their lengths, each with other bytes.
fn body(len: usize) -> Vec<u8> {
    (0..len).map(|at| (at % 251) as u8).collect()
}

#[test]
fn the_slices_of_a_message_are_one_message_in_their_order() {
    let (mut hand, sender) = with_room(9);
    let parts = slices([b"", b"he", b"l", b"", b"lo"]);
    sender.try_send_vectored(&parts).unwrap();
    assert_eq!((sender.held(), sender.stats().bytes_sent), (4, 5));
    assert_eq!(hand.written(), message(b"hello"));

    // A message of one slice, and a shorter one after a longer one.
    sender.try_send_vectored(&slices([b"abc"])).unwrap();
    assert_eq!(hand.written(), message(b"abc"));
    sender.try_send_vectored(&slices([b"", b"d"])).unwrap();
    assert_eq!(hand.written(), message(b"d"));
    assert_eq!(sender.stats().messages_sent, 3);
}

#[test]
fn a_send_of_slices_waits_for_the_guarantees_of_all() {
    let (mut hand, sender) = with_room(4);
    let parts = slices([b"he", b"llo"]);
    let call = Call::waiting(sender.send_vectored(&parts));
    hand.feed(&frames("issue 1 1"));
    assert_eq!(call.woken(), Ok(()));
    assert_eq!(hand.written(), message(b"hello"));
    assert_eq!(sender.held(), 0);
}

#[test]
fn slices_that_cannot_be_sent_now_say_what_they_need() {
    let (_hand, sender) = with_room(4);
    let full = TrySendError::Full(Needs::MoreThanEverIssued { more: 1, most: 4 });
    let parts = slices([b"he", b"llo"]);
    assert_eq!(sender.try_send_vectored(&parts), Err(full));
    assert_eq!(sender.try_send_vectored(&parts[..1]), Ok(()));
    let full = TrySendError::Full(Needs::Slot);
    assert_eq!(sender.try_send_vectored(&parts[..1]), Err(full));
}

#[test]
fn slices_without_a_byte_and_slices_that_are_too_long_together_are_refused() {
    let (mut hand, sender) = with_room(4);
    let empty = refused(Refusal::EmptyBody);
    for parts in [&slices([b"", b""])[..], &[]] {
        assert_eq!(sender.send_vectored_blocking(parts), Err(empty.clone()));
        let permit = sender.try_reserve(4).unwrap();
        assert_eq!(permit.send_vectored(parts), Err(empty.clone()));
    }
    let half = body(524_289);
    let long = Err(refused(Refusal::BodyTooLong));
    assert_eq!(sender.send_vectored_blocking(&slices([&half; 2])), long);
    assert_eq!((sender.held(), hand.written()), (4, vec![]));
}

/// Longer than what the session completes on behalf of a thread, and longer than what it keeps memory for.
#[test]
fn a_thread_sends_slices_of_any_lengths() {
    for len in [1, 4_093, 4_094, 70_000] {
        let (mut hand, sender) = with_room(1);
        let (head, body) = (body(3), body(len));
        let parts = slices([&head, &body]);
        thread::scope(|scope| {
            let thread = scope.spawn(|| sender.send_vectored_blocking(&parts));
            while sender.stats().waited_for_guarantees == Duration::ZERO {
                thread::yield_now();
            }
            hand.feed(&frames(&format!("issue 1 {}", len + 2)));
            let is_completed = sender.stats().messages_sent == 1;
            assert!(is_completed || len + 3 > 4_096, "{len}");
            assert_eq!(thread.join().unwrap(), Ok(()));
        });
        assert_eq!(hand.written(), message(&[head, body].concat()));
        assert_eq!(sender.held(), 0);
    }
}

#[test]
fn a_permit_sends_slices_and_returns_the_guarantees_that_they_leave() {
    let (mut hand, sender) = with_room(10);
    let parts = slices([b"he", b"llo"]);
    let permit = sender.try_reserve(10).unwrap();
    assert_eq!(permit.send_vectored(&parts), Ok(()));
    assert_eq!((sender.held(), hand.written()), (5, message(b"hello")));

    let permit = sender.try_reserve_owned(5).unwrap();
    assert_eq!(permit.send_vectored(&parts), Ok(()));
    assert_eq!((sender.held(), hand.written()), (0, message(b"hello")));
}

#[test]
fn slices_that_are_longer_than_their_permit_are_refused() {
    let (mut hand, _) = with_room(10);
    let sender = hand.mux.take_sender(Overlap).unwrap();
    let parts = slices([b"he", b"llo"]);
    let longer = Err(refused(Refusal::NoGuarantee { held: 4 }));
    let permit = sender.try_reserve(4).unwrap();
    assert_eq!(permit.send_vectored(&parts), longer);
    let permit = sender.try_reserve_owned(4).unwrap();
    assert_eq!(permit.send_vectored(&parts), longer);
    assert_eq!(sender.held(), 10);
    assert_eq!(sender.stats().messages_sent, 0);
}

/// Also one that was woken.
#[test]
fn a_send_of_slices_that_is_dropped_sends_nothing() {
    let (mut hand, sender) = with_room(4);
    let parts = slices([b"he", b"llo"]);
    let dropped = Call::waiting(sender.send_vectored(&parts));
    let next = Call::waiting(sender.send(b"x"));
    assert_eq!(next.wakes(), 0);
    drop(dropped);
    assert_eq!(next.woken(), Ok(()));
    assert_eq!(hand.written(), message(b"x"));

    let woken = Call::waiting(sender.send_vectored(&parts));
    hand.feed(&frames("issue 1 9"));
    assert_eq!(woken.wakes(), 1);
    drop(woken);
    assert_eq!((sender.held(), hand.written()), (12, vec![]));
    assert_eq!(sender.stats().messages_sent, 1);
}
