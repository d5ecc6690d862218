//! Messages that are longer than all that the peer issued at once, and the longest message that a side states.
use crate::hand::{Call, Hand};
use crate::*;
use lcmux::Channel::{Data, Overlap};
use lcmux::{MuxFault, Needs, PleadPolicy, Refusal, SendError, TrySendError};
use std::io::{ErrorKind, Write};
use std::thread;
use std::time::Duration;

fn full(needs: Needs) -> Result<(), TrySendError> {
    Err(TrySendError::Full(needs))
}

fn beyond(more: u64, most: u64) -> Result<(), TrySendError> {
    full(Needs::MoreThanEverIssued { more, most })
}

fn refused(refusal: Refusal) -> SendError {
    SendError::Refused(refusal)
}

#[test]
fn a_message_longer_than_what_was_ever_issued_at_once_says_so() {
    let mut hand = Hand::started(narrow());
    let sender = hand.mux.take_sender(Data).unwrap();
    // Nothing is known of the ring before the first issue.
    assert_eq!(sender.try_send(&[0; 40]), full(Needs::Guarantees(40)));
    assert_eq!(sender.stats().most_held, 0);
    hand.feed(&greeted("issue 1 30"));
    assert_eq!(sender.try_send(&[0; 30]), Ok(()));
    assert_eq!((sender.held(), sender.stats().most_held), (0, 30));
    hand.written();
    assert_eq!(sender.try_send(&[0; 30]), full(Needs::Guarantees(30)));
    assert_eq!(sender.try_send(&[0; 31]), beyond(31, 30));

    // Guarantees of two issues count as one where the first ones were not used in between.
    hand.feed(&frames("issue 1 25"));
    assert_eq!(sender.try_send(&[0; 31]), beyond(6, 30));
    hand.feed(&frames("issue 1 10"));
    assert_eq!(sender.try_send(&[0; 36]), beyond(1, 35));
    assert_eq!(sender.try_send(&[0; 35]), Ok(()));
    assert_eq!(sender.stats().most_held, 35);
    assert_eq!(hand.mux.stats()[Overlap].most_held, 0);
}

/// The guarantees that permits own, and those that an absolve or a plead take, were issued, too.
#[test]
fn the_most_that_was_held_counts_what_is_set_aside_and_what_was_given_back() {
    let mut hand = Hand::started(with_slots(16));
    let sender = hand.mux.take_sender(Data).unwrap();
    hand.feed(&greeted("issue 1 20"));
    let permit = sender.try_reserve(15).unwrap();
    assert_eq!(sender.try_send(&[0; 20]), full(Needs::Guarantees(15)));
    assert_eq!(sender.try_send(&[0; 21]), beyond(16, 20));
    drop(permit);
    sender.absolve(20).unwrap();
    assert_eq!(sender.try_send(&[0; 20]), full(Needs::Guarantees(20)));
    hand.feed(&frames("issue 1 22, plead 1 3"));
    let stats = sender.stats();
    assert_eq!((sender.held(), stats.held, stats.most_held), (3, 3, 22));
    assert_eq!(sender.try_send(&[0; 22]), full(Needs::Guarantees(19)));
}

#[test]
fn what_was_issued_counts_whatever_the_policies_are_and_the_slots_are_free() {
    let mut config = narrow();
    config.plead = [PleadPolicy::ByCaller; CHANNELS];
    for config in [config, narrow()] {
        let mut hand = Hand::new(config); // whose issues take the slots
        let senders = ALL.map(|channel| hand.mux.take_sender(channel).unwrap());
        senders.iter().for_each(|it| it.limit(1000).unwrap());
        hand.feed(&room_on_all());
        for sender in &senders {
            assert_eq!(sender.stats().most_held, 64);
        }
    }
}

#[test]
fn a_call_that_waits_for_more_than_was_ever_issued_shows_in_the_statistics() {
    let mut hand = Hand::started(narrow());
    let sender = hand.mux.take_sender(Data).unwrap();
    let oversized = || sender.stats().oversized;
    let call = Call::waiting(sender.send(&[7; 40]));
    let second = Call::waiting(sender.send(&[7; 50]));
    assert_eq!(oversized(), None);
    hand.feed(&greeted("issue 1 39"));
    assert_eq!(oversized(), Some(40));
    hand.feed(&frames("issue 1 1"));
    assert_eq!(oversized(), None);
    assert_eq!(call.woken(), Ok(()));
    assert_eq!(oversized(), Some(50));
    drop(second);
    assert_eq!(oversized(), None);
    let stats = hand.mux.stats();
    assert_eq!((stats[Data].most_held, stats[Data].oversized), (40, None));
}

/// The next part of a stream waits for one guarantee.
#[test]
fn a_stream_is_never_oversized() {
    let mut hand = Hand::started(narrow());
    let mut writer = hand.mux.take_sender(Data).unwrap().into_writer();
    hand.feed(&greeted("issue 1 3"));
    assert_eq!(writer.write(&[7; 100]).unwrap(), 3);
    let call = Call::waiting(std::future::poll_fn(|cx| writer.poll_write(cx, &[7; 100])));
    assert_eq!(hand.mux.stats()[Data].oversized, None);
    drop(call);
}

/// Rings of 64 bytes, and a longest message of 60 on channel 1.
fn stated() -> Config {
    narrow().longest(Data, 60)
}

#[test]
fn a_message_longer_than_the_stated_one_is_refused_at_once() {
    let mut hand = Hand::started(stated());
    let sender = hand.mux.take_sender(Data).unwrap();
    let other = hand.mux.take_sender(Overlap).unwrap();
    let long = refused(Refusal::BodyTooLong);
    for _ in 0..2 {
        assert_eq!(sender.send_blocking(&[0; 61]), Err(long.clone()));
        assert_eq!(sender.try_reserve(61).unwrap_err(), long.clone().into());
        hand.feed(&room_on_all_once(&other));
    }
    assert_eq!(sender.try_send(&[0; 60]), Ok(()));
    assert_eq!(other.try_send(&[0; 61]), Ok(()));
}

/// The greeting with its issues the first time, and nothing later.
fn room_on_all_once(sender: &lcmux::Sender) -> Vec<u8> {
    match sender.held() {
        0 => room_on_all(),
        _ => Vec::new(),
    }
}

#[test]
fn a_ring_below_the_stated_message_fails_every_send_from_the_first_on() {
    let mut hand = Hand::started(stated());
    let sender = hand.mux.take_sender(Data).unwrap();
    let waiting = Call::waiting(sender.send(b"short"));
    let second = Call::waiting(sender.reserve(1));
    assert_eq!(sender.try_send(&[0; 60]), full(Needs::Guarantees(60)));
    hand.feed(&greeted("issue 1 59, issue 2 1"));
    let small = SendError::RingTooSmall {
        longest: 60,
        most: 59,
    };
    assert_eq!(waiting.woken(), Err(small.clone()));
    assert_eq!(second.woken().unwrap_err(), small.clone());
    assert_eq!(sender.send_blocking(b"x"), Err(small.clone()));
    assert_eq!(sender.try_send(b"x"), Err(small.into()));
    assert_eq!(hand.written(), []);
    assert_eq!(
        hand.mux.take_sender(Overlap).unwrap().try_send(b"x"),
        Ok(())
    );

    // A peer that issues more later heals it.
    hand.feed(&frames("issue 1 1"));
    assert_eq!(sender.try_send(&[0; 60]), Ok(()));
    hand.written();
    assert_eq!(sender.try_send(b"x"), full(Needs::Guarantees(1)));
}

#[test]
fn a_thread_that_waits_fails_when_the_ring_is_too_small() {
    let mut hand = Hand::started(stated());
    let sender = hand.mux.take_sender(Data).unwrap();
    let small = SendError::RingTooSmall {
        longest: 60,
        most: 4,
    };
    thread::scope(|scope| {
        let thread = scope.spawn(|| sender.send_blocking(b"hi"));
        while sender.stats().waited_for_guarantees == Duration::ZERO {
            thread::yield_now();
        }
        hand.feed(&greeted("issue 1 4"));
        assert_eq!(thread.join().unwrap(), Err(small));
    });
}

/// A stream sends messages of at most the stated length.
#[test]
fn a_writer_keeps_within_the_stated_message() {
    let mut hand = Hand::started(narrow().longest(Data, 10));
    let mut writer = hand.mux.take_sender(Data).unwrap().into_writer();
    hand.feed(&room_on_all());
    assert_eq!(writer.largest_message(), 10);
    writer.set_largest_message(11);
    assert_eq!(writer.write(&[7; 100]).unwrap(), 10);
    writer.set_largest_message(4);
    hand.written();
    assert_eq!(writer.write(&[7; 100]).unwrap(), 4);

    let mut hand = Hand::started(stated());
    let mut writer = hand.mux.take_sender(Data).unwrap().into_writer();
    hand.feed(&greeted("issue 1 4"));
    let error = writer.write(b"x").unwrap_err();
    assert_eq!(error.kind(), ErrorKind::BrokenPipe);
    let inner = error.get_ref().unwrap().downcast_ref();
    let small = SendError::RingTooSmall {
        longest: 60,
        most: 4,
    };
    assert_eq!(inner, Some(&small));
}

#[test]
fn a_stated_message_that_the_version_does_not_allow_is_refused() {
    for (version, most) in [(Version::One, 65_535), (Version::Two, 1_048_576)] {
        let made = |longest| {
            let config = narrow().version(version).longest(Overlap, longest);
            Mux::new(config).map(|_| ())
        };
        assert_eq!((made(1), made(most)), (Ok(()), Ok(())));
        for longest in [0, most + 1] {
            let fault = MuxFault::BadLongest {
                channel: Overlap,
                longest,
                most,
            };
            assert_eq!(made(longest), Err(fault));
        }
    }
}
