//! The text of each error, its source, and the reason in it.
use crate::*;
use lcmux::Channel::Overlap;
use lcmux::{CallError, Closed, MuxFault, Needs, PeerFault, RecvTimeoutError, Refusal, SendError};
use lcmux::{SendTimeoutError, TryRecvError, TrySendError};
use std::error::Error;
use std::io::{self, Read, Write};

#[test]
fn each_error_says_its_sentence() {
    let refused = || SendError::Refused(Refusal::NoGuarantee { held: 6 });
    let closed = Closed::Aborted;
    let errors: [(Box<dyn Error>, &str); 22] = [
        (Box::new(Closed::Local), "the session is closed"),
        (Box::new(closed.clone()), "the session was aborted"),
        (
            Box::new(CallError::Refused(Refusal::ZeroAmount)),
            "the amount is zero",
        ),
        (
            Box::new(CallError::Closed(closed.clone())),
            "the session was aborted",
        ),
        (
            Box::new(refused()),
            "the message is longer than the guarantees that are held (held 6)",
        ),
        (
            Box::new(SendError::Unwanted { held: 6, left: 7 }),
            "the message is longer than the guarantees that are held and those that the peer may still issue (held 6, left 7)",
        ),
        (
            Box::new(SendError::Closed(closed.clone())),
            "the session was aborted",
        ),
        (
            Box::new(TrySendError::Full(Needs::Guarantees(6))),
            "the message needs 6 more guarantees",
        ),
        (
            Box::new(TrySendError::Full(Needs::MoreThanEverIssued {
                more: 6,
                most: 64,
            })),
            "the message needs 6 more guarantees, and is longer than the 64 that were ever held at once",
        ),
        (
            Box::new(SendError::RingTooSmall {
                longest: 9,
                most: 8,
            }),
            "the peer issued at most 8 guarantees at once, and the longest message of the channel has 9 bytes",
        ),
        (
            Box::new(MuxFault::BadLongest {
                channel: Overlap,
                longest: 0,
                most: 65_535,
            }),
            "the longest message of Overlap must have 1..=65535 bytes, got 0",
        ),
        (
            Box::new(TrySendError::Full(Needs::Slot)),
            "the message has to wait for a slot in the outbound queue",
        ),
        (
            Box::new(TrySendError::Failed(refused())),
            "the message is longer than the guarantees that are held (held 6)",
        ),
        (Box::new(SendTimeoutError::Timeout), "the send timed out"),
        (Box::new(TryRecvError::Empty), "no message is available"),
        (
            Box::new(TryRecvError::Closed(closed.clone())),
            "the session was aborted",
        ),
        (
            Box::new(RecvTimeoutError::Timeout),
            "the wait for a message timed out",
        ),
        (
            Box::new(RecvTimeoutError::Closed(closed)),
            "the session was aborted",
        ),
        (
            Box::new(MuxFault::BadMark {
                channel: Overlap,
                mark: 65,
                capacity: 64,
            }),
            "the low-water mark of Overlap must be in 1..=64, got 65",
        ),
        (
            Box::new(MuxFault::TooFewSlots { slots: 13 }),
            "slots must be in 14..=65536, got 13",
        ),
        (
            Box::new(MuxFault::Peer(PeerFault::BadSlots { slots: 0 })),
            "slots must be in 14..=65536, got 0",
        ),
        (
            Box::new(MuxFault::Peer(PeerFault::BadCapacity {
                channel: Overlap,
                capacity: 0,
            })),
            "the capacity of Overlap must be in 1..=16777216, got 0",
        ),
    ];
    for (error, said) in errors {
        assert_eq!(error.to_string(), said);
    }
}

#[test]
fn an_end_in_order_is_clean_and_no_other_is() {
    let stop = hand::broken(b"\xff");
    let failed = Closed::from(io::Error::from(io::ErrorKind::BrokenPipe));
    let all = [
        (Closed::Local, true),
        (Closed::Remote, true),
        (Closed::Cut, false),
        (Closed::Aborted, false),
        (stop, false),
        (failed, false),
    ];
    for (closed, is_clean) in all {
        assert_eq!(closed.is_clean(), is_clean, "{closed}");
    }
}

/// Of each error: the reason why the session ended, and the error of its transport.
#[test]
fn each_error_has_the_reason_and_its_source() {
    let failed = io::Error::new(io::ErrorKind::ConnectionReset, "a reset");
    let closed = Closed::from(failed);
    let refusal = Refusal::EmptyBody;
    let unwanted = SendError::Unwanted { held: 0, left: 0 };
    let small = SendError::RingTooSmall {
        longest: 2,
        most: 1,
    };
    let send = SendError::from(closed.clone());
    let some = [
        CallError::from(closed.clone()).closed().cloned(),
        send.closed().cloned(),
        TrySendError::from(send.clone()).closed().cloned(),
        SendTimeoutError::from(send.clone()).closed().cloned(),
        TryRecvError::from(closed.clone()).closed().cloned(),
        RecvTimeoutError::from(closed.clone()).closed().cloned(),
    ];
    assert!(some.iter().all(|it| it.as_ref() == Some(&closed)));
    assert_eq!(CallError::from(refusal).closed(), None);
    for error in [refusal.into(), unwanted, small] {
        assert_eq!(error.closed(), None);
        assert_eq!(SendTimeoutError::from(error).closed(), None);
    }
    assert_eq!(TrySendError::Full(Needs::Slot).closed(), None);
    assert_eq!(SendTimeoutError::Timeout.closed(), None);
    assert_eq!(TryRecvError::Empty.closed(), None);
    assert_eq!(RecvTimeoutError::Timeout.closed(), None);

    let errors: [Box<dyn Error>; 7] = [
        Box::new(closed.clone()),
        Box::new(CallError::from(closed.clone())),
        Box::new(send.clone()),
        Box::new(TrySendError::from(send.clone())),
        Box::new(SendTimeoutError::from(send)),
        Box::new(TryRecvError::from(closed.clone())),
        Box::new(RecvTimeoutError::from(closed.clone())),
    ];
    for error in errors {
        let source = error.source().expect("the transport failed");
        assert_eq!(source.to_string(), "a reset");
    }
    assert!(CallError::from(refusal).source().is_none());
    assert!(SendError::from(Closed::Cut).source().is_none());
}

#[test]
fn an_error_of_a_stream_has_the_reason() {
    let mut hand = hand::Hand::started(narrow());
    let mut reader = hand.mux.take_receiver(Overlap).unwrap().into_reader();
    let mut writer = hand.mux.take_sender(Overlap).unwrap().into_writer();
    reader.set_timeout(Some(std::time::Duration::ZERO));
    let late = reader.read(&mut [0]).unwrap_err();
    assert_eq!(Closed::of_io(&late), None);
    hand.mux.abort();
    for failed in [reader.read(&mut [0]), writer.write(b"x")] {
        assert_eq!(Closed::of_io(&failed.unwrap_err()), Some(&Closed::Aborted));
    }
    let other = io::Error::other(SendError::from(Refusal::EmptyBody));
    assert_eq!(Closed::of_io(&other), None);
    assert_eq!(Closed::of_io(&io::ErrorKind::BrokenPipe.into()), None);
}
