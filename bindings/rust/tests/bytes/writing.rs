use crate::hand::{Call, Count, Hand};
use crate::*;
use lcmux::Channel::{Data, Overlap};
use lcmux::{Closed, Mux, Refusal, SendError, Writer};
use std::future::poll_fn;
use std::io::{ErrorKind, IoSlice, Write};
use std::sync::Arc;
use std::task::{Context, Poll, Waker};
use std::time::Duration;

/// A session that is started, and its writer on channel 1 with this many guarantees.
fn started(guarantees: u32) -> (Hand, Writer) {
    let mut hand = Hand::started(rings(64));
    hand.feed(PREFACE);
    if guarantees > 0 {
        hand.feed(&issue(guarantees));
    }
    let writer = hand.mux.take_sender(Data).unwrap().into_writer();
    (hand, writer)
}

/// Polls a write once, with a waker that counts.
fn poll(writer: &mut Writer, bytes: &[u8]) -> (Poll<io::Result<usize>>, Arc<Count>) {
    let count = Arc::new(Count::default());
    let waker = Waker::from(Arc::clone(&count));
    let polled = writer.poll_write(&mut Context::from_waker(&waker), bytes);
    (polled, count)
}

/// Polls a write that is pending.
fn pending(writer: &mut Writer, bytes: &[u8]) -> Arc<Count> {
    let (polled, count) = poll(writer, bytes);
    assert!(polled.is_pending());
    count
}

/// Polls a write that is ready.
fn ready(writer: &mut Writer, bytes: &[u8]) -> io::Result<usize> {
    match poll(writer, bytes).0 {
        Poll::Ready(written) => written,
        Poll::Pending => panic!("the write is pending"),
    }
}

#[test]
fn a_write_sends_what_is_guaranteed_and_waits_for_one_guarantee() {
    let (mut hand, mut writer) = started(5);
    assert_eq!(writer.write(b"hello world").unwrap(), 5);
    assert_eq!(hand.written(), send(b"hello"));
    let count = pending(&mut writer, b" world");
    assert_eq!(hand.written(), []);
    hand.feed(&issue(1));
    assert_eq!(count.count(), 1);
    assert_eq!(ready(&mut writer, b" world").unwrap(), 1);
    assert_eq!(hand.written(), send(b" "));
    hand.feed(&issue(60));
    assert_eq!(count.count(), 1, "no write waits");
    assert_eq!(writer.write(b"world").unwrap(), 5);
    assert_eq!(hand.written(), send(b"world"));
}

#[test]
fn a_message_has_at_most_the_largest_length() {
    let (mut hand, mut writer) = started(100_000);
    assert_eq!(writer.largest_message(), 16_384);
    assert_eq!(writer.write(&[7; 20_000]).unwrap(), 16_384);
    assert_eq!(hand.written(), send(&[7; 16_384]));
    writer.set_largest_message(3);
    assert_eq!(writer.write(b"hello").unwrap(), 3);
    assert_eq!(hand.written(), send(b"hel"));
    for (asked, set) in [(0, 1), (1 << 20, 1 << 20), (usize::MAX, 1 << 20)] {
        writer.set_largest_message(asked);
        assert_eq!(writer.largest_message(), set);
    }
    let (mut mux, _driver) = Mux::new(Config::new([64; CHANNELS], 16)).unwrap();
    let mut writer = mux.take_sender(Data).unwrap().into_writer();
    writer.set_largest_message(usize::MAX);
    assert_eq!(writer.largest_message(), 65_535);
}

#[test]
fn a_message_of_the_longest_length_is_sent() {
    let (mut hand, mut writer) = started(1 << 21);
    writer.set_largest_message(1 << 20);
    assert_eq!(writer.write(&vec![7; 1 << 21]).unwrap(), 1 << 20);
    let mut written = Vec::new();
    while written.len() < 5 + (1 << 20) {
        written.extend(hand.written()); // the driver yields within so long a message
    }
    assert!(written == send(&vec![7; 1 << 20]));
}

#[test]
fn an_empty_write_sends_nothing_and_does_not_wait() {
    let (mut hand, mut writer) = started(0);
    assert_eq!(ready(&mut writer, b"").unwrap(), 0);
    assert_eq!(writer.write(b"").unwrap(), 0);
    assert_eq!(hand.written(), []);
}

#[test]
fn a_dropped_write_sent_nothing_and_the_next_offers_other_bytes() {
    let (mut hand, mut writer) = started(0);
    drop(Call::waiting(poll_fn(|cx| writer.poll_write(cx, b"one"))));
    hand.feed(&issue(64));
    assert_eq!(hand.written(), []);
    assert_eq!(ready(&mut writer, b"two").unwrap(), 3);
    assert_eq!(ready(&mut writer, b"three").unwrap(), 5);
    assert_eq!(hand.written(), [send(b"two"), send(b"three")].concat());
}

/// A write that waits for the queue does not fill its last bytes with a short message, and is woken once.
#[test]
fn a_write_that_waits_for_bytes_of_the_queue_keeps_its_length() {
    let (mut hand, mut writer) = started(20_000);
    hand.feed(&frame(2, 2, 60_000));
    let overlap = hand.mux.take_sender(Overlap).unwrap();
    overlap.try_send(&[1; 60_000]).unwrap();
    let count = pending(&mut writer, &[2; 20_000]);
    assert_eq!(count.count(), 0);
    hand.written();
    assert_eq!(count.count(), 1);
    assert_eq!(ready(&mut writer, &[2; 20_000]).unwrap(), 16_384);
    assert_eq!(hand.written(), send(&[2; 16_384]));
}

/// The length of a write that waited for a guarantee grows with those that arrived, also if these bytes have to wait.
#[test]
fn a_write_that_waited_for_a_guarantee_waits_for_the_bytes_of_its_new_length() {
    let (mut hand, mut writer) = started(0);
    let count = pending(&mut writer, &[2; 20_000]);
    hand.feed(&frame(2, 2, 60_000));
    let overlap = hand.mux.take_sender(Overlap).unwrap();
    overlap.try_send(&[1; 60_000]).unwrap();
    hand.feed(&issue(20_000));
    assert_eq!(count.count(), 1);
    let count = pending(&mut writer, &[2; 20_000]);
    assert_eq!(
        count.count(),
        0,
        "it is not woken again before the queue is written"
    );
    hand.written();
    assert_eq!(count.count(), 1);
    assert_eq!(ready(&mut writer, &[2; 20_000]).unwrap(), 16_384);
}

/// The write was longer while the call before it waited.
#[test]
fn a_write_behind_another_call_proceeds_with_the_guarantees_that_are_left() {
    let (mut hand, mut writer) = started(10);
    let sender = writer.sender().clone();
    let mut other = Call::waiting(sender.send(&[1; 20]));
    let count = pending(&mut writer, &[2; 30]);
    hand.feed(&issue(12));
    assert_eq!(other.poll(), Some(Ok(())));
    assert_eq!(count.count(), 1);
    assert_eq!(ready(&mut writer, &[2; 30]).unwrap(), 2);
    assert_eq!(hand.written(), [send(&[1; 20]), send(&[2; 2])].concat());
}

#[test]
fn the_end_of_the_channel_does_not_wait_behind_a_pending_write() {
    for ends in 0..3 {
        let (mut hand, mut writer) = started(0);
        pending(&mut writer, b"lost");
        match ends {
            0 => writer.finish().unwrap(),
            1 => drop(writer),
            _ => drop(writer.into_sender()),
        }
        assert_eq!(hand.written(), FINISH);
    }
}

#[test]
fn a_writer_is_finished_more_than_once() {
    for version in [Version::One, Version::Two] {
        let mut config = Config::new([64; CHANNELS], 16);
        config.version = version;
        let mut hand = Hand::started(config);
        let mut writer = hand.mux.take_sender(Data).unwrap().into_writer();
        writer.finish().unwrap();
        let end = hand.written();
        assert!(matches!(end.len(), 1 | 9), "{end:?}");
        writer.finish().unwrap();
        assert!(poll_close(&mut writer).is_ok());
        let error = writer.write(b"late").unwrap_err();
        assert_eq!(error.kind(), ErrorKind::BrokenPipe);
        let refusal = match version {
            Version::One => Refusal::PastSendLimit { left: 0 },
            _ => Refusal::ChannelFinished,
        };
        assert_eq!(inner(&error), Some(SendError::Refused(refusal)));
        drop(writer);
        assert_eq!(hand.written(), []);
    }
}

fn poll_close(writer: &mut Writer) -> io::Result<()> {
    match Call::new(poll_fn(|cx| writer.poll_close(cx))).poll() {
        Some(closed) => closed,
        None => panic!("a close waits"),
    }
}

fn poll_flush(writer: &mut Writer) -> io::Result<()> {
    match Call::new(poll_fn(|cx| writer.poll_flush(cx))).poll() {
        Some(flushed) => flushed,
        None => panic!("a flush waits"),
    }
}

/// As a task may flush while it waits to write.
#[test]
fn a_flush_leaves_a_pending_write_waiting() {
    let (mut hand, mut writer) = started(0);
    let count = pending(&mut writer, b"hello");
    poll_flush(&mut writer).unwrap();
    writer.flush().unwrap();
    hand.feed(&issue(5));
    assert_eq!(count.count(), 1);
    assert_eq!(ready(&mut writer, b"hello").unwrap(), 5);
}

#[test]
fn a_limit_of_this_side_cuts_the_last_message() {
    let (mut hand, mut writer) = started(10);
    writer.sender().limit(3).unwrap();
    assert_eq!(writer.write(b"hello").unwrap(), 3);
    let error = writer.write(b"lo").unwrap_err();
    assert_eq!(error.kind(), ErrorKind::BrokenPipe);
    let refusal = Refusal::PastSendLimit { left: 0 };
    assert_eq!(inner(&error), Some(SendError::Refused(refusal)));
    assert!(hand.written().ends_with(&send(b"hel")));
}

/// The limit follows a call that waits, and the write, for which there are more guarantees than it allows, follows the
/// limit.
#[test]
fn a_limit_that_waits_cuts_the_last_message_too() {
    let (mut hand, mut writer) = started(5);
    let sender = writer.sender().clone();
    let mut other = Call::waiting(sender.send(&[1; 10]));
    sender.limit(2).unwrap();
    let count = pending(&mut writer, b"hello");
    hand.feed(&issue(64));
    assert_eq!(other.poll(), Some(Ok(())));
    assert_eq!(count.count(), 1);
    assert_eq!(ready(&mut writer, b"hello").unwrap(), 2);
    assert_eq!(
        writer.write(b"llo").unwrap_err().kind(),
        ErrorKind::BrokenPipe
    );
    assert!(hand.written().ends_with(&send(b"he")));
}

#[test]
fn a_dropped_receiver_of_the_peer_is_a_broken_pipe() {
    let (mut hand, mut writer) = started(2);
    hand.feed(&NO_MORE);
    assert_eq!(writer.write(b"hello").unwrap(), 2);
    let error = writer.write(b"llo").unwrap_err();
    assert_eq!(error.kind(), ErrorKind::BrokenPipe);
    let unwanted = SendError::Unwanted { held: 0, left: 0 };
    assert_eq!(inner(&error), Some(unwanted));
    assert!(poll_flush(&mut writer).is_ok(), "the session goes on");
}

#[test]
fn a_peer_that_closed_gets_what_is_guaranteed() {
    let (mut hand, mut writer) = started(2);
    hand.feed(FINISHES);
    assert!(hand.read(&mut &[][..]).is_ready());
    assert_eq!(writer.write(b"hello").unwrap(), 2);
    let error = writer.write(b"llo").unwrap_err();
    assert_eq!(error.kind(), ErrorKind::ConnectionAborted);
    assert_eq!(inner(&error), Some(Closed::Remote));
}

#[test]
fn a_failed_session_fails_writes_flushes_and_the_end() {
    type End = fn(&mut Hand);
    let ends: [(End, ErrorKind); 3] = [
        (
            |hand| assert!(hand.read(&mut &[][..]).is_ready()),
            ErrorKind::UnexpectedEof,
        ),
        (|hand| hand.mux.abort(), ErrorKind::ConnectionAborted),
        (
            |hand| assert!(hand.read(&mut &b"\xff"[..]).is_ready()),
            ErrorKind::InvalidData,
        ),
    ];
    for (end, kind) in ends {
        let (mut hand, mut writer) = started(0);
        let count = pending(&mut writer, b"hello");
        end(&mut hand);
        assert_eq!(count.count(), 1);
        let closed = hand.mux.closed_blocking().unwrap_err();
        let errors = [
            ready(&mut writer, b"hello").unwrap_err(),
            writer.write(b"hello").unwrap_err(),
            writer.flush().unwrap_err(),
            poll_flush(&mut writer).unwrap_err(),
            writer.finish().unwrap_err(),
            poll_close(&mut writer).unwrap_err(),
        ];
        for error in errors {
            assert_eq!(error.kind(), kind);
            assert_eq!(inner(&error), Some(closed.clone()));
        }
    }
}

/// The accepted bytes are written then, and the channel is finished.
#[test]
fn a_session_that_this_side_closed_fails_writes_alone() {
    let (mut hand, mut writer) = started(64);
    assert_eq!(writer.write(b"hello").unwrap(), 5);
    hand.mux.close();
    let error = writer.write(b"late").unwrap_err();
    assert_eq!(error.kind(), ErrorKind::ConnectionAborted);
    assert_eq!(inner(&error), Some(Closed::Local));
    for _ in 0..2 {
        writer.flush().unwrap();
        poll_flush(&mut writer).unwrap();
        writer.finish().unwrap();
        poll_close(&mut writer).unwrap();
        let mut bytes = Vec::new();
        assert!(hand.write(&mut bytes).is_ready());
    }
}

#[test]
fn a_write_times_out_and_leaves_the_wait_queue() {
    let (mut hand, mut writer) = started(0);
    writer.set_timeout(Some(Duration::from_millis(1)));
    for _ in 0..2 {
        let error = writer.write(b"hello").unwrap_err();
        assert_eq!(error.kind(), ErrorKind::TimedOut);
        assert_eq!(inner::<Closed>(&error), None);
    }
    hand.feed(&issue(8));
    assert_eq!(writer.sender().try_send(b"now"), Ok(()));
    assert_eq!(writer.write(b"hello").unwrap(), 5);
    assert_eq!(hand.written(), [send(b"now"), send(b"hello")].concat());
}

#[test]
fn slices_are_written_from_the_first_that_has_bytes() {
    let (mut hand, mut writer) = started(64);
    let slices = [
        IoSlice::new(b""),
        IoSlice::new(b"one"),
        IoSlice::new(b"two"),
    ];
    assert_eq!(writer.write_vectored(&slices).unwrap(), 3);
    assert_eq!(hand.written(), send(b"one"));
}

#[test]
fn polls_that_are_always_ready_yield_now_and_then() {
    let (mut hand, mut writer) = started(1_000);
    for _ in 0..2 {
        for _ in 0..128 {
            assert_eq!(ready(&mut writer, b".").unwrap(), 1);
            hand.written();
        }
        assert_eq!(pending(&mut writer, b".").count(), 1);
    }
}

/// What is written after a panic would look whole.
#[test]
fn a_writer_that_a_panic_drops_aborts_the_session() {
    let (hand, mut writer) = started(64);
    let panicked = std::thread::spawn(move || {
        writer.write_all(b"a part").unwrap();
        panic!("on purpose");
    });
    assert!(panicked.join().is_err());
    assert_eq!(hand.mux.closed_blocking(), Err(Closed::Aborted));
}
