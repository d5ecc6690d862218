use crate::hand::{broken, Call, Count, Hand};
use crate::*;
use lcmux::Channel::Data;
use lcmux::{Closed, PollRead, Reader};
use std::future::poll_fn;
use std::io::{BufRead, ErrorKind, Read};
use std::sync::Arc;
use std::task::{Context, Poll, Waker};
use std::time::Duration;

/// A session that is started, and its reader on channel 1, after these frames.
fn started(frames: &[&[u8]]) -> (Hand, Reader) {
    let mut hand = Hand::started(rings(64));
    hand.feed(&[PREFACE, &frames.concat()].concat());
    let reader = hand.mux.take_receiver(Data).unwrap().into_reader();
    (hand, reader)
}

/// Reads at most this many bytes.
fn read(reader: &mut Reader, most: usize) -> io::Result<Vec<u8>> {
    let mut buffer = vec![0; most];
    let count = reader.read(&mut buffer)?;
    buffer.truncate(count);
    Ok(buffer)
}

/// Polls a read of at most 8 bytes once, with a waker that counts.
fn poll(reader: &mut Reader) -> (Poll<io::Result<Vec<u8>>>, Arc<Count>) {
    let count = Arc::new(Count::default());
    let waker = Waker::from(Arc::clone(&count));
    let mut buffer = [0; 8];
    let polled = reader.poll_read(&mut Context::from_waker(&waker), &mut buffer);
    let polled = polled.map_ok(|count| buffer[..count].to_vec());
    (polled, count)
}

fn ready(reader: &mut Reader) -> io::Result<Vec<u8>> {
    match poll(reader).0 {
        Poll::Ready(read) => read,
        Poll::Pending => panic!("the read is pending"),
    }
}

#[test]
fn reads_join_messages_and_split_them() {
    let (_hand, mut reader) = started(&[&send(b"hel"), &send(b"lo, "), &send(b"world"), FINISH]);
    let pieces = [2, 8, 4, 3, 64, 64, 64].map(|most| read(&mut reader, most).unwrap());
    assert_eq!(pieces, [&b"he"[..], b"l", b"lo, ", b"wor", b"ld", b"", b""]);
}

/// Its ring has as many free bytes as were issued, all the time.
#[test]
fn a_message_is_issued_again_once_all_its_bytes_are_read() {
    let (mut hand, mut reader) = started(&[&send(b"hello"), &send(b"you")]);
    assert_eq!(read(&mut reader, 4).unwrap(), b"hell");
    assert_eq!(hand.written(), []);
    assert_eq!(reader.fill_buf().unwrap(), b"o");
    assert_eq!(hand.written(), []);
    reader.consume(1);
    assert_eq!(hand.written(), issue(5));
    assert_eq!(reader.fill_buf().unwrap(), b"you");
    reader.consume(0);
    assert_eq!(reader.fill_buf().unwrap(), b"you");
    reader.consume(100);
    reader.consume(100);
    assert_eq!(hand.written(), issue(3));
    assert_eq!(reader.receiver().stats().messages_received, 2);
}

/// The ring is filled again and again, beyond its wrap point, while a message is read.
#[test]
fn a_message_stays_as_it_is_while_it_is_read() {
    let (mut hand, mut reader) = started(&[&send(&[0; 40])]);
    for round in 0..50 {
        assert_eq!(read(&mut reader, 7).unwrap(), [round; 7]);
        hand.feed(&send(&[round + 1; 24]));
        assert_eq!(read(&mut reader, 64).unwrap(), [round; 33]);
        assert_eq!(hand.written(), issue(40));
        assert_eq!(read(&mut reader, 64).unwrap(), [round + 1; 24]);
        hand.feed(&send(&[round + 1; 40]));
        assert_eq!(hand.written(), issue(24));
    }
}

#[test]
fn lines_and_delimiters_are_found_across_messages() {
    let (_hand, mut reader) = started(&[
        &send(b"one\ntw"),
        &send(b"o"),
        &send(b"\n"),
        &send(b"thr"),
        &send(b"ee"),
        FINISH,
    ]);
    let mut found = Vec::new();
    assert_eq!(reader.read_until(b'\n', &mut found).unwrap(), 4);
    assert_eq!(found, b"one\n");
    let lines: Vec<_> = reader.lines().map(Result::unwrap).collect();
    assert_eq!(lines, ["two", "three"]);
}

#[test]
fn a_read_of_no_bytes_does_not_wait() {
    let (_hand, mut reader) = started(&[]);
    assert_eq!(reader.read(&mut []).unwrap(), 0);
    let polled = Call::new(poll_fn(|cx| reader.poll_read(cx, &mut []))).poll();
    assert_eq!(polled.unwrap().unwrap(), 0);
}

#[test]
fn a_pending_read_is_woken_once_and_may_be_dropped() {
    let (mut hand, mut reader) = started(&[]);
    let (polled, count) = poll(&mut reader);
    assert!(polled.is_pending());
    drop(Call::waiting(poll_fn(|cx| {
        reader.poll_fill_buf(cx).map_ok(<[u8]>::len)
    })));
    let (polled, last) = poll(&mut reader);
    assert!(polled.is_pending());
    hand.feed(&send(b"hello"));
    assert_eq!((count.count(), last.count()), (0, 1));
    assert_eq!(ready(&mut reader).unwrap(), b"hello");
}

#[test]
fn a_poll_of_the_buffer_takes_nothing() {
    let (_hand, mut reader) = started(&[&send(b"hello"), FINISH]);
    for _ in 0..2 {
        let polled = poll_fn(|cx| reader.poll_fill_buf(cx).map_ok(<[u8]>::to_vec));
        assert_eq!(Call::new(polled).poll().unwrap().unwrap(), b"hello");
    }
    reader.consume(3);
    assert_eq!(ready(&mut reader).unwrap(), b"lo");
    assert_eq!(ready(&mut reader).unwrap(), b"");
}

#[test]
fn the_end_stays_the_end() {
    let (hand, mut reader) = started(&[&send(b"hi"), FINISH]);
    assert_eq!(read(&mut reader, 8).unwrap(), b"hi");
    assert_eq!(read(&mut reader, 8).unwrap(), b"");
    hand.mux.abort();
    assert_eq!(read(&mut reader, 8).unwrap(), b"");
    assert_eq!(ready(&mut reader).unwrap(), b"");
    assert_eq!(reader.fill_buf().unwrap(), b"");
}

/// The peer's stream ended, was reset, or is broken.
struct Reset;

impl PollRead for Reset {
    fn poll_read(&mut self, _: &mut Context<'_>, _: &mut [u8]) -> Poll<io::Result<usize>> {
        Poll::Ready(Err(ErrorKind::ConnectionReset.into()))
    }
}

#[test]
fn a_failed_session_is_an_error_after_all_bytes_that_arrived() {
    type End = fn(&mut Hand);
    let ends: [(End, ErrorKind, Closed); 4] = [
        (
            |hand| assert!(hand.read(&mut &[][..]).is_ready()),
            ErrorKind::UnexpectedEof,
            Closed::Cut,
        ),
        (
            |hand| assert!(hand.read(&mut &b"\xff"[..]).is_ready()),
            ErrorKind::InvalidData,
            broken(&[PREFACE, &send(b"hel"), &send(b"lo"), b"\xff"].concat()),
        ),
        (
            |hand| assert!(hand.read(&mut &send(&[0; 65])[..]).is_ready()),
            ErrorKind::InvalidData,
            broken(&[PREFACE, &send(b"hel"), &send(b"lo"), &send(&[0; 65])].concat()),
        ),
        (
            |hand| assert!(hand.read(&mut Reset).is_ready()),
            ErrorKind::ConnectionReset,
            io::Error::from(ErrorKind::ConnectionReset).into(),
        ),
    ];
    for (end, kind, closed) in ends {
        let (mut hand, mut reader) = started(&[&send(b"hel"), &send(b"lo")]);
        assert_eq!(read(&mut reader, 1).unwrap(), b"h");
        end(&mut hand);
        assert_eq!(read(&mut reader, 8).unwrap(), b"el");
        assert_eq!(read(&mut reader, 8).unwrap(), b"lo");
        let mut all = Vec::new();
        let errors = [
            read(&mut reader, 8).unwrap_err(),
            ready(&mut reader).unwrap_err(),
            reader.fill_buf().unwrap_err(),
            reader.read_to_end(&mut all).unwrap_err(),
        ];
        for error in errors {
            assert_eq!(error.kind(), kind);
            assert_eq!(inner(&error), Some(closed.clone()));
        }
    }
}

#[test]
fn an_abort_leaves_the_message_that_was_begun() {
    let (hand, mut reader) = started(&[&send(b"hello"), &send(b"lost"), FINISH]);
    assert_eq!(read(&mut reader, 1).unwrap(), b"h");
    hand.mux.abort();
    assert_eq!(read(&mut reader, 8).unwrap(), b"ello");
    for _ in 0..2 {
        let error = read(&mut reader, 8).unwrap_err();
        assert_eq!(error.kind(), ErrorKind::ConnectionAborted);
        assert_eq!(inner(&error), Some(Closed::Aborted));
    }
}

/// A reader that waits is woken by the end of the session.
#[test]
fn a_session_that_ends_wakes_a_read() {
    let (hand, mut reader) = started(&[]);
    let (polled, count) = poll(&mut reader);
    assert!(polled.is_pending());
    hand.mux.abort();
    assert_eq!(count.count(), 1);
    assert!(ready(&mut reader).is_err());
}

#[test]
fn the_parts_of_a_reader_are_the_rest_and_the_next_messages() {
    let (mut hand, mut reader) = started(&[&send(b"hello"), &send(b"you")]);
    assert_eq!(read(&mut reader, 2).unwrap(), b"he");
    let (mut receiver, rest) = reader.into_parts();
    assert_eq!(rest, b"llo");
    assert_eq!(hand.written(), issue(5));
    assert_eq!(receiver.try_recv(), Ok(Some(b"you".to_vec())));
    let (mut receiver, rest) = receiver.into_reader().into_parts();
    assert_eq!(rest, b"");
    hand.feed(&send(b"more"));
    assert_eq!(receiver.try_recv(), Ok(Some(b"more".to_vec())));
}

#[test]
fn a_reader_that_is_dropped_within_a_message_ends_its_channel_alone() {
    let (mut hand, mut reader) = started(&[&send(b"hello")]);
    assert_eq!(read(&mut reader, 2).unwrap(), b"he");
    drop(reader);
    assert_eq!(hand.written(), NO_MORE);
    let mut other = hand.mux.take_receiver(lcmux::Channel::Overlap).unwrap();
    hand.feed(&[&frame(1, 2, 2)[..], b"hi"].concat());
    assert_eq!(other.try_recv(), Ok(Some(b"hi".to_vec())));
}

#[test]
fn a_read_times_out_and_reads_nothing() {
    let (mut hand, mut reader) = started(&[]);
    reader.set_timeout(Some(Duration::from_millis(1)));
    for _ in 0..2 {
        let error = reader.fill_buf().unwrap_err();
        assert_eq!(error.kind(), ErrorKind::TimedOut);
        assert_eq!(inner::<Closed>(&error), None);
    }
    hand.feed(&send(b"hello"));
    assert_eq!(read(&mut reader, 8).unwrap(), b"hello");
}

#[test]
fn polls_that_are_always_ready_yield_now_and_then() {
    let (mut hand, mut reader) = started(&[&send(&[7; 64])]);
    let mut row = 0;
    for _ in 0..50 {
        for _ in 0..8 {
            let (polled, count) = poll(&mut reader);
            row += 1;
            if polled.is_pending() {
                assert_eq!((count.count(), row), (1, 129));
                assert_eq!(ready(&mut reader).unwrap(), [7; 8]);
                row = 1;
            }
        }
        assert_eq!(hand.written(), issue(64));
        hand.feed(&send(&[7; 64]));
    }
    assert!(row < 129);
}
