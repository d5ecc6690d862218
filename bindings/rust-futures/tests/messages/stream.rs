//! Receivers as streams.
use crate::hand::{Call, Hand};
use crate::*;
use futures_util::stream::FusedStream;
use futures_util::{Stream, StreamExt};
use lcmux_futures::lcmux::Channel::Data;
use lcmux_futures::lcmux::{Closed, TryRecvError};
use lcmux_futures::ReceiverStream;
use std::pin::Pin;
use std::task::{Context, Poll};

fn stream() -> (Hand, ReceiverStream) {
    let mut hand = started(16);
    let receiver = hand.mux.take_receiver(Data).unwrap();
    (hand, ReceiverStream::new(receiver))
}

type Item = Result<Vec<u8>, Closed>;

fn next(stream: &mut ReceiverStream) -> Option<Option<Item>> {
    Call::new(stream.next()).poll()
}

fn message(body: &[u8]) -> Option<Option<Item>> {
    Some(Some(Ok(body.to_vec())))
}

#[test]
fn a_stream_has_each_message_and_then_its_end() {
    let (mut hand, mut stream) = stream();
    assert_eq!(next(&mut stream), None);
    hand.feed(&[send(b"hi"), send(b"there")].concat());
    assert_eq!(next(&mut stream), message(b"hi"));
    assert_eq!(next(&mut stream), message(b"there"));
    assert_eq!(next(&mut stream), None);
    assert!(!stream.is_terminated());
    assert_eq!(stream.size_hint(), (0, None));
    let mut call = Call::waiting(stream.next());
    hand.feed(FINISH);
    assert_eq!((call.wakes(), call.poll()), (1, Some(None)));
    drop(call);
    for _ in 0..3 {
        assert!(stream.is_terminated());
        assert_eq!(stream.size_hint(), (0, Some(0)));
        assert_eq!(next(&mut stream), Some(None));
    }
}

/// A stream that is cut has an error where its end would be, once, behind the messages that arrived.
#[test]
fn a_failure_is_the_last_item() {
    let (mut hand, mut stream) = stream();
    hand.feed(&send(b"hi"));
    assert_eq!(hand.read(&mut &b""[..]), Poll::Ready(Err(Closed::Cut)));
    assert_eq!(next(&mut stream), message(b"hi"));
    assert!(!stream.is_terminated());
    assert_eq!(next(&mut stream), Some(Some(Err(Closed::Cut))));
    assert!(stream.is_terminated());
    assert_eq!(next(&mut stream), Some(None));
    assert_eq!(
        stream.get_mut().try_recv(),
        Err(TryRecvError::Closed(Closed::Cut))
    );
}

#[test]
fn an_abort_wakes_a_stream_that_waits() {
    let (mut hand, mut stream) = stream();
    hand.feed(&send(b"hi"));
    assert_eq!(next(&mut stream), message(b"hi"));
    let call = Call::waiting(stream.next());
    hand.mux.abort();
    assert_eq!(call.woken(), Some(Err(Closed::Aborted)));
    assert_eq!(next(&mut stream), Some(None));
}

#[test]
fn the_last_waker_alone_is_woken() {
    let (mut hand, mut stream) = stream();
    let wakers = [counted(), counted(), counted()];
    for (_, waker) in &wakers {
        let mut cx = Context::from_waker(waker);
        assert!(Pin::new(&mut stream).poll_next(&mut cx).is_pending());
    }
    hand.feed(&send(b"hi"));
    let wakes = wakers.map(|(count, _)| count.count());
    assert_eq!(wakes, [0, 0, 1]);
    assert_eq!(next(&mut stream), message(b"hi"));
}

/// The messages stay in the ring buffer, and no guarantee is issued for them.
#[test]
fn a_stream_that_is_not_polled_takes_nothing() {
    let (mut hand, mut stream) = stream();
    drop(Call::waiting(stream.next()));
    hand.feed(&[send(b"hi"), send(b"there")].concat());
    assert_eq!(hand.written(), []);
    assert_eq!(stream.get_ref().book().buffered, 7);
    assert_eq!(next(&mut stream), message(b"hi"));
    assert_eq!(hand.written(), issue(2));
    let mut receiver = stream.into_inner();
    assert_eq!(receiver.try_recv(), Ok(Some(b"there".to_vec())));
}

#[test]
fn the_129th_message_in_a_row_yields_once() {
    let (mut hand, mut stream) = stream();
    for count in 1..=128 {
        hand.feed(&send(b"x"));
        assert_eq!(next(&mut stream), message(b"x"), "{count}");
        hand.written();
    }
    hand.feed(&send(b"x"));
    let call = Call::waiting(stream.next());
    assert_eq!(call.woken(), Some(Ok(b"x".to_vec())));
}
