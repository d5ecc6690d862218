//! Messages that are received as `Bytes`.
use crate::hand::{Call, Hand};
use crate::*;
use bytes::Bytes;
use futures_util::stream::FusedStream;
use futures_util::{Stream, StreamExt};
use lcmux_futures::lcmux::Channel::Data;
use lcmux_futures::lcmux::{Closed, Receiver, RecvTimeoutError, TryRecvError};
use lcmux_futures::{BytesStream, ReceiverExt, ReceiverStream};
use std::task::{Context, Poll};
use std::time::Duration;

fn receiver() -> (Hand, Receiver) {
    let mut hand = started(16);
    let receiver = hand.mux.take_receiver(Data).unwrap();
    (hand, receiver)
}

const NO_TIME: Duration = Duration::ZERO;

#[test]
fn each_way_of_receiving_has_one_for_bytes() {
    let (mut hand, mut receiver) = receiver();
    assert_eq!(receiver.try_recv_bytes(), Err(TryRecvError::Empty));
    let timeout = Err(RecvTimeoutError::Timeout);
    assert_eq!(receiver.recv_bytes_timeout(NO_TIME), timeout);
    drop(Call::waiting(receiver.recv_bytes()));
    let call = Call::waiting(receiver.recv_bytes());
    let messages = [b"one", b"two", b"six", b"ten", b"far"];
    hand.feed(&messages.map(|it| send(it)).concat());
    let message = |at: usize| Some(Bytes::from_static(messages[at]));
    assert_eq!(call.woken(), Ok(message(0)));
    assert_eq!(receiver.try_recv_bytes(), Ok(message(1)));
    assert_eq!(receiver.recv_bytes_timeout(NO_TIME), Ok(message(2)));
    assert_eq!(receiver.recv_bytes_blocking(), Ok(message(3)));
    let (_, waker) = counted();
    let mut cx = Context::from_waker(&waker);
    assert_eq!(
        receiver.poll_recv_bytes(&mut cx),
        Poll::Ready(Ok(message(4)))
    );
    assert!(receiver.poll_recv_bytes(&mut cx).is_pending());
    assert_eq!(hand.written(), [issue(3), issue(12)].concat());
    hand.feed(FINISH);
    assert_eq!(receiver.recv_bytes_blocking(), Ok(None));
    assert_eq!(receiver.try_recv_bytes(), Ok(None));
    assert_eq!(receiver.recv_bytes_timeout(NO_TIME), Ok(None));
    assert_eq!(Call::new(receiver.recv_bytes()).poll(), Some(Ok(None)));
}

#[test]
fn each_way_of_receiving_bytes_tells_why_the_session_failed() {
    let (hand, mut receiver) = receiver();
    hand.mux.abort();
    let aborted = Closed::Aborted;
    assert_eq!(receiver.recv_bytes_blocking(), Err(aborted.clone()));
    assert_eq!(receiver.try_recv_bytes(), Err(aborted.clone().into()));
    let timed = receiver.recv_bytes_timeout(NO_TIME);
    assert_eq!(timed, Err(aborted.clone().into()));
    assert_eq!(Call::new(receiver.recv_bytes()).poll(), Some(Err(aborted)));
}

#[test]
fn a_stream_of_bytes_has_each_message_and_then_its_end() {
    let (mut hand, receiver) = receiver();
    let mut stream = BytesStream::from(ReceiverStream::new(receiver));
    let call = Call::waiting(stream.next());
    hand.feed(&[send(b"hi"), send(b"there")].concat());
    assert_eq!(call.woken(), Some(Ok(Bytes::from_static(b"hi"))));
    assert_eq!(stream.get_ref().book().buffered, 5);
    let next = Call::new(stream.next()).poll();
    assert_eq!(next, Some(Some(Ok(Bytes::from_static(b"there")))));
    assert_eq!(
        (stream.size_hint(), stream.is_terminated()),
        ((0, None), false)
    );
    hand.feed(FINISH);
    assert_eq!(Call::new(stream.next()).poll(), Some(None));
    assert_eq!(
        (stream.size_hint(), stream.is_terminated()),
        ((0, Some(0)), true)
    );
    assert_eq!(stream.get_mut().try_recv(), Ok(None));
    assert_eq!(stream.into_inner().channel(), Data);
}

#[test]
fn a_failure_is_the_last_item_of_a_stream_of_bytes() {
    let (mut hand, receiver) = receiver();
    let mut stream = BytesStream::new(receiver);
    assert_eq!(hand.read(&mut &b""[..]), Poll::Ready(Err(Closed::Cut)));
    assert_eq!(
        Call::new(stream.next()).poll(),
        Some(Some(Err(Closed::Cut)))
    );
    assert_eq!(Call::new(stream.next()).poll(), Some(None));
}
