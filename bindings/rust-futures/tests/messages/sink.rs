//! Senders as sinks.
use crate::hand::{Call, Hand};
use crate::*;
use futures_util::{Sink, SinkExt};
use lcmux_futures::lcmux::Channel::Data;
use lcmux_futures::lcmux::{Closed, Refusal, SendError, Sender};
use lcmux_futures::SenderSink;
use std::panic::{catch_unwind, AssertUnwindSafe};
use std::pin::Pin;
use std::task::{Context, Poll};

type Body = &'static [u8];

/// A session without guarantees, its sink of channel 1, and a clone of the sender.
fn sink() -> (Hand, SenderSink<Body>, Sender) {
    let mut hand = started(16);
    let sender = hand.mux.take_sender(Data).unwrap();
    (hand, SenderSink::new(sender.clone()), sender)
}

type Sent = Result<(), SendError>;

fn ready(sink: &mut SenderSink<Body>) -> Option<Sent> {
    Call::new(std::future::poll_fn(|cx| sink.poll_ready_unpin(cx))).poll()
}

fn flush(sink: &mut SenderSink<Body>) -> Option<Sent> {
    Call::new(sink.flush()).poll()
}

fn close(sink: &mut SenderSink<Body>) -> Option<Sent> {
    Call::new(sink.close()).poll()
}

fn refused(refusal: Refusal) -> Sent {
    Err(refusal.into())
}

#[test]
fn a_message_is_buffered_until_a_flush() {
    let (mut hand, mut sink, sender) = sink();
    hand.feed(&issue(64));
    assert_eq!(ready(&mut sink), Some(Ok(())));
    assert_eq!(sink.start_send_unpin(b"hi"), Ok(()));
    assert_eq!((hand.written(), sender.held()), (vec![], 64));
    assert_eq!(flush(&mut sink), Some(Ok(())));
    assert_eq!((hand.written(), sender.held()), (send(b"hi"), 62));
    assert_eq!(flush(&mut sink), Some(Ok(())));
    assert_eq!(hand.written(), [], "it was sent once");
}

/// The backpressure: the sink is ready once the message before was sent.
#[test]
fn a_sink_is_ready_once_the_message_before_was_sent() {
    let (mut hand, mut sink, _sender) = sink();
    assert_eq!(ready(&mut sink), Some(Ok(())));
    assert_eq!(ready(&mut sink), Some(Ok(())));
    sink.start_send_unpin(b"hello").unwrap();
    let mut feed = Call::waiting(sink.feed(b"x"));
    hand.feed(&issue(4));
    assert_eq!((feed.wakes(), feed.poll()), (0, None));
    hand.feed(&issue(1));
    assert_eq!(feed.woken(), Ok(()));
    assert_eq!(hand.written(), send(b"hello"));
    let call = Call::waiting(sink.flush());
    hand.feed(&issue(1));
    assert_eq!(call.woken(), Ok(()));
    assert_eq!(hand.written(), send(b"x"));
}

#[test]
fn the_last_waker_alone_is_woken() {
    let (mut hand, mut sink, _sender) = sink();
    let wakers = [counted(), counted(), counted(), counted()];
    sink.start_send_unpin(b"hi").unwrap();
    for (number, (_, waker)) in wakers.iter().enumerate() {
        let (sink, cx) = (Pin::new(&mut sink), &mut Context::from_waker(waker));
        let polled = match number % 3 {
            0 => sink.poll_ready(cx),
            1 => sink.poll_flush(cx),
            _ => sink.poll_close(cx),
        };
        assert_eq!(polled, Poll::Pending);
    }
    hand.feed(&issue(2));
    let wakes = wakers.map(|(count, _)| count.count());
    assert_eq!(wakes, [0, 0, 0, 1]);
    assert_eq!(close(&mut sink), Some(Ok(())));
}

/// The buffered message precedes the end of the channel, and the other direction stays open.
#[test]
fn a_close_flushes_and_finishes_this_direction_alone() {
    let (mut hand, mut sink, sender) = sink();
    let mut receiver = hand.mux.take_receiver(Data).unwrap();
    drop(sender);
    sink.start_send_unpin(b"last").unwrap();
    let call = Call::waiting(sink.close());
    assert_eq!(hand.written(), []);
    hand.feed(&issue(4));
    assert_eq!(call.woken(), Ok(()));
    assert_eq!(hand.written(), [send(b"last"), FINISH.to_vec()].concat());
    hand.feed(&send(b"back"));
    assert_eq!(receiver.try_recv(), Ok(Some(b"back".to_vec())));
    assert_eq!(hand.written(), issue(4));
}

#[test]
fn a_close_leaves_the_channel_to_other_clones() {
    let (mut hand, mut sink, sender) = sink();
    hand.feed(&issue(64));
    assert_eq!(close(&mut sink), Some(Ok(())));
    assert!(sink.get_ref().is_none());
    sender.try_send(b"more").unwrap();
    assert_eq!(hand.written(), send(b"more"));
    drop(sender);
    assert_eq!(hand.written(), FINISH);
}

#[test]
fn a_closed_sink_refuses_messages_alone() {
    let (_hand, mut sink, _sender) = sink();
    for _ in 0..2 {
        assert_eq!(close(&mut sink), Some(Ok(())));
        let finished = refused(Refusal::ChannelFinished);
        assert_eq!(ready(&mut sink), Some(finished.clone()));
        assert_eq!(sink.start_send_unpin(b"x"), finished);
        assert_eq!(flush(&mut sink), Some(Ok(())));
        assert_eq!(sink.take(), None);
    }
    assert!(sink.into_inner().is_none());
}

/// The future of a send is dropped before it gave its message to the sink, and after.
#[test]
fn a_send_that_is_dropped_in_the_middle_leaves_its_message_or_nothing() {
    let (mut hand, mut sink, sender) = sink();
    drop(Call::new(sink.send(b"never")));
    assert_eq!(flush(&mut sink), Some(Ok(())));
    drop(Call::waiting(sink.send(b"first")));
    drop(Call::waiting(sink.send(b"not yet")));
    let other = Call::waiting(sender.send(b"second"));
    hand.feed(&issue(64));
    assert_eq!(other.wakes(), 0, "the buffered message keeps its place");
    let mut third = Call::new(sink.send(b"third"));
    assert_eq!(third.poll(), None);
    assert_eq!(other.woken(), Ok(()));
    assert_eq!((third.wakes(), third.poll()), (1, Some(Ok(()))));
    let written = [send(b"first"), send(b"second"), send(b"third")].concat();
    assert_eq!(hand.written(), written);
}

#[test]
fn a_message_that_is_taken_back_is_not_sent_and_delays_no_other() {
    let (mut hand, mut sink, sender) = sink();
    assert_eq!(sink.take(), None);
    drop(Call::waiting(sink.send(b"hello")));
    let other = Call::waiting(sender.send(b"hi"));
    hand.feed(&issue(2));
    assert_eq!(sink.take(), Some(&b"hello"[..]));
    assert_eq!(other.woken(), Ok(()));
    assert_eq!(flush(&mut sink), Some(Ok(())));
    assert_eq!(hand.written(), send(b"hi"));
    assert_eq!(sink.take(), None);
}

/// Dropped or taken apart: a buffered message is not sent, and its place goes to the next call.
#[test]
fn a_sink_that_is_given_up_drops_its_message() {
    for is_kept in [false, true] {
        let (mut hand, mut sink, sender) = sink();
        assert_eq!(Call::new(sink.send(b"hello")).poll(), None);
        let other = Call::waiting(sender.send(b"hi"));
        hand.feed(&issue(2));
        assert_eq!(other.wakes(), 0);
        let kept = match is_kept {
            true => sink.into_inner(),
            false => {
                drop(sink);
                None
            }
        };
        assert_eq!(other.woken(), Ok(()));
        assert_eq!(hand.written(), send(b"hi"));
        drop(sender);
        let end = if is_kept { &[][..] } else { FINISH };
        assert_eq!(hand.written(), end);
        assert_eq!(kept.is_some(), is_kept);
        drop(kept);
    }
}

/// A refused message is dropped, and the sink goes on.
#[test]
fn a_refusal_is_that_of_its_message() {
    let (mut hand, mut sink, _sender) = sink();
    hand.feed(&issue(64));
    assert_eq!(
        Call::new(sink.send(b"")).poll(),
        Some(refused(Refusal::EmptyBody))
    );
    assert_eq!(flush(&mut sink), Some(Ok(())));
    sink.start_send_unpin(b"").unwrap();
    assert_eq!(ready(&mut sink), Some(refused(Refusal::EmptyBody)));
    sink.start_send_unpin(b"").unwrap();
    assert_eq!(close(&mut sink), Some(refused(Refusal::EmptyBody)));
    assert_eq!(Call::new(sink.send(b"hi")).poll(), Some(Ok(())));
    assert_eq!(hand.written(), send(b"hi"));
}

#[test]
fn a_sink_that_waits_learns_that_the_session_is_closed() {
    let (hand, mut sink, _sender) = sink();
    let call = Call::waiting(sink.send(b"hello"));
    hand.mux.close();
    let closed = Err(SendError::Closed(Closed::Local));
    assert_eq!(call.woken(), closed);
    assert_eq!(Call::new(sink.send(b"hello")).poll(), Some(closed));
}

#[test]
fn a_message_before_the_sink_is_ready_panics_and_loses_none() {
    let (mut hand, mut sink, _sender) = sink();
    sink.start_send_unpin(b"one").unwrap();
    let second = catch_unwind(AssertUnwindSafe(|| sink.start_send_unpin(b"two")));
    assert!(second.is_err());
    hand.feed(&issue(64));
    assert_eq!(flush(&mut sink), Some(Ok(())));
    assert_eq!(hand.written(), send(b"one"));
}

/// A message that is not `Unpin`, of a length that changes.
struct Growing(std::cell::Cell<usize>, std::marker::PhantomPinned);

impl AsRef<[u8]> for Growing {
    fn as_ref(&self) -> &[u8] {
        self.0.set(self.0.get() + 1);
        &b"grows"[..self.0.get()]
    }
}

#[test]
fn a_sink_is_one_of_any_bytes() {
    let (mut hand, mut slices, sender) = sink();
    hand.feed(&issue(12));
    let mut vectors = SenderSink::<Vec<u8>>::from(sender.clone());
    let mut strings = SenderSink::<String>::new(sender.clone());
    assert_eq!(Call::new(slices.send(b"slice")).poll(), Some(Ok(())));
    assert_eq!(
        Call::new(vectors.send(b"vec".to_vec())).poll(),
        Some(Ok(()))
    );
    assert_eq!(Call::new(strings.send("text".into())).poll(), Some(Ok(())));
    let written = [send(b"slice"), send(b"vec"), send(b"text")].concat();
    assert_eq!(hand.written(), written);
    let mut growing = SenderSink::new(sender);
    let grows = Growing(Default::default(), std::marker::PhantomPinned);
    let mut call = Call::waiting(growing.send(grows));
    hand.feed(&issue(64));
    assert_eq!(call.poll(), Some(Ok(())));
    assert_eq!(hand.written(), send(b"gr"));
}

#[test]
fn the_129th_message_in_a_row_yields_once() {
    let (mut hand, mut sink, _sender) = sink();
    hand.feed(&issue(200));
    for count in 1..=128 {
        assert_eq!(Call::new(sink.send(b"x")).poll(), Some(Ok(())), "{count}");
        hand.written();
    }
    let call = Call::waiting(sink.send(b"x"));
    assert_eq!(call.woken(), Ok(()));
    assert_eq!(hand.written(), send(b"x"));
}
