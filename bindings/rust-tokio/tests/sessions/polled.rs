//! Senders that are polled, permits that move to other tasks, and borrowed messages, in tasks.
use crate::*;
use lcmux_tokio::lcmux::Channel::Data;
use lcmux_tokio::lcmux::{OwnedPermit, PollSender, Receiver, SendError};
use std::future::{poll_fn, ready};
use std::task::Poll;
use tokio::io::{AsyncReadExt, AsyncWriteExt};
use tokio::sync::mpsc;
use tokio::task::yield_now;

/// Message k, of 1 to 16 bytes.
fn message(number: u8) -> Vec<u8> {
    vec![number; 1 + usize::from(number) % 16]
}

/// Receives all messages by a poll function that is dropped while it waits, again and again.
async fn all(mut receiver: Receiver) -> Vec<Vec<u8>> {
    let mut received = Vec::new();
    loop {
        let next = poll_fn(|cx| match receiver.poll_recv_ref(cx) {
            Poll::Ready(Ok(borrowed)) => Poll::Ready(Ok(borrowed.map(|it| it.to_vec()))),
            Poll::Ready(Err(closed)) => Poll::Ready(Err(closed)),
            Poll::Pending => Poll::Pending,
        });
        tokio::select! {
            biased;
            message = next => match message.unwrap() {
                Some(message) => received.push(message),
                None => return received,
            },
            () = yield_now() => {}
        }
    }
}

/// Each poll is by a future of its own, which is dropped while the call waits.
#[test]
fn a_select_loop_over_poll_functions_loses_no_message() {
    on_each("poll functions", || async {
        let mut sides = both(tokio::io::duplex(11), rings(16));
        let mut sender = PollSender::new(sides[0].0.take_sender(Data).unwrap());
        let received = tokio::spawn(all(sides[1].0.take_receiver(Data).unwrap()));
        let mut dropped = 0;
        for number in 0..100 {
            let message = message(number);
            loop {
                tokio::select! {
                    biased;
                    sent = poll_fn(|cx| sender.poll_send(cx, &message)) => break sent.unwrap(),
                    () = ready(()) => dropped += 1,
                }
                yield_now().await;
            }
        }
        drop(sender);
        assert!((0..100).map(message).eq(received.await.unwrap()));
        assert!(dropped > 0);
        close(sides).await;
    });
}

/// A task keeps its place although its future is dropped: no clone overtakes it.
#[test]
fn a_polled_call_precedes_the_later_calls_of_clones() {
    on_each("a polled call", || async {
        let (mut mux, _run, mut there) = by_hand(rings(64), 1 << 16);
        let mut sender = PollSender::new(mux.take_sender(Data).unwrap());
        let clone = sender.get_ref().clone();
        tokio::select! {
            biased;
            sent = poll_fn(|cx| sender.poll_send(cx, b"first")) => panic!("{sent:?}"),
            () = yield_now() => {}
        }
        let second = tokio::spawn(async move { clone.send(b"second").await });
        yield_now().await;
        let bytes = [&GREETING[..], &issue(64)].concat();
        there.write_all(&bytes).await.unwrap();
        poll_fn(|cx| sender.poll_send(cx, b"first")).await.unwrap();
        second.await.unwrap().unwrap();
        let mut written = vec![0; first_bytes().len() + 5 + 5 + 5 + 6];
        there.read_exact(&mut written).await.unwrap();
        let messages = b"\x11\0\0\0\x05first\x11\0\0\0\x06second";
        assert_eq!(written, [&first_bytes()[..], messages].concat());
    });
}

/// A call that is given up is cancelled, and leaves its guarantees to the next.
#[test]
fn a_polled_call_that_is_dropped_delays_no_other() {
    on_each("a polled call that is dropped", || async {
        let mut sides = both(tokio::io::duplex(11), rings(16));
        let sender = sides[0].0.take_sender(Data).unwrap();
        let mut receiver = sides[1].0.take_receiver(Data).unwrap();
        for number in 0..10 {
            let mut polled = PollSender::new(sender.clone());
            tokio::select! {
                biased;
                sent = poll_fn(|cx| polled.poll_send(cx, &[0; 17])) => panic!("{sent:?}"),
                () = yield_now() => {}
            }
            let clone = sender.clone();
            let next = tokio::spawn(async move { clone.send(&message(number)).await });
            yield_now().await;
            match number % 2 {
                0 => drop(polled),
                _ => assert!(polled.cancel()),
            }
            assert_eq!(next.await.unwrap(), Ok(()));
            assert_eq!(receiver.recv().await, Ok(Some(message(number))));
        }
        drop(sender);
        close(sides).await;
    });
}

/// One task reserves, and another makes the messages: the permits pass through a queue.
#[test]
fn permits_move_to_the_task_that_sends() {
    on_each("owned permits", || async {
        let mut sides = both(tokio::io::duplex(11), rings(16));
        let sender = sides[0].0.take_sender(Data).unwrap();
        let received = tokio::spawn(all(sides[1].0.take_receiver(Data).unwrap()));
        let (permits, mut queue) = mpsc::channel::<OwnedPermit>(1);
        let reserving = tokio::spawn(async move {
            for _ in 0..100 {
                let permit = sender.reserve_owned(16).await.unwrap();
                permits.send(permit).await.unwrap();
            }
        });
        for number in 0..100 {
            let permit = queue.recv().await.unwrap();
            assert_eq!(permit.len(), 16);
            permit.send(&message(number)).unwrap();
        }
        reserving.await.unwrap();
        assert!((0..100).map(message).eq(received.await.unwrap()));
        close(sides).await;
    });
}

/// The last permit ends the channel, long after its sender was dropped.
#[test]
fn a_permit_that_outlives_its_sender_keeps_the_channel_open() {
    on_each("a permit that outlives its sender", || async {
        let mut sides = both(tokio::io::duplex(11), rings(16));
        let sender = sides[0].0.take_sender(Data).unwrap();
        let mut receiver = sides[1].0.take_receiver(Data).unwrap();
        let permit = sender.reserve_owned(4).await.unwrap();
        let unused = sender.reserve_owned(4).await.unwrap();
        sender.send(b"first").await.unwrap();
        drop(sender);
        assert_eq!(receiver.recv().await, Ok(Some(b"first".to_vec())));
        tokio::select! {
            end = receiver.recv() => panic!("{end:?}"),
            () = async { for _ in 0..100 { yield_now().await } } => {}
        }
        let task = tokio::spawn(async move { permit.send(b"last") });
        assert_eq!(task.await.unwrap(), Ok(()));
        assert_eq!(receiver.recv().await, Ok(Some(b"last".to_vec())));
        let aborted = tokio::spawn(async move {
            let _unused = unused;
            std::future::pending::<()>().await;
        });
        yield_now().await;
        aborted.abort();
        assert_eq!(receiver.recv().await, Ok(None));
        close(sides).await;
    });
}

#[test]
fn a_permit_of_a_closed_session_is_refused() {
    on_each("a permit and a close", || async {
        let mut sides = both(tokio::io::duplex(11), rings(16));
        let sender = sides[0].0.take_sender(Data).unwrap();
        let permit = sender.reserve_owned(4).await.unwrap();
        let waiting = tokio::spawn(async move { sender.reserve_owned(16).await.err() });
        yield_now().await;
        sides[0].0.close();
        let closed = SendError::Closed(Closed::Local);
        assert_eq!(waiting.await.unwrap(), Some(closed.clone()));
        assert_eq!(permit.send(b"late"), Err(closed));
        close(sides).await;
    });
}
