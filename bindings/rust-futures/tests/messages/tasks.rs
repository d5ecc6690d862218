//! Streams and sinks in tasks of tokio's runtimes.
use crate::watchdog::Watchdog;
use crate::*;
use futures_util::{stream, SinkExt, StreamExt, TryStreamExt};
use lcmux_futures::lcmux::Channel::{Data, Overlap};
use lcmux_futures::lcmux::{Closed, Mux, SendError};
use lcmux_futures::{ReceiverStream, SenderSink};
use lcmux_tokio::connect;
use std::future::{poll_fn, ready, Future};
use std::pin::pin;
use std::task::Poll;
use tokio::runtime::Builder;
use tokio::task::JoinHandle;

type Run = JoinHandle<Result<(), Closed>>;

/// Runs the test on one thread and on three, in a task of its own.
fn on_each<F>(what: &str, test: impl Fn() -> F)
where
    F: Future<Output = ()> + Send + 'static,
{
    for (name, mut builder) in [
        ("one", Builder::new_current_thread()),
        ("three", Builder::new_multi_thread()),
    ] {
        let _watchdog = Watchdog::new(format!("{what} on {name} thread(s)"));
        let runtime = builder.worker_threads(3).enable_all().build().unwrap();
        runtime.block_on(runtime.spawn(test())).unwrap();
    }
}

/// Two sessions over a narrow stream, with rings of 64 bytes.
fn sessions() -> [(Mux, Run); 2] {
    let (here, there) = tokio::io::duplex(11);
    [here, there].map(|stream| connect(stream, with_slots(16)).unwrap())
}

async fn close(sides: [(Mux, Run); 2]) {
    sides.iter().for_each(|(mux, _)| mux.close());
    for (_, run) in sides {
        assert_eq!(run.await.unwrap(), Ok(()));
    }
}

fn message(number: u8) -> Vec<u8> {
    vec![number; 1 + usize::from(number) % 64]
}

#[test]
fn messages_are_forwarded_in_their_order_and_then_the_end() {
    on_each("forward", || async {
        let [(mut alice, first), (mut bob, second)] = sessions();
        let sink = SenderSink::new(alice.take_sender(Data).unwrap());
        let sent = tokio::spawn(stream::iter((0..=255).map(message).map(Ok)).forward(sink));
        let received = ReceiverStream::new(bob.take_receiver(Data).unwrap());
        let back = SenderSink::new(bob.take_sender(Overlap).unwrap());
        let forwarded = tokio::spawn(received.map_err(SendError::from).forward(back));
        let back = ReceiverStream::new(alice.take_receiver(Overlap).unwrap());
        let received: Vec<_> = back.try_collect().await.unwrap();
        assert!((0..=255).map(message).eq(received));
        assert_eq!(sent.await.unwrap(), Ok(()));
        assert_eq!(forwarded.await.unwrap(), Ok(()));
        close([(alice, first), (bob, second)]).await;
    });
}

/// Each sink closes its own clone: the channel ends with the last one.
#[test]
fn several_sinks_of_one_channel_finish_it_together() {
    on_each("several sinks", || async {
        let [(mut alice, first), (mut bob, second)] = sessions();
        let sender = alice.take_sender(Data).unwrap();
        let tasks: Vec<_> = (0..4_u8)
            .map(|number| {
                let messages = stream::iter((0..50).map(move |_| Ok(vec![number; 20])));
                tokio::spawn(messages.forward(SenderSink::new(sender.clone())))
            })
            .collect();
        drop(sender);
        let mut counts = [0; 4];
        let mut received = ReceiverStream::new(bob.take_receiver(Data).unwrap());
        while let Some(message) = received.try_next().await.unwrap() {
            counts[usize::from(message[0])] += 1;
        }
        assert_eq!(counts, [50; 4]);
        for task in tasks {
            assert_eq!(task.await.unwrap(), Ok(()));
        }
        close([(alice, first), (bob, second)]).await;
    });
}

/// A loop in which each branch is dropped again and again while it waits, on both sides.
#[test]
fn a_select_loop_loses_no_message() {
    on_each("select", || async {
        let [(mut alice, first), (mut bob, second)] = sessions();
        let mut sink = SenderSink::new(alice.take_sender(Data).unwrap());
        let sending = tokio::spawn(async move {
            for number in 0..100 {
                // A message is given once, and its flush is dropped often.
                sink.feed(message(number)).await.unwrap();
                loop {
                    tokio::select! {
                        biased;
                        flushed = sink.flush() => break flushed.unwrap(),
                        () = tokio::task::yield_now() => {}
                    }
                }
            }
            sink.close().await.unwrap();
        });
        let mut stream = ReceiverStream::new(bob.take_receiver(Data).unwrap());
        let (mut received, mut dropped) = (Vec::new(), 0);
        loop {
            tokio::select! {
                biased;
                item = stream.next() => match item {
                    Some(message) => received.push(message.unwrap()),
                    None => break,
                },
                () = ready(()) => dropped += 1,
            }
            tokio::task::yield_now().await;
        }
        assert!((0..100).map(message).eq(received));
        assert!(dropped > 0);
        sending.await.unwrap();
        close([(alice, first), (bob, second)]).await;
    });
}

/// Polls a future until it was pending this many times, and then drops it: `None`.
async fn cut<F: Future>(future: F, waits: usize) -> Option<F::Output> {
    let (mut future, mut left) = (pin!(future), waits);
    poll_fn(|cx| match future.as_mut().poll(cx) {
        Poll::Ready(output) => Poll::Ready(Some(output)),
        Poll::Pending if left == 0 => Poll::Ready(None),
        Poll::Pending => {
            left -= 1;
            Poll::Pending
        }
    })
    .await
}

/// A task that sends is dropped at each of its awaits. What it had given to the sink is sent once, and the rest by the
/// next task.
#[test]
fn a_send_that_is_dropped_at_any_await_sends_all_or_nothing() {
    on_each("a send that is dropped", || async {
        for waits in 0.. {
            let [(mut alice, first), (mut bob, second)] = sessions();
            let mut sink = SenderSink::new(alice.take_sender(Data).unwrap());
            let received = ReceiverStream::new(bob.take_receiver(Data).unwrap());
            let received = tokio::spawn(received.try_collect::<Vec<_>>());
            let mut given = 0;
            let whole = cut(
                async {
                    while given < 10 {
                        poll_fn(|cx| sink.poll_ready_unpin(cx)).await.unwrap();
                        sink.start_send_unpin(message(50 + given)).unwrap();
                        given += 1;
                    }
                    sink.close().await.unwrap();
                },
                waits,
            )
            .await;
            for number in given..10 {
                sink.send(message(50 + number)).await.unwrap();
            }
            sink.close().await.unwrap();
            let received = received.await.unwrap().unwrap();
            assert!((50..60).map(message).eq(received));
            close([(alice, first), (bob, second)]).await;
            if whole.is_some() {
                assert!(waits > 0);
                return;
            }
        }
    });
}

/// A peer whose stream is cut ends a forwarding by an error, and never by the end.
#[test]
fn a_forwarding_of_a_cut_stream_fails() {
    on_each("a cut", || async {
        let (here, there) = tokio::io::duplex(64);
        let (mut mux, run) = connect(here, with_slots(16)).unwrap();
        let sender = mux.take_sender(Overlap).unwrap();
        let received = ReceiverStream::new(mux.take_receiver(Data).unwrap());
        let forwarded = received.map_err(SendError::from);
        let forwarded = forwarded.forward(SenderSink::new(sender.clone()));
        let forwarded = tokio::spawn(forwarded);
        drop(there);
        let closed = forwarded.await.unwrap().unwrap_err();
        assert!(matches!(closed, SendError::Closed(_)), "{closed}");
        assert!(run.await.unwrap().is_err());
    });
}
