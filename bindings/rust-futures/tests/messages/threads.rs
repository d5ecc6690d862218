//! Streams and sinks in threads, over a session whose driver runs on threads.
use crate::watchdog::Watchdog;
use crate::*;
use futures_util::{SinkExt, StreamExt, TryStreamExt};
use lcmux_futures::lcmux::Channel::{Data, Overlap};
use lcmux_futures::lcmux::{Closed, Driver, Mux};
use lcmux_futures::{ReceiverStream, SenderSink};
use std::future::Future;
use std::os::unix::net::UnixStream;
use std::pin::pin;
use std::task::{Context, Poll, Wake};
use std::thread::{self, JoinHandle, Thread};

struct Unpark(Thread);

impl Wake for Unpark {
    fn wake(self: Arc<Unpark>) {
        self.0.unpark();
    }
}

/// Runs a future on this thread.
fn block_on<T>(future: impl Future<Output = T>) -> T {
    let waker = Arc::new(Unpark(thread::current())).into();
    let (mut future, mut cx) = (pin!(future), Context::from_waker(&waker));
    loop {
        match future.as_mut().poll(&mut cx) {
            Poll::Ready(output) => return output,
            Poll::Pending => thread::park(),
        }
    }
}

type Run = JoinHandle<Result<(), Closed>>;

fn run(driver: Driver, stream: UnixStream) -> Run {
    thread::spawn(move || driver.run_blocking(stream.try_clone().unwrap(), stream))
}

fn sessions() -> [(Mux, Run); 2] {
    let (here, there) = UnixStream::pair().unwrap();
    [here, there].map(|stream| {
        let (mux, driver) = Mux::new(with_slots(16)).unwrap();
        (mux, run(driver, stream))
    })
}

fn message(number: u8) -> Vec<u8> {
    vec![number; 1 + usize::from(number) % 64]
}

/// The messages go there on one channel and back on another, past a thread that forwards them.
#[test]
fn messages_are_forwarded_by_a_thread_in_their_order() {
    let _watchdog = Watchdog::new("forward on threads");
    let [(mut alice, first), (mut bob, second)] = sessions();
    let (sender, back) = (
        alice.take_sender(Data).unwrap(),
        alice.take_receiver(Overlap).unwrap(),
    );
    let (receiver, forth) = (
        bob.take_receiver(Data).unwrap(),
        bob.take_sender(Overlap).unwrap(),
    );
    let messages = || (0..=255).map(message);
    let sending = thread::spawn(move || {
        let mut items = futures_util::stream::iter(messages().map(Ok));
        let mut sink = SenderSink::new(sender);
        block_on(async {
            sink.send_all(&mut items).await?;
            sink.close().await
        })
    });
    let forwarding = thread::spawn(move || {
        let received = ReceiverStream::new(receiver).map_err(|closed| closed.into());
        block_on(received.forward(SenderSink::new(forth)))
    });
    let received: Vec<_> = block_on(ReceiverStream::new(back).try_collect()).unwrap();
    assert!(messages().eq(received));
    assert_eq!(sending.join().unwrap(), Ok(()));
    assert_eq!(forwarding.join().unwrap(), Ok(()));
    alice.close();
    bob.close();
    assert_eq!(first.join().unwrap(), Ok(()));
    assert_eq!(second.join().unwrap(), Ok(()));
}

/// A session that is aborted is no end: the stream of the peer has the messages that arrived, and an error.
#[test]
fn a_stream_whose_peer_aborts_ends_by_an_error() {
    let _watchdog = Watchdog::new("an abort on threads");
    let [(mut alice, first), (mut bob, second)] = sessions();
    let mut sink = SenderSink::new(alice.take_sender(Data).unwrap());
    let mut stream = ReceiverStream::new(bob.take_receiver(Data).unwrap());
    block_on(sink.send(message(7))).unwrap();
    assert_eq!(block_on(stream.next()), Some(Ok(message(7))));
    alice.abort();
    assert!(matches!(block_on(stream.next()), Some(Err(_))));
    assert_eq!(block_on(stream.next()), None);
    assert_eq!(first.join().unwrap(), Err(Closed::Aborted));
    assert!(second.join().unwrap().is_err());
}
