//! How a session ends, and the results of its calls.
use crate::*;
use lcmux_tokio::lcmux::Channel::{Data, Overlap};
use lcmux_tokio::lcmux::{Fault, MuxFault, SendError, Stop, CHANNELS};
use lcmux_tokio::run;
use std::io::{self, IoSlice};
use std::marker::PhantomPinned;
use std::pin::Pin;
use std::sync::{Arc, Mutex};
use std::task::{Context, Poll};
use tokio::io::{AsyncReadExt, AsyncWriteExt, ReadBuf};

/// The calls of a stream that completed, a letter each: `w` and `v` for a write of one slice and of several, `f` for
/// a flush, `s` for a shutdown, `r` for a read and `e` for its end.
type Log = Arc<Mutex<String>>;

/// A stream that records its calls, and that may not be moved.
struct Told {
    stream: DuplexStream,
    log: Log,
    is_vectored: bool,
    _pinned: PhantomPinned,
}

impl Told {
    fn new(stream: DuplexStream) -> (Told, Log) {
        let log = Log::default();
        let told = Told {
            stream,
            log: Arc::clone(&log),
            is_vectored: false,
            _pinned: PhantomPinned,
        };
        (told, log)
    }

    // The stream is not pinned together with its owner, so the owner may be moved.
    fn call<T>(
        self: Pin<&mut Self>,
        name: char,
        call: impl FnOnce(Pin<&mut DuplexStream>) -> Poll<T>,
    ) -> Poll<T> {
        let told = unsafe { self.get_unchecked_mut() };
        let answer = call(Pin::new(&mut told.stream));
        if answer.is_ready() {
            told.log.lock().unwrap().push(name);
        }
        answer
    }
}

impl AsyncRead for Told {
    fn poll_read(
        self: Pin<&mut Self>,
        cx: &mut Context<'_>,
        buffer: &mut ReadBuf<'_>,
    ) -> Poll<io::Result<()>> {
        let log = Arc::clone(&self.log);
        let read = self.call('r', |stream| stream.poll_read(cx, buffer));
        if read.is_ready() && buffer.filled().is_empty() {
            log.lock().unwrap().push('e');
        }
        read
    }
}

impl AsyncWrite for Told {
    fn poll_write(
        self: Pin<&mut Self>,
        cx: &mut Context<'_>,
        bytes: &[u8],
    ) -> Poll<io::Result<usize>> {
        self.call('w', |stream| stream.poll_write(cx, bytes))
    }

    fn poll_write_vectored(
        self: Pin<&mut Self>,
        cx: &mut Context<'_>,
        slices: &[IoSlice<'_>],
    ) -> Poll<io::Result<usize>> {
        assert!(self.is_vectored);
        let bytes: Vec<u8> = slices.iter().flat_map(|slice| slice.to_vec()).collect();
        self.call('v', |stream| stream.poll_write(cx, &bytes))
    }

    fn is_write_vectored(&self) -> bool {
        self.is_vectored
    }

    fn poll_flush(self: Pin<&mut Self>, cx: &mut Context<'_>) -> Poll<io::Result<()>> {
        self.call('f', |stream| stream.poll_flush(cx))
    }

    // As a socket whose peer has closed, too, reports it.
    fn poll_shutdown(self: Pin<&mut Self>, cx: &mut Context<'_>) -> Poll<io::Result<()>> {
        self.call('s', |stream| match stream.poll_shutdown(cx) {
            Poll::Ready(Ok(())) => Poll::Ready(Err(io::ErrorKind::NotConnected.into())),
            answer => answer,
        })
    }
}

/// All bytes are written and flushed, the stream is shut down, and then it is read until the peer ends.
#[test]
fn the_end_comes_in_its_order() {
    on_each("an end in order", || async {
        let (here, mut there) = tokio::io::duplex(16);
        let (told, log) = Told::new(here);
        let (mut mux, run) = connect(told, rings(64)).unwrap();
        there
            .write_all(&[&GREETING[..], &issue(5)].concat())
            .await
            .unwrap();
        mux.take_sender(Data).unwrap().send(b"hello").await.unwrap();
        let mut receiver = mux.take_receiver(Data).unwrap();
        mux.close();
        let mut bytes = Vec::new();
        there.read_to_end(&mut bytes).await.unwrap();
        assert_eq!(
            bytes,
            [
                &first_bytes()[..],
                b"\x11\0\0\0\x05hello\x71",
                b"\x70\x72\x73\x74\x75\x76"
            ]
            .concat()
        );
        there.write_all(b"\x11\0\0\0\x02hi").await.unwrap();
        assert_eq!(receiver.recv().await, Ok(Some(b"hi".to_vec())));
        there.write_all(&FINISHES).await.unwrap();
        drop(there);
        assert_eq!(receiver.recv().await, Ok(None));
        assert_eq!(run.await.unwrap(), Ok(()));
        let log = log.lock().unwrap();
        let (before, after) = log.split_once('s').unwrap();
        assert!(before.trim_end_matches('r').ends_with("wf"), "{log}");
        assert!(
            after.starts_with('r') && after.chars().all(|it| "re".contains(it)),
            "{log}"
        );
        assert_eq!(after.matches('e').count(), 1, "{log}");
    });
}

/// A stream that accepts several slices at once gets a long message as one of them.
#[test]
fn a_long_message_is_a_slice_where_several_are_taken() {
    on_each("a message as a slice", || async {
        for is_vectored in [false, true] {
            let (here, mut there) = tokio::io::duplex(1 << 16);
            let (mut told, log) = Told::new(here);
            told.is_vectored = is_vectored;
            let (mut mux, run) = connect(told, rings(64)).unwrap();
            let mut bytes = vec![0; first_bytes().len()];
            there.read_exact(&mut bytes).await.unwrap();
            let stream = [&GREETING[..], &issue(10_000)].concat();
            there.write_all(&stream).await.unwrap();
            mux.take_sender(Data)
                .unwrap()
                .send(&[7; 10_000])
                .await
                .unwrap();
            mux.close();
            there.read_to_end(&mut bytes).await.unwrap();
            drop((mux, there));
            let _ = run.await.unwrap();
            assert_eq!(log.lock().unwrap().contains('v'), is_vectored);
        }
    });
}

/// Accepted messages arrive after the session and all its handles are dropped.
#[test]
fn what_was_accepted_arrives_when_all_is_dropped() {
    on_each("a drop", || async {
        let [(mut mux, one), (mut other_mux, other)] = both(tcp_pair().await, rings(1 << 20));
        let sender = mux.take_sender(Data).unwrap();
        let mut receiver = other_mux.take_receiver(Data).unwrap();
        drop((mux, other_mux));
        for number in 0..100 {
            sender.send(&vec![number; 10_000]).await.unwrap();
        }
        drop(sender);
        for number in 0..100 {
            assert_eq!(receiver.recv().await, Ok(Some(vec![number; 10_000])));
        }
        assert_eq!(receiver.recv().await, Ok(None));
        drop(receiver);
        assert_eq!(one.await.unwrap(), Ok(()));
        assert_eq!(other.await.unwrap(), Ok(()));
    });
}

/// Waiting calls of a session whose peer is silent.
fn that_wait(mux: &mut Mux) -> JoinHandle<(SendError, Closed)> {
    let (sender, mut receiver) = (
        mux.take_sender(Data).unwrap(),
        mux.take_receiver(Data).unwrap(),
    );
    tokio::spawn(async move {
        let (sent, received) = tokio::join!(sender.send(b"hello"), receiver.recv());
        (sent.unwrap_err(), received.unwrap_err())
    })
}

async fn all_answer(waiting: JoinHandle<(SendError, Closed)>, mux: &Mux, why: Closed) {
    let answers = waiting.await.unwrap();
    assert_eq!(answers, (SendError::Closed(why.clone()), why.clone()));
    assert_eq!(mux.closed().await, Err(why));
}

#[test]
fn a_task_that_is_aborted_ends_the_session() {
    on_each("an aborted task", || async {
        let (mut mux, run, mut there) = by_hand(rings(64), 4096);
        let waiting = that_wait(&mut mux);
        tokio::task::yield_now().await;
        run.abort();
        all_answer(waiting, &mux, Closed::Aborted).await;
        assert!(run.await.unwrap_err().is_cancelled());
        there.read_to_end(&mut Vec::new()).await.unwrap();
    });
}

#[test]
fn an_abort_ends_the_task() {
    on_each("an abort", || async {
        let (mut mux, run, mut there) = by_hand(rings(64), 4096);
        let waiting = that_wait(&mut mux);
        tokio::task::yield_now().await;
        mux.abort();
        all_answer(waiting, &mux, Closed::Aborted).await;
        assert_eq!(run.await.unwrap(), Err(Closed::Aborted));
        there.read_to_end(&mut Vec::new()).await.unwrap();
    });
}

#[test]
fn a_join_handle_that_is_dropped_ends_nothing() {
    on_each("a dropped handle", || async {
        let [(mut alice, one), (mut bob, other)] = in_memory(rings(64));
        drop((one, other));
        alice
            .take_sender(Data)
            .unwrap()
            .send(b"hello")
            .await
            .unwrap();
        let mut receiver = bob.take_receiver(Data).unwrap();
        assert_eq!(receiver.recv().await, Ok(Some(b"hello".to_vec())));
        assert_eq!(receiver.recv().await, Ok(None));
        alice.close();
        bob.close();
        assert_eq!(alice.closed().await, Ok(()));
        assert_eq!(bob.closed().await, Ok(()));
    });
}

/// A thread that blocks on a session whose runtime is dropped meanwhile.
#[test]
fn a_runtime_that_is_dropped_ends_its_sessions() {
    for runtime in [current_thread(), multi_thread()] {
        let _watchdog = Watchdog::new("a dropped runtime");
        let (mut mux, run, there) = runtime.block_on(async { by_hand(rings(64), 4096) });
        let (sender, mut receiver) = (
            mux.take_sender(Data).unwrap(),
            mux.take_receiver(Data).unwrap(),
        );
        let waits = std::thread::spawn(move || receiver.recv_blocking());
        drop(runtime);
        assert_eq!(waits.join().unwrap(), Err(Closed::Aborted));
        assert_eq!(
            sender.send_blocking(b"hello"),
            Err(SendError::Closed(Closed::Aborted))
        );
        assert_eq!(mux.closed_blocking(), Err(Closed::Aborted));
        let joined = current_thread().block_on(run).unwrap_err();
        assert!(joined.is_cancelled());
        drop(there);
    }
}

#[test]
fn a_hook_that_panics_ends_the_session() {
    on_each("a hook that panics", || async {
        let (here, mut there) = tokio::io::duplex(4096);
        let (mut mux, mut driver) = Mux::new(rings(64)).unwrap();
        driver.on_frame(|_| std::panic::resume_unwind(Box::new("a hook panics")));
        let mut receiver = mux.take_receiver(Data).unwrap();
        let run = tokio::spawn(run(driver, here));
        assert_eq!(receiver.recv().await, Err(Closed::Aborted));
        assert!(run.await.unwrap_err().is_panic());
        there.read_to_end(&mut Vec::new()).await.unwrap();
    });
}

/// A message without a guarantee, and one that is incomplete.
#[test]
fn a_peer_that_breaks_off_is_told() {
    on_each("a peer that breaks the rules", || async {
        let mut by_caller = rings(64);
        by_caller.issue = [lcmux_tokio::lcmux::IssuePolicy::ByCaller; CHANNELS];
        let (mut mux, run, mut there) = by_hand(by_caller, 4096);
        let waiting = that_wait(&mut mux);
        there.write_all(b"\x11\0\x02hi").await.unwrap();
        let broken = run.await.unwrap().unwrap_err();
        let said = "V1 at byte 0: a Send of 2 on Data, where 0 are outstanding";
        assert_eq!(broken.to_string(), said);
        all_answer(waiting, &mux, broken).await;
        let mut bytes = Vec::new();
        there.read_to_end(&mut bytes).await.unwrap();
        assert_eq!(bytes, GREETING);

        let (mux, run, mut there) = by_hand(rings(64), 4096);
        there.write_all(b"\x11\0\x02h").await.unwrap();
        drop(there);
        let cut = run.await.unwrap();
        let is_truncated =
            matches!(&cut, Err(Closed::Fault(it)) if it.stop == Stop::Fault(Fault::Truncated));
        let is_broken = cut == Err(io::Error::from(io::ErrorKind::BrokenPipe).into());
        assert!(is_truncated || is_broken, "{cut:?}");
        assert_eq!(mux.closed().await, cut);
    });
}

/// The peer ends its direction, and this side continues to send.
#[test]
fn each_direction_ends_by_itself() {
    on_each("half an end", || async {
        let [(mut alice, one), (mut bob, other)] = both(tcp_pair().await, rings(64));
        let (sender, mut receiver) = (
            alice.take_sender(Data).unwrap(),
            bob.take_receiver(Data).unwrap(),
        );
        sender.send(b"first").await.unwrap();
        assert_eq!(receiver.recv().await, Ok(Some(b"first".to_vec())));
        bob.close();
        let mut overlap = alice.take_receiver(Overlap).unwrap();
        assert_eq!(overlap.recv().await, Ok(None));
        sender.send(b"second").await.unwrap();
        assert_eq!(receiver.recv().await, Ok(Some(b"second".to_vec())));
        alice.close();
        assert_eq!(one.await.unwrap(), Ok(()));
        assert_eq!(other.await.unwrap(), Ok(()));
    });
}

#[test]
fn a_configuration_is_judged_at_once() {
    let runtime = current_thread();
    let _inside = runtime.enter();
    let (here, _there) = tokio::io::duplex(64);
    let refused = connect(here, Config::new([64; CHANNELS], 13)).err();
    assert_eq!(refused, Some(MuxFault::TooFewSlots { slots: 13 }));
}
