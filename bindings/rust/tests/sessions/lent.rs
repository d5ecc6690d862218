//! Borrowed messages: those of a receiver, and those that are written to a transport which accepts several slices at
//! once.
use crate::hand::Hand;
use crate::*;
use lcmux::Channel::{Data, Overlap};
use lcmux::{Closed, Direction, Pipe, PollWrite, WriteHalf, CHANNELS};
use lcmux::{Receiver, RecvTimeoutError, TryRecvError};
use std::io::{self, IoSlice};
use std::mem;
use std::sync::{Arc, Mutex};
use std::task::{Context, Poll};
use std::thread;
use std::time::Duration;

/// A message of this many equal bytes.
fn send(channel: u8, byte: u8, len: usize) -> Vec<u8> {
    let header = [&[0x10 + channel], &(len as u32).to_be_bytes()[..]].concat();
    [header, vec![byte; len]].concat()
}

/// The borrow stays valid while the rest of its ring is filled, beyond the wrap point.
#[test]
fn a_lent_message_stays_as_it_is_until_it_is_given_back() {
    let mut hand = Hand::started(narrow());
    let mut receiver = hand.mux.take_receiver(Data).unwrap();
    hand.feed(&[GREETING, &send(1, 1, 40), &send(1, 2, 20)].concat());
    assert_eq!(receiver.try_recv(), Ok(Some(vec![1; 40])));
    assert_eq!(hand.written(), frames("issue 1 40"));
    for round in 2..20 {
        let lent = receiver.recv_ref_blocking().unwrap().unwrap();
        hand.feed(&[send(1, round + 1, 20), send(1, 0x5a, 24)].concat());
        assert_eq!(*lent, [round; 20]);
        assert_eq!(hand.written(), [], "it is no room yet");
        drop(lent);
        assert_eq!(hand.written(), frames("issue 1 20"));
        let next = receiver.recv_ref_blocking().unwrap().unwrap();
        assert_eq!(*next, [round + 1; 20]);
        mem::forget(next);
        assert_eq!(receiver.try_recv(), Ok(Some(vec![0x5a; 24])));
        assert_eq!(hand.written(), frames("issue 1 20, issue 1 24"));
        hand.feed(&send(1, round + 1, 20));
    }
}

#[test]
fn a_lent_message_is_read_when_the_session_is_over() {
    let mut hand = Hand::started(narrow());
    let mut receiver = hand.mux.take_receiver(Data).unwrap();
    hand.feed(&greeted("send 1 6869, send 1 77"));
    let lent = receiver.recv_ref_blocking().unwrap().unwrap();
    hand.mux.abort();
    drop((hand.mux, hand.driver));
    assert_eq!(*lent, *b"hi");
    drop(lent);
    assert_eq!(receiver.recv_blocking(), Err(Closed::Aborted));
}

/// A leaked borrow counts as taken, once, when the next call is made.
#[test]
fn a_lent_message_that_is_forgotten_is_taken_by_the_next_call() {
    for lends in [false, true] {
        let mut hand = Hand::started(narrow());
        let mut receiver = hand.mux.take_receiver(Data).unwrap();
        hand.feed(&greeted("send 1 6869, send 1 77, finish 1"));
        mem::forget(receiver.recv_ref_blocking().unwrap());
        assert_eq!(receiver.book().buffered, 3);
        let next = match lends {
            true => receiver.recv_ref_blocking().unwrap().unwrap().to_vec(),
            false => receiver.recv_blocking().unwrap().unwrap(),
        };
        assert_eq!(next, b"w");
        assert_eq!(receiver.try_recv(), Ok(None));
        let stats = receiver.stats();
        assert_eq!((stats.messages_received, stats.bytes_received), (2, 3));
        assert_eq!(receiver.book().buffered, 0);
    }
}

#[test]
fn a_polled_borrow_waits_and_is_woken_once() {
    let mut hand = Hand::started(narrow());
    let mut receiver = hand.mux.take_receiver(Data).unwrap();
    let counts: [Arc<hand::Count>; 2] = Default::default();
    let wakers = counts.clone().map(std::task::Waker::from);
    for waker in &wakers {
        let mut cx = Context::from_waker(waker);
        assert!(receiver.poll_recv_ref(&mut cx).is_pending());
    }
    hand.feed(&greeted("send 1 6869, send 1 77"));
    assert_eq!(counts.map(|count| count.count()), [0, 1]);
    let mut cx = Context::from_waker(&wakers[0]);
    for body in [b"hi".as_slice(), b"w"] {
        let Poll::Ready(Ok(Some(message))) = receiver.poll_recv_ref(&mut cx) else {
            panic!("there is a message");
        };
        assert_eq!(*message, *body);
        assert_eq!(hand.written(), [], "its bytes are not free yet");
        drop(message);
        assert_eq!(hand.written(), frames(&format!("issue 1 {}", body.len())));
    }
    assert!(receiver.poll_recv_ref(&mut cx).is_pending());
    hand.feed(&frames("finish 1"));
    for _ in 0..2 {
        let end = receiver.poll_recv_ref(&mut cx);
        assert!(matches!(end, Poll::Ready(Ok(None))));
    }
}

#[test]
fn the_129th_polled_borrow_in_a_row_yields_once() {
    let mut hand = Hand::started(with_slots(16));
    let mut receiver = hand.mux.take_receiver(Data).unwrap();
    hand.feed(GREETING);
    let waker = std::task::Waker::from(Arc::new(hand::Count::default()));
    let mut cx = Context::from_waker(&waker);
    for count in 1..=130 {
        hand.feed(&frames("send 1 78"));
        let is_ready = receiver.poll_recv_ref(&mut cx).is_ready();
        assert_eq!(is_ready, count != 129, "{count}");
        hand.written();
    }
}

/// Each way to borrow without a task: what is available, nothing, the end of the channel, and the session's.
#[test]
fn a_borrow_that_does_not_wait_for_long_has_each_answer() {
    let zero = Duration::ZERO;
    let mut hand = Hand::started(narrow());
    let mut receiver = hand.mux.take_receiver(Data).unwrap();
    let empty = |receiver: &mut Receiver| {
        let tried = receiver.try_recv_ref().err();
        assert_eq!(tried, Some(TryRecvError::Empty));
        let timed = receiver.recv_ref_timeout(zero).err();
        assert_eq!(timed, Some(RecvTimeoutError::Timeout));
    };
    empty(&mut receiver);
    hand.feed(&greeted("send 1 6869, send 1 77"));
    assert_eq!(*receiver.try_recv_ref().unwrap().unwrap(), *b"hi");
    assert_eq!(hand.written(), frames("issue 1 2"));
    assert_eq!(*receiver.recv_ref_timeout(zero).unwrap().unwrap(), *b"w");
    assert_eq!(hand.written(), frames("issue 1 1"));
    empty(&mut receiver);
    let mut other = hand.mux.take_receiver(Overlap).unwrap();
    hand.feed(&frames("finish 1, send 2 6869"));
    assert!(receiver.try_recv_ref().unwrap().is_none());
    assert!(receiver.recv_ref_timeout(zero).unwrap().is_none());
    assert_eq!(hand.read(&mut &b""[..]), Poll::Ready(Err(Closed::Cut)));
    assert_eq!(*other.try_recv_ref().unwrap().unwrap(), *b"hi");
    let tried = other.try_recv_ref().err();
    assert_eq!(tried, Some(TryRecvError::Closed(Closed::Cut)));
    let timed = other.recv_ref_timeout(zero).err();
    assert_eq!(timed, Some(RecvTimeoutError::Closed(Closed::Cut)));
    assert!(receiver.try_recv_ref().unwrap().is_none());
}

#[test]
fn a_message_that_arrives_in_time_is_borrowed() {
    let mut hand = Hand::started(narrow());
    let mut receiver = hand.mux.take_receiver(Data).unwrap();
    let second = Duration::from_secs(60);
    let receiving = thread::spawn(move || {
        receiver
            .recv_ref_timeout(second)
            .unwrap()
            .map(|it| it.to_vec())
    });
    thread::sleep(Duration::from_millis(20));
    hand.feed(&greeted("send 1 6869"));
    assert_eq!(receiving.join().unwrap(), Some(b"hi".to_vec()));
}

/// A message longer than 4,096 bytes is copied without the lock.
#[test]
fn long_messages_are_received_whole() {
    let mut config = with_slots(14);
    config.capacities = [20_000; CHANNELS];
    let mut hand = Hand::started(config);
    let mut receiver = hand.mux.take_receiver(Data).unwrap();
    hand.feed(GREETING);
    for len in [4_095, 4_096, 4_097, 9_000] {
        hand.feed(&send(1, 7, len));
        assert_eq!(receiver.try_recv(), Ok(Some(vec![7; len])));
        assert_eq!(hand.written(), frames(&format!("issue 1 {len}")));
        assert_eq!(receiver.book().buffered, 0);
    }
}

/// Accepts at most this many bytes of several slices, and records the lengths of the slices.
struct Slices {
    most: usize,
    lengths: Vec<Vec<usize>>,
    bytes: Vec<u8>,
}

impl Slices {
    fn new(most: usize) -> Slices {
        Slices {
            most,
            lengths: Vec::new(),
            bytes: Vec::new(),
        }
    }
}

impl PollWrite for Slices {
    fn poll_write(&mut self, cx: &mut Context<'_>, bytes: &[u8]) -> Poll<io::Result<usize>> {
        self.poll_write_vectored(cx, &[IoSlice::new(bytes)])
    }

    fn poll_write_vectored(
        &mut self,
        _: &mut Context<'_>,
        slices: &[IoSlice<'_>],
    ) -> Poll<io::Result<usize>> {
        self.lengths
            .push(slices.iter().map(|it| it.len()).collect());
        let bytes: Vec<u8> = slices.iter().flat_map(|it| it.to_vec()).collect();
        let count = self.most.min(bytes.len());
        self.bytes.extend(&bytes[..count]);
        Poll::Ready(Ok(count))
    }

    fn is_write_vectored(&self) -> bool {
        true
    }

    fn poll_flush(&mut self, _: &mut Context<'_>) -> Poll<io::Result<()>> {
        Poll::Ready(Ok(()))
    }

    fn poll_close(&mut self, _: &mut Context<'_>) -> Poll<io::Result<()>> {
        Poll::Ready(Ok(()))
    }
}

/// A session with guarantees on all channels, whose first issues are written, and three waiting messages: a short one
/// and two long ones.
fn with_messages() -> Hand {
    with_messages_of(Hand::new(with_slots(16)))
}

fn with_messages_of(mut hand: Hand) -> Hand {
    hand.written();
    hand.feed(&greeted("issue 1 9000, issue 2 9000"));
    let (data, overlap) = (hand.mux.take_sender(Data), hand.mux.take_sender(Overlap));
    data.as_ref().unwrap().try_send(b"short").unwrap();
    overlap.as_ref().unwrap().try_send(&[7; 5_000]).unwrap();
    data.as_ref().unwrap().try_send(&[8; 4_096]).unwrap();
    mem::forget((data, overlap));
    hand
}

fn messages() -> Vec<u8> {
    [
        frames("send 1 73686f7274"),
        send(2, 7, 5_000),
        send(1, 8, 4_096),
    ]
    .concat()
}

#[test]
fn a_long_message_is_written_behind_the_bytes_before_it() {
    let mut hand = with_messages();
    let mut slices = Slices::new(usize::MAX);
    assert_eq!(hand.write(&mut slices), Poll::Pending);
    assert_eq!(slices.bytes, messages());
    assert_eq!(slices.lengths, [[5 + 5 + 5, 5_000], [5, 4_096]]);
}

#[test]
fn a_transport_that_takes_one_slice_gets_copies() {
    let mut hand = with_messages();
    let mut bytes = Vec::new();
    assert_eq!(hand.write(&mut bytes), Poll::Pending);
    assert_eq!(bytes, messages());
}

/// By default a vectored write starts with the first slice that has bytes.
#[test]
fn by_default_several_slices_are_written_one_by_one() {
    let waker = std::task::Waker::from(Arc::new(hand::Count::default()));
    let mut context = Context::from_waker(&waker);
    let mut bytes: Vec<u8> = Vec::new();
    assert!(!bytes.is_write_vectored());
    let slices = [&b""[..], b"hi", b"there"].map(IoSlice::new);
    let written = bytes.poll_write_vectored(&mut context, &slices);
    assert!(matches!(written, Poll::Ready(Ok(2))));
    assert_eq!(bytes, b"hi");
    let slices = [&b"!"[..], b"there"].map(IoSlice::new);
    let written = bytes.poll_write_vectored(&mut context, &slices);
    assert!(matches!(written, Poll::Ready(Ok(1))));
    assert_eq!(bytes, b"hi!");
    let written = bytes.poll_write_vectored(&mut context, &[]);
    assert!(matches!(written, Poll::Ready(Ok(0))));
}

#[test]
fn sockets_take_several_slices_at_once() {
    let (here, _there) = std::os::unix::net::UnixStream::pair().unwrap();
    assert!(here.writes_vectored());
    assert!(!Pipe::new(here).writes_vectored());
}

/// Each write continues where the one before ended, and each frame is reported once its last byte is written.
#[test]
fn a_lent_message_is_written_in_any_pieces() {
    for most in (1..30).chain([4_095, 4_100, 5_010, 5_015, 5_020]) {
        let mut hand = Hand::new(with_slots(16));
        let told = Arc::new(Mutex::new(Vec::new()));
        let kept = Arc::clone(&told);
        hand.driver
            .on_frame(move |frame| kept.lock().unwrap().push((frame.direction, frame.number)));
        let mut hand = with_messages_of(hand);
        told.lock().unwrap().clear();
        let mut slices = Slices::new(most);
        while slices.bytes.len() < messages().len() {
            let before = slices.bytes.len();
            assert_eq!(hand.write(&mut slices), Poll::Pending);
            assert!(slices.bytes.len() > before);
            assert!(!hand.driver.keep_alive() || slices.bytes.len() == messages().len());
        }
        assert_eq!(slices.bytes, messages());
        let sent = [5, 5_000, 4_096].map(|len| (Direction::Out, len));
        assert_eq!(*told.lock().unwrap(), sent);
    }
}

/// Claims a byte more than it was offered.
struct Claims;

impl PollWrite for Claims {
    fn poll_write(&mut self, _: &mut Context<'_>, bytes: &[u8]) -> Poll<io::Result<usize>> {
        Poll::Ready(Ok(bytes.len() + 1))
    }

    fn poll_write_vectored(
        &mut self,
        _: &mut Context<'_>,
        slices: &[IoSlice<'_>],
    ) -> Poll<io::Result<usize>> {
        Poll::Ready(Ok(slices.iter().map(|it| it.len()).sum::<usize>() + 1))
    }

    fn is_write_vectored(&self) -> bool {
        true
    }

    fn poll_flush(&mut self, _: &mut Context<'_>) -> Poll<io::Result<()>> {
        panic!("nothing was written");
    }

    fn poll_close(&mut self, _: &mut Context<'_>) -> Poll<io::Result<()>> {
        panic!("nothing was written");
    }
}

#[test]
fn a_transport_that_claims_more_than_both_slices_fails_the_session() {
    let mut hand = with_messages();
    let Poll::Ready(Err(Closed::Transport(error))) = hand.write(&mut Claims) else {
        panic!("the session goes on");
    };
    assert_eq!(
        error.to_string(),
        "5016 bytes claimed, but only 5015 offered"
    );
}
