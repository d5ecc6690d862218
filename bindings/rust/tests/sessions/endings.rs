//! How sessions end, and the results of their calls.
use crate::hand::{broken, Call, Count, Feed, Hand};
use crate::*;
use lcmux::Channel::{Capability, Data, Overlap};
use lcmux::{CallError, Closed, Mux, PollRead, PollWrite, Refusal, SendError, Sender};
use lcmux::{TryRecvError, TrySendError};
use std::future::Future;
use std::io::{self, ErrorKind};
use std::panic::{self, AssertUnwindSafe};
use std::sync::{Arc, Mutex};
use std::task::{Context, Poll, RawWaker, RawWakerVTable, Wake, Waker};
use std::thread;

/// Fails each call, or claims more bytes than it was offered.
enum Bad {
    Fails,
    Claims,
    TakesNone,
}

impl Bad {
    fn answer(&self, len: usize) -> Poll<io::Result<usize>> {
        Poll::Ready(match self {
            Bad::Fails => Err(io::Error::new(
                ErrorKind::ConnectionReset,
                "the cable is cut",
            )),
            Bad::Claims => Ok(len + 1),
            Bad::TakesNone => Ok(0),
        })
    }
}

impl PollRead for Bad {
    fn poll_read(&mut self, _: &mut Context<'_>, buffer: &mut [u8]) -> Poll<io::Result<usize>> {
        self.answer(buffer.len())
    }
}

impl PollWrite for Bad {
    fn poll_write(&mut self, _: &mut Context<'_>, bytes: &[u8]) -> Poll<io::Result<usize>> {
        self.answer(bytes.len())
    }

    fn poll_flush(&mut self, _: &mut Context<'_>) -> Poll<io::Result<()>> {
        panic!("nothing was written");
    }

    fn poll_close(&mut self, _: &mut Context<'_>) -> Poll<io::Result<()>> {
        panic!("nothing was written");
    }
}

fn transport(kind: ErrorKind, message: &str) -> Closed {
    io::Error::new(kind, message).into()
}

type End = fn(&mut Hand);

// The end of a session, with its reason and its text.
fn ends() -> Vec<(End, Closed, &'static str)> {
    fn read(hand: &mut Hand, mut bytes: &[u8]) {
        assert!(hand.read(&mut bytes).is_ready());
    }
    let cut = "the cable is cut";
    vec![
        (
            |hand| hand.mux.abort(),
            Closed::Aborted,
            "the session was aborted",
        ),
        (
            |hand| {
                let (_, driver) = Mux::new(narrow()).unwrap();
                drop(std::mem::replace(&mut hand.driver, driver));
            },
            Closed::Aborted,
            "the session was aborted",
        ),
        (
            |hand| read(hand, b"\xff"),
            broken(b"\xff"),
            "F1 at byte 0: a byte names no kind or channel, or is not the greeting's (0xff)",
        ),
        (
            |hand| read(hand, b"\x11\0"),
            broken(b"\x11\0"),
            "F4 at byte 0: the stream ends within a frame or a greeting",
        ),
        (
            |hand| read(hand, b"\x11\0\x02h"),
            broken(b"\x11\0\x02h"),
            "F4 at byte 0: the stream ends within a frame or a greeting",
        ),
        (
            |hand| read(hand, b"\x31\0\0\0\xff"),
            broken(b"\x31\0\0\0\xff"),
            "V3 at byte 0: an Absolve of 255 on Data, where 64 are outstanding",
        ),
        (
            |hand| assert!(hand.read(&mut Bad::Fails).is_ready()),
            transport(ErrorKind::ConnectionReset, cut),
            "the transport failed: the cable is cut",
        ),
        (
            |hand| assert!(hand.read(&mut Bad::Claims).is_ready()),
            transport(
                ErrorKind::InvalidData,
                "4097 bytes claimed, but only 4096 offered",
            ),
            "the transport failed: 4097 bytes claimed, but only 4096 offered",
        ),
        (
            |hand| {
                hand.feed(b"\x11\0\x02h");
                assert!(hand.read(&mut Bad::Claims).is_ready());
            },
            transport(
                ErrorKind::InvalidData,
                "4093 bytes claimed, but only 4092 offered",
            ),
            "the transport failed: 4093 bytes claimed, but only 4092 offered",
        ),
        (
            |hand| assert!(hand.write(&mut Bad::Fails).is_ready()),
            transport(ErrorKind::ConnectionReset, cut),
            "the transport failed: the cable is cut",
        ),
        (
            |hand| assert!(hand.write(&mut Bad::Claims).is_ready()),
            transport(
                ErrorKind::InvalidData,
                "40 bytes claimed, but only 39 offered",
            ),
            "the transport failed: 40 bytes claimed, but only 39 offered",
        ),
        (
            |hand| assert!(hand.write(&mut Bad::TakesNone).is_ready()),
            transport(ErrorKind::WriteZero, "write zero"),
            "the transport failed: write zero",
        ),
    ]
}

#[test]
fn each_reason_is_told_to_every_call_that_waits_and_to_later_ones() {
    for (end, reason, said) in ends() {
        assert_eq!(reason.to_string(), said);
        let mut hand = Hand::new(narrow());
        let sender = hand.mux.take_sender(Data).unwrap();
        let other = hand.mux.take_sender(Overlap).unwrap();
        let mut receivers =
            [Data, Capability].map(|channel| hand.mux.take_receiver(channel).unwrap());
        let sends = [(&sender, b"a"), (&sender, b"b"), (&other, b"c")]
            .map(|(sender, body)| Call::waiting(sender.send(body)));
        let reserve = Call::waiting(other.reserve(3));
        let [first, second] = &mut receivers;
        let recv = Call::waiting(first.recv());
        let lend = Call::waiting(second.recv_ref());
        // A call that waits for the end keeps no borrow that `end` needs.
        end(&mut hand);
        // All calls are notified at once, and none depends on another one's poll.
        assert!(sends.iter().all(|send| send.wakes() == 1), "{said}");
        let closed = SendError::Closed(reason.clone());
        for send in sends {
            assert_eq!(send.woken(), Err(closed.clone()), "{said}");
        }
        assert_eq!(reserve.woken().err(), Some(closed.clone()));
        assert_eq!(recv.woken(), Err(reason.clone()));
        assert_eq!(lend.woken().err(), Some(reason.clone()));

        assert_eq!(hand.mux.closed_blocking(), Err(reason.clone()));
        let failed = TrySendError::Failed(closed.clone());
        assert_eq!(sender.try_send(b"a"), Err(failed));
        assert_eq!(sender.send_blocking(b"a"), Err(closed));
        let over = CallError::Closed(reason.clone());
        assert_eq!(sender.finish(), Err(over.clone()));
        assert_eq!(receivers[0].issue(1), Err(over.clone()));
        assert_eq!(receivers[0].plead(1), Err(over.clone()));
        assert_eq!(receivers[0].limit(1), Err(over));
        assert_eq!(receivers[0].try_recv(), Err(TryRecvError::Closed(reason)));
    }
}

#[test]
fn who_waits_for_the_end_is_told_the_first_reason_in_both_halves() {
    for (end, reason, said) in ends() {
        let (mux, driver) = Mux::new(narrow()).unwrap();
        let shared = Arc::new(mux);
        let (one, other) = (Arc::clone(&shared), Arc::clone(&shared));
        let one = Call::waiting(async move { one.closed().await });
        let other = Call::waiting(async move { other.closed().await });
        drop(Call::waiting(async { shared.closed().await }));
        // The same session, moved by a second hand.
        let mut hand = Hand::new(narrow());
        hand.driver = driver;
        if reason == Closed::Aborted {
            shared.abort();
        } else {
            end(&mut hand);
        }
        assert_eq!(one.woken(), Err(reason.clone()), "{said}");
        assert_eq!(other.woken(), Err(reason.clone()));
        shared.abort(); // too late to change the reason
        assert_eq!(hand.read(&mut Feed(b"")), Poll::Ready(Err(reason.clone())));
        assert_eq!(hand.write(&mut Vec::new()), Poll::Ready(Err(reason)));
    }
}

/// The last task that polled is notified, and the waker of a cancelled call is dropped.
#[test]
fn who_waits_for_the_end_is_known_by_its_last_waker() {
    let hand = Hand::started(narrow());
    let counts = [(); 2].map(|()| Arc::new(Count::default()));
    let mut closed = Box::pin(hand.mux.closed());
    for count in &counts {
        let waker = Waker::from(Arc::clone(count));
        let polled = closed.as_mut().poll(&mut Context::from_waker(&waker));
        assert!(polled.is_pending());
    }
    assert_eq!(Arc::strong_count(&counts[0]), 1);
    {
        let waker = Waker::from(Arc::clone(&counts[0]));
        let mut given_up = Box::pin(hand.mux.closed());
        let polled = given_up.as_mut().poll(&mut Context::from_waker(&waker));
        assert!(polled.is_pending());
    }
    assert_eq!(Arc::strong_count(&counts[0]), 1);
    hand.mux.abort();
    assert_eq!([0, 1].map(|at| counts[at].count()), [0, 1]);
}

#[test]
fn a_driver_that_waits_is_woken_when_the_session_is_aborted() {
    let mut hand = Hand::new(narrow());
    let mut driver = std::mem::replace(&mut hand.driver, Mux::new(narrow()).unwrap().1);
    let mut stuck = Call::waiting(std::future::poll_fn(|cx| driver.poll_write(cx, &mut Stuck)));
    assert_eq!(stuck.poll(), None);
    hand.mux.abort();
    assert_eq!(stuck.woken(), Err(Closed::Aborted));

    let (mux, mut driver) = Mux::new(narrow()).unwrap();
    let stuck = Call::waiting(std::future::poll_fn(|cx| driver.poll_read(cx, &mut Stuck)));
    mux.abort();
    assert_eq!(stuck.woken(), Err(Closed::Aborted));

    let (mux, driver) = Mux::new(narrow()).unwrap();
    let run = Call::waiting(driver.run(Stuck, Vec::new()));
    mux.abort();
    assert!(run.wakes() > 0);
    let mut run = run;
    assert_eq!(run.poll(), Some(Err(Closed::Aborted)));
}

/// Never ready, and wakes no one.
struct Stuck;

impl PollRead for Stuck {
    fn poll_read(&mut self, _: &mut Context<'_>, _: &mut [u8]) -> Poll<io::Result<usize>> {
        Poll::Pending
    }
}

impl PollWrite for Stuck {
    fn poll_write(&mut self, _: &mut Context<'_>, _: &[u8]) -> Poll<io::Result<usize>> {
        Poll::Pending
    }

    fn poll_flush(&mut self, _: &mut Context<'_>) -> Poll<io::Result<()>> {
        Poll::Pending
    }

    fn poll_close(&mut self, _: &mut Context<'_>) -> Poll<io::Result<()>> {
        Poll::Pending
    }
}

/// The calls of a writer: `w5` for five bytes, `f` for a flush, `c` for a close.
#[derive(Default)]
struct Log(Vec<String>);

impl PollWrite for Log {
    fn poll_write(&mut self, _: &mut Context<'_>, bytes: &[u8]) -> Poll<io::Result<usize>> {
        self.0.push(format!("w{}", bytes.len()));
        Poll::Ready(Ok(bytes.len()))
    }

    fn poll_flush(&mut self, _: &mut Context<'_>) -> Poll<io::Result<()>> {
        self.0.push("f".into());
        Poll::Ready(Ok(()))
    }

    fn poll_close(&mut self, _: &mut Context<'_>) -> Poll<io::Result<()>> {
        self.0.push("c".into());
        Poll::Ready(Ok(()))
    }
}

#[test]
fn a_close_writes_out_what_was_accepted_and_reads_on() {
    let mut hand = Hand::started(narrow());
    let sender = hand.mux.take_sender(Data).unwrap();
    let receiver = hand.mux.take_receiver(Overlap).unwrap();
    let mut other = hand.mux.take_receiver(Capability).unwrap();
    hand.feed(&greeted("issue 1 64"));
    sender.try_send(b"last").unwrap();
    receiver.limit(7).unwrap();
    let waits = Call::waiting(sender.send(b"late"));
    let later = Call::waiting(sender.send(b"later"));
    let recv = Call::waiting(other.recv());
    assert_eq!(hand.mux.closed_timeout(std::time::Duration::ZERO), None);
    hand.mux.close();
    assert_eq!((waits.wakes(), later.wakes()), (1, 1));
    assert_eq!(waits.woken(), Err(SendError::Closed(Closed::Local)));
    assert_eq!(later.woken(), Err(SendError::Closed(Closed::Local)));
    assert_eq!(receiver.issue(1), Err(CallError::Closed(Closed::Local)));
    assert_eq!(recv.wakes(), 0);
    assert!(hand.write_wakes() > 0);

    let mut log = Log::default();
    assert_eq!(hand.write(&mut log), Poll::Ready(Ok(())));
    let words = "a message of 9 bytes, and of a limit of 9 and seven finishes seven at once";
    assert_eq!(log.0, ["w24", "w1", "f", "c"], "{words}");
    assert_eq!(hand.write(&mut log), Poll::Ready(Ok(())));
    hand.feed(&frames("send 3 6869"));
    assert_eq!(recv.woken(), Ok(Some(b"hi".to_vec())));
    assert_eq!(hand.mux.closed_timeout(std::time::Duration::ZERO), None);
    let recv = Call::waiting(other.recv());
    assert_eq!(hand.read(&mut &finishes()[..]), Poll::Ready(Ok(())));
    assert_eq!(recv.woken(), Ok(None));
    assert_eq!(hand.mux.closed_blocking(), Ok(()));
    assert_eq!(log.0.len(), 4);
}

#[test]
fn no_room_is_issued_after_a_close() {
    let mut hand = Hand::started(narrow());
    let mut receiver = hand.mux.take_receiver(Data).unwrap();
    hand.feed(&greeted("send 1 6869, send 1 77"));
    hand.mux.close();
    assert_eq!(receiver.try_recv(), Ok(Some(b"hi".to_vec())));
    assert_eq!(
        receiver.recv_ref_blocking().unwrap().as_deref(),
        Some(&b"w"[..])
    );
    let mut bytes = Vec::new();
    assert!(hand.write(&mut bytes).is_ready());
    assert_eq!(bytes, finishes());
}

#[test]
fn the_writing_half_flushes_before_it_sleeps_and_is_woken_once() {
    let mut hand = Hand::new(by_caller(16));
    let receiver = hand.mux.take_receiver(Data).unwrap();
    let mut log = Log::default();
    for (issues, calls) in [(0, &["w4", "f"][..]), (2, &["w10", "f"]), (0, &[])] {
        let wakes = hand.write_wakes();
        (0..issues).for_each(|_| receiver.issue(5).unwrap());
        assert_eq!(hand.write_wakes() - wakes, issues.min(1));
        assert_eq!(hand.write(&mut log), Poll::Pending);
        assert_eq!(log.0, calls);
        log.0.clear();
    }
}

#[test]
fn a_stream_that_ends_in_order_ends_what_waits_for_it_alone() {
    let mut hand = Hand::started(narrow());
    let (sender, other) = (
        hand.mux.take_sender(Data).unwrap(),
        hand.mux.take_sender(Overlap).unwrap(),
    );
    let mut receiver = hand.mux.take_receiver(Data).unwrap();
    hand.feed(&greeted("issue 1 3, issue 2 1, send 1 6869"));
    hand.feed(&finishes());
    let poor = Call::waiting(sender.send(b"four"));
    let slot = {
        other.try_send(b"o").unwrap();
        Call::waiting(other.reserve(1))
    };
    assert_eq!(hand.read(&mut &[][..]), Poll::Ready(Ok(())));
    assert_eq!(poor.woken(), Err(SendError::Closed(Closed::Remote)));
    assert_eq!(slot.woken().err(), Some(SendError::Closed(Closed::Remote)));
    let again = hand.read(&mut Bad::Fails);
    assert_eq!(again, Poll::Ready(Ok(())), "it is read no more");
    hand.written();
    sender.try_send(b"two").unwrap();
    assert_eq!(hand.written(), frames("send 1 74776f"));
    assert_eq!(receiver.try_recv(), Ok(Some(b"hi".to_vec())));
    assert_eq!(receiver.recv_blocking(), Ok(None));
    hand.mux.close();
    assert_eq!(hand.write(&mut Vec::new()), Poll::Ready(Ok(())));
    assert_eq!(hand.mux.closed_blocking(), Ok(()));
}

#[test]
fn what_arrived_is_there_after_a_failure_and_not_after_an_abort() {
    let fault = broken(&[&greeted("send 1 6869")[..], b"\xff"].concat());
    for (bytes, last) in [("ff", fault), ("", Closed::Aborted)] {
        let mut hand = Hand::started(narrow());
        let mut receiver = hand.mux.take_receiver(Data).unwrap();
        hand.feed(&greeted("send 1 6869"));
        match bytes {
            "" => hand.mux.abort(),
            _ => assert!(hand.read(&mut &common::hex(bytes)[..]).is_ready()),
        }
        if last != Closed::Aborted {
            assert_eq!(receiver.recv_blocking(), Ok(Some(b"hi".to_vec())));
        }
        assert_eq!(receiver.recv_blocking(), Err(last));
    }
}

// The frames that a side writes when it drops a handle, in each version.
#[test]
fn an_end_that_is_dropped_is_told() {
    for (version, sender, receiver) in [
        (Version::One, "limit-sending 1 0", "limit-receiving 2 0"),
        (Version::Two, "finish 1", "limit-receiving 2 0"),
    ] {
        let mut config = by_caller(16);
        config.version = version;
        let mut hand = Hand::started(config);
        drop(hand.mux.take_sender(Data));
        assert_eq!(hand.written(), frames(sender));
        drop(hand.mux.take_receiver(Overlap));
        assert_eq!(hand.written(), frames(receiver));

        // A finish is sent only once.
        let finished = hand.mux.take_sender(Capability).unwrap();
        finished.finish().unwrap();
        assert_eq!(hand.written(), frames(&sender.replace(" 1", " 3")));
        let refused = finished.try_send(b"x");
        assert!(matches!(
            refused,
            Err(TrySendError::Failed(SendError::Refused(_)))
        ));
        let twice = CallError::Refused(Refusal::ChannelFinished);
        assert_eq!(finished.finish(), Err(twice));
        drop(finished);
        assert_eq!(hand.written(), []);
    }
}

#[test]
fn a_receiver_that_is_dropped_issues_nothing_more() {
    let mut hand = Hand::started(narrow());
    drop(hand.mux.take_receiver(Data));
    assert_eq!(hand.written(), frames("limit-receiving 1 0"));
    hand.feed(&greeted("send 1 6869, absolve 1 5"));
    assert_eq!(hand.written(), []);
}

#[test]
fn the_last_end_that_is_dropped_closes_the_session() {
    let Hand {
        mut mux,
        mut driver,
        ..
    } = Hand::started(narrow());
    let sender = mux.take_sender(Data).unwrap();
    assert!(mux.take_sender(Data).is_none());
    let receiver = mux.take_receiver(Data).unwrap();
    assert!(mux.take_receiver(Data).is_none());
    drop(mux);
    let mut log = Log::default();
    let mut write = |log: &mut Log| {
        let mut call = Call::new(std::future::poll_fn(|cx| driver.poll_write(cx, log)));
        call.poll()
    };
    assert_eq!(write(&mut log), None);
    let words = "six finishes of 1 byte and six limits of 9, seven at once";
    assert_eq!(log.0, ["w15", "w45", "f"], "{words}");
    drop(sender);
    assert_eq!(write(&mut log), None);
    drop(receiver);
    assert_eq!(write(&mut log), Some(Ok(())));
    assert_eq!(log.0.last().map(String::as_str), Some("c"));
}

fn panicking<T: Send + 'static>(held: T) {
    let thread = thread::spawn(move || {
        let _held = held;
        panic::resume_unwind(Box::new("a task panics"));
    });
    assert!(thread.join().is_err());
}

#[test]
fn an_end_that_a_panic_drops_aborts_the_session() {
    for which in 0..3 {
        let mut hand = Hand::started(narrow());
        let other = hand.mux.take_sender(Overlap).unwrap();
        let waits = Call::waiting(other.send(b"hello"));
        let mut receiver = hand.mux.take_receiver(Capability).unwrap();
        match which {
            0 => panicking(hand.mux.take_sender(Data)),
            1 => panicking(hand.mux.take_receiver(Data)),
            _ => {
                // No other handle is left in it that could abort instead.
                let ends = |it| (hand.mux.take_sender(it), hand.mux.take_receiver(it));
                let _ends = ALL.map(ends);
                panicking(hand.mux)
            }
        }
        assert_eq!(waits.woken(), Err(SendError::Closed(Closed::Aborted)));
        assert_eq!(receiver.recv_blocking(), Err(Closed::Aborted));
    }
}

/// A permit and a call that a panic drops return their guarantees, and nothing else happens.
#[test]
fn a_call_that_a_panic_drops_is_given_back() {
    let mut hand = Hand::started(narrow());
    hand.feed(&greeted("issue 1 5"));
    let sender = hand.mux.take_sender(Data).unwrap();
    let panicked = panic::catch_unwind(AssertUnwindSafe(|| {
        let _permit = sender.try_reserve(5).unwrap();
        let _call = Call::waiting(sender.send(b"hello"));
        panic::resume_unwind(Box::new("a task panics"));
    }));
    assert!(panicked.is_err());
    assert_eq!(sender.try_send(b"hello"), Ok(()));
}

fn bad_waker() -> Waker {
    const TABLE: RawWakerVTable = RawWakerVTable::new(
        |_| panic::resume_unwind(Box::new("a waker panics")),
        |_| {},
        |_| {},
        |_| {},
    );
    unsafe { Waker::from_raw(RawWaker::new(std::ptr::null(), &TABLE)) }
}

/// A waker that panics when it wakes.
struct Panicking;

impl Wake for Panicking {
    fn wake(self: Arc<Panicking>) {
        panic::resume_unwind(Box::new("a waker panics"));
    }
}

#[test]
fn a_waker_that_panics_keeps_no_other_asleep() {
    let mut hand = Hand::started(narrow());
    let mut first = hand.mux.take_receiver(Data).unwrap();
    let mut second = hand.mux.take_receiver(Overlap).unwrap();
    let waker = Waker::from(Arc::new(Panicking));
    assert!(first
        .poll_recv(&mut Context::from_waker(&waker))
        .is_pending());
    let call = Call::waiting(second.recv());
    let abort = panic::catch_unwind(AssertUnwindSafe(|| hand.mux.abort()));
    assert!(abort.is_err());
    assert_eq!(call.woken(), Err(Closed::Aborted));
}

/// A panic inside a call poisons no lock: the session is aborted, and all calls are notified.
#[test]
fn a_panic_inside_of_a_call_aborts_the_session() {
    let _watchdog = watchdog::Watchdog::new("a panic inside of a call");
    let mut hand = Hand::started(narrow());
    let sender = hand.mux.take_sender(Data).unwrap();
    let waits = Call::waiting(sender.send(b"hello"));
    let mut receiver = hand.mux.take_receiver(Data).unwrap();
    let waker = bad_waker();
    let panicked = panic::catch_unwind(AssertUnwindSafe(|| {
        let _ = receiver.poll_recv(&mut Context::from_waker(&waker));
    }));
    assert!(panicked.is_err());
    assert_eq!(waits.woken(), Err(SendError::Closed(Closed::Aborted)));
    assert_eq!(receiver.recv_blocking(), Err(Closed::Aborted));
}

/// Owns a handle, as the task of an executor whose last waker is dropped does.
struct Holds(#[allow(dead_code)] Mutex<Option<Sender>>);

impl Wake for Holds {
    fn wake(self: Arc<Holds>) {}
}

/// A dropped waker may drop a task, whose handles then call the session.
#[test]
fn a_waker_that_is_dropped_may_call_the_session() {
    let _watchdog = watchdog::Watchdog::new("a waker that is dropped");
    let mut hand = Hand::started(narrow());
    let mut receiver = hand.mux.take_receiver(Data).unwrap();
    let sender = hand.mux.take_sender(Overlap).unwrap();
    let holding = |hand: &mut Hand, channel| {
        Waker::from(Arc::new(Holds(Mutex::new(hand.mux.take_sender(channel)))))
    };
    // Another waker replaces it.
    let waker = holding(&mut hand, Data);
    assert!(receiver
        .poll_recv(&mut Context::from_waker(&waker))
        .is_pending());
    drop(waker);
    assert!(Call::waiting(receiver.recv()).poll().is_none());
    assert_eq!(hand.written(), frames("finish 1"));
    // Its call is cancelled.
    let waker = holding(&mut hand, Capability);
    let mut call = Box::pin(sender.send(b"hello"));
    let polled = call.as_mut().poll(&mut Context::from_waker(&waker));
    assert!(polled.is_pending());
    drop(waker);
    drop(call);
    assert_eq!(hand.written(), frames("finish 3"));
    // The waker is woken.
    let waker = holding(&mut hand, Channel::StaticToken);
    assert!(receiver
        .poll_recv(&mut Context::from_waker(&waker))
        .is_pending());
    drop(waker);
    hand.feed(&greeted("send 1 6869"));
    assert_eq!(hand.written(), frames("finish 6"));
}

#[test]
fn a_reason_is_an_error_of_a_device() {
    let kinds = [
        (Closed::Local, ErrorKind::ConnectionAborted),
        (Closed::Aborted, ErrorKind::ConnectionAborted),
        (transport(ErrorKind::TimedOut, "late"), ErrorKind::TimedOut),
        (broken(b"\x11"), ErrorKind::UnexpectedEof),
        (broken(b"\x11\0\0"), ErrorKind::InvalidData),
        (broken(b"LCM\x02\x71\x71"), ErrorKind::InvalidData),
    ];
    for (closed, kind) in kinds {
        let error = io::Error::from(closed.clone());
        assert_eq!(
            (error.kind(), error.to_string()),
            (kind, closed.to_string())
        );
    }
    let refused = SendError::Refused(Refusal::EmptyBody);
    assert_eq!(refused.to_string(), "the message is empty");
}

/// Aborts its session while it reads the beginning of a message.
struct Aborts<'a>(&'a Mux, u32);

impl PollRead for Aborts<'_> {
    fn poll_read(&mut self, cx: &mut Context<'_>, buffer: &mut [u8]) -> Poll<io::Result<usize>> {
        self.0.abort();
        self.1 += 1;
        (&b"\x11\0\x02h"[..]).poll_read(cx, buffer)
    }
}

#[test]
fn a_session_that_is_over_reads_no_rest_of_a_message() {
    let (mux, mut driver) = Mux::new(narrow()).unwrap();
    let mut reader = Aborts(&mux, 0);
    let waker = Waker::from(std::sync::Arc::new(crate::hand::Count::default()));
    let read = driver.poll_read(&mut Context::from_waker(&waker), &mut reader);
    assert_eq!((read, reader.1), (Poll::Ready(Err(Closed::Aborted)), 1));
}
