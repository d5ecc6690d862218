//! Receivers.
use crate::hand::{Call, Count, Hand};
use crate::*;
use lcmux::Channel::{Data, Overlap};
use lcmux::{PollRead, Receiver, RecvTimeoutError, TryRecvError, CHANNELS};
use std::future::Future;
use std::io;
use std::sync::Arc;
use std::task::{Context, Poll, Wake, Waker};
use std::thread;
use std::time::{Duration, Instant};

#[test]
fn a_message_wakes_the_receiver_of_its_channel_alone() {
    let mut hand = Hand::started(narrow());
    let mut receiver = hand.mux.take_receiver(Data).unwrap();
    let mut other = hand.mux.take_receiver(Overlap).unwrap();
    let (call, other) = (Call::waiting(receiver.recv()), Call::waiting(other.recv()));
    hand.feed(&greeted("send 1 6869")[..10]);
    assert_eq!(call.wakes(), 0);
    hand.feed(&frames("send 1 6869")[6..]);
    assert_eq!((call.wakes(), other.wakes()), (1, 0));
    assert_eq!(call.woken(), Ok(Some(b"hi".to_vec())));
    assert_eq!(receiver.try_recv(), Err(TryRecvError::Empty));
    let stats = receiver.stats();
    assert_eq!((stats.messages_received, stats.bytes_received), (1, 2));
}

// Reads of at most this many bytes. No read has an empty buffer.
struct Reads<'a>(&'a [u8], usize);

impl PollRead for Reads<'_> {
    fn poll_read(&mut self, cx: &mut Context<'_>, buffer: &mut [u8]) -> Poll<io::Result<usize>> {
        assert!(!buffer.is_empty());
        let most = buffer.len().min(self.1);
        match self.0.is_empty() {
            true => Poll::Pending,
            false => self.0.poll_read(cx, &mut buffer[..most]),
        }
    }
}

#[test]
fn a_read_that_was_filled_by_short_messages_is_followed_by_one_of_twice_as_many_bytes() {
    let mut hand = Hand::started(Config::new([1 << 20; CHANNELS], 16));
    let stream = b"\x11\0\x02hi".repeat(100_000);
    let mut asked = Vec::new();
    let mut rest = &stream[..];
    while !rest.is_empty() {
        let mut reads = Asked(&mut rest, &mut asked);
        assert_eq!(hand.read(&mut reads), Poll::Pending);
    }
    let full = [4_096, 8_192, 16_384, 32_768, 65_536, 131_072];
    let near = |(asked, full): (&usize, &usize)| (full - 5..=*full).contains(asked);
    assert!(asked.iter().zip(&full).all(near), "{asked:?}");
}

/// Records how many bytes each read asks for.
struct Asked<'a, 'b>(&'a mut &'b [u8], &'a mut Vec<usize>);

impl PollRead for Asked<'_, '_> {
    fn poll_read(&mut self, cx: &mut Context<'_>, buffer: &mut [u8]) -> Poll<io::Result<usize>> {
        match self.0.is_empty() {
            true => Poll::Pending,
            false => {
                self.1.push(buffer.len());
                self.0.poll_read(cx, buffer)
            }
        }
    }
}

/// Lengths around the first and the largest buffer of a read.
const LENGTHS: [usize; 9] = [
    4_090, 4_091, 4_092, 8_187, 61_440, 131_067, 131_068, 262_144, 1_048_576,
];

#[test]
fn messages_of_any_length_come_however_they_are_cut() {
    for most in [1_000, 65_536, 70_001, usize::MAX] {
        let mut config = Config::new([1 << 22; CHANNELS], 16);
        config.version = Version::Two;
        let mut hand = Hand::started(config);
        let mut receiver = hand.mux.take_receiver(Data).unwrap();
        let mut stream = GREETING.to_vec();
        for len in LENGTHS {
            stream.extend([&[0x11], &(len as u32).to_be_bytes()[..]].concat());
            stream.extend((0..len).map(|at| (at % 251) as u8));
            stream.extend(b"\x11\0\0\0\x02hi");
        }
        let mut reads = Reads(&stream, most);
        while !reads.0.is_empty() {
            assert_eq!(hand.read(&mut reads), Poll::Pending);
        }
        for len in LENGTHS {
            let long = receiver.try_recv().unwrap().unwrap();
            assert!(
                long.len() == len
                    && long
                        .iter()
                        .zip(0..)
                        .all(|(byte, at)| *byte as usize == at % 251)
            );
            assert_eq!(receiver.try_recv(), Ok(Some(b"hi".to_vec())));
        }
    }
}

#[test]
fn a_message_that_a_dropped_call_was_woken_for_is_there() {
    let mut hand = Hand::started(narrow());
    let mut receiver = hand.mux.take_receiver(Data).unwrap();
    for lent in [false, true] {
        match lent {
            true => drop(Call::waiting(receiver.recv_ref())),
            false => {
                let call = Call::waiting(receiver.recv());
                hand.feed(&greeted("send 1 6869, send 1 77"));
                assert_eq!(call.wakes(), 1);
                drop(call);
                assert_eq!(hand.written(), []);
                let taken = Call::new(receiver.recv()).poll().unwrap();
                assert_eq!(taken, Ok(Some(b"hi".to_vec())));
                assert_eq!(hand.written(), frames("issue 1 2"));
                let lent = Call::new(receiver.recv_ref()).poll().unwrap();
                assert_eq!(lent.unwrap().as_deref(), Some(&b"w"[..]));
                assert_eq!(hand.written(), frames("issue 1 1"));
            }
        }
    }
}

#[test]
fn a_channel_ends_behind_its_messages() {
    for end in ["finish 1", "limit-sending 1 0"] {
        let mut hand = Hand::started(narrow());
        let mut receiver = hand.mux.take_receiver(Data).unwrap();
        let call = Call::waiting(receiver.recv());
        hand.feed(&greeted(&format!("send 1 6869, {end}")));
        assert_eq!(call.woken(), Ok(Some(b"hi".to_vec())));
        assert_eq!(receiver.try_recv(), Ok(None));
        assert_eq!(receiver.recv_blocking(), Ok(None));
        assert!(receiver.recv_ref_blocking().unwrap().is_none());
        assert_eq!(receiver.recv_timeout(Duration::ZERO), Ok(None));

        let mut receiver = hand.mux.take_receiver(Overlap).unwrap();
        let call = Call::waiting(receiver.recv());
        hand.feed(&frames(&end.replace(" 1", " 2")));
        assert_eq!(call.woken(), Ok(None));
    }
}

#[test]
fn a_wait_for_a_message_times_out() {
    let mut hand = Hand::started(narrow());
    let mut receiver = hand.mux.take_receiver(Data).unwrap();
    let (start, timeout) = (Instant::now(), Duration::from_millis(20));
    let timed_out = Err(RecvTimeoutError::Timeout);
    assert_eq!(receiver.recv_timeout(timeout), timed_out);
    assert!(start.elapsed() >= timeout);
    hand.feed(&greeted("send 1 6869"));
    let taken = receiver.recv_timeout(Duration::MAX);
    assert_eq!(taken, Ok(Some(b"hi".to_vec())));
}

/// A receiver that took three messages, the first of which woke the writing half, before that half runs.
fn took_three(hand: &mut Hand) -> Receiver {
    let mut receiver = hand.mux.take_receiver(Data).unwrap();
    hand.feed(&greeted("send 1 61, send 1 6262, send 1 636363"));
    assert_eq!((hand.written(), hand.written.count()), (vec![], 0));
    for len in 1..=3 {
        let message = receiver.try_recv().unwrap().unwrap();
        assert_eq!((message.len(), hand.written.count()), (len, 1));
    }
    receiver
}

#[test]
fn room_that_is_freed_meanwhile_is_issued_as_one() {
    let mut hand = Hand::started(narrow());
    let _receiver = took_three(&mut hand);
    assert_eq!(hand.written(), frames("issue 1 1, issue 1 5"));
    let mut hand = Hand::started(narrow());
    let _receiver = took_three(&mut hand);
    hand.mux.close();
    let mut bytes = Vec::new();
    assert!(hand.write(&mut bytes).is_ready());
    let issues = frames("issue 1 1, issue 1 5");
    assert_eq!(bytes, [issues, finishes()].concat());
}

/// Neither a message that is sent nor a frame that arrives issues the room earlier. It is issued behind what is queued.
#[test]
fn room_that_is_freed_meanwhile_is_issued_by_the_next_pull_alone() {
    let mut hand = Hand::started(with_slots(16));
    let mut receiver = took_three(&mut hand);
    let sender = hand.mux.take_sender(Overlap).unwrap();
    hand.feed(&frames("issue 2 9, send 1 64646464"));
    sender.try_send(b"x").unwrap();
    assert_eq!(receiver.try_recv(), Ok(Some(b"dddd".to_vec())));
    assert!(sender.try_send(&[7; 9]).is_err());
    sender.absolve(1).unwrap();
    let due = "issue 1 1, send 2 78, absolve 2 1, issue 1 9";
    assert_eq!(hand.written(), frames(due));
}

/// Freed bytes are issued when the caller queries the receiver, and before the caller's own control frames.
#[test]
fn room_that_is_freed_is_issued_before_all_else() {
    type Case = (fn(&Receiver), &'static str);
    let calls: [Case; 6] = [
        (|it| assert_eq!(it.room(), 0), ""),
        (|it| assert_eq!(it.book().outstanding, 64), ""),
        (|it| assert!(it.issue(1).is_err()), ""),
        (|it| it.limit(2).unwrap(), ", limit-receiving 1 2"),
        (|it| it.plead(9).unwrap(), ", plead 1 9"),
        (|it| it.set_issue_policy(IssuePolicy::ByCaller).unwrap(), ""),
    ];
    for (call, then) in calls {
        let mut hand = Hand::started(narrow());
        let receiver = took_three(&mut hand);
        call(&receiver);
        assert_eq!(
            hand.written(),
            frames(&format!("issue 1 1, issue 1 5{then}"))
        );
    }
}

#[test]
fn what_is_buffered_is_shown_and_the_most_of_it_kept() {
    let mut hand = Hand::started(narrow());
    let mut receiver = hand.mux.take_receiver(Data).unwrap();
    hand.feed(&greeted("send 1 616263"));
    hand.feed(&frames("send 1 6465"));
    let buffered = |receiver: &Receiver| {
        let stats = receiver.stats();
        (stats.buffered, stats.most_buffered)
    };
    assert_eq!(buffered(&receiver), (5, 5));
    while receiver.try_recv().is_ok() {}
    assert_eq!(buffered(&receiver), (0, 5));
    hand.feed(&frames("send 1 66"));
    assert_eq!(buffered(&receiver), (1, 5));
}

#[test]
fn a_long_message_is_lent_behind_a_short_one() {
    let mut hand = Hand::started(narrow());
    let mut receiver = hand.mux.take_receiver(Data).unwrap();
    let long = "61".repeat(50);
    hand.feed(&greeted(&format!("send 1 6869, send 1 {long}, send 1 77")));
    for want in [&b"hi"[..], &[0x61; 50], b"w"] {
        let message = receiver.recv_ref_blocking().unwrap().unwrap();
        assert_eq!(message.as_ref(), want);
    }
}

/// A call wakes the task that polled it last.
#[test]
fn the_last_task_that_polled_is_woken() {
    let mut hand = Hand::started(narrow());
    let sender = hand.mux.take_sender(Data).unwrap();
    let mut receiver = hand.mux.take_receiver(Data).unwrap();
    let counts = [(); 2].map(|()| Arc::new(Count::default()));
    let count = |at: usize| counts[at].count();
    let mut send = Box::pin(sender.send(b"hello"));
    for count in &counts {
        let waker = Waker::from(Arc::clone(count));
        let mut context = Context::from_waker(&waker);
        assert!(receiver.poll_recv(&mut context).is_pending());
        assert!(send.as_mut().poll(&mut context).is_pending());
    }
    hand.feed(&greeted("send 1 6869"));
    assert_eq!([0, 1].map(count), [0, 1]);
    hand.feed(&frames("issue 1 5"));
    assert_eq!([0, 1].map(count), [0, 2]);
}

/// Sends when it is dropped, and waits for that send.
struct Sends(lcmux::Sender);

impl Wake for Sends {
    fn wake(self: Arc<Sends>) {}
}

impl Drop for Sends {
    fn drop(&mut self) {
        self.0.send_blocking(b"hello").unwrap();
    }
}

/// A call within another call on the same thread takes no wake-up of the outer one.
#[test]
fn a_call_within_a_call_leaves_its_wake_ups_to_it() {
    let mut hand = Hand::started(narrow());
    let mut receiver = hand.mux.take_receiver(Data).unwrap();
    let waker = Waker::from(Arc::new(Sends(hand.mux.take_sender(Data).unwrap())));
    let polled = receiver.poll_recv(&mut Context::from_waker(&waker));
    assert!(polled.is_pending());
    drop(waker); // the receiver keeps one clone until it gets another waker
    let recv = thread::spawn(move || receiver.recv_blocking());
    while hand.mux.stats()[Data].waited_for_guarantees.is_zero() {
        thread::yield_now();
    }
    hand.feed(&greeted("send 1 6869"));
    hand.feed(&frames("issue 1 5"));
    assert_eq!(recv.join().unwrap(), Ok(Some(b"hi".to_vec())));
}

#[test]
fn a_thread_that_waits_sleeps() {
    let mut hand = Hand::started(narrow());
    let mut receiver = hand.mux.take_receiver(Data).unwrap();
    let before = ran();
    // An early token, such as the wake-up of an earlier call, does not keep the thread awake.
    for _ in 0..2 {
        let timed_out = receiver.recv_timeout(Duration::from_millis(300));
        assert_eq!(timed_out, Err(RecvTimeoutError::Timeout));
        hand.feed(&greeted("send 1 6869"));
        assert_eq!(receiver.try_recv(), Ok(Some(b"hi".to_vec())));
        hand = Hand::started(narrow());
        receiver = hand.mux.take_receiver(Data).unwrap();
    }
    assert!(
        ran() - before < 20,
        "{} hundredths of a second",
        ran() - before
    );
}
