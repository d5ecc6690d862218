//! The events of a session: stalls, messages longer than the peer's ring, and the end.
use crate::hand::{Call, Count, Hand};
use crate::*;
use lcmux::Channel::{Data, Overlap};
use lcmux::{Closed, Event, PollSender, SendError};
use std::panic::{catch_unwind, AssertUnwindSafe};
use std::sync::atomic::{AtomicBool, Ordering::Relaxed};
use std::sync::{mpsc, Arc, Mutex, OnceLock};
use std::task::{Context, Poll, Waker};
use std::thread;
use std::time::Duration;

/// The events that were reported since they were last read, without times.
#[derive(Clone, Default)]
struct Reported(Arc<Mutex<Vec<String>>>);

impl Reported {
    fn note(&self, event: &Event) {
        let line = match event {
            Event::Stalled { channel, stall } => format!("{channel:?} lacks {stall:?}"),
            Event::Resumed { channel, stall, .. } => format!("{channel:?} lacked {stall:?}"),
            event => format!("{event:?}"),
        };
        self.0.lock().unwrap().push(line);
    }

    fn take(&self) -> Vec<String> {
        std::mem::take(&mut *self.0.lock().unwrap())
    }

    fn is_empty(&self) -> bool {
        self.0.lock().unwrap().is_empty()
    }
}

/// A session that reports its events.
fn reporting() -> (Hand, Reported) {
    let mut hand = Hand::started(narrow());
    let reported = Reported::default();
    let noted = reported.clone();
    hand.driver.on_event(move |event| noted.note(event));
    (hand, reported)
}

#[test]
fn a_call_that_waits_is_a_stall_until_it_goes() {
    let (mut hand, reported) = reporting();
    let sender = hand.mux.take_sender(Data).unwrap();
    let call = Call::waiting(sender.send(b"hello"));
    let second = Call::waiting(sender.send(b"x"));
    assert_eq!(reported.take(), ["Data lacks Guarantees"]);
    hand.feed(&greeted("issue 1 5"));
    // It can go now, whenever it is polled.
    assert_eq!(reported.take(), ["Data lacked Guarantees"]);
    assert_eq!(call.woken(), Ok(()));
    // The second call is the first now.
    assert_eq!(reported.take(), ["Data lacks Guarantees"]);
    drop(second);
    assert_eq!(reported.take(), ["Data lacked Guarantees"]);
}

/// A call that has its guarantees and finds no slot, and then loses a guarantee again before it is polled.
#[test]
fn a_stall_becomes_another_one() {
    let (mut hand, reported) = reporting();
    let sender = hand.mux.take_sender(Data).unwrap();
    hand.feed(&greeted("issue 1 9"));
    sender.try_send(&[7; 9]).unwrap();
    let call = Call::waiting(sender.send(b"hello"));
    assert_eq!(reported.take(), ["Data lacks Guarantees"]);
    hand.feed(&frames("issue 1 5"));
    let now = ["Data lacked Guarantees", "Data lacks Slot"];
    assert_eq!(reported.take(), now);
    hand.written();
    assert_eq!(reported.take(), ["Data lacked Slot"]);
    sender.absolve(1).unwrap();
    assert_eq!(reported.take(), ["Data lacks Guarantees"]);
    hand.feed(&frames("issue 1 1"));
    assert_eq!(reported.take(), ["Data lacked Guarantees"]);
    assert_eq!(call.woken(), Ok(()));
    assert_eq!(reported.take(), [""; 0]);
}

/// Its call is completed on its behalf.
#[test]
fn a_thread_that_waits_for_guarantees_lacks_no_slot() {
    for len in [5, 10_000] {
        let (mut hand, reported) = reporting();
        let sender = hand.mux.take_sender(Data).unwrap();
        thread::scope(|scope| {
            let thread = scope.spawn(|| sender.send_blocking(&vec![7; len]));
            while reported.is_empty() {
                thread::yield_now();
            }
            hand.feed(&greeted(&format!("issue 1 {len}")));
            assert_eq!(thread.join().unwrap(), Ok(()));
        });
        let now = ["Data lacks Guarantees", "Data lacked Guarantees"];
        assert_eq!(reported.take(), now);
    }
}

/// However late its task polls it. The end of the session is its only event.
#[test]
fn a_call_that_fails_is_no_stall_any_more() {
    for end in ["limit-receiving 1 0", "a close", "an abort"] {
        let (mut hand, reported) = reporting();
        let sender = hand.mux.take_sender(Data).unwrap();
        let call = Call::waiting(sender.send(b"hello"));
        let mut now = vec!["Data lacks Guarantees", "Data lacked Guarantees"];
        match end {
            "a close" => hand.mux.close(),
            "an abort" => {
                hand.mux.abort();
                now[1] = "Closed(Err(Aborted))";
            }
            limit => hand.feed(&greeted(limit)),
        }
        assert_eq!(reported.take(), now, "{end}");
        let stats = sender.stats();
        thread::sleep(Duration::from_millis(5));
        assert_eq!(sender.stats(), stats, "{end}");
        assert!(call.woken().is_err());
        assert_eq!(sender.stats(), stats, "{end}");
        assert_eq!(reported.take(), [""; 0], "{end}");
    }
}

#[test]
fn a_call_that_need_not_wait_is_no_event() {
    let (mut hand, reported) = reporting();
    let sender = hand.mux.take_sender(Data).unwrap();
    assert!(sender.try_send(b"x").is_err());
    hand.feed(&room_on_all());
    assert_eq!(Call::new(sender.send(b"hello")).poll(), Some(Ok(())));
    hand.written();
    assert_eq!(reported.take(), [""; 0]);
}

#[test]
fn a_stall_tells_how_long_it_was() {
    let mut hand = Hand::started(narrow());
    let waits = Arc::new(Mutex::new(Vec::new()));
    let noted = Arc::clone(&waits);
    hand.driver.on_event(move |event| {
        if let Event::Resumed { waited, .. } = event {
            noted.lock().unwrap().push(*waited);
        }
    });
    let sender = hand.mux.take_sender(Data).unwrap();
    let call = Call::waiting(sender.send(b"hello"));
    thread::sleep(Duration::from_millis(20));
    hand.feed(&greeted("issue 1 5"));
    thread::sleep(Duration::from_millis(20)); // it was notified, and its task is late
    assert_eq!(call.woken(), Ok(()));
    let waits = waits.lock().unwrap();
    let stats = sender.stats();
    assert_eq!(*waits, [stats.waited_for_guarantees]);
    assert_eq!(stats.waited_for_slots, Duration::ZERO);
    assert!(waits[0] >= Duration::from_millis(20));
}

/// Once for each call, however often more is issued.
#[test]
fn a_call_that_waits_for_more_than_was_ever_issued_is_reported_once() {
    let (mut hand, reported) = reporting();
    let sender = hand.mux.take_sender(Data).unwrap();
    let mut call = Call::waiting(sender.send(&[7; 40]));
    reported.take();
    hand.feed(&greeted("issue 1 10"));
    let oversized =
        |len, most| format!("Oversized {{ channel: Data, len: {len}, most_held: {most} }}");
    assert_eq!(reported.take(), [oversized(40, 10)]);
    hand.feed(&frames("issue 1 10"));
    assert_eq!(call.poll(), None);
    assert_eq!(reported.take(), [""; 0]);
    drop(call);
    reported.take();
    let _second = Call::waiting(sender.send(&[7; 41]));
    assert_eq!(
        reported.take(),
        ["Data lacks Guarantees".to_string(), oversized(41, 20)]
    );
}

#[test]
fn the_end_is_the_last_event() {
    for (end, told) in [
        (None, "Closed(Ok(()))"),
        (Some(Closed::Aborted), "Closed(Err(Aborted))"),
        (Some(Closed::Cut), "Closed(Err(Cut))"),
    ] {
        let (mut hand, reported) = reporting();
        let sender = hand.mux.take_sender(Overlap).unwrap();
        let call = Call::waiting(sender.send(b"hello"));
        assert_eq!(reported.take(), ["Overlap lacks Guarantees"]);
        match &end {
            None => {
                drop(call);
                hand.mux.close();
                let _ = hand.write(&mut Vec::new());
                assert_eq!(reported.take(), ["Overlap lacked Guarantees"]);
                let _ = hand.read(&mut &[GREETING, &finishes()].concat()[..]);
            }
            Some(Closed::Aborted) => {
                hand.mux.abort();
                assert_eq!(call.woken(), Err(Closed::Aborted.into()));
            }
            _ => {
                let _ = hand.read(&mut &GREETING[..]);
                assert_eq!(call.woken(), Err(Closed::Cut.into()));
            }
        }
        hand.mux.abort();
        assert_eq!(reported.take(), [told]);
    }
}

/// As a hook that logs what the session holds does.
#[test]
fn a_hook_may_call_the_session_and_is_not_the_only_one() {
    let (mut hand, reported) = reporting();
    let sender = Arc::new(OnceLock::new());
    let (kept, noted) = (Arc::clone(&sender), Reported::default());
    let held = noted.clone();
    hand.driver.on_event(move |_| {
        let sender: &lcmux::Sender = kept.get().unwrap();
        held.0
            .lock()
            .unwrap()
            .push(format!("holds {}", sender.held()));
    });
    sender.set(hand.mux.take_sender(Data).unwrap()).unwrap();
    let sender = sender.get().unwrap();
    let call = Call::waiting(sender.send(b"hello"));
    hand.feed(&greeted("issue 1 5"));
    assert_eq!(noted.take(), ["holds 0", "holds 5"]);
    assert_eq!(reported.take().len(), 2);
    drop(call);
}

/// A hook may own a handle of its session, which holds the hook.
#[test]
fn a_hook_is_dropped_after_the_last_event() {
    let mut hand = Hand::started(narrow());
    let sender = Arc::new(hand.mux.take_sender(Data).unwrap());
    let owned = Arc::clone(&sender);
    hand.driver
        .on_event(move |_| assert_eq!(owned.channel(), Data));
    hand.mux.abort();
    assert_eq!(Arc::strong_count(&sender), 1);
}

/// As one that a session gets when it is run after it was aborted.
#[test]
fn a_hook_that_comes_after_the_end_is_told_of_it_and_dropped() {
    let mut hand = Hand::started(narrow());
    let (first, second) = (Reported::default(), Reported::default());
    let noted = first.clone();
    hand.driver.on_event(move |event| noted.note(event));
    let sender = Arc::new(hand.mux.take_sender(Data).unwrap());
    hand.mux.abort();
    let (owned, noted) = (Arc::clone(&sender), second.clone());
    hand.driver.on_event(move |event| {
        assert_eq!(owned.held(), 0);
        noted.note(event);
    });
    for reported in [first, second] {
        assert_eq!(reported.take(), ["Closed(Err(Aborted))"]);
    }
    assert_eq!(Arc::strong_count(&sender), 1);
}

/// A thread's call is notified while the thread is in the hook that reports it as stalled: no bytes are reserved for it.
#[test]
fn a_hook_may_wait_for_another_channel() {
    let mut hand = Hand::started(narrow());
    let data = hand.mux.take_sender(Data).unwrap();
    let overlap = Mutex::new(Some(hand.mux.take_sender(Overlap).unwrap()));
    let (entered, in_the_hook) = mpsc::channel();
    let (arrived, guarantees) = mpsc::channel::<()>();
    let (sent, answer) = mpsc::channel();
    let guarantees = Mutex::new(guarantees);
    hand.driver.on_event(move |_| {
        let first = overlap.lock().unwrap().take();
        if let Some(overlap) = first {
            entered.send(()).unwrap();
            guarantees.lock().unwrap().recv().unwrap();
            let limit = Duration::from_secs(5);
            sent.send(overlap.send_timeout(&[7; 10_000], limit))
                .unwrap();
        }
    });
    let stalled = thread::spawn(move || data.send_blocking(&[7; 60_000]));
    in_the_hook.recv().unwrap();
    hand.feed(&greeted("issue 1 60000, issue 2 10000"));
    arrived.send(()).unwrap();
    assert_eq!(answer.recv().unwrap(), Ok(()));
    while !stalled.is_finished() {
        hand.written();
        thread::yield_now();
    }
    assert_eq!(stalled.join().unwrap(), Ok(()));
}

/// The call that caused the event fails, and no other.
#[test]
fn a_hook_that_panics_delays_no_other_call() {
    let mut hand = Hand::started(narrow());
    hand.driver.on_event(|event| {
        assert!(!matches!(event, Event::Closed(_)), "a hook");
    });
    let sender = hand.mux.take_sender(Data).unwrap();
    let call = Call::waiting(sender.send(b"hello"));
    let mut receiver = hand.mux.take_receiver(Data).unwrap();
    let recv = Call::waiting(receiver.recv());
    let aborted = catch_unwind(AssertUnwindSafe(|| hand.mux.abort()));
    assert!(aborted.is_err());
    assert_eq!(call.woken(), Err(Closed::Aborted.into()));
    assert_eq!(recv.woken(), Err(Closed::Aborted));
}

/// A session with a hook that panics at the next event if it is armed, and the switch that arms it.
fn armed() -> (Hand, Arc<AtomicBool>) {
    let mut hand = Hand::started(narrow());
    let is_armed = Arc::new(AtomicBool::new(false));
    let armed = Arc::clone(&is_armed);
    hand.driver
        .on_event(move |_| assert!(!armed.swap(false, Relaxed), "a hook"));
    (hand, is_armed)
}

/// Polls once; `None` if it panics.
fn caught(sender: &mut PollSender, body: &[u8]) -> Option<Poll<Result<(), SendError>>> {
    let waker = Waker::from(Arc::new(Count::default()));
    let mut cx = Context::from_waker(&waker);
    catch_unwind(AssertUnwindSafe(|| sender.poll_send(&mut cx, body))).ok()
}

/// The call waits: it may be polled again, and leaves its slot when it is cancelled.
#[test]
fn a_polled_call_that_a_hook_interrupts_keeps_its_slot() {
    let (mut hand, is_armed) = armed();
    let sender = hand.mux.take_sender(Data).unwrap();
    let mut polled = PollSender::new(sender.clone());
    is_armed.store(true, Relaxed);
    assert_eq!(caught(&mut polled, b"hello"), None);
    assert_eq!(caught(&mut polled, b"hello"), Some(Poll::Pending));
    assert!(polled.cancel());
    hand.feed(&greeted("issue 1 1"));
    assert_eq!(Call::new(sender.send(b"x")).poll(), Some(Ok(())));
}

/// The message was sent, and the next one is another.
#[test]
fn a_polled_call_that_a_hook_interrupts_is_not_taken_for_the_next() {
    let (mut hand, is_armed) = armed();
    let sender = hand.mux.take_sender(Data).unwrap();
    let mut polled = PollSender::new(sender.clone());
    assert_eq!(caught(&mut polled, b"one"), Some(Poll::Pending));
    let behind = Call::waiting(sender.send(b"behind"));
    hand.feed(&greeted("issue 1 3"));
    is_armed.store(true, Relaxed);
    assert_eq!(
        caught(&mut polled, b"one"),
        None,
        "the next call lacks credit"
    );
    assert_eq!(hand.written(), frames("send 1 6f6e65"));
    assert_eq!(caught(&mut polled, b"two"), Some(Poll::Pending));
    drop(behind);
    hand.feed(&frames("issue 1 3"));
    assert_eq!(caught(&mut polled, b"two"), Some(Poll::Ready(Ok(()))));
    assert_eq!(hand.written(), frames("send 1 74776f"));
}
