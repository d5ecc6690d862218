//! Senders and permits.
use crate::hand::{Call, Hand};
use crate::*;
use lcmux::Channel::{Data, Overlap};
use lcmux::{Needs, Refusal, SendError, SendTimeoutError, TrySendError};
use std::sync::{mpsc, Arc, Mutex};
use std::task::{Context, Wake, Waker};
use std::thread;
use std::time::{Duration, Instant};

fn refused(refusal: Refusal) -> SendError {
    SendError::Refused(refusal)
}

#[test]
fn a_send_waits_for_guarantees_and_is_woken_once() {
    let mut hand = Hand::started(narrow());
    let sender = hand.mux.take_sender(Data).unwrap();
    let mut call = Call::waiting(sender.send(b"hello"));
    hand.feed(&greeted("issue 1 4"));
    assert_eq!((call.wakes(), call.poll()), (0, None));
    hand.feed(&frames("issue 2 9, issue 1 1"));
    assert_eq!(call.woken(), Ok(()));
    assert_eq!(hand.written(), frames("send 1 68656c6c6f"));
    let stats = sender.stats();
    assert_eq!((stats.messages_sent, stats.bytes_sent), (1, 5));
}

#[test]
fn a_send_waits_for_a_slot_and_is_woken_once() {
    let mut hand = Hand::started(narrow());
    hand.feed(&room_on_all());
    let sender = hand.mux.take_sender(Data).unwrap();
    let other = hand.mux.take_sender(Overlap).unwrap();
    sender.try_send(b"a").unwrap();
    let call = Call::waiting(sender.send(b"b"));
    let full = Err(TrySendError::Full(Needs::Slot));
    assert_eq!(sender.try_send(b"c"), full);
    other.try_send(b"d").unwrap(); // in its channel's own slot
    assert_eq!(call.wakes(), 0);
    assert_eq!(hand.written(), frames("send 1 61, send 2 64"));
    assert_eq!(call.woken(), Ok(()));
    assert_eq!(hand.written(), frames("send 1 62"));
}

#[test]
fn calls_of_one_sender_go_in_their_order_whatever_their_lengths() {
    let mut hand = Hand::started(with_slots(32));
    let sender = hand.mux.take_sender(Data).unwrap();
    let long = Call::waiting(sender.send(b"long"));
    let mut short = Call::waiting(sender.send(b"s"));
    hand.feed(&greeted("issue 1 3"));
    assert_eq!((long.wakes(), short.wakes(), short.poll()), (0, 0, None));
    assert_eq!(sender.try_send(b"t"), Err(TrySendError::Full(Needs::Slot)));
    hand.feed(&frames("issue 1 2"));
    assert_eq!(short.poll(), None);
    assert_eq!(long.woken(), Ok(()));
    assert_eq!(short.woken(), Ok(()));
    assert_eq!(hand.written(), frames("send 1 6c6f6e67, send 1 73"));
}

#[test]
fn a_call_that_is_dropped_leaves_its_place_to_the_next() {
    let mut hand = Hand::started(narrow());
    let sender = hand.mux.take_sender(Data).unwrap();
    let long = Call::waiting(sender.send(b"long"));
    let short = Call::waiting(sender.send(b"s"));
    hand.feed(&greeted("issue 1 2"));
    assert_eq!((long.wakes(), short.wakes()), (0, 0));
    drop(long);
    assert_eq!(short.woken(), Ok(()));

    // A call that was woken, and not polled again.
    hand.written();
    let woken = Call::waiting(sender.reserve(2));
    let next = Call::waiting(sender.send(b"n"));
    hand.feed(&frames("issue 1 2"));
    assert_eq!((woken.wakes(), next.wakes()), (1, 0));
    drop(woken);
    assert_eq!(next.woken(), Ok(()));
    assert_eq!(hand.written(), frames("send 1 6e"));
    assert_eq!(sender.held(), 2);
}

// The peer's first frames, the calls of this side, and why a message of this length can never be sent.
#[test]
fn what_never_goes_is_an_error_at_once() {
    let mut hand = Hand::started(narrow());
    let sender = hand.mux.take_sender(Data).unwrap();
    let answers = |len: usize, error: SendError| {
        let body = vec![0; len];
        let call = Call::new(sender.send(&body)).poll();
        assert_eq!(call, Some(Err(error.clone())));
        let permit = Call::new(sender.reserve(len)).poll().unwrap();
        assert_eq!(permit.err(), Some(error.clone()));
        let failed = Err(TrySendError::Failed(error.clone()));
        assert_eq!(sender.try_send(&body), failed);
        assert_eq!(sender.send_blocking(&body), Err(error.clone()));
        let timeout = sender.send_timeout(&body, Duration::from_secs(9));
        assert_eq!(timeout, Err(SendTimeoutError::Failed(error)));
    };
    answers(0, refused(Refusal::EmptyBody));
    answers((1 << 20) + 1, refused(Refusal::BodyTooLong));
    hand.feed(&greeted("issue 1 5, limit-receiving 1 4"));
    answers(10, SendError::Unwanted { held: 5, left: 4 });
    sender.limit(8).unwrap();
    answers(9, refused(Refusal::PastSendLimit { left: 8 }));
    sender.finish().unwrap();
    answers(1, refused(Refusal::ChannelFinished));
}

// A waiting call fails once it can never proceed: by an inbound frame, or by a call of this side meanwhile.
#[test]
fn a_call_that_waits_learns_that_it_never_goes() {
    let mut hand = Hand::started(narrow());
    let sender = hand.mux.take_sender(Data).unwrap();
    let call = Call::waiting(sender.send(b"hello"));
    hand.feed(&greeted("issue 1 1, limit-receiving 1 3"));
    assert_eq!(call.woken(), Err(SendError::Unwanted { held: 1, left: 3 }));
    // The limit is that of the peer: earlier guarantees count towards it.
    let call = Call::waiting(sender.send(b"way"));
    hand.feed(&frames("limit-receiving 1 0"));
    assert_eq!(call.woken(), Err(SendError::Unwanted { held: 1, left: 0 }));
}

/// The same if no slot is free, and an earlier channel has a pending frame.
#[test]
fn a_call_that_waits_learns_that_it_never_goes_where_no_slot_is_left() {
    let mut hand = Hand::started(by_caller(14));
    hand.feed(&greeted("issue 2 6"));
    let other = hand.mux.take_sender(Overlap).unwrap();
    other.try_send(b"x").unwrap();
    let receivers = ALL.map(|channel| hand.mux.take_receiver(channel).unwrap());
    for receiver in receivers.iter().chain(&receivers[..1]) {
        receiver.issue(1).unwrap();
    }
    let call = Call::waiting(other.send(b"longer"));
    hand.feed(&frames("limit-receiving 2 0"));
    assert_eq!(call.woken(), Err(SendError::Unwanted { held: 5, left: 0 }));
    let next = Call::waiting(other.send(b"short"));
    hand.feed(&frames("issue 3 1"));
    assert_eq!(next.wakes(), 0, "it still waits for a slot");
}

/// If no slot is free, a limit waits for one, and the call after it waits for the limit.
#[test]
fn a_call_behind_a_limit_goes_once_that_has_a_slot() {
    let mut hand = Hand::started(by_caller(14));
    hand.feed(&greeted("issue 1 5"));
    let sender = hand.mux.take_sender(Data).unwrap();
    sender.try_send(b"x").unwrap();
    let receivers = ALL.map(|channel| hand.mux.take_receiver(channel).unwrap());
    receivers.iter().for_each(|it| it.issue(1).unwrap());
    sender.limit(3).unwrap();
    let call = Call::waiting(sender.send(b"y"));
    let mut written = hand.written();
    assert_eq!(call.woken(), Ok(()));
    written.extend(hand.written());
    assert!(written.ends_with(&frames("limit-sending 1 3, send 1 79")));
}

/// A limit and a finish follow the calls that wait at that time, and precede later ones.
#[test]
fn a_limit_and_a_finish_keep_their_place_behind_calls_that_wait() {
    let mut hand = Hand::started(with_slots(32));
    let sender = hand.mux.take_sender(Data).unwrap();
    let first = Call::waiting(sender.send(b"word"));
    let second = Call::waiting(sender.send(b"way"));
    sender.limit(3).unwrap();
    let raised = lcmux::CallError::Refused(Refusal::LimitRaised { left: 3 });
    assert_eq!(sender.limit(4), Err(raised));
    let past = Err(TrySendError::Failed(refused(Refusal::PastSendLimit {
        left: 3,
    })));
    assert_eq!(sender.try_send(b"four"), past);
    let third = Call::waiting(sender.send(b"abc"));
    sender.finish().unwrap();
    let finished = Err(TrySendError::Failed(refused(Refusal::ChannelFinished)));
    assert_eq!(sender.try_send(b"x"), finished);
    assert_eq!(hand.written(), []);
    hand.feed(&greeted("issue 1 5"));
    assert_eq!((first.wakes(), second.wakes(), third.wakes()), (1, 0, 0));
    assert_eq!(first.woken(), Ok(()));
    hand.feed(&frames("issue 1 5"));
    drop(second); // which no longer precedes them
    assert_eq!(third.woken(), Ok(()));
    let written = "send 1 776f7264, limit-sending 1 3, send 1 616263, finish 1";
    assert_eq!(hand.written(), frames(written));
}

/// A message between two limits counts towards the first, and the second does not raise what the first allows.
#[test]
fn each_limit_keeps_its_place_between_calls_that_wait() {
    let mut hand = Hand::started(with_slots(32));
    let sender = hand.mux.take_sender(Data).unwrap();
    let call = |body: &'static [u8]| Call::waiting(sender.send(body));
    let first = call(b"first");
    sender.limit(9).unwrap();
    sender.limit(8).unwrap(); // replaces the other limit
    let between = [call(b"four"), call(b"five5"), call(b"two")];
    sender.limit(3).unwrap();
    let raised = Refusal::LimitRaised { left: 3 };
    assert_eq!(sender.limit(4), Err(lcmux::CallError::Refused(raised)));
    let past = |left| Err(refused(Refusal::PastSendLimit { left }));
    assert_eq!(Call::new(sender.send(b"more")).poll(), Some(past(3)));
    let last = call(b"one");
    hand.feed(&greeted("issue 1 64"));
    assert_eq!(first.woken(), Ok(()));
    let [four, five, two] = between;
    assert_eq!(four.woken(), Ok(()));
    assert_eq!(five.woken(), past(4));
    assert_eq!(two.woken(), Ok(()));
    assert_eq!(last.woken(), past(1));
    let written = "send 1 6669727374, limit-sending 1 8, send 1 666f7572, send 1 74776f";
    assert_eq!(hand.written(), frames(written));
}

#[test]
fn a_close_sends_a_finish_that_waits_behind_calls() {
    let mut hand = Hand::started(with_slots(32));
    let sender = hand.mux.take_sender(Data).unwrap();
    let mut waits = Call::waiting(sender.send(b"word"));
    sender.finish().unwrap();
    assert_eq!(hand.written(), []);
    hand.mux.close();
    let mut bytes = Vec::new();
    assert!(hand.write(&mut bytes).is_ready());
    bytes.sort();
    assert_eq!(bytes, finishes(), "the one that waited among them");
    assert_eq!(
        waits.poll(),
        Some(Err(SendError::Closed(lcmux::Closed::Local)))
    );
}

/// A message of a permit precedes a limit that finds no slot, and counts towards it.
#[test]
fn a_permit_counts_for_a_limit_that_is_owed() {
    let mut hand = Hand::started(with_slots(15));
    hand.feed(&room_on_all());
    let sender = hand.mux.take_sender(Data).unwrap();
    let receivers: Vec<_> = ALL
        .map(|channel| hand.mux.take_receiver(channel).unwrap())
        .into();
    let [permit, other] = [4, 4].map(|len| sender.try_reserve(len).unwrap());
    receivers
        .iter()
        .for_each(|receiver| receiver.limit(9).unwrap());
    sender.limit(6).unwrap();
    permit.send(b"four").unwrap();
    let past = Refusal::PastSendLimit { left: 2 };
    assert_eq!(other.send(b"two"), Err(refused(past)));
    let limits = (0..CHANNELS).map(|channel| format!("limit-receiving {channel} 9"));
    let limits = limits.collect::<Vec<_>>().join(", ");
    let written = format!("{limits}, send 1 666f7572, limit-sending 1 2");
    assert_eq!(hand.written(), frames(&written));
}

/// A limit also bounds permits.
#[test]
fn a_call_leaves_to_a_permit_what_a_limit_leaves() {
    let mut hand = Hand::started(with_slots(16));
    hand.feed(&room_on_all());
    let sender = hand.mux.take_sender(Data).unwrap();
    sender.limit(10).unwrap();
    let permit = sender.try_reserve(6).unwrap();
    let full = Err(TrySendError::Full(Needs::Guarantees(1)));
    assert_eq!(sender.try_send(b"five5"), full);
    permit.send(b"six666").unwrap();
    sender.try_send(b"four").unwrap();
}

#[test]
fn a_permit_owns_guarantees_and_a_slot() {
    let mut hand = Hand::started(narrow());
    hand.feed(&room_on_all());
    let sender = hand.mux.take_sender(Data).unwrap();
    let other = hand.mux.take_sender(Overlap).unwrap();
    let permit = sender.try_reserve(60).unwrap();
    assert_eq!(
        (permit.len(), sender.held(), sender.book().held),
        (60, 4, 64)
    );
    let full = |needs| Err(TrySendError::Full(needs));
    assert_eq!(sender.try_send(b"five5"), full(Needs::Guarantees(1)));
    let beyond = Needs::MoreThanEverIssued { more: 66, most: 64 };
    assert_eq!(sender.try_send(&[0; 70]), full(beyond));
    assert_eq!(sender.try_send(b"four"), full(Needs::Slot));
    other.try_send(b"four").unwrap(); // in its channel's own slot
    let not_held = lcmux::CallError::Refused(Refusal::NotHeld { held: 4 });
    assert_eq!(sender.absolve(5), Err(not_held));
    let five = Call::waiting(sender.send(b"five5"));

    permit.send(b"the message").unwrap();
    assert_eq!(sender.held(), 53);
    assert_eq!(five.wakes(), 0);
    let written = "send 2 666f7572, send 1 746865206d657373616765";
    assert_eq!(hand.written(), frames(written));
    assert_eq!(five.woken(), Ok(()));
}

#[test]
fn a_permit_that_is_dropped_gives_both_back() {
    let mut hand = Hand::started(narrow());
    hand.feed(&room_on_all());
    let sender = hand.mux.take_sender(Data).unwrap();
    let permit = sender.try_reserve(60).unwrap();
    let slot = Call::waiting(sender.send(b"four"));
    drop(permit);
    assert_eq!(slot.woken(), Ok(()));
    hand.written();
    let permit = sender.try_reserve(60).unwrap();
    let guarantees = Call::waiting(sender.send(b"five5"));
    hand.written();
    assert_eq!(guarantees.wakes(), 0);
    drop(permit);
    assert_eq!(guarantees.woken(), Ok(()));
    assert_eq!(sender.held(), 55);
}

#[test]
fn a_permit_is_not_absolved_by_a_plead_before_it_is_given_back() {
    let mut hand = Hand::started(with_slots(16));
    let sender = hand.mux.take_sender(Data).unwrap();
    hand.feed(&greeted("issue 1 20"));
    let permits = [8, 6].map(|len| sender.try_reserve(len).unwrap());
    hand.feed(&frames("plead 1 2"));
    assert_eq!(hand.written(), frames("absolve 1 6"));
    assert_eq!(sender.held(), 0);
    // Guarantees that are issued meanwhile are not subject to the plead.
    hand.feed(&frames("issue 1 5"));
    assert_eq!((hand.written(), sender.held()), (vec![], 5));
    let [first, second] = permits;
    first.send(b"abc").unwrap();
    assert_eq!(hand.written(), frames("send 1 616263, absolve 1 5"));
    drop(second);
    assert_eq!(hand.written(), frames("absolve 1 6"));
    assert_eq!(sender.held(), 5);
}

/// What a permit sends is no longer above the target: a later permit returns nothing for it.
#[test]
fn what_a_permit_sends_is_not_absolved_for_a_plead_later() {
    let mut hand = Hand::started(with_slots(16));
    let sender = hand.mux.take_sender(Data).unwrap();
    hand.feed(&greeted("issue 1 10"));
    let [first, second] = [5, 5].map(|len| sender.try_reserve(len).unwrap());
    hand.feed(&frames("plead 1 0"));
    // These are not subject to the plead, which the peer keeps for them.
    hand.feed(&frames("issue 1 5"));
    first.send(b"hello").unwrap();
    drop(second);
    assert_eq!(hand.written(), frames("send 1 68656c6c6f, absolve 1 5"));
    drop(sender.try_reserve(5).unwrap());
    assert_eq!((hand.written(), sender.held()), (vec![], 5));
}

/// If only guarantees that were issued later keep this side above its target, the plead was honoured. Another plead
/// is new if it has another target, or once no more than the target is held.
#[test]
fn a_plead_is_honoured_once_whatever_is_issued_later() {
    for (sent, came, written) in [
        (&b""[..], "plead 1 1", "absolve 1 6"),
        (b"hello", "issue 1 5, plead 1 2", "absolve 1 5"),
    ] {
        let mut hand = Hand::started(with_slots(16));
        let sender = hand.mux.take_sender(Data).unwrap();
        hand.feed(&greeted("issue 1 10"));
        let permit = sender.try_reserve(10).unwrap();
        hand.feed(&frames("plead 1 2"));
        hand.feed(&frames("issue 1 5"));
        assert_eq!((sender.pleaded(), sender.honour()), (Some(2), Ok(0)));
        assert_eq!(hand.written(), []);
        drop(permit);
        assert_eq!(hand.written(), frames("absolve 1 8"));
        assert_eq!((sender.pleaded(), sender.honour()), (None, Ok(0)));
        assert_eq!((hand.written(), sender.held()), (vec![], 7));
        if !sent.is_empty() {
            sender.try_send(sent).unwrap();
            hand.written();
        }
        hand.feed(&frames(came));
        assert_eq!(hand.written(), frames(written));
        assert_eq!(sender.pleaded(), None);
    }
}

#[test]
fn permits_give_back_no_more_than_was_pleaded_for() {
    let mut hand = Hand::started(with_slots(16));
    let sender = hand.mux.take_sender(Data).unwrap();
    hand.feed(&greeted("issue 1 20"));
    let [first, second] = [8, 6].map(|len| sender.try_reserve(len).unwrap());
    hand.feed(&frames("plead 1 8"));
    assert_eq!(hand.written(), frames("absolve 1 6"));
    hand.feed(&frames("issue 1 5"));
    drop(first);
    assert_eq!(hand.written(), frames("absolve 1 6"));
    drop(second);
    assert_eq!(hand.written(), []);
    assert_eq!(sender.held(), 13);
}

#[test]
fn a_permit_is_refused_only_for_its_own_message_or_an_end() {
    let mut hand = Hand::started(with_slots(16));
    hand.feed(&room_on_all());
    let sender = hand.mux.take_sender(Data).unwrap();
    let permit = || sender.try_reserve(4).unwrap();
    let no_guarantee = Refusal::NoGuarantee { held: 4 };
    assert_eq!(permit().send(b"five5"), Err(refused(no_guarantee)));
    assert_eq!(permit().send(b""), Err(refused(Refusal::EmptyBody)));
    assert_eq!((sender.held(), hand.written()), (64, vec![]));
    let held = permit();
    sender.limit(3).unwrap();
    let past = Refusal::PastSendLimit { left: 3 };
    assert_eq!(held.send(b"four"), Err(refused(past)));
    let held = sender.try_reserve(3).unwrap();
    sender.finish().unwrap();
    assert_eq!(held.send(b"two"), Err(refused(Refusal::ChannelFinished)));
    let sender = hand.mux.take_sender(Overlap).unwrap();
    let held = sender.try_reserve(3).unwrap();
    hand.mux.close();
    assert_eq!(
        held.send(b"two"),
        Err(SendError::Closed(lcmux::Closed::Local))
    );
}

#[test]
fn timeouts_leave_no_call_behind() {
    let mut hand = Hand::started(with_slots(16));
    let sender = hand.mux.take_sender(Data).unwrap();
    for timeout in [0, 20].map(Duration::from_millis) {
        let (start, before) = (Instant::now(), sender.stats().waited_for_guarantees);
        let sent = sender.send_timeout(b"hello", timeout);
        assert_eq!(sent, Err(SendTimeoutError::Timeout));
        let between = sender.stats().waited_for_guarantees;
        let reserved = sender.reserve_timeout(5, timeout).err();
        assert_eq!(reserved, Some(SendTimeoutError::Timeout));
        assert!(start.elapsed() >= 2 * timeout);
        // Both waits are counted. A busy machine may make them shorter than the timeout, part of which precedes them.
        let after = sender.stats().waited_for_guarantees;
        assert!(before < between && between < after);
    }
    let waited = sender.stats();
    assert_eq!(waited.waited_for_slots, Duration::ZERO);
    hand.feed(&greeted("issue 1 64"));
    assert_eq!(hand.written(), []);
    assert_eq!(sender.send_timeout(b"hello", Duration::ZERO), Ok(()));
    let permit = sender.reserve_timeout(5, Duration::ZERO).unwrap();
    permit.send(b"there").unwrap();
    assert_eq!(
        sender.stats().waited_for_guarantees,
        waited.waited_for_guarantees
    );
}

/// A task whose wake-up is delayed until the test releases it.
struct Slow(Mutex<mpsc::Receiver<()>>);

impl Wake for Slow {
    fn wake(self: Arc<Slow>) {
        self.0.lock().unwrap().recv().unwrap();
    }
}

// The result of a call whose timeout expires before its thread wakes up, and whether its message was sent by then.
fn sent_at_the_deadline() -> (Result<(), SendTimeoutError>, bool) {
    let mut hand = Hand::started(narrow());
    let sender = hand.mux.take_sender(Data).unwrap();
    let mut receiver = hand.mux.take_receiver(Overlap).unwrap();
    let (tell, told) = mpsc::channel();
    let slow = Waker::from(Arc::new(Slow(Mutex::new(told))));
    let first = receiver.poll_recv(&mut Context::from_waker(&slow));
    assert!(first.is_pending());
    let sent = thread::scope(|scope| {
        let thread = scope.spawn(|| {
            let sent = sender.send_timeout(b"hello", Duration::from_millis(100));
            tell.send(()).unwrap();
            sent
        });
        while sender.stats().waited_for_guarantees == Duration::ZERO {
            thread::yield_now();
        }
        hand.feed(&greeted("send 2 78, issue 1 5"));
        thread.join().unwrap()
    });
    (sent, hand.written() == frames("send 1 68656c6c6f"))
}

/// If the machine is too busy for that, the test tries again.
#[test]
fn a_thread_whose_time_is_over_looks_whether_its_message_was_sent() {
    let is_seen = (0..50).any(|_| {
        let (sent, went) = sent_at_the_deadline();
        assert_eq!(sent.is_ok(), went);
        went
    });
    assert!(is_seen);
}

#[test]
fn the_time_of_a_wait_is_that_of_what_lacks() {
    let mut hand = Hand::started(narrow());
    hand.feed(&room_on_all());
    let sender = hand.mux.take_sender(Data).unwrap();
    let other = hand.mux.take_sender(Overlap).unwrap();
    sender.try_send(b"a").unwrap();
    other.try_send(b"a").unwrap();
    let wait = Duration::from_millis(20);
    let call = Call::waiting(sender.send(b"b"));
    thread::sleep(wait);
    hand.written();
    assert_eq!(call.woken(), Ok(()));
    let stats = hand.mux.stats()[Data];
    assert_eq!(stats, sender.stats());
    assert!(stats.waited_for_slots >= wait);
    assert_eq!(stats.waited_for_guarantees, Duration::ZERO);
    assert_eq!(hand.mux.stats()[Overlap].waited_for_slots, Duration::ZERO);

    // A call that still waits counts, too.
    hand.written();
    let long = Call::waiting(other.send(&[0; 64]));
    thread::sleep(wait);
    let stats = other.stats();
    assert!(stats.waited_for_guarantees >= wait);
    assert_eq!(stats.waited_for_slots, Duration::ZERO);
    thread::sleep(wait);
    assert!(other.stats().waited_for_guarantees >= 2 * wait);
    drop(long);
}

/// A thread that blocks in a call of the library keeps its own token of `thread::park`.
#[test]
fn a_thread_that_waits_keeps_its_own_token() {
    let _watchdog = watchdog::Watchdog::new("park");
    let mut hand = Hand::started(narrow());
    let sender = hand.mux.take_sender(Data).unwrap();
    let waiting = thread::spawn(move || {
        sender.send_blocking(b"hello").unwrap();
        thread::park();
    });
    thread::sleep(Duration::from_millis(20));
    waiting.thread().unpark();
    thread::sleep(Duration::from_millis(20));
    hand.feed(&greeted("issue 1 5"));
    waiting.join().unwrap();
}
