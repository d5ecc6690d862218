//! Several messages by one call.
use crate::hand::{Call, Hand};
use crate::*;
use lcmux::Channel::{Data, Reconciliation};
use lcmux::{Closed, Receiver, Refusal, SendError, Sender};
use std::sync::Arc;
use std::task::{Context, Poll, Wake, Waker};
use std::thread;

const NONE: [Vec<u8>; 0] = [];

fn receiving(config: Config) -> (Hand, Receiver) {
    let mut hand = Hand::started(config);
    let receiver = hand.mux.take_receiver(Data).unwrap();
    (hand, receiver)
}

/// A sender on channel 1, for which the peer issued this much.
fn sending(slots: u32, issued: u32) -> (Hand, Sender) {
    let mut hand = Hand::started(with_slots(slots));
    hand.feed(&greeted(&format!("issue 1 {issued}")));
    let sender = hand.mux.take_sender(Data).unwrap();
    (hand, sender)
}

fn large() -> Config {
    let mut config = Config::new([1 << 20; CHANNELS], 16);
    config.version = Version::Two;
    config
}

fn sends(messages: &[Vec<u8>]) -> Vec<u8> {
    let frame = |message: &Vec<u8>| {
        let len = (message.len() as u32).to_be_bytes();
        [&[0x11][..], &len, message].concat()
    };
    messages.iter().flat_map(frame).collect()
}

fn fed(hand: &mut Hand, messages: &[Vec<u8>]) {
    hand.feed(&[GREETING, &sends(messages)].concat());
}

fn take(receiver: &mut Receiver, limit: usize) -> (usize, Vec<Vec<u8>>) {
    let mut messages = Vec::new();
    let mut call = Call::new(receiver.recv_many(&mut messages, limit));
    let count = call.poll().expect("messages have arrived").unwrap();
    drop(call);
    (count, messages)
}

#[test]
fn a_batch_is_what_arrived_up_to_the_limit() {
    let (mut hand, mut receiver) = receiving(narrow());
    let sent = ["a", "bc", "d", "e"].map(|text| text.as_bytes().to_vec());
    assert_eq!(take(&mut receiver, 0), (0, vec![]), "it does not wait");
    fed(&mut hand, &sent);
    assert_eq!(take(&mut receiver, 0), (0, vec![]));
    assert_eq!(take(&mut receiver, 1), (1, sent[..1].to_vec()));
    assert_eq!(take(&mut receiver, 2), (2, sent[1..3].to_vec()));
    assert_eq!(take(&mut receiver, 2), (1, sent[3..].to_vec()));
    let stats = receiver.stats();
    assert_eq!((stats.messages_received, stats.bytes_received), (4, 5));
    assert_eq!(hand.written(), frames("issue 1 1, issue 1 4"));
}

#[test]
fn a_batch_is_appended() {
    let (mut hand, mut receiver) = receiving(narrow());
    let mut messages = vec![b"before".to_vec()];
    let call = Call::waiting(receiver.recv_many(&mut messages, usize::MAX));
    fed(&mut hand, &[b"hi".to_vec(), b"you".to_vec()]);
    assert_eq!(call.woken(), Ok(2));
    assert_eq!(messages, [&b"before"[..], b"hi", b"you"]);
    assert_eq!(hand.written(), frames("issue 1 5"), "both together");
}

#[test]
fn a_long_message_is_a_batch_of_its_own() {
    let (mut hand, mut receiver) = receiving(large());
    let sent = [1, 4_097, 4_096, 4_096, 70_000, 2].map(|len| vec![len as u8; len]);
    fed(&mut hand, &sent);
    for batch in [0..1, 1..2, 2..4, 4..5, 5..6] {
        let count = batch.len();
        assert_eq!(take(&mut receiver, 9), (count, sent[batch].to_vec()));
    }
}

#[test]
fn a_batch_has_at_most_65536_bytes() {
    let (mut hand, mut receiver) = receiving(large());
    let sent = vec![vec![7; 4_096]; 40];
    fed(&mut hand, &sent);
    assert_eq!(take(&mut receiver, 40), (16, sent[..16].to_vec()));
    assert_eq!(take(&mut receiver, 40).0, 16);
    assert_eq!(take(&mut receiver, 40).0, 8);
}

#[test]
fn a_batch_ends_with_its_channel_and_fails_with_its_session() {
    let (mut hand, mut receiver) = receiving(narrow());
    fed(&mut hand, &[b"hi".to_vec()]);
    hand.feed(&frames("finish 1"));
    assert_eq!(take(&mut receiver, 9).0, 1);
    assert_eq!(take(&mut receiver, 9), (0, vec![]));
    let (mut hand, mut receiver) = receiving(narrow());
    fed(&mut hand, &[b"hi".to_vec()]);
    assert_eq!(hand.read(&mut &[][..]), Poll::Ready(Err(Closed::Cut)));
    assert_eq!(take(&mut receiver, 9).0, 1);
    let mut messages = Vec::new();
    let answer = receiver.recv_many_blocking(&mut messages, 9);
    assert_eq!((answer, &messages[..]), (Err(Closed::Cut), &NONE[..]));
}

#[test]
fn a_batch_that_is_dropped_takes_nothing() {
    let (mut hand, mut receiver) = receiving(narrow());
    let mut messages = Vec::new();
    let call = Call::waiting(receiver.recv_many(&mut messages, 9));
    fed(&mut hand, &[b"hi".to_vec()]);
    drop(call);
    assert_eq!(receiver.try_recv(), Ok(Some(b"hi".to_vec())));
}

#[test]
fn a_batch_is_sent_by_one_wake_of_the_driver() {
    let (mut hand, sender) = sending(64, 99);
    let messages = ["a", "bc", "d"];
    let mut left = &messages[..];
    let before = hand.write_wakes();
    let mut call = Call::new(sender.send_all(&mut left));
    assert_eq!(call.poll(), Some(Ok(())));
    drop(call);
    assert!(left.is_empty());
    assert_eq!(hand.write_wakes(), before + 1);
    assert_eq!(hand.written(), frames("send 1 61, send 1 6263, send 1 64"));
    assert_eq!(sender.stats().messages_sent, 3);
}

/// Guarantees for two messages and a half: the third waits, and the rest stays with the caller.
#[test]
fn a_batch_that_is_dropped_keeps_what_was_not_sent() {
    let (mut hand, sender) = sending(64, 5);
    let messages = ["ab", "cd", "ef", "gh"];
    let mut left = &messages[..];
    let call = Call::waiting(sender.send_all(&mut left));
    assert_eq!(hand.written(), frames("send 1 6162, send 1 6364"));
    drop(call);
    assert_eq!(left, ["ef", "gh"]);
    hand.feed(&frames("issue 1 3"));
    assert_eq!(hand.written(), []);
    let mut call = Call::new(sender.send_all(&mut left));
    assert_eq!(call.poll(), Some(Ok(())));
    drop(call);
    assert_eq!(hand.written(), frames("send 1 6566, send 1 6768"));
}

#[test]
fn a_batch_goes_on_when_it_is_woken() {
    let (mut hand, sender) = sending(64, 2);
    let messages = ["ab", "cd", "ef", "gh"];
    let mut left = &messages[..];
    let call = Call::waiting(sender.send_all(&mut left));
    assert_eq!(hand.written(), frames("send 1 6162"));
    hand.feed(&frames("issue 1 6"));
    assert_eq!(call.woken(), Ok(()));
    assert!(left.is_empty());
    let rest = frames("send 1 6364, send 1 6566, send 1 6768");
    assert_eq!(hand.written(), rest);
}

#[test]
fn a_message_that_fails_is_the_first_that_is_left() {
    let (mut hand, sender) = sending(64, 9);
    let messages = ["ab", "", "cd"];
    let mut left = &messages[..];
    let empty: Result<(), SendError> = Err(Refusal::EmptyBody.into());
    assert_eq!(sender.send_all_blocking(&mut left), empty);
    assert_eq!(left, ["", "cd"]);
    assert_eq!(hand.written(), frames("send 1 6162"));
    left = &left[1..];
    assert_eq!(sender.send_all_blocking(&mut left), Ok(()));
    assert_eq!(hand.written(), frames("send 1 6364"));
    hand.mux.abort();
    assert_eq!(
        sender.send_all_blocking(&mut left),
        Ok(()),
        "nothing is left"
    );
    left = &messages[2..];
    let aborted = Err(Closed::Aborted.into());
    assert_eq!(sender.send_all_blocking(&mut left), aborted);
    assert_eq!(left, ["cd"]);
}

/// A batch waits behind the calls of its channel, and for a call on another channel that sent less recently and waits for
/// bytes.
#[test]
fn a_batch_waits_for_its_turn() {
    let (mut hand, sender) = sending(64, 1_000_000);
    hand.feed(&frames("issue 0 100000"));
    let other = hand.mux.take_sender(Reconciliation).unwrap();
    let long = vec![7; 65_000];
    assert_eq!(sender.send_all_blocking(&mut &[&long][..]), Ok(()));
    let of_other = Call::waiting(other.send(&long));
    let messages = [[7; 600]; 2];
    let mut left = &messages[..];
    let mut batch = Call::waiting(sender.send_all(&mut left));
    let behind = Call::waiting(sender.send(b"z"));
    assert_eq!(hand.written().len(), 65_005);
    assert_eq!((of_other.wakes(), batch.wakes(), behind.wakes()), (1, 0, 0));
    assert_eq!(of_other.woken(), Ok(()));
    assert_eq!(hand.written().len(), 65_005);
    assert_eq!(
        batch.poll(),
        None,
        "its second message waits behind the other call"
    );
    assert_eq!(behind.woken(), Ok(()));
    assert_eq!(batch.poll(), Some(Ok(())));
    let sent = sends(&[vec![7; 600], b"z".to_vec(), vec![7; 600]]);
    assert_eq!(hand.written(), sent);
}

// The `as_ref` of a message is the program's code, and may call the session.
struct Asking<'a>(&'a Sender, &'a [u8]);

impl AsRef<[u8]> for Asking<'_> {
    fn as_ref(&self) -> &[u8] {
        assert_eq!(self.0.held(), 9);
        self.1
    }
}

#[test]
fn a_message_may_call_the_session() {
    let (mut hand, sender) = sending(64, 9);
    let messages = [Asking(&sender, b"ab"), Asking(&sender, b"cd")];
    assert_eq!(sender.send_all_blocking(&mut &messages[..]), Ok(()));
    assert_eq!(hand.written(), frames("send 1 6162, send 1 6364"));
}

struct Noop;

impl Wake for Noop {
    fn wake(self: Arc<Noop>) {}
}

/// After 128 messages in a row a batch yields once, whether it sends or receives.
#[test]
fn batches_yield_after_128_messages() {
    let waker = Waker::from(Arc::new(Noop));
    let mut cx = Context::from_waker(&waker);
    let (_hand, sender) = sending(1_000, 999);
    let messages = vec!["x"; 300];
    let mut left = &messages[..];
    let mut call = Call::new(sender.send_all(&mut left));
    let mut polls = 1;
    while call.poll().is_none() {
        polls += 1;
    }
    assert_eq!(polls, 3, "after 128 messages, and after 256");
    drop(call);
    let (mut hand, mut receiver) = receiving(large());
    fed(&mut hand, &vec![b"x".to_vec(); 300]);
    let mut taken = Vec::new();
    let mut counts = Vec::new();
    for _ in 0..6 {
        counts.push(match receiver.poll_recv_many(&mut cx, &mut taken, 100) {
            Poll::Ready(count) => count.unwrap(),
            Poll::Pending => 0,
        });
    }
    assert_eq!(counts, [100, 100, 0, 100, 0, 0]);
}

#[test]
fn threads_exchange_batches_in_order() {
    let (mut hand, sender) = sending(Mux::LEAST_SLOTS, 999_999);
    let messages: Vec<_> = (0..2_000u32).map(u32::to_be_bytes).collect();
    let writer = thread::spawn(move || {
        let sent = sender.send_all_blocking(&mut &messages[..]);
        (sent, sender)
    });
    let mut bytes = Vec::new();
    while bytes.len() < 2_000 * 9 {
        bytes.extend(hand.written());
    }
    let (sent, _sender) = writer.join().unwrap();
    assert_eq!(sent, Ok(()));
    let (mut there, mut receiver) = receiving(large());
    let reader = thread::spawn(move || {
        let (mut messages, mut counts) = (Vec::new(), Vec::new());
        while messages.len() < 2_000 {
            counts.push(receiver.recv_many_blocking(&mut messages, 64).unwrap());
        }
        (messages, counts)
    });
    there.feed(&[GREETING, &bytes].concat());
    let (messages, counts) = reader.join().unwrap();
    assert!(counts.iter().all(|count| (1..=64).contains(count)));
    let numbers = (0..2_000u32).map(|number| number.to_be_bytes().to_vec());
    assert!(messages.into_iter().eq(numbers));
}
