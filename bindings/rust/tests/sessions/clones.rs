//! Threads that share channels through clones, with messages of all lengths, and what they answer at the end of the
//! session.
use crate::hand::Hand;
use crate::watchdog::Watchdog;
use crate::*;
use lcmux::Channel::{Data, Overlap};
use lcmux::{Closed, Mux, Receiver, SendError, Sender};
use std::os::unix::net::UnixStream;
use std::thread::{self, JoinHandle};
use std::time::Duration;

/// Around the longest message that is completed for a thread, around the bytes of the queue, and the ring.
const LENGTHS: [usize; 11] = [
    1, 2, 4_095, 4_096, 4_097, 65_535, 9_000, 65_536, 65_537, 300_000, 3,
];
const CLONES: u8 = 3;
const MESSAGES: u8 = 28;

/// Which clone sent it and its number, as far as it is long enough, in bytes that differ from those of all others.
fn body(clone: u8, number: u8) -> Vec<u8> {
    let len = LENGTHS[usize::from(number + clone) % LENGTHS.len()];
    let first = clone << 6 | number;
    (0..len)
        .map(|at| first.wrapping_add((at / 251) as u8))
        .collect()
}

fn send(sender: &Sender, clone: u8) {
    let mut number = 0;
    while number < MESSAGES {
        let message = body(clone, number);
        match number % 4 {
            0 => sender.send_blocking(&message).unwrap(),
            1 => {
                let limit = Duration::from_micros(200);
                while sender.send_timeout(&message, limit).is_err() {}
            }
            2 => {
                let permit = sender.reserve_blocking(message.len()).unwrap();
                permit.send(&message).unwrap()
            }
            _ => {
                let messages = [message, body(clone, number + 1)];
                sender.send_all_blocking(&mut &messages[..]).unwrap();
                number += 1;
            }
        }
        number += 1;
    }
}

// The messages of each clone arrive whole, each once and in their order.
fn receive(mut receiver: Receiver) {
    let (mut next, mut messages) = ([0; CLONES as usize], Vec::new());
    while receiver.recv_many_blocking(&mut messages, 9).unwrap() > 0 {
        for message in messages.drain(..) {
            let clone = message[0] >> 6;
            let due = body(clone, next[usize::from(clone)]);
            assert!(message == due, "{clone}: {} bytes", message.len());
            next[usize::from(clone)] += 1;
        }
    }
    assert_eq!(next, [MESSAGES + 1; CLONES as usize]);
}

fn side(stream: UnixStream, slots: u32) -> Vec<JoinHandle<()>> {
    let mut config = Config::new([300_000; CHANNELS], slots);
    config.version = Version::Two;
    let (mut mux, driver) = Mux::new(config).unwrap();
    let mut threads = Vec::new();
    for channel in [Data, Overlap] {
        let sender = mux.take_sender(channel).unwrap();
        for clone in 0..CLONES {
            let sender = sender.clone();
            threads.push(thread::spawn(move || send(&sender, clone)));
        }
        let receiver = mux.take_receiver(channel).unwrap();
        threads.push(thread::spawn(move || receive(receiver)));
    }
    threads.push(thread::spawn(move || {
        let halves = (stream.try_clone().unwrap(), stream);
        assert_eq!(driver.run_blocking(halves.0, halves.1), Ok(()));
    }));
    threads
}

#[test]
fn clones_keep_the_order_of_their_messages() {
    for slots in [Mux::LEAST_SLOTS, 64] {
        let _watchdog = Watchdog::new("clones");
        let (here, there) = UnixStream::pair().unwrap();
        let threads = [side(here, slots), side(there, slots)];
        threads
            .into_iter()
            .flatten()
            .for_each(|it| it.join().unwrap());
    }
}

/// A thread whose message of this length waits, for bytes of the queue or for guarantees: its result once `end` ended the
/// session.
fn at_the_end(len: usize, end: impl FnOnce(&mut Hand)) -> Result<(), SendError> {
    let mut hand = Hand::started(with_slots(16));
    hand.feed(&greeted("issue 1 70000, issue 2 70000"));
    let first = hand.mux.take_sender(Data).unwrap();
    first.try_send(&[7; 65_536]).unwrap();
    let sender = hand.mux.take_sender(Overlap).unwrap();
    let waited = || sender.stats().waited_for_guarantees + sender.stats().waited_for_slots;
    thread::scope(|scope| {
        let thread = scope.spawn(|| sender.send_blocking(&vec![7; len]));
        while waited() == Duration::ZERO {
            thread::yield_now();
        }
        end(&mut hand);
        thread.join().unwrap()
    })
}

/// A message that is completed, one that is notified, and one that lacks guarantees.
const WAITING: [usize; 3] = [4_096, 4_097, 70_001];

#[test]
fn each_end_answers_a_thread_that_waits() {
    for len in WAITING {
        let answers = [
            (at_the_end(len, |hand| hand.mux.close()), Closed::Local),
            (at_the_end(len, |hand| hand.mux.abort()), Closed::Aborted),
            (
                at_the_end(len, |hand| drop(hand.read(&mut &[][..]))),
                Closed::Cut,
            ),
        ];
        for (answer, closed) in answers {
            assert_eq!(answer, Err(SendError::Closed(closed)), "{len}");
        }
    }
}

#[test]
fn a_thread_sends_what_it_may_after_the_end_of_the_peer() {
    let answers = WAITING.map(|len| {
        at_the_end(len, |hand| {
            assert!(hand.read(&mut &finishes()[..]).is_ready());
            hand.written();
        })
    });
    let closed = Err(SendError::Closed(Closed::Remote));
    assert_eq!(answers, [Ok(()), Ok(()), closed]);
}
