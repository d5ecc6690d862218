//! The scheduling of messages, as `docs/reference/sessions.md` has it.
use crate::hand::{Call, Hand};
use crate::*;
use lcmux::Channel::Data;
use lcmux::{Needs, SendError, Sender, TrySendError};
use std::mem;
use std::sync::mpsc;
use std::thread;
use std::time::Duration;

fn senders(hand: &mut Hand) -> Vec<Sender> {
    ALL.map(|channel| hand.mux.take_sender(channel).unwrap())
        .into()
}

// The channels of the written messages of one byte each; the transport accepts this many.
fn written(hand: &mut Hand, count: usize) -> Vec<u8> {
    let bytes = hand.written_at_most(6 * count);
    assert_eq!(bytes.len() % 6, 0);
    bytes.chunks(6).map(|frame| frame[0] & 15).collect()
}

// Sends messages of one byte until a call waits.
fn sends(sender: &Sender) -> Call<'_, Result<(), SendError>> {
    loop {
        let mut call = Call::new(sender.send(b"x"));
        if call.poll().is_none() {
            return call;
        }
    }
}

const FULL: Result<(), TrySendError> = Err(TrySendError::Full(Needs::Slot));

/// All senders always have a waiting call: between two messages of one there are fewer than `slots` of others.
#[test]
fn fewer_than_slots_messages_of_others_come_between_two_of_one() {
    for slots in [14, 15, 17, 20, 32] {
        let mut hand = Hand::started(with_slots(slots));
        hand.feed(&greeted(
            &(0..CHANNELS)
                .map(|channel| format!("issue {channel} 9999"))
                .collect::<Vec<_>>()
                .join(", "),
        ));
        let senders = senders(&mut hand);
        let mut calls: Vec<_> = senders.iter().map(|sender| (sends(sender), 0)).collect();
        let mut sent = Vec::new();
        for round in 0..600 {
            // Every woken task is polled before the driver writes again, in any order.
            let order = (0..CHANNELS).map(|at| (at * 3 + round) % CHANNELS);
            let is_woken = |(call, wakes): &(Call<_>, usize)| call.wakes() > *wakes;
            while let Some(at) = order.clone().find(|at| is_woken(&calls[*at])) {
                let (call, wakes) = &mut calls[at];
                *wakes = call.wakes();
                if call.poll().is_some() {
                    calls[at] = (sends(&senders[at]), 0);
                }
            }
            sent.extend(written(&mut hand, 1 + round % 9));
        }
        assert!(sent.len() > 600, "{slots} slots: {}", sent.len());
        for (at, channel) in sent.iter().enumerate() {
            let next = sent[at + 1..].iter().position(|other| other == channel);
            assert!(
                next.unwrap_or(0) < slots as usize,
                "{slots} slots, from {at}: {sent:?}"
            );
        }
    }
}

/// A call that lacks guarantees delays no other channel, and proceeds once they arrive.
#[test]
fn a_channel_without_guarantees_holds_up_no_other() {
    let mut hand = Hand::started(narrow());
    hand.feed(&greeted("issue 0 64, issue 1 64"));
    let senders = senders(&mut hand);
    let poor = Call::waiting(senders[2].send(b"x"));
    for _ in 0..3 {
        senders[0].try_send(b"x").unwrap();
        senders[1].try_send(b"x").unwrap();
        assert_eq!(senders[0].try_send(b"x"), FULL);
        hand.written();
    }
    senders[0].try_send(b"x").unwrap();
    let next = Call::waiting(senders[0].send(b"x"));
    hand.feed(&frames("issue 2 1"));
    assert_eq!((poor.wakes(), next.wakes()), (1, 0));
    assert_eq!(poor.woken(), Ok(()));
    hand.written();
    assert_eq!(next.woken(), Ok(()));
}

/// Dropping a notified call notifies the next one of its channel, and none twice.
#[test]
fn a_call_that_is_dropped_notifies_the_next() {
    let mut hand = Hand::started(narrow());
    hand.feed(&room_on_all());
    let sender = hand.mux.take_sender(Data).unwrap();
    sender.try_send(b"x").unwrap();
    let mut calls: Vec<_> = (0..7).map(|_| Call::waiting(sender.send(b"x"))).collect();
    hand.written();
    for _ in 0..7 {
        let woken = calls.iter().filter(|call| call.wakes() > 0).count();
        assert_eq!((woken, calls[0].wakes()), (1, 1));
        drop(calls.remove(0));
    }
    assert_eq!(hand.written(), []);
    assert_eq!(sender.try_send(b"x"), Ok(()));
}

/// A driver with nothing left to write is polled once more, after the tasks that were just woken. Then the calls behind
/// a forgotten one are notified.
#[test]
fn a_driver_is_polled_once_more_for_the_calls_behind_a_forgotten_task() {
    let mut hand = Hand::started(with_slots(32));
    hand.feed(&greeted("issue 0 99999, issue 1 99999, issue 2 99999"));
    let (senders, long) = (senders(&mut hand), vec![7; 40_000]);
    for _ in 0..2 {
        senders[0].try_send(&long).unwrap();
        let forgotten = Call::waiting(senders[1].send(&long));
        let behind = Call::waiting(senders[2].send(&long));
        let before = hand.write_wakes();
        assert_eq!(hand.written().len(), 40_005);
        assert_eq!((forgotten.wakes(), behind.wakes()), (1, 0));
        assert_eq!(hand.write_wakes(), before + 1);
        assert_eq!(hand.written(), []);
        assert_eq!(hand.write_wakes(), before + 1);
        assert_eq!(behind.woken(), Ok(()));
        assert_eq!(hand.written().len(), 40_005);
    }
}

/// Futures and permits of six channels are leaked, once they wait or once they were woken: the seventh channel still
/// sends.
#[test]
fn forgotten_calls_hold_up_no_other_channel() {
    for (slots, is_woken) in [(14, false), (14, true), (20, true)] {
        let mut hand = Hand::started(with_slots(slots));
        hand.feed(&room_on_all());
        let senders = senders(&mut hand);
        for sender in &senders[..6] {
            mem::forget(sender.try_reserve(1).unwrap());
            let call = sends(sender);
            if is_woken && slots > 14 {
                hand.written();
                assert_eq!(call.wakes(), 1);
            }
            mem::forget(call);
        }
        hand.written();
        for _ in 0..10 {
            let waits = sends(&senders[6]);
            let sent = written(&mut hand, 99);
            assert!(sent.iter().all(|channel| *channel == 6) && !sent.is_empty());
            assert_eq!(waits.woken(), Ok(()));
            assert_eq!(written(&mut hand, 9), [6]);
            hand.feed(&frames("issue 6 9"));
        }
    }
}

// A call of the sender in a thread waits for a slot.
fn until_it_waits(sender: &Sender) {
    while sender.stats().waited_for_slots == Duration::ZERO {
        thread::yield_now();
    }
}

/// The driver completes the sends of blocked threads, the channel that sent least recently first, with the frames
/// that are pending after them. A task is notified.
#[test]
fn calls_of_threads_are_completed_while_they_sleep() {
    let mut hand = Hand::started(narrow());
    hand.feed(&room_on_all());
    let senders = senders(&mut hand);
    for at in [3, 6, 1, 0, 4] {
        senders[at].try_send(b"x").unwrap();
    }
    thread::scope(|scope| {
        for at in [6, 3, 0, 4] {
            let sender = &senders[at];
            scope.spawn(move || sender.send_blocking(&[at as u8]).unwrap());
            until_it_waits(sender);
        }
        let task = Call::waiting(senders[1].send(b"t"));
        senders[4].finish().unwrap();
        let first = "send 3 78, send 6 78, send 1 78, send 0 78, send 4 78";
        let then = "send 3 03, send 6 06, send 0 00, send 4 04, finish 4";
        assert_eq!(hand.written(), frames(&format!("{first}, {then}")));
        assert_eq!(task.woken(), Ok(()));
        assert_eq!(hand.written(), frames("send 1 74"));
    });
}

/// A permit is granted while its thread blocks, and belongs to it.
#[test]
fn a_permit_is_given_to_a_thread_that_sleeps() {
    let mut hand = Hand::started(narrow());
    hand.feed(&room_on_all());
    let sender = &hand.mux.take_sender(Data).unwrap();
    sender.try_send(b"x").unwrap();
    thread::scope(|scope| {
        let (go, wait) = mpsc::channel();
        scope.spawn(move || {
            let permit = sender.reserve_blocking(60).unwrap();
            wait.recv().unwrap();
            permit.send(b"permit").unwrap();
        });
        until_it_waits(sender);
        assert_eq!(sender.held(), 63);
        assert_eq!(hand.written(), frames("send 1 78"));
        assert_eq!(sender.held(), 3);
        assert_eq!(sender.try_send(b"y"), FULL, "the permit has the slot");
        go.send(()).unwrap();
    });
    assert_eq!(hand.written(), frames("send 1 7065726d6974"));
}
