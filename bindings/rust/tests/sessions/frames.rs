//! The frames that the hook is called for.
use crate::hand::Hand;
use crate::*;
use lcmux::Channel::Data;
use std::sync::{Arc, Mutex};

// A session of each version: the frames that it writes and reads, and the frames of the hook.
const TRACES: [(Version, &str, &str); 4] = [
    (
        Version::One,
        "210000000511000268694100000003",
        "Issue 5 5, Send 2 5, Plead 3 5",
    ),
    (
        Version::One,
        "2100000005310000000251000000000000000961000000000000000a",
        "Issue 5 5, Absolve 2 5, LimitSending 9 9, LimitReceiving 10 9",
    ),
    (
        Version::Two,
        "4c434d02210000000511000000026869410000000371",
        "Issue 5 5, Send 2 7, Plead 3 5, Finish 0 1",
    ),
    (
        Version::Two,
        "4c434d022100000005310000000251000000000000000961000000000000000a",
        "Issue 5 5, Absolve 2 5, LimitSending 9 9, LimitReceiving 10 9",
    ),
];

fn traced(config: Config) -> (Hand, Arc<Mutex<Vec<String>>>) {
    let mut hand = Hand::new(config);
    let seen = Arc::new(Mutex::new(Vec::new()));
    let log = Arc::clone(&seen);
    hand.driver.on_frame(move |frame| {
        assert_eq!(frame.channel, Data);
        let said = format!(
            "{:?} {:?} {} {}",
            frame.direction, frame.kind, frame.number, frame.size
        );
        log.lock().unwrap().push(said);
    });
    (hand, seen)
}

fn told(direction: &str, frames: &str) -> Vec<String> {
    frames
        .split(", ")
        .map(|frame| format!("{direction} {frame}"))
        .collect()
}

#[test]
fn each_of_several_hooks_is_told() {
    let (mut hand, first) = traced(with_slots(16));
    let count = Arc::new(Mutex::new(0));
    let counted = Arc::clone(&count);
    hand.driver
        .on_frame(move |frame| *counted.lock().unwrap() += frame.size);
    hand.feed(&greeted("issue 1 5, issue 1 6"));
    assert_eq!(*first.lock().unwrap(), ["In Issue 5 5", "In Issue 6 5"]);
    assert_eq!(*count.lock().unwrap(), 10);
}

#[test]
fn each_frame_that_comes_is_told() {
    for (_, bytes, frames) in TRACES {
        let bytes = common::hex(bytes);
        for size in 1..=bytes.len() {
            let (mut hand, seen) = traced(with_slots(16));
            bytes.chunks(size).for_each(|piece| hand.feed(piece));
            assert_eq!(*seen.lock().unwrap(), told("In", frames), "by {size}");
        }
    }
}

// The bytes after a preface of this length: each frame is reported with its last byte, and no earlier.
fn written_byte_by_byte(
    hand: &mut Hand,
    seen: &Mutex<Vec<String>>,
    told: &[String],
    greeting: usize,
) -> Vec<u8> {
    let (mut written, mut end) = (Vec::new(), greeting);
    for (count, frame) in told.iter().enumerate() {
        end += frame.rsplit(' ').next().unwrap().parse::<usize>().unwrap();
        while written.len() < end {
            assert_eq!(*seen.lock().unwrap(), told[..count]);
            written.extend(hand.written_at_most(1));
        }
    }
    assert_eq!(*seen.lock().unwrap(), told);
    written
}

#[test]
fn each_frame_that_goes_out_is_told_once_it_was_written() {
    for (version, bytes, frames) in TRACES {
        let mut config = by_caller(16);
        config.version = version;
        let (mut hand, seen) = traced(config);
        let (sender, receiver) = (
            hand.mux.take_sender(Data).unwrap(),
            hand.mux.take_receiver(Data).unwrap(),
        );
        let other = if version == Version::One {
            &[][..]
        } else {
            GREETING
        };
        hand.feed(&[other, &crate::frames("issue 1 20")].concat());
        seen.lock().unwrap().clear();
        receiver.issue(5).unwrap();
        match frames.contains("Send ") {
            true => {
                sender.try_send(b"hi").unwrap();
                receiver.plead(3).unwrap();
            }
            false => {
                sender.absolve(2).unwrap();
                sender.limit(9).unwrap();
                receiver.limit(10).unwrap();
            }
        }
        if version == Version::Two && frames.contains("Finish") {
            sender.finish().unwrap();
        }
        let written = written_byte_by_byte(&mut hand, &seen, &told("Out", frames), other.len());
        assert_eq!(written, common::hex(bytes));
    }
}

#[test]
fn a_frame_that_breaks_the_rules_is_not_told() {
    for bad in ["ff", "31000000ff"] {
        let (mut hand, seen) = traced(with_slots(16));
        let bytes = common::hex(&["4c434d022100000005", bad, "2100000005"].concat());
        assert!(hand.read(&mut &bytes[..]).is_ready());
        assert_eq!(*seen.lock().unwrap(), ["In Issue 5 5"]);
    }
}
