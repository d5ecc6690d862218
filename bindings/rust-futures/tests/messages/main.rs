//! Streams and sinks over sessions whose bytes are moved by hand, and over sessions on threads and on tokio.
#[allow(dead_code)] // the tests of lcmux use all of it
#[path = "../../../rust/tests/common/call.rs"]
mod call;
#[allow(dead_code)] // the tests of lcmux use all of it
#[path = "../../../rust/tests/common/hand.rs"]
mod hand;
#[path = "../../../rust/tests/common/watchdog.rs"]
mod watchdog;

#[cfg(feature = "bytes")]
mod received;
mod sink;
mod stream;
mod tasks;
mod threads;

use hand::{Count, Hand};
use lcmux_futures::lcmux::{Config, Version, CHANNELS};
use std::sync::Arc;
use std::task::Waker;

/// Version Two, with rings of 64 bytes.
fn with_slots(slots: u32) -> Config {
    let mut config = Config::new([64; CHANNELS], slots);
    config.version = Version::Two;
    config
}

const PREFACE: &[u8] = b"\x4c\x43\x4d\x02";

/// A session whose first issues are written, after the peer's preface.
fn started(slots: u32) -> Hand {
    let mut hand = Hand::started(with_slots(slots));
    hand.feed(PREFACE);
    hand
}

/// A message on channel 1.
fn send(body: &[u8]) -> Vec<u8> {
    [b"\x11", &(body.len() as u32).to_be_bytes()[..], body].concat()
}

/// An issue on channel 1.
fn issue(amount: u32) -> Vec<u8> {
    [b"\x21", &amount.to_be_bytes()[..]].concat()
}

/// The end of channel 1.
const FINISH: &[u8] = b"\x71";

fn counted() -> (Arc<Count>, Waker) {
    let count = Arc::<Count>::default();
    (Arc::clone(&count), Waker::from(count))
}
