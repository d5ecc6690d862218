//! Streams of bytes over a channel: sessions whose bytes are moved by hand, and sessions over sockets.
#[allow(dead_code)]
#[path = "../common/call.rs"]
mod call;
#[allow(dead_code)]
#[path = "../common/hand.rs"]
mod hand;
#[path = "../common/watchdog.rs"]
mod watchdog;

mod copies;
mod reading;
mod threads;
mod writing;

use lcmux::{Config, Version, CHANNELS};
use std::error::Error;
use std::io;

/// Version Two, with rings of this size.
fn rings(capacity: u32) -> Config {
    let mut config = Config::new([capacity; CHANNELS], 16);
    config.version = Version::Two;
    config
}

const PREFACE: &[u8] = b"LCM\x02";

/// A frame with its number of four bytes: a send without its message, an issue, an absolve or a plead.
fn frame(kind: u8, channel: u8, number: u32) -> Vec<u8> {
    [&[16 * kind + channel], &number.to_be_bytes()[..]].concat()
}

/// A message on channel 1, Data.
fn send(message: &[u8]) -> Vec<u8> {
    [&frame(1, 1, message.len() as u32), message].concat()
}

/// An issue on channel 1.
fn issue(amount: u32) -> Vec<u8> {
    frame(2, 1, amount)
}

/// The end of channel 1.
const FINISH: &[u8] = b"\x71";

/// A limit of 0 on what the peer still issues on channel 1.
const NO_MORE: [u8; 9] = [0x61, 0, 0, 0, 0, 0, 0, 0, 0];

/// The end of all channels.
const FINISHES: &[u8] = b"\x70\x71\x72\x73\x74\x75\x76";

/// The error that an error of a stream carries.
fn inner<E: Error + Clone + 'static>(error: &io::Error) -> Option<E> {
    error.get_ref()?.downcast_ref().cloned()
}
