//! Sessions whose bytes are moved by hand, so that each step is observed, and sessions with drivers over sockets.
#[path = "../common/call.rs"]
mod call;
#[path = "../common/mod.rs"]
mod common;
#[path = "../common/end.rs"]
mod end;
#[path = "../common/hand.rs"]
mod hand;
#[path = "../common/page.rs"]
mod page;
#[path = "../common/watchdog.rs"]
mod watchdog;

mod answers;
mod batches;
mod cases;
mod clones;
mod config;
mod control;
mod endings;
mod ends;
mod errors;
mod events;
mod filled;
mod frames;
mod keeping;
mod lent;
mod oversized;
mod owned;
mod polled;
mod races;
mod receiving;
mod scheduling;
mod sending;
mod sockets;
mod timeouts;
mod vectored;

use lcmux::{Channel, Config, IssuePolicy, Mux, Version, CHANNELS};

/// Version Two, with rings of 64 bytes and the fewest slots: one for the messages of each channel.
fn narrow() -> Config {
    with_slots(Mux::LEAST_SLOTS)
}

fn with_slots(slots: u32) -> Config {
    let mut config = Config::new([64; CHANNELS], slots);
    config.version = Version::Two;
    config
}

/// The same configuration, with issues by the caller alone.
fn by_caller(slots: u32) -> Config {
    let mut config = with_slots(slots);
    config.issue = [IssuePolicy::ByCaller; CHANNELS];
    config
}

/// The bytes of frames, without a preface: `send 1 6869`, `issue 1 5`, `finish 1` and so on.
fn frames(text: &str) -> Vec<u8> {
    text.split(", ").flat_map(frame).collect()
}

fn frame(text: &str) -> Vec<u8> {
    let words: Vec<_> = text.split(' ').collect();
    let kinds = [
        "send",
        "issue",
        "absolve",
        "plead",
        "limit-sending",
        "limit-receiving",
        "finish",
    ];
    let kind = kinds.iter().position(|kind| *kind == words[0]).unwrap() as u8 + 1;
    let mut bytes = vec![16 * kind + words[1].parse::<u8>().unwrap()];
    match kind {
        1 => {
            let body = common::hex(words[2]);
            bytes.extend((body.len() as u32).to_be_bytes());
            bytes.extend(body);
        }
        2..=4 => bytes.extend(words[2].parse::<u32>().unwrap().to_be_bytes()),
        5 | 6 => bytes.extend(words[2].parse::<u64>().unwrap().to_be_bytes()),
        _ => {}
    }
    bytes
}

const GREETING: &[u8] = b"\x4c\x43\x4d\x02";

/// The bytes of a peer of version Two: the preface and these frames.
fn greeted(text: &str) -> Vec<u8> {
    [GREETING, &frames(text)].concat()
}

/// Issues of 64 guarantees on each channel.
fn room_on_all() -> Vec<u8> {
    let rooms: Vec<_> = (0..CHANNELS)
        .map(|channel| format!("issue {channel} 64"))
        .collect();
    greeted(&rooms.join(", "))
}

/// The end of all channels.
fn finishes() -> Vec<u8> {
    let finishes: Vec<_> = (0..CHANNELS)
        .map(|channel| format!("finish {channel}"))
        .collect();
    frames(&finishes.join(", "))
}

/// The processor time of this thread, in hundredths of a second: fields 14 and 15 of its line.
fn ran() -> u64 {
    let line = std::fs::read_to_string("/proc/thread-self/stat").unwrap();
    let words = line.rsplit(')').next().unwrap().split(' ').skip(12).take(2);
    words.map(|word| word.parse::<u64>().unwrap()).sum()
}

const ALL: [Channel; CHANNELS] = Channel::ALL;

/// The types that are `Send`, and those that are `Sync`.
#[test]
fn ends_go_to_threads_and_so_do_their_calls() {
    fn goes<T: Send + 'static>() {}
    fn is_shared<T: Sync>() {}
    fn call_goes<T: Send>(_: &T) {}
    goes::<lcmux::Sender>();
    goes::<lcmux::PollSender>();
    goes::<lcmux::OwnedPermit>();
    goes::<lcmux::Receiver>();
    goes::<lcmux::Driver>();
    goes::<lcmux::Mux>();
    is_shared::<lcmux::Sender>();
    is_shared::<lcmux::PollSender>();
    is_shared::<lcmux::OwnedPermit>();
    is_shared::<lcmux::Mux>();
    let (mut mux, driver) = lcmux::Mux::new(narrow()).unwrap();
    let sender = mux.take_sender(Channel::Data).unwrap();
    let mut receiver = mux.take_receiver(Channel::Data).unwrap();
    call_goes(&sender.send(b"hello"));
    call_goes(&sender.reserve(5));
    call_goes(&sender.reserve_owned(5));
    call_goes(&receiver.recv());
    call_goes(&receiver.recv_ref());
    call_goes(&mux.closed());
    call_goes(&driver.run(&[][..], Vec::new()));
}
