//! Keep-alives, which change nothing, and how a driver observes the end of its session.
use crate::hand::{Call, Hand};
use crate::*;
use lcmux::{Channel::Data, CHANNELS};
use lcmux::{Closed, PollRead, PollWrite, Receiver, Sender};
use std::io;
use std::task::{Context, Poll};

/// A session whose first issues are written, with all of its handles.
struct Kept {
    hand: Hand,
    senders: Vec<Option<Sender>>,
    receivers: Vec<Option<Receiver>>,
}

impl Kept {
    fn new(config: Config) -> Kept {
        let mut hand = Hand::started(config);
        Kept {
            senders: ALL.map(|channel| hand.mux.take_sender(channel)).into(),
            receivers: ALL.map(|channel| hand.mux.take_receiver(channel)).into(),
            hand,
        }
    }

    /// The frame of a keep-alive, for which the writing half is woken.
    fn keep_alive(&mut self) -> Vec<u8> {
        let wakes = self.hand.write_wakes();
        let is_said = self.hand.driver.keep_alive();
        assert_eq!(self.hand.write_wakes() - wakes, usize::from(is_said));
        let written = self.hand.written();
        assert_eq!(is_said, !written.is_empty());
        written
    }

    // Makes a call on a channel, such as `limit 0 100`, and writes its frame.
    fn act(&mut self, act: &str) {
        let words: Vec<_> = act.split(' ').collect();
        let at: usize = words[1].parse().unwrap();
        let (sender, receiver) = (self.senders[at].as_ref(), self.receivers[at].as_mut());
        match words[0] {
            "limit-sending" => sender.unwrap().limit(words[2].parse().unwrap()).unwrap(),
            "limit-receiving" => receiver.unwrap().limit(words[2].parse().unwrap()).unwrap(),
            "send" => sender.unwrap().try_send(&common::hex(words[2])).unwrap(),
            "take" => drop(receiver.unwrap().try_recv().unwrap()),
            "finish" => self.senders[at] = None,
            _ => unreachable!("{act}"),
        }
        self.hand.written();
    }
}

/// The inbound frames, the calls after them, and the frame of a keep-alive. The largest limit is 2^62.
const KEEPERS: [(&str, &str, &str); 8] = [
    ("issue 0 64", "", "limit-receiving 0 4611686018427387904"),
    (
        "send 0 6869",
        "limit-receiving 0 100",
        "limit-receiving 0 100",
    ),
    (
        "send 0 6869",
        "limit-receiving 0 100, take 0",
        "limit-receiving 0 98",
    ),
    ("issue 0 64", "limit-receiving 0 0", "limit-receiving 0 0"),
    (
        "finish 0, finish 1",
        "limit-receiving 2 7",
        "limit-receiving 2 7",
    ),
    (FINISHED, "", "limit-sending 0 4611686018427387904"),
    (
        FINISHED,
        "limit-sending 0 10, send 0 01020304",
        "limit-sending 0 6",
    ),
    (
        FINISHED,
        "finish 0, finish 1, limit-sending 2 0",
        "limit-sending 2 0",
    ),
];

/// The peer sends nothing more, and has space on channel 0.
const FINISHED: &str =
    "issue 0 64, finish 0, finish 1, finish 2, finish 3, finish 4, finish 5, finish 6";

#[test]
fn a_keep_alive_says_the_first_limit_anew() {
    for (came, acts, wanted) in KEEPERS {
        let mut kept = Kept::new(narrow());
        kept.hand.feed(&greeted(came));
        acts.split(", ")
            .filter(|act| !act.is_empty())
            .for_each(|act| kept.act(act));
        for _ in 0..3 {
            assert_eq!(kept.keep_alive(), frames(wanted), "{came}: {acts}");
        }
    }
    let mut one = narrow();
    one.version = Version::One;
    let wanted = frames("limit-receiving 0 4611686018427387904");
    assert_eq!(Kept::new(one).keep_alive(), wanted);
}

/// The keep-alive is sent even if calls wait on the channel whose limit it repeats, and these proceed afterwards.
#[test]
fn a_keep_alive_passes_calls_that_wait() {
    let mut kept = Kept::new(narrow());
    kept.hand
        .feed(&greeted(&FINISHED.replace("issue 0 64, ", "")));
    let sender = kept.senders[0].take().unwrap();
    let waits = Call::waiting(sender.send(b"hi"));
    for _ in 0..2 {
        let wanted = frames("limit-sending 0 4611686018427387904");
        assert_eq!(kept.keep_alive(), wanted);
    }
    kept.hand.feed(&frames("issue 0 64"));
    assert_eq!(waits.woken(), Ok(()));
    assert_eq!(kept.hand.written(), frames("send 0 6869"));
}

/// There is no keep-alive if all channels are finished in both directions, the session is closed, or bytes are
/// pending.
#[test]
fn a_keep_alive_says_nothing_where_there_is_no_need() {
    let mut kept = Kept::new(narrow());
    kept.hand.feed(&greeted(FINISHED));
    kept.senders.clear();
    kept.hand.written();
    assert_eq!(kept.keep_alive(), []);

    let mut kept = Kept::new(narrow());
    kept.hand.feed(&greeted("issue 0 64"));
    kept.senders[0].as_ref().unwrap().try_send(b"hi").unwrap();
    assert!(!kept.hand.driver.keep_alive());
    assert_eq!(kept.hand.written_at_most(3).len(), 3);
    assert!(
        !kept.hand.driver.keep_alive(),
        "bytes are held that were not taken"
    );
    kept.hand.written();
    kept.hand.mux.close();
    assert!(!kept.hand.driver.keep_alive());
    assert_eq!(kept.hand.write(&mut Vec::new()), Poll::Ready(Ok(())));
}

/// The close wakes the driver even if its transport accepts no bytes.
#[test]
fn who_drives_a_session_knows_that_it_is_closed() {
    let mut hand = Hand::new(narrow());
    assert_eq!(hand.written_at_most(3).len(), 3);
    assert!(!hand.driver.is_closing());
    assert_eq!(hand.write_wakes(), 0);
    hand.mux.close();
    assert_eq!(hand.write_wakes(), 1);
    assert!(hand.driver.is_closing());
    let hand = Hand::new(narrow());
    hand.mux.abort();
    assert!(hand.driver.is_closing());
}

/// Reads and writes whole chunks, and records their lengths.
struct Pieces {
    lengths: Vec<usize>,
    bytes: Vec<u8>,
}

impl PollRead for Pieces {
    fn poll_read(&mut self, _: &mut Context<'_>, buffer: &mut [u8]) -> Poll<io::Result<usize>> {
        if self.bytes.is_empty() {
            return Poll::Pending;
        }
        let count = buffer.len().min(self.bytes.len());
        self.lengths.push(buffer.len());
        buffer[..count].copy_from_slice(&self.bytes[..count]);
        self.bytes.drain(..count);
        Poll::Ready(Ok(count))
    }
}

impl PollWrite for Pieces {
    fn poll_write(&mut self, _: &mut Context<'_>, bytes: &[u8]) -> Poll<io::Result<usize>> {
        self.lengths.push(bytes.len());
        self.bytes.extend(bytes);
        Poll::Ready(Ok(bytes.len()))
    }

    fn poll_flush(&mut self, _: &mut Context<'_>) -> Poll<io::Result<()>> {
        Poll::Ready(Ok(()))
    }

    fn poll_close(&mut self, _: &mut Context<'_>) -> Poll<io::Result<()>> {
        Poll::Ready(Ok(()))
    }
}

/// Polls until no bytes move.
fn move_all(pieces: &mut Pieces, mut poll: impl FnMut(&mut Pieces) -> Poll<Result<(), Closed>>) {
    let mut before = None;
    while before != Some(pieces.lengths.len()) {
        before = Some(pieces.lengths.len());
        assert_eq!(poll(pieces), Poll::Pending);
    }
}

/// A session of short messages has small buffers; other buffers grow to 128 KiB.
#[test]
fn pieces_become_longer_while_they_are_filled() {
    let mut config = with_slots(20);
    config.capacities = [500_200; CHANNELS];
    let [mut here, mut there] = [Hand::new(config), Hand::new(config)];
    let pieces = |from: &mut Hand, to: &mut Hand| {
        let (lengths, bytes) = (Vec::new(), Vec::new());
        let mut pieces = Pieces { lengths, bytes };
        move_all(&mut pieces, |to| from.write(to));
        let written = std::mem::take(&mut pieces.lengths);
        move_all(&mut pieces, |from| to.read(from));
        (written, pieces.lengths)
    };
    assert_eq!(pieces(&mut there, &mut here), (vec![39], vec![4096]));
    let sender = here.mux.take_sender(Data).unwrap();
    let _receiver = there.mux.take_receiver(Data).unwrap();
    sender.try_send(&[7; 100]).unwrap();
    assert_eq!(pieces(&mut here, &mut there), (vec![39 + 105], vec![4096]));
    sender.try_send(&[7; 500_000 - 5]).unwrap();
    let grown = [4096, 8192, 16_384, 32_768, 65_536];
    let lengths = [&grown[..], &[131_072, 131_072, 110_880]].concat();
    let rooms = [&grown[..], &[131_072; 3]].concat();
    assert_eq!(pieces(&mut here, &mut there), (lengths, rooms));
}
