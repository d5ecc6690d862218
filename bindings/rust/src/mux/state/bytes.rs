//! The bytes of the outbound queue, and how many of them belong to messages.
use crate::Version;
use std::collections::VecDeque;

/// The sizes of control frames: those with an amount, those with a bound, and a finish.
pub(super) const AMOUNT: usize = 5;
pub(super) const BOUND: usize = 9;
pub(super) const FINISH: usize = 1;

/// The size of the preface, which precedes all frames in version Two.
const PREFACE: usize = 4;

/// The size of a frame's header, which precedes its message.
fn message_header(version: Version) -> usize {
    match version {
        Version::One => 3,
        Version::Two => 5,
    }
}

/// A frame that the driver has not taken entirely.
struct Frame {
    /// The remaining bytes of its header, or of a frame without a message.
    header: usize,
    message: usize,
}

/// The bytes that are pending, including the rest of a frame that the driver took in part.
pub(super) struct Bytes {
    version: Version,
    frames: VecDeque<Frame>,
    messages: usize,
}

impl Bytes {
    pub fn new(version: Version) -> Bytes {
        let mut bytes = Bytes {
            version,
            frames: VecDeque::new(),
            messages: 0,
        };
        if version == Version::Two {
            bytes.enter(PREFACE, 0);
        }
        bytes
    }

    /// Returns how many bytes of messages are pending.
    pub fn messages(&self) -> usize {
        self.messages
    }

    /// Returns whether no bytes are pending.
    pub fn is_empty(&self) -> bool {
        self.frames.is_empty()
    }

    /// Counts a message of `len` bytes that enters the queue.
    pub fn enter_message(&mut self, len: usize) {
        self.enter(message_header(self.version), len);
    }

    /// Counts a control frame of `len` bytes that enters the queue.
    pub fn enter_control(&mut self, len: usize) {
        self.enter(len, 0);
    }

    fn enter(&mut self, header: usize, message: usize) {
        self.frames.push_back(Frame { header, message });
        self.messages += message;
    }

    /// Counts `count` bytes that the driver takes.
    pub fn take(&mut self, mut count: usize) {
        while let Some(first) = self.frames.front_mut() {
            let of_header = count.min(first.header);
            let of_message = (count - of_header).min(first.message);
            first.header -= of_header;
            first.message -= of_message;
            self.messages -= of_message;
            count -= of_header + of_message;
            if first.header + first.message > 0 {
                break;
            }
            self.frames.pop_front();
        }
        debug_assert_eq!(count, 0, "more bytes were taken than are pending");
    }
}
