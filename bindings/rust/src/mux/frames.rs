//! The frames of a stream, recognized by its bytes, for tracing.
use crate::Channel;
use std::sync::Arc;

/// The direction of a [`Frame`].
///
/// ```
/// use lcmux::{Direction, Frame};
///
/// fn arrow(frame: &Frame) -> &'static str {
///     match frame.direction {
///         Direction::In => "<-",
///         Direction::Out => "->",
///     }
/// }
/// ```
#[derive(Clone, Copy, Debug, PartialEq, Eq, Hash)]
pub enum Direction {
    /// Inbound: from the peer.
    In,
    /// Outbound: to the peer.
    Out,
}

/// The kind of a [`Frame`].
///
/// ```
/// use lcmux::{Frame, FrameKind};
///
/// /// Returns how many guarantees a frame uses: one for each byte of a message.
/// fn spent(frame: &Frame) -> u64 {
///     match frame.kind {
///         FrameKind::Send => frame.number,
///         _ => 0,
///     }
/// }
/// ```
#[derive(Clone, Copy, Debug, PartialEq, Eq, Hash)]
#[non_exhaustive]
pub enum FrameKind {
    // codes: begin kinds
    /// A message of the sender. The number is its length.
    Send,
    /// The receiver issues guarantees. The number is the amount.
    Issue,
    /// The sender gives guarantees back. The number is the amount.
    Absolve,
    /// The receiver asks the sender to give guarantees back. The number is the target.
    Plead,
    /// The sender limits what it still sends. The number is the bound.
    LimitSending,
    /// The receiver limits what it still issues. The number is the bound.
    LimitReceiving,
    /// The sender finishes the channel. The number is 0.
    Finish,
    // codes: end
}

impl FrameKind {
    /// Returns the kind of a code in a frame's tag.
    pub(crate) fn of(code: u8) -> Option<FrameKind> {
        match code {
            // codes: begin kinds of codes
            1 => Some(FrameKind::Send),
            2 => Some(FrameKind::Issue),
            3 => Some(FrameKind::Absolve),
            4 => Some(FrameKind::Plead),
            5 => Some(FrameKind::LimitSending),
            6 => Some(FrameKind::LimitReceiving),
            7 => Some(FrameKind::Finish),
            // codes: end
            _ => None,
        }
    }
}

/// A frame that was sent or that arrived, as [`Driver::on_frame`](crate::Driver::on_frame) reports it.
///
/// ```
/// use lcmux::{Config, Direction, FrameKind, Mux, CHANNELS};
///
/// let (mux, mut driver) = Mux::new(Config::new([64; CHANNELS], 16))?;
/// driver.on_frame(|frame| match (frame.direction, frame.kind) {
///     (Direction::In, FrameKind::Send) => println!("{} bytes on {:?}", frame.number, frame.channel),
///     (direction, kind) => println!("{direction:?} {kind:?}"),
/// });
/// # Ok::<(), lcmux::MuxFault>(())
/// ```
#[derive(Clone, Copy, Debug, PartialEq, Eq, Hash)]
#[non_exhaustive]
pub struct Frame {
    /// The direction of the frame.
    pub direction: Direction,
    /// The kind of the frame.
    pub kind: FrameKind,
    /// The channel of the frame.
    pub channel: Channel,
    /// The number that the frame carries: a length, an amount, a target or a bound.
    pub number: u64,
    /// The size of the frame on the wire in bytes, including its tag and its number.
    pub size: usize,
}

pub(crate) type Hook = Arc<dyn Fn(&Frame) + Send + Sync>;

/// The first byte and the length of the preface.
const GREETING: (u8, usize) = (0x4c, 4);

/// Recognizes the frames of one direction.
pub(crate) struct Scanner {
    direction: Direction,
    hooks: Vec<Hook>,
    heads: Heads,
}

impl Scanner {
    pub fn new(direction: Direction) -> Scanner {
        Scanner {
            direction,
            hooks: Vec::new(),
            heads: Heads::default(),
        }
    }

    pub fn hook(&mut self, hook: Hook) {
        self.hooks.push(hook);
    }

    /// Reports the frames that these bytes complete, at most `most`.
    pub fn scan(&mut self, mut bytes: &[u8], most: u64) {
        if self.hooks.is_empty() {
            return;
        }
        let mut reported = 0;
        while self.heads.pass(&mut bytes) {
            let Some(frame) = self.heads.frame(self.direction) else {
                return;
            };
            if reported < most {
                self.hooks.iter().for_each(|hook| hook(&frame));
            }
            reported += 1;
        }
    }
}

/// Decides how many inbound bytes are delivered now. An incomplete message waits for its rest, so that it is copied
/// once, from the read buffer to its ring, and not through the buffer in which the peer keeps an incomplete frame. It
/// validates nothing: all bytes are delivered in their order.
#[derive(Default)]
pub(crate) struct Cutter {
    heads: Heads,
}

impl Cutter {
    /// Returns how many of these bytes, which follow the delivered ones, are delivered now: all, or those before an
    /// incomplete message of at most `most` bytes.
    pub fn cut(&mut self, bytes: &[u8], most: usize) -> usize {
        let (mut rest, mut start) = (bytes, self.heads);
        let mut left = rest.len();
        while self.heads.pass(&mut rest) {
            (start, left) = (self.heads, rest.len());
        }
        if start.is_between() && self.heads.is_in_body() && self.heads.size() <= most {
            self.heads = start;
            return bytes.len() - left;
        }
        bytes.len()
    }
}

/// The part of a frame's tag and number that arrived, and the number of bytes that its body lacks.
#[derive(Clone, Copy, Default)]
struct Heads {
    is_version_two: bool,
    head: [u8; 9],
    have: usize,
    /// The bytes that the body of a message still lacks once its head is complete.
    body: usize,
}

impl Heads {
    // Skips one frame, or all bytes. Returns whether the frame is complete.
    fn pass(&mut self, bytes: &mut &[u8]) -> bool {
        if self.is_whole() {
            self.have = 0;
        }
        if self.body == 0 && !self.take_head(bytes) {
            return false;
        }
        let count = self.body.min(bytes.len());
        *bytes = &bytes[count..];
        self.body -= count;
        self.body == 0
    }

    // Reads the tag and the number. Returns whether they are complete. A preface is skipped.
    fn take_head(&mut self, bytes: &mut &[u8]) -> bool {
        while self.have < self.head_len() {
            let Some((byte, rest)) = bytes.split_first() else {
                return false;
            };
            self.head[self.have] = *byte;
            self.have += 1;
            *bytes = rest;
            if self.head[0] == GREETING.0 && self.have == GREETING.1 {
                self.is_version_two = true;
                self.have = 0;
            }
        }
        if self.is_message() {
            self.body = self.number() as usize;
        }
        true
    }

    fn head_len(&self) -> usize {
        match (self.have, self.head[0] >> 4) {
            (0, _) => 1,
            _ if self.head[0] == GREETING.0 => GREETING.1,
            (_, 1) if !self.is_version_two => 3,
            (_, 1..=4) => 5,
            (_, 5 | 6) => 9,
            _ => 1,
        }
    }

    fn is_message(&self) -> bool {
        self.head[0] >> 4 == 1
    }

    fn is_whole(&self) -> bool {
        self.have == self.head_len() && self.body == 0
    }

    // Whether the bytes so far end at the end of a frame.
    fn is_between(&self) -> bool {
        self.have == 0 || self.is_whole()
    }

    // Whether the head of a message arrived, and not its whole body.
    fn is_in_body(&self) -> bool {
        self.body > 0 && self.channel().is_some()
    }

    fn number(&self) -> u64 {
        let bytes = self.head[1..self.have].iter();
        bytes.fold(0, |number, byte| number << 8 | u64::from(*byte))
    }

    fn channel(&self) -> Option<Channel> {
        Channel::from_number(self.head[0] & 15)
    }

    // The size of the frame whose head is complete.
    fn size(&self) -> usize {
        match self.is_message() {
            true => self.have + self.number() as usize,
            false => self.have,
        }
    }

    // The frame, once it is complete, unless its tag names none.
    fn frame(&self, direction: Direction) -> Option<Frame> {
        let kind = FrameKind::of(self.head[0] >> 4)?;
        Some(Frame {
            direction,
            kind,
            channel: self.channel()?,
            number: self.number(),
            size: self.size(),
        })
    }
}

#[cfg(test)]
mod tests {
    use super::*;

    // Reads in hexadecimal, and the bytes that each one delivers if a message of up to nine bytes waits for its rest.
    const CUTS: [(&str, &str); 18] = [
        ("1100026869", "1100026869"),
        ("11000268 69", " 1100026869"),
        ("110002 6869", " 1100026869"),
        ("11000368 69 6a", "  11000368696a"),
        ("2100000005110002 6869", "2100000005 1100026869"),
        ("110001aa110002bb cc110001dd", "110001aa 110002bbcc110001dd"),
        ("110002aa bb110002cc dd", " 110002aabb 110002ccdd"),
        ("160002aa bb", " 160002aabb"),
        // The peer has the first bytes already, so it gets the others, too.
        ("1100 02aa bb", "1100 02aa bb"),
        ("1100 02aa bb110002cc dd", "1100 02aa bb 110002ccdd"),
        ("21000000 05", "21000000 05"),
        (
            "5100000000000000 09110002 aabb",
            "5100000000000000 09 110002aabb",
        ),
        // Not a frame: its channel is above 6.
        ("170002aa bb", "170002aa bb"),
        ("110006010203 040506", " 110006010203040506"),
        ("110007010203 04050607", "110007010203 04050607"),
        ("4c434d02 1100000002aa bb", "4c434d02  1100000002aabb"),
        ("4c43 4d0271 1100000002 aabb", "4c43 4d0271  1100000002aabb"),
        ("4c434d02 1100 000002aa bb", "4c434d02 1100 000002aa bb"),
    ];

    fn bytes(hex: &str) -> Vec<u8> {
        let byte = |at| u8::from_str_radix(&hex[at..at + 2], 16).unwrap();
        (0..hex.len()).step_by(2).map(byte).collect()
    }

    fn delivered(reads: &str) -> String {
        let (mut cutter, mut held) = (Cutter::default(), Vec::new());
        let pieces = reads.split(' ').map(|read| {
            held.extend(bytes(read));
            let whole = cutter.cut(&held, 9);
            let piece = held.drain(..whole);
            piece.map(|byte| format!("{byte:02x}")).collect()
        });
        pieces.collect::<Vec<String>>().join(" ")
    }

    #[test]
    fn an_incomplete_message_waits_for_its_rest() {
        for (reads, due) in CUTS {
            assert_eq!(delivered(reads), due, "{reads}");
        }
    }
}
