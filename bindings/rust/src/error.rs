use crate::{sys, Channel, Config, FrameKind};
use std::error::Error;
use std::fmt::{self, Display, Formatter};
use std::io::{self, ErrorKind};

/// The reason why the library refused a local operation. A refused call changes nothing. All numbers count bytes of
/// messages.
///
/// [`Refusal::QueueFull`] and [`Refusal::NoGuarantee`] are backpressure: the same call can succeed after the peer
/// writes frames, or after more guarantees arrive. [`Refusal::OutOfMemory`] can pass, too. The other refusals stay
/// until the arguments or the state of the channel change.
///
/// ```
/// # use lcmux::{Channel::Data, Config, Peer, Refusal, CHANNELS};
/// # let mut peer = Peer::new(&Config::new([8; CHANNELS], 4))?;
/// let refusal = peer.send(Data, b"hello").unwrap_err();
/// assert_eq!(refusal, Refusal::NoGuarantee { held: 0 });
/// assert_eq!((refusal.number(), refusal.detail()), (4, Some(("held", 0))));
/// # Ok::<(), lcmux::PeerFault>(())
/// ```
#[derive(Clone, Copy, Debug, PartialEq, Eq)]
#[non_exhaustive]
pub enum Refusal {
    // codes: begin refusals
    /// The message is empty: a message has at least 1 byte. Number 1.
    EmptyBody,
    /// The message is too long: a message has at most 65,535 bytes in version 1 and 1,048,576 in version 2. Number 2.
    BodyTooLong,
    /// The message is longer than this side's limit on sending allows. Number 3.
    PastSendLimit {
        /// What the limit still allows.
        left: u64,
    },
    /// The message is longer than the guarantees that this side holds. Number 4.
    NoGuarantee {
        /// The held guarantees.
        held: u64,
    },
    /// The amount is zero: at least 1 guarantee is issued or absolved. Number 5.
    ZeroAmount,
    /// The call would absolve more guarantees than this side holds. Number 6.
    NotHeld {
        /// The held guarantees.
        held: u64,
    },
    /// The bound of a limit is above 2^62. Number 7.
    BoundTooLarge,
    /// The bound is above what an earlier limit allows: a limit is only ever lowered. Number 8.
    LimitRaised {
        /// What the earlier limit still allows.
        left: u64,
    },
    /// The call would issue more than this side's limit on receiving allows. Number 9.
    PastReceiveLimit {
        /// What the limit still allows.
        left: u64,
    },
    /// The call would issue more guarantees than the ring buffer has free bytes that are not yet issued. Number 10.
    NoRoom {
        /// What may be issued now.
        room: u64,
    },
    /// The target of the plead is not below the outstanding guarantees. Number 11.
    NothingToAsk {
        /// The outstanding guarantees.
        outstanding: u64,
    },
    /// The guarantees of the channel would exceed 2^62 in total. Number 12.
    TotalReached,
    /// The outbound queue is full: write some of its frames first. Number 13.
    QueueFull,
    /// An allocation failed. The same call may be made again. Number 14.
    OutOfMemory,
    /// The sender has finished the channel. Number 15.
    ChannelFinished,
    /// The buffer is too short. Number 16.
    BufferTooSmall {
        /// The length that is needed.
        need: usize,
    },
    /// Version 1 of the wire format has no frame that finishes a channel. Number 17.
    WrongVersion,
    // codes: end
}

impl Refusal {
    pub(crate) fn of(code: u32, number: u64) -> Refusal {
        match code {
            // codes: begin refusals of codes
            1 => Refusal::EmptyBody,
            2 => Refusal::BodyTooLong,
            3 => Refusal::PastSendLimit { left: number },
            4 => Refusal::NoGuarantee { held: number },
            5 => Refusal::ZeroAmount,
            6 => Refusal::NotHeld { held: number },
            7 => Refusal::BoundTooLarge,
            8 => Refusal::LimitRaised { left: number },
            9 => Refusal::PastReceiveLimit { left: number },
            10 => Refusal::NoRoom { room: number },
            11 => Refusal::NothingToAsk {
                outstanding: number,
            },
            12 => Refusal::TotalReached,
            13 => Refusal::QueueFull,
            14 => Refusal::OutOfMemory,
            15 => Refusal::ChannelFinished,
            16 => Refusal::BufferTooSmall {
                need: number as usize,
            },
            17 => Refusal::WrongVersion,
            // codes: end
            _ => unreachable!("code {code}"),
        }
    }

    /// Returns the number of the refusal, as the reference and the command line print it.
    pub fn number(self) -> u8 {
        match self {
            // codes: begin numbers of refusals
            Refusal::EmptyBody => 1,
            Refusal::BodyTooLong => 2,
            Refusal::PastSendLimit { .. } => 3,
            Refusal::NoGuarantee { .. } => 4,
            Refusal::ZeroAmount => 5,
            Refusal::NotHeld { .. } => 6,
            Refusal::BoundTooLarge => 7,
            Refusal::LimitRaised { .. } => 8,
            Refusal::PastReceiveLimit { .. } => 9,
            Refusal::NoRoom { .. } => 10,
            Refusal::NothingToAsk { .. } => 11,
            Refusal::TotalReached => 12,
            Refusal::QueueFull => 13,
            Refusal::OutOfMemory => 14,
            Refusal::ChannelFinished => 15,
            Refusal::BufferTooSmall { .. } => 16,
            Refusal::WrongVersion => 17,
            // codes: end
        }
    }

    /// Returns the sentence of the refusal, without the value that it carries.
    pub fn sentence(self) -> &'static str {
        match self {
            // codes: begin sentences of refusals
            Refusal::EmptyBody => "the message is empty",
            Refusal::BodyTooLong => "the message is too long",
            Refusal::PastSendLimit { .. } => {
                "the message is longer than the limit on sending leaves"
            }
            Refusal::NoGuarantee { .. } => {
                "the message is longer than the guarantees that are held"
            }
            Refusal::ZeroAmount => "the amount is zero",
            Refusal::NotHeld { .. } => "more would be absolved than is held",
            Refusal::BoundTooLarge => "the bound is above 2^62",
            Refusal::LimitRaised { .. } => "the bound is above what an earlier limit leaves",
            Refusal::PastReceiveLimit { .. } => {
                "more would be issued than the limit on receiving leaves"
            }
            Refusal::NoRoom { .. } => "more would be issued than the receiving ring has room for",
            Refusal::NothingToAsk { .. } => "the target is not below the guarantees outstanding",
            Refusal::TotalReached => "the guarantees of one channel would pass 2^62",
            Refusal::QueueFull => "the outgoing queue is full",
            Refusal::OutOfMemory => "out of memory",
            Refusal::ChannelFinished => "the channel is finished",
            Refusal::BufferTooSmall { .. } => "the buffer is too small",
            Refusal::WrongVersion => "version 1 of the format cannot finish a channel",
            // codes: end
        }
    }

    /// Returns the name and the value of the number that the refusal carries, if it carries one.
    pub fn detail(self) -> Option<(&'static str, u64)> {
        match self {
            // codes: begin details of refusals
            Refusal::PastSendLimit { left }
            | Refusal::LimitRaised { left }
            | Refusal::PastReceiveLimit { left } => Some(("left", left)),
            Refusal::NoGuarantee { held } | Refusal::NotHeld { held } => Some(("held", held)),
            Refusal::NoRoom { room } => Some(("room", room)),
            Refusal::NothingToAsk { outstanding } => Some(("outstanding", outstanding)),
            Refusal::BufferTooSmall { need } => Some(("need", need as u64)),
            Refusal::EmptyBody
            | Refusal::BodyTooLong
            | Refusal::ZeroAmount
            | Refusal::BoundTooLarge
            | Refusal::TotalReached
            | Refusal::QueueFull
            | Refusal::OutOfMemory
            | Refusal::ChannelFinished
            | Refusal::WrongVersion => None,
            // codes: end
        }
    }
}

impl Display for Refusal {
    fn fmt(&self, f: &mut Formatter<'_>) -> fmt::Result {
        let sentence = self.sentence();
        match self.detail() {
            Some((name, value)) => write!(f, "{sentence} ({name} {value})"),
            None => f.write_str(sentence),
        }
    }
}

impl Error for Refusal {}

/// The rule of the protocol that an inbound frame broke. The session is over: the peer has a bug or is malicious.
///
/// ```
/// # use lcmux::{Config, Peer, Stop, Violation, CHANNELS};
/// # let mut peer = Peer::new(&Config::new([8; CHANNELS], 4))?;
/// let delivery = peer.deliver(b"\x31\0\0\0\x01"); // absolves a guarantee that was never issued
/// assert_eq!(delivery.stop, Some(Stop::Violated(Violation::AbsolvedTooMuch)));
/// assert_eq!(Violation::AbsolvedTooMuch.number(), 3);
/// # Ok::<(), lcmux::PeerFault>(())
/// ```
#[derive(Clone, Copy, Debug, PartialEq, Eq)]
#[non_exhaustive]
pub enum Violation {
    // codes: begin violations
    /// V1. The message is longer than the outstanding guarantees.
    NotGuaranteed,
    /// V2. The message is longer than the sender's limit allows.
    SentPastLimit,
    /// V3. The frame absolves more guarantees than are outstanding.
    AbsolvedTooMuch,
    /// V4. The sender's limit is above what an earlier limit allows.
    SendLimitRaised,
    /// V5. The frame issues more guarantees than the receiver's limit allows.
    IssuedPastLimit,
    /// V6. The sender would hold more than 2^24 guarantees.
    TooManyGuarantees,
    /// V7. The receiver's limit is above what an earlier limit allows.
    ReceiveLimitRaised,
    /// V8. The sender would receive more than 2^62 guarantees in total.
    TotalPassed,
    /// V9. A frame of the sender follows its Finish.
    AfterFinish,
    // codes: end
}

impl Violation {
    // codes: begin violations in order
    /// All violations, in the order of their numbers.
    pub const ALL: [Violation; 9] = [
        Violation::NotGuaranteed,
        Violation::SentPastLimit,
        Violation::AbsolvedTooMuch,
        Violation::SendLimitRaised,
        Violation::IssuedPastLimit,
        Violation::TooManyGuarantees,
        Violation::ReceiveLimitRaised,
        Violation::TotalPassed,
        Violation::AfterFinish,
    ];
    // codes: end

    /// Returns the violation's number: that of [`Violation::AbsolvedTooMuch`], printed as V3, is 3.
    pub fn number(self) -> u8 {
        self as u8 + 1
    }

    // What the frame might have carried.
    fn write_allowed(self, allowed: u64, f: &mut Formatter<'_>) -> fmt::Result {
        match self {
            // codes: begin allowed by violations
            Violation::NotGuaranteed => write!(f, "where {allowed} are outstanding"),
            Violation::SentPastLimit => write!(f, "where the sender's limit leaves {allowed}"),
            Violation::AbsolvedTooMuch => write!(f, "where {allowed} are outstanding"),
            Violation::SendLimitRaised => write!(f, "where the sender's limit leaves {allowed}"),
            Violation::IssuedPastLimit => write!(f, "where the receiver's limit leaves {allowed}"),
            Violation::TooManyGuarantees => write!(f, "where the sender may hold {allowed} more"),
            Violation::ReceiveLimitRaised => {
                write!(f, "where the receiver's limit leaves {allowed}")
            }
            Violation::TotalPassed => write!(f, "where the sender may receive {allowed} more"),
            Violation::AfterFinish => write!(f, "after the Finish of the channel"),
            // codes: end
        }
    }
}

impl Display for Violation {
    fn fmt(&self, f: &mut Formatter<'_>) -> fmt::Result {
        f.write_str(match self {
            // codes: begin sentences of violations
            Violation::NotGuaranteed => "a message longer than the guarantees outstanding",
            Violation::SentPastLimit => "a message beyond the limit on sending",
            Violation::AbsolvedTooMuch => "more guarantees absolved than are outstanding",
            Violation::SendLimitRaised => "a limit on sending that raises an earlier one",
            Violation::IssuedPastLimit => "guarantees beyond the limit on receiving",
            Violation::TooManyGuarantees => "more than 2^24 guarantees held",
            Violation::ReceiveLimitRaised => "a limit on receiving that raises an earlier one",
            Violation::TotalPassed => "more than 2^62 guarantees on one channel",
            Violation::AfterFinish => "a frame of the client behind its Finish",
            // codes: end
        })
    }
}

impl Error for Violation {}

/// The way in which the bytes of the peer's stream broke the framing. The session is over.
///
/// ```
/// # use lcmux::{Config, Fault, Peer, Stop, CHANNELS};
/// # let mut peer = Peer::new(&Config::new([8; CHANNELS], 4))?;
/// assert_eq!(peer.deliver(b"\xff").stop, Some(Stop::Fault(Fault::BadTag)));
/// assert_eq!(Fault::BadTag.number(), 1);
/// # Ok::<(), lcmux::PeerFault>(())
/// ```
#[derive(Clone, Copy, Debug, PartialEq, Eq)]
#[non_exhaustive]
pub enum Fault {
    // codes: begin faults
    /// F1. The first byte names no kind of frame or no channel, or a byte differs from the preface of version 2.
    BadTag,
    /// F2. The length of a message is 0.
    ZeroLength,
    /// F3. A number is out of its range.
    BadNumber,
    /// F4. The stream ends within a frame or within the preface of version 2. Only the end of the stream shows it.
    Truncated,
    // codes: end
}

impl Fault {
    // codes: begin faults in order
    /// All faults, in the order of their numbers.
    pub const ALL: [Fault; 4] = [
        Fault::BadTag,
        Fault::ZeroLength,
        Fault::BadNumber,
        Fault::Truncated,
    ];
    // codes: end

    /// Returns the fault's number: that of [`Fault::ZeroLength`], printed as F2, is 2.
    pub fn number(self) -> u8 {
        self as u8 + 1
    }
}

impl Display for Fault {
    fn fmt(&self, f: &mut Formatter<'_>) -> fmt::Result {
        f.write_str(match self {
            // codes: begin sentences of faults
            Fault::BadTag => "a byte names no kind or channel, or is not the greeting's",
            Fault::ZeroLength => "a message has length 0",
            Fault::BadNumber => "a number in a frame is out of its range",
            Fault::Truncated => "the stream ends within a frame or a greeting",
            // codes: end
        })
    }
}

impl Error for Fault {}

/// The protocol error for which this side discarded the rest of the peer's stream. The session is over.
///
/// ```
/// use lcmux::Stop;
///
/// fn log(stop: Stop) {
///     match stop {
///         Stop::Violated(violation) => eprintln!("V{}: {violation}", violation.number()),
///         Stop::Fault(fault) => eprintln!("F{}: {fault}", fault.number()),
///     }
/// }
/// ```
#[derive(Clone, Copy, Debug, PartialEq, Eq)]
pub enum Stop {
    /// An inbound frame broke a rule.
    Violated(Violation),
    /// The inbound bytes broke the framing.
    Fault(Fault),
}

impl Stop {
    // The kind of an I/O error for it.
    pub(crate) fn kind(self) -> ErrorKind {
        match self {
            Stop::Fault(Fault::Truncated) => ErrorKind::UnexpectedEof,
            Stop::Fault(_) | Stop::Violated(_) => ErrorKind::InvalidData,
        }
    }

    pub(crate) fn of(code: u32) -> Option<Stop> {
        match code {
            0 => None,
            101..=199 => Some(Stop::Violated(Violation::ALL[code as usize - 101])),
            201..=299 => Some(Stop::Fault(Fault::ALL[code as usize - 201])),
            _ => unreachable!("code {code}"),
        }
    }
}

impl Display for Stop {
    fn fmt(&self, f: &mut Formatter<'_>) -> fmt::Result {
        match self {
            Stop::Violated(violation) => violation.fmt(f),
            Stop::Fault(fault) => fault.fmt(f),
        }
    }
}

impl Error for Stop {}

/// The first bytes of a frame: what it does, on which channel, and with which number.
#[derive(Clone, Copy, Debug, PartialEq, Eq)]
#[non_exhaustive]
pub struct FrameHead {
    /// The kind of the frame.
    pub kind: FrameKind,
    /// The channel of the frame.
    pub channel: Channel,
    /// The number that the frame carries: an amount, a target, a bound or the length of a message. A Finish carries none.
    pub number: Option<u64>,
}

impl Display for FrameHead {
    fn fmt(&self, f: &mut Formatter<'_>) -> fmt::Result {
        let FrameHead { kind, channel, .. } = self;
        let article = match kind {
            FrameKind::Issue | FrameKind::Absolve => "an",
            _ => "a",
        };
        match self.number {
            Some(number) => write!(f, "{article} {kind:?} of {number} on {channel:?}"),
            None => write!(f, "{article} {kind:?} on {channel:?}"),
        }
    }
}

/// A protocol error of the peer's stream, where it is, and what was allowed instead. The session is over.
///
/// ```
/// # use lcmux::{Channel::Data, Config, Peer, Stop, Violation, CHANNELS};
/// # let mut peer = Peer::new(&Config::new([8; CHANNELS], 4))?;
/// peer.issue(Data, 5)?;
/// let _ = peer.deliver(b"\x21\0\0\0\x07\x31\0\0\0\x09"); // issues 7, then absolves 9
/// let error = peer.protocol_error().unwrap();
/// assert_eq!(error.stop, Stop::Violated(Violation::AbsolvedTooMuch));
/// assert_eq!((error.offset, error.allowed), (5, Some(5)));
/// assert_eq!(error.to_string(), "V3 at byte 5: an Absolve of 9 on Data, where 5 are outstanding");
/// # Ok::<(), Box<dyn std::error::Error>>(())
/// ```
#[derive(Clone, Copy, Debug, PartialEq, Eq)]
#[non_exhaustive]
pub struct ProtocolError {
    /// The violation or the fault.
    pub stop: Stop,
    /// How many bytes of the inbound stream precede the offending frame, its preface among them.
    pub offset: u64,
    /// The frame that broke a rule; after [`Fault::ZeroLength`] and [`Fault::BadNumber`] the one whose number is out of
    /// range; `None` after other faults.
    pub frame: Option<FrameHead>,
    /// The most that the number of the frame might have been; `None` after [`Violation::AfterFinish`] and after a fault.
    pub allowed: Option<u64>,
    /// The byte that is no tag, or that differs from the preface; `None` unless the fault is [`Fault::BadTag`].
    pub byte: Option<u8>,
}

impl ProtocolError {
    /// Returns what is known of the protocol error, by the fields of the C interface.
    pub(crate) fn of(stop: Stop, found: &sys::ProtocolError) -> ProtocolError {
        let unless_none = |number| (number != u64::MAX).then_some(number);
        ProtocolError {
            stop,
            offset: found.offset,
            frame: FrameKind::of(found.kind as u8).map(|kind| FrameHead {
                kind,
                channel: Channel::ALL[found.channel as usize],
                number: unless_none(found.number),
            }),
            allowed: unless_none(found.allowed),
            byte: unless_none(found.byte).map(|byte| byte as u8),
        }
    }
}

impl Display for ProtocolError {
    fn fmt(&self, f: &mut Formatter<'_>) -> fmt::Result {
        let offset = self.offset;
        match (self.stop, self.frame) {
            (Stop::Violated(violation), Some(frame)) => {
                write!(f, "V{} at byte {offset}: {frame}, ", violation.number())?;
                violation.write_allowed(self.allowed.unwrap_or(0), f)
            }
            (Stop::Violated(violation), None) => {
                write!(f, "V{} at byte {offset}: {violation}", violation.number())
            }
            (Stop::Fault(fault), frame) => {
                write!(f, "F{} at byte {offset}: {fault}", fault.number())?;
                match (frame, self.byte) {
                    (Some(frame), _) => write!(f, " ({frame})"),
                    (None, Some(byte)) => write!(f, " (0x{byte:02x})"),
                    (None, None) => Ok(()),
                }
            }
        }
    }
}

impl Error for ProtocolError {}

/// The reason why [`Peer::new`](crate::Peer::new) made no peer.
///
/// ```
/// use lcmux::{Config, Peer, PeerFault, CHANNELS};
/// let fault = Peer::new(&Config::new([8; CHANNELS], 0)).unwrap_err();
/// assert_eq!(fault, PeerFault::BadSlots { slots: 0 });
/// assert_eq!(fault.to_string(), "slots must be in 1..=65536, got 0");
/// ```
#[derive(Clone, Copy, Debug, PartialEq, Eq)]
#[non_exhaustive]
pub enum PeerFault {
    /// A ring buffer would not have 1 to 2^24 bytes. The channel is the first such one.
    BadCapacity {
        /// The channel.
        channel: Channel,
        /// The size that the configuration names.
        capacity: u32,
    },
    /// The outbound queue would not have 1 to 65,536 slots.
    BadSlots {
        /// The number of slots that the configuration names.
        slots: u32,
    },
    /// An allocation failed.
    OutOfMemory,
    /// The linked library is of another version than this crate.
    WrongLibrary {
        /// The version of the library, as [`library_version`](crate::library_version) returns it.
        found: u32,
    },
}

impl PeerFault {
    pub(crate) fn of(code: u32, number: u64, config: &Config) -> PeerFault {
        match code {
            36 => PeerFault::BadCapacity {
                channel: Channel::ALL[number as usize],
                capacity: config.capacities[number as usize],
            },
            37 => PeerFault::BadSlots {
                slots: config.slots,
            },
            14 => PeerFault::OutOfMemory,
            _ => unreachable!("code {code}"),
        }
    }
}

impl Display for PeerFault {
    fn fmt(&self, f: &mut Formatter<'_>) -> fmt::Result {
        match self {
            PeerFault::BadCapacity { channel, capacity } => write!(
                f,
                "the capacity of {channel:?} must be in 1..=16777216, got {capacity}"
            ),
            PeerFault::BadSlots { slots } => {
                write!(f, "slots must be in 1..=65536, got {slots}")
            }
            PeerFault::OutOfMemory => write!(f, "out of memory"),
            PeerFault::WrongLibrary { found } => {
                let [_, major, minor, patch] = found.to_be_bytes();
                let crate_version = env!("CARGO_PKG_VERSION");
                write!(
                    f,
                    "the linked library must have version {crate_version}, got {major}.{minor}.{patch}"
                )
            }
        }
    }
}

impl Error for PeerFault {}

/// The reason why [`Peer::read_from`](crate::Peer::read_from) failed. Frames that precede a protocol error have
/// arrived.
///
/// ```
/// # use lcmux::{Config, Fault, Peer, ReadError, Stop, CHANNELS};
/// # let mut peer = Peer::new(&Config::new([8; CHANNELS], 4))?;
/// let error = peer.read_from(&mut &b"\x21\0\0\0\x05\xff"[..]).unwrap_err();
/// assert_eq!(error.frames(), 1);
/// assert_eq!(error.stop(), Some(Stop::Fault(Fault::BadTag)));
/// # Ok::<(), lcmux::PeerFault>(())
/// ```
#[derive(Debug)]
#[non_exhaustive]
pub enum ReadError {
    /// The read failed, and nothing arrived. A further call continues with the next byte.
    Io(io::Error),
    /// The stream broke the framing or a rule, or it ended inside a frame.
    #[non_exhaustive]
    Stopped {
        /// The protocol error.
        error: ProtocolError,
        /// How many frames arrived in this call before the frame that failed.
        frames: u64,
    },
}

impl ReadError {
    /// Returns how many frames arrived in this call before it failed.
    pub fn frames(&self) -> u64 {
        match self {
            ReadError::Io(_) => 0,
            ReadError::Stopped { frames, .. } => *frames,
        }
    }

    /// Returns the violation or the fault, if this is a protocol error.
    pub fn stop(&self) -> Option<Stop> {
        match self {
            ReadError::Io(_) => None,
            ReadError::Stopped { error, .. } => Some(error.stop),
        }
    }
}

impl Display for ReadError {
    fn fmt(&self, f: &mut Formatter<'_>) -> fmt::Result {
        match self {
            ReadError::Io(error) => error.fmt(f),
            ReadError::Stopped { error, .. } => error.fmt(f),
        }
    }
}

impl Error for ReadError {
    fn source(&self) -> Option<&(dyn Error + 'static)> {
        match self {
            ReadError::Io(error) => error.source(),
            ReadError::Stopped { .. } => None,
        }
    }
}

impl From<io::Error> for ReadError {
    fn from(error: io::Error) -> ReadError {
        ReadError::Io(error)
    }
}

/// A failed read is its own error. A protocol error becomes the inner error: of kind `UnexpectedEof` if the stream
/// ended inside a frame, else of kind `InvalidData`.
impl From<ReadError> for io::Error {
    fn from(error: ReadError) -> io::Error {
        let kind = match error {
            ReadError::Io(error) => return error,
            ReadError::Stopped { error, .. } => error.stop.kind(),
        };
        io::Error::new(kind, error)
    }
}

/// A count of bytes above the number of bytes that were offered. A call of [`Peer::advance`](crate::Peer::advance)
/// names such a count, or a reader or writer that breaks the contract of its trait returns it.
///
/// ```
/// # use lcmux::{Config, Peer, CHANNELS};
/// # let mut peer = Peer::new(&Config::new([8; CHANNELS], 4))?;
/// let overrun = peer.advance(1).unwrap_err(); // no chunk is pending
/// assert_eq!((overrun.claimed, overrun.offered), (1, 0));
/// # Ok::<(), lcmux::PeerFault>(())
/// ```
#[derive(Clone, Copy, Debug, PartialEq, Eq)]
#[non_exhaustive]
pub struct Overrun {
    /// The count of bytes that the call or the transport claims.
    pub claimed: usize,
    /// The count of bytes that were offered.
    pub offered: usize,
}

impl Display for Overrun {
    fn fmt(&self, f: &mut Formatter<'_>) -> fmt::Result {
        let Overrun { claimed, offered } = self;
        write!(f, "{claimed} bytes claimed, but only {offered} offered")
    }
}

impl Error for Overrun {}

/// Makes an error of kind `InvalidData`.
impl From<Overrun> for io::Error {
    fn from(overrun: Overrun) -> io::Error {
        io::Error::new(ErrorKind::InvalidData, overrun)
    }
}

#[cfg(test)]
mod tests;
