use crate::sys::{self, Answer, Handle, Lent, Next};
use crate::{Channel, Config, Overrun, PeerFault, ProtocolError, ReadError, Refusal, Stop};
use std::fmt::{self, Formatter};
use std::io::{self, ErrorKind, Read, Write};

/// The size of one read and of one write. A peer keeps two buffers of this size.
const PIECE: usize = 16_384;

/// The most chunks that one call of [`Peer::drive`] reads if it could not write everything.
const PIECES: usize = 16;

/// A version of the wire format.
///
/// ```
/// use lcmux::{Config, Version, CHANNELS};
/// let mut config = Config::new([1 << 20; CHANNELS], 64);
/// config.version = Version::Two; // for messages of more than 65,535 bytes
/// ```
#[derive(Clone, Copy, Debug, Default, PartialEq, Eq)]
#[non_exhaustive]
pub enum Version {
    /// Version One: messages of 1 to 65,535 bytes.
    #[default]
    One,
    /// Version Two: messages of 1 to 1,048,576 bytes, and channels that can be finished. The stream begins with a
    /// preface of four bytes, which is pending from the start.
    Two,
}

impl Version {
    /// Returns the version's number, 1 or 2.
    pub fn number(self) -> u8 {
        match self {
            Version::One => 1,
            Version::Two => 2,
        }
    }

    // The length of the longest message.
    pub(crate) fn longest_message(self) -> u32 {
        match self {
            Version::One => 65_535,
            Version::Two => 1_048_576,
        }
    }

    /// Returns the version with this number, or `None` if the number is neither 1 nor 2.
    ///
    /// ```
    /// use lcmux::Version;
    /// assert_eq!(Version::from_number(2), Some(Version::Two));
    /// assert_eq!(Version::from_number(3), None);
    /// ```
    pub fn from_number(number: u8) -> Option<Version> {
        match number {
            1 => Some(Version::One),
            2 => Some(Version::Two),
            _ => None,
        }
    }
}

/// The result of [`Peer::deliver`].
///
/// ```
/// # use lcmux::{Config, Peer, CHANNELS};
/// # let mut peer = Peer::new(&Config::new([8; CHANNELS], 4))?;
/// let delivery = peer.deliver(b"\x21\0\0\0\x05\x21");
/// assert_eq!((delivery.taken, delivery.frames, delivery.stop), (6, 1, None));
/// # Ok::<(), lcmux::PeerFault>(())
/// ```
#[derive(Clone, Copy, Debug, PartialEq, Eq)]
#[must_use]
pub struct Delivery {
    /// How many bytes of the chunk were consumed: all of them, unless a protocol error stopped the delivery.
    pub taken: usize,
    /// How many whole frames arrived.
    pub frames: u64,
    /// The protocol error that stopped the delivery, or `None` if the whole chunk was consumed.
    pub stop: Option<Stop>,
}

/// The result of taking a message: the length of the message from [`Peer::take_into`] and [`Peer::pop`], the message
/// itself from [`Peer::take`].
///
/// ```
/// # use lcmux::{Channel::Data, Config, Peer, Take, CHANNELS};
/// # let mut peer = Peer::new(&Config::new([8; CHANNELS], 4))?;
/// match peer.take(Data) {
///     Take::Took(message) => println!("{} bytes", message.len()),
///     Take::Empty => println!("read on"),
///     Take::Ended => println!("that was all"),
/// }
/// # Ok::<(), lcmux::PeerFault>(())
/// ```
#[derive(Clone, Copy, Debug, PartialEq, Eq)]
pub enum Take<T = usize> {
    /// The first message was taken.
    Took(T),
    /// No message is available now.
    Empty,
    /// No message is available, and none will arrive: the sender finished the channel or used up its limit on
    /// sending.
    Ended,
}

impl<T> Take<T> {
    /// Returns what was taken, and `None` for both `Empty` and `Ended`.
    pub fn took(self) -> Option<T> {
        match self {
            Take::Took(message) => Some(message),
            Take::Empty | Take::Ended => None,
        }
    }
}

/// The result of [`Peer::drive`].
///
/// ```
/// use lcmux::{Incoming, Progress};
///
/// /// Whether to wait until the stream may be written, beside that it may be read.
/// fn waits_to_write(progress: Progress) -> bool {
///     progress.blocked && progress.incoming == Incoming::WouldBlock
/// }
/// ```
#[derive(Clone, Copy, Debug, PartialEq, Eq)]
#[non_exhaustive]
#[must_use]
pub struct Progress {
    /// How many bytes were written.
    pub written: u64,
    /// How many bytes were read, up to the read that stopped the stream if one did.
    pub read: usize,
    /// Whether bytes are pending that the stream does not accept now. Call [`Peer::drive`] again once the stream is
    /// writable.
    pub blocked: bool,
    /// The state of the inbound stream.
    pub incoming: Incoming,
}

/// The state of the inbound stream after a [`Peer::drive`].
///
/// ```
/// use lcmux::{Incoming, ProtocolError};
///
/// fn goes_on(incoming: Incoming) -> Result<bool, ProtocolError> {
///     match incoming {
///         Incoming::Stopped { error, .. } => Err(error),
///         Incoming::Ended => Ok(false),
///         _ => Ok(true),
///     }
/// }
/// ```
#[derive(Clone, Copy, Debug, PartialEq, Eq)]
#[non_exhaustive]
pub enum Incoming {
    /// Bytes arrived, and more may follow.
    Open,
    /// No bytes are available now: the read would block, or its timeout expired.
    WouldBlock,
    /// The stream ended after a whole frame or before the first one.
    Ended,
    /// The stream broke the framing or a rule, or it ended inside a frame.
    Stopped {
        /// The protocol error.
        error: ProtocolError,
        /// How many frames arrived in the read that stopped the stream.
        frames: u64,
    },
}

/// The sender's ledger of a channel: the credit of this side as the one that sends. All fields count bytes of
/// messages.
///
/// ```
/// # use lcmux::{Channel::Data, Config, Peer, CHANNELS};
/// # let mut peer = Peer::new(&Config::new([8; CHANNELS], 4))?;
/// let _ = peer.deliver(b"\x21\0\0\0\x05");
/// peer.send(Data, b"hi")?;
/// let book = peer.client(Data);
/// assert_eq!((book.held, book.spent, book.received), (3, 2, 5));
/// # Ok::<(), Box<dyn std::error::Error>>(())
/// ```
#[derive(Clone, Copy, Debug, PartialEq, Eq)]
pub struct ClientBook {
    /// The guarantees that messages may use now, 0 to 2^24: the send credit.
    pub held: u64,
    /// All guarantees that arrived: the sum of `held`, `spent`, `absolved` and `waived`.
    pub received: u64,
    /// The guarantees that messages used.
    pub spent: u64,
    /// The guarantees that this side gave back to the receiver.
    pub absolved: u64,
    /// The guarantees that this side waived by finishing the channel, then and since.
    pub waived: u64,
    /// The bytes that this side's limit still allows, or `None` without a limit.
    pub send_left: Option<u64>,
    /// The guarantees that the receiver may still issue, or `None` without a limit.
    pub receive_left: Option<u64>,
    /// The target of the pending plead, or `None` if no plead is pending.
    pub asked: Option<u32>,
    /// Whether this side finished the channel.
    pub finished: bool,
}

/// The receiver's ledger of a channel: the credit that this side issued as the one that receives. All fields count
/// bytes of messages.
///
/// ```
/// # use lcmux::{Channel::Data, Config, Peer, CHANNELS};
/// # let mut peer = Peer::new(&Config::new([8; CHANNELS], 4))?;
/// peer.issue(Data, 5)?;
/// let _ = peer.deliver(b"\x11\0\x02hi");
/// let book = peer.server(Data);
/// assert_eq!((book.outstanding, book.buffered, book.room), (3, 2, 3));
/// # Ok::<(), Box<dyn std::error::Error>>(())
/// ```
#[derive(Clone, Copy, Debug, PartialEq, Eq)]
pub struct ServerBook {
    /// The size of the ring buffer: the sum of `outstanding`, `buffered` and `room`.
    pub capacity: u64,
    /// All guarantees that this side issued: the sum of `outstanding`, `received`, `absolved` and `waived`.
    pub issued: u64,
    /// All bytes of messages that arrived: the sum of `taken` and `buffered`.
    pub received: u64,
    /// The bytes of messages that were taken.
    pub taken: u64,
    /// The guarantees that the sender gave back.
    pub absolved: u64,
    /// The guarantees that the sender may still use: issued, and not used, absolved or waived as far as this side
    /// knows.
    pub outstanding: u64,
    /// The bytes of messages that arrived and were not taken.
    pub buffered: u64,
    /// The most guarantees that may be issued now.
    pub room: u64,
    /// The guarantees that the sender's Finish waived.
    pub waived: u64,
    /// The bytes that the sender may still send, or `None` without a limit.
    pub send_left: Option<u64>,
    /// The guarantees that this side's limit still allows, or `None` without a limit.
    pub receive_left: Option<u64>,
    /// Whether the sender's Finish arrived.
    pub finished: bool,
}

fn some_unless_none(number: u64) -> Option<u64> {
    (number != u64::MAX).then_some(number)
}

/// One side of a session as a pure state machine: the application passes inbound bytes to it and fetches outbound
/// bytes from it. The transport belongs to the application. A peer is `Send`, and not `Sync`.
///
/// ```
/// use lcmux::{Channel::Data, Config, Peer, Refusal, Take, CHANNELS};
///
/// let config = Config::new([1024; CHANNELS], 16);
/// let (mut alice, mut bob) = (Peer::new(&config)?, Peer::new(&config)?);
/// assert_eq!(alice.send(Data, b"hello"), Err(Refusal::NoGuarantee { held: 0 }));
///
/// // Bob issues 8 bytes of credit; a buffer of 65,538 bytes holds any frame of version One.
/// let mut wire = vec![0; 65_538];
/// bob.issue(Data, 8)?;
/// let count = bob.write(&mut wire);
/// assert_eq!(alice.deliver(&wire[..count]).frames, 1);
///
/// alice.send(Data, b"hello")?;
/// let count = alice.write(&mut wire);
/// assert_eq!(bob.deliver(&wire[..count]).frames, 1);
/// let mut message = [0; 64];
/// assert_eq!(bob.take_into(Data, &mut message)?, Take::Took(5));
/// assert_eq!(&message[..5], b"hello");
/// # Ok::<(), Box<dyn std::error::Error>>(())
/// ```
pub struct Peer {
    pub(crate) handle: Handle,
    // The protocol error of the inbound stream, cached so that no call crosses the C interface for it.
    stop: Option<Stop>,
    // The bytes that the library counts as sent and no writer accepted yet: those from start to end.
    unsent: Vec<u8>,
    pub(crate) start: usize,
    pub(crate) end: usize,
    // The buffer of reads.
    piece: Vec<u8>,
}

impl Peer {
    /// Makes a peer on which nothing has happened.
    ///
    /// # Errors
    ///
    /// The first of these that applies:
    ///
    /// - [`PeerFault::WrongLibrary`] if the linked library is of another version than this crate;
    /// - [`PeerFault::BadCapacity`] for the first channel whose ring would not have 1 to 2^24 bytes;
    /// - [`PeerFault::BadSlots`] if the slots are not in 1 to 65,536;
    /// - [`PeerFault::OutOfMemory`] if an allocation fails.
    ///
    /// ```
    /// use lcmux::{Channel, Config, Peer, PeerFault};
    /// let fault = Peer::new(&Config::new([8, 8, 0, 8, 8, 8, 8], 16)).unwrap_err();
    /// assert_eq!(fault, PeerFault::BadCapacity { channel: Channel::Overlap, capacity: 0 });
    /// ```
    pub fn new(config: &Config) -> Result<Peer, PeerFault> {
        match sys::version() {
            sys::VERSION => {}
            found => return Err(PeerFault::WrongLibrary { found }),
        }
        let bounds = sys::Config {
            version: config.version.number().into(),
            slots: config.slots,
            capacities: config.capacities,
        };
        match Handle::new(&bounds) {
            Ok(handle) => Ok(Peer {
                handle,
                stop: None,
                unsent: Vec::new(),
                start: 0,
                end: 0,
                piece: Vec::new(),
            }),
            Err(Answer { code, number }) => Err(PeerFault::of(code, number, config)),
        }
    }

    /// Enqueues a copy of the body as one message: 1 to 65,535 bytes, in version Two 1 to 1,048,576.
    ///
    /// # Errors
    ///
    /// The first of these that applies: [`Refusal::ChannelFinished`], [`Refusal::EmptyBody`],
    /// [`Refusal::BodyTooLong`], [`Refusal::PastSendLimit`], [`Refusal::NoGuarantee`], [`Refusal::OutOfMemory`],
    /// [`Refusal::QueueFull`].
    #[inline]
    pub fn send(&mut self, channel: Channel, body: &[u8]) -> Result<(), Refusal> {
        done(self.handle.send(channel.number().into(), body))
    }

    /// Issues `amount` guarantees: the sender may send that many bytes more.
    ///
    /// # Errors
    ///
    /// The first of these that applies: [`Refusal::ChannelFinished`], [`Refusal::ZeroAmount`],
    /// [`Refusal::PastReceiveLimit`], [`Refusal::NoRoom`], [`Refusal::TotalReached`], [`Refusal::QueueFull`].
    #[inline]
    pub fn issue(&mut self, channel: Channel, amount: u32) -> Result<(), Refusal> {
        done(self.handle.issue(channel.number().into(), amount))
    }

    /// Gives `amount` guarantees back to the receiver.
    ///
    /// # Errors
    ///
    /// The first of these that applies: [`Refusal::ChannelFinished`], [`Refusal::ZeroAmount`], [`Refusal::NotHeld`],
    /// [`Refusal::QueueFull`].
    #[inline]
    pub fn absolve(&mut self, channel: Channel, amount: u32) -> Result<(), Refusal> {
        done(self.handle.absolve(channel.number().into(), amount))
    }

    /// Asks the sender to absolve guarantees until it holds at most `target`.
    ///
    /// # Errors
    ///
    /// The first of these that applies: [`Refusal::ChannelFinished`], [`Refusal::NothingToAsk`],
    /// [`Refusal::QueueFull`].
    #[inline]
    pub fn plead(&mut self, channel: Channel, target: u32) -> Result<(), Refusal> {
        done(self.handle.plead(channel.number().into(), target))
    }

    /// Honours the pending plead: absolves the guarantees that this side holds above its target. Returns how many
    /// these are, or `None` if there are none. The plead is no longer pending.
    ///
    /// # Errors
    ///
    /// The first of these that applies: [`Refusal::ChannelFinished`], [`Refusal::QueueFull`]. The latter leaves the
    /// plead pending.
    #[inline]
    pub fn honour(&mut self, channel: Channel) -> Result<Option<u32>, Refusal> {
        honoured(self.handle.honour(channel.number().into()))
    }

    /// Limits sending to at most `bound` bytes from here on; 0 ends the channel.
    ///
    /// # Errors
    ///
    /// The first of these that applies: [`Refusal::ChannelFinished`], [`Refusal::BoundTooLarge`],
    /// [`Refusal::LimitRaised`], [`Refusal::QueueFull`].
    #[inline]
    pub fn limit_sending(&mut self, channel: Channel, bound: u64) -> Result<(), Refusal> {
        done(self.handle.limit_sending(channel.number().into(), bound))
    }

    /// Limits issuing to at most `bound` guarantees from here on.
    ///
    /// # Errors
    ///
    /// The first of these that applies: [`Refusal::ChannelFinished`], [`Refusal::BoundTooLarge`],
    /// [`Refusal::LimitRaised`], [`Refusal::QueueFull`].
    #[inline]
    pub fn limit_receiving(&mut self, channel: Channel, bound: u64) -> Result<(), Refusal> {
        done(self.handle.limit_receiving(channel.number().into(), bound))
    }

    /// Finishes the channel: this side sends nothing more on it and waives all guarantees that it holds or that still
    /// arrive. The receiver observes the end of the channel. Version One has no such frame; there,
    /// `limit_sending(channel, 0)` ends a channel.
    ///
    /// # Errors
    ///
    /// The first of these that applies: [`Refusal::WrongVersion`], [`Refusal::ChannelFinished`],
    /// [`Refusal::QueueFull`].
    ///
    /// # Examples
    ///
    /// ```
    /// # use lcmux::{Channel::Data, Config, Peer, Refusal, Take, Version, CHANNELS};
    /// # let mut config = Config::new([8; CHANNELS], 4);
    /// # config.version = Version::Two;
    /// # let (mut alice, mut bob) = (Peer::new(&config)?, Peer::new(&config)?);
    /// # let mut wire = Vec::new();
    /// alice.finish(Data)?;
    /// assert_eq!(alice.send(Data, b"hello"), Err(Refusal::ChannelFinished));
    /// alice.write_to(&mut wire)?;
    /// bob.read_from(&mut wire.as_slice())?;
    /// assert_eq!(bob.take_into(Data, &mut [])?, Take::Ended);
    /// # Ok::<(), Box<dyn std::error::Error>>(())
    /// ```
    #[inline]
    pub fn finish(&mut self, channel: Channel) -> Result<(), Refusal> {
        done(self.handle.finish(channel.number().into()))
    }

    /// Processes the next chunk of the inbound stream, which may be cut anywhere. Whole frames arrive, and the
    /// beginning of an incomplete frame is kept. After a protocol error the frames before it have arrived, each
    /// further call consumes nothing and returns the same error, and all other calls still work.
    #[inline]
    pub fn deliver(&mut self, piece: &[u8]) -> Delivery {
        if self.stop.is_some() {
            return Delivery {
                taken: 0,
                frames: 0,
                stop: self.stop,
            };
        }
        delivered(&mut self.handle, &mut self.stop, piece)
    }

    /// Reports whether the inbound stream may end here. It changes nothing.
    ///
    /// # Errors
    ///
    /// [`Fault::Truncated`](crate::Fault::Truncated) if the stream ends inside a frame or inside the preface; the
    /// protocol error of an earlier [`Peer::deliver`] if there was one.
    #[inline]
    pub fn end(&self) -> Result<(), Stop> {
        Stop::of(self.handle.end().code).map_or(Ok(()), Err)
    }

    /// Returns the error of [`Peer::end`] with its place in the stream, and with what was allowed there: that of a
    /// [`Peer::deliver`] that stopped, or, if the stream ends here, that it ends within a frame. It changes nothing.
    ///
    /// # Examples
    ///
    /// ```
    /// # use lcmux::{Config, Peer, CHANNELS};
    /// # let mut peer = Peer::new(&Config::new([8; CHANNELS], 4))?;
    /// assert_eq!(peer.protocol_error(), None);
    /// let _ = peer.deliver(b"\x21\0\0\0\x05\x77");
    /// let error = peer.protocol_error().unwrap();
    /// assert_eq!((error.offset, error.byte), (5, Some(0x77)));
    /// # Ok::<(), lcmux::PeerFault>(())
    /// ```
    pub fn protocol_error(&self) -> Option<ProtocolError> {
        let stop = self.end().err()?;
        Some(ProtocolError::of(stop, &self.handle.error()))
    }

    /// Copies the next outbound bytes to the front of `buffer` and returns how many they are. A frame that does not
    /// fit continues in the next call. The bytes count as sent.
    #[inline]
    pub fn write(&mut self, buffer: &mut [u8]) -> usize {
        let count = buffer.len().min(self.end - self.start);
        if count > 0 {
            buffer[..count].copy_from_slice(&self.unsent[self.start..self.start + count]);
            self.start += count;
        }
        match &mut buffer[count..] {
            [] => count,
            room => count + self.handle.write(room).number as usize,
        }
    }

    /// Returns the next outbound bytes, at most 16,384; an empty slice if none are pending. The bytes stay pending
    /// until [`Peer::advance`] reports how many of them were written. So an abandoned write, or one that would block,
    /// loses nothing.
    ///
    /// ```
    /// # use lcmux::{Channel::Data, Config, Peer, CHANNELS};
    /// # let mut peer = Peer::new(&Config::new([8; CHANNELS], 4))?;
    /// peer.issue(Data, 5)?;
    /// assert_eq!(peer.chunk(), [0x21, 0, 0, 0, 5]);
    /// peer.advance(3)?;
    /// assert_eq!(peer.chunk(), [0, 5]);
    /// peer.advance(2)?;
    /// assert!(peer.chunk().is_empty());
    /// # Ok::<(), Box<dyn std::error::Error>>(())
    /// ```
    #[inline]
    #[must_use = "bytes that are not written stay pending"]
    pub fn chunk(&mut self) -> &[u8] {
        if self.start == self.end {
            self.fill();
        }
        &self.unsent[self.start..self.end]
    }

    /// Marks the first `count` bytes of [`Peer::chunk`] as written.
    ///
    /// # Errors
    ///
    /// [`Overrun`] if `count` is above the length of the chunk; nothing changes then.
    #[inline]
    pub fn advance(&mut self, count: usize) -> Result<(), Overrun> {
        let offered = self.end - self.start;
        if count > offered {
            let claimed = count;
            return Err(Overrun { claimed, offered });
        }
        self.start += count;
        Ok(())
    }

    /// Returns how many outbound bytes are pending. It visits each frame of the outbound queue.
    pub fn pending(&self) -> usize {
        self.end - self.start + self.handle.pending().number as usize
    }

    /// Writes all pending outbound bytes and returns how many they were. It does not flush.
    ///
    /// It reads nothing. Over blocking streams, two sides that both call it deadlock once both have more to write
    /// than the sockets buffer. [`Peer::drive`] also reads, over a stream that does not block or has timeouts.
    ///
    /// # Errors
    ///
    /// An interrupted write is repeated. After any other error nothing is lost: a further call continues with the
    /// next byte, also after [`WouldBlock`](ErrorKind::WouldBlock). A writer that claims more bytes than were offered
    /// is an error of kind `InvalidData` that carries an [`Overrun`]; all offered bytes then count as written, and no
    /// byte is written twice.
    ///
    /// # Examples
    ///
    /// ```
    /// # use lcmux::{Channel::Data, Config, Peer, CHANNELS};
    /// # let mut peer = Peer::new(&Config::new([8; CHANNELS], 4))?;
    /// peer.issue(Data, 5)?;
    /// let mut wire = Vec::new();
    /// assert_eq!(peer.write_to(&mut wire)?, 5);
    /// assert_eq!(wire, [0x21, 0, 0, 0, 5]);
    /// # Ok::<(), Box<dyn std::error::Error>>(())
    /// ```
    #[inline]
    pub fn write_to(&mut self, writer: &mut impl Write) -> io::Result<u64> {
        let mut written = 0;
        self.write_counted(writer, &mut written)?;
        Ok(written)
    }

    // Writes as `write_to` does, and counts the written bytes also if it fails.
    #[inline]
    fn write_counted(&mut self, writer: &mut impl Write, written: &mut u64) -> io::Result<()> {
        let mut last = false;
        loop {
            if self.start == self.end {
                if last {
                    return Ok(());
                }
                last = self.fill();
                if self.end == 0 {
                    return Ok(());
                }
            }
            match writer.write(&self.unsent[self.start..self.end]) {
                Ok(0) => return Err(ErrorKind::WriteZero.into()),
                Ok(claimed) => {
                    self.took(claimed)?;
                    *written += claimed as u64;
                }
                Err(error) => uninterrupted(error)?,
            }
        }
    }

    // Fetches the next outbound bytes from the library. Returns whether no more bytes are pending behind them.
    #[inline]
    fn fill(&mut self) -> bool {
        if self.unsent.is_empty() {
            self.unsent = new_piece();
        }
        (self.start, self.end) = (0, self.handle.write(&mut self.unsent).number as usize);
        self.end < PIECE
    }

    // Marks bytes as written: all of them if the writer claims too many.
    #[inline]
    fn took(&mut self, claimed: usize) -> io::Result<()> {
        let took = self.advance(claimed);
        if took.is_err() {
            self.start = self.end;
        }
        took.map_err(io::Error::from)
    }

    /// Reads once, at most 16,384 bytes, and delivers them. Returns how many bytes it read, 0 if the stream ended
    /// after a whole frame or before the first one. An interrupted read is repeated.
    ///
    /// # Errors
    ///
    /// [`ReadError::Stopped`] after a protocol error, and then nothing is read any more. [`ReadError::Io`] if the
    /// read fails; a reader that claims more bytes than were asked for is such an error, of kind `InvalidData` with
    /// an [`Overrun`], and none of its bytes arrive.
    ///
    /// # Examples
    ///
    /// ```
    /// # use lcmux::{Channel::Data, Config, Fault, Peer, ReadError, Stop, CHANNELS};
    /// # let mut peer = Peer::new(&Config::new([8; CHANNELS], 4))?;
    /// let mut wire: &[u8] = &[0x21, 0, 0, 0, 5, 0x21];
    /// assert_eq!(peer.read_from(&mut wire)?, 6);
    /// assert_eq!(peer.client(Data).held, 5);
    /// let end = peer.read_from(&mut wire).unwrap_err();
    /// assert_eq!(end.stop(), Some(Stop::Fault(Fault::Truncated)));
    /// # Ok::<(), Box<dyn std::error::Error>>(())
    /// ```
    #[inline]
    pub fn read_from(&mut self, reader: &mut impl Read) -> Result<usize, ReadError> {
        if self.stop.is_some() {
            return self.ended();
        }
        if self.piece.is_empty() {
            self.piece = new_piece();
        }
        let count = loop {
            match reader.read(&mut self.piece) {
                Ok(count) => break count,
                Err(error) => uninterrupted(error)?,
            }
        };
        if count == 0 {
            return self.ended();
        }
        let Some(bytes) = self.piece.get(..count) else {
            return Err(overrun(count, self.piece.len()).into());
        };
        let Delivery { frames, stop, .. } = delivered(&mut self.handle, &mut self.stop, bytes);
        match stop {
            None => Ok(count),
            Some(_) => self.stopped(count, frames),
        }
    }

    #[cold]
    fn ended(&self) -> Result<usize, ReadError> {
        self.stopped(0, 0)
    }

    // What a read answers where its stream may end.
    #[cold]
    fn stopped(&self, count: usize, frames: u64) -> Result<usize, ReadError> {
        match self.protocol_error() {
            None => Ok(count),
            Some(error) => Err(ReadError::Stopped { error, frames }),
        }
    }

    /// Moves both directions once. It writes until all bytes are written or the stream accepts no more; then it reads
    /// and delivers a chunk of at most 16,384 bytes. If bytes are left to write and the chunk is full, it reads on,
    /// up to 16 chunks.
    ///
    /// Over a stream that does not block, or that has a read and a write timeout, neither side delays the other,
    /// whatever both have to write. Over a blocking stream without timeouts the write blocks until the peer reads and
    /// the read blocks until the peer writes, so two sides can deadlock as with [`Peer::write_to`].
    ///
    /// After a protocol error it keeps writing and reads nothing.
    ///
    /// # Errors
    ///
    /// A call of the transport that would block, or whose timeout expires, is no error. After an error of the write
    /// nothing was read: [`Peer::read_from`] still reads what arrived.
    ///
    /// # Examples
    ///
    /// ```
    /// # use lcmux::{Channel::Data, Config, Incoming, Peer, CHANNELS};
    /// # let mut peer = Peer::new(&Config::new([8; CHANNELS], 4))?;
    /// let (mut stream, _other) = std::os::unix::net::UnixStream::pair()?;
    /// stream.set_nonblocking(true)?;
    /// peer.issue(Data, 5)?;
    /// let progress = peer.drive(&mut stream)?;
    /// assert_eq!((progress.written, progress.blocked), (5, false));
    /// assert_eq!(progress.incoming, Incoming::WouldBlock);
    /// # Ok::<(), Box<dyn std::error::Error>>(())
    /// ```
    pub fn drive(&mut self, stream: &mut (impl Read + Write)) -> io::Result<Progress> {
        let mut written = 0;
        let blocked = match self.write_counted(stream, &mut written) {
            Ok(()) => false,
            Err(error) if is_for_later(&error) => true,
            Err(error) => return Err(error),
        };
        // If all was written, the stream may be a blocking one, and a second read could block forever.
        let pieces = if blocked { PIECES } else { 1 };
        let (mut read, mut incoming) = (0, Incoming::WouldBlock);
        for _ in 0..pieces {
            match self.read_from(stream) {
                Ok(0) => incoming = Incoming::Ended,
                Ok(count) => {
                    (read, incoming) = (read + count, Incoming::Open);
                    if count == PIECE {
                        continue;
                    }
                }
                Err(ReadError::Stopped { error, frames }) => {
                    incoming = Incoming::Stopped { error, frames };
                }
                Err(ReadError::Io(error)) if is_for_later(&error) => {}
                Err(ReadError::Io(error)) => return Err(error),
            }
            break;
        }
        Ok(Progress {
            written,
            read,
            blocked,
            incoming,
        })
    }

    /// Returns the length of the first message, or `None` if there is none. The message stays.
    #[inline]
    pub fn front_len(&self, channel: Channel) -> Option<usize> {
        match self.handle.front_len(channel.number().into()) {
            Answer { code: 0, number } => Some(number as usize),
            _ => None,
        }
    }

    /// Borrows the first message without copying it; the message stays. The message is the bytes of the first slice
    /// followed by those of the second one, which is empty unless the message crosses the wrap point of its ring
    /// buffer. `None` if there is no message.
    ///
    /// ```
    /// # use lcmux::{Channel::Data, Config, Peer, Take, CHANNELS};
    /// # let mut peer = Peer::new(&Config::new([8; CHANNELS], 4))?;
    /// peer.issue(Data, 8)?;
    /// let _ = peer.deliver(b"\x11\0\x02hi");
    /// assert_eq!(peer.front(Data), Some((&b"hi"[..], &b""[..])));
    /// assert_eq!(peer.pop(Data), Take::Took(2));
    /// assert_eq!(peer.front(Data), None);
    /// # Ok::<(), Box<dyn std::error::Error>>(())
    /// ```
    #[inline]
    pub fn front(&self, channel: Channel) -> Option<(&[u8], &[u8])> {
        self.handle.front(channel.number().into())
    }

    /// Borrows the next outbound frame. The caller counts it as sent, and writes nothing before it has read the
    /// frame. `None` also if the rest of an earlier write precedes it.
    #[inline]
    pub(crate) fn next(&self) -> Option<Next> {
        self.handle.next()
    }

    /// Counts the frame of [`Peer::next`] as sent.
    #[inline]
    pub(crate) fn sent(&mut self) {
        self.handle.sent();
    }

    /// Borrows the first message. The caller takes no message of the channel before it has read this one.
    #[inline]
    pub(crate) fn lend(&self, channel: Channel) -> Option<Lent> {
        self.handle.lend(channel.number().into())
    }

    /// Drops the first message and returns its length. Its bytes become free in the ring buffer.
    #[inline]
    pub fn pop(&mut self, channel: Channel) -> Take {
        match self.handle.pop(channel.number().into()) {
            Answer { code: 0, number } => Take::Took(number as usize),
            Answer { code: 49, .. } => Take::Ended,
            _ => Take::Empty,
        }
    }

    /// Copies the first message to the front of `buffer` and drops it. Its bytes become free in the ring buffer.
    ///
    /// # Errors
    ///
    /// [`Refusal::BufferTooSmall`] if the buffer is shorter than the message; the message stays then.
    #[inline]
    pub fn take_into(&mut self, channel: Channel, buffer: &mut [u8]) -> Result<Take, Refusal> {
        take(self.handle.take(channel.number().into(), buffer))
    }

    /// Takes the first message as a new vector. Its bytes become free in the ring buffer.
    ///
    /// ```
    /// # use lcmux::{Channel::Data, Config, Peer, Take, CHANNELS};
    /// # let mut peer = Peer::new(&Config::new([8; CHANNELS], 4))?;
    /// peer.issue(Data, 8)?;
    /// let _ = peer.deliver(b"\x11\0\x02hi\x51\0\0\0\0\0\0\0\0");
    /// assert_eq!(peer.take(Data), Take::Took(b"hi".to_vec()));
    /// assert_eq!(peer.take(Data), Take::Ended);
    /// # Ok::<(), Box<dyn std::error::Error>>(())
    /// ```
    pub fn take(&mut self, channel: Channel) -> Take<Vec<u8>> {
        let message = self
            .front(channel)
            .map(|(first, rest)| [first, rest].concat());
        match (self.pop(channel), message) {
            (Take::Took(_), Some(message)) => Take::Took(message),
            (Take::Ended, _) => Take::Ended,
            (_, _) => Take::Empty,
        }
    }

    /// Returns the sender's ledger of a channel.
    pub fn client(&self, channel: Channel) -> ClientBook {
        let book = self.handle.client(channel.number().into());
        ClientBook {
            held: book.held,
            received: book.received,
            spent: book.spent,
            absolved: book.absolved,
            waived: book.waived,
            send_left: some_unless_none(book.send_left),
            receive_left: some_unless_none(book.receive_left),
            asked: some_unless_none(book.asked).map(|target| target as u32),
            finished: book.finished != 0,
        }
    }

    /// Returns the receiver's ledger of a channel.
    pub fn server(&self, channel: Channel) -> ServerBook {
        let book = self.handle.server(channel.number().into());
        ServerBook {
            capacity: book.capacity,
            issued: book.issued,
            received: book.received,
            taken: book.taken,
            absolved: book.absolved,
            outstanding: book.outstanding,
            buffered: book.buffered,
            room: book.room,
            waived: book.waived,
            send_left: some_unless_none(book.send_left),
            receive_left: some_unless_none(book.receive_left),
            finished: book.finished != 0,
        }
    }
}

impl fmt::Debug for Peer {
    fn fmt(&self, f: &mut Formatter<'_>) -> fmt::Result {
        f.debug_struct("Peer")
            .field("pending", &self.pending())
            .finish_non_exhaustive()
    }
}

// Makes a zeroed buffer, whose pages the system allocates on first use.
#[cold]
fn new_piece() -> Vec<u8> {
    vec![0; PIECE]
}

// Passes on every error but an interruption, after which the call is repeated.
#[cold]
fn uninterrupted(error: io::Error) -> io::Result<()> {
    match error.kind() {
        ErrorKind::Interrupted => Ok(()),
        _ => Err(error),
    }
}

fn is_for_later(error: &io::Error) -> bool {
    matches!(error.kind(), ErrorKind::WouldBlock | ErrorKind::TimedOut)
}

#[cold]
fn overrun(claimed: usize, offered: usize) -> io::Error {
    Overrun { claimed, offered }.into()
}

// Delivers a chunk across the C interface and keeps its protocol error.
#[inline]
fn delivered(handle: &mut Handle, kept: &mut Option<Stop>, piece: &[u8]) -> Delivery {
    let sys::Delivery {
        code,
        taken,
        frames,
    } = handle.deliver(piece);
    if code != 0 {
        *kept = Stop::of(code);
    }
    Delivery {
        taken,
        frames,
        stop: *kept,
    }
}

#[inline]
pub(crate) fn done(answer: Answer) -> Result<(), Refusal> {
    match answer {
        Answer { code: 0, .. } => Ok(()),
        Answer { code, number } => Err(Refusal::of(code, number)),
    }
}

#[inline]
pub(crate) fn honoured(answer: Answer) -> Result<Option<u32>, Refusal> {
    done(answer)?;
    Ok((answer.number > 0).then_some(answer.number as u32))
}

#[inline]
fn take(answer: Answer) -> Result<Take, Refusal> {
    match answer.code {
        0 => Ok(Take::Took(answer.number as usize)),
        48 => Ok(Take::Empty),
        49 => Ok(Take::Ended),
        code => Err(Refusal::of(code, answer.number)),
    }
}
