use crate::{Needs, PeerFault, ProtocolError, Refusal, Stop};
use std::error::Error;
use std::fmt::{self, Display, Formatter};
use std::io;
use std::sync::Arc;

/// The reason why a call cannot proceed: the session, or the part of it that the call needs, has ended.
///
/// A session ends *in order* once both sides have finished all their channels and ended their streams, as
/// [`Mux::close`](crate::Mux::close) does. Every other end is a failure, and every call then returns its first
/// reason. The repository's `docs/reference/sessions.md` has a table of the results of all calls.
///
/// ```
/// use lcmux::{Closed, Config, Mux, CHANNELS};
///
/// let (mux, driver) = Mux::new(Config::new([64; CHANNELS], 16))?;
/// drop(driver); // this aborts the session
/// assert_eq!(mux.closed_blocking(), Err(Closed::Aborted));
/// # Ok::<(), lcmux::MuxFault>(())
/// ```
#[derive(Clone, Debug)]
#[non_exhaustive]
pub enum Closed {
    /// This side closed the session, by [`Mux::close`](crate::Mux::close) or by dropping all its handles.
    Local,
    /// The peer closed the session in order: it finished all its channels, ended its stream, and issues no more
    /// guarantees. This side may still send what it holds guarantees for.
    Remote,
    /// The peer's stream ended while channels of it were unfinished: the peer crashed, aborted, or dropped the
    /// connection. The messages that arrived before may still be received.
    Cut,
    /// This side aborted the session: by [`Mux::abort`](crate::Mux::abort), by a panic that dropped a handle, or by
    /// dropping the [`Driver`](crate::Driver) before the session was over.
    Aborted,
    /// A read or a write of the transport failed, or a timeout expired, which is an error of the kind
    /// [`TimedOut`](io::ErrorKind::TimedOut). That error is the [`source`](Error::source) of this one.
    Transport(Arc<io::Error>),
    /// The peer's stream broke the framing.
    Fault(ProtocolError),
    /// A frame of the peer broke a rule of the protocol.
    Violated(ProtocolError),
}

impl Closed {
    /// Returns the violation or the fault, if the session ended by a protocol error of the peer.
    ///
    /// ```
    /// use lcmux::{Closed, Stop, Violation};
    ///
    /// fn was_past_the_credit(closed: &Closed) -> bool {
    ///     closed.stop() == Some(Stop::Violated(Violation::NotGuaranteed))
    /// }
    /// ```
    pub fn stop(&self) -> Option<Stop> {
        match self {
            Closed::Fault(error) | Closed::Violated(error) => Some(error.stop),
            _ => None,
        }
    }

    /// Returns whether this is an end in order: this side closed the session, or the peer did. Every other reason is a
    /// failure.
    ///
    /// ```
    /// use lcmux::{Closed, Receiver};
    ///
    /// /// Receives until the channel or the session ends, and reports failures alone.
    /// fn drain(receiver: &mut Receiver) -> Result<(), Closed> {
    ///     loop {
    ///         match receiver.recv_blocking() {
    ///             Ok(Some(message)) => println!("{} bytes", message.len()),
    ///             Ok(None) => return Ok(()),
    ///             Err(closed) if closed.is_clean() => return Ok(()),
    ///             Err(closed) => return Err(closed),
    ///         }
    ///     }
    /// }
    /// # let _ = drain;
    /// ```
    pub fn is_clean(&self) -> bool {
        matches!(self, Closed::Local | Closed::Remote)
    }

    /// Returns the reason in an error of a [`Reader`](crate::Reader) or a [`Writer`](crate::Writer), also of those of
    /// `lcmux-tokio` and `lcmux-futures`, if the session has ended.
    ///
    /// ```
    /// use lcmux::{Channel::Data, Closed, Config, Mux};
    /// use std::io::Read;
    ///
    /// let (mut mux, driver) = Mux::new(Config::default())?;
    /// let mut reader = mux.take_receiver(Data).unwrap().into_reader();
    /// drop(driver); // this aborts the session
    /// let error = reader.read(&mut [0; 8]).unwrap_err();
    /// assert_eq!(Closed::of_io(&error), Some(&Closed::Aborted));
    /// # Ok::<(), lcmux::MuxFault>(())
    /// ```
    pub fn of_io(error: &io::Error) -> Option<&Closed> {
        error.get_ref()?.downcast_ref()
    }

    pub(crate) fn result(self) -> Result<(), Closed> {
        match self {
            Closed::Local => Ok(()),
            closed => Err(closed),
        }
    }
}

/// Two failures of a transport are equal if their kinds and their texts are.
impl PartialEq for Closed {
    fn eq(&self, other: &Closed) -> bool {
        match (self, other) {
            (Closed::Local, Closed::Local)
            | (Closed::Remote, Closed::Remote)
            | (Closed::Cut, Closed::Cut)
            | (Closed::Aborted, Closed::Aborted) => true,
            (Closed::Transport(one), Closed::Transport(other)) => {
                one.kind() == other.kind() && one.to_string() == other.to_string()
            }
            (Closed::Fault(one), Closed::Fault(other)) => one == other,
            (Closed::Violated(one), Closed::Violated(other)) => one == other,
            _ => false,
        }
    }
}

impl Eq for Closed {}

/// Makes a [`Closed::Transport`].
impl From<io::Error> for Closed {
    fn from(error: io::Error) -> Closed {
        Closed::Transport(Arc::new(error))
    }
}

/// Makes a [`Closed::Violated`] or a [`Closed::Fault`].
impl From<ProtocolError> for Closed {
    fn from(error: ProtocolError) -> Closed {
        match error.stop {
            Stop::Violated(_) => Closed::Violated(error),
            Stop::Fault(_) => Closed::Fault(error),
        }
    }
}

impl Display for Closed {
    fn fmt(&self, f: &mut Formatter<'_>) -> fmt::Result {
        match self {
            Closed::Local => f.write_str("the session is closed"),
            Closed::Remote => f.write_str("the peer closed the session"),
            Closed::Cut => {
                f.write_str("the peer's stream ended while its channels were unfinished")
            }
            Closed::Aborted => f.write_str("the session was aborted"),
            Closed::Transport(error) => write!(f, "the transport failed: {error}"),
            Closed::Fault(error) | Closed::Violated(error) => error.fmt(f),
        }
    }
}

impl Error for Closed {
    fn source(&self) -> Option<&(dyn Error + 'static)> {
        match self {
            Closed::Transport(error) => Some(&**error),
            _ => None,
        }
    }
}

/// A failure of the transport keeps its kind. A fault or a violation has the kind `InvalidData`. A stream that was
/// cut, also within a frame, has the kind `UnexpectedEof`. All other reasons have the kind `ConnectionAborted`.
impl From<Closed> for io::Error {
    fn from(closed: Closed) -> io::Error {
        let kind = match &closed {
            Closed::Transport(error) => error.kind(),
            Closed::Cut => io::ErrorKind::UnexpectedEof,
            Closed::Fault(error) | Closed::Violated(error) => error.stop.kind(),
            Closed::Local | Closed::Remote | Closed::Aborted => io::ErrorKind::ConnectionAborted,
        };
        io::Error::new(kind, closed)
    }
}

/// The error of a call that does not wait and sends no message.
///
/// ```
/// use lcmux::{CallError, Channel::Data, Config, Mux, Refusal, CHANNELS};
///
/// let (mut mux, _driver) = Mux::new(Config::new([64; CHANNELS], 16))?;
/// let receiver = mux.take_receiver(Data).unwrap();
/// let refused = receiver.issue(1); // the policy issued the whole ring
/// assert_eq!(refused, Err(CallError::Refused(Refusal::NoRoom { room: 0 })));
/// # Ok::<(), lcmux::MuxFault>(())
/// ```
#[derive(Clone, Debug, PartialEq, Eq)]
#[non_exhaustive]
pub enum CallError {
    /// The call is not allowed.
    Refused(Refusal),
    /// This side closed the session, or the session is over.
    Closed(Closed),
}

impl CallError {
    /// Returns the reason why the session has ended, if it has.
    pub fn closed(&self) -> Option<&Closed> {
        match self {
            CallError::Closed(closed) => Some(closed),
            CallError::Refused(_) => None,
        }
    }
}

impl Display for CallError {
    fn fmt(&self, f: &mut Formatter<'_>) -> fmt::Result {
        match self {
            CallError::Refused(refusal) => refusal.fmt(f),
            CallError::Closed(closed) => closed.fmt(f),
        }
    }
}

impl Error for CallError {
    fn source(&self) -> Option<&(dyn Error + 'static)> {
        self.closed()?.source()
    }
}

impl From<Refusal> for CallError {
    fn from(refusal: Refusal) -> CallError {
        CallError::Refused(refusal)
    }
}

impl From<Closed> for CallError {
    fn from(closed: Closed) -> CallError {
        CallError::Closed(closed)
    }
}

/// The error of [`Sender::send`](crate::Sender::send): the message can never be sent, however long the call waits.
///
/// ```
/// use lcmux::{Channel::Data, Config, Mux, Refusal, SendError, CHANNELS};
///
/// let (mut mux, _driver) = Mux::new(Config::new([64; CHANNELS], 16))?;
/// let sender = mux.take_sender(Data).unwrap();
/// let sent = sender.send_blocking(&[0; 65_536]);
/// assert_eq!(sent, Err(SendError::Refused(Refusal::BodyTooLong)));
/// # Ok::<(), lcmux::MuxFault>(())
/// ```
#[derive(Clone, Debug, PartialEq, Eq)]
#[non_exhaustive]
pub enum SendError {
    /// The call is not allowed.
    Refused(Refusal),
    /// The message is longer than the guarantees that the sender holds plus those that the receiver may still issue.
    /// The receiver set a limit on receiving, or its handle was dropped.
    Unwanted {
        /// The guarantees that the sender holds.
        held: u64,
        /// The guarantees that the receiver may still issue.
        left: u64,
    },
    /// The peer issued fewer guarantees than the [longest message](crate::Config::longest) that the application stated:
    /// its ring buffer is too small for the channel.
    RingTooSmall {
        /// The stated length.
        longest: u32,
        /// The most guarantees that this side held at once.
        most: u64,
    },
    /// The session is closed or over; or guarantees are missing, and the peer closed the session and issues no more.
    Closed(Closed),
}

impl SendError {
    /// Returns the reason why the session, or the part of it that the call needs, has ended, if it has.
    pub fn closed(&self) -> Option<&Closed> {
        match self {
            SendError::Closed(closed) => Some(closed),
            SendError::Refused(_) | SendError::Unwanted { .. } | SendError::RingTooSmall { .. } => {
                None
            }
        }
    }
}

impl Display for SendError {
    fn fmt(&self, f: &mut Formatter<'_>) -> fmt::Result {
        match self {
            SendError::Refused(refusal) => refusal.fmt(f),
            SendError::Unwanted { held, left } => write!(
                f,
                "the message is longer than the guarantees that are held and those that the peer may still issue (held {held}, left {left})"
            ),
            SendError::RingTooSmall { longest, most } => write!(
                f,
                "the peer issued at most {most} guarantees at once, and the longest message of the channel has {longest} bytes"
            ),
            SendError::Closed(closed) => closed.fmt(f),
        }
    }
}

impl Error for SendError {
    fn source(&self) -> Option<&(dyn Error + 'static)> {
        self.closed()?.source()
    }
}

impl From<Refusal> for SendError {
    fn from(refusal: Refusal) -> SendError {
        SendError::Refused(refusal)
    }
}

impl From<Closed> for SendError {
    fn from(closed: Closed) -> SendError {
        SendError::Closed(closed)
    }
}

/// The error of [`Sender::try_send`](crate::Sender::try_send) and
/// [`Sender::try_reserve`](crate::Sender::try_reserve).
///
/// ```
/// use lcmux::{Channel::Data, Config, Mux, Needs, TrySendError, CHANNELS};
///
/// let (mut mux, _driver) = Mux::new(Config::new([64; CHANNELS], 16))?;
/// let reserved = mux.take_sender(Data).unwrap().try_reserve(5).err();
/// assert_eq!(reserved, Some(TrySendError::Full(Needs::Guarantees(5))));
/// # Ok::<(), lcmux::MuxFault>(())
/// ```
#[derive(Clone, Debug, PartialEq, Eq)]
#[non_exhaustive]
pub enum TrySendError {
    /// The call would have to wait: for guarantees; or for the outbound queue, which is [`Needs::Slot`]: for a slot,
    /// for its bytes, or for an earlier call of the channel.
    Full(Needs),
    /// The message can never be sent.
    Failed(SendError),
}

impl TrySendError {
    /// Returns the reason why the session, or the part of it that the call needs, has ended, if it has.
    pub fn closed(&self) -> Option<&Closed> {
        match self {
            TrySendError::Failed(error) => error.closed(),
            TrySendError::Full(_) => None,
        }
    }
}

impl Display for TrySendError {
    fn fmt(&self, f: &mut Formatter<'_>) -> fmt::Result {
        match self {
            TrySendError::Full(Needs::Guarantees(more)) => {
                write!(f, "the message needs {more} more guarantees")
            }
            TrySendError::Full(Needs::MoreThanEverIssued { more, most }) => write!(
                f,
                "the message needs {more} more guarantees, and is longer than the {most} that were ever held at once"
            ),
            TrySendError::Full(_) => {
                f.write_str("the message has to wait for a slot in the outbound queue")
            }
            TrySendError::Failed(error) => error.fmt(f),
        }
    }
}

impl Error for TrySendError {
    fn source(&self) -> Option<&(dyn Error + 'static)> {
        self.closed()?.source()
    }
}

impl<E: Into<SendError>> From<E> for TrySendError {
    fn from(error: E) -> TrySendError {
        TrySendError::Failed(error.into())
    }
}

/// The error of [`Sender::send_timeout`](crate::Sender::send_timeout) and
/// [`Sender::reserve_timeout`](crate::Sender::reserve_timeout).
///
/// ```
/// use lcmux::{Channel::Data, Config, Mux, SendTimeoutError, CHANNELS};
/// use std::time::Duration;
///
/// let (mut mux, _driver) = Mux::new(Config::new([64; CHANNELS], 16))?;
/// let sender = mux.take_sender(Data).unwrap();
/// let sent = sender.send_timeout(b"hello", Duration::from_millis(1));
/// assert_eq!(sent, Err(SendTimeoutError::Timeout));
/// # Ok::<(), lcmux::MuxFault>(())
/// ```
#[derive(Clone, Debug, PartialEq, Eq)]
#[non_exhaustive]
pub enum SendTimeoutError {
    /// The timeout expired, and nothing was sent.
    Timeout,
    /// The message can never be sent.
    Failed(SendError),
}

impl SendTimeoutError {
    /// Returns the reason why the session, or the part of it that the call needs, has ended, if it has.
    pub fn closed(&self) -> Option<&Closed> {
        match self {
            SendTimeoutError::Failed(error) => error.closed(),
            SendTimeoutError::Timeout => None,
        }
    }
}

impl Display for SendTimeoutError {
    fn fmt(&self, f: &mut Formatter<'_>) -> fmt::Result {
        match self {
            SendTimeoutError::Timeout => f.write_str("the send timed out"),
            SendTimeoutError::Failed(error) => error.fmt(f),
        }
    }
}

impl Error for SendTimeoutError {
    fn source(&self) -> Option<&(dyn Error + 'static)> {
        self.closed()?.source()
    }
}

impl From<SendError> for SendTimeoutError {
    fn from(error: SendError) -> SendTimeoutError {
        SendTimeoutError::Failed(error)
    }
}

/// The error of [`Receiver::try_recv`](crate::Receiver::try_recv).
///
/// ```
/// use lcmux::{Channel::Data, Closed, Config, Mux, TryRecvError, CHANNELS};
///
/// let (mut mux, driver) = Mux::new(Config::new([64; CHANNELS], 16))?;
/// let mut receiver = mux.take_receiver(Data).unwrap();
/// assert_eq!(receiver.try_recv(), Err(TryRecvError::Empty));
/// drop(driver);
/// assert_eq!(receiver.try_recv(), Err(TryRecvError::Closed(Closed::Aborted)));
/// # Ok::<(), lcmux::MuxFault>(())
/// ```
#[derive(Clone, Debug, PartialEq, Eq)]
#[non_exhaustive]
pub enum TryRecvError {
    /// No message is available now.
    Empty,
    /// The session is over.
    Closed(Closed),
}

impl TryRecvError {
    /// Returns the reason why the session has ended, if it has.
    pub fn closed(&self) -> Option<&Closed> {
        match self {
            TryRecvError::Closed(closed) => Some(closed),
            TryRecvError::Empty => None,
        }
    }
}

impl Display for TryRecvError {
    fn fmt(&self, f: &mut Formatter<'_>) -> fmt::Result {
        match self {
            TryRecvError::Empty => f.write_str("no message is available"),
            TryRecvError::Closed(closed) => closed.fmt(f),
        }
    }
}

impl Error for TryRecvError {
    fn source(&self) -> Option<&(dyn Error + 'static)> {
        self.closed()?.source()
    }
}

impl From<Closed> for TryRecvError {
    fn from(closed: Closed) -> TryRecvError {
        TryRecvError::Closed(closed)
    }
}

/// The error of [`Receiver::recv_timeout`](crate::Receiver::recv_timeout).
///
/// ```
/// use lcmux::{Channel::Data, Config, Mux, RecvTimeoutError, CHANNELS};
/// use std::time::Duration;
///
/// let (mut mux, _driver) = Mux::new(Config::new([64; CHANNELS], 16))?;
/// let mut receiver = mux.take_receiver(Data).unwrap();
/// let taken = receiver.recv_timeout(Duration::from_millis(1));
/// assert_eq!(taken, Err(RecvTimeoutError::Timeout));
/// # Ok::<(), lcmux::MuxFault>(())
/// ```
#[derive(Clone, Debug, PartialEq, Eq)]
#[non_exhaustive]
pub enum RecvTimeoutError {
    /// The timeout expired, and no message was taken.
    Timeout,
    /// The session is over.
    Closed(Closed),
}

impl RecvTimeoutError {
    /// Returns the reason why the session has ended, if it has.
    pub fn closed(&self) -> Option<&Closed> {
        match self {
            RecvTimeoutError::Closed(closed) => Some(closed),
            RecvTimeoutError::Timeout => None,
        }
    }
}

impl Display for RecvTimeoutError {
    fn fmt(&self, f: &mut Formatter<'_>) -> fmt::Result {
        match self {
            RecvTimeoutError::Timeout => f.write_str("the wait for a message timed out"),
            RecvTimeoutError::Closed(closed) => closed.fmt(f),
        }
    }
}

impl Error for RecvTimeoutError {
    fn source(&self) -> Option<&(dyn Error + 'static)> {
        self.closed()?.source()
    }
}

impl From<Closed> for RecvTimeoutError {
    fn from(closed: Closed) -> RecvTimeoutError {
        RecvTimeoutError::Closed(closed)
    }
}

/// The error of [`Mux::new`](crate::Mux::new) and of
/// [`Receiver::set_issue_policy`](crate::Receiver::set_issue_policy).
///
/// ```
/// use lcmux::{Config, Mux, MuxFault, CHANNELS};
/// let fault = Mux::new(Config::new([64; CHANNELS], 7)).unwrap_err();
/// assert_eq!(fault, MuxFault::TooFewSlots { slots: 7 });
/// assert_eq!(fault.to_string(), "slots must be in 14..=65536, got 7");
/// ```
#[derive(Clone, Copy, Debug, PartialEq, Eq)]
#[non_exhaustive]
pub enum MuxFault {
    /// [`Peer::new`](crate::Peer::new) failed.
    Peer(PeerFault),
    /// The slots are fewer than [`Mux::LEAST_SLOTS`](crate::Mux::LEAST_SLOTS).
    TooFewSlots {
        /// The number of slots that the configuration names.
        slots: u32,
    },
    /// A low-water mark is not in 1 to the size of its ring buffer. The channel is the first such one.
    BadMark {
        /// The channel.
        channel: crate::Channel,
        /// The low-water mark.
        mark: u32,
        /// The size of the channel's ring buffer.
        capacity: u32,
    },
    /// A [longest message](crate::Config::longest) is empty, or longer than the version allows. The channel is the first
    /// such one.
    BadLongest {
        /// The channel.
        channel: crate::Channel,
        /// The stated length.
        longest: u32,
        /// The length of the version's longest message.
        most: u32,
    },
}

impl Display for MuxFault {
    fn fmt(&self, f: &mut Formatter<'_>) -> fmt::Result {
        match self {
            MuxFault::Peer(PeerFault::BadSlots { slots }) | MuxFault::TooFewSlots { slots } => {
                let least = crate::Mux::LEAST_SLOTS;
                write!(f, "slots must be in {least}..=65536, got {slots}")
            }
            MuxFault::Peer(fault) => fault.fmt(f),
            MuxFault::BadMark {
                channel,
                mark,
                capacity,
            } => write!(
                f,
                "the low-water mark of {channel:?} must be in 1..={capacity}, got {mark}"
            ),
            MuxFault::BadLongest {
                channel,
                longest,
                most,
            } => write!(
                f,
                "the longest message of {channel:?} must have 1..={most} bytes, got {longest}"
            ),
        }
    }
}

impl Error for MuxFault {}

impl From<PeerFault> for MuxFault {
    fn from(fault: PeerFault) -> MuxFault {
        MuxFault::Peer(fault)
    }
}
