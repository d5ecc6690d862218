use crate::peer::{done, honoured};
use crate::sys::{self, Answer};
use crate::{Channel, Peer, Refusal, CHANNELS};

/// The condition that a message needs before it can be sent.
///
/// ```
/// use lcmux::{Config, Channel::Data, Needs, Peer, CHANNELS};
/// let peer = Peer::new(&Config::new([8; CHANNELS], 4))?;
/// assert_eq!(peer.needs(Data, 5), Needs::Guarantees(5));
/// # Ok::<(), lcmux::PeerFault>(())
/// ```
#[derive(Clone, Copy, Debug, PartialEq, Eq)]
pub enum Needs {
    /// Nothing: a send can fail only if an allocation does.
    Nothing,
    /// This many more guarantees: read the inbound stream.
    Guarantees(u64),
    /// More guarantees, for a message that is longer than all that this side ever held at once. The peer's ring buffer
    /// has at least `most` bytes and may have no more, and then the message waits until the session ends. Only a session
    /// knows that: [`Peer::needs`] returns [`Needs::Guarantees`] instead.
    MoreThanEverIssued {
        /// The guarantees that are missing now.
        more: u64,
        /// The most guarantees that this side held at once.
        most: u64,
    },
    /// A slot in the outbound queue: write pending frames.
    Slot,
    /// The message can never be sent: it is empty, it is longer than the version or a limit of either side allows, or
    /// the channel is finished.
    Never,
}

/// The state of a channel that the application can act on.
///
/// ```
/// # use lcmux::{Channel::Data, Config, Peer, CHANNELS};
/// # let mut peer = Peer::new(&Config::new([8; CHANNELS], 4))?;
/// let _ = peer.deliver(b"\x41\0\0\0\x02"); // a plead
/// assert!(peer.ready()[Data].plead);
/// # Ok::<(), lcmux::PeerFault>(())
/// ```
#[derive(Clone, Copy, Debug, Default, PartialEq, Eq)]
#[non_exhaustive]
pub struct Ready {
    /// A message is available.
    pub message: bool,
    /// No message is available, and none will arrive.
    pub ended: bool,
    /// A plead of the receiver is pending.
    pub plead: bool,
    /// This side finished its direction of the channel.
    pub finished: bool,
    /// The peer finished its direction of the channel.
    pub finished_there: bool,
}

impl From<sys::ChannelReady> for Ready {
    fn from(ready: sys::ChannelReady) -> Ready {
        Ready {
            message: ready.message != 0,
            ended: ready.ended != 0,
            plead: ready.plead != 0,
            finished: ready.finished != 0,
            finished_there: ready.finished_there != 0,
        }
    }
}

/// Queries. They change nothing and apply the same rules as the calls that they are named after.
impl Peer {
    /// Checks whether a [`Peer::send`] of `len` bytes would be refused, apart from a failed allocation. So the
    /// application need not build a body before it can be sent.
    ///
    /// # Errors
    ///
    /// The refusal that the call would return.
    ///
    /// # Examples
    ///
    /// ```
    /// # use lcmux::{Channel::Data, Config, Peer, Refusal, CHANNELS};
    /// # let peer = Peer::new(&Config::new([8; CHANNELS], 4))?;
    /// assert_eq!(peer.would_send(Data, 5), Err(Refusal::NoGuarantee { held: 0 }));
    /// # Ok::<(), lcmux::PeerFault>(())
    /// ```
    pub fn would_send(&self, channel: Channel, len: usize) -> Result<(), Refusal> {
        done(self.handle.would_send(channel.number().into(), len))
    }

    /// Checks whether [`Peer::issue`] would be refused.
    ///
    /// # Errors
    ///
    /// The refusal that the call would return.
    pub fn would_issue(&self, channel: Channel, amount: u32) -> Result<(), Refusal> {
        done(self.handle.would_issue(channel.number().into(), amount))
    }

    /// Checks whether [`Peer::absolve`] would be refused.
    ///
    /// # Errors
    ///
    /// The refusal that the call would return.
    pub fn would_absolve(&self, channel: Channel, amount: u32) -> Result<(), Refusal> {
        done(self.handle.would_absolve(channel.number().into(), amount))
    }

    /// Checks whether [`Peer::plead`] would be refused.
    ///
    /// # Errors
    ///
    /// The refusal that the call would return.
    pub fn would_plead(&self, channel: Channel, target: u32) -> Result<(), Refusal> {
        done(self.handle.would_plead(channel.number().into(), target))
    }

    /// Returns what [`Peer::honour`] would return.
    ///
    /// # Errors
    ///
    /// The refusal that the call would return.
    pub fn would_honour(&self, channel: Channel) -> Result<Option<u32>, Refusal> {
        honoured(self.handle.would_honour(channel.number().into()))
    }

    /// Checks whether [`Peer::limit_sending`] would be refused.
    ///
    /// # Errors
    ///
    /// The refusal that the call would return.
    pub fn would_limit_sending(&self, channel: Channel, bound: u64) -> Result<(), Refusal> {
        done(
            self.handle
                .would_limit_sending(channel.number().into(), bound),
        )
    }

    /// Checks whether [`Peer::limit_receiving`] would be refused.
    ///
    /// # Errors
    ///
    /// The refusal that the call would return.
    pub fn would_limit_receiving(&self, channel: Channel, bound: u64) -> Result<(), Refusal> {
        done(
            self.handle
                .would_limit_receiving(channel.number().into(), bound),
        )
    }

    /// Checks whether [`Peer::finish`] would be refused.
    ///
    /// # Errors
    ///
    /// The refusal that the call would return.
    pub fn would_finish(&self, channel: Channel) -> Result<(), Refusal> {
        done(self.handle.would_finish(channel.number().into()))
    }

    /// Returns the condition that a message of `len` bytes needs before it can be sent. A sender does not know the
    /// size of the receiver's ring buffer: a message longer than the ring needs guarantees that never arrive.
    ///
    /// ```
    /// # use lcmux::{Channel::Data, Config, Needs, Peer, CHANNELS};
    /// # let mut peer = Peer::new(&Config::new([8; CHANNELS], 4))?;
    /// assert_eq!(peer.needs(Data, 5), Needs::Guarantees(5));
    /// let _ = peer.deliver(b"\x21\0\0\0\x03");
    /// assert_eq!(peer.needs(Data, 5), Needs::Guarantees(2));
    /// assert_eq!(peer.needs(Data, 3), Needs::Nothing);
    /// assert_eq!(peer.needs(Data, 65_536), Needs::Never);
    /// # Ok::<(), lcmux::PeerFault>(())
    /// ```
    pub fn needs(&self, channel: Channel, len: usize) -> Needs {
        match self.handle.needs(channel.number().into(), len) {
            Answer { code: 0, .. } => Needs::Nothing,
            Answer { code: 4, number } => Needs::Guarantees(number),
            Answer { code: 13, .. } => Needs::Slot,
            Answer { code: 50, .. } => Needs::Never,
            Answer { code, .. } => unreachable!("no message needs {code}"),
        }
    }

    /// Returns how many slots of the outbound queue are free.
    pub fn slots_left(&self) -> usize {
        self.handle.slots_left().number as usize
    }

    /// Returns whether any outbound bytes are pending: the preface, the rest of a frame, or a whole frame.
    pub fn wants_write(&self) -> bool {
        self.start < self.end || self.handle.wants_write().number != 0
    }

    /// Returns the state of each channel, indexed by the [`Channel`].
    ///
    /// ```
    /// # use lcmux::{Channel::Data, Config, Peer, CHANNELS};
    /// # let mut peer = Peer::new(&Config::new([8; CHANNELS], 4))?;
    /// # peer.issue(Data, 8)?;
    /// let _ = peer.deliver(b"\x11\0\x02hi");
    /// for (channel, ready) in lcmux::Channel::ALL.into_iter().zip(peer.ready()) {
    ///     assert_eq!(ready.message, channel == Data);
    /// }
    /// # Ok::<(), Box<dyn std::error::Error>>(())
    /// ```
    pub fn ready(&self) -> [Ready; CHANNELS] {
        self.handle.ready().channels.map(Ready::from)
    }
}
