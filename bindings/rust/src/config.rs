use crate::{Channel, MuxFault, Timeouts, Version, CHANNELS};
use std::time::Duration;

/// The configuration of a [`Mux`](crate::Mux) or of a [`Peer`](crate::Peer). The two sides of a session need not have
/// the same one.
///
/// By default the rings have 64 KiB each, the outbound queue has 64 slots, the stream has version One, and the policies
/// issue and honour at once. The methods set one option each and return the configuration:
///
/// ```
/// use lcmux::{Channel::Data, Config, IssuePolicy, Mux, Version};
/// use std::time::Duration;
///
/// let config = Config::default()
///     .version(Version::Two)
///     .rings(16_384)
///     .ring(Data, 1 << 20)
///     .issue(Data, IssuePolicy::LowWater(1 << 19))
///     .idle(Duration::from_secs(60));
/// assert_eq!(config.capacities[Data], 1 << 20);
/// let (mux, driver) = Mux::new(config)?;
/// # Ok::<(), lcmux::MuxFault>(())
/// ```
///
/// # Rings
///
/// A ring is the receive buffer of a channel, and so its window. Size the ring of a busy channel to its bandwidth-delay
/// product, the bytes per second times the round-trip time, or its sender stalls waiting for guarantees. A ring has at
/// least the size of the longest message of its channel.
///
/// # Slots
///
/// A slot holds one frame of the outbound queue until the driver takes it. Of the slots of a session 7 are for control
/// frames, one belongs to each channel, and the rest is shared by the messages of all channels. More slots make larger
/// writes of short messages; fewer slots let fewer messages of other channels precede one that is sent later. The queue
/// is also bounded by 65,536 bytes of messages, so 64 slots are enough for messages from 1 KiB on.
#[derive(Clone, Copy, Debug, PartialEq, Eq)]
#[non_exhaustive]
pub struct Config {
    /// The version of the outbound stream. The inbound stream may have either version.
    pub version: Version,
    /// The size of each channel's receive ring buffer in bytes, 1 to 2^24, indexed by the [`Channel`].
    pub capacities: [u32; CHANNELS],
    /// The slots of the outbound queue, 1 to 65,536, of a session at least [`Mux::LEAST_SLOTS`](crate::Mux::LEAST_SLOTS).
    pub slots: u32,
    /// The issue policy of each channel of a session, indexed by the [`Channel`]. A peer alone has none.
    pub issue: [IssuePolicy; CHANNELS],
    /// The plead policy of each channel of a session, indexed by the [`Channel`]. A peer alone has none.
    pub plead: [PleadPolicy; CHANNELS],
    /// The longest message that the application sends on each channel of a session, indexed by the [`Channel`], if it
    /// states one: 1 to the longest of the version. It states with it that the peer's ring has at least as many bytes,
    /// all of which the peer issues at first, as the policies but [`IssuePolicy::ByCaller`] do. Then a longer message is
    /// refused by [`Refusal::BodyTooLong`](crate::Refusal::BodyTooLong). And if the peer issued fewer guarantees, every
    /// send of the channel fails by [`SendError::RingTooSmall`](crate::SendError::RingTooSmall), from the first one on,
    /// in place of a long message that waits for good. A peer alone ignores it.
    pub longest: [Option<u32>; CHANNELS],
    /// The timeouts of a session, which its [`Driver`](crate::Driver) observes. A peer alone has none.
    pub timeouts: Timeouts,
}

/// Rings of 65,536 bytes, 64 slots, version One, the default policies and timeouts.
impl Default for Config {
    fn default() -> Config {
        Config {
            version: Version::default(),
            capacities: [65_536; CHANNELS],
            slots: 64,
            issue: Default::default(),
            plead: Default::default(),
            longest: [None; CHANNELS],
            timeouts: Timeouts::default(),
        }
    }
}

impl Config {
    /// Makes a configuration with rings of these sizes and this many slots, and the default otherwise.
    ///
    /// ```
    /// use lcmux::{Config, Peer, Version, CHANNELS};
    /// let config = Config::new([8; CHANNELS], 4).version(Version::Two);
    /// let mut wire = Vec::new();
    /// Peer::new(&config)?.write_to(&mut wire)?;
    /// assert_eq!(wire, [0x4c, 0x43, 0x4d, 0x02]);
    /// # Ok::<(), Box<dyn std::error::Error>>(())
    /// ```
    pub fn new(capacities: [u32; CHANNELS], slots: u32) -> Config {
        Config {
            capacities,
            slots,
            ..Config::default()
        }
    }

    /// Sets the version of the outbound stream.
    pub fn version(mut self, version: Version) -> Config {
        self.version = version;
        self
    }

    /// Sets the sizes of all rings.
    pub fn rings(mut self, capacity: u32) -> Config {
        self.capacities = [capacity; CHANNELS];
        self
    }

    /// Sets the size of the ring of one channel.
    pub fn ring(mut self, channel: Channel, capacity: u32) -> Config {
        self.capacities[channel] = capacity;
        self
    }

    /// Sets the slots of the outbound queue.
    pub fn slots(mut self, slots: u32) -> Config {
        self.slots = slots;
        self
    }

    /// Sets the issue policy of one channel.
    pub fn issue(mut self, channel: Channel, policy: IssuePolicy) -> Config {
        self.issue[channel] = policy;
        self
    }

    /// Sets the plead policy of one channel.
    pub fn plead(mut self, channel: Channel, policy: PleadPolicy) -> Config {
        self.plead[channel] = policy;
        self
    }

    /// States the [longest message](Config::longest) that the application sends on one channel.
    ///
    /// ```
    /// use lcmux::{Channel::Data, Config, Mux, Refusal, SendError};
    ///
    /// let (mut mux, _driver) = Mux::new(Config::default().longest(Data, 60_000))?;
    /// let sender = mux.take_sender(Data).unwrap();
    /// let sent = sender.send_blocking(&[0; 60_001]);
    /// assert_eq!(sent, Err(SendError::Refused(Refusal::BodyTooLong)));
    /// # Ok::<(), lcmux::MuxFault>(())
    /// ```
    pub fn longest(mut self, channel: Channel, len: u32) -> Config {
        self.longest[channel] = Some(len);
        self
    }

    /// Sets [`Timeouts::idle`].
    pub fn idle(mut self, timeout: Duration) -> Config {
        self.timeouts.idle = Some(timeout);
        self
    }

    /// Sets [`Timeouts::keep_alive`].
    pub fn keep_alive(mut self, pause: Duration) -> Config {
        self.timeouts.keep_alive = Some(pause);
        self
    }

    /// Sets [`Timeouts::grace`].
    pub fn grace(mut self, timeout: Duration) -> Config {
        self.timeouts.grace = Some(timeout);
        self
    }

    // Validates what the peer does not: the least slots of a session, the low-water marks, and the longest messages.
    pub(crate) fn judge(&self) -> Result<(), MuxFault> {
        if self.slots < crate::Mux::LEAST_SLOTS {
            let slots = self.slots;
            return Err(MuxFault::TooFewSlots { slots });
        }
        let marks = self.issue.iter().zip(self.capacities);
        for (channel, (policy, capacity)) in Channel::ALL.into_iter().zip(marks) {
            policy.judge(channel, capacity)?;
        }
        let most = self.version.longest_message();
        let is_bad = |longest: u32| !(1..=most).contains(&longest);
        for (channel, longest) in Channel::ALL.into_iter().zip(self.longest) {
            if let Some(longest) = longest.filter(|it| is_bad(*it)) {
                return Err(MuxFault::BadLongest {
                    channel,
                    longest,
                    most,
                });
            }
        }
        Ok(())
    }
}

/// When a receiver issues the free bytes of its ring buffer as guarantees.
///
/// ```
/// use lcmux::{Channel::Data, Config, IssuePolicy, Mux};
///
/// let config = Config::default().ring(Data, 64).issue(Data, IssuePolicy::ByCaller);
/// let (mut mux, _driver) = Mux::new(config)?;
/// let receiver = mux.take_receiver(Data).unwrap();
/// receiver.issue(40).unwrap();
/// assert_eq!(receiver.room(), 24);
/// receiver.set_issue_policy(IssuePolicy::AtOnce)?;
/// assert_eq!(receiver.room(), 0);
/// # Ok::<(), lcmux::MuxFault>(())
/// ```
#[derive(Clone, Copy, Debug, Default, PartialEq, Eq)]
#[non_exhaustive]
pub enum IssuePolicy {
    /// Issues the whole ring at the beginning, and all free bytes whenever the driver asks for bytes to write.
    #[default]
    AtOnce,
    /// Issues the whole ring at the beginning, and all free bytes once fewer than this many guarantees are
    /// outstanding. It sends fewer control frames, each for more bytes. A message longer than the mark may wait
    /// forever: set the mark to at least the longest message, and the ring to twice the mark.
    LowWater(u32),
    /// Issues nothing: the application calls [`Receiver::issue`](crate::Receiver::issue).
    ByCaller,
}

/// When a sender honours the receiver's pleads.
///
/// ```
/// use lcmux::{Channel::Data, Config, Mux, PleadPolicy};
///
/// let config = Config::default().plead(Data, PleadPolicy::ByCaller);
/// let (mut mux, _driver) = Mux::new(config)?;
/// let sender = mux.take_sender(Data).unwrap();
/// if sender.pleaded().is_some() {
///     let absolved = sender.honour();
/// }
/// # Ok::<(), lcmux::MuxFault>(())
/// ```
#[derive(Clone, Copy, Debug, Default, PartialEq, Eq)]
#[non_exhaustive]
pub enum PleadPolicy {
    /// Honours each plead as soon as it arrives. Guarantees that permits own are absolved when the permits are
    /// dropped; guarantees that are issued meanwhile are kept. While these exceed the target, a second plead with the
    /// same target has no effect.
    #[default]
    AtOnce,
    /// Honours no plead: the application calls [`Sender::honour`](crate::Sender::honour).
    ByCaller,
}

impl IssuePolicy {
    // A low-water mark is in 1 to the size of the ring.
    pub(crate) fn judge(self, channel: Channel, capacity: u32) -> Result<(), MuxFault> {
        match self {
            IssuePolicy::LowWater(mark) if !(1..=capacity).contains(&mark) => {
                Err(MuxFault::BadMark {
                    channel,
                    mark,
                    capacity,
                })
            }
            _ => Ok(()),
        }
    }
}
