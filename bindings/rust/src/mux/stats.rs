use std::time::Duration;

/// The statistics of a channel, in both directions.
///
/// ```
/// use lcmux::{Channel::Data, Config, Mux, CHANNELS};
/// let (mux, _driver) = Mux::new(Config::new([64; CHANNELS], 16))?;
/// assert_eq!(mux.stats()[Data].messages_sent, 0);
/// # Ok::<(), lcmux::MuxFault>(())
/// ```
#[derive(Clone, Copy, Debug, Default, PartialEq, Eq)]
#[non_exhaustive]
pub struct Stats {
    /// The messages that were accepted to be sent.
    pub messages_sent: u64,
    /// The bytes of these messages.
    pub bytes_sent: u64,
    /// The messages that were received.
    pub messages_received: u64,
    /// The bytes of these messages.
    pub bytes_received: u64,
    /// The time in which the first waiting call of the sender lacked guarantees, summed over all calls so far. A call
    /// that still waits counts, up to its notification that it can proceed or fails, however late its task polls it.
    pub waited_for_guarantees: Duration,
    /// The time in which the first waiting call had its guarantees and waited for the outbound queue, for a slot or
    /// for its bytes, summed in the same way.
    pub waited_for_slots: Duration,
    /// The bytes of messages that the ring buffer holds now.
    pub buffered: u64,
    /// The most bytes of messages that the ring buffer held at once.
    pub most_buffered: u64,
    /// The guarantees that the sender holds now, with those of permits.
    pub held: u64,
    /// The most guarantees that the sender held at once, with those of permits: the peer's ring buffer has at least as
    /// many bytes.
    pub most_held: u64,
    /// The length of the message for which the first call of the sender waits, if it is longer than `most_held`: it
    /// waits until the peer issues more at once than it ever did, for good if the peer's ring buffer is smaller. `None`
    /// before the peer issued any.
    pub oversized: Option<u64>,
}
