use std::ops::{Index, IndexMut};

/// The number of channels: the length of every array that has a setting for each channel.
pub const CHANNELS: usize = 7;

/// A logical channel. Each channel runs in both directions, and the two directions are independent. The application
/// chooses what it sends on which channel.
///
/// ```
/// use lcmux::Channel;
/// let numbers = Channel::ALL.map(Channel::number);
/// assert_eq!(numbers, [0, 1, 2, 3, 4, 5, 6]);
/// ```
///
/// A channel is an index into an array with a setting for each channel:
///
/// ```
/// use lcmux::{Channel, CHANNELS};
/// let mut capacities = [4096; CHANNELS];
/// capacities[Channel::Data] = 1 << 20;
/// assert_eq!(capacities[Channel::Overlap], 4096);
/// ```
#[derive(Clone, Copy, Debug, PartialEq, Eq, Hash, PartialOrd, Ord)]
pub enum Channel {
    /// Channel 0.
    Reconciliation,
    /// Channel 1.
    Data,
    /// Channel 2.
    Overlap,
    /// Channel 3.
    Capability,
    /// Channel 4.
    AreaOfInterest,
    /// Channel 5.
    PayloadRequest,
    /// Channel 6.
    StaticToken,
}

impl Channel {
    /// All seven channels, in the order of their numbers.
    pub const ALL: [Channel; CHANNELS] = [
        Channel::Reconciliation,
        Channel::Data,
        Channel::Overlap,
        Channel::Capability,
        Channel::AreaOfInterest,
        Channel::PayloadRequest,
        Channel::StaticToken,
    ];

    /// Returns the channel's number, 0 to 6.
    #[inline]
    pub fn number(self) -> u8 {
        self as u8
    }

    /// Returns the channel with this number, or `None` if the number is above 6.
    ///
    /// ```
    /// use lcmux::Channel;
    /// assert_eq!(Channel::from_number(1), Some(Channel::Data));
    /// assert_eq!(Channel::from_number(7), None);
    /// ```
    pub fn from_number(number: u8) -> Option<Channel> {
        Channel::ALL.get(usize::from(number)).copied()
    }
}

impl<T> Index<Channel> for [T; CHANNELS] {
    type Output = T;

    #[inline]
    fn index(&self, channel: Channel) -> &T {
        &self[channel as usize]
    }
}

impl<T> IndexMut<Channel> for [T; CHANNELS] {
    #[inline]
    fn index_mut(&mut self, channel: Channel) -> &mut T {
        &mut self[channel as usize]
    }
}
