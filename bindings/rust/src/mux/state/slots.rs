//! The slots of the outbound queue: how many frames it may hold, and which calls may use them.
//!
//! Seven slots are reserved for control frames, one belongs to each channel, and the rest is shared by the messages of
//! all channels. Of the messages and permits of a channel that are under way, one holds the channel's own slot, and each
//! further one a shared slot. No other channel takes a channel's own slot, so a message whose channel has nothing under
//! way always finds one.
use super::{bit, ALL};
use crate::{Channel, CHANNELS};
use std::collections::VecDeque;

/// The number of reserved control slots: one for a frame on each channel.
pub(crate) const CONTROL: usize = CHANNELS;

/// The number of slots that belong to a channel: one each.
pub(crate) const OWN: usize = CHANNELS;

pub(super) struct Slots {
    total: usize,
    /// The frames in the queue: the channel of a message, and `None` for a control frame.
    frames: VecDeque<Option<Channel>>,
    /// By channel: its messages in the queue, and its permits.
    under_way: [usize; CHANNELS],
    /// The channels that have any, as bits.
    busy: u8,
    /// The number of permits of all channels.
    permits: usize,
}

impl Slots {
    pub fn new(total: usize) -> Slots {
        Slots {
            total,
            frames: VecDeque::new(),
            under_way: [0; CHANNELS],
            busy: 0,
            permits: 0,
        }
    }

    /// Updates the slots after frames left the queue, or a control frame entered it. Returns whether one did.
    pub fn follow(&mut self, places_left: usize) -> bool {
        let queued = self.total - places_left;
        let entered = queued > self.frames.len();
        if entered {
            self.frames.resize(queued, None);
        }
        while self.frames.len() > queued {
            if let Some(Some(channel)) = self.frames.pop_front() {
                self.end(channel);
            }
        }
        debug_assert!(self.kept() <= places_left);
        entered
    }

    /// Returns whether a control frame may enter the queue.
    pub fn has_control(&self) -> bool {
        self.free() > self.kept()
    }

    /// Returns whether a shared slot is free for a message or a permit.
    pub fn has_shared(&self) -> bool {
        self.free() > CONTROL + self.kept()
    }

    /// Returns the channels whose own slots are free, as bits.
    pub fn own_free(&self) -> u8 {
        ALL & !self.busy
    }

    /// Returns whether the queue is empty.
    pub fn is_empty(&self) -> bool {
        self.frames.is_empty()
    }

    /// Returns how many messages of other channels the queue may hold beside one.
    pub fn others(&self) -> u64 {
        (self.total - CONTROL - 1) as u64
    }

    /// Counts a message of the channel that entered the queue.
    pub fn enter(&mut self, channel: Channel) {
        self.frames.push_back(Some(channel));
        self.begin(channel);
    }

    /// Reserves a slot for a permit of the channel.
    pub fn hold(&mut self, channel: Channel) {
        self.permits += 1;
        self.begin(channel);
    }

    /// Releases the slot of a permit. A message that the permit sends enters by [`Slots::enter`].
    pub fn release(&mut self, channel: Channel) {
        self.permits -= 1;
        self.end(channel);
    }

    fn begin(&mut self, channel: Channel) {
        self.under_way[channel] += 1;
        self.busy |= bit(channel);
    }

    fn end(&mut self, channel: Channel) {
        self.under_way[channel] -= 1;
        if self.under_way[channel] == 0 {
            self.busy &= !bit(channel);
        }
    }

    fn free(&self) -> usize {
        self.total - self.frames.len()
    }

    // The free slots that only their owners may take: own slots of channels that have nothing under way, and the slots
    // of permits.
    fn kept(&self) -> usize {
        self.own_free().count_ones() as usize + self.permits
    }
}
