//! Receivers: messages that are taken, and messages that are borrowed.
use super::{bit, channels, keep, State};
use crate::sys::Lent;
use crate::{Channel, Closed, Take};
use std::mem;
use std::task::Waker;

/// The longest message that is copied under the lock: a longer one is borrowed, and copied without the lock.
const MOST_COPIED: usize = 4_096;

/// The most bytes of a batch of messages, all copied under one lock.
const MOST_IN_BATCH: usize = 65_536;

/// A message that a call takes: a copy, or, if it is long, a view that is copied without the lock and then returned.
/// A call that panics meanwhile loses no message: the next call finds it again.
pub(crate) enum Taken {
    Copied(Vec<u8>),
    Lent(Lent),
}

impl State {
    /// Takes the next message, to be copied into a vector.
    pub fn take(&mut self, channel: Channel) -> Result<Take<Taken>, Closed> {
        Ok(match self.front(channel)? {
            Take::Took(front) if front.len() <= MOST_COPIED => {
                let message = front.to_vec();
                self.pop(channel);
                Take::Took(Taken::Copied(message))
            }
            Take::Took(front) => Take::Took(Taken::Lent(front)),
            Take::Empty => Take::Empty,
            Take::Ended => Take::Ended,
        })
    }

    /// Takes at most `limit` messages that have arrived, and appends copies of them. A first message that is long is
    /// borrowed, and the only one.
    pub fn take_many(
        &mut self,
        channel: Channel,
        messages: &mut Vec<Vec<u8>>,
        limit: usize,
    ) -> Result<Take<Option<Lent>>, Closed> {
        Ok(match self.front(channel)? {
            Take::Took(first) if first.len() > MOST_COPIED => Take::Took(Some(first)),
            Take::Took(_) => {
                self.take_short(channel, messages, limit);
                Take::Took(None)
            }
            Take::Empty => Take::Empty,
            Take::Ended => Take::Ended,
        })
    }

    // Takes messages up to the first long one. Their bytes are issued together.
    fn take_short(&mut self, channel: Channel, messages: &mut Vec<Vec<u8>>, limit: usize) {
        let mut left = MOST_IN_BATCH;
        for _ in 0..limit {
            match self.peer.lend(channel) {
                Some(front) if front.len() <= MOST_COPIED.min(left) => {
                    left -= front.len();
                    messages.push(front.to_vec());
                    self.drop_front(channel);
                }
                _ => break,
            }
        }
        self.freed(channel);
    }

    /// Borrows the next message until it is returned.
    pub fn lend(&mut self, channel: Channel) -> Result<Take<Lent>, Closed> {
        let front = self.front(channel)?;
        self.inc[channel].is_lent = matches!(front, Take::Took(_));
        Ok(front)
    }

    fn front(&mut self, channel: Channel) -> Result<Take<Lent>, Closed> {
        self.may_take()?;
        if mem::take(&mut self.inc[channel].is_lent) {
            self.pop(channel); // its view was leaked
        }
        match self.peer.lend(channel) {
            Some(front) => Ok(Take::Took(front)),
            None => self.why_none(channel),
        }
    }

    /// Ends the borrows of the first messages of these channels: the messages are taken.
    pub fn give_back_lent(&mut self, bits: u8) {
        for channel in channels(bits) {
            self.inc[channel].is_lent = false;
            self.pop(channel);
        }
    }

    fn pop(&mut self, channel: Channel) {
        if self.drop_front(channel) {
            self.freed(channel);
        }
    }

    // Drops the first message, if there is one.
    fn drop_front(&mut self, channel: Channel) -> bool {
        let Take::Took(len) = self.peer.pop(channel) else {
            return false;
        };
        let stats = &mut self.stats[channel];
        stats.messages_received += 1;
        stats.bytes_received += len as u64;
        true
    }

    /// Registers the waker of a call that waits for a message.
    pub fn wait_for_message(&mut self, channel: Channel, waker: &Waker) {
        keep(&mut self.inc[channel].waker, waker, &mut self.wakes);
    }

    // Messages that arrived may be taken after the end of the session, unless this side aborted it.
    fn may_take(&self) -> Result<(), Closed> {
        match self.closed {
            Some(Closed::Aborted) => Err(Closed::Aborted),
            _ => Ok(()),
        }
    }

    // The result of a call if no message is available.
    fn why_none<T>(&mut self, channel: Channel) -> Result<Take<T>, Closed> {
        match (self.peer.pop(channel), &self.closed) {
            (Take::Ended, _) => Ok(Take::Ended),
            (_, Some(closed)) => Err(closed.clone()),
            (_, None) => Ok(Take::Empty),
        }
    }

    // Marks the freed bytes to be issued. An active writing half issues at its next pull all bytes that are free by
    // then, in one frame.
    fn freed(&mut self, channel: Channel) {
        self.freed |= bit(channel);
        if self.is_idle {
            self.settle();
        }
    }
}
