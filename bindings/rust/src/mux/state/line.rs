//! The wait queue of a sender: the waiting calls, and the limits and the finish behind them, in their order.
use crate::mux::events::Lacking;
use crate::sys::{Lent, LentSlices};
use crate::Refusal;
use std::collections::VecDeque;
use std::task::Waker;

/// An entry of a wait queue.
pub(super) enum Place {
    Call(Waiter),
    /// A limit: at most this many bytes are sent after it.
    Limit(u64),
    Finish,
}

/// A waiting call.
pub(super) struct Waiter {
    pub ticket: u64,
    pub len: usize,
    /// The guarantees that it waits for: as many as its length, or one for the next part of a stream.
    pub least: usize,
    /// The waker, until it is woken.
    pub waker: Option<Waker>,
    /// The request that another thread may complete on behalf of this one.
    pub left: Option<Left>,
    /// Whether it was notified and came too late: its slot or its bytes were taken, so it waits again.
    pub is_late: bool,
}

/// The request of a blocked thread, which the holder of the lock completes on its behalf. The thread lends the
/// message: the call leaves the wait queue before the thread proceeds.
pub(super) enum Left {
    Message(Lent),
    Slices(LentSlices),
    Permit,
}

impl Place {
    fn call(&self) -> Option<&Waiter> {
        match self {
            Place::Call(waiter) => Some(waiter),
            Place::Limit(_) | Place::Finish => None,
        }
    }

    fn has(&self, ticket: u64) -> bool {
        self.call().is_some_and(|waiter| waiter.ticket == ticket)
    }
}

#[derive(Default)]
pub(super) struct Line {
    places: VecDeque<Place>,
    pub lacking: Lacking,
}

impl Line {
    /// Returns the first call, if no limit or finish precedes it.
    pub fn first(&self) -> Option<&Waiter> {
        self.places.front()?.call()
    }

    /// Returns whether no entry precedes the call of this ticket, or a new call without a ticket.
    pub fn is_first(&self, ticket: Option<u64>) -> bool {
        match (self.places.front(), ticket) {
            (None, None) => true,
            (Some(first), Some(ticket)) => first.has(ticket),
            _ => false,
        }
    }

    /// Returns whether the call of this ticket waits.
    pub fn has(&self, ticket: u64) -> bool {
        self.places.iter().any(|place| place.has(ticket))
    }

    /// Returns whether the call of this ticket waits again since it came too late.
    pub fn is_late(&self, ticket: Option<u64>) -> bool {
        let waiter = self
            .places
            .iter()
            .find(|place| ticket.is_some_and(|it| place.has(it)));
        waiter
            .and_then(Place::call)
            .is_some_and(|waiter| waiter.is_late)
    }

    pub fn has_calls(&self) -> bool {
        self.places.iter().any(|place| place.call().is_some())
    }

    pub fn calls(&mut self) -> impl Iterator<Item = &mut Waiter> {
        self.places.iter_mut().filter_map(|place| match place {
            Place::Call(waiter) => Some(waiter),
            Place::Limit(_) | Place::Finish => None,
        })
    }

    pub fn push(&mut self, place: Place) {
        self.places.push_back(place);
    }

    /// Appends a limit. It replaces a limit that is the last entry.
    pub fn push_limit(&mut self, bound: u64) {
        if let Some(Place::Limit(left)) = self.places.back_mut() {
            *left = bound;
        } else {
            self.push(Place::Limit(bound));
        }
    }

    /// Takes the delegated request of the first call, if no limit or finish precedes it.
    pub fn take_left(&mut self) -> Option<Left> {
        match self.places.front_mut()? {
            Place::Call(waiter) => waiter.left.take(),
            Place::Limit(_) | Place::Finish => None,
        }
    }

    pub fn remove_call(&mut self, ticket: u64) -> Option<Waiter> {
        let at = self.places.iter().position(|place| place.has(ticket))?;
        match self.places.remove(at) {
            Some(Place::Call(waiter)) => Some(waiter),
            _ => None,
        }
    }

    /// Returns the index of the next limit or finish that may be enqueued: at the front, or, once no call will
    /// proceed, anywhere.
    pub fn owed(&self, is_closing: bool) -> Option<usize> {
        let at = self.places.iter().position(|it| it.call().is_none())?;
        (at == 0 || is_closing).then_some(at)
    }

    pub fn remove(&mut self, at: usize) -> Option<Place> {
        self.places.remove(at)
    }

    pub fn is_finished(&self) -> bool {
        matches!(self.places.back(), Some(Place::Finish))
    }

    /// Returns what the last limit allows, which is the least.
    pub fn left(&self) -> Option<u64> {
        self.left_before(None)
    }

    /// Returns what the last limit before a call allows, or before a new call without a ticket.
    pub fn left_before(&self, ticket: Option<u64>) -> Option<u64> {
        let limits = self.before(ticket).filter_map(|place| match place {
            Place::Limit(bound) => Some(*bound),
            Place::Call(_) | Place::Finish => None,
        });
        limits.last()
    }

    fn before(&self, ticket: Option<u64>) -> impl Iterator<Item = &Place> {
        let is_call = move |place: &&Place| ticket.is_some_and(|ticket| place.has(ticket));
        self.places.iter().take_while(move |place| !is_call(place))
    }

    /// Checks whether the entries before a call, or before a new call without a ticket, allow a message of `len`
    /// bytes.
    #[inline]
    pub fn allows(&self, len: usize, ticket: Option<u64>) -> Result<(), Refusal> {
        if self.is_first(ticket) {
            return Ok(());
        }
        let mut before = self.before(ticket);
        if before.any(|place| matches!(place, Place::Finish)) {
            return Err(Refusal::ChannelFinished);
        }
        match self.left_before(ticket) {
            Some(left) if len as u64 > left => Err(Refusal::PastSendLimit { left }),
            _ => Ok(()),
        }
    }

    /// Counts `len` bytes that were sent before all limits of the queue, which reduce what these allow.
    pub fn went_before(&mut self, len: u64) {
        for place in &mut self.places {
            if let Place::Limit(left) = place {
                *left -= len;
            }
        }
    }
}
