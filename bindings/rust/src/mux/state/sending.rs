//! Senders: what a message lacks, which waiting call proceeds next, and how that call is notified.
//!
//! The first waiting call of a channel *can proceed* once it has its guarantees, there is a slot for it, and its
//! bytes fit into the queue. After [`State::settle`] each such call was completed, if a thread made it for a permit, for
//! a short message or for one that came too late before, or else notified, apart from calls whose bytes do not fit
//! beside those of calls that were just notified: these follow at the next pull of the writing half. So a future that is
//! not polled delays its own channel alone.
use super::line::{Left, Place, Waiter};
use super::{bit, channels, keep, State, ALL};
use crate::mux::events::{Event, Stall};
use crate::sys::{Lent, LentSlices};
use crate::{Channel, Closed, Needs, Refusal, SendError, TrySendError};
use std::io::IoSlice;
use std::mem;
use std::task::{Poll, Waker};

/// The most bytes of messages in the queue, if it holds more than one: a short message is written after all of them,
/// and more would only stay there until the driver writes.
const MOST_QUEUED: usize = 65_536;

/// The longest message that is sent on behalf of a thread that was not notified before. A longer one would be copied
/// under the lock by a call of another channel, or by the writing half, which can write meanwhile.
const MOST_COMPLETED: usize = 4_096;

/// The bytes of a message.
#[derive(Clone, Copy)]
pub(crate) enum Body<'a> {
    Whole(&'a [u8]),
    Slices(&'a [IoSlice<'a>]),
}

impl Body<'_> {
    #[inline]
    pub fn len(self) -> usize {
        match self {
            Body::Whole(bytes) => bytes.len(),
            Body::Slices(slices) => slices
                .iter()
                .fold(0, |len: usize, slice| len.saturating_add(slice.len())),
        }
    }

    // Appends the bytes to an empty vector.
    fn join(self, joined: &mut Vec<u8>) -> Result<(), Refusal> {
        let exact = joined.try_reserve_exact(self.len());
        exact.map_err(|_| Refusal::OutOfMemory)?;
        match self {
            Body::Whole(bytes) => joined.extend_from_slice(bytes),
            Body::Slices(slices) => slices
                .iter()
                .for_each(|slice| joined.extend_from_slice(slice)),
        }
        Ok(())
    }

    // The message in a form that another thread can send.
    fn left(self) -> Left {
        match self {
            Body::Whole(bytes) => Left::Message(Lent::from(bytes)),
            Body::Slices(slices) => Left::Slices(LentSlices::from(slices)),
        }
    }
}

impl<'a> From<&'a [u8]> for Body<'a> {
    fn from(bytes: &'a [u8]) -> Body<'a> {
        Body::Whole(bytes)
    }
}

impl<'a> From<&'a [IoSlice<'a>]> for Body<'a> {
    fn from(slices: &'a [IoSlice<'a>]) -> Body<'a> {
        Body::Slices(slices)
    }
}

/// The request of a call.
#[derive(Clone, Copy)]
pub(crate) enum Ask<'a> {
    /// To send a message.
    Message(Body<'a>),
    /// To send the next part of a stream, whose length each poll decides anew.
    Part(&'a [u8]),
    /// To reserve a permit for a message of this length.
    Permit(usize),
}

impl Ask<'_> {
    pub fn len(self) -> usize {
        match self {
            Ask::Message(body) => body.len(),
            Ask::Part(bytes) => bytes.len(),
            Ask::Permit(len) => len,
        }
    }

    // The guarantees that the call waits for.
    fn least(self) -> usize {
        match self {
            Ask::Part(_) => 1,
            _ => self.len(),
        }
    }

    // The request in a form that another thread can complete, unless its message is longer than `most`.
    fn left(self, most: usize) -> Option<Left> {
        match self {
            Ask::Part(_) => None,
            Ask::Message(body) => (body.len() <= most).then(|| body.left()),
            Ask::Permit(_) => Some(Left::Permit),
        }
    }
}

/// A call between two polls.
pub(crate) struct Call<'a> {
    pub ask: Ask<'a>,
    /// Whether a blocked thread makes the call. It returns when it is woken, keeps the message until then, and checks
    /// the result before it gives up, so another thread may complete the call on its behalf. A future, which may be
    /// leaked, does none of that.
    pub is_thread: bool,
    pub ticket: Option<u64>,
}

impl Call<'_> {
    // The request of a thread's call, which another thread may complete.
    fn left(&self, most: usize) -> Option<Left> {
        self.is_thread.then(|| self.ask.left(most)).flatten()
    }
}

impl State {
    /// Makes a call that does not wait.
    pub fn try_send(&mut self, channel: Channel, ask: Ask) -> Result<(), TrySendError> {
        self.go(channel, ask, None)?;
        self.settle();
        Ok(())
    }

    /// Sends messages until one would have to wait or fails. Returns how many were sent, and an error if it is the
    /// first that fails.
    pub fn try_send_all(&mut self, channel: Channel, bodies: &[&[u8]]) -> Result<usize, SendError> {
        let mut sent = 0;
        for body in bodies {
            match self.go(channel, Ask::Message((*body).into()), None) {
                Ok(()) => sent += 1,
                Err(TrySendError::Failed(error)) if sent == 0 => return Err(error),
                Err(_) => break,
            }
        }
        self.settle();
        Ok(sent)
    }

    /// Makes a call that waits. The ticket names its slot of the wait queue.
    pub fn poll_send(
        &mut self,
        channel: Channel,
        call: &mut Call,
        waker: &Waker,
    ) -> Poll<Result<(), SendError>> {
        if self.was_done(channel, call.ticket) {
            call.ticket = None;
            return Poll::Ready(Ok(()));
        }
        let is_first = self.is_first(channel, call.ticket);
        let was_notified = is_first && self.notified & bit(channel) != 0;
        let was_fresh = is_first && self.came(channel);
        let answer = match self.go(channel, call.ask, call.ticket) {
            Ok(()) => Ok(()),
            Err(TrySendError::Failed(error)) => Err(error),
            Err(TrySendError::Full(needs)) => {
                self.wait(channel, call, waker, was_notified);
                if is_first {
                    self.front_needs(channel, needs);
                }
                if was_fresh {
                    self.settle();
                }
                return Poll::Pending;
            }
        };
        if let Some(ticket) = call.ticket.take() {
            self.remove(channel, ticket);
        }
        self.settle();
        Poll::Ready(answer)
    }

    /// Sends the first bytes of a stream as one message, at most `most`, and returns how many: as many as the guarantees
    /// and the limits allow now. It waits for one guarantee, so a stream proceeds over a ring of one byte.
    pub fn poll_send_part(
        &mut self,
        channel: Channel,
        ticket: &mut Option<u64>,
        (bytes, most): (&[u8], usize),
        waker: &Waker,
    ) -> Poll<Result<usize, SendError>> {
        let len = self.part(channel, bytes.len().min(most), *ticket);
        let mut call = Call {
            ask: Ask::Part(&bytes[..len]),
            is_thread: false,
            ticket: *ticket,
        };
        let polled = self.poll_send(channel, &mut call, waker);
        *ticket = call.ticket;
        polled.map_ok(|()| len)
    }

    // The length of the next part of a stream: at least 1, which it waits for, and else what can be sent at once. A part
    // that came too late before has no more bytes than have room, which other channels' messages might take again and
    // again before its thread or task is back.
    fn part(&self, channel: Channel, len: usize, ticket: Option<u64>) -> usize {
        let line = &self.out[channel].line;
        let left = line.left_before(ticket);
        let may = left.unwrap_or(u64::MAX).min(self.free(channel));
        let room = match line.is_late(ticket) {
            true => self.bytes_left(),
            false => usize::MAX,
        };
        len.min(usize::try_from(may).unwrap_or(usize::MAX))
            .min(room)
            .max(1)
    }

    /// Returns the length of the longest message of the channel.
    pub fn longest(&self, channel: Channel) -> usize {
        let stated = self.out[channel].longest;
        stated.unwrap_or(self.version.longest_message()) as usize
    }

    // Records that the first call of the channel was polled or cancelled. Returns whether a shared slot was kept for
    // it until then.
    fn came(&mut self, channel: Channel) -> bool {
        let was_fresh = self.fresh & bit(channel) != 0;
        self.notified &= !bit(channel);
        self.fresh &= !bit(channel);
        was_fresh
    }

    // Whether a waiting call was completed on behalf of its caller: only that removes it from the wait queue.
    fn was_done(&self, channel: Channel, ticket: Option<u64>) -> bool {
        ticket.is_some_and(|ticket| !self.out[channel].line.has(ticket))
    }

    /// Cancels a waiting call. Returns whether it was cancelled: a call that was completed meanwhile is not.
    pub fn forget_send(&mut self, channel: Channel, ticket: u64) -> bool {
        if self.was_done(channel, Some(ticket)) {
            return false;
        }
        self.remove(channel, ticket);
        self.settle();
        true
    }

    /// Sends a message with a permit for `len` bytes, which is used up whatever the result.
    pub fn send_reserved(
        &mut self,
        channel: Channel,
        len: usize,
        body: Body,
    ) -> Result<(), SendError> {
        self.slots.release(channel);
        let answer = self.put_reserved(channel, len, body);
        let used = if answer.is_ok() { body.len() } else { 0 };
        self.unreserve(channel, len as u64, used as u64);
        answer
    }

    /// Sends the first `count` bytes of filled memory with a permit for `len` bytes, which is used up whatever the result.
    pub fn send_filled(
        &mut self,
        channel: Channel,
        len: usize,
        (memory, count): (Vec<u8>, usize),
    ) -> Result<usize, SendError> {
        let sent = match memory.get(..count) {
            Some(message) => self.send_reserved(channel, len, message.into()),
            None => {
                self.give_back(channel, len);
                Err(Refusal::NoGuarantee { held: len as u64 }.into())
            }
        };
        self.keep_memory(memory);
        sent.map(|()| count)
    }

    // The message precedes a pending limit and counts towards it.
    fn put_reserved(&mut self, channel: Channel, len: usize, body: Body) -> Result<(), SendError> {
        self.is_open()?;
        self.out[channel].line.allows(body.len(), None)?;
        if body.len() > len {
            return Err(Refusal::NoGuarantee { held: len as u64 }.into());
        }
        self.put_body(channel, body)?;
        self.out[channel].line.went_before(body.len() as u64);
        Ok(())
    }

    /// Drops a permit for `len` bytes.
    pub fn give_back(&mut self, channel: Channel, len: usize) {
        self.slots.release(channel);
        self.unreserve(channel, len as u64, 0);
    }

    // Returns the guarantees that a permit did not use: to the receiver, if a plead asked for them.
    fn unreserve(&mut self, channel: Channel, len: u64, used: u64) {
        let out = &mut self.out[channel];
        out.reserved -= len;
        if let Some(pleaded) = &mut out.pleaded {
            out.owed.absolve += pleaded.take(len - used, out.reserved);
        }
        self.owes_out(channel);
    }

    // Makes the call if it can proceed.
    fn go(&mut self, channel: Channel, ask: Ask, ticket: Option<u64>) -> Result<(), TrySendError> {
        let needs = self.lacks(channel, ask.len(), ticket)?;
        match needs {
            Needs::Nothing if self.is_first(channel, ticket) && self.fits(channel, ask.len()) => {}
            Needs::Nothing => return Err(TrySendError::Full(Needs::Slot)),
            needs => return Err(TrySendError::Full(needs)),
        }
        match ask {
            Ask::Message(body) => self.put_body(channel, body)?,
            Ask::Part(bytes) => self.put(channel, bytes)?,
            Ask::Permit(len) => self.reserve(channel, len),
        }
        Ok(())
    }

    fn reserve(&mut self, channel: Channel, len: usize) {
        self.out[channel].reserved += len as u64;
        self.slots.hold(channel);
        self.went(channel);
    }

    #[inline]
    fn put_body(&mut self, channel: Channel, body: Body) -> Result<(), SendError> {
        match body {
            Body::Whole(bytes) => self.put(channel, bytes),
            Body::Slices([only]) => self.put(channel, only),
            Body::Slices(_) => self.put_joined(channel, body),
        }
    }

    // The peer takes a message as one slice, so slices are joined in a vector that later messages use again.
    #[inline(never)]
    fn put_joined(&mut self, channel: Channel, body: Body) -> Result<(), SendError> {
        let mut joined = self.take_memory();
        body.join(&mut joined)?;
        let put = self.put(channel, &joined);
        self.keep_memory(joined);
        put
    }

    /// Takes the memory for a message that is filled without the lock.
    pub fn take_memory(&mut self) -> Vec<u8> {
        mem::take(&mut self.memory)
    }

    fn keep_memory(&mut self, mut memory: Vec<u8>) {
        if memory.capacity() <= MOST_QUEUED {
            memory.clear();
            self.memory = memory;
        }
    }

    fn put(&mut self, channel: Channel, body: &[u8]) -> Result<(), SendError> {
        self.peer.send(channel, body)?;
        self.slots.enter(channel);
        self.bytes.enter_message(body.len());
        self.long += usize::from(body.len() >= self.borrowed_from);
        self.went(channel);
        if self.out[channel].pleaded.is_some() {
            // The held guarantees may be down to its target: the next plead is a new one then.
            self.owing_out |= bit(channel);
        }
        let stats = &mut self.stats[channel];
        stats.messages_sent += 1;
        stats.bytes_sent += body.len() as u64;
        Ok(())
    }

    fn went(&mut self, channel: Channel) {
        self.turns += 1;
        self.out[channel].went = self.turns;
    }

    // Returns what a message of `len` bytes lacks, or why it can never be sent.
    pub(super) fn lacks(
        &self,
        channel: Channel,
        len: usize,
        ticket: Option<u64>,
    ) -> Result<Needs, SendError> {
        self.is_open()?;
        let needs = self.peer.needs(channel, len);
        if needs == Needs::Never {
            return Err(self.never(channel, len));
        }
        if let Some(longest) = self.out[channel].longest {
            self.judge_longest(channel, len, longest)?;
        }
        self.out[channel].line.allows(len, ticket)?;
        match needs {
            Needs::Guarantees(_) if self.in_ended => Err(Closed::Remote.into()),
            Needs::Guarantees(more) => {
                Ok(self.guarantees(channel, len, more + self.set_aside(channel)))
            }
            _ => Ok(self.needs_beside(channel, len)),
        }
    }

    // What the application stated of its longest message holds for this one, and for the peer's ring.
    fn judge_longest(&self, channel: Channel, len: usize, longest: u32) -> Result<(), SendError> {
        if len > longest as usize {
            return Err(Refusal::BodyTooLong.into());
        }
        match self.stats[channel].most_held {
            most @ 1.. if most < longest.into() => Err(SendError::RingTooSmall { longest, most }),
            _ => Ok(()),
        }
    }

    fn guarantees(&self, channel: Channel, len: usize, more: u64) -> Needs {
        match self.is_oversized(channel, len) {
            true => Needs::MoreThanEverIssued {
                more,
                most: self.stats[channel].most_held,
            },
            false => Needs::Guarantees(more),
        }
    }

    // Whether the message is longer than all that the peer ever issued at once.
    pub(super) fn is_oversized(&self, channel: Channel, len: usize) -> bool {
        let most = self.stats[channel].most_held;
        most > 0 && len as u64 > most
    }

    /// Returns the length of the message for which the first call waits, if it is longer than all that the peer ever
    /// issued at once.
    pub fn oversized(&self, channel: Channel) -> Option<u64> {
        let first = self.out[channel].line.first()?;
        let is_oversized = self.is_oversized(channel, first.least);
        is_oversized.then_some(first.least as u64)
    }

    // The held guarantees that the next call may not use.
    fn set_aside(&self, channel: Channel) -> u64 {
        let out = &self.out[channel];
        out.reserved + out.owed.absolve
    }

    // What a message needs that has enough guarantees, apart from those that are set aside.
    fn needs_beside(&self, channel: Channel, len: usize) -> Needs {
        if self.set_aside(channel) > 0 {
            let free = self.free(channel);
            if len as u64 > free {
                return self.guarantees(channel, len, len as u64 - free);
            }
        }
        Needs::Nothing
    }

    // The guarantees that a call may use: held, within the limit on sending, and not set aside.
    pub(super) fn free(&self, channel: Channel) -> u64 {
        let book = self.peer.client(channel);
        let most = book.send_left.map_or(book.held, |left| left.min(book.held));
        most.saturating_sub(self.set_aside(channel))
    }

    // Whether a message of `len` bytes that has its guarantees may enter the queue now: there is a slot, its bytes
    // fit, and no channel that sent less recently waits for these bytes.
    pub(super) fn fits(&mut self, channel: Channel, len: usize) -> bool {
        self.has_slot(channel) && self.has_bytes(len) && self.is_its_turn(channel)
    }

    // Whether the channel's own slot is free, or a shared one. A shared slot is kept for a call that was notified
    // after the writing half last took frames, if other channels have sent as many messages since that channel did as
    // may precede one.
    fn has_slot(&self, channel: Channel) -> bool {
        self.with_slot() & bit(channel) != 0
    }

    // The channels for whose messages there is a slot, as bits.
    fn with_slot(&self) -> u8 {
        match self.slots.has_shared() && !self.leaves_shared() {
            true => ALL,
            false => self.slots.own_free(),
        }
    }

    // A call that is polled is no longer one of those that were notified.
    fn leaves_shared(&self) -> bool {
        let is_passed = |channel: Channel| {
            let others = self.turns - self.out[channel].went;
            others >= self.slots.others()
        };
        // An empty queue gives the writing half nothing to take, so a slot that is kept until then could be kept for
        // good.
        !self.slots.is_empty() && channels(self.fresh).any(is_passed)
    }

    // The length of the longest message that fits into the queue.
    fn bytes_left(&self) -> usize {
        match self.bytes.messages() {
            0 => usize::MAX,
            taken => MOST_QUEUED.saturating_sub(taken),
        }
    }

    fn has_bytes(&self, len: usize) -> bool {
        self.has_bytes_beside(0, len)
    }

    pub(super) fn has_bytes_beside(&self, others: usize, len: usize) -> bool {
        let taken = self.bytes.messages() + others;
        taken == 0 || taken + len <= MOST_QUEUED
    }

    // The bytes of the calls that were notified since the writing half last took frames. Only the notification of
    // another call waits for them, and not for a call that is not made: an idle writing half awaits none.
    pub(super) fn awaited(&self) -> usize {
        if self.is_idle {
            return 0;
        }
        let firsts = channels(self.fresh).filter_map(|it| self.out[it].line.first());
        firsts.map(|first| first.len).sum()
    }

    pub(super) fn waits_for_bytes(&self) -> bool {
        self.waiting_for_bytes() != 0
    }

    fn is_its_turn(&mut self, channel: Channel) -> bool {
        self.look_at_fronts();
        let went = |channel: Channel| self.out[channel].went;
        channels(self.waiting_for_bytes()).all(|other| went(other) >= went(channel))
    }

    // Channels whose first call has its guarantees and a slot and was not notified, as bits: after `settle`, it lacks
    // bytes of the queue.
    fn waiting_for_bytes(&self) -> u8 {
        match self.able & !self.notified {
            0 => 0,
            able => able & self.with_slot(),
        }
    }

    #[cold]
    fn never(&self, channel: Channel, len: usize) -> SendError {
        match self.peer.would_send(channel, len) {
            Err(Refusal::NoGuarantee { held }) => SendError::Unwanted {
                held,
                left: self.peer.client(channel).receive_left.unwrap_or(0),
            },
            Err(refusal) => refusal.into(),
            Ok(()) => unreachable!("what may be sent is not refused for good"),
        }
    }

    /// Returns the guarantees that a call may use now.
    pub fn held(&self, channel: Channel) -> u64 {
        let held = self.peer.client(channel).held;
        held.saturating_sub(self.set_aside(channel))
    }

    // Whether no earlier call of the same channel waits.
    fn is_first(&self, channel: Channel, ticket: Option<u64>) -> bool {
        self.out[channel].line.is_first(ticket)
    }

    // Evaluates again the first calls that may have changed.
    fn look_at_fronts(&mut self) {
        let stale = mem::take(&mut self.stale);
        self.able &= !stale;
        self.hopeless &= !stale;
        for channel in channels(stale) {
            self.look_at_front(channel);
        }
    }

    fn look_at_front(&mut self, channel: Channel) {
        let Some(first) = self.out[channel].line.first() else {
            return;
        };
        match self.lacks(channel, first.least, Some(first.ticket)) {
            Ok(needs) => self.front_needs(channel, needs),
            Err(_) => self.hopeless |= bit(channel),
        }
    }

    fn front_needs(&mut self, channel: Channel, needs: Needs) {
        self.stale &= !bit(channel);
        match needs {
            Needs::Guarantees(_) | Needs::MoreThanEverIssued { .. } => {
                self.able &= !bit(channel);
                self.note(channel, Some(Stall::Guarantees));
            }
            Needs::Slot => {
                self.able |= bit(channel);
                self.note(channel, Some(Stall::Slot));
            }
            // Whether it lacks the queue is known once the calls that can proceed are notified.
            _ => self.able |= bit(channel),
        }
        if let Needs::MoreThanEverIssued { most, .. } = needs {
            self.report_oversized(channel, most);
        }
    }

    // The call waits, or waits again: then it was too late if it was notified.
    fn wait(&mut self, channel: Channel, call: &mut Call, waker: &Waker, was_notified: bool) {
        let new = self.next_ticket();
        let ticket = *call.ticket.get_or_insert(new);
        let line = &mut self.out[channel].line;
        let known = line.calls().find(|waiter| waiter.ticket == ticket);
        match known {
            Some(waiter) => {
                waiter.len = call.ask.len();
                waiter.is_late |= was_notified;
                if waiter.is_late {
                    // Short messages, which are completed, might take the bytes of a long one before its thread is
                    // back, again and again.
                    waiter.left = call.left(usize::MAX);
                }
                keep(&mut waiter.waker, waker, &mut self.wakes);
            }
            None => line.push(Place::Call(Waiter {
                ticket,
                len: call.ask.len(),
                least: call.ask.least(),
                waker: Some(waker.clone()),
                left: call.left(MOST_COMPLETED),
                is_late: false,
            })),
        }
    }

    fn remove(&mut self, channel: Channel, ticket: u64) {
        let waker = self.leave_line(channel, ticket);
        self.wakes.discard(waker);
    }

    // Removes the call from the wait queue. Returns its waker, unless it was woken.
    fn leave_line(&mut self, channel: Channel, ticket: u64) -> Option<Waker> {
        if self.is_first(channel, Some(ticket)) {
            self.came(channel);
        }
        self.stale |= bit(channel);
        let line = &mut self.out[channel].line;
        let removed = line.remove_call(ticket);
        if line.owed(false).is_some() {
            self.owing_out |= bit(channel);
        }
        if !line.has_calls() {
            self.note(channel, None);
        }
        removed.and_then(|waiter| waiter.waker)
    }

    // Measures from now on what the first waiting call lacks, if it lacks anything.
    fn note(&mut self, channel: Channel, lack: Option<Stall>) {
        let lacking = &mut self.out[channel].line.lacking;
        let change = lacking.note(lack, &mut self.stats[channel]);
        self.report_stalls(channel, change);
    }

    // Reports the first call of the channel, once, as one that waits for more than was ever issued.
    fn report_oversized(&mut self, channel: Channel, most_held: u64) {
        let out = &mut self.out[channel];
        let Some(first) = out.line.first() else {
            return;
        };
        let (ticket, len) = (first.ticket, first.len as u64);
        if out.reported.replace(ticket) != Some(ticket) {
            self.report(Event::Oversized {
                channel,
                len,
                most_held,
            });
        }
    }

    // Completes or notifies each first call that can proceed, in the order in which their channels sent least
    // recently, and wakes the calls that never will.
    pub(super) fn wake_senders(&mut self) {
        while let Some(channel) = self.next() {
            if self.complete(channel) {
                self.flush(); // limits and a finish may follow it
            } else {
                self.notify(channel);
            }
        }
        for channel in channels(self.hopeless) {
            self.wake_first(channel);
            self.note(channel, None);
        }
        for channel in channels(self.able) {
            // A call that was notified lacks nothing, however late it is polled.
            let is_notified = self.notified & bit(channel) != 0;
            self.note(channel, (!is_notified).then_some(Stall::Slot));
        }
    }

    // The channel whose first call proceeds next. If its bytes do not fit, no later channel overtakes it.
    fn next(&mut self) -> Option<Channel> {
        self.look_at_fronts();
        let went = |channel: &Channel| self.out[*channel].went;
        let waiting = self.waiting_for_bytes();
        let least = channels(waiting).map(|it| went(&it)).min()?;
        // Several channels, if they never sent.
        let fits = |channel: &Channel| {
            let first = self.out[*channel].line.first();
            first.is_some_and(|first| match first.left {
                Some(_) => self.has_bytes(first.len),
                None => self.has_bytes_beside(self.awaited(), first.len),
            })
        };
        channels(waiting).find(|channel| went(channel) == least && fits(channel))
    }

    // Completes the first call on behalf of its thread, if that is possible. If an allocation failed, the call itself
    // reports it.
    fn complete(&mut self, channel: Channel) -> bool {
        let line = &mut self.out[channel].line;
        let (Some(left), Some(first)) = (line.take_left(), line.first()) else {
            return false;
        };
        let (ticket, len) = (first.ticket, first.len);
        let put = match left {
            Left::Message(body) => self.put(channel, &body),
            Left::Slices(slices) => self.put_body(channel, Body::Slices(&slices)),
            Left::Permit => {
                self.reserve(channel, len);
                Ok(())
            }
        };
        if put.is_err() {
            return false;
        }
        let waker = self.leave_line(channel, ticket);
        self.wakes.wake(waker);
        true
    }

    // Notifies the first call that it can proceed.
    fn notify(&mut self, channel: Channel) {
        self.notified |= bit(channel);
        self.fresh |= bit(channel);
        self.wake_first(channel);
    }

    fn wake_first(&mut self, channel: Channel) {
        if let Some(first) = self.out[channel].line.calls().next() {
            self.wakes.wake(first.waker.take());
        }
    }

    // Wakes all calls of senders, none of which will proceed.
    pub(super) fn wake_waiting(&mut self) {
        (self.able, self.stale) = (0, ALL);
        let calls = self.out.iter_mut().flat_map(|out| out.line.calls());
        calls.for_each(|waiter| self.wakes.wake(waiter.waker.take()));
        for channel in Channel::ALL {
            self.note(channel, None);
        }
    }
}
