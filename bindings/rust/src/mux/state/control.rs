//! Control frames: issues, absolves, limits, pleads and finishes. Each is enqueued at once, into a reserved control
//! slot. Bytes that were freed while the writing half is active are issued at its next pull. A control frame that
//! finds no slot stays pending, as one amount for each channel and kind, which later calls add to; it precedes any
//! message.
use super::bytes::{AMOUNT, BOUND, FINISH};
use super::line::Place;
use super::{at, bit, channels as channels_of, State};
use crate::{CallError, Channel, IssuePolicy, Peer, PleadPolicy, Refusal, Version};
use std::mem;

/// The largest bound of a limit, which is also the most guarantees that a channel ever has: it limits nothing.
const NO_LIMIT: u64 = 1 << 62;

/// The pending control frames of a sender, apart from those in its wait queue, in the order in which they are
/// enqueued.
#[derive(Default)]
pub(super) struct ClientOwed {
    pub absolve: u64,
    pub honour: bool,
}

/// A plead that is honoured in part, since permits own the other guarantees that it asks for.
#[derive(Clone, Copy)]
pub(super) struct Pleaded {
    target: u32,
    left: u64,
}

impl Pleaded {
    /// Returns how many of the guarantees that a permit returns are absolved, if other permits still own `reserved`.
    pub fn take(&mut self, given_back: u64, reserved: u64) -> u64 {
        let amount = self.left.min(given_back);
        self.left = (self.left - amount).min(reserved);
        amount
    }
}

/// The pending control frames of a receiver, in the order in which they are enqueued. A later issue is subtracted
/// from a pending limit and added to the target of a pending plead: the effect is that of the order of the calls.
#[derive(Default)]
pub(super) struct ServerOwed {
    pub issue: u32,
    pub limit: Option<u64>,
    pub plead: Option<u32>,
}

// Treats a full queue as success: the control frame stays pending.
fn but_for_a_slot<T: Default>(would: Result<T, Refusal>) -> Result<T, Refusal> {
    match would {
        Err(Refusal::QueueFull) => Ok(T::default()),
        judged => judged,
    }
}

/// The local operations of a sender.
impl State {
    fn is_unfinished(&self, channel: Channel) -> Result<(), CallError> {
        self.is_open()?;
        match self.out[channel].line.is_finished() {
            true => Err(Refusal::ChannelFinished.into()),
            false => Ok(()),
        }
    }

    /// Absolves guarantees that no permit owns.
    pub fn absolve(&mut self, channel: Channel, amount: u32) -> Result<(), CallError> {
        self.is_unfinished(channel)?;
        but_for_a_slot(self.peer.would_absolve(channel, amount))?;
        let held = self.held(channel);
        if u64::from(amount) > held {
            return Err(Refusal::NotHeld { held }.into());
        }
        self.out[channel].owed.absolve += u64::from(amount);
        self.owes_out(channel);
        Ok(())
    }

    /// Returns the target of the pending plead, unless all guarantees that it asked for were absolved.
    pub fn pleaded(&self, channel: Channel) -> Option<u32> {
        let target = self.asked(channel)?;
        let known = self.known(channel, target);
        (!known.is_some_and(|pleaded| pleaded.left == 0)).then_some(target)
    }

    // The peer keeps a plead while the held guarantees exceed its target, also if they were issued later.
    fn asked(&self, channel: Channel) -> Option<u32> {
        self.peer.client(channel).asked
    }

    // The plead that the policy honours as permits return guarantees; no call honours it.
    fn known(&self, channel: Channel, target: u32) -> Option<Pleaded> {
        let pleaded = self.out[channel].pleaded;
        pleaded.filter(|pleaded| pleaded.target == target)
    }

    /// Absolves the guarantees that a plead asks for, apart from those that permits own: then the plead stays
    /// pending.
    pub fn honour(&mut self, channel: Channel) -> Result<u32, CallError> {
        self.is_unfinished(channel)?;
        let amount = match self.asked(channel) {
            Some(target) if self.known(channel, target).is_none() => {
                self.above(channel, target).min(self.held(channel))
            }
            _ => 0,
        };
        self.out[channel].owed.honour = true;
        self.owes_out(channel);
        Ok(amount as u32)
    }

    // The guarantees above the target of a plead, once all pending absolves are sent.
    fn above(&self, channel: Channel, target: u32) -> u64 {
        let held = self.peer.client(channel).held;
        held.saturating_sub(self.out[channel].owed.absolve)
            .saturating_sub(target.into())
    }

    /// Limits sending.
    pub fn limit_sending(&mut self, channel: Channel, bound: u64) -> Result<(), CallError> {
        self.push_limit(channel, bound)?;
        self.owes_out(channel);
        Ok(())
    }

    fn push_limit(&mut self, channel: Channel, bound: u64) -> Result<(), CallError> {
        self.is_unfinished(channel)?;
        but_for_a_slot(self.peer.would_limit_sending(channel, bound))?;
        let line = &mut self.out[channel].line;
        match line.left() {
            Some(left) if bound > left => return Err(Refusal::LimitRaised { left }.into()),
            _ => line.push_limit(bound),
        }
        Ok(())
    }

    /// Finishes the channel: in version One by a limit, since that version has no frame to finish one.
    pub fn finish(&mut self, channel: Channel) -> Result<(), CallError> {
        self.push_finish(channel)?;
        self.owes_out(channel);
        Ok(())
    }

    fn push_finish(&mut self, channel: Channel) -> Result<(), CallError> {
        self.is_unfinished(channel)?;
        if self.version == Version::One {
            let owed = self.out[channel].line.left();
            return match owed.or(self.peer.client(channel).send_left) {
                Some(0) => Err(Refusal::ChannelFinished.into()),
                _ => self.push_limit(channel, 0),
            };
        }
        but_for_a_slot(self.peer.would_finish(channel))?;
        self.out[channel].line.push(Place::Finish);
        Ok(())
    }

    /// Appends the end of each channel that is not finished to its wait queue.
    pub(super) fn push_finishes(&mut self) {
        for channel in Channel::ALL {
            let finished = self.push_finish(channel);
            debug_assert!(is_done_or_ended(&finished), "{finished:?}");
        }
    }
}

/// The local operations of a receiver.
impl State {
    /// Issues guarantees.
    pub fn issue(&mut self, channel: Channel, amount: u32) -> Result<(), CallError> {
        self.is_open()?;
        self.issue_freed();
        let owed = &self.inc[channel].owed;
        match owed.limit {
            Some(left) if u64::from(amount) > left => {
                return Err(Refusal::PastReceiveLimit { left }.into());
            }
            _ => {}
        }
        self.would_issue(channel, amount, owed.issue)?;
        let owed = &mut self.inc[channel].owed;
        owed.issue += amount;
        owed.limit = owed.limit.map(|left| left - u64::from(amount));
        owed.plead = owed.plead.map(|target| target.saturating_add(amount));
        self.owes_in(channel);
        Ok(())
    }

    // The refusal of an issue that follows a pending one.
    fn would_issue(&self, channel: Channel, amount: u32, owed: u32) -> Result<(), Refusal> {
        let joined = match amount {
            0 => 0,
            _ => amount.saturating_add(owed),
        };
        let owed = u64::from(owed);
        match but_for_a_slot(self.peer.would_issue(channel, joined)) {
            Err(Refusal::NoRoom { room }) => Err(Refusal::NoRoom { room: room - owed }),
            Err(Refusal::PastReceiveLimit { left }) => {
                Err(Refusal::PastReceiveLimit { left: left - owed })
            }
            judged => judged,
        }
    }

    /// Returns the bytes that may be issued beside the pending issue.
    pub fn room(&mut self, channel: Channel) -> u32 {
        self.issue_freed();
        let room = self.peer.server(channel).room;
        room.saturating_sub(self.inc[channel].owed.issue.into()) as u32
    }

    /// Limits issuing.
    pub fn limit_receiving(&mut self, channel: Channel, bound: u64) -> Result<(), CallError> {
        self.is_open()?;
        self.issue_freed();
        but_for_a_slot(self.peer.would_limit_receiving(channel, bound))?;
        let left = self.left_to_issue(channel);
        match left {
            Some(left) if bound > left => return Err(Refusal::LimitRaised { left }.into()),
            _ => self.inc[channel].owed.limit = Some(bound),
        }
        self.owes_in(channel);
        Ok(())
    }

    // What the limits allow once the pending issue is sent.
    fn left_to_issue(&self, channel: Channel) -> Option<u64> {
        let owed = &self.inc[channel].owed;
        let left = self.peer.server(channel).receive_left;
        owed.limit.or(left.map(|left| left - u64::from(owed.issue)))
    }

    /// Asks the sender to hold no more than the target. No policy issues above it from then on.
    pub fn plead(&mut self, channel: Channel, target: u32) -> Result<(), CallError> {
        self.is_open()?;
        self.issue_freed();
        but_for_a_slot(self.peer.would_plead(channel, target))?;
        let inc = &mut self.inc[channel];
        inc.owed.plead = Some(target);
        inc.most = Some(target);
        self.owes_in(channel);
        Ok(())
    }

    /// Sets the issue policy, and drops the target of earlier pleads.
    pub fn set_issue_policy(&mut self, channel: Channel, policy: IssuePolicy) {
        self.issue_freed();
        let inc = &mut self.inc[channel];
        inc.policy = policy;
        inc.most = None;
        self.owes_in(channel);
    }

    /// Returns the size of a channel's ring buffer.
    pub fn capacity(&self, channel: Channel) -> u32 {
        self.peer.server(channel).capacity as u32
    }
}

/// Keep-alives: frames that change nothing.
impl State {
    /// Enqueues one if no frame is pending: the first limit that may be repeated.
    pub fn keep_alive(&mut self) -> bool {
        let is_said = self.is_open().is_ok()
            && !self.wants_write()
            && (Channel::ALL.into_iter().any(|it| self.repeat_receiving(it))
                || Channel::ALL.into_iter().any(|it| self.repeat_sending(it)));
        self.settle();
        is_said
    }

    fn wants_write(&mut self) -> bool {
        self.issue_freed();
        self.peer.wants_write()
    }

    fn repeat_receiving(&mut self, channel: Channel) -> bool {
        let left = self.peer.server(channel).receive_left;
        let bound = left.unwrap_or(NO_LIMIT);
        let repeated = self.peer.limit_receiving(channel, bound).is_ok();
        self.entered(BOUND);
        repeated
    }

    // It precedes waiting calls and uses none of their guarantees.
    fn repeat_sending(&mut self, channel: Channel) -> bool {
        let left = self.peer.client(channel).send_left;
        let bound = left.unwrap_or(NO_LIMIT);
        let repeated = self.peer.limit_sending(channel, bound).is_ok();
        self.entered(BOUND);
        repeated
    }
}

/// Dropped handles, of which the peer is notified.
impl State {
    pub fn drop_sender(&mut self, channel: Channel) {
        let senders = &mut self.out[channel].senders;
        *senders -= 1;
        if *senders == 0 {
            self.finish_once(channel);
        }
        self.leave();
    }

    /// Finishes the channel, unless it is finished, or the session is closed or over.
    pub fn finish_once(&mut self, channel: Channel) {
        let finished = self.finish(channel);
        debug_assert!(is_done_or_ended(&finished), "{finished:?}");
    }

    pub fn drop_receiver(&mut self, channel: Channel) {
        // The limit stops the issue policy, too.
        let limited = self.limit_receiving(channel, 0);
        debug_assert!(is_done_or_ended(&limited), "{limited:?}");
        self.leave();
    }
}

// Whether a call that ends one direction of a channel succeeded, or the channel or the session had ended before.
fn is_done_or_ended(call: &Result<(), CallError>) -> bool {
    matches!(
        call,
        Ok(()) | Err(CallError::Refused(Refusal::ChannelFinished) | CallError::Closed(_))
    )
}

/// Enqueueing pending control frames.
impl State {
    fn owes_in(&mut self, channel: Channel) {
        self.owing_in |= bit(channel);
        self.settle();
    }

    pub(super) fn owes_out(&mut self, channel: Channel) {
        self.owing_out |= bit(channel);
        self.settle();
    }

    // Enqueues a control frame that was validated when its call was made. It may no longer apply: the channel may be
    // finished, or an equivalent refusal may apply by now.
    fn enqueue<T>(
        &mut self,
        len: usize,
        call: impl FnOnce(&mut Peer) -> Result<T, Refusal>,
        is_stale: impl FnOnce(Refusal) -> bool,
    ) {
        match call(&mut self.peer) {
            Ok(_) => self.entered(len),
            Err(Refusal::ChannelFinished) => {}
            Err(refusal) => debug_assert!(is_stale(refusal), "{refusal}"),
        }
    }

    // Counts a control frame of `len` bytes, if it entered the queue.
    fn entered(&mut self, len: usize) {
        if self.follow_queue() {
            self.bytes.enter_control(len);
        }
    }

    /// Issues the room that was freed, behind the control frames that are pending.
    pub(super) fn issue_freed(&mut self) {
        self.owing_in |= mem::take(&mut self.freed);
        self.flush();
    }

    // Enqueues pending control frames, in round-robin order of the channels, as long as there are slots.
    pub(super) fn flush(&mut self) {
        if self.owing_in | self.owing_out == 0 || self.closed.is_some() {
            return;
        }
        let mut channels = Channel::ALL;
        channels.rotate_left(self.first);
        for channel in channels {
            if self.flush_channel(channel).is_none() {
                self.first = at(channel);
                channels_of(self.owing_out).for_each(|it| {
                    self.look_at_held(it);
                });
                return;
            }
        }
    }

    // Returns `None` if the slots ran out.
    fn flush_channel(&mut self, channel: Channel) -> Option<()> {
        let this = bit(channel);
        if self.owing_in & this != 0 {
            self.flush_receiver(channel)?;
            self.issue_by_policy(channel)?;
            self.owing_in &= !this;
        }
        if self.owing_out & this != 0 {
            self.stale |= this;
            self.flush_sender(channel)?;
            self.owing_out &= !this;
        }
        Some(())
    }

    fn flush_sender(&mut self, channel: Channel) -> Option<()> {
        self.flush_absolve(channel)?;
        let asked = self.look_at_held(channel);
        match self.out[channel].policy {
            PleadPolicy::AtOnce if !self.closing => self.honour_by_policy(channel, asked)?,
            _ => self.honour_by_call(channel)?,
        }
        self.flush_line(channel)
    }

    // Records how many guarantees are held once frames arrived. Returns the target of the pending plead.
    fn look_at_held(&mut self, channel: Channel) -> Option<u32> {
        let book = self.peer.client(channel);
        let most = &mut self.stats[channel].most_held;
        *most = book.held.max(*most);
        book.asked
    }

    // A free slot for a control frame, if there is one.
    fn slot(&self) -> Option<()> {
        self.slots.has_control().then_some(())
    }

    fn flush_receiver(&mut self, channel: Channel) -> Option<()> {
        let amount = self.inc[channel].owed.issue;
        if amount > 0 {
            self.slot()?;
            self.enqueue(AMOUNT, |peer| peer.issue(channel, amount), |_| false);
            self.inc[channel].owed.issue = 0;
        }
        if let Some(bound) = self.inc[channel].owed.limit {
            self.slot()?;
            self.enqueue(
                BOUND,
                |peer| peer.limit_receiving(channel, bound),
                |_| false,
            );
            self.inc[channel].owed.limit = None;
        }
        if let Some(target) = self.inc[channel].owed.plead {
            self.slot()?;
            // The peer may have used the guarantees meanwhile.
            let is_met = |refusal| matches!(refusal, Refusal::NothingToAsk { .. });
            self.enqueue(AMOUNT, |peer| peer.plead(channel, target), is_met);
            self.inc[channel].owed.plead = None;
        }
        Some(())
    }

    fn issue_by_policy(&mut self, channel: Channel) -> Option<()> {
        let amount = self.due_by_policy(channel);
        if amount > 0 {
            self.slot()?;
            let is_last = |refusal| refusal == Refusal::TotalReached;
            self.enqueue(AMOUNT, |peer| peer.issue(channel, amount), is_last);
        }
        Some(())
    }

    fn due_by_policy(&self, channel: Channel) -> u32 {
        let (inc, book) = (&self.inc[channel], self.peer.server(channel));
        let is_due = match inc.policy {
            IssuePolicy::AtOnce => true,
            IssuePolicy::LowWater(mark) => book.outstanding < u64::from(mark),
            IssuePolicy::ByCaller => false,
        };
        if !is_due || book.finished || self.closing {
            return 0;
        }
        let most = inc.most.map_or(book.capacity, u64::from);
        let amount = book.room.min(most.saturating_sub(book.outstanding));
        book.receive_left.map_or(amount, |left| amount.min(left)) as u32
    }

    fn flush_absolve(&mut self, channel: Channel) -> Option<()> {
        let amount = self.out[channel].owed.absolve;
        if amount > 0 {
            self.slot()?;
            self.enqueue(
                AMOUNT,
                |peer| peer.absolve(channel, amount as u32),
                |_| false,
            );
            self.out[channel].owed.absolve = 0;
        }
        Some(())
    }

    fn honour_by_call(&mut self, channel: Channel) -> Option<()> {
        if !self.out[channel].owed.honour {
            return Some(());
        }
        if let Some(target) = self.asked(channel) {
            let (above, held) = (self.above(channel, target), self.held(channel));
            match above <= held {
                true => self.honour_whole(channel, above)?,
                false => self.absolve_now(channel, held)?,
            }
        }
        self.out[channel].owed.honour = false;
        Some(())
    }

    // Guarantees that permits own are absolved once the permits return them. Guarantees that are issued meanwhile are
    // kept.
    fn honour_by_policy(&mut self, channel: Channel, asked: Option<u32>) -> Option<()> {
        self.out[channel].owed.honour = false;
        let Some(target) = asked else {
            return Some(());
        };
        let (above, held) = (self.above(channel, target), self.held(channel));
        let is_known = self.known(channel, target).is_some();
        if is_known && above > 0 {
            return Some(());
        }
        self.out[channel].pleaded = if above <= held {
            self.honour_whole(channel, above)?;
            None
        } else {
            self.absolve_now(channel, held)?;
            let left = above - held;
            Some(Pleaded { target, left })
        };
        Some(())
    }

    // Absolves all guarantees that the plead asks for. The plead is no longer pending.
    fn honour_whole(&mut self, channel: Channel, amount: u64) -> Option<()> {
        if amount > 0 {
            self.slot()?;
        }
        self.enqueue(AMOUNT, |peer| peer.honour(channel), |_| false);
        Some(())
    }

    fn absolve_now(&mut self, channel: Channel, amount: u64) -> Option<()> {
        if amount > 0 {
            self.slot()?;
            self.enqueue(
                AMOUNT,
                |peer| peer.absolve(channel, amount as u32),
                |_| false,
            );
        }
        Some(())
    }

    // Enqueues the limits and the finish at the front of the wait queue.
    fn flush_line(&mut self, channel: Channel) -> Option<()> {
        while let Some(place) = self.out[channel].line.owed(self.closing) {
            self.slot()?;
            match self.out[channel].line.remove(place) {
                Some(Place::Limit(bound)) => {
                    // Messages before it may have used more of an earlier limit.
                    let is_met = |refusal| matches!(refusal, Refusal::LimitRaised { .. });
                    self.enqueue(BOUND, |peer| peer.limit_sending(channel, bound), is_met)
                }
                _ => self.enqueue(FINISH, |peer| peer.finish(channel), |_| false),
            }
        }
        Some(())
    }
}
