//! A session as a pure state machine: no threads, no lock and no transport.
//!
//! Each change ends with `settle`, the scheduler: it enqueues pending control frames, completes the calls of blocked
//! threads that can proceed, and notifies the other calls that can. Wake-ups carry no grant. A woken task
//! re-evaluates when polled; if its future is dropped instead, `Drop` runs the scheduler again, so no wake-up is lost
//! to a cancelled future.
mod bytes;
mod control;
mod line;
mod receiving;
mod sending;
mod slots;
#[cfg(test)]
mod tests;

pub(crate) use receiving::Taken;
pub(crate) use sending::{Ask, Body, Call};
pub(crate) use slots::{CONTROL, OWN};

use super::events::{Change, Event, Hook};
use super::io::Breaker;
use super::shared::Wakes;
use super::stats::Stats;
use crate::sys::Lent;
use crate::{
    Channel, ClientBook, Closed, Config, IssuePolicy, MuxFault, Peer, PleadPolicy, ServerBook,
    Version, CHANNELS,
};
use bytes::Bytes;
use control::{ClientOwed, Pleaded, ServerOwed};
use line::Line;
use slots::Slots;
use std::iter;
use std::mem;
use std::task::Waker;
use std::time::Instant;

/// The number of handles of a new session: a sender and a receiver for each channel, and its `Mux`.
const USERS: usize = 2 * CHANNELS + 1;

/// All channels, as bits.
const ALL: u8 = (1 << CHANNELS) - 1;

/// A channel in the direction in which this side sends.
#[derive(Default)]
struct Outgoing {
    line: Line,
    /// The guarantees that permits own.
    reserved: u64,
    /// When the channel sent last, counted in messages and permits of all channels; 0 before its first.
    went: u64,
    /// The number of senders of the channel, including clones.
    senders: usize,
    /// The longest message, if the application stated one.
    longest: Option<u32>,
    /// The ticket of the call that was last reported as oversized.
    reported: Option<u64>,
    policy: PleadPolicy,
    pleaded: Option<Pleaded>,
    owed: ClientOwed,
}

/// A channel in the direction in which this side receives.
#[derive(Default)]
struct Incoming {
    waker: Option<Waker>,
    /// Whether the first message is borrowed: it is taken once the borrow ends.
    is_lent: bool,
    policy: IssuePolicy,
    /// The target of the last plead: no policy issues above it.
    most: Option<u32>,
    owed: ServerOwed,
}

/// The shortest message that is written without a copy.
const BORROWED_FROM: usize = 4_096;

/// The next step of the writing half.
pub(crate) enum Pulled {
    /// This many bytes are in its buffer. If a message follows them, it is borrowed until the next pull.
    Bytes(usize, Option<Lent>),
    /// No frame is pending. The writing half is woken once one is.
    Idle,
    /// No frame is pending, and calls that were notified are about to be made: the writing half pulls again after them.
    Soon,
    /// No frame will follow: the stream ends.
    End,
    /// The session is over.
    Over(Closed),
}

pub(crate) struct State {
    peer: Peer,
    version: Version,
    out: [Outgoing; CHANNELS],
    inc: [Incoming; CHANNELS],
    stats: [Stats; CHANNELS],
    slots: Slots,
    bytes: Bytes,
    /// The shortest message that counts as long, and an upper bound of the long messages in the queue.
    borrowed_from: usize,
    long: usize,
    /// The memory in which messages are joined from several slices, or filled: empty between two calls.
    memory: Vec<u8>,
    /// Whether the writing half borrows the first frame of the queue.
    is_lent: bool,
    /// Whether the writing half found no frame, and pulls again, since it last took any.
    pulls_again: bool,
    /// The number of messages and permits so far.
    turns: u64,
    /// Channels whose receiver or sender may have pending control frames, as bits, and the channel that is served
    /// first.
    owing_in: u8,
    owing_out: u8,
    first: usize,
    /// Channels whose ring may have room to issue by policy, as bits: it is issued when the writing half takes frames
    /// again, or waits for one.
    freed: u8,
    /// Channels by their first waiting call, as bits. `stale`: the call may have changed and is evaluated again.
    /// `able`: the call has its guarantees. `hopeless`: the call will never proceed. `notified`: the call was woken
    /// to proceed, and was neither polled nor dropped since. `fresh`: it was notified after the writing half last
    /// took frames.
    stale: u8,
    able: u8,
    hopeless: u8,
    notified: u8,
    fresh: u8,
    users: usize,
    closing: bool,
    out_ended: bool,
    in_ended: bool,
    closed: Option<Closed>,
    reader: Option<Waker>,
    /// The waker of the writing half, whether it waits for its transport or, while it is idle, for a frame.
    writer: Option<Waker>,
    is_idle: bool,
    /// Calls that wait until the session is over.
    over: Vec<(u64, Waker)>,
    tickets: u64,
    breaker: Option<Breaker>,
    hooks: Vec<Hook>,
    pub(crate) wakes: Wakes,
}

fn at(channel: Channel) -> usize {
    usize::from(channel.number())
}

fn bit(channel: Channel) -> u8 {
    1 << at(channel)
}

// The channels whose bits are set.
fn channels(mut bits: u8) -> impl Iterator<Item = Channel> {
    iter::from_fn(move || {
        let lowest = Channel::ALL.get(bits.trailing_zeros() as usize)?;
        bits &= bits - 1;
        Some(*lowest)
    })
}

// Registers the waker of a task in place of an earlier one.
fn keep(place: &mut Option<Waker>, waker: &Waker, wakes: &mut Wakes) {
    if !place.as_ref().is_some_and(|kept| kept.will_wake(waker)) {
        wakes.discard(place.replace(waker.clone()));
    }
}

impl State {
    pub fn new(config: &Config) -> Result<State, MuxFault> {
        let peer = Peer::new(config)?;
        config.judge()?;
        let mut state = State {
            peer,
            version: config.version,
            out: Default::default(),
            inc: Default::default(),
            stats: Default::default(),
            slots: Slots::new(config.slots as usize),
            bytes: Bytes::new(config.version),
            borrowed_from: BORROWED_FROM,
            long: 0,
            memory: Vec::new(),
            is_lent: false,
            pulls_again: false,
            turns: 0,
            owing_in: ALL,
            owing_out: ALL,
            first: 0,
            freed: 0,
            stale: 0,
            able: 0,
            hopeless: 0,
            notified: 0,
            fresh: 0,
            users: USERS,
            closing: false,
            out_ended: false,
            in_ended: false,
            closed: None,
            reader: None,
            writer: None,
            is_idle: false,
            over: Vec::new(),
            tickets: 0,
            breaker: None,
            hooks: Vec::new(),
            wakes: Wakes::default(),
        };
        for channel in Channel::ALL {
            state.inc[channel].policy = config.issue[channel];
            state.out[channel].policy = config.plead[channel];
            state.out[channel].senders = 1;
            state.out[channel].longest = config.longest[channel];
        }
        state.settle();
        Ok(state)
    }

    pub fn stats(&self, channel: Channel) -> Stats {
        let mut stats = self.stats[channel];
        let lacking = &self.out[channel].line.lacking;
        lacking.count(Instant::now(), &mut stats);
        stats.oversized = self.oversized(channel);
        stats.held = self.peer.client(channel).held;
        stats.buffered = self.peer.server(channel).buffered;
        stats
    }

    pub fn client(&self, channel: Channel) -> ClientBook {
        self.peer.client(channel)
    }

    pub fn server(&mut self, channel: Channel) -> ServerBook {
        self.issue_freed();
        self.peer.server(channel)
    }

    pub fn closed(&self) -> Option<&Closed> {
        self.closed.as_ref()
    }

    pub fn is_closing(&self) -> bool {
        self.closing || self.closed.is_some()
    }

    /// Returns whether the writing half waits for a frame.
    pub fn is_idle(&self) -> bool {
        self.is_idle
    }

    /// Adds a hook for events. After the end of the session it is called for that alone, and not kept.
    pub fn hook(&mut self, hook: Hook) {
        match &self.closed {
            Some(closed) => {
                let end = Event::Closed(closed.clone().result());
                self.wakes.report(&[hook], end);
            }
            None => self.hooks.push(hook),
        }
    }

    // Reports an event to all hooks, once the lock is free.
    fn report(&mut self, event: Event) {
        if !self.hooks.is_empty() {
            self.wakes.report(&self.hooks, event);
        }
    }

    // The calls that the end of the session wakes leave their wait queues after it, which is no event.
    fn report_stalls(&mut self, channel: Channel, change: Change) {
        if !self.hooks.is_empty() && self.closed.is_none() {
            change.events(channel).for_each(|event| self.report(event));
        }
    }

    /// Sets the length from which on a message is written without a copy.
    pub fn borrow_from(&mut self, len: usize) {
        self.borrowed_from = len;
    }

    // The reason why no frame may be enqueued any more, if there is one.
    fn is_open(&self) -> Result<(), Closed> {
        match &self.closed {
            Some(closed) => Err(closed.clone()),
            None if self.closing => Err(Closed::Local),
            None => Ok(()),
        }
    }

    // The scheduler: enqueues pending control frames, and completes or notifies the calls that can proceed.
    fn settle(&mut self) {
        match self.is_idle {
            true => self.issue_freed(),
            false => self.flush(),
        }
        self.wake_senders();
        if self.is_idle && self.peer.wants_write() {
            self.wake_writer();
        }
    }

    fn wake_writer(&mut self) {
        self.is_idle = false;
        self.wakes.wake(self.writer.take());
    }

    // Marks every channel to be evaluated again.
    fn look_everywhere(&mut self) {
        (self.freed, self.owing_out, self.stale) = (ALL, ALL, ALL);
    }

    /// Copies the next outbound bytes to the front of an empty buffer. They end before a long message, which is
    /// borrowed if the transport writes several slices at once. If no bytes are pending, it registers the waker.
    pub fn pull(&mut self, buffer: &mut [u8], may_lend: bool, waker: &Waker) -> Pulled {
        if let Some(closed) = &self.closed {
            return Pulled::Over(closed.clone());
        }
        self.is_idle = false;
        self.issue_freed();
        if mem::take(&mut self.is_lent) {
            self.count_sent();
        }
        if !self.slots.is_empty() {
            self.fresh = 0;
        }
        let (count, lent) = match self.long {
            0 => (self.write(buffer), None),
            _ if may_lend => self.pull_frames(buffer),
            _ => (self.write(buffer), None),
        };
        if count > 0 {
            let len = lent.map_or(count, |message| count + message.len());
            self.bytes.take(len);
            self.pulls_again = false;
            self.settle();
            return Pulled::Bytes(count, lent);
        }
        debug_assert!(
            self.bytes.is_empty(),
            "fewer bytes are pending than were counted"
        );
        if self.closing {
            return Pulled::End;
        }
        self.pull_nothing(waker)
    }

    // The writing half gives notified tasks one turn to send. Then it is idle, and the calls that wait for the bytes of
    // such a task are notified, too.
    fn pull_nothing(&mut self, waker: &Waker) -> Pulled {
        if !self.pulls_again && self.waits_for_bytes() {
            self.pulls_again = true;
            return Pulled::Soon;
        }
        self.is_idle = true;
        self.wake_senders();
        if self.peer.wants_write() {
            self.is_idle = false;
            return Pulled::Soon;
        }
        keep(&mut self.writer, waker, &mut self.wakes);
        Pulled::Idle
    }

    // Counts the borrowed message as sent.
    fn count_sent(&mut self) {
        self.sent();
        self.long = self.long.saturating_sub(1);
        self.settle();
    }

    // Counts the first frame of the queue as sent.
    fn sent(&mut self) {
        self.peer.sent();
        self.follow_queue();
    }

    // Updates the slots after a call of the peer. Returns whether a frame entered the queue.
    fn follow_queue(&mut self) -> bool {
        self.slots.follow(self.peer.slots_left())
    }

    fn write(&mut self, buffer: &mut [u8]) -> usize {
        let count = self.peer.write(buffer);
        self.follow_queue();
        if count < buffer.len() {
            self.long = 0;
        }
        count
    }

    // Copies whole frames as long as they fit, up to a long message.
    fn pull_frames(&mut self, buffer: &mut [u8]) -> (usize, Option<Lent>) {
        let mut count = 0;
        while let Some(next) = self.peer.next() {
            let (header, message) = (next.header(), next.message);
            self.is_lent = message.len() >= self.borrowed_from;
            let copied = if self.is_lent { &[][..] } else { &*message };
            let end = count + header.len() + copied.len();
            let Some(room) = buffer.get_mut(count..end) else {
                self.is_lent = false;
                break;
            };
            room[..header.len()].copy_from_slice(header);
            room[header.len()..].copy_from_slice(copied);
            count = end;
            if self.is_lent {
                return (count, Some(message));
            }
            self.sent();
        }
        match count {
            0 => (self.write(buffer), None), // the rest of a frame, or a frame that fits no buffer
            _ => (count, None),
        }
    }

    /// Processes inbound bytes. Returns how many were consumed, and how many frames they completed.
    pub fn deliver(&mut self, piece: &[u8]) -> Result<(usize, u64), Closed> {
        if let Some(closed) = &self.closed {
            return Err(closed.clone());
        }
        let delivery = self.peer.deliver(piece);
        self.arrived();
        if delivery.stop.is_some() {
            self.judge_stream().ok();
        }
        Ok((delivery.taken, delivery.frames))
    }

    // Fails where the peer's stream was discarded, or may not end here.
    fn judge_stream(&mut self) -> Result<(), Closed> {
        match self.peer.protocol_error().map(Closed::from) {
            Some(closed) => {
                self.fail(closed.clone());
                Err(closed)
            }
            None => Ok(()),
        }
    }

    // Notifies the calls that inbound frames let proceed.
    fn arrived(&mut self) {
        for (channel, ready) in Channel::ALL.into_iter().zip(self.peer.ready()) {
            if ready.message {
                let most = &mut self.stats[channel].most_buffered;
                *most = self.peer.server(channel).buffered.max(*most);
            }
            if ready.message || ready.ended {
                let waker = self.inc[channel].waker.take();
                self.wakes.wake(waker);
            }
        }
        self.look_everywhere();
        self.settle();
    }

    /// Registers the waker of a reading half that waits for bytes, unless the session is over.
    pub fn wait_to_read(&mut self, waker: &Waker) -> Result<(), Closed> {
        keep(&mut self.reader, waker, &mut self.wakes);
        self.closed.clone().map_or(Ok(()), Err)
    }

    /// Registers the waker of a writing half that waits for its transport, unless the session is over.
    pub fn wait_to_write(&mut self, waker: &Waker) -> Result<(), Closed> {
        keep(&mut self.writer, waker, &mut self.wakes);
        self.closed.clone().map_or(Ok(()), Err)
    }

    /// Records the end of the peer's stream: in order if the peer had finished all its channels, else the stream was
    /// cut.
    pub fn input_ended(&mut self) -> Result<(), Closed> {
        if let Some(closed) = &self.closed {
            return closed.clone().result();
        }
        self.judge_stream()?;
        if !Channel::ALL
            .into_iter()
            .all(|it| self.is_finished_there(it))
        {
            self.fail(Closed::Cut);
            return Err(Closed::Cut);
        }
        self.in_ended = true;
        for inc in &mut self.inc {
            self.wakes.wake(inc.waker.take());
        }
        self.stale = ALL;
        self.settle();
        self.end_if_done();
        Ok(())
    }

    // Whether the peer sends nothing more on the channel: it finished it, or used up its limit on sending.
    fn is_finished_there(&self, channel: Channel) -> bool {
        let book = self.peer.server(channel);
        book.finished || book.send_left == Some(0)
    }

    /// Records the end of this side's stream.
    pub fn output_ended(&mut self) {
        self.out_ended = true;
        self.end_if_done();
    }

    fn end_if_done(&mut self) {
        if self.in_ended && self.out_ended {
            self.fail(Closed::Local);
        }
    }

    /// Closes the session in order: accepted messages are written, every channel is finished, and then this side's
    /// stream ends.
    pub fn close(&mut self) {
        if self.is_closing() {
            return;
        }
        self.issue_freed(); // no guarantees are issued after this
        self.push_finishes();
        self.closing = true;
        self.wake_waiting();
        // Frames may be pending behind waiting calls, none of which will proceed.
        self.look_everywhere();
        // The writing half ends the stream, and may bound how long that takes.
        self.wake_writer();
        self.settle();
    }

    /// Ends the session for this reason, unless it has ended before.
    pub fn fail(&mut self, reason: Closed) {
        if self.closed.is_some() {
            return;
        }
        if reason != Closed::Local {
            self.wakes.break_by(self.breaker.take());
        }
        self.report(Event::Closed(reason.clone().result()));
        // A hook may own a handle of the session. The report keeps it until the lock is free.
        self.hooks.clear();
        self.closed = Some(reason);
        for inc in &mut self.inc {
            self.wakes.wake(inc.waker.take());
        }
        self.wake_waiting();
        self.wakes.wake(self.reader.take());
        self.wake_writer();
        for (_, waker) in mem::take(&mut self.over) {
            self.wakes.wake(Some(waker));
        }
    }

    /// Registers the shutdown handle of the transport, or calls it if the session has failed.
    pub fn set_breaker(&mut self, breaker: Option<Breaker>) {
        match &self.closed {
            Some(reason) if *reason != Closed::Local => self.wakes.break_by(breaker),
            _ => self.breaker = breaker,
        }
    }

    /// Takes the shutdown handle of a transport that is no longer used, so that it is dropped without the lock.
    pub fn take_breaker(&mut self) -> Option<Breaker> {
        self.breaker.take()
    }

    /// Counts one more handle: a clone of a sender.
    pub fn join(&mut self, channel: Channel) {
        self.users += 1;
        self.out[channel].senders += 1;
    }

    /// Counts one handle, or the `Mux`, as dropped. The last one closes the session.
    pub fn leave(&mut self) {
        self.users -= 1;
        if self.users == 0 {
            self.close();
        }
    }

    /// Returns the reason why the session is over, or registers the waker under the ticket.
    pub fn poll_over(&mut self, ticket: &mut Option<u64>, waker: &Waker) -> Option<Closed> {
        if let Some(closed) = &self.closed {
            *ticket = None;
            return Some(closed.clone());
        }
        let ticket = *ticket.get_or_insert_with(|| self.next_ticket());
        self.forget_over(ticket);
        self.over.push((ticket, waker.clone()));
        None
    }

    pub fn forget_over(&mut self, ticket: u64) {
        if let Some(place) = self.over.iter().position(|(other, _)| *other == ticket) {
            let (_, stale) = self.over.swap_remove(place);
            self.wakes.discard(Some(stale));
        }
    }

    fn next_ticket(&mut self) -> u64 {
        self.tickets += 1;
        self.tickets
    }
}
