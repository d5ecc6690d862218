//! Random calls of senders: those of tasks, which may be cancelled or never polled again, beside those of threads,
//! which any change of the session may complete on their behalf; and the rules one by one.
use super::{Ask, Call, Pulled, State, BORROWED_FROM};
use crate::mux::events::Stall;
use crate::{Channel, Closed, Config, Needs, SendError, TrySendError, Version, CHANNELS};
use std::collections::VecDeque;
use std::env;
use std::io::IoSlice;
use std::sync::atomic::{AtomicU64, Ordering::Relaxed};
use std::sync::Arc;
use std::task::{Poll, Wake, Waker};

/// The order of all wake-ups.
static WAKES: AtomicU64 = AtomicU64::new(1);

/// The position of the task's wake-up in this order, or 0.
#[derive(Default)]
struct Flag(AtomicU64);

impl Flag {
    fn is_woken(&self) -> bool {
        self.0.load(Relaxed) != 0
    }
}

impl Wake for Flag {
    fn wake(self: Arc<Flag>) {
        self.0.store(WAKES.fetch_add(1, Relaxed), Relaxed);
    }
}

struct Chance(u64);

impl Chance {
    fn below(&mut self, n: u64) -> usize {
        self.0 ^= self.0 << 13;
        self.0 ^= self.0 >> 7;
        self.0 ^= self.0 << 17;
        ((self.0 >> 33) % n) as usize
    }
}

/// A caller that makes one call after the other.
struct Caller {
    channel: Channel,
    is_thread: bool,
    /// Whether it sends parts of a stream: each call sends as many of its bytes as the guarantees allow.
    is_stream: bool,
    waits: Option<Waiting>,
    woken: Arc<Flag>,
    calls: u8,
    /// Whether it makes one call after the other, until one waits.
    loops: bool,
    /// Whether its waiting call is leaked: neither polled nor dropped.
    is_stuck: bool,
}

struct Waiting {
    body: Vec<u8>,
    ticket: Option<u64>,
}

/// A message that was accepted, and how many messages of its session preceded the start of its call.
#[derive(Clone, Debug, PartialEq)]
struct Sent {
    channel: Channel,
    body: Vec<u8>,
    began: u64,
}

struct Play {
    state: State,
    chance: Chance,
    callers: Vec<Caller>,
    slots: usize,
    /// Whether all guarantees are issued from the beginning.
    is_rich: bool,
    /// Whether each task is polled as soon as it is woken, before anything else happens.
    is_prompt: bool,
    began: Vec<Sent>,
    /// The messages of the calls that succeeded.
    answered: Vec<Vec<u8>>,
    wire: VecDeque<u8>,
    sent: Vec<Sent>,
    /// How many of them the writing half borrowed.
    lent: usize,
}

const LONGEST: u64 = 9;
/// The shortest message that counts as long here.
const LONG: usize = 8;

/// A session whose first issues are written.
fn written(slots: u32) -> State {
    let mut state = State::new(&Config::new([64; CHANNELS], slots)).unwrap();
    state.borrow_from(LONG);
    assert!(matches!(pull(&mut state, 128), Pulled::Bytes(35, None)));
    state
}

impl Play {
    fn new(seed: u64) -> Play {
        let mut chance = Chance(seed.wrapping_mul(0x9e37_79b9_7f4a_7c15) | 1);
        let slots = 14 + chance.below(8);
        let count = 2 + chance.below(12);
        let callers = (0..count).map(|_| Caller {
            channel: Channel::ALL[chance.below(CHANNELS as u64)],
            is_stream: false,
            is_thread: chance.below(2) > 0,
            waits: None,
            woken: Arc::default(),
            calls: 0,
            loops: chance.below(2) == 0,
            is_stuck: false,
        });
        let mut callers: Vec<_> = callers.collect();
        for caller in &mut callers {
            caller.is_stream = !caller.is_thread && chance.below(2) > 0;
        }
        let mut play = Play {
            state: written(slots as u32),
            callers,
            slots,
            is_rich: chance.below(2) == 0,
            is_prompt: chance.below(2) == 0,
            chance,
            began: Vec::new(),
            answered: Vec::new(),
            wire: VecDeque::new(),
            sent: Vec::new(),
            lent: 0,
        };
        if play.is_rich {
            play.issue_to_all();
        }
        play
    }

    fn issue(&mut self, channel: Channel, amount: u32) {
        self.state.deliver(&issue(channel, amount)).unwrap();
        self.wake();
    }

    fn issue_to_all(&mut self) {
        for channel in Channel::ALL {
            self.issue(channel, 1 << 20);
        }
    }

    fn wake(&mut self) {
        drop(std::mem::take(&mut self.state.wakes));
        assert_settled(&mut self.state);
    }

    // Polls the woken tasks, in the order of their wake-ups, until none is left.
    fn poll_woken(&mut self) {
        loop {
            let woken = (0..self.callers.len()).filter(|at| {
                let caller = &self.callers[*at];
                caller.waits.is_some() && !caller.is_stuck && caller.woken.is_woken()
            });
            match woken.min_by_key(|at| self.callers[*at].woken.0.load(Relaxed)) {
                Some(at) => self.poll(at),
                None => return,
            }
        }
    }

    fn begin(&mut self, at: usize) {
        let caller = &mut self.callers[at];
        caller.calls += 1;
        let mut body = vec![at as u8, caller.calls];
        body.resize(2 + self.chance.below(LONGEST), 0x5a);
        self.began.push(Sent {
            channel: caller.channel,
            body: body.clone(),
            began: self.state.turns,
        });
        caller.waits = Some(Waiting { body, ticket: None });
        self.poll(at);
    }

    fn poll(&mut self, at: usize) {
        let caller = &mut self.callers[at];
        let mut waiting = caller.waits.take().unwrap();
        caller.woken.0.store(0, Relaxed);
        let waker = Waker::from(Arc::clone(&caller.woken));
        let Waiting { body, ticket } = &mut waiting;
        let answer = match caller.is_stream {
            true => {
                let most = (body.as_slice(), LONGEST as usize);
                let state = &mut self.state;
                state.poll_send_part(caller.channel, ticket, most, &waker)
            }
            false => send(&mut self.state, caller, body, ticket, &waker),
        };
        match answer {
            Poll::Pending => caller.waits = Some(waiting),
            Poll::Ready(answer) => {
                assert_eq!(waiting.ticket, None);
                waiting.body.truncate(answer.unwrap());
                if caller.is_stream {
                    self.began.push(Sent {
                        channel: caller.channel,
                        body: waiting.body.clone(),
                        began: self.state.turns,
                    });
                }
                self.answered.push(waiting.body);
            }
        }
        self.wake();
        self.go_on(at);
    }

    // A caller that loops makes its next call at once, until one waits.
    fn go_on(&mut self, at: usize) {
        let caller = &self.callers[at];
        if caller.waits.is_none() && caller.loops && caller.calls < 40 {
            self.begin(at);
        }
    }

    fn give_up(&mut self, at: usize) {
        let caller = &mut self.callers[at];
        let waiting = caller.waits.take().unwrap();
        let was_waiting = self
            .state
            .forget_send(caller.channel, waiting.ticket.unwrap());
        assert!(was_waiting || caller.is_thread, "a task's call is its own");
        if !was_waiting {
            self.answered.push(waiting.body);
        }
        self.wake();
    }

    fn pull(&mut self, most: usize) {
        let mut buffer = [0; 256];
        let waker = Waker::from(Arc::new(Flag::default()));
        let may_lend = self.chance.below(2) == 0;
        let pulled = self.state.pull(&mut buffer[..most], may_lend, &waker);
        if let Pulled::Bytes(count, message) = pulled {
            self.wire.extend(&buffer[..count]);
            self.wire.extend(message.iter().flat_map(|it| it.iter()));
            self.lent += usize::from(message.is_some());
        }
        self.wake();
        while let Some(len) = self.whole() {
            let frame: Vec<u8> = self.wire.drain(..len).collect();
            let channel = Channel::from_number(frame[0] & 15).unwrap();
            let is_it = |it: &Sent| it.channel == channel && it.body == frame[3..];
            let known = self.began.iter().find(|it| is_it(it));
            self.sent.push(known.expect("what was asked for").clone());
        }
    }

    fn whole(&self) -> Option<usize> {
        let len = 3 + usize::from(*self.wire.get(2)?);
        (self.wire.len() >= len).then_some(len)
    }

    fn step(&mut self) {
        let at = self.chance.below(self.callers.len() as u64);
        let caller = &self.callers[at];
        let (waits, is_thread) = (caller.waits.is_some(), caller.is_thread);
        let is_woken = caller.woken.is_woken();
        match self.chance.below(64) {
            _ if caller.is_stuck => {}
            0..=36 if !waits => self.begin(at),
            0..=36 if is_woken || !is_thread => self.poll(at),
            37..=41 if waits => self.give_up(at),
            42 if waits && !is_thread => self.callers[at].is_stuck = true,
            43..=53 => {
                let most = 1 + self.chance.below(40);
                self.pull(most);
            }
            54..=59 if !self.is_rich => {
                let channel = Channel::ALL[self.chance.below(CHANNELS as u64)];
                let amount = 1 + self.chance.below(12) as u32;
                self.issue(channel, amount);
            }
            _ => {}
        }
        if self.is_prompt {
            self.poll_woken();
        }
    }

    // There are guarantees for all messages, and every woken task is polled: so all calls complete, apart from leaked
    // ones and those of the same channel behind them.
    fn finish(&mut self) {
        if !self.is_rich {
            self.issue_to_all();
        }
        for _ in 0..60 * self.callers.len() {
            self.poll_woken();
            self.pull(256);
        }
        let is_stuck = |it: &Caller| {
            let mut same = self
                .callers
                .iter()
                .filter(|other| other.channel == it.channel);
            same.any(|other| other.is_stuck)
        };
        let mut waiting = self.callers.iter().filter(|it| it.waits.is_some());
        assert!(waiting.all(is_stuck), "asleep");
        assert!(self.wire.is_empty());
    }

    // Each call that succeeded sent its message, and each message that was sent belongs to a call that succeeded,
    // apart from a leaked one.
    fn assert_each_once(&self) {
        let mut sent: Vec<_> = self.sent.iter().map(|it| it.body.clone()).collect();
        let mut answered = self.answered.clone();
        sent.sort();
        answered.sort();
        assert_eq!(sent, answered);
        assert_eq!(sent.len() as u64, self.state.turns);
    }

    // The most messages of other channels between two messages of a channel that always had a waiting call.
    fn longest_wait(&self) -> usize {
        let mut last = [None; CHANNELS];
        let waits = self.sent.iter().enumerate().map(|(at, sent)| {
            let before = last[sent.channel].replace(at);
            match before {
                Some(before) if sent.began <= before as u64 => at - before - 1,
                _ => 0,
            }
        });
        waits.max().unwrap_or(0)
    }
}

// Polls the call of a whole message, in two slices if its length is even. Returns its length.
fn send(
    state: &mut State,
    caller: &Caller,
    body: &[u8],
    ticket: &mut Option<u64>,
    waker: &Waker,
) -> Poll<Result<usize, SendError>> {
    let (first, rest) = body.split_at(body.len() / 2);
    // The wait queue borrows the slices of a blocked thread.
    let slices = Box::leak(Box::new([first, rest].map(IoSlice::new)));
    let mut call = Call {
        ask: Ask::Message(match body.len() % 2 {
            0 => slices[..].into(),
            _ => body.into(),
        }),
        is_thread: caller.is_thread,
        ticket: *ticket,
    };
    let answer = state.poll_send(caller.channel, &mut call, waker);
    *ticket = call.ticket;
    answer.map_ok(|()| body.len())
}

// The invariant between two changes: every call that can proceed was notified, apart from one whose bytes do not fit
// beside those of calls that are about to be made, a call that lacks bytes waits for the writing half, and what the first
// call lacks is measured.
fn assert_settled(state: &mut State) {
    let places_left = state.peer.slots_left();
    state.slots.follow(places_left);
    for channel in Channel::ALL {
        let measured = state.out[channel].line.lacking.stall();
        let Some(first) = state.out[channel].line.first() else {
            assert_eq!(measured, None, "nothing waits on {channel:?}");
            continue;
        };
        let (ticket, len, is_awaited) = (first.ticket, first.len, first.left.is_none());
        let (bit, least) = (1 << channel.number(), first.least);
        let lacks = state.lacks(channel, least, Some(ticket));
        let lacking = match &lacks {
            Ok(Needs::Nothing) => (state.notified & bit == 0).then_some(Stall::Slot),
            Ok(_) => Some(Stall::Guarantees),
            Err(_) => None,
        };
        assert_eq!(measured, lacking, "{channel:?}");
        match lacks {
            Ok(Needs::Nothing) if state.notified & bit != 0 => {}
            Ok(Needs::Nothing) => {
                let is_later = is_awaited && !state.has_bytes_beside(state.awaited(), len);
                assert!(
                    is_later || !state.fits(channel, len),
                    "{channel:?} can proceed and was not notified"
                );
                let waits_for_slot = state.slots.own_free() & bit == 0 && !state.slots.has_shared();
                let is_followed = state.peer.wants_write() || state.awaited() > 0;
                let waits = waits_for_slot || is_followed;
                assert!(waits, "{channel:?} waits for no one");
            }
            _ => assert_eq!(
                state.notified & bit,
                0,
                "{channel:?} can't proceed and was notified"
            ),
        }
    }
}

#[test]
fn each_call_is_answered_once_whatever_others_do() {
    let asked = env::var("LCMUX_SCHEDULES").ok();
    let most = asked.and_then(|count| count.parse().ok()).unwrap_or(2_000);
    let (mut messages, mut given_up, mut lent, mut stuck) = (0, 0, 0, 0);
    for seed in 0..most {
        let mut play = Play::new(seed);
        (0..150).for_each(|_| play.step());
        play.finish();
        play.assert_each_once();
        if play.is_rich && play.is_prompt {
            let most = play.slots - 1;
            assert!(
                play.longest_wait() <= most,
                "{seed}: {} of others",
                play.longest_wait()
            );
        }
        messages += play.sent.len();
        given_up += play.began.len() - play.sent.len();
        lent += play.lent;
        stuck += play.callers.iter().filter(|it| it.is_stuck).count();
    }
    assert!(messages as u64 > 20 * most, "{messages}");
    assert!(given_up as u64 > most, "{given_up}");
    assert!(lent as u64 > most, "{lent}");
    assert!(stuck as u64 > most / 2, "{stuck}");
}

/// A session in version Two with guarantees for all messages of the test.
fn rich(slots: u32) -> State {
    rich_in(Version::Two, slots)
}

/// The same in a version of the caller's.
fn rich_in(version: Version, slots: u32) -> State {
    let mut config = Config::new([1; CHANNELS], slots);
    config.version = version;
    let mut state = State::new(&config).unwrap();
    state.borrow_from(LONG);
    assert!(matches!(
        pull(&mut state, 128),
        Pulled::Bytes(35 | 39, None)
    ));
    for channel in Channel::ALL {
        state.deliver(&issue(channel, 0x20_0000)).unwrap();
    }
    state
}

fn issue(channel: Channel, amount: u32) -> Vec<u8> {
    [&[0x20 | channel.number()], &amount.to_be_bytes()[..]].concat()
}

fn pull(state: &mut State, most: usize) -> Pulled {
    let waker = Waker::from(Arc::new(Flag::default()));
    let pulled = state.pull(&mut vec![0; most], false, &waker);
    drop(std::mem::take(&mut state.wakes));
    assert_settled(state);
    pulled
}

fn is_sent(state: &mut State, channel: Channel, len: usize) -> bool {
    let sent = match state.try_send(channel, Ask::Message(vec![7; len][..].into())) {
        Ok(()) => true,
        Err(TrySendError::Full(Needs::Slot)) => false,
        Err(other) => panic!("{other}"),
    };
    assert_settled(state);
    sent
}

fn is_reserved(state: &mut State, channel: Channel) -> bool {
    state.try_send(channel, Ask::Permit(1)).is_ok()
}

/// A waiting call: of a task's future, or of a thread.
struct Waits {
    channel: Channel,
    body: Vec<u8>,
    is_thread: bool,
    ticket: Option<u64>,
    woken: Arc<Flag>,
}

impl Waits {
    fn new(state: &mut State, channel: Channel, len: usize, is_thread: bool) -> Waits {
        let mut waits = Waits {
            channel,
            body: vec![7; len],
            is_thread,
            ticket: None,
            woken: Arc::default(),
        };
        assert!(waits.poll(state).is_pending());
        waits
    }

    fn task(state: &mut State, channel: Channel, len: usize) -> Waits {
        Waits::new(state, channel, len, false)
    }

    fn thread(state: &mut State, channel: Channel, len: usize) -> Waits {
        Waits::new(state, channel, len, true)
    }

    fn poll(&mut self, state: &mut State) -> Poll<Result<(), SendError>> {
        self.woken.0.store(0, Relaxed);
        let mut call = Call {
            ask: Ask::Message(self.body[..].into()),
            is_thread: self.is_thread,
            ticket: self.ticket,
        };
        let waker = Waker::from(Arc::clone(&self.woken));
        let polled = state.poll_send(self.channel, &mut call, &waker);
        self.ticket = call.ticket;
        drop(std::mem::take(&mut state.wakes));
        assert_settled(state);
        polled
    }

    fn is_woken(&self) -> bool {
        self.woken.is_woken()
    }
}

const DONE: Poll<Result<(), SendError>> = Poll::Ready(Ok(()));

use Channel::{Capability, Data, Overlap, Reconciliation};

/// A message enters beside others as long as they have 65,536 bytes together. A longer one enters if no other message
/// is queued.
#[test]
fn so_many_bytes_of_messages_wait() {
    let mut state = rich(64);
    for (channel, len, is_now) in [
        (Data, 60_000, true),
        (Data, 5_537, false),
        (Overlap, 5_535, true),
        (Overlap, 2, false),
        (Capability, 1, true),
        (Capability, 1, false),
    ] {
        assert_eq!(is_sent(&mut state, channel, len), is_now, "{len} bytes");
    }
    assert!(matches!(
        pull(&mut state, 30_000),
        Pulled::Bytes(30_000, None)
    ));
    assert!(!is_sent(&mut state, Data, 29_996));
    assert!(is_sent(&mut state, Data, 29_995));
    assert!(matches!(
        pull(&mut state, 1 << 20),
        Pulled::Bytes(65_551, None)
    ));
    assert!(is_sent(&mut state, Data, 1_048_576));
    assert!(!is_sent(&mut state, Overlap, 1));
    pull(&mut state, 1 << 21);
    assert!(is_sent(&mut state, Overlap, 1));
    assert!(!is_sent(&mut state, Data, 65_536));
    assert!(is_sent(&mut state, Data, 65_535));
}

/// Only the bytes of messages count, each until it is taken: 13,107 messages of 5 bytes, and one more byte.
#[test]
fn short_messages_count_as_many_bytes_as_they_have() {
    let mut state = rich(16_000);
    for _ in 0..13_107 {
        assert!(is_sent(&mut state, Data, 5));
    }
    assert!(!is_sent(&mut state, Data, 2));
    assert!(is_sent(&mut state, Data, 1));
    state.limit_receiving(Data, 9).unwrap();
    assert!(!is_sent(&mut state, Data, 1));
    // One message, and a part of the next: a header of five bytes and three bytes of its body.
    assert!(matches!(pull(&mut state, 18), Pulled::Bytes(18, None)));
    assert!(!is_sent(&mut state, Data, 9));
    assert!(is_sent(&mut state, Data, 8));
}

/// The header of a message counts in neither version: of three bytes, and of five.
#[test]
fn a_header_in_front_of_a_message_is_none_of_its_bytes() {
    for (version, header) in [(Version::One, 3), (Version::Two, 5)] {
        let mut state = rich_in(version, 64);
        assert!(is_sent(&mut state, Data, 60_000));
        pull(&mut state, header + 10_000);
        assert!(!is_sent(&mut state, Overlap, 15_537));
        assert!(is_sent(&mut state, Overlap, 15_536));
    }
}

/// Two channels that never sent: the one whose bytes fit need not wait for the other.
#[test]
fn a_channel_that_never_sent_does_not_wait_for_another_one() {
    for (long, short) in [(Overlap, Capability), (Capability, Overlap)] {
        let mut state = rich(64);
        assert!(is_sent(&mut state, Data, 60_000));
        let waits = Waits::task(&mut state, long, 60_000);
        state.absolve(short, 0x20_0000).unwrap();
        let call = Waits::task(&mut state, short, 3);
        state.deliver(&issue(short, 3)).unwrap();
        drop(std::mem::take(&mut state.wakes));
        assert!(call.is_woken() && !waits.is_woken());
        assert_settled(&mut state);
    }
}

/// A call that lacks bytes of the queue is completed for a thread, if its message is short, and else notified. Meanwhile
/// no permit is granted.
#[test]
fn a_call_that_waits_for_bytes_learns_that_they_are_free() {
    let mut state = rich(64);
    for (is_thread, len) in [(false, 3), (true, 3), (false, 65_536), (true, 65_536)] {
        assert!(is_sent(&mut state, Data, 65_536));
        assert!(!is_reserved(&mut state, Overlap));
        let mut call = Waits::new(&mut state, Overlap, len, is_thread);
        assert!(!call.is_woken());
        assert!(matches!(
            pull(&mut state, 1 << 20),
            Pulled::Bytes(65_541, None)
        ));
        assert!(call.is_woken());
        let is_completed = is_thread && len <= 4_096;
        assert_eq!(state.bytes.messages(), if is_completed { len } else { 0 });
        assert_eq!(call.poll(&mut state), DONE);
        assert_eq!(state.bytes.messages(), len);
        assert!(matches!(pull(&mut state, 1 << 20), Pulled::Bytes(_, None)));
    }
}

/// Of 16 slots 7 are reserved for control frames, 7 belong to the channels, and 2 are shared.
#[test]
fn each_channel_has_a_slot_of_its_own() {
    let mut state = rich(16);
    for is_now in [true, true, true, false] {
        assert_eq!(is_sent(&mut state, Data, 1), is_now, "own, shared, shared");
    }
    for channel in Channel::ALL.into_iter().filter(|it| *it != Data) {
        assert!(is_sent(&mut state, channel, 1), "{channel:?} has its own");
        assert!(!is_sent(&mut state, channel, 1));
    }
    // Of Data's three frames of six bytes one leaves, and with it a shared slot becomes free.
    assert!(matches!(pull(&mut state, 6), Pulled::Bytes(6, None)));
    assert!(is_sent(&mut state, Overlap, 1));
    assert!(!is_sent(&mut state, Data, 1));
    // With the other two a shared slot becomes free, and Data's own.
    assert!(matches!(pull(&mut state, 12), Pulled::Bytes(12, None)));
    assert!(is_sent(&mut state, Capability, 1));
    assert!(!is_sent(&mut state, Overlap, 1), "Data's is no one else's");
    assert!(is_sent(&mut state, Data, 1));
    assert!(!is_sent(&mut state, Data, 1));
}

/// The example of `docs/reference/sessions.md`, step by step: frames of six bytes each.
#[test]
fn the_example_of_the_page() {
    let mut state = rich(16);
    for _ in 0..3 {
        assert!(is_sent(&mut state, Data, 1));
    }
    let forgotten = Waits::task(&mut state, Data, 1);
    assert!(is_sent(&mut state, Overlap, 1));
    assert!(matches!(pull(&mut state, 6), Pulled::Bytes(6, None)));
    assert!(forgotten.is_woken());
    assert!(is_sent(&mut state, Overlap, 1));
    let mut waits = Waits::task(&mut state, Overlap, 1);
    assert!(matches!(pull(&mut state, 24), Pulled::Bytes(24, None)));
    assert!(waits.is_woken());
    assert_eq!(waits.poll(&mut state), DONE);
    assert!(matches!(pull(&mut state, 18), Pulled::Bytes(6, None)));
    assert_eq!(state.stats(Data).messages_sent, 3);
}

/// Control frames take their seven slots and the shared ones, and no channel's own.
#[test]
fn control_frames_leave_the_channels_their_own_slots() {
    let mut state = rich(16);
    for slots_left in (7..16).rev().chain([7, 7]) {
        state.limit_receiving(Capability, 1 << 20).unwrap(); // the last two stay pending
        assert_eq!(state.peer.slots_left(), slots_left);
    }
    for channel in Channel::ALL {
        assert!(is_sent(&mut state, channel, 1), "{channel:?} has its own");
        assert!(!is_sent(&mut state, channel, 1));
    }
    assert_eq!(state.peer.slots_left(), 0);
}

/// One of two permits of a channel holds the channel's own slot, the other one a shared one, until they are used or dropped.
#[test]
fn permits_hold_slots() {
    let mut state = rich(15);
    assert!(is_reserved(&mut state, Data));
    assert!(is_reserved(&mut state, Data));
    assert!(!is_reserved(&mut state, Data));
    assert!(is_reserved(&mut state, Overlap), "its own");
    assert!(!is_sent(&mut state, Overlap, 1));
    state.give_back(Data, 1);
    assert!(is_sent(&mut state, Data, 1), "by the shared one");
    assert!(!is_sent(&mut state, Overlap, 1));
    state.give_back(Data, 1);
    assert!(
        is_sent(&mut state, Overlap, 1),
        "by the shared one, as Data's message has Data's own"
    );
    state.send_reserved(Overlap, 1, b"x"[..].into()).unwrap();
    assert!(!is_sent(&mut state, Overlap, 1));
    assert!(!is_sent(&mut state, Data, 1));
    assert!(matches!(pull(&mut state, 128), Pulled::Bytes(18, None)));
    assert_settled(&mut state);
    for is_now in [true, true, false] {
        assert_eq!(is_sent(&mut state, Data, 1), is_now);
    }
}

/// Six channels have calls that were notified and are never polled, and permits that are never used: the seventh
/// channel sends.
#[test]
fn forgotten_calls_hold_up_no_other_channel() {
    for len in [1, 60_000, 1_048_576] {
        let mut state = rich(20);
        let mut forgotten = Vec::new();
        for channel in Channel::ALL.into_iter().filter(|it| *it != Data) {
            state.deliver(&issue(channel, 0x80_0000)).unwrap();
            assert!(is_reserved(&mut state, channel));
        }
        for channel in Channel::ALL.into_iter().filter(|it| *it != Data) {
            while is_sent(&mut state, channel, len) {}
            forgotten.push(Waits::task(&mut state, channel, len));
        }
        for _ in 0..100 {
            state.deliver(&issue(Data, len as u32)).unwrap();
            let mut call = match is_sent(&mut state, Data, len) {
                true => None,
                false => Some(Waits::task(&mut state, Data, len)),
            };
            let mut pulls = 0;
            while call.as_ref().is_some_and(|call| !call.is_woken()) {
                pull(&mut state, 1 << 20);
                pulls += 1;
                // One that takes all frames, and two that find none.
                assert!(pulls <= 3 + 7 * (len + 5) / (1 << 20), "{pulls} pulls");
            }
            if let Some(call) = &mut call {
                assert_eq!(call.poll(&mut state), DONE);
            }
        }
        assert!(forgotten.iter().all(|call| call.is_woken()));
        assert_eq!(state.stats[1].messages_sent, 100);
    }
}

/// Of the calls that wait for a shared slot, the one whose channel sent least recently gets it.
#[test]
fn a_shared_slot_goes_to_the_channel_that_sent_least_recently() {
    for is_thread in [false, true] {
        let mut state = rich(15);
        for channel in [Overlap, Data, Capability] {
            assert!(is_sent(&mut state, channel, 1));
        }
        assert!(is_sent(&mut state, Reconciliation, 1));
        assert!(is_sent(&mut state, Reconciliation, 1), "the shared one");
        let [data, overlap] = [Data, Overlap].map(|it| Waits::new(&mut state, it, 1, is_thread));
        // The fourth frame had Reconciliation's own slot, the fifth the shared one, and the three before their
        // channels' own slots.
        assert!(matches!(pull(&mut state, 5 * 6), Pulled::Bytes(30, None)));
        let wakes = [&overlap, &data].map(|call| call.woken.0.load(Relaxed));
        assert!(0 < wakes[0] && wakes[0] < wakes[1], "{wakes:?}");
    }
}

/// Once a message waits for bytes of the queue, channels that sent more recently leave these to it, and one that sent
/// less recently does not.
#[test]
fn bytes_are_left_to_the_channel_that_sent_least_recently() {
    let mut state = rich(64);
    assert!(is_sent(&mut state, Overlap, 1));
    assert!(is_sent(&mut state, Data, 60_000));
    let mut long = Waits::task(&mut state, Overlap, 60_000);
    assert!(!is_sent(&mut state, Data, 1), "it sent more recently");
    assert!(is_sent(&mut state, Capability, 1), "it sent less recently");
    assert!(!is_sent(&mut state, Capability, 1));
    // A part of the first frames is taken: the long message does not fit yet.
    assert!(matches!(
        pull(&mut state, 50_000),
        Pulled::Bytes(50_000, None)
    ));
    assert!(!long.is_woken());
    assert!(!is_sent(&mut state, Data, 1));
    assert!(matches!(
        pull(&mut state, 10_000),
        Pulled::Bytes(10_000, None)
    ));
    assert!(long.is_woken());
    // Other calls do not wait for the woken one.
    assert!(is_sent(&mut state, Data, 60_000));
    assert!(long.poll(&mut state).is_pending());
    assert!(!is_sent(&mut state, Data, 1));
    assert!(matches!(pull(&mut state, 1 << 20), Pulled::Bytes(_, None)));
    assert_eq!(long.poll(&mut state), DONE);
}

// Each of these channels sends one message.
fn each_sends(state: &mut State, channels: impl IntoIterator<Item = Channel>) {
    for channel in channels {
        assert!(is_sent(state, channel, 1), "{channel:?}");
    }
}

fn others(channel: Channel) -> impl Iterator<Item = Channel> {
    Channel::ALL.into_iter().filter(move |it| *it != channel)
}

/// Of 15 slots one is shared. Once seven messages of others followed that of a channel whose task was notified, no other
/// channel takes the shared slot, until the task sends or the writing half takes frames.
#[test]
fn a_notified_task_is_passed_by_as_many_messages_as_the_page_says() {
    for is_polled in [true, false] {
        let mut state = rich(15);
        each_sends(&mut state, [Data, Overlap, Overlap]);
        let mut task = Waits::task(&mut state, Data, 1);
        assert!(matches!(pull(&mut state, 128), Pulled::Bytes(18, None)));
        assert!(task.is_woken());
        each_sends(&mut state, others(Data).take(4));
        assert!(is_reserved(&mut state, Overlap), "six have passed");
        state.give_back(Overlap, 1);
        assert!(!is_reserved(&mut state, Overlap), "seven have");
        each_sends(&mut state, others(Data).skip(4));
        assert!(!is_sent(&mut state, Capability, 1));
        match is_polled {
            true => assert_eq!(task.poll(&mut state), DONE),
            false => assert!(matches!(pull(&mut state, 6), Pulled::Bytes(6, None))),
        }
        assert!(is_sent(&mut state, Capability, 1));
    }
}

/// Its own slot is held by a permit, so it takes the shared one, which is left to it alone.
#[test]
fn a_task_that_was_passed_takes_the_shared_slot() {
    let mut state = rich(15);
    assert!(is_reserved(&mut state, Data));
    each_sends(&mut state, [Overlap, Overlap]);
    let mut task = Waits::task(&mut state, Data, 1);
    assert!(matches!(pull(&mut state, 128), Pulled::Bytes(12, None)));
    each_sends(&mut state, others(Data));
    assert!(!is_sent(&mut state, Capability, 1));
    assert_eq!(task.poll(&mut state), DONE);
}

/// While the queue is empty nothing ends the wait for a notified task that is never polled, so no slot is left to it.
#[test]
fn an_empty_queue_leaves_no_slot_to_a_notified_task() {
    let mut state = rich(15);
    each_sends(&mut state, [Data]);
    assert!(is_reserved(&mut state, Capability));
    each_sends(&mut state, others(Data).filter(|it| *it != Capability));
    each_sends(&mut state, [Overlap]);
    let task = Waits::task(&mut state, Data, 1);
    assert!(matches!(pull(&mut state, 128), Pulled::Bytes(42, None)));
    assert!(task.is_woken());
    assert!(is_sent(&mut state, Capability, 1), "by the shared slot");
}

/// Of the tasks that wait for bytes, as many are notified as fit together. The next one follows once one of these gave
/// up, at the next write, and at the latest when nothing is left to write.
#[test]
fn tasks_are_notified_as_far_as_their_bytes_fit_together() {
    for what_follows in ["one gives up", "both send", "both are forgotten"] {
        let mut state = rich(64);
        assert!(is_sent(&mut state, Reconciliation, 1));
        assert!(is_sent(&mut state, Data, 60_000));
        let mut tasks = [
            Waits::task(&mut state, Overlap, 40_000),
            Waits::task(&mut state, Capability, 25_536),
            Waits::task(&mut state, Reconciliation, 1),
        ];
        assert!(matches!(
            pull(&mut state, 1 << 20),
            Pulled::Bytes(60_011, None)
        ));
        assert_eq!(tasks.each_ref().map(Waits::is_woken), [true, true, false]);
        match what_follows {
            "one gives up" => {
                assert!(state.forget_send(Capability, tasks[1].ticket.unwrap()));
                drop(std::mem::take(&mut state.wakes));
            }
            "both send" => {
                assert_eq!(tasks[0].poll(&mut state), DONE);
                assert_eq!(tasks[1].poll(&mut state), DONE);
                assert!(!tasks[2].is_woken());
                assert!(matches!(pull(&mut state, 1 << 20), Pulled::Bytes(_, None)));
            }
            _ => {
                assert!(matches!(pull(&mut state, 1 << 20), Pulled::Soon));
                assert!(!tasks[2].is_woken());
                assert!(matches!(pull(&mut state, 1 << 20), Pulled::Idle));
            }
        }
        assert!(tasks[2].is_woken(), "{what_follows}");
        assert_eq!(tasks[2].poll(&mut state), DONE);
    }
}

/// A thread with a short message does not wait for the bytes of a notified task.
#[test]
fn a_thread_does_not_wait_for_a_task() {
    let mut state = rich(64);
    assert!(is_sent(&mut state, Data, 65_536));
    let task = Waits::task(&mut state, Overlap, 65_000);
    let mut thread = Waits::thread(&mut state, Capability, 4_000);
    pull(&mut state, 1 << 20);
    assert!(task.is_woken() && thread.is_woken());
    assert_eq!(state.bytes.messages(), 4_000);
    assert_eq!(thread.poll(&mut state), DONE);
}

/// A thread that was notified finds its bytes taken by a short message. It is not notified again: its message is sent on
/// its behalf, before those of channels that sent later.
#[test]
fn short_messages_of_threads_do_not_starve_a_long_one() {
    let mut state = rich(64);
    assert!(is_sent(&mut state, Data, 65_536));
    let mut long = Waits::thread(&mut state, Overlap, 65_536);
    let mut short = Waits::thread(&mut state, Capability, 1);
    pull(&mut state, 1 << 20);
    assert!(long.is_woken());
    assert_eq!(short.poll(&mut state), DONE);
    assert!(long.poll(&mut state).is_pending());
    let mut short = Waits::thread(&mut state, Capability, 1);
    pull(&mut state, 1 << 20);
    assert_eq!(state.bytes.messages(), 65_536);
    assert!(long.is_woken() && !short.is_woken());
    assert_eq!(long.poll(&mut state), DONE);
    pull(&mut state, 1 << 20);
    assert_eq!(short.poll(&mut state), DONE);
}

/// A part of a stream that was notified finds its bytes taken by a short message. The next time it takes the bytes that
/// another short message leaves.
#[test]
fn short_messages_of_threads_do_not_starve_a_stream() {
    let mut state = rich(64);
    assert!(is_sent(&mut state, Data, 65_536));
    let (bytes, waker) = (vec![7; 65_536], Waker::from(Arc::<Flag>::default()));
    let mut ticket = None;
    let mut write =
        |state: &mut State| state.poll_send_part(Overlap, &mut ticket, (&bytes, 65_536), &waker);
    assert!(write(&mut state).is_pending());
    for is_late in [true, false] {
        let mut short = Waits::thread(&mut state, Capability, 1_000);
        pull(&mut state, 1 << 20);
        assert_eq!(short.poll(&mut state), DONE);
        match is_late {
            true => assert!(write(&mut state).is_pending()),
            false => assert_eq!(write(&mut state), Poll::Ready(Ok(64_536))),
        }
    }
    assert!(write(&mut state).is_pending());
    pull(&mut state, 1 << 20);
    assert_eq!(write(&mut state), Poll::Ready(Ok(65_536)));
}

#[test]
fn a_thread_that_came_too_late_is_answered_at_the_end() {
    for reason in [Closed::Local, Closed::Aborted] {
        let mut state = rich(64);
        assert!(is_sent(&mut state, Data, 65_536));
        let mut long = Waits::thread(&mut state, Overlap, 65_536);
        pull(&mut state, 1 << 20);
        assert!(is_sent(&mut state, Data, 1));
        assert!(long.poll(&mut state).is_pending());
        match reason {
            Closed::Local => state.close(),
            _ => state.fail(reason.clone()),
        }
        drop(std::mem::take(&mut state.wakes));
        assert!(long.is_woken());
        assert_eq!(long.poll(&mut state), Poll::Ready(Err(reason.into())));
    }
}

/// A notified task reserves no bytes: a call that is made before takes them, and the task waits again, before all channels
/// that sent later.
#[test]
fn a_notified_task_reserves_no_bytes() {
    let mut state = rich(64);
    assert!(is_sent(&mut state, Data, 60_000));
    let mut task = Waits::task(&mut state, Overlap, 60_000);
    pull(&mut state, 1 << 20);
    assert!(task.is_woken());
    assert!(is_sent(&mut state, Data, 60_000));
    assert!(task.poll(&mut state).is_pending());
    assert!(!is_sent(&mut state, Data, 1), "it sent later");
    pull(&mut state, 1 << 20);
    assert_eq!(task.poll(&mut state), DONE);
}

/// A writing half that has nothing to write gives notified tasks one turn, each time anew. Then the calls behind them are
/// notified, and those of threads are completed.
#[test]
fn calls_behind_a_forgotten_task_go_on_when_nothing_is_left_to_write() {
    let mut state = rich(64);
    let mut forgotten = Vec::new();
    for _ in 0..2 {
        assert!(is_sent(&mut state, Reconciliation, 1));
        while is_sent(&mut state, Data, 60_000) {}
        forgotten.push(Waits::task(&mut state, Overlap, 40_000));
        forgotten.push(Waits::task(&mut state, Capability, 40_000));
        let mut thread = Waits::thread(&mut state, Reconciliation, 10);
        assert!(matches!(pull(&mut state, 1 << 20), Pulled::Bytes(_, None)));
        assert!(!thread.is_woken());
        assert!(matches!(pull(&mut state, 1 << 20), Pulled::Soon));
        assert!(!thread.is_woken());
        assert!(matches!(pull(&mut state, 1 << 20), Pulled::Soon));
        assert!(thread.is_woken());
        assert_eq!(thread.poll(&mut state), DONE);
        assert!(matches!(pull(&mut state, 1 << 20), Pulled::Bytes(15, None)));
        for call in forgotten.drain(..) {
            state.forget_send(call.channel, call.ticket.unwrap());
        }
        assert!(matches!(pull(&mut state, 1 << 20), Pulled::Idle));
    }
}

/// A message of up to 4,096 bytes is sent on behalf of its thread; for a longer one the thread is notified.
#[test]
fn a_long_message_is_sent_by_its_thread() {
    for (len, is_completed) in [(4_095, true), (4_096, true), (4_097, false)] {
        let mut state = written(14);
        let mut call = Waits::thread(&mut state, Data, len);
        state.deliver(&issue(Data, 65_535)).unwrap();
        drop(std::mem::take(&mut state.wakes));
        assert!(call.is_woken());
        assert_eq!(state.stats(Data).messages_sent, u64::from(is_completed));
        assert_eq!(call.poll(&mut state), DONE);
        assert_eq!(state.stats(Data).messages_sent, 1);
    }
}

/// A call that lacks guarantees blocks no other channel, and neither does a call behind it.
#[test]
fn a_channel_without_guarantees_waits_alone() {
    let mut state = rich(14);
    let most = state.held(Data) as usize;
    for len in [1_048_576, most - 1_048_576 - 1, 1] {
        state.absolve(Data, 0).unwrap_err();
        assert!(is_sent(&mut state, Data, len));
        pull(&mut state, 1 << 21);
    }
    let waits = [1_048_576, 1].map(|len| Waits::task(&mut state, Data, len));
    for channel in Channel::ALL.into_iter().filter(|it| *it != Data) {
        assert!(is_sent(&mut state, channel, 1));
    }
    assert!(waits.iter().all(|call| !call.is_woken()));
}

/// Calls of one channel keep their order, whichever is polled first.
#[test]
fn a_later_call_of_a_channel_waits_for_the_earlier_ones() {
    let mut state = rich(14);
    assert!(is_sent(&mut state, Data, 1));
    let [mut first, mut second] = [2, 3].map(|len| Waits::task(&mut state, Data, len));
    let mut third = Waits::thread(&mut state, Data, 4);
    assert!(matches!(pull(&mut state, 128), Pulled::Bytes(6, None)));
    assert!(first.is_woken() && !second.is_woken());
    assert!(second.poll(&mut state).is_pending());
    assert_eq!(state.stats[1].messages_sent, 1);
    assert!(!is_sent(&mut state, Data, 1));
    assert_eq!(first.poll(&mut state), DONE);
    assert!(matches!(pull(&mut state, 128), Pulled::Bytes(7, None)));
    assert!(state.forget_send(Data, second.ticket.unwrap()));
    drop(std::mem::take(&mut state.wakes));
    assert!(third.is_woken());
    assert_eq!(third.poll(&mut state), DONE);
    assert!(matches!(pull(&mut state, 128), Pulled::Bytes(9, None)));
}

/// No waiting call is completed once the session is over, even if slots become free then, and none counts as sent.
#[test]
fn a_call_that_waits_is_not_completed_after_the_end() {
    for is_aborted in [true, false] {
        let mut state = rich(14);
        assert!(is_reserved(&mut state, Data));
        let mut call = Waits::thread(&mut state, Data, 1);
        let closed = match is_aborted {
            true => {
                state.fail(Closed::Aborted);
                Closed::Aborted
            }
            false => {
                state.close();
                Closed::Local
            }
        };
        state.give_back(Data, 1);
        assert_eq!(state.stats(Data).messages_sent, 0);
        assert_eq!(
            call.poll(&mut state),
            Poll::Ready(Err(SendError::Closed(closed)))
        );
        assert_eq!(state.stats(Data).messages_sent, 0);
    }
}

/// The first bytes of a message of version Two.
fn header(tag: u8, len: usize) -> Vec<u8> {
    [&[tag][..], &(len as u32).to_be_bytes()].concat()
}

/// A long message is borrowed after the bytes before it, keeps its slot until the next pull, and is no longer
/// pending.
#[test]
fn a_long_message_is_lent_where_it_lies() {
    let mut state = rich(64);
    let waker = Waker::from(Arc::new(Flag::default()));
    let mut buffer = vec![0; 2 * LONG + 64];
    let slots = state.peer.slots_left();
    for (channel, len) in [(Data, LONG - 1), (Overlap, LONG)] {
        assert!(is_sent(&mut state, channel, len));
    }
    let Pulled::Bytes(count, Some(message)) = state.pull(&mut buffer, true, &waker) else {
        panic!("nothing is lent");
    };
    let short = [header(0x11, LONG - 1), vec![7; LONG - 1]].concat();
    assert_eq!(buffer[..count], [short, header(0x12, LONG)].concat());
    assert_eq!(*message, [7; LONG]);
    assert_eq!(
        (state.peer.slots_left(), state.bytes.messages()),
        (slots - 1, 0)
    );
    assert!(is_sent(&mut state, Data, 1));
    assert!(is_sent(&mut state, Overlap, LONG));
    let Pulled::Bytes(count, Some(_)) = state.pull(&mut buffer, true, &waker) else {
        panic!("nothing is lent");
    };
    let short = [header(0x11, 1), vec![7]].concat();
    assert_eq!(buffer[..count], [short, header(0x12, LONG)].concat());
    assert_eq!(state.long, 1);
    let pulled = state.pull(&mut buffer, true, &waker);
    assert!(matches!(pulled, Pulled::Idle));
    assert_eq!((state.peer.slots_left(), state.long), (slots, 0));
}

/// A message is borrowed from 4,096 bytes on, unless a test sets another length.
#[test]
fn a_message_of_a_page_is_long() {
    for (len, is_lent) in [(4_095, false), (4_096, true)] {
        let mut state = rich(14);
        state.borrow_from(BORROWED_FROM);
        assert!(is_sent(&mut state, Data, len));
        let waker = Waker::from(Arc::new(Flag::default()));
        let pulled = state.pull(&mut [0; 8_192], true, &waker);
        assert!(matches!(pulled, Pulled::Bytes(_, lent) if lent.is_some() == is_lent));
    }
}
