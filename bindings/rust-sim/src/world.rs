//! The state of a run: both directions of the link, the faults that are still to strike, and the trace.
use crate::choices::Random;
use crate::faults::{Fault, Kind, Plan, Shape, Side};
use crate::trace::{Entry, Event, Trace};
use std::collections::VecDeque;
use std::io::{self, ErrorKind};
use std::mem;
use std::sync::{Arc, Mutex, PoisonError};
use std::task::{Context, Poll, Waker};
use std::time::Duration;
use tokio::time::Instant;

/// The most reads, writes and yields of a run. After it nothing moves, and the run reaches its limit of virtual time.
const STEPS: u64 = 5_000_000;

/// The state of a run, which both ends of the link, the hooks of the library and the files share.
pub(crate) type Shared = Arc<Mutex<World>>;

/// Calls with the state of a run, and then wakes the tasks that may proceed.
pub(crate) fn with<T>(shared: &Shared, call: impl FnOnce(&mut World) -> T) -> T {
    let mut world = shared.lock().unwrap_or_else(PoisonError::into_inner);
    let answer = call(&mut world);
    let wakes = mem::take(&mut world.wakes);
    drop(world);
    wakes.into_iter().for_each(Waker::wake);
    answer
}

/// Bytes in flight.
struct Chunk {
    arrives: Duration,
    bytes: Vec<u8>,
    read: usize,
}

/// How a direction ends for its reader.
#[derive(Clone, Copy)]
struct End {
    at: Duration,
    error: Option<ErrorKind>,
}

/// The direction in which one side writes.
struct Pipe {
    shape: Shape,
    flight: VecDeque<Chunk>,
    written: u64,
    read: u64,
    /// When the last byte departs and arrives.
    departs: Duration,
    arrives: Duration,
    end: Option<End>,
    /// The error of each further write.
    refuses: Option<ErrorKind>,
    is_silent: bool,
    /// Until when its reader reads nothing.
    paused: Duration,
    reader: Option<Waker>,
    writer: Option<Waker>,
}

impl Pipe {
    fn new(shape: Shape) -> Pipe {
        Pipe {
            shape,
            flight: VecDeque::new(),
            written: 0,
            read: 0,
            departs: Duration::ZERO,
            arrives: Duration::ZERO,
            end: None,
            refuses: None,
            is_silent: false,
            paused: Duration::ZERO,
            reader: None,
            writer: None,
        }
    }

    fn room(&self) -> usize {
        let unread = (self.written - self.read) as usize;
        match self.shape.buffer {
            0 => usize::MAX,
            buffer => (buffer as usize).saturating_sub(unread),
        }
    }

    /// Ends the direction behind the bytes in flight, unless it has ended.
    fn end(&mut self, now: Duration, error: Option<ErrorKind>) {
        self.refuses.get_or_insert(ErrorKind::BrokenPipe);
        if !self.is_silent {
            let latency = Duration::from_millis(self.shape.latency);
            let at = self.arrives.max(now + latency);
            self.end.get_or_insert(End { at, error });
        }
    }

    fn reset(&mut self, now: Duration) {
        self.flight.clear();
        self.refuses = Some(ErrorKind::ConnectionReset);
        self.end = Some(End {
            at: now,
            error: Some(ErrorKind::ConnectionReset),
        });
    }
}

/// The answer to a read that is not over: the task is woken, or asks again at a time.
pub(crate) enum Read {
    Done(io::Result<()>),
    Later,
    Until(Duration),
}

pub(crate) struct World {
    pub plan: Plan,
    trace: Trace,
    is_over: bool,
    noise: Random,
    pipes: [Pipe; 2],
    start: Instant,
    is_crashed: [bool; 2],
    is_closed: [bool; 2],
    steps: u64,
    /// The allocations of the library and the file operations so far.
    requests: u64,
    operations: u64,
    roots: [Option<Waker>; 2],
    wakes: Vec<Waker>,
}

impl World {
    pub fn new(plan: Plan, noise: Random) -> World {
        World {
            pipes: plan.shapes.map(Pipe::new),
            plan,
            trace: Trace::default(),
            is_over: false,
            noise,
            start: Instant::now(),
            is_crashed: [false; 2],
            is_closed: [false; 2],
            steps: 0,
            requests: 0,
            operations: 0,
            roots: [None, None],
            wakes: Vec::new(),
        }
    }

    pub fn start(&self) -> Instant {
        self.start
    }

    fn now(&self) -> Duration {
        Instant::now() - self.start
    }

    /// Returns the trace. From here on nothing is recorded: the tasks that are left are about to be dropped.
    pub fn take_trace(&mut self) -> Trace {
        self.is_over = true;
        mem::take(&mut self.trace)
    }

    pub fn record(&mut self, side: impl Into<Option<Side>>, event: Event) {
        if self.is_over {
            return;
        }
        let (at, side) = (self.now(), side.into());
        self.trace.entries.push(Entry { at, side, event });
    }

    /// Whether a call that could proceed yields.
    pub fn yields(&mut self) -> bool {
        self.steps += 1;
        self.steps < STEPS && self.noise.one_in(self.plan.yields)
    }

    /// A number below `n`, for the order of the sides and the times of the files.
    pub fn below(&mut self, n: u64) -> u64 {
        self.noise.below(n)
    }

    /// Whether a fault of this kind refuses a call, of which so many were made before.
    fn is_refused(&mut self, kind: Kind, count: u64) -> bool {
        let faults = self.plan.faults.iter();
        let mut due = faults.filter(|it| it.kind == kind && count >= it.at);
        let refused = due.find(|it| count < it.at + it.extent).copied();
        if let Some(fault) = refused {
            self.record(None, Event::Fault(fault));
        }
        refused.is_some()
    }

    pub fn refuses_memory(&mut self) -> bool {
        self.requests += 1;
        self.is_refused(Kind::Memory, self.requests - 1)
    }

    pub fn refuses_file(&mut self) -> bool {
        self.operations += 1;
        self.is_refused(Kind::Disk, self.operations - 1)
    }

    pub fn is_crashed(&self, side: Side) -> bool {
        self.is_crashed[side.at()]
    }

    /// Registers the task of a side's future, which a crash wakes.
    pub fn register_root(&mut self, side: Side, waker: &Waker) {
        self.roots[side.at()] = Some(waker.clone());
    }

    /// Closes the socket of a side, once: its program dropped it, or has ended.
    pub fn exit(&mut self, side: Side) {
        if !mem::replace(&mut self.is_closed[side.at()], true) {
            self.close(side);
        }
    }

    // The other side reads what was written, and then the end; or a reset, if the side has left bytes unread.
    fn close(&mut self, side: Side) {
        let now = self.now();
        let inbound = &mut self.pipes[side.other().at()];
        let is_unread = inbound.written > inbound.read;
        inbound.flight.clear();
        inbound.refuses.get_or_insert(ErrorKind::BrokenPipe);
        let error = is_unread.then_some(ErrorKind::ConnectionReset);
        self.pipes[side.at()].end(now, error);
        self.wake_all();
    }

    /// Ends the direction of a side.
    pub fn shut(&mut self, side: Side) -> io::Result<()> {
        if self.is_dead(side) {
            return Err(ErrorKind::NotConnected.into());
        }
        let now = self.now();
        self.pipes[side.at()].end(now, None);
        self.record(side, Event::Shut);
        self.wake_all();
        Ok(())
    }

    fn is_dead(&self, side: Side) -> bool {
        self.is_crashed[side.at()] || self.is_closed[side.at()]
    }

    fn wake_all(&mut self) {
        for pipe in &mut self.pipes {
            self.wakes.extend(pipe.reader.take());
            self.wakes.extend(pipe.writer.take());
        }
    }

    fn fail(&mut self, side: Side, kind: ErrorKind) -> io::Error {
        self.record(side, Event::Failed(kind));
        kind.into()
    }

    // How many of so many bytes a call moves.
    fn moved(&mut self, most: usize, shape: Shape) -> usize {
        match shape.is_short.then(|| self.noise.below(4)) {
            None | Some(0) => most,
            Some(1) => 1,
            Some(_) => 1 + self.noise.below(most as u64) as usize,
        }
    }

    // Whether a call of a side waits, although it could proceed: it yields, or nothing moves any more.
    fn waits(&mut self, cx: &Context<'_>) -> bool {
        let yields = self.yields();
        if yields {
            self.wakes.push(cx.waker().clone());
        }
        yields || self.steps >= STEPS
    }
}

/// Reads and writes.
impl World {
    /// Reads at most `most` bytes of what the other side wrote, and appends them to a buffer.
    pub fn read(
        &mut self,
        side: Side,
        cx: &Context<'_>,
        most: usize,
        take: impl FnOnce(&[u8]),
    ) -> Read {
        if self.is_dead(side) {
            return Read::Done(Err(self.fail(side, ErrorKind::ConnectionAborted)));
        }
        if self.waits(cx) {
            return Read::Later;
        }
        let read = self.read_now(side, most, take);
        if !matches!(read, Read::Done(_)) {
            self.pipes[side.other().at()].reader = Some(cx.waker().clone());
        }
        read
    }

    fn read_now(&mut self, side: Side, most: usize, take: impl FnOnce(&[u8])) -> Read {
        let (now, pipe) = (self.now(), &self.pipes[side.other().at()]);
        if now < pipe.paused {
            return Read::Until(pipe.paused);
        }
        match (pipe.flight.front(), pipe.end) {
            (Some(chunk), _) if chunk.arrives <= now => {
                let most = most.min(chunk.bytes.len() - chunk.read);
                let count = self.moved(most, pipe.shape);
                self.take(side, count, take);
                Read::Done(Ok(()))
            }
            (Some(chunk), _) => Read::Until(chunk.arrives),
            (None, Some(end)) if end.at <= now => Read::Done(self.read_end(side, end)),
            (None, Some(end)) => Read::Until(end.at),
            (None, None) => Read::Later,
        }
    }

    fn read_end(&mut self, side: Side, end: End) -> io::Result<()> {
        match end.error {
            None => {
                self.record(side, Event::ReadEnd);
                Ok(())
            }
            Some(kind) => Err(self.fail(side, kind)),
        }
    }

    // The side reads this many bytes of the first chunk.
    fn take(&mut self, side: Side, count: usize, take: impl FnOnce(&[u8])) {
        let now = self.now();
        let pipe = &mut self.pipes[side.other().at()];
        if let Some(chunk) = pipe.flight.front_mut() {
            take(&chunk.bytes[chunk.read..][..count]);
            chunk.read += count;
            if chunk.read == chunk.bytes.len() {
                pipe.flight.pop_front();
            }
        }
        pipe.read += count as u64;
        self.wakes.extend(pipe.writer.take());
        let read = pipe.read;
        self.record(side, Event::Read(count));
        while let Some(fault) =
            self.due(|it| it.kind == Kind::SlowReader && it.side == side && it.at <= read)
        {
            self.pipes[side.other().at()].paused = now + Duration::from_millis(fault.extent);
            self.record(side, Event::Fault(fault));
        }
    }

    // A fault that is to strike now. It strikes once.
    fn due(&mut self, is_due: impl Fn(&Fault) -> bool) -> Option<Fault> {
        let at = self.plan.faults.iter().position(is_due)?;
        Some(self.plan.faults.remove(at))
    }

    /// Writes bytes from the front.
    pub fn write(&mut self, side: Side, cx: &Context<'_>, bytes: &[u8]) -> Poll<io::Result<usize>> {
        self.strike_at(side);
        let refuses = self.pipes[side.at()].refuses;
        let refuses = refuses.or(self.is_dead(side).then_some(ErrorKind::ConnectionAborted));
        if let Some(kind) = refuses {
            return Poll::Ready(Err(self.fail(side, kind)));
        }
        if self.waits(cx) {
            return Poll::Pending;
        }
        let pipe = &mut self.pipes[side.at()];
        let room = pipe.room();
        if room == 0 {
            pipe.writer = Some(cx.waker().clone());
            return Poll::Pending;
        }
        let next = self.next_fault(side);
        let count = match bytes.len().min(room) {
            0 => 0,
            most => self.moved(most, self.pipes[side.at()].shape),
        };
        let count = next.map_or(count, |next| count.min(next));
        self.send(side, &bytes[..count]);
        self.strike_at(side);
        Poll::Ready(Ok(count))
    }

    // After how many more bytes of a side a fault strikes.
    fn next_fault(&self, side: Side) -> Option<usize> {
        let faults = self.plan.faults.iter();
        let of_side = faults.filter(|it| it.kind.is_of_writer() && it.side == side);
        let written = self.pipes[side.at()].written;
        of_side
            .map(|it| it.at.saturating_sub(written) as usize)
            .min()
    }

    fn send(&mut self, side: Side, bytes: &[u8]) {
        let now = self.now();
        self.trace.written[side.at()].extend(bytes);
        self.record(side, Event::Wrote(bytes.len()));
        let jitter = self.pipes[side.at()].shape.jitter;
        let jitter = self.noise.below(jitter + 1);
        let pipe = &mut self.pipes[side.at()];
        pipe.written += bytes.len() as u64;
        if pipe.is_silent {
            pipe.read += bytes.len() as u64; // they fill no buffer
            return;
        }
        let nanos = match pipe.shape.rate {
            0 => 0,
            rate => 1_000_000 * bytes.len() as u64 / rate,
        };
        pipe.departs = pipe.departs.max(now) + Duration::from_nanos(nanos);
        let arrives = pipe.departs + Duration::from_millis(pipe.shape.latency + jitter);
        pipe.arrives = pipe.arrives.max(arrives);
        pipe.flight.push_back(Chunk {
            arrives: pipe.arrives,
            bytes: bytes.to_vec(),
            read: 0,
        });
        self.wakes.extend(pipe.reader.take());
    }

    // Faults strike that are due after what a side has written.
    fn strike_at(&mut self, side: Side) {
        let written = self.pipes[side.at()].written;
        while let Some(fault) =
            self.due(|it| it.kind.is_of_writer() && it.side == side && it.at <= written)
        {
            self.strike(fault);
        }
    }

    fn strike(&mut self, fault: Fault) {
        let (now, side) = (self.now(), fault.side);
        self.record(side, Event::Fault(fault));
        match fault.kind {
            Kind::Cut => self.pipes.iter_mut().for_each(|pipe| pipe.end(now, None)),
            Kind::HalfClose => self.pipes[side.at()].end(now, None),
            Kind::Reset => self.pipes.iter_mut().for_each(|pipe| pipe.reset(now)),
            Kind::Silence => self.pipes.iter_mut().for_each(|pipe| pipe.is_silent = true),
            Kind::Crash => self.crash(fault),
            Kind::SlowReader | Kind::Memory | Kind::Disk => {}
        }
        self.wake_all();
    }

    // The extent of a crash is even where the other side sees a reset.
    fn crash(&mut self, fault: Fault) {
        let (now, side) = (self.now(), fault.side);
        self.is_crashed[side.at()] = true;
        match fault.extent % 2 {
            0 => self.pipes.iter_mut().for_each(|pipe| pipe.reset(now)),
            _ => self.close(side),
        }
        self.wakes.extend(self.roots[side.at()].take());
    }
}
