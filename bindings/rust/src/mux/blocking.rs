//! Drivers on threads: two threads that block in the transport, or one that alternates between both directions.
use super::block::{block_on, block_until};
use super::driver::{Driver, Reading, Writing};
use super::io::{PollRead, PollWrite, WriteHalf};
use super::shared::Shared;
use super::state::State;
use super::timeouts::Timeouts;
use super::Over;
use crate::Closed;
use std::future::poll_fn;
use std::io::{self, ErrorKind, IoSlice, Read};
use std::sync::atomic::{AtomicU64, Ordering::Relaxed};
use std::sync::Arc;
use std::task::{Context, Poll};
use std::thread;
use std::time::{Duration, Instant};

/// The longest time that a write of a socket blocks before the writing thread checks the timeouts.
const TICK: Duration = Duration::from_secs(1);

/// The longest time that a write blocks if one thread alternates between both directions, and the length of a round if
/// that thread has nothing to read any more.
const TURN: Duration = Duration::from_millis(10);

/// Drivers on threads.
impl Driver {
    /// Runs the session on this thread, which reads, and on a thread of its own, which writes. Both block in their
    /// calls of the transport. If nothing is pending, the writing thread flushes and then blocks until a frame is.
    /// The call returns once both directions ended, or the session failed.
    ///
    /// For a socket, pass the stream twice: `driver.run_blocking(stream.try_clone()?, stream)`. Set no timeouts on
    /// the socket: an expired read timeout fails the session, as any error but an interruption does, and the driver
    /// itself sets the write timeout by [`WriteHalf::set_write_timeout`]. The writing thread checks the
    /// [timeouts](crate::Timeouts) of the session. If the session fails or is aborted, the shutdown handle from
    /// [`WriteHalf::breaker`] ends the blocked calls.
    ///
    /// The socket must block: over one that does not, the session fails by the first read that finds nothing. For a
    /// stream that cannot be split, such as one with TLS, use [`Driver::run_unsplit`].
    ///
    /// # Errors
    ///
    /// The reason why the session failed.
    pub fn run_blocking<R, W>(self, reader: R, mut writer: W) -> Result<(), Closed>
    where
        R: Read,
        W: WriteHalf + Send,
    {
        let shared = Arc::clone(self.shared());
        prepare(&shared, &mut writer);
        if let Some(tick) = self.timeouts.tick() {
            fail_on_error(&shared, writer.set_write_timeout(tick));
        }
        let heard = Arc::new(Heard::new());
        let reader = Noted {
            reader,
            heard: Arc::clone(&heard),
        };
        let timeouts = self.timeouts;
        let (reading, writing) = self.into_halves();
        let writer = Timed::new(writer, &shared, timeouts, Blocked::InTheCall);
        let mut unspawned = Some((writing, writer));
        thread::scope(|scope| {
            // Each half is dropped on its thread: one that panics ends the other.
            let write = || {
                if let Some((writing, writer)) = unspawned.take() {
                    write_until_the_end(writing, writer, &heard);
                }
            };
            let thread = thread::Builder::new().name("lcmux writer".into());
            fail_on_error(&shared, thread.spawn_scoped(scope, write));
            read_until_the_end(reading, reader);
        });
        result(&shared)
    }

    /// Runs the session on this thread alone, over a stream that cannot be split, such as one with TLS.
    ///
    /// The thread alternates between reads and writes, so neither may block for long: the stream is non-blocking, or
    /// its reads have a timeout of a few milliseconds, and [`WriteHalf::set_write_timeout`] bounds its writes.
    /// [`WouldBlock`](ErrorKind::WouldBlock) and [`TimedOut`](ErrorKind::TimedOut) are no failures here.
    ///
    /// If a round moves no bytes, the thread sleeps for `interval`, or until a frame is pending. With reads that have
    /// a timeout, use an interval of zero, which counts as 10 milliseconds once the peer has ended its stream; over a
    /// non-blocking stream, use a few milliseconds, which bound the latency of inbound messages.
    ///
    /// # Errors
    ///
    /// The reason why the session failed.
    ///
    /// # Examples
    ///
    /// ```
    /// use lcmux::{Channel::Data, Config, Mux, CHANNELS};
    /// use std::{net::TcpListener, net::TcpStream, thread, time::Duration};
    ///
    /// # let listener = TcpListener::bind("127.0.0.1:0")?;
    /// # let stream = TcpStream::connect(listener.local_addr()?)?;
    /// # let (there, _) = listener.accept()?;
    /// # let (mut bob, driver) = Mux::new(Config::new([64; CHANNELS], 16))?;
    /// # let other = thread::spawn(move || driver.run_blocking(there.try_clone()?, there));
    /// stream.set_read_timeout(Some(Duration::from_millis(5)))?; // stands for a TLS stream
    /// let (mut mux, driver) = Mux::new(Config::new([64; CHANNELS], 16))?;
    /// let run = thread::spawn(move || driver.run_unsplit(stream, Duration::ZERO));
    /// mux.take_sender(Data).unwrap().send_blocking(b"hello")?;
    /// # let mut receiver = bob.take_receiver(Data).unwrap();
    /// # assert_eq!(receiver.recv_blocking()?, Some(b"hello".to_vec()));
    /// # bob.close();
    /// mux.close();
    /// run.join().unwrap()?;
    /// # other.join().unwrap()?;
    /// # Ok::<(), Box<dyn std::error::Error>>(())
    /// ```
    pub fn run_unsplit<S>(mut self, mut stream: S, interval: Duration) -> Result<(), Closed>
    where
        S: Read + WriteHalf,
    {
        let shared = Arc::clone(self.shared());
        prepare(&shared, &mut stream);
        fail_on_error(&shared, stream.set_write_timeout(TURN));
        let heard = Arc::new(Heard::new());
        let mut writer = Timed::new(stream, &shared, self.timeouts, Blocked::BetweenCalls);
        loop {
            let begin = Instant::now();
            let until = begin.checked_add(self.pause(interval));
            let turn = poll_fn(|cx| -> Poll<Result<(), Closed>> {
                let written = self.poll_write(cx, &mut writer)?;
                let mut reader = Noted {
                    reader: &mut writer.writer,
                    heard: Arc::clone(&heard),
                };
                match (written, self.poll_read(cx, &mut Turn(&mut reader))?) {
                    (Poll::Ready(()), Poll::Ready(())) => Poll::Ready(Ok(())),
                    _ => Poll::Pending,
                }
            });
            if block_until(turn, until).is_some() {
                return result(&shared);
            }
            // A thread that stood still has not looked for what arrived meanwhile, which is no silence of the peer.
            writer.check_timeouts(&heard, self.is_written(), begin);
        }
    }

    // How long a round without bytes lasts. No read makes the thread wait once the peer has ended its direction.
    fn pause(&self, interval: Duration) -> Duration {
        match self.is_read() && interval.is_zero() {
            true => TURN,
            false => interval,
        }
    }
}

// Registers the shutdown handle of the transport.
fn prepare(shared: &Shared, writer: &mut impl WriteHalf) {
    match writer.breaker() {
        Ok(breaker) => shared.with(|state| state.set_breaker(breaker)),
        Err(error) => shared.with(|state| state.fail(error.into())),
    }
}

fn fail_on_error<T>(shared: &Shared, result: io::Result<T>) {
    if let Err(error) = result {
        shared.with(|state| state.fail(error.into()));
    }
}

fn result(shared: &Shared) -> Result<(), Closed> {
    drop(shared.with(|state| state.take_breaker()));
    let closed = shared.with(|state| state.closed().cloned());
    closed.map_or(Ok(()), Closed::result)
}

fn read_until_the_end(mut reading: Reading, mut reader: Noted<impl Read>) {
    let _ = block_on(poll_fn(|cx| reading.poll(cx, &mut reader)));
}

fn write_until_the_end<W: WriteHalf>(mut writing: Writing, mut writer: Timed<W>, heard: &Heard) {
    loop {
        let until = writer.next_check(heard);
        match block_until(poll_fn(|cx| writing.poll(cx, &mut writer)), until) {
            Some(Ok(())) => break,
            Some(Err(_)) => return,
            None => writer.check_timeouts(heard, writing.is_written(), Instant::now()),
        }
    }
    let shared = Arc::clone(&writer.shared);
    while block_until(Over::new(&shared), writer.next_check(heard)).is_none() {
        writer.check_timeouts(heard, true, Instant::now());
    }
}

impl Timeouts {
    // The longest time that a write of the transport may block before the timeouts are checked.
    fn tick(&self) -> Option<Duration> {
        let least = self.idle.into_iter().chain(self.grace).min()?;
        Some(least.clamp(Duration::from_millis(1), TICK))
    }
}

/// The time of the last read that returned bytes. A peer that has ended its stream sends nothing any more, which is no
/// silence.
struct Heard {
    begin: Instant,
    /// Milliseconds after `begin`, or [`ENDED`].
    after: AtomicU64,
}

const ENDED: u64 = u64::MAX;

impl Heard {
    fn new() -> Heard {
        Heard {
            begin: Instant::now(),
            after: AtomicU64::new(0),
        }
    }

    fn note(&self, count: usize) {
        let after = match count {
            0 => ENDED,
            _ => self.begin.elapsed().as_millis() as u64,
        };
        self.after.store(after, Relaxed);
    }

    /// The time at which the peer has been silent for too long.
    fn deadline(&self, idle: Option<Duration>) -> Option<Instant> {
        match self.after.load(Relaxed) {
            ENDED => None,
            millis => after(self.begin + Duration::from_millis(millis), idle),
        }
    }
}

/// A reader that records the time of its last read. It is always ready once its call has returned.
struct Noted<R> {
    reader: R,
    heard: Arc<Heard>,
}

impl<R: Read> PollRead for Noted<R> {
    fn poll_read(&mut self, _: &mut Context<'_>, buffer: &mut [u8]) -> Poll<io::Result<usize>> {
        let read = self.reader.read(buffer);
        if let Ok(count) = read {
            self.heard.note(count);
        }
        Poll::Ready(read)
    }
}

/// A reader whose call may find no bytes, and is then repeated in the next round.
struct Turn<'a, R>(&'a mut R);

impl<R: PollRead> PollRead for Turn<'_, R> {
    fn poll_read(&mut self, cx: &mut Context<'_>, buffer: &mut [u8]) -> Poll<io::Result<usize>> {
        match self.0.poll_read(cx, buffer) {
            Poll::Ready(Err(error)) if found_nothing(&error) => Poll::Pending,
            read => read,
        }
    }
}

fn found_nothing(error: &io::Error) -> bool {
    matches!(error.kind(), ErrorKind::WouldBlock | ErrorKind::TimedOut)
}

/// Where a thread is while its transport accepts no bytes.
#[derive(PartialEq, Eq)]
enum Blocked {
    InTheCall,
    BetweenCalls,
}

/// A writer that checks the timeouts.
struct Timed<W> {
    writer: W,
    shared: Arc<Shared>,
    timeouts: Timeouts,
    blocked: Blocked,
    /// The time of the last write that succeeded.
    wrote: Instant,
    /// The time since which the transport accepts none of the pending bytes.
    stalled: Option<Instant>,
    /// The times at which this thread observed the close of the session, and at which this direction ended.
    closed: Option<Instant>,
    ended: Option<Instant>,
}

impl<W: WriteHalf> Timed<W> {
    fn new(writer: W, shared: &Arc<Shared>, timeouts: Timeouts, blocked: Blocked) -> Timed<W> {
        Timed {
            writer,
            shared: Arc::clone(shared),
            timeouts,
            blocked,
            wrote: Instant::now(),
            stalled: None,
            closed: None,
            ended: None,
        }
    }

    /// The next time at which a timeout may expire.
    fn next_check(&self, heard: &Heard) -> Option<Instant> {
        let silent = heard.deadline(self.timeouts.idle);
        let next = match self.ended {
            Some(ended) => after(ended, self.timeouts.grace),
            None => after(self.wrote, self.timeouts.keep_alive),
        };
        silent.into_iter().chain(next).min()
    }

    /// Fails the session if a timeout had expired at this time, or enqueues a frame that keeps it alive.
    fn check_timeouts(&mut self, heard: &Heard, is_written: bool, now: Instant) {
        let timeouts = self.timeouts;
        if is_past(heard.deadline(timeouts.idle), now) {
            self.expire(Timeouts::SILENT);
        } else if self
            .ended
            .is_some_and(|ended| is_past(after(ended, timeouts.grace), now))
        {
            self.expire(Timeouts::UNENDED);
        } else if self.ended.is_none() && is_past(after(self.wrote, timeouts.keep_alive), now) {
            if is_written {
                self.shared.with(State::keep_alive);
            }
            self.wrote = now;
        }
    }

    fn expire(&self, why: &str) {
        let error = io::Error::new(ErrorKind::TimedOut, why);
        self.shared.with(|state| state.fail(error.into()));
    }

    // Records the result of a call of the writer, and fails it if a timeout expired.
    fn wrote<T>(&mut self, answer: io::Result<T>) -> Poll<io::Result<T>> {
        let now = Instant::now();
        if !answer.as_ref().is_err_and(found_nothing) {
            (self.wrote, self.stalled) = (now, None);
            return Poll::Ready(answer);
        }
        let stalled = *self.stalled.get_or_insert(now);
        if self.closed.is_none() && self.shared.with(|state| state.is_closing()) {
            self.closed = Some(now);
        }
        let end = self.closed.map(|closed| closed.max(stalled));
        let is_late = end.is_some_and(|end| is_past(after(end, self.timeouts.grace), now));
        if is_late || is_past(after(stalled, self.timeouts.idle), now) {
            let error = io::Error::new(ErrorKind::TimedOut, Timeouts::STALLED);
            return Poll::Ready(Err(error));
        }
        match self.blocked {
            Blocked::InTheCall => Poll::Ready(Err(ErrorKind::Interrupted.into())), // the caller repeats it
            Blocked::BetweenCalls => Poll::Pending,
        }
    }
}

fn after(since: Instant, timeout: Option<Duration>) -> Option<Instant> {
    timeout.and_then(|timeout| since.checked_add(timeout))
}

fn is_past(deadline: Option<Instant>, now: Instant) -> bool {
    deadline.is_some_and(|deadline| deadline <= now)
}

impl<W: WriteHalf> PollWrite for Timed<W> {
    fn poll_write(&mut self, _: &mut Context<'_>, bytes: &[u8]) -> Poll<io::Result<usize>> {
        let answer = self.writer.write(bytes);
        self.wrote(answer)
    }

    fn poll_write_vectored(
        &mut self,
        _: &mut Context<'_>,
        slices: &[IoSlice<'_>],
    ) -> Poll<io::Result<usize>> {
        let answer = self.writer.write_vectored(slices);
        self.wrote(answer)
    }

    fn is_write_vectored(&self) -> bool {
        self.writer.writes_vectored()
    }

    fn poll_flush(&mut self, _: &mut Context<'_>) -> Poll<io::Result<()>> {
        let answer = self.writer.flush();
        self.wrote(answer)
    }

    fn poll_close(&mut self, _: &mut Context<'_>) -> Poll<io::Result<()>> {
        let answer = self.writer.end();
        if answer.is_ok() {
            self.ended = Some(Instant::now());
        }
        self.wrote(answer)
    }
}
