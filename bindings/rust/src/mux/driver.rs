use super::events::Event;
use super::frames::{Cutter, Direction, Frame, Scanner};
use super::io::{poll_uninterrupted, PollRead, PollWrite};
use super::shared::Shared;
use super::state::{Pulled, State};
use super::timeouts::Timeouts;
use crate::sys::Lent;
use crate::{Closed, Overrun};
use std::fmt::{self, Formatter};
use std::future::poll_fn;
use std::io::{self, ErrorKind, IoSlice};
use std::sync::Arc;
use std::task::{ready, Context, Poll};

/// The size of one read, and the most bytes that are offered per write. Bytes that the driver took from the queue
/// precede all later ones, so over a slow transport a larger chunk delays a short message for longer.
const PIECE: usize = 131_072;

/// The initial buffer size; it doubles up to `PIECE` when a read or a write fills it.
const FIRST_PIECE: usize = 4_096;

/// The most chunks that one poll moves before it yields to other tasks.
const PIECES: usize = 16;

/// The driver of a session: it moves the bytes between the session and its transport.
///
/// A driver runs once, on threads ([`Driver::run_blocking`], [`Driver::run_unsplit`]) or as a future
/// ([`Driver::run`]), until both directions ended or the session failed. A driver that is dropped before aborts the
/// session.
///
/// ```
/// use lcmux::{Channel::Data, Config, Mux, CHANNELS};
/// use std::{os::unix::net::UnixStream, thread};
///
/// let (here, there) = UnixStream::pair()?;
/// let (mut alice, driver) = Mux::new(Config::new([1024; CHANNELS], 16))?;
/// let one = thread::spawn(move || driver.run_blocking(here.try_clone()?, here));
/// let (mut bob, driver) = Mux::new(Config::new([1024; CHANNELS], 16))?;
/// let other = thread::spawn(move || driver.run_blocking(there.try_clone()?, there));
///
/// alice.take_sender(Data).unwrap().send_blocking(b"hello")?;
/// let mut receiver = bob.take_receiver(Data).unwrap();
/// assert_eq!(receiver.recv_blocking()?, Some(b"hello".to_vec()));
/// alice.close();
/// bob.close();
/// one.join().unwrap()?;
/// other.join().unwrap()?;
/// # Ok::<(), Box<dyn std::error::Error>>(())
/// ```
pub struct Driver {
    reading: Reading,
    writing: Writing,
    pub(super) timeouts: Timeouts,
}

pub(super) struct Reading {
    shared: Arc<Shared>,
    // The read buffer. Its first `held` bytes are the beginning of an incomplete message, not yet delivered.
    piece: Vec<u8>,
    held: usize,
    cutter: Cutter,
    scanner: Scanner,
    result: Option<Result<(), Closed>>,
}

pub(super) struct Writing {
    shared: Arc<Shared>,
    // The bytes that were pulled and not written: those of the buffer from start to end, and then those of the message,
    // which the state lends until the next pull, after the first `written`.
    buffer: Vec<u8>,
    start: usize,
    end: usize,
    message: Option<Lent>,
    written: usize,
    is_flushed: bool,
    // Whether it waits for a frame. The state then has its waker.
    is_idle: bool,
    scanner: Scanner,
    result: Option<Result<(), Closed>>,
}

impl Driver {
    pub(super) fn new(shared: &Arc<Shared>, timeouts: Timeouts) -> Driver {
        Driver {
            reading: Reading {
                shared: Arc::clone(shared),
                piece: Vec::new(),
                held: 0,
                cutter: Cutter::default(),
                scanner: Scanner::new(Direction::In),
                result: None,
            },
            writing: Writing {
                shared: Arc::clone(shared),
                buffer: Vec::new(),
                start: 0,
                end: 0,
                message: None,
                written: 0,
                is_flushed: true,
                is_idle: false,
                scanner: Scanner::new(Direction::Out),
                result: None,
            },
            timeouts: timeouts.kept(),
        }
    }

    /// Adds a hook that is called for each frame: for an outbound frame once its last byte was written, for an
    /// inbound frame once it has arrived, in the order of each direction. A frame that breaks a rule is not reported,
    /// and neither is the preface, which is no frame.
    ///
    /// The thread or task that runs the driver calls the hook outside of every lock, so the hook may call the
    /// session. Meanwhile that direction makes no progress.
    ///
    /// # Panics
    ///
    /// If the hook panics, the driver does.
    ///
    /// # Examples
    ///
    /// ```
    /// use lcmux::{Config, Mux, CHANNELS};
    /// let (mux, mut driver) = Mux::new(Config::new([64; CHANNELS], 16))?;
    /// driver.on_frame(|frame| eprintln!("{frame:?}"));
    /// # Ok::<(), lcmux::MuxFault>(())
    /// ```
    pub fn on_frame(&mut self, hook: impl Fn(&Frame) + Send + Sync + 'static) {
        let hook = Arc::new(hook);
        self.reading.scanner.hook(hook.clone());
        self.writing.scanner.hook(hook);
    }

    /// Adds a hook that is called for each [`Event`] that is no frame: for stalls, for messages that are longer than all
    /// that the peer ever issued at once, and for the end of the session.
    ///
    /// The thread or task whose call caused the event calls the hook, before that call returns and outside of every
    /// lock, so the hook may call the session. An event of such a call is reported within it. Events of different threads
    /// may be reported in another order than that in which they happened. If the session is over, the hook is called at
    /// once with its end. The hook is dropped after the end of the session, which a handle that it owns delays as any
    /// other does.
    ///
    /// # Panics
    ///
    /// If the hook panics, the call that caused the event does, and its result is lost, such as a permit.
    ///
    /// # Examples
    ///
    /// ```
    /// use lcmux::{Config, Mux};
    /// let (mux, mut driver) = Mux::new(Config::default())?;
    /// driver.on_event(|event| eprintln!("{event:?}"));
    /// # Ok::<(), lcmux::MuxFault>(())
    /// ```
    pub fn on_event(&mut self, hook: impl Fn(&Event) + Send + Sync + 'static) {
        self.shared().with(|state| state.hook(Arc::new(hook)));
    }

    /// Returns the timeouts of the session's [`Config`](crate::Config), for applications that poll the driver and run
    /// timers of their own.
    ///
    /// ```
    /// use lcmux::{Config, Mux};
    /// use std::time::Duration;
    /// let (mux, driver) = Mux::new(Config::default().idle(Duration::from_secs(60)))?;
    /// assert_eq!(driver.timeouts().idle, Some(Duration::from_secs(60)));
    /// # Ok::<(), lcmux::MuxFault>(())
    /// ```
    pub fn timeouts(&self) -> Timeouts {
        self.timeouts
    }

    /// Sets the length from which on a message is written without a copy: for tests alone.
    #[doc(hidden)]
    pub fn borrow_from(&self, len: usize) {
        self.writing.shared.with(|state| state.borrow_from(len));
    }

    pub(super) fn shared(&self) -> &Arc<Shared> {
        &self.reading.shared
    }

    pub(super) fn into_halves(self) -> (Reading, Writing) {
        (self.reading, self.writing)
    }

    pub(super) fn is_written(&self) -> bool {
        self.writing.is_written()
    }

    // Whether the peer has ended its direction.
    pub(super) fn is_read(&self) -> bool {
        self.reading.result.is_some()
    }

    /// Runs the session over a polled transport until both directions ended or the session failed; then it drops the
    /// transport.
    ///
    /// # Cancel safety
    ///
    /// This method is not cancel safe: a future that is dropped before it completes aborts the session. To cancel a
    /// poll and not the session, keep the driver and call [`Driver::poll`].
    ///
    /// # Errors
    ///
    /// The reason why the session failed.
    ///
    /// # Examples
    ///
    /// ```
    /// # use std::{future::Future, pin::pin, sync::Arc, task::{Context, Poll, Wake}, thread};
    /// # struct Unpark(thread::Thread);
    /// # impl Wake for Unpark {
    /// #     fn wake(self: Arc<Unpark>) { self.0.unpark(); }
    /// # }
    /// # fn block_on<F: Future>(future: F) -> F::Output {
    /// #     let mut future = pin!(future);
    /// #     let waker = Arc::new(Unpark(thread::current())).into();
    /// #     loop {
    /// #         match future.as_mut().poll(&mut Context::from_waker(&waker)) {
    /// #             Poll::Ready(output) => return output,
    /// #             Poll::Pending => thread::park(),
    /// #         }
    /// #     }
    /// # }
    /// use lcmux::{Channel::Data, Config, Mux, CHANNELS};
    ///
    /// let (mut mux, driver) = Mux::new(Config::new([64; CHANNELS], 16))?;
    /// let mut receiver = mux.take_receiver(Data).unwrap();
    /// mux.close();
    /// // The message `hi` on channel 1, a limit of 0 on each channel, and the end of the stream.
    /// let mut inbound = b"\x11\0\x02hi".to_vec();
    /// (0x50..0x57).for_each(|tag| inbound.extend([tag, 0, 0, 0, 0, 0, 0, 0, 0]));
    /// block_on(driver.run(&inbound[..], Vec::new()))?;
    /// assert_eq!(block_on(receiver.recv())?, Some(b"hi".to_vec()));
    /// # Ok::<(), Box<dyn std::error::Error>>(())
    /// ```
    pub async fn run<R, W>(mut self, mut reader: R, mut writer: W) -> Result<(), Closed>
    where
        R: PollRead,
        W: PollWrite,
    {
        poll_fn(|cx| self.poll(cx, &mut reader, &mut writer)).await
    }

    /// Enqueues a frame that changes nothing, if no frame is pending, so that the peer receives bytes. The frame
    /// repeats what a limit leaves; if there is no limit, it sets the largest one, 2^62, which bounds nothing and which
    /// the channel's balances show from then on.
    /// Returns `false` if frames are pending, or if no frame may be sent: the session is closed, or all its channels
    /// are finished in both directions.
    ///
    /// ```
    /// use lcmux::{Config, Mux, CHANNELS};
    /// # use std::task::{Context, Wake};
    /// # struct Noop;
    /// # impl Wake for Noop {
    /// #     fn wake(self: std::sync::Arc<Noop>) {}
    /// # }
    /// # let waker = std::sync::Arc::new(Noop).into();
    /// # let mut context = Context::from_waker(&waker);
    /// let (mux, mut driver) = Mux::new(Config::new([64; CHANNELS], 16))?;
    /// assert!(!driver.keep_alive()); // the first issues are pending
    /// let mut written = Vec::new();
    /// assert!(driver.poll_write(&mut context, &mut written).is_pending());
    /// assert!(driver.keep_alive());
    /// # Ok::<(), lcmux::MuxFault>(())
    /// ```
    pub fn keep_alive(&self) -> bool {
        self.writing.is_written() && self.writing.shared.with(State::keep_alive)
    }

    /// Returns whether the session is closed on this side, or over: no more messages are accepted. Until it is over,
    /// accepted messages are still written.
    ///
    /// ```
    /// use lcmux::{Config, Mux, CHANNELS};
    /// let (mux, driver) = Mux::new(Config::new([64; CHANNELS], 16))?;
    /// assert!(!driver.is_closing());
    /// mux.close();
    /// assert!(driver.is_closing());
    /// # Ok::<(), lcmux::MuxFault>(())
    /// ```
    pub fn is_closing(&self) -> bool {
        self.writing.shared.with(|state| state.is_closing())
    }

    /// Reads the available bytes and writes the bytes that the transport accepts. It is ready once both directions
    /// ended or the session failed, and returns the same result from then on.
    ///
    /// # Cancel safety
    ///
    /// A poll loses nothing if it is not repeated: bytes that were read are delivered or stay in the driver, and
    /// bytes that were taken from the queue and not written stay there.
    ///
    /// # Errors
    ///
    /// The reason why the session failed.
    pub fn poll(
        &mut self,
        cx: &mut Context<'_>,
        reader: &mut impl PollRead,
        writer: &mut impl PollWrite,
    ) -> Poll<Result<(), Closed>> {
        let read = self.poll_read(cx, reader);
        let written = self.poll_write(cx, writer);
        match (read, written) {
            (Poll::Ready(Err(closed)), _) | (_, Poll::Ready(Err(closed))) => {
                Poll::Ready(Err(closed))
            }
            (Poll::Ready(Ok(())), Poll::Ready(Ok(()))) => Poll::Ready(Ok(())),
            _ => Poll::Pending,
        }
    }

    /// Polls the reading half alone. It is ready once the peer ended its direction or the session failed. Bytes that
    /// were read are delivered, or stay in the driver until the rest of their message arrives, so an abandoned call
    /// loses no byte.
    ///
    /// # Errors
    ///
    /// The reason why the session failed.
    pub fn poll_read(
        &mut self,
        cx: &mut Context<'_>,
        reader: &mut impl PollRead,
    ) -> Poll<Result<(), Closed>> {
        self.reading.poll(cx, reader)
    }

    /// Polls the writing half alone. It is ready once this direction ended or the session failed. Bytes that it took
    /// from the queue stay in the driver until the transport accepted them, so an abandoned call loses no byte.
    ///
    /// # Errors
    ///
    /// The reason why the session failed.
    pub fn poll_write(
        &mut self,
        cx: &mut Context<'_>,
        writer: &mut impl PollWrite,
    ) -> Poll<Result<(), Closed>> {
        self.writing.poll(cx, writer)
    }
}

impl fmt::Debug for Driver {
    fn fmt(&self, f: &mut Formatter<'_>) -> fmt::Result {
        f.debug_struct("Driver").finish_non_exhaustive()
    }
}

// Makes room for the next chunk, twice as much if this one filled the buffer.
fn grow(buffer: &mut Vec<u8>, filled: usize) {
    if filled == buffer.len() {
        buffer.resize((2 * filled).clamp(FIRST_PIECE, PIECE), 0);
    }
}

// The result of a half that ended for this reason: the session may have ended for another one before.
fn stopped(shared: &Shared, reason: Closed) -> Result<(), Closed> {
    shared.with(|state| {
        state.fail(reason);
        state.closed().cloned().map_or(Ok(()), Closed::result)
    })
}

impl Reading {
    pub(super) fn poll(
        &mut self,
        cx: &mut Context<'_>,
        reader: &mut impl PollRead,
    ) -> Poll<Result<(), Closed>> {
        if self.result.is_none() {
            let read = ready!(self.poll_in(cx, reader));
            let result = read.or_else(|why| stopped(&self.shared, why));
            self.result = Some(result);
        }
        Poll::Ready(self.result.clone().unwrap_or(Ok(())))
    }

    fn poll_in(
        &mut self,
        cx: &mut Context<'_>,
        reader: &mut impl PollRead,
    ) -> Poll<Result<(), Closed>> {
        grow(&mut self.piece, 0);
        self.shared.with(|state| state.wait_to_read(cx.waker()))?;
        for _ in 0..PIECES {
            let offered = &mut self.piece[self.held..];
            let count = ready!(poll_uninterrupted(|| reader.poll_read(cx, offered)))?;
            if count == 0 {
                self.deliver(self.held)?;
                let ended = self.shared.with(|state| state.input_ended());
                return Poll::Ready(ended);
            }
            let (claimed, offered) = (count, offered.len());
            if claimed > offered {
                return Poll::Ready(Err(io::Error::from(Overrun { claimed, offered }).into()));
            }
            self.take_in(self.held + count)?;
        }
        cx.waker().wake_by_ref();
        Poll::Pending
    }

    // Delivers the bytes up to `end`, apart from an incomplete message at their end.
    fn take_in(&mut self, end: usize) -> Result<(), Closed> {
        let whole = self.cutter.cut(&self.piece[..end], PIECE);
        self.deliver(whole)?;
        self.piece.copy_within(whole..end, 0);
        self.held = end - whole;
        grow(&mut self.piece, end);
        Ok(())
    }

    fn deliver(&mut self, count: usize) -> Result<(), Closed> {
        let bytes = &self.piece[..count];
        let (taken, frames) = self.shared.with(|state| state.deliver(bytes))?;
        self.scanner.scan(&bytes[..taken], frames);
        Ok(())
    }
}

impl Writing {
    pub(super) fn poll(
        &mut self,
        cx: &mut Context<'_>,
        writer: &mut impl PollWrite,
    ) -> Poll<Result<(), Closed>> {
        if self.result.is_none() {
            let result = match self.poll_out(cx, writer) {
                Poll::Pending if self.is_idle => return Poll::Pending,
                Poll::Pending => {
                    // The transport wakes the task, or the end of the session does.
                    let waits = self.shared.with(|state| state.wait_to_write(cx.waker()));
                    match waits {
                        Ok(()) => return Poll::Pending,
                        Err(closed) => stopped(&self.shared, closed),
                    }
                }
                Poll::Ready(Ok(())) => {
                    self.shared.with(|state| state.output_ended());
                    Ok(())
                }
                Poll::Ready(Err(why)) => stopped(&self.shared, why),
            };
            self.result = Some(result);
        }
        Poll::Ready(self.result.clone().unwrap_or(Ok(())))
    }

    fn poll_out(
        &mut self,
        cx: &mut Context<'_>,
        writer: &mut impl PollWrite,
    ) -> Poll<Result<(), Closed>> {
        grow(&mut self.buffer, 0);
        for _ in 0..PIECES {
            if !self.is_written() {
                ready!(self.poll_rest(cx, writer))?;
                continue;
            }
            let may_lend = writer.is_write_vectored();
            let pulled = self
                .shared
                .with(|state| state.pull(&mut self.buffer, may_lend, cx.waker()));
            self.is_idle = matches!(pulled, Pulled::Idle) && self.is_flushed;
            match pulled {
                Pulled::Bytes(count, message) => {
                    (self.start, self.end) = (0, count);
                    (self.message, self.written) = (message, 0);
                    grow(&mut self.buffer, count);
                }
                Pulled::Idle if self.is_idle => return Poll::Pending,
                Pulled::Soon => break,
                Pulled::Idle => ready!(self.poll_flush(cx, writer))?,
                Pulled::End => {
                    ready!(self.poll_flush(cx, writer))?;
                    ready!(poll_uninterrupted(|| writer.poll_close(cx)))?;
                    return Poll::Ready(Ok(()));
                }
                Pulled::Over(closed) => return Poll::Ready(Err(closed)),
            }
        }
        cx.waker().wake_by_ref();
        Poll::Pending
    }

    // The bytes of the buffer and of the message that are not written.
    fn rest(&self) -> [&[u8]; 2] {
        let message = self.message.as_deref().unwrap_or_default();
        [&self.buffer[self.start..self.end], &message[self.written..]]
    }

    pub(super) fn is_written(&self) -> bool {
        self.rest().iter().all(|rest| rest.is_empty())
    }

    fn poll_rest(
        &mut self,
        cx: &mut Context<'_>,
        writer: &mut impl PollWrite,
    ) -> Poll<io::Result<()>> {
        let [bytes, message] = self.rest();
        let count = ready!(poll_uninterrupted(|| match message {
            [] => writer.poll_write(cx, bytes),
            _ => writer.poll_write_vectored(cx, &[bytes, message].map(IoSlice::new)),
        }))?;
        if count == 0 {
            return Poll::Ready(Err(ErrorKind::WriteZero.into()));
        }
        let offered = bytes.len() + message.len();
        if count > offered {
            let claimed = count;
            return Poll::Ready(Err(Overrun { claimed, offered }.into()));
        }
        self.wrote(count);
        Poll::Ready(Ok(()))
    }

    fn wrote(&mut self, count: usize) {
        let of_bytes = count.min(self.end - self.start);
        let written = &self.buffer[self.start..][..of_bytes];
        self.scanner.scan(written, u64::MAX);
        self.start += of_bytes;
        if let Some(message) = &self.message {
            let written = &message[self.written..][..count - of_bytes];
            self.scanner.scan(written, u64::MAX);
            self.written += written.len();
        }
        self.is_flushed = false;
    }

    fn poll_flush(
        &mut self,
        cx: &mut Context<'_>,
        writer: &mut impl PollWrite,
    ) -> Poll<io::Result<()>> {
        if !self.is_flushed {
            ready!(poll_uninterrupted(|| writer.poll_flush(cx)))?;
            self.is_flushed = true;
        }
        Poll::Ready(Ok(()))
    }
}

// A half that is dropped before its end, as by a panic, ends the session for all waiting calls.
impl Drop for Reading {
    fn drop(&mut self) {
        if self.result.is_none() {
            self.shared.with(|state| state.fail(Closed::Aborted));
        }
    }
}

impl Drop for Writing {
    fn drop(&mut self) {
        if self.result.is_none() {
            self.shared.with(|state| state.fail(Closed::Aborted));
        }
    }
}
