use super::{send_error, session_error, timed_out};
use crate::mux::block::block_until;
use crate::mux::shared::Shared;
use crate::{CallError, Channel, Closed, Refusal, Sender};
use std::fmt::{self, Formatter};
use std::future::poll_fn;
use std::io::{self, Write};
use std::sync::Arc;
use std::task::{Context, Poll};
use std::time::{Duration, Instant};

/// A stream of bytes over a channel, in the direction in which this side sends.
///
/// It is made by [`Sender::into_writer`], and [`Write`] for threads. For async code, `lcmux-tokio` and `lcmux-futures`
/// have types with the traits of their ecosystems, over the poll functions of this one.
///
/// # Messages
///
/// A write sends one message: the first bytes of what it is given, as many as this side holds guarantees for, and at
/// most [`largest_message`](Writer::largest_message). At first that is 16,384, or the [longest
/// message](crate::Config::longest) that the application stated, if that is shorter. It waits while this side holds no
/// guarantee, and then one is enough. So a writer never sends a message that is longer than the peer's ring buffer,
/// which would wait for good, and a stream proceeds over a ring of one byte, too.
///
/// A writer has no buffer: bytes that a write accepted are in the outbound queue, in which they wait for the driver
/// alone. Wrap a writer in a [`BufWriter`](std::io::BufWriter) if the application writes a few bytes at a time.
///
/// # End
///
/// [`Writer::finish`] finishes the channel, which the peer's [`Reader`](crate::Reader) reports as the end of the stream
/// after all bytes. Dropping a writer does the same, as [dropping its sender](Sender) does. So an early return looks
/// like an end in order, and the peer takes a part of the stream for the whole: if it must not, keep a clone of the
/// sender, and abort the session where the copy failed ([an
/// example](crate::Mux#early-returns-and-aborted-tasks)). A panic that drops a writer aborts the session.
///
/// # Errors
///
/// A write fails, and a failed write sent nothing, with an error of the kind
///
/// - `BrokenPipe` if the peer dropped its receiver or limited the channel, and this side has sent what it still could,
///   if this side finished the channel or used up a limit of its own, or if the peer issued fewer guarantees than the
///   longest message that the application stated. The inner error is the [`SendError`](crate::SendError).
/// - `OutOfMemory` if an allocation failed. The same write may be made again.
/// - `TimedOut` if [the timeout of the writer](Writer::set_timeout) expired. The same write may be made again.
///
/// If the session ended, the inner error ([`get_ref`](io::Error::get_ref)) is the [`Closed`], and the kind is
/// `UnexpectedEof` for a session that was cut, `InvalidData` for a fault or a violation, `ConnectionAborted` for a
/// session that this side closed or aborted or that the peer closed, and the kind of the transport's failure otherwise.
/// `Interrupted` and `WouldBlock` of a transport become `ConnectionAborted`, since no further call succeeds.
///
/// # Examples
///
/// ```
/// use lcmux::{Channel::Data, Config, Mux, CHANNELS};
/// use std::{io::{self, BufRead, Write}, os::unix::net::UnixStream, thread};
///
/// # let (here, there) = UnixStream::pair()?;
/// let (mut alice, driver) = Mux::new(Config::new([64; CHANNELS], 16))?;
/// # thread::spawn(move || driver.run_blocking(here.try_clone()?, here));
/// # let (mut bob, driver) = Mux::new(Config::new([64; CHANNELS], 16))?;
/// # thread::spawn(move || driver.run_blocking(there.try_clone()?, there));
/// let mut writer = alice.take_sender(Data).unwrap().into_writer();
/// let copy = thread::spawn(move || -> io::Result<()> {
///     io::copy(&mut &[b'.'; 1_000][..], &mut writer)?; // through a ring of 64 bytes
///     writer.write_all(b"\nthe end")?;
///     writer.finish()
/// });
///
/// let reader = bob.take_receiver(Data).unwrap().into_reader();
/// let lines: Vec<_> = reader.lines().collect::<Result<_, _>>()?;
/// assert_eq!(lines, [".".repeat(1_000), "the end".into()]);
/// copy.join().unwrap()?;
/// # Ok::<(), Box<dyn std::error::Error>>(())
/// ```
pub struct Writer {
    waiting: Waiting,
    sender: Sender,
    largest: usize,
    timeout: Option<Duration>,
}

/// The slot of a pending write in the wait queue, from one poll to the next.
struct Waiting {
    shared: Arc<Shared>,
    channel: Channel,
    ticket: Option<u64>,
}

impl Sender {
    /// Makes a writer, which sends a stream of bytes as messages of at most 16,384 bytes.
    ///
    /// Clones of the sender stay usable: their messages are part of the stream, before or after the bytes of a write.
    pub fn into_writer(self) -> Writer {
        Writer {
            waiting: Waiting {
                shared: Arc::clone(&self.shared),
                channel: self.channel(),
                ticket: None,
            },
            largest: self.within_longest(Writer::LARGEST_MESSAGE),
            sender: self,
            timeout: None,
        }
    }
}

impl Writer {
    /// The length of the longest message of a new writer, unless the application stated a shorter one.
    pub const LARGEST_MESSAGE: usize = 16_384;

    /// Returns the length of the longest message that a write sends.
    pub fn largest_message(&self) -> usize {
        self.largest
    }

    /// Sets the length of the longest message that a write sends: at least 1, at most 65,535, in version Two 1,048,576.
    /// A length out of these bounds, or above the [longest message](crate::Config::longest) that the application stated,
    /// is replaced by the nearest one.
    ///
    /// Longer messages cost less for each byte. The peer issues the bytes of a message again once all of them are read,
    /// so a message of up to a half or a quarter of its ring lets both sides work at the same time. Short messages of
    /// other channels wait until a long one is written.
    pub fn set_largest_message(&mut self, len: usize) {
        self.largest = self.sender.within_longest(len);
    }

    /// Sets how long a write of a thread waits for guarantees and for the outbound queue: for good at first. A write
    /// that timed out has sent nothing. The poll functions have no timeout.
    pub fn set_timeout(&mut self, timeout: Option<Duration>) {
        self.timeout = timeout;
    }

    /// Returns the sender.
    pub fn sender(&self) -> &Sender {
        &self.sender
    }

    /// Returns the sender, and gives up a pending write, which has sent nothing.
    pub fn into_sender(self) -> Sender {
        self.sender
    }

    /// Finishes the channel: the peer's reader gets all bytes that were written, and then the end of the stream. The
    /// other direction of the channel stays open. It does not wait, and succeeds again if the channel is finished, or if
    /// this side closed the session, which finishes all channels.
    ///
    /// # Errors
    ///
    /// The reason why the session failed: then the peer may lack bytes.
    pub fn finish(&mut self) -> io::Result<()> {
        self.waiting.give_up();
        match self.sender.finish() {
            Err(CallError::Closed(closed)) => unless_local(closed),
            Err(CallError::Refused(refusal)) if refusal != Refusal::ChannelFinished => {
                Err(send_error(refusal.into()))
            }
            Ok(()) | Err(CallError::Refused(_)) => Ok(()),
        }
    }

    /// Writes bytes as one message, and returns how many were sent: none if there are none to write.
    ///
    /// After 128 writes in a row that did not wait, it is pending once, so that other tasks run.
    ///
    /// # Cancel safety
    ///
    /// A poll that is pending has sent nothing, and the next poll may offer other bytes. Only the last waker is
    /// registered. The write keeps its slot in the wait queue of the channel, so that later calls of clones of the sender
    /// wait behind it: until the next write, [`Writer::finish`], or the drop of the writer.
    ///
    /// # Errors
    ///
    /// Those of [the writer](Writer#errors).
    pub fn poll_write(&mut self, cx: &mut Context<'_>, bytes: &[u8]) -> Poll<io::Result<usize>> {
        let (sender, waiting, largest) = (&self.sender, &mut self.waiting, self.largest);
        sender
            .coop
            .poll(cx, |cx| waiting.poll_send(cx, bytes, largest))
    }

    /// Checks that the session has not failed. There is nothing to flush: the driver writes all accepted bytes, and
    /// flushes the transport, without being asked. So it is always ready.
    ///
    /// # Errors
    ///
    /// The reason why the session failed.
    pub fn poll_flush(&mut self, _cx: &mut Context<'_>) -> Poll<io::Result<()>> {
        Poll::Ready(self.flush())
    }

    /// Finishes the channel, as [`Writer::finish`] does. It is always ready.
    ///
    /// # Errors
    ///
    /// Those of [`Writer::finish`].
    pub fn poll_close(&mut self, _cx: &mut Context<'_>) -> Poll<io::Result<()>> {
        Poll::Ready(self.finish())
    }
}

impl Waiting {
    fn give_up(&mut self) {
        if let Some(ticket) = self.ticket.take() {
            self.shared
                .with(|state| state.forget_send(self.channel, ticket));
        }
    }

    fn poll_send(
        &mut self,
        cx: &mut Context<'_>,
        bytes: &[u8],
        largest: usize,
    ) -> Poll<io::Result<usize>> {
        if bytes.is_empty() {
            return Poll::Ready(Ok(0));
        }
        let Waiting {
            shared,
            channel,
            ticket,
        } = self;
        shared
            .with(|state| state.poll_send_part(*channel, ticket, (bytes, largest), cx.waker()))
            .map_err(send_error)
    }
}

impl Drop for Waiting {
    fn drop(&mut self) {
        self.give_up();
    }
}

// A session that this side closed writes all accepted bytes.
fn unless_local(closed: Closed) -> io::Result<()> {
    closed.result().map_err(session_error)
}

/// Blocks the thread. Do not call it from a task of an executor.
impl Write for Writer {
    fn write(&mut self, bytes: &[u8]) -> io::Result<usize> {
        let deadline = self.timeout.and_then(|it| Instant::now().checked_add(it));
        let (waiting, largest) = (&mut self.waiting, self.largest);
        let write = poll_fn(|cx| waiting.poll_send(cx, bytes, largest));
        block_until(write, deadline).unwrap_or_else(|| {
            self.waiting.give_up();
            Err(timed_out())
        })
    }

    fn flush(&mut self) -> io::Result<()> {
        let closed = self.sender.shared.with(|state| state.closed().cloned());
        closed.map_or(Ok(()), unless_local)
    }
}

impl fmt::Debug for Writer {
    fn fmt(&self, f: &mut Formatter<'_>) -> fmt::Result {
        f.debug_struct("Writer")
            .field("channel", &self.sender.channel())
            .field("largest_message", &self.largest)
            .finish_non_exhaustive()
    }
}
