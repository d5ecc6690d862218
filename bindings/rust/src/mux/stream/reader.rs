use super::{session_error, timed_out};
use crate::mux::block::block_until;
use crate::sys::Lent;
use crate::{Closed, Receiver};
use std::fmt::{self, Formatter};
use std::future::poll_fn;
use std::io::{self, BufRead, Read};
use std::task::{ready, Context, Poll};
use std::time::{Duration, Instant};

/// A stream of bytes over a channel, in the direction in which this side receives: the messages of the channel, joined
/// in their order, whoever sent them.
///
/// It is made by [`Receiver::into_reader`], and [`Read`] and [`BufRead`] for threads. For async code, `lcmux-tokio` and
/// `lcmux-futures` have types with the traits of their ecosystems, over the poll functions of this one.
///
/// # Buffer
///
/// The buffer of [`BufRead`] is the first message, borrowed in the ring buffer of the channel without a copy or an
/// allocation. Its bytes are issued again once all of them are read. A read takes bytes of one message: it may return
/// fewer than it was asked for, while more are available. Wrapping a reader in a [`BufReader`](std::io::BufReader) only
/// adds a copy.
///
/// A reader that is not read blocks its own channel alone.
///
/// # End
///
/// A read returns `Ok(0)` once the peer finished the channel and all its bytes were read. A session that failed before
/// that is an error, after all bytes that arrived: a peer that crashed is never taken for one that finished. After
/// [`Mux::abort`](crate::Mux::abort), what is left of the message that was begun is still read. Each later read returns
/// the same end or the same error.
///
/// # Errors
///
/// The inner error ([`get_ref`](io::Error::get_ref)) is the [`Closed`], and the kind is
///
/// - `UnexpectedEof` for a session that was [cut](Closed::Cut);
/// - `ConnectionAborted` for a session that this side aborted;
/// - `InvalidData` for a fault or a violation;
/// - the kind of the transport's failure otherwise, which is `TimedOut` if a timeout of the session expired.
///   `Interrupted` and `WouldBlock` become `ConnectionAborted`, since no further call succeeds.
///
/// An error without an inner [`Closed`] and with the kind `TimedOut` means that [the timeout of the
/// reader](Reader::set_timeout) expired. Nothing was read then, and the same read may be made again.
///
/// # Examples
///
/// ```
/// use lcmux::{Channel::Data, Closed, Config, Mux, CHANNELS};
/// use std::io::{ErrorKind, Read};
///
/// let (mut mux, driver) = Mux::new(Config::new([64; CHANNELS], 16))?;
/// let mut reader = mux.take_receiver(Data).unwrap().into_reader();
/// drop(driver); // this aborts the session
/// let error = reader.read(&mut [0; 8]).unwrap_err();
/// assert_eq!(error.kind(), ErrorKind::ConnectionAborted);
/// let closed = error.get_ref().and_then(|inner| inner.downcast_ref());
/// assert_eq!(closed, Some(&Closed::Aborted));
/// # Ok::<(), lcmux::MuxFault>(())
/// ```
pub struct Reader {
    receiver: Receiver,
    input: Input,
    timeout: Option<Duration>,
}

/// The message that is begun, and the end of the stream once it was found.
#[derive(Default)]
struct Input {
    front: Option<Front>,
    end: Option<Result<(), Closed>>,
}

/// The message that is being read: it is returned to the ring once all its bytes are read.
struct Front {
    bytes: Lent,
    read: usize,
}

impl Receiver {
    /// Makes a reader, which joins the messages of the channel into a stream of bytes.
    pub fn into_reader(self) -> Reader {
        Reader {
            receiver: self,
            input: Input::default(),
            timeout: None,
        }
    }
}

impl Reader {
    /// Sets how long a read of a thread waits for a message: for good at first. A read that timed out has read nothing.
    /// The poll functions have no timeout.
    pub fn set_timeout(&mut self, timeout: Option<Duration>) {
        self.timeout = timeout;
    }

    /// Returns the receiver, for its policy, its ledger and its statistics.
    pub fn receiver(&self) -> &Receiver {
        &self.receiver
    }

    /// Returns the receiver, and the bytes that are left of the message that was begun. They precede all messages that
    /// the receiver returns.
    pub fn into_parts(mut self) -> (Receiver, Vec<u8>) {
        let rest = self.rest().to_vec();
        self.consume(rest.len());
        (self.receiver, rest)
    }

    fn rest(&self) -> &[u8] {
        let front = self.input.front.as_ref();
        front.map_or(&[], |front| &front.bytes[front.read..])
    }

    // Copies bytes of the message that was begun, and counts them as read.
    fn take(&mut self, buffer: &mut [u8]) -> usize {
        let rest = self.rest();
        let count = rest.len().min(buffer.len());
        buffer[..count].copy_from_slice(&rest[..count]);
        self.consume(count);
        count
    }

    /// Returns the bytes that are left of the first message; it waits for one if none is begun. None are left at the
    /// end of the stream. The bytes stay the next ones until they are [consumed](BufRead::consume).
    ///
    /// After 128 polls in a row that did not wait, it is pending once, so that other tasks run.
    ///
    /// # Cancel safety
    ///
    /// A poll that is pending has read nothing. Only the last waker is registered.
    ///
    /// # Errors
    ///
    /// Those of [the reader](Reader#errors).
    pub fn poll_fill_buf(&mut self, cx: &mut Context<'_>) -> Poll<io::Result<&[u8]>> {
        ready!(self.poll_coop(cx))?;
        Poll::Ready(Ok(self.rest()))
    }

    fn poll_coop(&mut self, cx: &mut Context<'_>) -> Poll<io::Result<()>> {
        let Reader {
            receiver, input, ..
        } = self;
        receiver.coop.poll(cx, |cx| input.poll(receiver, cx))
    }

    /// Reads bytes of one message to the front of the buffer, and returns how many: 0 at the end of the stream, or for
    /// an empty buffer. It waits as [`Reader::poll_fill_buf`] does.
    ///
    /// # Cancel safety
    ///
    /// A poll that is pending has read nothing. Only the last waker is registered.
    ///
    /// # Errors
    ///
    /// Those of [the reader](Reader#errors).
    pub fn poll_read(
        &mut self,
        cx: &mut Context<'_>,
        buffer: &mut [u8],
    ) -> Poll<io::Result<usize>> {
        if !buffer.is_empty() {
            ready!(self.poll_coop(cx))?;
        }
        Poll::Ready(Ok(self.take(buffer)))
    }

    // Blocks the thread until a message is begun or the stream has ended.
    fn wait(&mut self) -> io::Result<()> {
        if self.input.front.is_some() {
            return Ok(());
        }
        let deadline = self.timeout.and_then(|it| Instant::now().checked_add(it));
        let Reader {
            receiver, input, ..
        } = self;
        let waited = block_until(poll_fn(|cx| input.poll(receiver, cx)), deadline);
        waited.unwrap_or_else(|| Err(timed_out()))
    }
}

impl Input {
    // Borrows the next message if none is begun. At the end of the stream none is begun then.
    fn poll(&mut self, receiver: &Receiver, cx: &mut Context<'_>) -> Poll<io::Result<()>> {
        if self.front.is_some() {
            return Poll::Ready(Ok(()));
        }
        if self.end.is_none() {
            match ready!(receiver.poll_lend(cx)) {
                Ok(Some(bytes)) => self.front = Some(Front { bytes, read: 0 }),
                Ok(None) => self.end = Some(Ok(())),
                Err(closed) => self.end = Some(Err(closed)),
            }
        }
        let end = self.end.clone().unwrap_or(Ok(()));
        Poll::Ready(end.map_err(session_error))
    }
}

/// Blocks the thread. Do not call it from a task of an executor.
impl Read for Reader {
    fn read(&mut self, buffer: &mut [u8]) -> io::Result<usize> {
        if !buffer.is_empty() {
            self.wait()?;
        }
        Ok(self.take(buffer))
    }
}

/// Blocks the thread. Do not call it from a task of an executor.
impl BufRead for Reader {
    fn fill_buf(&mut self) -> io::Result<&[u8]> {
        self.wait()?;
        Ok(self.rest())
    }

    /// Counts bytes of the message as read. More than are left of it count as all of them.
    fn consume(&mut self, count: usize) {
        let Some(front) = &mut self.input.front else {
            return;
        };
        front.read += count.min(front.bytes.len() - front.read);
        if front.read == front.bytes.len() {
            self.input.front = None;
            let channel = self.receiver.channel();
            self.receiver.shared.give_back(channel);
        }
    }
}

impl fmt::Debug for Reader {
    fn fmt(&self, f: &mut Formatter<'_>) -> fmt::Result {
        f.debug_struct("Reader")
            .field("channel", &self.receiver.channel())
            .finish_non_exhaustive()
    }
}
