//! Sessions for threads and for async code: the handles of the channels, and the driver that moves their bytes.
mod block;
mod blocking;
mod closed;
mod coop;
mod driver;
mod events;
mod frames;
mod io;
mod owned_permit;
mod poll_sender;
mod receiver;
mod sender;
mod shared;
mod state;
mod stats;
mod stream;
mod timeouts;

pub use closed::{
    CallError, Closed, MuxFault, RecvTimeoutError, SendError, SendTimeoutError, TryRecvError,
    TrySendError,
};
pub use driver::Driver;
pub use events::{Event, Stall};
pub use frames::{Direction, Frame, FrameKind};
pub use io::{Breaker, Pipe, PollRead, PollWrite, WriteHalf};
pub use owned_permit::OwnedPermit;
pub use poll_sender::PollSender;
pub use receiver::{Message, Receiver};
pub use sender::{Permit, Sender};
pub use stats::Stats;
pub use stream::{copy, Reader, Writer};
pub use timeouts::Timeouts;

use crate::{Channel, Config, CHANNELS};
use block::{block_on, block_until};
use shared::Shared;
use state::{State, CONTROL, OWN};
use std::fmt::{self, Formatter};
use std::future::Future;
use std::pin::Pin;
use std::sync::Arc;
use std::task::{Context, Poll};
use std::thread;
use std::time::{Duration, Instant};

/// A session: hands out a [`Sender`] and a [`Receiver`] for each channel, each once, and closes or aborts the whole.
///
/// Each handle may move to a thread or a task of its own, and calls of all of them may wait at the same time. No
/// runtime is needed: a future wakes the task that polls it, and a blocking call blocks its thread until it wakes up.
///
/// # Scheduling
///
/// All frames pass through one outbound queue, first in, first out, from which the driver takes them. Rules decide
/// which frame enters the queue next; the repository's `docs/reference/sessions.md` has them with an example.
///
/// - **Slots.** Of a session's slots 7 are reserved for control frames (issues, absolves, limits, pleads and
///   finishes), one belongs to each channel, for its first message or permit that is under way, and the rest is
///   shared. So a session has at least [`Mux::LEAST_SLOTS`].
/// - **Bytes.** The messages in the queue have at most 65,536 bytes together. A longer message enters if no other
///   message is queued. Messages that are sent with permits do not count.
/// - **Order.** The calls of one channel keep their order, and a finish or a limit follows the calls that wait at
///   that time. Among the channels whose first call can proceed, the one that sent least recently is first.
/// - **No head-of-line blocking between channels.** A message that has its guarantees finds its channel's own slot,
///   unless an earlier message of the same channel is under way. Calls of other channels cannot take that slot: not
///   if they are notified and never polled, not if they hold permits, and not if they are forgotten. The message waits
///   for bytes of the queue at most until the driver has written what is queued.
/// - **Fairness.** Between two messages of a channel that always has a waiting call, other channels write fewer
///   messages than the session has slots, provided that tasks are polled before the driver writes again. For blocked
///   threads with messages of up to 4,096 bytes this always holds, since the session completes their calls itself. A
///   longer message of a thread that is notified and comes too late is completed the next time.
///
/// # How it ends
///
/// - [`Mux::close`] writes all accepted messages, finishes every channel, ends this side's stream, and reads until
///   the peer has done the same. Dropping the last of the `Mux` and its handles does so, too. Then the session has
///   ended in order.
/// - [`Mux::abort`] ends the session at once. So does dropping the [`Driver`], and so does a panic that drops a
///   handle or the `Mux`.
/// - These failures end the session, too: a transport that fails, a timeout that expires, a peer whose stream ends
///   while channels of it are unfinished ([`Closed::Cut`]), and a peer that breaks the framing or a rule.
///
/// Then all waiting calls and all later calls return the reason, a [`Closed`]. Messages that arrived before may still
/// be received, unless this side aborted. A dropped `Mux` drops the handles that it still has and leaves the others
/// alone.
///
/// # Wakers
///
/// A task's waker is cloned while the session's lock is held, so its `clone` must not call the session. The call
/// that lets the task proceed wakes and drops the waker outside of the lock. A waker must not panic: that call would
/// unwind and lose its result, such as a received message.
///
/// # Early returns and aborted tasks
///
/// A task that returns early, as by `?`, or that is aborted, drops its sender just as a task that is done does: the
/// peer observes the end of the channel in order. If the peer must not, the code that checks the task's result keeps
/// a clone of the sender, and drops it or aborts the session once it knows the result.
///
/// ```
/// use lcmux::{Channel::Data, Closed, Config, Mux, Sender, CHANNELS};
/// use std::{error::Error, fs::File, io::Read, thread};
///
/// fn send_file(path: &str, sender: &Sender) -> Result<(), Box<dyn Error>> {
///     let (mut file, mut piece) = (File::open(path)?, [0; 4096]);
///     loop {
///         match file.read(&mut piece)? {
///             0 => return Ok(()),
///             count => sender.send_blocking(&piece[..count])?,
///         }
///     }
/// }
///
/// let (mut mux, _driver) = Mux::new(Config::new([65_536; CHANNELS], 16))?;
/// let sender = mux.take_sender(Data).unwrap();
/// let kept = sender.clone(); // keeps the channel open when the task ends
/// let task = thread::spawn(move || send_file("/no/such/file", &sender).map_err(|error| error.to_string()));
/// if let Err(error) = task.join().unwrap() {
///     eprintln!("{error}");
///     mux.abort();
/// }
/// drop(kept);
/// assert_eq!(mux.closed_blocking(), Err(Closed::Aborted));
/// # Ok::<(), lcmux::MuxFault>(())
/// ```
///
/// # Examples
///
/// ```
/// use lcmux::{Channel::Data, Config, Mux, CHANNELS};
/// use std::{os::unix::net::UnixStream, thread};
///
/// # let (stream, there) = UnixStream::pair()?;
/// # let (other, driver) = Mux::new(Config::new([64; CHANNELS], 16))?;
/// # thread::spawn(move || driver.run_blocking(there.try_clone()?, there));
/// # other.close();
/// let (mut mux, driver) = Mux::new(Config::new([64; CHANNELS], 16))?;
/// let run = thread::spawn(move || driver.run_blocking(stream.try_clone()?, stream));
/// let sender = mux.take_sender(Data).unwrap();
/// assert!(mux.take_sender(Data).is_none()); // each handle is handed out once
/// sender.finish()?;
/// mux.close();
/// mux.closed_blocking()?;
/// run.join().unwrap()?;
/// # Ok::<(), Box<dyn std::error::Error>>(())
/// ```
pub struct Mux {
    shared: Arc<Shared>,
    senders: [Option<Sender>; CHANNELS],
    receivers: [Option<Receiver>; CHANNELS],
}

impl Mux {
    /// The least number of slots of a session: 7 for control frames, and one for each channel.
    pub const LEAST_SLOTS: u32 = (CONTROL + OWN) as u32;

    /// Makes a session and the driver that runs it. By the default policy, the guarantees of the whole rings are
    /// pending.
    ///
    /// # Errors
    ///
    /// The first of these that applies:
    ///
    /// - [`MuxFault::Peer`] with the error of [`Peer::new`](crate::Peer::new);
    /// - [`MuxFault::TooFewSlots`] if the slots are below [`Mux::LEAST_SLOTS`];
    /// - [`MuxFault::BadMark`] for the first channel whose low-water mark is 0 or above the size of its ring buffer;
    /// - [`MuxFault::BadLongest`] for the first channel whose longest message is empty or longer than the version allows.
    pub fn new(config: Config) -> Result<(Mux, Driver), MuxFault> {
        let state = State::new(&config)?;
        let shared = Arc::new(Shared::new(state));
        let mux = Mux {
            senders: Channel::ALL.map(|channel| Some(Sender::new(&shared, channel))),
            receivers: Channel::ALL.map(|channel| Some(Receiver::new(&shared, channel))),
            shared,
        };
        let driver = Driver::new(&mux.shared, config.timeouts);
        Ok((mux, driver))
    }

    /// Takes the sending handle of a channel. Returns `None` if it was taken before: a [`Sender`] can be cloned.
    pub fn take_sender(&mut self, channel: Channel) -> Option<Sender> {
        self.senders[channel].take()
    }

    /// Takes the receiving handle of a channel. Returns `None` if it was taken before.
    pub fn take_receiver(&mut self, channel: Channel) -> Option<Receiver> {
        self.receivers[channel].take()
    }

    /// Closes the session in order, and does not block. The driver writes all accepted messages, finishes every open
    /// channel of this side (in version One by a limit of 0), ends this side's stream, and reads the peer's stream
    /// until it ends, too. [`Mux::closed`] waits for that.
    ///
    /// Calls of this side that wait to send return [`Closed::Local`], and so do later ones. The session issues no
    /// more guarantees: the peer may still send what it holds guarantees for, and that may still be received. A
    /// second close does nothing, and so does a close of a session that is over.
    ///
    /// The peer may take any time to end its stream. [`Timeouts::grace`] bounds that time; or wait with
    /// [`Mux::closed_timeout`] and then [abort](Mux::abort).
    pub fn close(&self) {
        self.shared.with(State::close);
    }

    /// Ends the session at once: every waiting call returns [`Closed::Aborted`], and so do later ones, even if
    /// messages are left to write or to receive. How that ends a read or a write in which a thread of the driver
    /// blocks depends on the transport:
    ///
    /// | transport | how the call ends |
    /// |---|---|
    /// | a `TcpStream` or a `UnixStream` | both directions are shut down, for all its clones |
    /// | a [`Pipe::with_breaker`] | its shutdown handle is called |
    /// | a [`Pipe::new`] | not at all: [`Driver::run_blocking`] returns once the read and the write do |
    /// | a [`WriteHalf`] of your own | the shutdown handle from [`breaker`](WriteHalf::breaker) is called |
    /// | a polled transport | the driver's task wakes up, completes and drops the transport |
    pub fn abort(&self) {
        self.shared.with(|state| state.fail(Closed::Aborted));
    }

    /// Waits until the session is over. It closes nothing: each side ends its own direction, by [`Mux::close`] or by
    /// dropping all its handles.
    ///
    /// # Errors
    ///
    /// The reason, if the session ended by anything but a close of both sides.
    ///
    /// # Cancel safety
    ///
    /// This method is cancel safe: it changes nothing.
    pub async fn closed(&self) -> Result<(), Closed> {
        Over::new(&self.shared).await
    }

    /// Waits until the session is over, as [`Mux::closed`] does, and blocks the thread.
    ///
    /// # Errors
    ///
    /// Those of [`Mux::closed`].
    pub fn closed_blocking(&self) -> Result<(), Closed> {
        block_on(self.closed())
    }

    /// Waits as [`Mux::closed_blocking`] does, for at most `timeout`. Returns `None` if the session is not over by
    /// then. A timeout that passes changes nothing: the session goes on, or goes on closing.
    ///
    /// # Errors
    ///
    /// Those of [`Mux::closed`].
    ///
    /// ```
    /// use lcmux::{Closed, Config, Mux, CHANNELS};
    /// use std::time::Duration;
    ///
    /// let (mux, _driver) = Mux::new(Config::new([64; CHANNELS], 16))?;
    /// mux.close();
    /// if mux.closed_timeout(Duration::from_millis(1)).is_none() {
    ///     mux.abort();
    /// }
    /// assert_eq!(mux.closed_blocking(), Err(Closed::Aborted));
    /// # Ok::<(), lcmux::MuxFault>(())
    /// ```
    pub fn closed_timeout(&self, timeout: Duration) -> Option<Result<(), Closed>> {
        block_until(self.closed(), Instant::now().checked_add(timeout))
    }

    /// Returns the statistics of all channels at one instant, indexed by the [`Channel`].
    ///
    /// ```
    /// use lcmux::{Channel, Config, Mux};
    ///
    /// let (mux, _driver) = Mux::new(Config::default())?;
    /// for (channel, stats) in Channel::ALL.into_iter().zip(mux.stats()) {
    ///     println!("{channel:?}: {} bytes sent", stats.bytes_sent);
    /// }
    /// assert_eq!(mux.stats()[Channel::Data].bytes_sent, 0);
    /// # Ok::<(), lcmux::MuxFault>(())
    /// ```
    pub fn stats(&self) -> [Stats; CHANNELS] {
        self.shared
            .with(|state| Channel::ALL.map(|channel| state.stats(channel)))
    }
}

impl Drop for Mux {
    fn drop(&mut self) {
        self.shared.with(|state| match thread::panicking() {
            true => state.fail(Closed::Aborted),
            false => state.leave(),
        });
    }
}

impl fmt::Debug for Mux {
    fn fmt(&self, f: &mut Formatter<'_>) -> fmt::Result {
        f.debug_struct("Mux").finish_non_exhaustive()
    }
}

/// A call that waits until the session is over.
struct Over<'a> {
    shared: &'a Shared,
    ticket: Option<u64>,
}

impl<'a> Over<'a> {
    fn new(shared: &'a Shared) -> Over<'a> {
        let ticket = None;
        Over { shared, ticket }
    }
}

impl Future for Over<'_> {
    type Output = Result<(), Closed>;

    fn poll(mut self: Pin<&mut Self>, cx: &mut Context<'_>) -> Poll<Self::Output> {
        let call = &mut *self;
        let over = |state: &mut State| state.poll_over(&mut call.ticket, cx.waker());
        match call.shared.with(over) {
            Some(closed) => Poll::Ready(closed.result()),
            None => Poll::Pending,
        }
    }
}

impl Drop for Over<'_> {
    fn drop(&mut self) {
        if let Some(ticket) = self.ticket {
            self.shared.with(|state| state.forget_over(ticket));
        }
    }
}
