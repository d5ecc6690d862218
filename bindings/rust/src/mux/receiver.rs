use super::block::{block_on, block_until};
use super::coop::Coop;
use super::shared::Shared;
use super::state::{State, Taken};
use crate::sys::Lent;
use crate::{CallError, Channel, Closed, IssuePolicy, RecvTimeoutError, ServerBook, Stats, Take};
use crate::{MuxFault, TryRecvError};
use std::fmt::{self, Formatter};
use std::future::poll_fn;
use std::ops::Deref;
use std::sync::Arc;
use std::task::{Context, Poll};
use std::thread;
use std::time::{Duration, Instant};

/// The receiving handle of a channel.
///
/// [`Receiver::recv`] returns the next message, `None` once the channel has ended, and an error once the session has
/// failed and all messages that arrived were taken. After [`Mux::abort`](crate::Mux::abort) it returns an error at
/// once. [`Receiver::recv_blocking`] does the same for a thread. [`Receiver::recv_ref`] borrows the message without
/// copying it.
///
/// The channel's [`IssuePolicy`] issues the bytes of a taken message again.
///
/// When a receiver is dropped, it notifies the sender that no more guarantees will be issued. The sender may still
/// use the guarantees that it holds, but nobody receives those messages; a send of more fails with
/// [`SendError::Unwanted`](crate::SendError::Unwanted). A receiver that a panic drops aborts the session.
///
/// ```
/// use lcmux::{Channel::Data, Closed, Config, Mux, TryRecvError, CHANNELS};
///
/// let (mut mux, driver) = Mux::new(Config::new([64; CHANNELS], 16))?;
/// let mut receiver = mux.take_receiver(Data).unwrap();
/// assert_eq!(receiver.try_recv(), Err(TryRecvError::Empty));
/// mux.abort();
/// assert_eq!(receiver.recv_blocking(), Err(Closed::Aborted));
/// # Ok::<(), lcmux::MuxFault>(())
/// ```
pub struct Receiver {
    pub(super) shared: Arc<Shared>,
    channel: Channel,
    pub(super) coop: Coop,
}

// Takes a message, or registers the waker if none is available.
fn poll_take<T>(
    shared: &Shared,
    channel: Channel,
    cx: &mut Context<'_>,
    take: impl FnOnce(&mut State) -> Result<Take<T>, Closed>,
) -> Poll<Result<Option<T>, Closed>> {
    shared.with(|state| {
        Poll::Ready(match take(state) {
            Ok(Take::Took(message)) => Ok(Some(message)),
            Ok(Take::Ended) => Ok(None),
            Ok(Take::Empty) => {
                state.wait_for_message(channel, cx.waker());
                return Poll::Pending;
            }
            Err(closed) => Err(closed),
        })
    })
}

impl Receiver {
    pub(super) fn new(shared: &Arc<Shared>, channel: Channel) -> Receiver {
        Receiver {
            shared: Arc::clone(shared),
            channel,
            coop: Coop::default(),
        }
    }

    /// Returns the channel of this receiver.
    pub fn channel(&self) -> Channel {
        self.channel
    }

    /// Receives the next message. Returns `None` once the channel has ended.
    ///
    /// After 128 messages in a row that it did not wait for, its future yields once, so that other tasks run.
    ///
    /// # Cancel safety
    ///
    /// This method is cancel safe. A message is taken when the future completes; a future that is dropped before
    /// takes no message and loses no free bytes of the ring.
    ///
    /// # Errors
    ///
    /// The reason why the session failed, once all messages that arrived were taken, and if this channel had not
    /// ended before. A peer that crashed is [`Closed::Cut`], never `None`. After [`Mux::abort`](crate::Mux::abort) it
    /// is [`Closed::Aborted`] at once, even if messages are left.
    pub async fn recv(&mut self) -> Result<Option<Vec<u8>>, Closed> {
        poll_fn(|cx| self.poll_recv(cx)).await
    }

    /// Polls for the next message, as [`Receiver::recv`] does. Only the last waker is registered, and it is
    /// notified once. A pending poll takes nothing.
    ///
    /// # Errors
    ///
    /// Those of [`Receiver::recv`].
    pub fn poll_recv(&mut self, cx: &mut Context<'_>) -> Poll<Result<Option<Vec<u8>>, Closed>> {
        self.coop.poll(cx, |cx| self.poll_take(cx))
    }

    fn poll_take(&self, cx: &mut Context<'_>) -> Poll<Result<Option<Vec<u8>>, Closed>> {
        let channel = self.channel;
        poll_take(&self.shared, channel, cx, |state| state.take(channel))
            .map_ok(|taken| taken.map(|taken| self.copied(taken)))
    }

    pub(super) fn poll_lend(&self, cx: &mut Context<'_>) -> Poll<Result<Option<Lent>, Closed>> {
        let channel = self.channel;
        poll_take(&self.shared, channel, cx, |state| state.lend(channel))
    }

    // Copies a message into a vector, a long one without the lock.
    fn copied(&self, taken: Taken) -> Vec<u8> {
        match taken {
            Taken::Copied(message) => message,
            Taken::Lent(front) => {
                let message = front.to_vec();
                self.shared.give_back(self.channel);
                message
            }
        }
    }

    /// Receives the next message, as [`Receiver::recv`] does, and blocks the thread. Do not call it from a task of an
    /// executor.
    ///
    /// # Errors
    ///
    /// Those of [`Receiver::recv`].
    pub fn recv_blocking(&mut self) -> Result<Option<Vec<u8>>, Closed> {
        block_on(poll_fn(|cx| self.poll_take(cx)))
    }

    /// Receives messages that have arrived, at least one and at most `limit`, and appends them to `messages`. It waits
    /// for the first as [`Receiver::recv`] does, and takes with it those that follow, which is cheaper than a call for
    /// each: their bytes are issued together. It takes at most 65,536 bytes, and a message of more than 4,096 bytes alone.
    /// Returns how many messages it took: 0 once the channel has ended, or if `limit` is 0.
    ///
    /// # Cancel safety
    ///
    /// This method is cancel safe, as [`Receiver::recv`] is: a future that is dropped before it completes takes no
    /// message.
    ///
    /// # Errors
    ///
    /// Those of [`Receiver::recv`].
    ///
    /// ```
    /// use lcmux::{Closed, Receiver};
    ///
    /// /// Returns the number of bytes that arrive until the channel ends.
    /// async fn count(receiver: &mut Receiver) -> Result<usize, Closed> {
    ///     let (mut messages, mut count) = (Vec::new(), 0);
    ///     while receiver.recv_many(&mut messages, 64).await? > 0 {
    ///         count += messages.drain(..).map(|message| message.len()).sum::<usize>();
    ///     }
    ///     Ok(count)
    /// }
    /// # let _ = count;
    /// ```
    pub async fn recv_many(
        &mut self,
        messages: &mut Vec<Vec<u8>>,
        limit: usize,
    ) -> Result<usize, Closed> {
        poll_fn(|cx| self.poll_recv_many(cx, messages, limit)).await
    }

    /// Polls for messages, as [`Receiver::recv_many`] does. Only the last waker is registered, and it is notified once.
    /// A pending poll takes nothing.
    ///
    /// # Errors
    ///
    /// Those of [`Receiver::recv`].
    pub fn poll_recv_many(
        &mut self,
        cx: &mut Context<'_>,
        messages: &mut Vec<Vec<u8>>,
        limit: usize,
    ) -> Poll<Result<usize, Closed>> {
        let polled = self
            .coop
            .poll(cx, |cx| self.poll_take_many(cx, messages, limit));
        if let Poll::Ready(Ok(count)) = polled {
            self.coop.count(count.saturating_sub(1));
        }
        polled
    }

    fn poll_take_many(
        &self,
        cx: &mut Context<'_>,
        messages: &mut Vec<Vec<u8>>,
        limit: usize,
    ) -> Poll<Result<usize, Closed>> {
        if limit == 0 {
            return Poll::Ready(Ok(0));
        }
        let (channel, before) = (self.channel, messages.len());
        let take = |state: &mut State| state.take_many(channel, messages, limit);
        poll_take(&self.shared, channel, cx, take).map_ok(|taken| {
            let long = taken.flatten().map(Taken::Lent);
            messages.extend(long.map(|long| self.copied(long)));
            messages.len() - before
        })
    }

    /// Receives messages, as [`Receiver::recv_many`] does, and blocks the thread. Do not call it from a task of an
    /// executor.
    ///
    /// # Errors
    ///
    /// Those of [`Receiver::recv`].
    pub fn recv_many_blocking(
        &mut self,
        messages: &mut Vec<Vec<u8>>,
        limit: usize,
    ) -> Result<usize, Closed> {
        block_on(poll_fn(|cx| self.poll_take_many(cx, messages, limit)))
    }

    /// Receives the next message, as [`Receiver::recv_blocking`] does, and waits for at most `timeout`.
    ///
    /// # Errors
    ///
    /// [`RecvTimeoutError::Timeout`] if no message arrived in that time, and those of [`Receiver::recv`].
    pub fn recv_timeout(&mut self, timeout: Duration) -> Result<Option<Vec<u8>>, RecvTimeoutError> {
        let deadline = Instant::now().checked_add(timeout);
        match block_until(poll_fn(|cx| self.poll_take(cx)), deadline) {
            Some(taken) => Ok(taken?),
            None => Err(RecvTimeoutError::Timeout),
        }
    }

    /// Receives the next message if one is available, and does not wait.
    ///
    /// # Errors
    ///
    /// [`TryRecvError::Empty`] if no message is available, and those of [`Receiver::recv`].
    pub fn try_recv(&mut self) -> Result<Option<Vec<u8>>, TryRecvError> {
        match self.shared.with(|state| state.take(self.channel))? {
            Take::Took(taken) => Ok(Some(self.copied(taken))),
            Take::Ended => Ok(None),
            Take::Empty => Err(TryRecvError::Empty),
        }
    }

    /// Borrows the next message without copying it, and waits as [`Receiver::recv`] does. Its bytes are issued again
    /// when the [`Message`] is dropped.
    ///
    /// # Cancel safety
    ///
    /// This method is cancel safe, as [`Receiver::recv`] is.
    ///
    /// # Errors
    ///
    /// Those of [`Receiver::recv`].
    pub async fn recv_ref(&mut self) -> Result<Option<Message<'_>>, Closed> {
        let front = poll_fn(|cx| self.coop.poll(cx, |cx| self.poll_lend(cx))).await?;
        Ok(self.borrowed(front))
    }

    /// Polls for the next message and borrows it, as [`Receiver::recv_ref`] does. Only the last waker is registered,
    /// and it is notified once. A pending poll borrows nothing.
    ///
    /// # Errors
    ///
    /// Those of [`Receiver::recv`].
    ///
    /// ```
    /// use lcmux::{Closed, Receiver};
    /// use std::task::{ready, Context, Poll};
    ///
    /// /// Polls for the length of the next message, and drops that message.
    /// fn poll_len(receiver: &mut Receiver, cx: &mut Context<'_>) -> Poll<Result<Option<usize>, Closed>> {
    ///     let message = ready!(receiver.poll_recv_ref(cx))?;
    ///     Poll::Ready(Ok(message.map(|message| message.len())))
    /// }
    /// # let _ = poll_len;
    /// ```
    pub fn poll_recv_ref(
        &mut self,
        cx: &mut Context<'_>,
    ) -> Poll<Result<Option<Message<'_>>, Closed>> {
        let polled = self.coop.poll(cx, |cx| self.poll_lend(cx));
        polled.map_ok(|front| self.borrowed(front))
    }

    fn borrowed(&mut self, front: Option<Lent>) -> Option<Message<'_>> {
        let receiver = self;
        front.map(|front| Message { receiver, front })
    }

    /// Borrows the next message, as [`Receiver::recv_ref`] does, and blocks the thread.
    ///
    /// # Errors
    ///
    /// Those of [`Receiver::recv`].
    pub fn recv_ref_blocking(&mut self) -> Result<Option<Message<'_>>, Closed> {
        let front = block_on(poll_fn(|cx| self.poll_lend(cx)))?;
        Ok(self.borrowed(front))
    }

    /// Borrows the next message, as [`Receiver::recv_ref_blocking`] does, and waits for at most `timeout`. A message
    /// that is available is borrowed even with a timeout of zero.
    ///
    /// # Errors
    ///
    /// [`RecvTimeoutError::Timeout`] if no message arrived in that time, and those of [`Receiver::recv`].
    ///
    /// ```
    /// use lcmux::{Receiver, RecvTimeoutError};
    /// use std::time::Duration;
    ///
    /// /// Sums up the lengths of the messages, until the channel ends or none arrives for a second.
    /// fn sum(receiver: &mut Receiver) -> Result<usize, RecvTimeoutError> {
    ///     let mut sum = 0;
    ///     while let Some(message) = receiver.recv_ref_timeout(Duration::from_secs(1))? {
    ///         sum += message.len();
    ///     }
    ///     Ok(sum)
    /// }
    /// # let _ = sum;
    /// ```
    pub fn recv_ref_timeout(
        &mut self,
        timeout: Duration,
    ) -> Result<Option<Message<'_>>, RecvTimeoutError> {
        let deadline = Instant::now().checked_add(timeout);
        match block_until(poll_fn(|cx| self.poll_lend(cx)), deadline) {
            Some(front) => Ok(self.borrowed(front?)),
            None => Err(RecvTimeoutError::Timeout),
        }
    }

    /// Borrows the next message, as [`Receiver::recv_ref`] does, if one is available, and does not wait.
    ///
    /// # Errors
    ///
    /// [`TryRecvError::Empty`] if no message is available, and those of [`Receiver::recv`].
    ///
    /// ```
    /// use lcmux::{Channel::Data, Config, Mux, TryRecvError, CHANNELS};
    ///
    /// let (mut mux, _driver) = Mux::new(Config::new([64; CHANNELS], 16))?;
    /// let mut receiver = mux.take_receiver(Data).unwrap();
    /// assert!(matches!(receiver.try_recv_ref(), Err(TryRecvError::Empty)));
    /// # Ok::<(), lcmux::MuxFault>(())
    /// ```
    pub fn try_recv_ref(&mut self) -> Result<Option<Message<'_>>, TryRecvError> {
        match self.shared.with(|state| state.lend(self.channel))? {
            Take::Took(front) => Ok(self.borrowed(Some(front))),
            Take::Ended => Ok(None),
            Take::Empty => Err(TryRecvError::Empty),
        }
    }

    /// Returns the free bytes of the ring buffer that may be issued now. The bytes of a borrowed message are not
    /// free.
    pub fn room(&self) -> u32 {
        self.shared.with(|state| state.room(self.channel))
    }

    /// Issues `amount` guarantees, beside those that the policy issues. It does not wait.
    ///
    /// # Errors
    ///
    /// [`CallError::Closed`] if the session is closed or over; else [`CallError::Refused`] with
    /// `Refusal::ChannelFinished`, `Refusal::ZeroAmount`, `Refusal::PastReceiveLimit`, `Refusal::NoRoom` or
    /// `Refusal::TotalReached` (see [`Refusal`](crate::Refusal)).
    pub fn issue(&self, amount: u32) -> Result<(), CallError> {
        self.shared.with(|state| state.issue(self.channel, amount))
    }

    /// Sets the issue policy from here on. It also issues what an earlier plead kept back.
    ///
    /// # Errors
    ///
    /// [`MuxFault::BadMark`] if a low-water mark is 0 or above the size of the ring buffer.
    pub fn set_issue_policy(&self, policy: IssuePolicy) -> Result<(), MuxFault> {
        let channel = self.channel;
        self.shared.with(|state| {
            policy.judge(channel, state.capacity(channel))?;
            state.set_issue_policy(channel, policy);
            Ok(())
        })
    }

    /// Pleads: asks the sender to hold at most `target` guarantees and to absolve the others. From here on the policy
    /// issues no more than `target`, until the policy is set again. A plead that is refused leaves the policy as it is.
    /// It does not wait.
    ///
    /// # Errors
    ///
    /// The first of these that applies: [`CallError::Closed`] if the session is closed or over,
    /// `Refusal::ChannelFinished`, `Refusal::NothingToAsk` (see [`Refusal`](crate::Refusal)).
    pub fn plead(&self, target: u32) -> Result<(), CallError> {
        self.shared.with(|state| state.plead(self.channel, target))
    }

    /// Limits issuing to at most `bound` guarantees from here on. It does not wait.
    ///
    /// # Errors
    ///
    /// The first of these that applies: [`CallError::Closed`] if the session is closed or over,
    /// `Refusal::ChannelFinished`, `Refusal::BoundTooLarge`, `Refusal::LimitRaised` (see
    /// [`Refusal`](crate::Refusal)).
    pub fn limit(&self, bound: u64) -> Result<(), CallError> {
        self.shared
            .with(|state| state.limit_receiving(self.channel, bound))
    }

    /// Returns the receiver's ledger of the channel.
    pub fn book(&self) -> ServerBook {
        self.shared.with(|state| state.server(self.channel))
    }

    /// Returns the statistics of the channel.
    pub fn stats(&self) -> Stats {
        self.shared.with(|state| state.stats(self.channel))
    }
}

impl Drop for Receiver {
    fn drop(&mut self) {
        self.shared.with(|state| match thread::panicking() {
            true => state.fail(Closed::Aborted),
            false => state.drop_receiver(self.channel),
        });
    }
}

impl fmt::Debug for Receiver {
    fn fmt(&self, f: &mut Formatter<'_>) -> fmt::Result {
        f.debug_struct("Receiver")
            .field("channel", &self.channel)
            .finish_non_exhaustive()
    }
}

/// A borrowed message: a zero-copy view into the ring buffer of its channel. Its bytes are issued again when it is
/// dropped.
///
/// ```
/// use lcmux::{Channel::Data, Config, Mux, CHANNELS};
/// # use std::{os::unix::net::UnixStream, thread};
/// # let (here, there) = UnixStream::pair()?;
/// # let (mut alice, driver) = Mux::new(Config::new([64; CHANNELS], 16))?;
/// # thread::spawn(move || driver.run_blocking(here.try_clone()?, here));
/// # let (mut bob, driver) = Mux::new(Config::new([64; CHANNELS], 16))?;
/// # thread::spawn(move || driver.run_blocking(there.try_clone()?, there));
/// # alice.take_sender(Data).unwrap().send_blocking(b"hello")?;
/// let mut receiver = bob.take_receiver(Data).unwrap();
/// while let Some(message) = receiver.recv_ref_blocking()? {
///     assert_eq!(*message, *b"hello");
/// }
/// # Ok::<(), Box<dyn std::error::Error>>(())
/// ```
pub struct Message<'a> {
    receiver: &'a mut Receiver,
    front: Lent,
}

impl Deref for Message<'_> {
    type Target = [u8];

    fn deref(&self) -> &[u8] {
        &self.front
    }
}

impl AsRef<[u8]> for Message<'_> {
    fn as_ref(&self) -> &[u8] {
        self
    }
}

impl Drop for Message<'_> {
    fn drop(&mut self) {
        self.receiver.shared.give_back(self.receiver.channel);
    }
}

impl fmt::Debug for Message<'_> {
    fn fmt(&self, f: &mut Formatter<'_>) -> fmt::Result {
        f.debug_tuple("Message").field(&&**self).finish()
    }
}
