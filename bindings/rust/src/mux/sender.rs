use super::block::block_until;
use super::coop::Coop;
use super::owned_permit::OwnedPermit;
use super::shared::Shared;
use super::state::{Ask, Body, Call, State};
use crate::{CallError, Channel, ClientBook, Closed, SendError, SendTimeoutError, Stats};
use crate::{PollSender, Refusal, TrySendError};
use std::fmt::{self, Formatter};
use std::future::{poll_fn, Future};
use std::io::IoSlice;
use std::mem;
use std::pin::Pin;
use std::sync::Arc;
use std::task::{Context, Poll};
use std::thread;
use std::time::{Duration, Instant};

/// The sending handle of a channel.
///
/// [`Sender::send`] waits for guarantees and for a slot in the outbound queue: as a future, as
/// [`Sender::send_blocking`] for a thread, or up to the timeout of [`Sender::send_timeout`]. Several tasks may share
/// one sender by reference or by clones; their calls keep the order in which they began to wait.
/// [`PollSender`](crate::PollSender) polls the same calls.
///
/// When the last clone of a sender is dropped, its channel is finished: the peer's receiver gets all messages that
/// were sent, and then the end of the channel. In version One, which has no frame for that, a limit of 0 ends the
/// channel. A sender that a panic drops aborts the session, so that the peer does not take the messages so far for
/// all of them. A sender that an early return or an aborted task drops finishes the channel ([how to avoid
/// that](crate::Mux#early-returns-and-aborted-tasks)).
///
/// ```
/// use lcmux::{Channel::Data, Config, Mux, Needs, TrySendError, CHANNELS};
///
/// let (mut mux, _driver) = Mux::new(Config::new([64; CHANNELS], 16))?;
/// let sender = mux.take_sender(Data).unwrap();
/// let needs = Needs::Guarantees(5); // the peer has issued none yet
/// assert_eq!(sender.try_send(b"hello"), Err(TrySendError::Full(needs)));
/// # Ok::<(), lcmux::MuxFault>(())
/// ```
pub struct Sender {
    pub(super) shared: Arc<Shared>,
    pub(super) channel: Channel,
    pub(super) coop: Coop,
}

/// A call that waits, from its first poll until it completes or is dropped.
struct Sending<'a> {
    sender: &'a Sender,
    call: Call<'a>,
}

impl Sending<'_> {
    // Cancels the call. Returns whether it was cancelled: a call that was completed meanwhile is not.
    fn give_up(&mut self) -> bool {
        let Sender {
            shared, channel, ..
        } = self.sender;
        match self.call.ticket.take() {
            Some(ticket) => shared.with(|state| state.forget_send(*channel, ticket)),
            None => true,
        }
    }
}

impl Future for Sending<'_> {
    type Output = Result<(), SendError>;

    fn poll(mut self: Pin<&mut Self>, cx: &mut Context<'_>) -> Poll<Self::Output> {
        let Sending { sender, call } = &mut *self;
        match call.is_thread {
            true => sender.poll_at_once(cx, call),
            false => sender.coop.poll(cx, |cx| sender.poll_at_once(cx, call)),
        }
    }
}

impl Drop for Sending<'_> {
    fn drop(&mut self) {
        if let (false, Ask::Permit(len)) = (self.give_up(), self.call.ask) {
            // The permit was granted to a thread that panics.
            let Sender {
                shared, channel, ..
            } = self.sender;
            shared.with(|state| state.give_back(*channel, len));
        }
    }
}

/// The most messages that [`Sender::send_all`] sends under one lock.
const BATCH: usize = 64;

fn deadline(timeout: Duration) -> Option<Instant> {
    Instant::now().checked_add(timeout)
}

impl Sender {
    pub(super) fn new(shared: &Arc<Shared>, channel: Channel) -> Sender {
        Sender {
            shared: Arc::clone(shared),
            channel,
            coop: Coop::default(),
        }
    }

    fn sending<'a>(&'a self, ask: Ask<'a>, is_thread: bool) -> Sending<'a> {
        Sending {
            sender: self,
            call: Call {
                ask,
                is_thread,
                ticket: None,
            },
        }
    }

    fn poll_at_once(&self, cx: &mut Context<'_>, call: &mut Call) -> Poll<Result<(), SendError>> {
        self.shared
            .with(|state| state.poll_send(self.channel, call, cx.waker()))
    }

    // Makes a call for a thread and blocks it. A blocked thread cannot drop the call, so another thread may complete
    // it.
    fn block(&self, ask: Ask, deadline: Option<Instant>) -> Result<(), SendTimeoutError> {
        let mut call = self.sending(ask, true);
        match block_until(&mut call, deadline) {
            Some(sent) => Ok(sent?),
            None if call.give_up() => Err(SendTimeoutError::Timeout),
            None => Ok(()),
        }
    }

    fn block_for_good(&self, ask: Ask) -> Result<(), SendError> {
        self.block(ask, None).map_err(|error| match error {
            SendTimeoutError::Failed(error) => error,
            SendTimeoutError::Timeout => unreachable!("there is no deadline"),
        })
    }

    // The nearest length of a message that this side may send.
    pub(super) fn within_longest(&self, len: usize) -> usize {
        let longest = self.shared.with(|state| state.longest(self.channel));
        len.clamp(1, longest)
    }

    /// Returns the channel of this sender.
    pub fn channel(&self) -> Channel {
        self.channel
    }

    /// Sends a copy of the body as one message: 1 to 65,535 bytes, in version Two 1 to 1,048,576. It waits until the
    /// guarantees arrived and the call [can proceed](crate::Mux#scheduling). A message that can never be sent fails
    /// at once, but this side does not know the size of the peer's ring buffer: a message longer than that ring waits
    /// until the session ends. [`Stats::oversized`] shows such a wait, and [`Config::longest`](crate::Config::longest)
    /// makes it an error at the start.
    ///
    /// After 128 messages in a row that it did not wait for, its future yields once, so that other tasks run.
    ///
    /// # Cancel safety
    ///
    /// This method is cancel safe. The whole message is enqueued once the future completes. A future that is dropped
    /// before sends nothing, uses no guarantee, and leaves its slot of the wait queue to the next call.
    ///
    /// # Errors
    ///
    /// - [`SendError::Refused`] with `Refusal::ChannelFinished`, `Refusal::EmptyBody`, `Refusal::BodyTooLong` or
    ///   `Refusal::PastSendLimit` (see [`Refusal`](crate::Refusal)), or with `Refusal::OutOfMemory` if an allocation
    ///   failed and the same call may be made again.
    /// - [`SendError::Unwanted`] if the peer will not issue enough guarantees.
    /// - [`SendError::RingTooSmall`] if the peer issued fewer than the longest message that the application stated.
    /// - [`SendError::Closed`] once the session is closed or over, and with [`Closed::Remote`] if guarantees are
    ///   missing and the peer closed the session.
    pub async fn send(&self, body: &[u8]) -> Result<(), SendError> {
        self.sending(Ask::Message(body.into()), false).await
    }

    /// Sends a message that the call owns, such as a `Vec<u8>`, a `Box<[u8]>`, an `Arc<[u8]>` or a `Bytes`, and waits as
    /// [`Sender::send`] does. The future has a clone of the sender and borrows nothing, so it may be spawned, or kept
    /// while other messages are made. It is [`Send`] if the message is. The channel stays open until the future completes
    /// or is dropped.
    ///
    /// The message is copied once, into the outbound queue, as that of [`Sender::send`] is, and then dropped.
    ///
    /// # Cancel safety
    ///
    /// This method is cancel safe, as [`Sender::send`] is: nothing is sent before the future completes. A future that is
    /// dropped before drops the message, too. Clone the message if it is needed then, or wait for
    /// [a permit](Sender::reserve) instead.
    ///
    /// # Errors
    ///
    /// Those of [`Sender::send`].
    ///
    /// ```
    /// use lcmux::{SendError, Sender};
    /// use std::future::Future;
    ///
    /// /// A task that sends a message, for any executor.
    /// fn task(sender: &Sender, name: &str) -> impl Future<Output = Result<(), SendError>> + Send + 'static {
    ///     sender.send_owned(format!("hello, {name}").into_bytes())
    /// }
    /// # let _ = task;
    /// ```
    pub fn send_owned<B: AsRef<[u8]>>(
        &self,
        body: B,
    ) -> impl Future<Output = Result<(), SendError>> {
        let mut sender = self.clone();
        sender.coop = self.coop.fork();
        let mut sender = PollSender::new(sender);
        // The closure owns the message: if it borrowed it, the future would be `Send` only if the message were `Sync`, too.
        async move { poll_fn(move |cx| sender.poll_send(cx, body.as_ref())).await }
    }

    /// Sends a message, as [`Sender::send`] does, and blocks the thread. Do not call it from a task of an executor.
    ///
    /// # Errors
    ///
    /// Those of [`Sender::send`].
    pub fn send_blocking(&self, body: &[u8]) -> Result<(), SendError> {
        self.block_for_good(Ask::Message(body.into()))
    }

    /// Sends a message, as [`Sender::send_blocking`] does, and waits for at most `timeout`. A message that need not
    /// wait is sent even with a timeout of zero.
    ///
    /// # Errors
    ///
    /// [`SendTimeoutError::Timeout`] if the message was not sent in that time, and those of [`Sender::send`].
    pub fn send_timeout(&self, body: &[u8], timeout: Duration) -> Result<(), SendTimeoutError> {
        self.block(Ask::Message(body.into()), deadline(timeout))
    }

    /// Sends a message if it can proceed now and no call of this channel waits.
    ///
    /// # Errors
    ///
    /// [`TrySendError::Full`] if it would have to wait, and those of [`Sender::send`].
    pub fn try_send(&self, body: &[u8]) -> Result<(), TrySendError> {
        self.shared
            .with(|state| state.try_send(self.channel, Ask::Message(body.into())))
    }

    /// Sends messages in their order, and waits for each as [`Sender::send`] does. Up to 64 of them that can proceed are
    /// sent at once, which is cheaper than a call for each. Messages of other calls of this channel may come in between.
    ///
    /// A message that was sent is removed from the front of `messages`, so after an error the first one left is that
    /// which failed.
    ///
    /// # Cancel safety
    ///
    /// This method is cancel safe. If its future is dropped, `messages` has the messages that were not sent.
    ///
    /// # Errors
    ///
    /// Those of [`Sender::send`].
    ///
    /// ```
    /// use lcmux::{SendError, Sender};
    ///
    /// async fn send_lines(sender: &Sender, text: &str) -> Result<(), SendError> {
    ///     let lines: Vec<&str> = text.lines().filter(|line| !line.is_empty()).collect();
    ///     sender.send_all(&mut &lines[..]).await
    /// }
    /// # let _ = send_lines;
    /// ```
    pub async fn send_all<B: AsRef<[u8]>>(&self, messages: &mut &[B]) -> Result<(), SendError> {
        loop {
            if poll_fn(|cx| self.poll_batch(cx, messages)).await? == BATCH {
                continue;
            }
            let [first, rest @ ..] = *messages else {
                return Ok(());
            };
            self.send(first.as_ref()).await?;
            *messages = rest;
        }
    }

    /// Sends messages, as [`Sender::send_all`] does, and blocks the thread. Do not call it from a task of an executor.
    ///
    /// # Errors
    ///
    /// Those of [`Sender::send`].
    pub fn send_all_blocking<B: AsRef<[u8]>>(&self, messages: &mut &[B]) -> Result<(), SendError> {
        loop {
            if self.send_batch(messages)? == BATCH {
                continue;
            }
            let [first, rest @ ..] = *messages else {
                return Ok(());
            };
            self.send_blocking(first.as_ref())?;
            *messages = rest;
        }
    }

    fn poll_batch<B: AsRef<[u8]>>(
        &self,
        cx: &mut Context<'_>,
        messages: &mut &[B],
    ) -> Poll<Result<usize, SendError>> {
        let polled = self
            .coop
            .poll(cx, |_| Poll::Ready(self.send_batch(messages)));
        if let Poll::Ready(Ok(sent)) = polled {
            self.coop.count(sent.saturating_sub(1));
        }
        polled
    }

    // Sends the first messages, as far as they can proceed, and at most a batch. Their `as_ref` may be any code, and runs
    // outside of the lock.
    fn send_batch<B: AsRef<[u8]>>(&self, messages: &mut &[B]) -> Result<usize, SendError> {
        let batch = &messages[..messages.len().min(BATCH)];
        let mut bodies = [&[][..]; BATCH];
        for (body, message) in bodies.iter_mut().zip(batch) {
            *body = message.as_ref();
        }
        let bodies = &bodies[..batch.len()];
        let sent = self
            .shared
            .with(|state| state.try_send_all(self.channel, bodies))?;
        *messages = &messages[sent..];
        Ok(sent)
    }

    /// Sends the slices, one after the other, as one message: a header and its body need not be joined first. It waits
    /// as [`Sender::send`] does. The session joins the slices in memory of its own, of which it keeps up to 64 KiB for later
    /// messages, so each byte is copied twice.
    ///
    /// To wait in another way, [reserve](Sender::reserve) a permit and send with [`Permit::send_vectored`].
    ///
    /// # Cancel safety
    ///
    /// This method is cancel safe, as [`Sender::send`] is.
    ///
    /// # Errors
    ///
    /// Those of [`Sender::send`].
    ///
    /// ```
    /// use lcmux::{SendError, Sender};
    /// use std::io::IoSlice;
    ///
    /// async fn send_block(sender: &Sender, number: u32, block: &[u8]) -> Result<(), SendError> {
    ///     let header = number.to_be_bytes();
    ///     sender.send_vectored(&[IoSlice::new(&header), IoSlice::new(block)]).await
    /// }
    /// # let _ = send_block;
    /// ```
    pub async fn send_vectored(&self, slices: &[IoSlice<'_>]) -> Result<(), SendError> {
        self.sending(Ask::Message(slices.into()), false).await
    }

    /// Sends the slices as one message, as [`Sender::send_vectored`] does, and blocks the thread.
    ///
    /// # Errors
    ///
    /// Those of [`Sender::send`].
    pub fn send_vectored_blocking(&self, slices: &[IoSlice<'_>]) -> Result<(), SendError> {
        self.block_for_good(Ask::Message(slices.into()))
    }

    /// Sends the slices as one message, if it can proceed now and no call of this channel waits.
    ///
    /// # Errors
    ///
    /// Those of [`Sender::try_send`].
    pub fn try_send_vectored(&self, slices: &[IoSlice<'_>]) -> Result<(), TrySendError> {
        self.shared
            .with(|state| state.try_send(self.channel, Ask::Message(slices.into())))
    }

    /// Waits, as [`Sender::send`] does, until a message of `len` bytes can be sent, and returns a permit to send it.
    /// So the application need not build the message before it can be sent.
    ///
    /// # Cancel safety
    ///
    /// This method is cancel safe. A future that is dropped before it completes reserves nothing, and leaves its slot
    /// of the wait queue to the next call.
    ///
    /// # Errors
    ///
    /// Those of [`Sender::send`], apart from `Refusal::OutOfMemory`.
    pub async fn reserve(&self, len: usize) -> Result<Permit<'_>, SendError> {
        self.sending(Ask::Permit(len), false).await?;
        Ok(Permit { sender: self, len })
    }

    /// Reserves a permit, as [`Sender::reserve`] does, and blocks the thread.
    ///
    /// # Errors
    ///
    /// Those of [`Sender::reserve`].
    pub fn reserve_blocking(&self, len: usize) -> Result<Permit<'_>, SendError> {
        self.block_for_good(Ask::Permit(len))?;
        Ok(Permit { sender: self, len })
    }

    /// Reserves a permit, as [`Sender::reserve_blocking`] does, and waits for at most `timeout`.
    ///
    /// # Errors
    ///
    /// [`SendTimeoutError::Timeout`] if no permit was reserved in that time, and those of [`Sender::reserve`].
    pub fn reserve_timeout(
        &self,
        len: usize,
        timeout: Duration,
    ) -> Result<Permit<'_>, SendTimeoutError> {
        self.block(Ask::Permit(len), deadline(timeout))?;
        Ok(Permit { sender: self, len })
    }

    /// Reserves a permit if it can proceed now and no call of this channel waits.
    ///
    /// # Errors
    ///
    /// [`TrySendError::Full`] if it would have to wait, and those of [`Sender::reserve`].
    pub fn try_reserve(&self, len: usize) -> Result<Permit<'_>, TrySendError> {
        self.shared
            .with(|state| state.try_send(self.channel, Ask::Permit(len)))?;
        Ok(Permit { sender: self, len })
    }

    /// Reserves a permit, as [`Sender::reserve`] does, that has a clone of the sender: it borrows nothing, so it may
    /// move to another task.
    ///
    /// # Cancel safety
    ///
    /// This method is cancel safe, as [`Sender::reserve`] is.
    ///
    /// # Errors
    ///
    /// Those of [`Sender::reserve`].
    ///
    /// ```
    /// use lcmux::{SendError, Sender};
    /// use std::future::Future;
    ///
    /// /// Reserves, and returns a task that sends once the message is made.
    /// async fn send_later(
    ///     sender: &Sender,
    ///     message: impl Future<Output = Vec<u8>> + Send + 'static,
    /// ) -> Result<impl Future<Output = Result<(), SendError>> + Send + 'static, SendError> {
    ///     let permit = sender.reserve_owned(4096).await?;
    ///     Ok(async move { permit.send(&message.await) })
    /// }
    /// ```
    pub async fn reserve_owned(&self, len: usize) -> Result<OwnedPermit, SendError> {
        Ok(self.reserve(len).await?.into_owned())
    }

    /// Reserves a permit that has a clone of the sender, if it can proceed now and no call of this channel waits.
    ///
    /// # Errors
    ///
    /// Those of [`Sender::try_reserve`].
    ///
    /// ```
    /// use lcmux::{Channel::Data, Config, Mux, Needs, TrySendError, CHANNELS};
    ///
    /// let (mut mux, _driver) = Mux::new(Config::new([64; CHANNELS], 16))?;
    /// let sender = mux.take_sender(Data).unwrap();
    /// let full = TrySendError::Full(Needs::Guarantees(5)); // the peer has issued none yet
    /// assert_eq!(sender.try_reserve_owned(5).unwrap_err(), full);
    /// # Ok::<(), lcmux::MuxFault>(())
    /// ```
    pub fn try_reserve_owned(&self, len: usize) -> Result<OwnedPermit, TrySendError> {
        Ok(self.try_reserve(len)?.into_owned())
    }

    /// Finishes the channel: this side sends nothing more on it and waives its guarantees. The peer's receiver gets
    /// all messages that were sent, and then the end of the channel. It does not wait: calls that already wait precede
    /// it, and later calls and permits are refused by `Refusal::ChannelFinished`. In version One a limit of 0 ends the
    /// channel, so there later sends are refused by `Refusal::PastSendLimit`.
    ///
    /// # Errors
    ///
    /// The first of these that applies: [`CallError::Closed`] if the session is closed or over,
    /// `Refusal::ChannelFinished` if the channel is finished already (see [`Refusal`](crate::Refusal)).
    pub fn finish(&self) -> Result<(), CallError> {
        self.shared.with(|state| state.finish(self.channel))
    }

    /// Limits sending to at most `bound` bytes from here on; 0 ends the channel. It does not wait: calls that already
    /// wait precede it, and a later call or permit for more bytes is refused.
    ///
    /// # Errors
    ///
    /// The first of these that applies: [`CallError::Closed`] if the session is closed or over,
    /// `Refusal::ChannelFinished`, `Refusal::BoundTooLarge`, `Refusal::LimitRaised` (see
    /// [`Refusal`](crate::Refusal)).
    pub fn limit(&self, bound: u64) -> Result<(), CallError> {
        self.shared
            .with(|state| state.limit_sending(self.channel, bound))
    }

    /// Absolves: gives `amount` guarantees back to the receiver. They may be guarantees that a call waits to use, but
    /// not those that permits own. It does not wait.
    ///
    /// # Errors
    ///
    /// The first of these that applies: [`CallError::Closed`] if the session is closed or over,
    /// `Refusal::ChannelFinished`, `Refusal::ZeroAmount`, `Refusal::NotHeld` (see [`Refusal`](crate::Refusal)).
    pub fn absolve(&self, amount: u32) -> Result<(), CallError> {
        self.shared
            .with(|state| state.absolve(self.channel, amount))
    }

    /// Returns the target of the receiver's last plead: the most guarantees that this side should hold. `None` once
    /// the plead was honoured, even if guarantees that were issued meanwhile exceed the target.
    /// [`Driver::on_frame`](crate::Driver::on_frame) reports the arrival of a plead.
    pub fn pleaded(&self) -> Option<u32> {
        self.shared.with(|state| state.pleaded(self.channel))
    }

    /// Honours the receiver's last plead, if [`PleadPolicy::ByCaller`](crate::PleadPolicy::ByCaller) leaves that to
    /// the application. It absolves the guarantees above the target and returns how many these are. Guarantees that
    /// permits own are kept, and then the plead stays pending. It does not wait.
    ///
    /// # Errors
    ///
    /// [`CallError::Closed`] if the session is closed or over, else [`CallError::Refused`] with
    /// `Refusal::ChannelFinished` (see [`Refusal`](crate::Refusal)).
    pub fn honour(&self) -> Result<u32, CallError> {
        self.shared.with(|state| state.honour(self.channel))
    }

    /// Returns the guarantees that calls may use: those that this side holds and no permit owns.
    pub fn held(&self) -> u64 {
        self.shared.with(|state| state.held(self.channel))
    }

    /// Returns the sender's ledger of the channel. Its `held` includes the guarantees that permits own.
    pub fn book(&self) -> ClientBook {
        self.shared.with(|state| state.client(self.channel))
    }

    /// Returns the statistics of the channel.
    pub fn stats(&self) -> Stats {
        self.shared.with(|state| state.stats(self.channel))
    }
}

/// Makes another handle of the channel. The channel is finished once the last clone is dropped.
impl Clone for Sender {
    fn clone(&self) -> Sender {
        self.shared.with(|state| state.join(self.channel));
        Sender::new(&self.shared, self.channel)
    }
}

impl Drop for Sender {
    fn drop(&mut self) {
        self.shared.with(|state| match thread::panicking() {
            true => state.fail(Closed::Aborted),
            false => state.drop_sender(self.channel),
        });
    }
}

impl fmt::Debug for Sender {
    fn fmt(&self, f: &mut Formatter<'_>) -> fmt::Result {
        f.debug_struct("Sender")
            .field("channel", &self.channel)
            .finish_non_exhaustive()
    }
}

/// The right to send one message: a permit holds guarantees and a slot until it is used or dropped.
///
/// No other call of the channel uses its guarantees, and no policy absolves them. A dropped permit returns both, and
/// notifies the calls that wait for them. It holds the channel's own slot if nothing else of the channel is under way,
/// and else a shared slot. A permit that is kept for long delays its own channel, and no other.
///
/// ```
/// use lcmux::{Channel::Data, Config, Mux, CHANNELS};
/// # use std::{os::unix::net::UnixStream, thread};
/// # let (here, there) = UnixStream::pair()?;
/// # let (mut alice, driver) = Mux::new(Config::new([64; CHANNELS], 16))?;
/// # thread::spawn(move || driver.run_blocking(here.try_clone()?, here));
/// # let (_bob, driver) = Mux::new(Config::new([64; CHANNELS], 16))?;
/// # thread::spawn(move || driver.run_blocking(there.try_clone()?, there));
/// let sender = alice.take_sender(Data).unwrap();
/// let permit = sender.reserve_blocking(60)?;
/// assert_eq!(sender.held(), 4);
/// permit.send(b"short")?; // and returns the other guarantees
/// assert_eq!(sender.held(), 59);
/// # Ok::<(), Box<dyn std::error::Error>>(())
/// ```
#[must_use = "a dropped permit returns its guarantees"]
pub struct Permit<'a> {
    pub(super) sender: &'a Sender,
    pub(super) len: usize,
}

impl Permit<'_> {
    /// Returns the length of the longest message that the permit allows.
    #[allow(clippy::len_without_is_empty)]
    pub fn len(&self) -> usize {
        self.len
    }

    /// Sends the message at once and returns the guarantees that it does not need. This uses up the permit, whatever
    /// the result.
    ///
    /// # Errors
    ///
    /// - [`SendError::Refused`] with `Refusal::EmptyBody` if the message is empty, with `Refusal::NoGuarantee` if it
    ///   is longer than the permit, with `Refusal::OutOfMemory` if an allocation failed, or with the refusal of a
    ///   finish or a limit that this side set meanwhile (see [`Refusal`](crate::Refusal)).
    /// - [`SendError::Closed`] if the session was closed or ended meanwhile.
    pub fn send(self, body: &[u8]) -> Result<(), SendError> {
        self.send_body(body.into())
    }

    /// Sends the slices, one after the other, as one message, as [`Permit::send`] does.
    ///
    /// # Errors
    ///
    /// Those of [`Permit::send`].
    ///
    /// ```
    /// use lcmux::{SendTimeoutError, Sender};
    /// use std::{io::IoSlice, time::Duration};
    ///
    /// fn send_block(sender: &Sender, number: u32, block: &[u8]) -> Result<(), SendTimeoutError> {
    ///     let header = number.to_be_bytes();
    ///     let permit = sender.reserve_timeout(header.len() + block.len(), Duration::from_secs(1))?;
    ///     permit.send_vectored(&[IoSlice::new(&header), IoSlice::new(block)])?;
    ///     Ok(())
    /// }
    /// # let _ = send_block;
    /// ```
    pub fn send_vectored(self, slices: &[IoSlice<'_>]) -> Result<(), SendError> {
        self.send_body(slices.into())
    }

    /// Lets a closure write the message in place, sends as many bytes as the closure returns, and returns that number.
    /// The closure gets [`len`](Permit::len) bytes, all 0, in memory of the session. So an encoder needs no buffer of
    /// its own, and the message is copied once, into the outbound queue.
    ///
    /// The closure runs without the session's lock: it may take its time, and make other calls of the session.
    ///
    /// # Errors
    ///
    /// Those of [`Permit::send`] for the bytes that were written: `Refusal::EmptyBody` if the closure returns 0,
    /// `Refusal::NoGuarantee` if it returns more than it got. The closure does not run if there is no memory for the
    /// message, which is `Refusal::OutOfMemory`.
    ///
    /// # Panics
    ///
    /// If the closure panics: the permit is dropped then, and returns its guarantees.
    ///
    /// ```
    /// use lcmux::{SendError, Sender};
    ///
    /// async fn send_block(sender: &Sender, number: u32, block: &[u8]) -> Result<usize, SendError> {
    ///     let permit = sender.reserve(4 + block.len()).await?;
    ///     permit.fill(|message| {
    ///         message[..4].copy_from_slice(&number.to_be_bytes());
    ///         message[4..].copy_from_slice(block);
    ///         message.len()
    ///     })
    /// }
    /// # let _ = send_block;
    /// ```
    pub fn fill(self, fill: impl FnOnce(&mut [u8]) -> usize) -> Result<usize, SendError> {
        let Permit { sender, len } = self;
        let filled = filled(&sender.shared, len, fill)?;
        mem::forget(self);
        sender
            .shared
            .with(|state| state.send_filled(sender.channel, len, filled))
    }

    fn send_body(self, body: Body) -> Result<(), SendError> {
        let Permit { sender, len } = self;
        mem::forget(self);
        sender
            .shared
            .with(|state| state.send_reserved(sender.channel, len, body))
    }

    /// Gives the permit a clone of its sender, so that it borrows nothing.
    ///
    /// ```
    /// use lcmux::{OwnedPermit, SendError, Sender};
    ///
    /// /// Blocks the thread until there is a permit that may move to another one.
    /// fn owned_permit(sender: &Sender) -> Result<OwnedPermit, SendError> {
    ///     Ok(sender.reserve_blocking(4096)?.into_owned())
    /// }
    /// # let _ = owned_permit;
    /// ```
    pub fn into_owned(self) -> OwnedPermit {
        let Permit { sender, len } = self;
        let owned = OwnedPermit::new(sender.clone(), len);
        mem::forget(self);
        owned
    }
}

/// Lets a closure fill memory of the session, which no lock guards meanwhile. Returns it with the closure's result.
pub(super) fn filled(
    shared: &Shared,
    len: usize,
    fill: impl FnOnce(&mut [u8]) -> usize,
) -> Result<(Vec<u8>, usize), SendError> {
    let mut memory = shared.with(State::take_memory);
    let exact = memory.try_reserve_exact(len);
    exact.map_err(|_| Refusal::OutOfMemory)?;
    memory.resize(len, 0);
    let count = fill(&mut memory);
    Ok((memory, count))
}

impl Drop for Permit<'_> {
    fn drop(&mut self) {
        self.sender
            .shared
            .with(|state| state.give_back(self.sender.channel, self.len));
    }
}

impl fmt::Debug for Permit<'_> {
    fn fmt(&self, f: &mut Formatter<'_>) -> fmt::Result {
        f.debug_struct("Permit").field("len", &self.len).finish()
    }
}

#[cfg(test)]
mod tests {
    use super::*;
    use crate::{Channel::Data, Config, Mux, CHANNELS};
    use std::task::Wake;

    struct Noop;

    impl Wake for Noop {
        fn wake(self: Arc<Noop>) {}
    }

    // As when a panic unwinds a waiting thread.
    #[test]
    fn a_permit_that_was_granted_to_a_dropped_call_is_returned() {
        let (mut mux, _driver) = Mux::new(Config::new([64; CHANNELS], 14)).unwrap();
        let sender = mux.take_sender(Data).unwrap();
        let mut call = sender.sending(Ask::Permit(5), true);
        let waker = Arc::new(Noop).into();
        let polled = Pin::new(&mut call).poll(&mut Context::from_waker(&waker));
        assert!(polled.is_pending());
        let delivered = sender.shared.with(|state| {
            state.pull(&mut [0; 64], false, &waker);
            state.deliver(b"\x21\0\0\0\x08")
        });
        assert_eq!(delivered, Ok((5, 1)));
        assert_eq!(sender.held(), 3);
        drop(call);
        assert_eq!(sender.held(), 8);
        assert!(sender.try_reserve(8).is_ok());
    }
}
