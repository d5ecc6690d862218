use super::sender::{Permit, Sender};
use super::state::{Ask, Call};
use crate::SendError;
use std::fmt::{self, Formatter};
use std::task::{ready, Context, Poll};

/// A sender that is polled, for futures and sinks that are written by hand. [`Receiver::poll_recv`] is the same for a
/// receiver.
///
/// It holds at most one waiting call, which keeps its slot of the channel's wait queue between two polls. Nothing is
/// boxed. A call waits from a poll that is pending until
///
/// - a poll is ready;
/// - a poll is for another length: that begins a new call, at the end of the wait queue;
/// - it is cancelled, by [`PollSender::cancel`] or by dropping the `PollSender`.
///
/// The wait queue knows the length of a message and not its bytes. So a poll may be for another message of the same
/// length, or for a permit in place of a message, and keeps the slot.
///
/// A waiting call that is not polled again delays its own channel ([scheduling](crate::Mux#scheduling)): the later
/// calls of all clones of the sender, and the end of the channel, wait behind it. Cancel a call that is given up.
///
/// # Cancel safety
///
/// A pending poll sends nothing, reserves nothing and uses no guarantee. A future that polls a `PollSender` which it
/// does not own may be dropped at any time, and the next future continues the call.
///
/// [`Receiver::poll_recv`]: crate::Receiver::poll_recv
///
/// ```
/// use lcmux::{PollSender, SendError};
/// use std::future::Future;
/// use std::pin::Pin;
/// use std::task::{ready, Context, Poll};
///
/// /// Sends messages one by one.
/// struct SendAll {
///     sender: PollSender,
///     messages: std::vec::IntoIter<Vec<u8>>,
/// }
///
/// impl Future for SendAll {
///     type Output = Result<(), SendError>;
///
///     fn poll(mut self: Pin<&mut Self>, cx: &mut Context<'_>) -> Poll<Self::Output> {
///         let SendAll { sender, messages } = &mut *self;
///         while let Some(message) = messages.as_slice().first() {
///             ready!(sender.poll_send(cx, message))?;
///             messages.next();
///         }
///         Poll::Ready(Ok(()))
///     }
/// }
/// ```
pub struct PollSender {
    sender: Sender,
    waiting: Option<Waiting>,
}

/// A waiting call: the ticket names its slot of the wait queue.
#[derive(Clone, Copy)]
struct Waiting {
    ticket: u64,
    len: usize,
}

impl PollSender {
    /// Makes a sender that is polled.
    pub fn new(sender: Sender) -> PollSender {
        PollSender {
            sender,
            waiting: None,
        }
    }

    /// Polls to send a copy of the body as one message, as [`Sender::send`] does. Only the last waker is registered,
    /// and it is notified once. The message is that of the poll that is ready: it is enqueued then, whole.
    ///
    /// # Errors
    ///
    /// Those of [`Sender::send`].
    ///
    /// ```
    /// use lcmux::{PollSender, SendError};
    /// use std::future::poll_fn;
    ///
    /// async fn send(sender: &mut PollSender, body: &[u8]) -> Result<(), SendError> {
    ///     poll_fn(|cx| sender.poll_send(cx, body)).await
    /// }
    /// # let _ = send;
    /// ```
    pub fn poll_send(&mut self, cx: &mut Context<'_>, body: &[u8]) -> Poll<Result<(), SendError>> {
        self.poll(cx, Ask::Message(body.into()))
    }

    /// Polls for a permit to send one message of `len` bytes, as [`Sender::reserve`] does. Only the last waker is
    /// registered, and it is notified once. [`Permit::into_owned`] makes the permit one that borrows nothing.
    ///
    /// # Errors
    ///
    /// Those of [`Sender::reserve`].
    ///
    /// ```
    /// use lcmux::{OwnedPermit, Permit, PollSender, SendError};
    /// use std::future::poll_fn;
    ///
    /// async fn reserve(sender: &mut PollSender) -> Result<OwnedPermit, SendError> {
    ///     poll_fn(|cx| sender.poll_reserve(cx, 4096).map_ok(Permit::into_owned)).await
    /// }
    /// # let _ = reserve;
    /// ```
    pub fn poll_reserve(
        &mut self,
        cx: &mut Context<'_>,
        len: usize,
    ) -> Poll<Result<Permit<'_>, SendError>> {
        ready!(self.poll(cx, Ask::Permit(len)))?;
        let sender = &self.sender;
        Poll::Ready(Ok(Permit { sender, len }))
    }

    fn poll(&mut self, cx: &mut Context<'_>, ask: Ask) -> Poll<Result<(), SendError>> {
        let len = ask.len();
        if self.waiting.is_some_and(|waiting| waiting.len != len) {
            self.cancel();
        }
        let PollSender { sender, waiting } = self;
        let Sender {
            shared,
            channel,
            coop,
        } = &*sender;
        let mut call = Call {
            ask,
            is_thread: false,
            ticket: waiting.map(|waiting| waiting.ticket),
        };
        coop.poll(cx, |cx| {
            shared.with(|state| {
                let polled = state.poll_send(*channel, &mut call, cx.waker());
                // Before a hook or a waker runs: if it panics, the slot is still known.
                *waiting = call.ticket.map(|ticket| Waiting { ticket, len });
                polled
            })
        })
    }

    /// Cancels the waiting call, and leaves its slot of the wait queue to the next call. Returns whether a call
    /// waited.
    ///
    /// ```
    /// use lcmux::{Channel::Data, Config, Mux, PollSender, CHANNELS};
    ///
    /// let (mut mux, _driver) = Mux::new(Config::new([64; CHANNELS], 16))?;
    /// let mut sender = PollSender::new(mux.take_sender(Data).unwrap());
    /// assert!(!sender.cancel());
    /// # Ok::<(), lcmux::MuxFault>(())
    /// ```
    pub fn cancel(&mut self) -> bool {
        let Some(Waiting { ticket, .. }) = self.waiting.take() else {
            return false;
        };
        let Sender {
            shared, channel, ..
        } = &self.sender;
        shared.with(|state| state.forget_send(*channel, ticket))
    }

    /// Returns the sender. Its calls wait behind the one that this `PollSender` holds.
    pub fn get_ref(&self) -> &Sender {
        &self.sender
    }

    /// Cancels the waiting call, if there is one, and returns the sender.
    pub fn into_inner(self) -> Sender {
        self.sender.clone()
    }
}

/// Cancels the waiting call, if there is one, and drops the sender.
impl Drop for PollSender {
    fn drop(&mut self) {
        self.cancel();
    }
}

impl From<Sender> for PollSender {
    fn from(sender: Sender) -> PollSender {
        PollSender::new(sender)
    }
}

impl fmt::Debug for PollSender {
    fn fmt(&self, f: &mut Formatter<'_>) -> fmt::Result {
        f.debug_struct("PollSender")
            .field("channel", &self.sender.channel())
            .field("is_waiting", &self.waiting.is_some())
            .finish()
    }
}
