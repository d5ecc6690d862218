use futures_sink::Sink;
use lcmux::{PollSender, Refusal, SendError, Sender};
use std::fmt::{self, Formatter};
use std::pin::Pin;
use std::task::{ready, Context, Poll};

/// A channel as a sink of messages, of any type that is bytes, such as `Vec<u8>`, `&[u8]` or `Bytes`.
///
/// The sink buffers one message, and takes no guarantee and no slot for a message that it does not have yet: a permit
/// is for a length, which `poll_ready` cannot know. So the calls are these:
///
/// - `poll_ready` is ready once no message is buffered. A buffered message is sent first, and waits for its guarantees
///   and a slot as [`Sender::send`] does. That is the backpressure: a producer is at most one message ahead of what
///   the channel accepts.
/// - `start_send` buffers a message, and sends nothing. It fails only if the sink is closed.
/// - `poll_flush` is ready once the buffered message was sent: it is in the session's outbound queue then, and the
///   driver writes it. It may not be written yet, and the peer may not have received it.
/// - `poll_close` flushes and then drops the sender. If that is its last clone, the channel is finished: the peer's
///   receiver gets all messages, and then the end of the channel. The other direction of the channel stays open.
///
/// `SinkExt::send` flushes its message, and `SinkExt::feed` leaves it in the buffer.
///
/// After 128 messages in a row that it did not wait for, the sink yields once, so that other tasks run.
///
/// # Errors
///
/// Each call returns those of [`Sender::send`] for the buffered message, which is dropped then. After a refusal the
/// sink may be used for other messages. A closed sink refuses a message by `Refusal::ChannelFinished`.
///
/// # Cancel safety
///
/// A poll that is pending sends nothing, and the message stays in the buffer. So a future of `SinkExt::send`, `feed`,
/// `flush` or `close` may be dropped, and the next call goes on. Whether a `send` that was dropped had given its message
/// to the sink is not known to the caller: [`SenderSink::take`] returns the message that is still buffered.
///
/// A buffered message that waits keeps its slot in the wait queue of its channel, also while nobody polls the sink.
/// The calls of other clones of the sender wait behind it. [`SenderSink::take`] and dropping the sink end that.
///
/// Dropping the sink drops a buffered message unsent, and the sender with it, so the peer may observe the end of the
/// channel without that message. Close or flush the sink before. A `StreamExt::forward` that fails drops its sink, too:
/// if the peer must not take that for the end of the channel, keep a clone of the sender, and abort the session
/// ([early returns](lcmux::Mux#early-returns-and-aborted-tasks)).
///
/// # Panics
///
/// `start_send` panics if a message is buffered: the caller must have observed that `poll_ready` is ready.
///
/// ```
/// use futures_util::SinkExt;
/// use lcmux_futures::lcmux::{SendError, Sender};
/// use lcmux_futures::SenderSink;
///
/// /// Sends the messages and finishes the channel.
/// async fn send_all(sender: Sender, messages: Vec<Vec<u8>>) -> Result<(), SendError> {
///     let mut sink = SenderSink::new(sender);
///     for message in messages {
///         sink.feed(message).await?; // waits until the message before it was sent
///     }
///     sink.close().await // sends the last one
/// }
/// # let _ = send_all;
/// ```
#[must_use = "a sink does nothing unless it is polled"]
pub struct SenderSink<T = Vec<u8>> {
    /// The sender, until the sink is closed.
    sender: Option<PollSender>,
    buffered: Option<T>,
}

impl<T> SenderSink<T> {
    /// Makes a sink without a buffered message.
    pub fn new(sender: Sender) -> SenderSink<T> {
        SenderSink {
            sender: Some(PollSender::new(sender)),
            buffered: None,
        }
    }

    /// Returns the sender, unless the sink is closed. Its calls wait behind a buffered message that waits.
    pub fn get_ref(&self) -> Option<&Sender> {
        self.sender.as_ref().map(PollSender::get_ref)
    }

    /// Takes the buffered message back, if there is one: it is not sent, and leaves its slot of the wait queue to the
    /// next call.
    ///
    /// ```
    /// use futures_util::SinkExt;
    /// use lcmux_futures::lcmux::{SendError, Sender};
    /// use lcmux_futures::SenderSink;
    /// use std::time::Duration;
    ///
    /// /// Sends a message within a second, or returns it.
    /// async fn send_in_time(sink: &mut SenderSink, message: Vec<u8>) -> Result<Option<Vec<u8>>, SendError> {
    ///     sink.feed(message).await?;
    ///     match tokio::time::timeout(Duration::from_secs(1), sink.flush()).await {
    ///         Ok(sent) => sent.map(|()| None),
    ///         Err(_) => Ok(sink.take()),
    ///     }
    /// }
    /// # let _ = send_in_time;
    /// ```
    pub fn take(&mut self) -> Option<T> {
        if let Some(sender) = &mut self.sender {
            sender.cancel();
        }
        self.buffered.take()
    }

    /// Returns the sender, unless the sink is closed. A buffered message is dropped unsent.
    pub fn into_inner(self) -> Option<Sender> {
        self.sender.map(PollSender::into_inner)
    }
}

impl<T: AsRef<[u8]>> SenderSink<T> {
    // Sends the buffered message, if there is one.
    fn poll_send(&mut self, cx: &mut Context<'_>) -> Poll<Result<(), SendError>> {
        let (Some(sender), Some(message)) = (&mut self.sender, &self.buffered) else {
            return Poll::Ready(Ok(()));
        };
        let sent = ready!(sender.poll_send(cx, message.as_ref()));
        self.buffered = None;
        Poll::Ready(sent)
    }
}

// No part of the sink is pinned.
impl<T> Unpin for SenderSink<T> {}

impl<T: AsRef<[u8]>> Sink<T> for SenderSink<T> {
    type Error = SendError;

    fn poll_ready(mut self: Pin<&mut Self>, cx: &mut Context<'_>) -> Poll<Result<(), SendError>> {
        match self.sender {
            Some(_) => self.poll_send(cx),
            None => Poll::Ready(Err(Refusal::ChannelFinished.into())),
        }
    }

    fn start_send(mut self: Pin<&mut Self>, message: T) -> Result<(), SendError> {
        if self.sender.is_none() {
            return Err(Refusal::ChannelFinished.into());
        }
        assert!(
            self.buffered.is_none(),
            "start_send was called before poll_ready was ready"
        );
        self.buffered = Some(message);
        Ok(())
    }

    fn poll_flush(mut self: Pin<&mut Self>, cx: &mut Context<'_>) -> Poll<Result<(), SendError>> {
        self.poll_send(cx)
    }

    fn poll_close(mut self: Pin<&mut Self>, cx: &mut Context<'_>) -> Poll<Result<(), SendError>> {
        ready!(self.poll_send(cx))?;
        self.sender = None;
        Poll::Ready(Ok(()))
    }
}

impl<T> From<Sender> for SenderSink<T> {
    fn from(sender: Sender) -> SenderSink<T> {
        SenderSink::new(sender)
    }
}

impl<T> fmt::Debug for SenderSink<T> {
    fn fmt(&self, f: &mut Formatter<'_>) -> fmt::Result {
        f.debug_struct("SenderSink")
            .field("sender", &self.sender)
            .field("is_buffered", &self.buffered.is_some())
            .finish()
    }
}
