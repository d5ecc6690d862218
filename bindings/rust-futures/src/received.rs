use crate::ReceiverStream;
use bytes::Bytes;
use futures_core::stream::{FusedStream, Stream};
use lcmux::{Closed, Receiver, RecvTimeoutError, TryRecvError};
use std::future::Future;
use std::pin::Pin;
use std::task::{Context, Poll};
use std::time::Duration;

/// Receives messages as [`Bytes`]: the calls of a [`Receiver`], with the feature `bytes`.
///
/// A message is copied once, out of the ring buffer of its channel, as by [`Receiver::recv`]. `Bytes` takes that memory
/// over, so clones and parts of the message are not copied again.
///
/// ```
/// use bytes::{Buf, Bytes};
/// use lcmux_futures::lcmux::{Closed, Receiver};
/// use lcmux_futures::ReceiverExt;
///
/// /// Receives a block: its number, and its bytes.
/// async fn recv_block(receiver: &mut Receiver) -> Result<Option<(u64, Bytes)>, Closed> {
///     let message = receiver.recv_bytes().await?;
///     Ok(message.filter(|it| it.len() >= 8).map(|mut it| (it.get_u64(), it)))
/// }
/// # let _ = recv_block;
/// ```
pub trait ReceiverExt: sealed::Sealed {
    /// Receives the next message, as [`Receiver::recv`] does.
    ///
    /// # Cancel safety
    ///
    /// This method is cancel safe: a future that is dropped before it completes takes no message.
    ///
    /// # Errors
    ///
    /// Those of [`Receiver::recv`].
    fn recv_bytes(&mut self) -> RecvBytes<'_>;

    /// Polls for the next message, as [`Receiver::poll_recv`] does.
    ///
    /// # Errors
    ///
    /// Those of [`Receiver::recv`].
    fn poll_recv_bytes(&mut self, cx: &mut Context<'_>) -> Poll<Result<Option<Bytes>, Closed>>;

    /// Receives the next message, as [`Receiver::recv_blocking`] does, and blocks the thread.
    ///
    /// # Errors
    ///
    /// Those of [`Receiver::recv`].
    fn recv_bytes_blocking(&mut self) -> Result<Option<Bytes>, Closed>;

    /// Receives the next message, as [`Receiver::recv_timeout`] does, and waits for at most `timeout`.
    ///
    /// # Errors
    ///
    /// Those of [`Receiver::recv_timeout`].
    fn recv_bytes_timeout(&mut self, timeout: Duration) -> Result<Option<Bytes>, RecvTimeoutError>;

    /// Receives the next message if one is available, as [`Receiver::try_recv`] does.
    ///
    /// # Errors
    ///
    /// Those of [`Receiver::try_recv`].
    fn try_recv_bytes(&mut self) -> Result<Option<Bytes>, TryRecvError>;
}

mod sealed {
    pub trait Sealed {}
    impl Sealed for lcmux::Receiver {}
}

impl ReceiverExt for Receiver {
    fn recv_bytes(&mut self) -> RecvBytes<'_> {
        RecvBytes { receiver: self }
    }

    fn poll_recv_bytes(&mut self, cx: &mut Context<'_>) -> Poll<Result<Option<Bytes>, Closed>> {
        self.poll_recv(cx)
            .map_ok(|message| message.map(Bytes::from))
    }

    fn recv_bytes_blocking(&mut self) -> Result<Option<Bytes>, Closed> {
        Ok(self.recv_blocking()?.map(Bytes::from))
    }

    fn recv_bytes_timeout(&mut self, timeout: Duration) -> Result<Option<Bytes>, RecvTimeoutError> {
        Ok(self.recv_timeout(timeout)?.map(Bytes::from))
    }

    fn try_recv_bytes(&mut self) -> Result<Option<Bytes>, TryRecvError> {
        Ok(self.try_recv()?.map(Bytes::from))
    }
}

/// The future of [`ReceiverExt::recv_bytes`].
#[derive(Debug)]
#[must_use = "futures do nothing unless they are polled"]
pub struct RecvBytes<'a> {
    receiver: &'a mut Receiver,
}

impl Future for RecvBytes<'_> {
    type Output = Result<Option<Bytes>, Closed>;

    fn poll(mut self: Pin<&mut Self>, cx: &mut Context<'_>) -> Poll<Self::Output> {
        self.receiver.poll_recv_bytes(cx)
    }
}

/// The messages of a channel as a stream of [`Bytes`], with the feature `bytes`: a [`ReceiverStream`] whose messages are
/// shared without another copy. It ends and fails as that does, and buffers nothing either.
///
/// # Cancel safety
///
/// A pending poll takes no message, as with [`ReceiverStream`].
///
/// ```
/// use futures_util::StreamExt;
/// use lcmux_futures::lcmux::{Receiver, SendError, Sender};
/// use lcmux_futures::{BytesStream, SenderSink};
///
/// /// Sends each message on to two channels, which share its memory until it is sent.
/// async fn split(receiver: Receiver, senders: [Sender; 2]) -> Result<(), SendError> {
///     let [one, other] = senders.map(SenderSink::new);
///     let messages = BytesStream::new(receiver).map(|message| message.map_err(SendError::from));
///     let sink = futures_util::SinkExt::fanout(one, other);
///     messages.forward(sink).await
/// }
/// # let _ = split;
/// ```
#[derive(Debug)]
#[must_use = "a stream does nothing unless it is polled"]
pub struct BytesStream {
    messages: ReceiverStream,
}

impl BytesStream {
    /// Makes a stream of the messages that the receiver has not taken yet.
    pub fn new(receiver: Receiver) -> BytesStream {
        ReceiverStream::new(receiver).into()
    }

    /// Returns the receiver, for its other calls, such as [`Receiver::issue`].
    pub fn get_ref(&self) -> &Receiver {
        self.messages.get_ref()
    }

    /// Returns the receiver. A message that it takes is no item of the stream.
    pub fn get_mut(&mut self) -> &mut Receiver {
        self.messages.get_mut()
    }

    /// Returns the receiver. No message is lost: the stream buffers none.
    pub fn into_inner(self) -> Receiver {
        self.messages.into_inner()
    }
}

impl Stream for BytesStream {
    type Item = Result<Bytes, Closed>;

    fn poll_next(mut self: Pin<&mut Self>, cx: &mut Context<'_>) -> Poll<Option<Self::Item>> {
        let messages = Pin::new(&mut self.messages);
        messages.poll_next(cx).map_ok(Bytes::from)
    }

    fn size_hint(&self) -> (usize, Option<usize>) {
        self.messages.size_hint()
    }
}

/// The stream is terminated once its last item was an error, or its end was polled.
impl FusedStream for BytesStream {
    fn is_terminated(&self) -> bool {
        self.messages.is_terminated()
    }
}

impl From<Receiver> for BytesStream {
    fn from(receiver: Receiver) -> BytesStream {
        BytesStream::new(receiver)
    }
}

impl From<ReceiverStream> for BytesStream {
    fn from(messages: ReceiverStream) -> BytesStream {
        BytesStream { messages }
    }
}
