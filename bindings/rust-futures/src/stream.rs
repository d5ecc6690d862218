use futures_core::stream::{FusedStream, Stream};
use lcmux::{Closed, Receiver};
use std::pin::Pin;
use std::task::{ready, Context, Poll};

/// The messages of a channel as a stream.
///
/// The stream ends once the peer has finished the channel. If the session fails before that, the reason is the last
/// item: a stream that ends without an error is therefore complete. A stream that is polled after its end stays at its
/// end.
///
/// The backpressure is that of the receiver: a message stays in the ring buffer until the stream is polled, and the
/// peer sends no more than fits. The stream itself buffers nothing.
///
/// After 128 messages in a row that it did not wait for, the stream yields once, so that other tasks run. Dropping the
/// stream drops the receiver.
///
/// # Cancel safety
///
/// A pending poll takes no message. So a future of `StreamExt::next` or `TryStreamExt::try_next` may be dropped, as in
/// `select!`, and no message is lost.
///
/// ```
/// use futures_util::TryStreamExt;
/// use lcmux_futures::lcmux::{Closed, Receiver};
/// use lcmux_futures::ReceiverStream;
///
/// /// Receives all messages, and returns the sum of their lengths.
/// async fn sum(receiver: Receiver) -> Result<usize, Closed> {
///     let mut messages = ReceiverStream::new(receiver);
///     let mut sum = 0;
///     while let Some(message) = messages.try_next().await? {
///         sum += message.len();
///     }
///     Ok(sum)
/// }
/// # let _ = sum;
/// ```
#[derive(Debug)]
#[must_use = "a stream does nothing unless it is polled"]
pub struct ReceiverStream {
    receiver: Receiver,
    is_ended: bool,
}

impl ReceiverStream {
    /// Makes a stream of the messages that the receiver has not taken yet.
    pub fn new(receiver: Receiver) -> ReceiverStream {
        ReceiverStream {
            receiver,
            is_ended: false,
        }
    }

    /// Returns the receiver, for its other calls, such as [`Receiver::issue`].
    pub fn get_ref(&self) -> &Receiver {
        &self.receiver
    }

    /// Returns the receiver. A message that it takes is no item of the stream.
    pub fn get_mut(&mut self) -> &mut Receiver {
        &mut self.receiver
    }

    /// Returns the receiver. No message is lost: the stream buffers none.
    pub fn into_inner(self) -> Receiver {
        self.receiver
    }
}

impl Stream for ReceiverStream {
    type Item = Result<Vec<u8>, Closed>;

    fn poll_next(mut self: Pin<&mut Self>, cx: &mut Context<'_>) -> Poll<Option<Self::Item>> {
        if self.is_ended {
            return Poll::Ready(None);
        }
        let received = ready!(self.receiver.poll_recv(cx)).transpose();
        self.is_ended = !matches!(received, Some(Ok(_)));
        Poll::Ready(received)
    }

    fn size_hint(&self) -> (usize, Option<usize>) {
        (0, self.is_ended.then_some(0))
    }
}

/// The stream is terminated once its last item was an error, or its end was polled.
impl FusedStream for ReceiverStream {
    fn is_terminated(&self) -> bool {
        self.is_ended
    }
}

impl From<Receiver> for ReceiverStream {
    fn from(receiver: Receiver) -> ReceiverStream {
        ReceiverStream::new(receiver)
    }
}
