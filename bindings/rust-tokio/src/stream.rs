use lcmux::{Receiver, Sender};
use std::io::{self, BufRead};
use std::pin::Pin;
use std::task::{ready, Context, Poll};
use tokio::io::{AsyncBufRead, AsyncRead, AsyncWrite, ReadBuf};

/// A stream of bytes over a channel, in the direction in which this side sends: a [`lcmux::Writer`] that is
/// [`AsyncWrite`].
///
/// A write sends one message: as many bytes as this side holds guarantees for, and at most 16,384 unless
/// [`set_largest_message`](lcmux::Writer::set_largest_message) says otherwise. There is no buffer: wrap a writer in a
/// `BufWriter` if the application writes a few bytes at a time.
///
/// # End
///
/// `shutdown` finishes the channel, and the peer's reader reports the end of the stream after all bytes. The other
/// direction of the channel stays open. Dropping the writer finishes the channel, too: a task that returns early or is
/// aborted looks like one that is done. If the peer must not take a part of the stream for the whole, keep [a clone of
/// the sender](lcmux::Mux#early-returns-and-aborted-tasks).
///
/// # Cancel safety
///
/// `write` is cancel safe, as are `flush` and `shutdown`, which never wait: a future that is dropped before it completes
/// has sent nothing. `write_all` is not: when its future is dropped, a part of the bytes may have been sent.
///
/// # Errors
///
/// Those of [`lcmux::Writer`](lcmux::Writer#errors).
///
/// # Examples
///
/// ```
/// use lcmux_tokio::lcmux::{Channel::Data, Config, CHANNELS};
/// use lcmux_tokio::{connect, Reader, Writer};
/// use tokio::io::{AsyncReadExt, AsyncWriteExt};
///
/// # #[tokio::main(flavor = "current_thread")]
/// # async fn main() -> Result<(), Box<dyn std::error::Error>> {
/// let (here, there) = tokio::io::duplex(4096);
/// let (mut alice, _) = connect(here, Config::new([64; CHANNELS], 16))?;
/// let (mut bob, _) = connect(there, Config::new([64; CHANNELS], 16))?;
///
/// let mut writer = Writer::new(alice.take_sender(Data).unwrap());
/// tokio::spawn(async move {
///     writer.write_all(&[b'.'; 1_000]).await?; // through a ring of 64 bytes
///     writer.shutdown().await
/// });
/// let mut reader = Reader::new(bob.take_receiver(Data).unwrap());
/// let mut text = String::new();
/// reader.read_to_string(&mut text).await?;
/// assert_eq!(text, ".".repeat(1_000));
/// # Ok(())
/// # }
/// ```
#[derive(Debug)]
pub struct Writer {
    writer: lcmux::Writer,
}

impl Writer {
    /// Makes a writer, which sends a stream of bytes as messages of at most 16,384 bytes.
    pub fn new(sender: Sender) -> Writer {
        sender.into_writer().into()
    }

    /// Returns the writer of [`lcmux`].
    pub fn get_ref(&self) -> &lcmux::Writer {
        &self.writer
    }

    /// Returns the writer of [`lcmux`], to set the length of its longest message. Its blocking calls block the executor.
    pub fn get_mut(&mut self) -> &mut lcmux::Writer {
        &mut self.writer
    }

    /// Returns the writer of [`lcmux`].
    pub fn into_inner(self) -> lcmux::Writer {
        self.writer
    }
}

impl From<lcmux::Writer> for Writer {
    fn from(writer: lcmux::Writer) -> Writer {
        Writer { writer }
    }
}

impl AsyncWrite for Writer {
    fn poll_write(
        mut self: Pin<&mut Self>,
        cx: &mut Context<'_>,
        bytes: &[u8],
    ) -> Poll<io::Result<usize>> {
        self.writer.poll_write(cx, bytes)
    }

    fn poll_flush(mut self: Pin<&mut Self>, cx: &mut Context<'_>) -> Poll<io::Result<()>> {
        self.writer.poll_flush(cx)
    }

    fn poll_shutdown(mut self: Pin<&mut Self>, cx: &mut Context<'_>) -> Poll<io::Result<()>> {
        self.writer.poll_close(cx)
    }
}

/// A stream of bytes over a channel, in the direction in which this side receives: a [`lcmux::Reader`] that is
/// [`AsyncRead`] and [`AsyncBufRead`].
///
/// Its buffer is the first message, in the ring buffer of the channel: `tokio::io::copy_buf` writes from
/// there without a copy. A read ends with `Ok(0)` once the peer has finished the channel, and fails if the session
/// failed before that.
///
/// # Cancel safety
///
/// `read` and `fill_buf` are cancel safe: a future that is dropped before it completes has read nothing. As with every
/// reader of tokio, `read_exact`, `read_to_end` and `read_until` are not, in which the bytes that were read would be
/// lost or have to be kept by the caller.
///
/// # Errors
///
/// Those of [`lcmux::Reader`](lcmux::Reader#errors).
///
/// # Examples
///
/// ```
/// use lcmux_tokio::lcmux::{Channel::Data, Config, CHANNELS};
/// use lcmux_tokio::{connect, Reader};
/// use tokio::io::AsyncBufReadExt;
///
/// # #[tokio::main(flavor = "current_thread")]
/// # async fn main() -> Result<(), Box<dyn std::error::Error>> {
/// # let (here, there) = tokio::io::duplex(4096);
/// # let (mut alice, _) = connect(here, Config::new([64; CHANNELS], 16))?;
/// # let (mut bob, _) = connect(there, Config::new([64; CHANNELS], 16))?;
/// let sender = alice.take_sender(Data).unwrap();
/// sender.send(b"one line\nan").await?;
/// sender.send(b"other\n").await?; // the reader joins messages, whoever sent them
/// drop(sender);
///
/// let mut lines = Reader::new(bob.take_receiver(Data).unwrap()).lines();
/// assert_eq!(lines.next_line().await?, Some("one line".into()));
/// assert_eq!(lines.next_line().await?, Some("another".into()));
/// assert_eq!(lines.next_line().await?, None);
/// # Ok(())
/// # }
/// ```
#[derive(Debug)]
pub struct Reader {
    reader: lcmux::Reader,
}

impl Reader {
    /// Makes a reader, which joins the messages of the channel into a stream of bytes.
    pub fn new(receiver: Receiver) -> Reader {
        receiver.into_reader().into()
    }

    /// Returns the reader of [`lcmux`], for its receiver.
    pub fn get_ref(&self) -> &lcmux::Reader {
        &self.reader
    }

    /// Returns the reader of [`lcmux`]. No byte is lost: it goes on where this one stopped.
    pub fn into_inner(self) -> lcmux::Reader {
        self.reader
    }
}

impl From<lcmux::Reader> for Reader {
    fn from(reader: lcmux::Reader) -> Reader {
        Reader { reader }
    }
}

impl AsyncRead for Reader {
    fn poll_read(
        mut self: Pin<&mut Self>,
        cx: &mut Context<'_>,
        buffer: &mut ReadBuf<'_>,
    ) -> Poll<io::Result<()>> {
        if buffer.remaining() == 0 {
            return Poll::Ready(Ok(()));
        }
        let bytes = ready!(self.reader.poll_fill_buf(cx))?;
        let count = bytes.len().min(buffer.remaining());
        buffer.put_slice(&bytes[..count]);
        self.reader.consume(count);
        Poll::Ready(Ok(()))
    }
}

impl AsyncBufRead for Reader {
    fn poll_fill_buf(self: Pin<&mut Self>, cx: &mut Context<'_>) -> Poll<io::Result<&[u8]>> {
        self.get_mut().reader.poll_fill_buf(cx)
    }

    fn consume(mut self: Pin<&mut Self>, count: usize) {
        self.reader.consume(count);
    }
}
