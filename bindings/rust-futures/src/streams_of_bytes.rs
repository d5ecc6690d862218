//! Streams of bytes over channels, with the traits of `futures-io`.
use futures_io::{AsyncBufRead, AsyncRead, AsyncWrite};
use lcmux::{Receiver, Sender};
use std::io::{self, BufRead};
use std::pin::Pin;
use std::task::{Context, Poll};

/// A stream of bytes over a channel, in the direction in which this side sends: a [`lcmux::Writer`] that is
/// [`AsyncWrite`].
///
/// A write sends one message: as many bytes as this side holds guarantees for, and at most 16,384 unless
/// [`set_largest_message`](lcmux::Writer::set_largest_message) says otherwise. There is no buffer: wrap a writer in a
/// `BufWriter` if the application writes a few bytes at a time.
///
/// # End
///
/// `close` finishes the channel, and the peer's reader reports the end of the stream after all bytes. The other
/// direction of the channel stays open. Dropping the writer finishes the channel, too: a task that returns early or is
/// cancelled looks like one that is done. If the peer must not take a part of the stream for the whole, keep [a clone of
/// the sender](lcmux::Mux#early-returns-and-aborted-tasks).
///
/// # Cancel safety
///
/// A `write` that is dropped before it completes has sent nothing. When the future of a `write_all` is dropped, a part
/// of the bytes may have been sent.
///
/// # Errors
///
/// Those of [`lcmux::Writer`](lcmux::Writer#errors).
///
/// # Examples
///
/// ```
/// use lcmux_futures::{lcmux::{Channel::Data, Config, Mux, CHANNELS}, Writer};
///
/// let (mut mux, _driver) = Mux::new(Config::new([64; CHANNELS], 16))?;
/// let mut writer = Writer::new(mux.take_sender(Data).unwrap());
/// writer.get_mut().set_largest_message(32);
/// # Ok::<(), lcmux::MuxFault>(())
/// ```
#[derive(Debug)]
pub struct Writer {
    writer: lcmux::Writer,
}

impl Writer {
    /// Makes a writer, which sends a stream of bytes as messages of at most 16,384 bytes.
    pub fn new(sender: Sender) -> Writer {
        sender.into_writer().into()
    }

    /// Returns the writer of [`lcmux`].
    pub fn get_ref(&self) -> &lcmux::Writer {
        &self.writer
    }

    /// Returns the writer of [`lcmux`], to set the length of its longest message. Its blocking calls block the executor.
    pub fn get_mut(&mut self) -> &mut lcmux::Writer {
        &mut self.writer
    }

    /// Returns the writer of [`lcmux`].
    pub fn into_inner(self) -> lcmux::Writer {
        self.writer
    }
}

impl From<lcmux::Writer> for Writer {
    fn from(writer: lcmux::Writer) -> Writer {
        Writer { writer }
    }
}

impl AsyncWrite for Writer {
    fn poll_write(
        mut self: Pin<&mut Self>,
        cx: &mut Context<'_>,
        bytes: &[u8],
    ) -> Poll<io::Result<usize>> {
        self.writer.poll_write(cx, bytes)
    }

    fn poll_flush(mut self: Pin<&mut Self>, cx: &mut Context<'_>) -> Poll<io::Result<()>> {
        self.writer.poll_flush(cx)
    }

    fn poll_close(mut self: Pin<&mut Self>, cx: &mut Context<'_>) -> Poll<io::Result<()>> {
        self.writer.poll_close(cx)
    }
}

/// A stream of bytes over a channel, in the direction in which this side receives: a [`lcmux::Reader`] that is
/// [`AsyncRead`] and [`AsyncBufRead`].
///
/// Its buffer is the first message, in the ring buffer of the channel. A read ends with `Ok(0)` once the peer has
/// finished the channel, and fails if the session failed before that.
///
/// # Cancel safety
///
/// A `read` or a `fill_buf` that is dropped before it completes has read nothing.
///
/// # Errors
///
/// Those of [`lcmux::Reader`](lcmux::Reader#errors).
///
/// # Examples
///
/// ```
/// use lcmux_futures::{lcmux::{Channel::Data, Config, Mux, CHANNELS}, Reader};
///
/// let (mut mux, _driver) = Mux::new(Config::new([64; CHANNELS], 16))?;
/// let reader = Reader::new(mux.take_receiver(Data).unwrap());
/// assert_eq!(reader.get_ref().receiver().channel(), Data);
/// # Ok::<(), lcmux::MuxFault>(())
/// ```
#[derive(Debug)]
pub struct Reader {
    reader: lcmux::Reader,
}

impl Reader {
    /// Makes a reader, which joins the messages of the channel into a stream of bytes.
    pub fn new(receiver: Receiver) -> Reader {
        receiver.into_reader().into()
    }

    /// Returns the reader of [`lcmux`], for its receiver.
    pub fn get_ref(&self) -> &lcmux::Reader {
        &self.reader
    }

    /// Returns the reader of [`lcmux`]. No byte is lost: it goes on where this one stopped.
    pub fn into_inner(self) -> lcmux::Reader {
        self.reader
    }
}

impl From<lcmux::Reader> for Reader {
    fn from(reader: lcmux::Reader) -> Reader {
        Reader { reader }
    }
}

impl AsyncRead for Reader {
    fn poll_read(
        mut self: Pin<&mut Self>,
        cx: &mut Context<'_>,
        buffer: &mut [u8],
    ) -> Poll<io::Result<usize>> {
        self.reader.poll_read(cx, buffer)
    }
}

impl AsyncBufRead for Reader {
    fn poll_fill_buf(self: Pin<&mut Self>, cx: &mut Context<'_>) -> Poll<io::Result<&[u8]>> {
        self.get_mut().reader.poll_fill_buf(cx)
    }

    fn consume(mut self: Pin<&mut Self>, count: usize) {
        self.reader.consume(count);
    }
}
