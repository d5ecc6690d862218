use std::future::poll_fn;
use std::io::{self, ErrorKind};
use std::ops::Range;
use std::pin::Pin;
use std::task::{ready, Context, Poll};
use tokio::io::{AsyncBufRead, AsyncRead, AsyncWrite, ReadBuf};

/// Copies a reader to its end into a writer, and calls `progress` after each write with the bytes written so far.
/// It returns the sum of all bytes. Either side may be a channel: a [`Writer`](crate::Writer) or a
/// [`Reader`](crate::Reader).
///
/// It is `tokio::io::copy` with progress. It holds one buffer of 16,384 bytes, whatever the length of the stream; of a
/// reader that has a buffer, such as that of a channel, [`copy_buf`] copies without another one. The writer is flushed
/// at the end, and whenever the reader is pending. It is not shut down: `shutdown` finishes a channel, once the copy
/// has succeeded.
///
/// # Progress
///
/// Each total is above the one before, and the last one is the result. Without a byte there is no call. Written to a
/// channel are bytes in the outbound queue: the peer may not have received them yet.
///
/// # Errors
///
/// The first error of the reader or of the writer, and `WriteZero` if the writer accepts no byte. After an error the
/// last total tells how many bytes the writer accepted; up to 16,384 bytes more may have left the reader.
///
/// A [`Writer`](crate::Writer) that is dropped after an error finishes its channel all the same. If the peer must not
/// take a part of the stream for the whole, keep [a clone of the
/// sender](lcmux::Mux#early-returns-and-aborted-tasks).
///
/// # Cancel safety
///
/// This function is not cancel safe: bytes that were read and not written are lost with a future that is dropped before
/// it completes. [`copy_buf`] loses none.
///
/// # Examples
///
/// ```
/// use lcmux_tokio::{copy, Writer};
/// use tokio::{fs::File, io, io::AsyncWriteExt};
///
/// async fn send(path: &str, writer: &mut Writer) -> io::Result<u64> {
///     let mut file = File::open(path).await?;
///     let len = file.metadata().await?.len().max(1);
///     let sent = copy(&mut file, writer, |sent| eprint!("\r{} %", 100 * sent / len)).await?;
///     writer.shutdown().await?;
///     Ok(sent)
/// }
/// # let _ = send;
/// ```
pub async fn copy<R, W, P>(reader: &mut R, writer: &mut W, progress: P) -> io::Result<u64>
where
    R: AsyncRead + Unpin + ?Sized,
    W: AsyncWrite + Unpin + ?Sized,
    P: FnMut(u64),
{
    let source = Buffered {
        reader,
        buffer: vec![0; lcmux::Writer::LARGEST_MESSAGE],
        unread: 0..0,
    };
    Copy::new(source, writer, progress).run().await
}

/// Copies a reader that has a buffer to its end into a writer, and calls `progress` after each write with the bytes
/// written so far. It returns the sum of all bytes.
///
/// It is `tokio::io::copy_buf` with progress, and [`copy`] without a buffer of its own: bytes stay in the buffer of the
/// reader, which of a channel is its ring, until the writer has accepted them. A `File` becomes such a reader by tokio's
/// `BufReader`.
///
/// # Progress
///
/// As of [`copy`].
///
/// # Errors
///
/// Those of [`copy`]. After an error the last total tells how many bytes have left the reader, and the writer accepted
/// as many.
///
/// # Cancel safety
///
/// A future that is dropped before it completes loses no byte, if `fill_buf` of the reader and `write` of the writer are
/// cancel safe, as those of channels are. The last total tells how many bytes were moved, and another copy goes on after
/// them.
///
/// # Examples
///
/// ```
/// use lcmux_tokio::{copy_buf, Reader};
/// use tokio::{fs::File, io};
///
/// async fn receive(reader: &mut Reader, path: &str) -> io::Result<u64> {
///     let mut file = File::create(path).await?;
///     copy_buf(reader, &mut file, |received| eprint!("\r{received} bytes")).await
/// }
/// # let _ = receive;
/// ```
pub async fn copy_buf<R, W, P>(reader: &mut R, writer: &mut W, progress: P) -> io::Result<u64>
where
    R: AsyncBufRead + Unpin + ?Sized,
    W: AsyncWrite + Unpin + ?Sized,
    P: FnMut(u64),
{
    Copy::new(Own(reader), writer, progress).run().await
}

/// Bytes that a copy has yet to write.
trait Source {
    /// Returns unread bytes, none at the end.
    fn poll_bytes(&mut self, cx: &mut Context<'_>) -> Poll<io::Result<&[u8]>>;
    fn consume(&mut self, count: usize);
}

/// A reader with a buffer of its own.
struct Own<'a, R: ?Sized>(&'a mut R);

impl<R: AsyncBufRead + Unpin + ?Sized> Source for Own<'_, R> {
    fn poll_bytes(&mut self, cx: &mut Context<'_>) -> Poll<io::Result<&[u8]>> {
        Pin::new(&mut *self.0).poll_fill_buf(cx)
    }

    fn consume(&mut self, count: usize) {
        Pin::new(&mut *self.0).consume(count);
    }
}

/// A reader with a buffer for it.
struct Buffered<'a, R: ?Sized> {
    reader: &'a mut R,
    buffer: Vec<u8>,
    unread: Range<usize>,
}

impl<R: AsyncRead + Unpin + ?Sized> Source for Buffered<'_, R> {
    fn poll_bytes(&mut self, cx: &mut Context<'_>) -> Poll<io::Result<&[u8]>> {
        if self.unread.is_empty() {
            let mut buffer = ReadBuf::new(&mut self.buffer);
            ready!(Pin::new(&mut *self.reader).poll_read(cx, &mut buffer))?;
            self.unread = 0..buffer.filled().len();
        }
        Poll::Ready(Ok(&self.buffer[self.unread.clone()]))
    }

    fn consume(&mut self, count: usize) {
        self.unread.start += count;
    }
}

struct Copy<'a, S, W: ?Sized, P> {
    source: S,
    writer: &'a mut W,
    progress: P,
    total: u64,
    /// Whether the writer may hold bytes back in a buffer.
    is_unflushed: bool,
}

impl<'a, S, W, P> Copy<'a, S, W, P>
where
    S: Source,
    W: AsyncWrite + Unpin + ?Sized,
    P: FnMut(u64),
{
    fn new(source: S, writer: &'a mut W, progress: P) -> Copy<'a, S, W, P> {
        Copy {
            source,
            writer,
            progress,
            total: 0,
            is_unflushed: false,
        }
    }

    async fn run(mut self) -> io::Result<u64> {
        while poll_fn(|cx| self.poll_write(cx)).await? {}
        poll_fn(|cx| self.poll_flush(cx)).await?;
        Ok(self.total)
    }

    // Writes bytes once. It is `false` at the end of the source.
    fn poll_write(&mut self, cx: &mut Context<'_>) -> Poll<io::Result<bool>> {
        let bytes = match self.source.poll_bytes(cx)? {
            Poll::Ready(bytes) => bytes,
            Poll::Pending => {
                // The peer of a slow source gets what there is.
                if self.is_unflushed {
                    ready!(self.poll_flush(cx))?;
                }
                return Poll::Pending;
            }
        };
        if bytes.is_empty() {
            return Poll::Ready(Ok(false));
        }
        let count = ready!(Pin::new(&mut *self.writer).poll_write(cx, bytes))?;
        if count == 0 {
            return Poll::Ready(Err(ErrorKind::WriteZero.into()));
        }
        self.source.consume(count);
        self.is_unflushed = true;
        self.total += count as u64;
        (self.progress)(self.total);
        Poll::Ready(Ok(true))
    }

    fn poll_flush(&mut self, cx: &mut Context<'_>) -> Poll<io::Result<()>> {
        ready!(Pin::new(&mut *self.writer).poll_flush(cx))?;
        self.is_unflushed = false;
        Poll::Ready(Ok(()))
    }
}
