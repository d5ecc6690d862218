//! The traits that a driver needs of its transport.
use std::io::{self, IoSlice, Read, Write};
use std::net::{Shutdown, TcpStream};
use std::task::{ready, Context, Poll};
use std::time::Duration;

/// A shutdown handle of a transport: it ends the calls that block in the transport, from any thread.
/// [`WriteHalf::breaker`] returns it.
///
/// ```
/// use lcmux::{Breaker, WriteHalf};
///
/// let (mut stream, _other) = std::os::unix::net::UnixStream::pair()?;
/// let breaker: Breaker = stream.breaker()?.expect("a socket has one");
/// breaker(); // a blocked read of the stream returns 0, and a blocked write fails
/// # Ok::<(), std::io::Error>(())
/// ```
pub type Breaker = Box<dyn FnOnce() + Send>;

/// The writing half of a transport for [`Driver::run_blocking`](crate::Driver::run_blocking): the operations that a
/// driver needs beside [`Write`]. [`TcpStream`] and `UnixStream` implement it; wrap any other writer in a [`Pipe`].
///
/// ```
/// use lcmux::{Breaker, WriteHalf};
/// use std::io::{self, Write};
/// use std::net::TcpStream;
///
/// /// A connection that counts what it writes.
/// struct Counted(TcpStream, u64);
///
/// impl Write for Counted {
///     fn write(&mut self, bytes: &[u8]) -> io::Result<usize> {
///         let count = self.0.write(bytes)?;
///         self.1 += count as u64;
///         Ok(count)
///     }
///
///     fn flush(&mut self) -> io::Result<()> {
///         self.0.flush()
///     }
/// }
///
/// impl WriteHalf for Counted {
///     fn end(&mut self) -> io::Result<()> {
///         self.0.end()
///     }
///
///     fn breaker(&mut self) -> io::Result<Option<Breaker>> {
///         self.0.breaker()
///     }
/// }
/// ```
pub trait WriteHalf: Write {
    /// Ends this direction, so that the peer reads the end of the stream. The driver calls it once, after the last
    /// byte.
    ///
    /// # Errors
    ///
    /// Any error of the transport. It fails the session.
    fn end(&mut self) -> io::Result<()>;

    /// Returns whether [`Write::write_vectored`] writes several slices at once. If so, a long message is written from
    /// the library's memory without a copy; else it is copied first.
    fn writes_vectored(&self) -> bool {
        false
    }

    /// Sets the time after which a blocked write fails with [`WouldBlock`](io::ErrorKind::WouldBlock) or
    /// [`TimedOut`](io::ErrorKind::TimedOut), so that the driver checks the [timeouts](crate::Timeouts) of the
    /// session while the peer reads nothing. By default it does nothing: then the timeouts expire only once the write
    /// returns.
    ///
    /// # Errors
    ///
    /// Any error of the transport. It fails the session.
    fn set_write_timeout(&mut self, _timeout: Duration) -> io::Result<()> {
        Ok(())
    }

    /// Returns the shutdown handle, which the driver calls to end a blocked read or write if the session fails or is
    /// aborted, and drops if the session ends in order. Return `None` if nothing can end these calls: then
    /// [`Driver::run_blocking`](crate::Driver::run_blocking) returns once they do.
    ///
    /// # Errors
    ///
    /// Any error of the transport. It fails the session.
    fn breaker(&mut self) -> io::Result<Option<Breaker>>;
}

macro_rules! write_half_of_a_socket {
    ($(#[$attribute:meta])* $socket:ty) => {
        /// The writing direction is shut down at its end, and the shutdown handle shuts down both.
        $(#[$attribute])*
        impl WriteHalf for $socket {
            fn end(&mut self) -> io::Result<()> {
                ended(self.shutdown(Shutdown::Write))
            }

            fn writes_vectored(&self) -> bool {
                true
            }

            fn set_write_timeout(&mut self, timeout: Duration) -> io::Result<()> {
                <$socket>::set_write_timeout(self, Some(timeout))
            }

            fn breaker(&mut self) -> io::Result<Option<Breaker>> {
                let stream = self.try_clone()?;
                Ok(Some(Box::new(move || {
                    drop(stream.shutdown(Shutdown::Both))
                })))
            }
        }
    };
}

write_half_of_a_socket!(TcpStream);
write_half_of_a_socket!(
    #[cfg(unix)]
    std::os::unix::net::UnixStream
);

// A connection that the peer has closed, too, is ended already.
fn ended(shutdown: io::Result<()>) -> io::Result<()> {
    match shutdown {
        Err(error) if error.kind() == io::ErrorKind::NotConnected => Ok(()),
        shutdown => shutdown,
    }
}

/// A writer whose direction ends when the writer is dropped, such as a pipe.
///
/// In general nothing can end a blocked read of a pipe from another thread. If there is a way, such as killing the
/// child process at the other end, pass it to [`Pipe::with_breaker`].
///
/// ```no_run
/// use lcmux::{Config, Mux, Pipe, CHANNELS};
/// use std::process::{Command, Stdio};
///
/// let mut command = Command::new("sync-server");
/// let mut child = command.stdin(Stdio::piped()).stdout(Stdio::piped()).spawn()?;
/// let (reader, writer) = (child.stdout.take().unwrap(), child.stdin.take().unwrap());
/// let (mux, driver) = Mux::new(Config::new([4096; CHANNELS], 64))?;
/// let writer = Pipe::with_breaker(writer, move || drop(child.kill()));
/// driver.run_blocking(reader, writer)?;
/// # Ok::<(), Box<dyn std::error::Error>>(())
/// ```
pub struct Pipe<W> {
    writer: Option<W>,
    breaker: Option<Breaker>,
}

impl<W: Write> Pipe<W> {
    /// Wraps a writer without a shutdown handle.
    pub fn new(writer: W) -> Pipe<W> {
        Pipe {
            writer: Some(writer),
            breaker: None,
        }
    }

    /// Wraps a writer with a shutdown handle, which ends a blocked read and a blocked write.
    pub fn with_breaker(writer: W, breaker: impl FnOnce() + Send + 'static) -> Pipe<W> {
        Pipe {
            writer: Some(writer),
            breaker: Some(Box::new(breaker)),
        }
    }

    fn open(&mut self) -> io::Result<&mut W> {
        let ended = io::ErrorKind::BrokenPipe;
        self.writer.as_mut().ok_or_else(|| ended.into())
    }
}

impl<W: Write> Write for Pipe<W> {
    fn write(&mut self, bytes: &[u8]) -> io::Result<usize> {
        self.open()?.write(bytes)
    }

    fn flush(&mut self) -> io::Result<()> {
        self.open()?.flush()
    }
}

impl<W: Write> WriteHalf for Pipe<W> {
    fn end(&mut self) -> io::Result<()> {
        self.writer = None;
        Ok(())
    }

    fn breaker(&mut self) -> io::Result<Option<Breaker>> {
        Ok(self.breaker.take())
    }
}

impl<W> std::fmt::Debug for Pipe<W> {
    fn fmt(&self, f: &mut std::fmt::Formatter<'_>) -> std::fmt::Result {
        f.debug_struct("Pipe")
            .field("is_open", &self.writer.is_some())
            .finish_non_exhaustive()
    }
}

/// The reading half of a polled transport, like `AsyncRead` of futures-io. It takes `&mut self`, so an adapter over a
/// runtime's own trait needs no pin of its own.
///
/// A slice implements it: it reads its bytes, and then the end. An adapter over a trait with pins, such as that of
/// futures-io, takes one line:
///
/// ```
/// use lcmux::PollRead;
/// use std::io;
/// use std::pin::Pin;
/// use std::task::{Context, Poll};
///
/// trait AsyncRead {
///     fn poll_read(
///         self: Pin<&mut Self>,
///         cx: &mut Context<'_>,
///         buffer: &mut [u8],
///     ) -> Poll<io::Result<usize>>;
/// }
///
/// struct Adapter<T>(T);
///
/// impl<T: AsyncRead + Unpin> PollRead for Adapter<T> {
///     fn poll_read(&mut self, cx: &mut Context<'_>, buffer: &mut [u8]) -> Poll<io::Result<usize>> {
///         Pin::new(&mut self.0).poll_read(cx, buffer)
///     }
/// }
/// ```
pub trait PollRead {
    /// Reads into the front of the buffer and returns how many bytes it read: 0 at the end of the stream. If no bytes
    /// are available, it registers the waker.
    fn poll_read(&mut self, cx: &mut Context<'_>, buffer: &mut [u8]) -> Poll<io::Result<usize>>;
}

/// The writing half of a polled transport, like `AsyncWrite` of futures-io.
///
/// A vector implements it: it accepts all bytes at once.
///
/// ```
/// use lcmux::PollWrite;
/// use std::task::{Context, Poll};
/// # struct Noop;
/// # impl std::task::Wake for Noop {
/// #     fn wake(self: std::sync::Arc<Noop>) {}
/// # }
/// # let waker = std::sync::Arc::new(Noop).into();
/// # let mut context = Context::from_waker(&waker);
/// let mut written = Vec::new();
/// assert!(matches!(written.poll_write(&mut context, b"hi"), Poll::Ready(Ok(2))));
/// assert_eq!(written, b"hi");
/// ```
pub trait PollWrite {
    /// Writes from the front of the bytes and returns how many it accepted. If the transport accepts none now, it
    /// registers the waker.
    fn poll_write(&mut self, cx: &mut Context<'_>, bytes: &[u8]) -> Poll<io::Result<usize>>;

    /// Writes from the front of the slices, one after the other, as [`PollWrite::poll_write`] does. By default it
    /// writes from the first slice that is not empty.
    fn poll_write_vectored(
        &mut self,
        cx: &mut Context<'_>,
        slices: &[IoSlice<'_>],
    ) -> Poll<io::Result<usize>> {
        let first = slices.iter().find(|slice| !slice.is_empty());
        self.poll_write(cx, first.map_or(&[], |slice| slice))
    }

    /// Returns whether [`PollWrite::poll_write_vectored`] writes several slices at once. If so, a long message is
    /// written from the library's memory without a copy; else it is copied first.
    fn is_write_vectored(&self) -> bool {
        false
    }

    /// Flushes the bytes that were accepted.
    fn poll_flush(&mut self, cx: &mut Context<'_>) -> Poll<io::Result<()>>;

    /// Ends this direction, so that the peer reads the end of the stream.
    fn poll_close(&mut self, cx: &mut Context<'_>) -> Poll<io::Result<()>>;
}

impl<T: PollRead + ?Sized> PollRead for &mut T {
    fn poll_read(&mut self, cx: &mut Context<'_>, buffer: &mut [u8]) -> Poll<io::Result<usize>> {
        (**self).poll_read(cx, buffer)
    }
}

impl<T: PollWrite + ?Sized> PollWrite for &mut T {
    fn poll_write(&mut self, cx: &mut Context<'_>, bytes: &[u8]) -> Poll<io::Result<usize>> {
        (**self).poll_write(cx, bytes)
    }

    fn poll_write_vectored(
        &mut self,
        cx: &mut Context<'_>,
        slices: &[IoSlice<'_>],
    ) -> Poll<io::Result<usize>> {
        (**self).poll_write_vectored(cx, slices)
    }

    fn is_write_vectored(&self) -> bool {
        (**self).is_write_vectored()
    }

    fn poll_flush(&mut self, cx: &mut Context<'_>) -> Poll<io::Result<()>> {
        (**self).poll_flush(cx)
    }

    fn poll_close(&mut self, cx: &mut Context<'_>) -> Poll<io::Result<()>> {
        (**self).poll_close(cx)
    }
}

impl PollRead for &[u8] {
    fn poll_read(&mut self, _: &mut Context<'_>, buffer: &mut [u8]) -> Poll<io::Result<usize>> {
        Poll::Ready(self.read(buffer))
    }
}

impl PollWrite for Vec<u8> {
    fn poll_write(&mut self, _: &mut Context<'_>, bytes: &[u8]) -> Poll<io::Result<usize>> {
        Poll::Ready(self.write(bytes))
    }

    fn poll_flush(&mut self, _: &mut Context<'_>) -> Poll<io::Result<()>> {
        Poll::Ready(Ok(()))
    }

    fn poll_close(&mut self, _: &mut Context<'_>) -> Poll<io::Result<()>> {
        Poll::Ready(Ok(()))
    }
}

/// Repeats a call that a signal interrupted.
pub(crate) fn poll_uninterrupted<T>(
    mut call: impl FnMut() -> Poll<io::Result<T>>,
) -> Poll<io::Result<T>> {
    loop {
        match ready!(call()) {
            Err(error) if error.kind() == io::ErrorKind::Interrupted => {}
            result => return Poll::Ready(result),
        }
    }
}
