//! One end of the link.
use crate::faults::Side;
use crate::world::{with, Read, Shared};
use std::fmt::{self, Formatter};
use std::io::{self, IoSlice};
use std::pin::Pin;
use std::task::{ready, Context, Poll};
use tokio::io::{AsyncRead, AsyncWrite, ReadBuf};
use tokio::time::{sleep_until, Instant, Sleep};

/// One end of the link between both sides, in place of a `TcpStream`.
///
/// Its drop closes the socket, as that of a `TcpStream` does: if bytes of the other side are unread, that side reads a
/// reset in place of the end.
pub struct Stream {
    side: Side,
    world: Shared,
    is_vectored: bool,
    /// When the next bytes arrive.
    timer: Pin<Box<Sleep>>,
    deadline: Instant,
}

impl Stream {
    pub(crate) fn new(side: Side, world: &Shared) -> Stream {
        let (start, is_vectored) = with(world, |it| (it.start(), it.plan.is_vectored));
        Stream {
            side,
            world: Shared::clone(world),
            is_vectored,
            timer: Box::pin(sleep_until(start)),
            deadline: start,
        }
    }

    /// Returns the side whose end this is.
    pub fn side(&self) -> Side {
        self.side
    }

    // Waits until a time, and registers the task. It is ready once the time has come.
    fn poll_until(&mut self, cx: &mut Context<'_>, deadline: Instant) -> Poll<()> {
        use std::future::Future;
        if self.deadline != deadline {
            self.deadline = deadline;
            self.timer.as_mut().reset(deadline);
        }
        self.timer.as_mut().poll(cx)
    }
}

impl fmt::Debug for Stream {
    fn fmt(&self, f: &mut Formatter<'_>) -> fmt::Result {
        f.debug_struct("Stream")
            .field("side", &self.side)
            .finish_non_exhaustive()
    }
}

impl AsyncRead for Stream {
    fn poll_read(
        mut self: Pin<&mut Self>,
        cx: &mut Context<'_>,
        buffer: &mut ReadBuf<'_>,
    ) -> Poll<io::Result<()>> {
        let most = buffer.remaining();
        if most == 0 {
            return Poll::Ready(Ok(()));
        }
        loop {
            let side = self.side;
            let read = with(&self.world, |world| {
                world.read(side, cx, most, |bytes| buffer.put_slice(bytes))
            });
            let deadline = match read {
                Read::Done(result) => return Poll::Ready(result),
                Read::Later => return Poll::Pending,
                Read::Until(at) => with(&self.world, |world| world.start()) + at,
            };
            ready!(self.poll_until(cx, deadline));
        }
    }
}

impl AsyncWrite for Stream {
    fn poll_write(
        self: Pin<&mut Self>,
        cx: &mut Context<'_>,
        bytes: &[u8],
    ) -> Poll<io::Result<usize>> {
        with(&self.world, |world| world.write(self.side, cx, bytes))
    }

    fn poll_write_vectored(
        self: Pin<&mut Self>,
        cx: &mut Context<'_>,
        slices: &[IoSlice<'_>],
    ) -> Poll<io::Result<usize>> {
        let bytes: Vec<u8> = slices
            .iter()
            .flat_map(|slice| slice.iter())
            .copied()
            .collect();
        with(&self.world, |world| world.write(self.side, cx, &bytes))
    }

    fn is_write_vectored(&self) -> bool {
        self.is_vectored
    }

    fn poll_flush(self: Pin<&mut Self>, _: &mut Context<'_>) -> Poll<io::Result<()>> {
        Poll::Ready(Ok(()))
    }

    fn poll_shutdown(self: Pin<&mut Self>, _: &mut Context<'_>) -> Poll<io::Result<()>> {
        Poll::Ready(with(&self.world, |world| world.shut(self.side)))
    }
}

impl Drop for Stream {
    fn drop(&mut self) {
        with(&self.world, |world| world.exit(self.side));
    }
}
