use crate::alarm::Alarm;
use lcmux::{Closed, Driver, PollRead, PollWrite, Timeouts};
use std::io::{self, ErrorKind, IoSlice};
use std::pin::Pin;
use std::task::{Context, Poll};
use tokio::io::{AsyncRead, AsyncWrite, ReadBuf};

/// A stream with its timeouts. One task reads and writes it alternately, so it is not split.
pub(crate) struct Link<'a, S> {
    stream: Pin<&'a mut S>,
    /// The time since the last inbound byte.
    silence: Option<Alarm>,
    /// The time since the stream last accepted pending bytes.
    stall: Option<Alarm>,
    is_stalled: bool,
    /// The time since the last write.
    keep_alive: Option<Alarm>,
    /// The time since the session was closed, or since the last write after that.
    end: Option<Alarm>,
    phase: Phase,
}

/// The state of the outbound direction.
#[derive(PartialEq, Eq)]
enum Phase {
    Open,
    /// The session is closed, and the accepted messages are being written.
    Closing,
    /// This direction has ended, and the peer's is read to its end.
    Ended,
}

fn is_over(alarm: &mut Option<Alarm>, cx: &mut Context<'_>) -> bool {
    alarm.as_mut().is_some_and(|alarm| alarm.is_over(cx))
}

fn restart(alarm: &mut Option<Alarm>) {
    alarm.iter_mut().for_each(Alarm::restart);
}

fn timed_out<T>(why: &str) -> Poll<io::Result<T>> {
    Poll::Ready(Err(io::Error::new(ErrorKind::TimedOut, why)))
}

impl<'a, S: AsyncRead + AsyncWrite> Link<'a, S> {
    pub fn new(stream: Pin<&'a mut S>, timeouts: Timeouts) -> Link<'a, S> {
        Link {
            stream,
            silence: timeouts.idle.map(Alarm::new),
            stall: timeouts.idle.map(Alarm::new),
            is_stalled: false,
            keep_alive: timeouts.keep_alive.map(Alarm::new),
            end: timeouts.grace.map(Alarm::new),
            phase: Phase::Open,
        }
    }

    /// Moves the bytes that can be moved. It is ready once both directions ended, or the session failed.
    ///
    /// It writes first: inbound messages wake this task once more, and by then their receivers may have sent more
    /// messages.
    pub fn poll(&mut self, cx: &mut Context<'_>, driver: &mut Driver) -> Poll<Result<(), Closed>> {
        while is_over(&mut self.keep_alive, cx) {
            driver.keep_alive();
            restart(&mut self.keep_alive);
        }
        let over = self.poll_halves(cx, driver);
        // From here on a close of the session wakes this task.
        if over.is_ready() || self.phase != Phase::Open || !driver.is_closing() {
            return over;
        }
        self.phase = Phase::Closing;
        restart(&mut self.end);
        self.poll_halves(cx, driver)
    }

    fn poll_halves(
        &mut self,
        cx: &mut Context<'_>,
        driver: &mut Driver,
    ) -> Poll<Result<(), Closed>> {
        let written = driver.poll_write(cx, self)?;
        let read = driver.poll_read(cx, self)?;
        match (written, read) {
            (Poll::Ready(()), Poll::Ready(())) => Poll::Ready(Ok(())),
            _ => Poll::Pending,
        }
    }

    // Whether this phase of the end exceeds its timeout.
    fn is_past(&mut self, phase: Phase, cx: &mut Context<'_>) -> bool {
        self.phase == phase && is_over(&mut self.end, cx)
    }

    // Records the result of a call of the writing half, and fails it if a timeout expired.
    fn wrote<T>(
        &mut self,
        cx: &mut Context<'_>,
        answer: Poll<io::Result<T>>,
    ) -> Poll<io::Result<T>> {
        if answer.is_ready() {
            self.is_stalled = false;
            restart(&mut self.keep_alive);
            restart(&mut self.end);
            return answer;
        }
        if !self.is_stalled {
            self.is_stalled = true;
            restart(&mut self.stall);
        }
        if is_over(&mut self.stall, cx) || self.is_past(Phase::Closing, cx) {
            return timed_out(Timeouts::STALLED);
        }
        answer
    }
}

impl<S: AsyncRead + AsyncWrite> PollRead for Link<'_, S> {
    fn poll_read(&mut self, cx: &mut Context<'_>, buffer: &mut [u8]) -> Poll<io::Result<usize>> {
        let mut buffer = ReadBuf::new(buffer);
        let read = self.stream.as_mut().poll_read(cx, &mut buffer)?;
        match (read, buffer.filled().len()) {
            (Poll::Ready(()), 0) => Poll::Ready(Ok(0)),
            _ if self.is_past(Phase::Ended, cx) => timed_out(Timeouts::UNENDED),
            (Poll::Ready(()), count) => {
                restart(&mut self.silence);
                Poll::Ready(Ok(count))
            }
            _ if is_over(&mut self.silence, cx) => timed_out(Timeouts::SILENT),
            _ => Poll::Pending,
        }
    }
}

impl<S: AsyncRead + AsyncWrite> PollWrite for Link<'_, S> {
    fn poll_write(&mut self, cx: &mut Context<'_>, bytes: &[u8]) -> Poll<io::Result<usize>> {
        let answer = self.stream.as_mut().poll_write(cx, bytes);
        self.wrote(cx, answer)
    }

    fn poll_write_vectored(
        &mut self,
        cx: &mut Context<'_>,
        slices: &[IoSlice<'_>],
    ) -> Poll<io::Result<usize>> {
        let answer = self.stream.as_mut().poll_write_vectored(cx, slices);
        self.wrote(cx, answer)
    }

    fn is_write_vectored(&self) -> bool {
        self.stream.is_write_vectored()
    }

    fn poll_flush(&mut self, cx: &mut Context<'_>) -> Poll<io::Result<()>> {
        let answer = self.stream.as_mut().poll_flush(cx);
        self.wrote(cx, answer)
    }

    fn poll_close(&mut self, cx: &mut Context<'_>) -> Poll<io::Result<()>> {
        let answer = match self.stream.as_mut().poll_shutdown(cx) {
            // A connection that the peer has closed, too, is ended already.
            Poll::Ready(Err(error)) if error.kind() == ErrorKind::NotConnected => {
                Poll::Ready(Ok(()))
            }
            answer => answer,
        };
        if answer.is_ready() {
            self.phase = Phase::Ended;
        }
        self.wrote(cx, answer)
    }
}
