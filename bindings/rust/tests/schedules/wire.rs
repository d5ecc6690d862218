//! A stream of one direction in memory, whose calls are cut, postponed and failed by choice.
use crate::choices::Choices;
use lcmux::{PollRead, PollWrite};
use std::cell::RefCell;
use std::collections::VecDeque;
use std::io::{self, ErrorKind, IoSlice};
use std::rc::Rc;
use std::task::{Context, Poll, Waker};

/// The failure of a stream, and after how many calls it happens.
#[derive(Clone, Copy, Debug, PartialEq)]
pub enum Fault {
    Read(u32),
    Write(u32),
    Flush(u32),
    Cut(u32),
    Garbage(u32),
}

#[derive(Default)]
struct Stream {
    /// The bytes that were written and not flushed.
    held: Vec<u8>,
    bytes: VecDeque<u8>,
    ended: bool,
    gone: bool,
    reader: Option<Waker>,
    writer: Option<Waker>,
    calls: u32,
}

/// How a stream behaves without failures.
#[derive(Clone, Copy)]
pub struct Shape {
    /// The most bytes that it buffers.
    pub capacity: usize,
    /// Whether each call moves all bytes that it can, and no wake-up is spurious.
    pub is_steady: bool,
}

pub struct Reader(Half);
/// Whether it accepts several slices at once.
pub struct Writer {
    half: Half,
    is_vectored: bool,
}

struct Half {
    choices: Rc<RefCell<Choices>>,
    stream: Rc<RefCell<Stream>>,
    fault: Option<Fault>,
    shape: Shape,
}

/// The two ends of a stream.
pub fn wire(choices: &Rc<RefCell<Choices>>, fault: Option<Fault>) -> (Writer, Reader) {
    let shape = Shape {
        capacity: 200,
        is_steady: false,
    };
    ends(choices, fault, shape)
}

/// The two ends of a stream of this shape, without failures.
pub fn wire_of(choices: &Rc<RefCell<Choices>>, shape: Shape) -> (Writer, Reader) {
    ends(choices, None, shape)
}

fn ends(choices: &Rc<RefCell<Choices>>, fault: Option<Fault>, shape: Shape) -> (Writer, Reader) {
    let stream = Rc::default();
    let half = || Half {
        choices: Rc::clone(choices),
        stream: Rc::clone(&stream),
        fault,
        shape,
    };
    let is_vectored = choices.borrow_mut().one_in(2);
    let writer = Writer {
        half: half(),
        is_vectored,
    };
    (writer, Reader(half()))
}

impl Half {
    // A call that is postponed, though it could proceed.
    fn is_put_off(&self, cx: &Context<'_>) -> bool {
        let is_put_off = !self.shape.is_steady && self.choices.borrow_mut().one_in(8);
        if is_put_off {
            cx.waker().wake_by_ref();
        }
        is_put_off
    }

    fn at_most(&self, most: usize) -> usize {
        let mut choices = self.choices.borrow_mut();
        match choices.below(4) {
            _ if self.shape.is_steady => most,
            0 => most,
            1 => 1,
            _ => 1 + choices.below(most as u32) as usize,
        }
    }
}

fn failed() -> io::Error {
    io::Error::new(ErrorKind::ConnectionReset, "the cable is cut")
}

impl Stream {
    fn flush(&mut self) {
        let held = std::mem::take(&mut self.held);
        self.bytes.extend(held);
        if let Some(reader) = self.reader.take() {
            reader.wake();
        }
    }

    fn end(&mut self) {
        self.ended = true;
        self.flush();
    }
}

impl PollRead for Reader {
    fn poll_read(&mut self, cx: &mut Context<'_>, buffer: &mut [u8]) -> Poll<io::Result<usize>> {
        if self.0.is_put_off(cx) {
            return Poll::Pending;
        }
        let mut stream = self.0.stream.borrow_mut();
        stream.calls += 1;
        match self.0.fault {
            Some(Fault::Read(after)) if stream.calls > after => {
                return Poll::Ready(Err(failed()));
            }
            Some(Fault::Cut(after)) if stream.calls > after => {
                stream.bytes.clear();
                return Poll::Ready(Ok(0));
            }
            Some(Fault::Garbage(after)) if stream.calls > after => {
                buffer[0] = 0xff;
                return Poll::Ready(Ok(1));
            }
            _ if stream.calls % 16 == 0 => return Poll::Ready(Err(ErrorKind::Interrupted.into())),
            _ => {}
        }
        if stream.bytes.is_empty() {
            if stream.ended {
                return Poll::Ready(Ok(0));
            }
            stream.reader = Some(cx.waker().clone());
            return Poll::Pending;
        }
        let count = self.0.at_most(stream.bytes.len().min(buffer.len()));
        for (place, byte) in buffer.iter_mut().zip(stream.bytes.drain(..count)) {
            *place = byte;
        }
        if let Some(writer) = stream.writer.take() {
            writer.wake();
        }
        Poll::Ready(Ok(count))
    }
}

impl PollWrite for Writer {
    fn poll_write(&mut self, cx: &mut Context<'_>, bytes: &[u8]) -> Poll<io::Result<usize>> {
        if self.half.is_put_off(cx) {
            return Poll::Pending;
        }
        let mut stream = self.half.stream.borrow_mut();
        stream.calls += 1;
        match self.half.fault {
            Some(Fault::Write(after)) if stream.calls > after => {
                return Poll::Ready(Err(failed()));
            }
            _ if stream.gone => return Poll::Ready(Err(ErrorKind::BrokenPipe.into())),
            _ => {}
        }
        let room = self
            .half
            .shape
            .capacity
            .saturating_sub(stream.bytes.len() + stream.held.len());
        if room == 0 {
            stream.flush();
            stream.writer = Some(cx.waker().clone());
            return Poll::Pending;
        }
        let count = self.half.at_most(bytes.len().min(room));
        stream.held.extend(&bytes[..count]);
        Poll::Ready(Ok(count))
    }

    fn poll_write_vectored(
        &mut self,
        cx: &mut Context<'_>,
        slices: &[IoSlice<'_>],
    ) -> Poll<io::Result<usize>> {
        assert!(self.is_vectored);
        let bytes: Vec<u8> = slices.iter().flat_map(|slice| slice.to_vec()).collect();
        self.poll_write(cx, &bytes)
    }

    fn is_write_vectored(&self) -> bool {
        self.is_vectored
    }

    fn poll_flush(&mut self, cx: &mut Context<'_>) -> Poll<io::Result<()>> {
        if self.half.is_put_off(cx) {
            return Poll::Pending;
        }
        let mut stream = self.half.stream.borrow_mut();
        stream.calls += 1;
        if matches!(self.half.fault, Some(Fault::Flush(after)) if stream.calls > after) {
            return Poll::Ready(Err(failed()));
        }
        stream.flush();
        Poll::Ready(Ok(()))
    }

    fn poll_close(&mut self, cx: &mut Context<'_>) -> Poll<io::Result<()>> {
        if self.half.is_put_off(cx) {
            return Poll::Pending;
        }
        // Bytes that were not flushed never arrive.
        let mut stream = self.half.stream.borrow_mut();
        stream.held.clear();
        stream.end();
        Poll::Ready(Ok(()))
    }
}

// The transport of a driver that completed or was dropped is closed.
impl Drop for Writer {
    fn drop(&mut self) {
        self.half.stream.borrow_mut().end();
    }
}

impl Drop for Reader {
    fn drop(&mut self) {
        let mut stream = self.0.stream.borrow_mut();
        stream.gone = true;
        if let Some(writer) = stream.writer.take() {
            writer.wake();
        }
    }
}
