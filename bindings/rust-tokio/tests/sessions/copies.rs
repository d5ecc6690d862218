//! Copies with progress: over devices that read and write a few bytes at a time, and over channels.
use crate::*;
use lcmux_tokio::lcmux::Channel::Data;
use lcmux_tokio::{copy, copy_buf, Reader, Writer};
use std::collections::VecDeque;
use std::io;
use std::pin::{pin, Pin};
use std::task::{Context, Poll};
use tokio::io::{AsyncReadExt, AsyncWriteExt, BufReader, ReadBuf};

/// What one poll of a device answers.
enum Step {
    Bytes(&'static [u8]),
    Pending,
    Error(ErrorKind),
}
use Step::{Bytes, Error, Pending};

/// A reader of these steps, and then of its end.
struct Source(VecDeque<Step>);

fn source<const N: usize>(steps: [Step; N]) -> Source {
    Source(steps.into())
}

impl AsyncRead for Source {
    fn poll_read(
        mut self: Pin<&mut Self>,
        cx: &mut Context<'_>,
        buffer: &mut ReadBuf<'_>,
    ) -> Poll<io::Result<()>> {
        match self.0.pop_front() {
            Some(Bytes(bytes)) => buffer.put_slice(bytes),
            Some(Pending) => {
                cx.waker().wake_by_ref();
                return Poll::Pending;
            }
            Some(Error(kind)) => return Poll::Ready(Err(kind.into())),
            None => {}
        }
        Poll::Ready(Ok(()))
    }
}

/// A writer that accepts this many bytes at a time, and fails after all of them. It counts its flushes.
struct Target {
    written: Vec<u8>,
    most: usize,
    left: usize,
    flushes: Vec<usize>,
}

impl Target {
    fn new(most: usize, left: usize) -> Target {
        Target {
            written: Vec::new(),
            most,
            left,
            flushes: Vec::new(),
        }
    }
}

impl AsyncWrite for Target {
    fn poll_write(
        mut self: Pin<&mut Self>,
        _: &mut Context<'_>,
        bytes: &[u8],
    ) -> Poll<io::Result<usize>> {
        let count = bytes.len().min(self.most).min(self.left);
        if self.left == 0 {
            return Poll::Ready(Err(ErrorKind::BrokenPipe.into()));
        }
        self.left -= count;
        self.written.extend(&bytes[..count]);
        Poll::Ready(Ok(count))
    }

    fn poll_flush(mut self: Pin<&mut Self>, _: &mut Context<'_>) -> Poll<io::Result<()>> {
        let len = self.written.len();
        self.flushes.push(len);
        Poll::Ready(Ok(()))
    }

    fn poll_shutdown(self: Pin<&mut Self>, _: &mut Context<'_>) -> Poll<io::Result<()>> {
        panic!("a copy shuts nothing down")
    }
}

/// Copies by both functions, whose totals and results are the same: the result, and the totals.
async fn copied(
    steps: impl Fn() -> Source,
    target: impl Fn() -> Target,
) -> (Result<u64, ErrorKind>, Vec<u64>, Target) {
    let (mut totals, mut written) = (Vec::new(), target());
    let result = copy(&mut steps(), &mut written, |it| totals.push(it)).await;
    let result = result.map_err(|error| error.kind());

    let (mut again, mut others) = (target(), Vec::new());
    let mut buffered = BufReader::new(steps());
    let other = copy_buf(&mut buffered, &mut again, |it| others.push(it)).await;
    assert_eq!(other.map_err(|error| error.kind()), result);
    assert_eq!(
        (others, again.written),
        (totals.clone(), written.written.clone())
    );
    assert_eq!(again.flushes, written.flushes);
    (result, totals, written)
}

#[tokio::test]
async fn each_write_adds_to_the_total() {
    let steps = || source([Bytes(b"abcde"), Pending, Bytes(b"fghij"), Pending, Pending]);
    let (result, totals, target) = copied(steps, || Target::new(3, 99)).await;
    assert_eq!((result, totals), (Ok(10), vec![3, 5, 8, 10]));
    assert_eq!(target.written, b"abcdefghij");
    // While the source is pending, and at the end; not twice for the same bytes.
    assert_eq!(target.flushes, [5, 10, 10]);
}

#[tokio::test]
async fn without_a_byte_there_is_no_progress() {
    let (result, totals, target) = copied(|| source([]), || Target::new(3, 99)).await;
    assert_eq!((result, totals), (Ok(0), vec![]));
    assert_eq!(target.flushes, [0]);
}

#[tokio::test]
async fn an_error_of_the_reader_ends_a_copy() {
    let steps = || source([Bytes(b"abcde"), Error(ErrorKind::TimedOut), Bytes(b"f")]);
    let (result, totals, target) = copied(steps, || Target::new(3, 99)).await;
    assert_eq!((result, totals), (Err(ErrorKind::TimedOut), vec![3, 5]));
    assert_eq!(target.written, b"abcde");
}

#[tokio::test]
async fn an_error_of_the_writer_ends_a_copy() {
    let steps = || source([Bytes(b"abcde")]);
    let (result, totals, target) = copied(steps, || Target::new(3, 4)).await;
    assert_eq!((result, totals), (Err(ErrorKind::BrokenPipe), vec![3, 4]));
    assert_eq!(target.written, b"abcd");
    let (result, totals, _) = copied(steps, || Target::new(0, 4)).await;
    assert_eq!((result, totals), (Err(ErrorKind::WriteZero), vec![]));
}

/// What the writer did not accept stays in the buffer of the reader.
#[tokio::test]
async fn an_error_of_the_writer_loses_no_byte_of_a_buffer() {
    let mut reader = BufReader::new(source([Bytes(b"abcde")]));
    let result = copy_buf(&mut reader, &mut Target::new(3, 4), |_| {}).await;
    assert!(result.is_err());
    let mut rest = Vec::new();
    assert_eq!(reader.read_to_end(&mut rest).await.unwrap(), 1);
    assert_eq!(rest, b"e");
}

/// The writer of the first side, and the reader of the second.
fn one_way(sides: &mut [(Mux, Run); 2]) -> (Writer, Reader) {
    let writer = Writer::new(sides[0].0.take_sender(Data).unwrap());
    let reader = Reader::new(sides[1].0.take_receiver(Data).unwrap());
    (writer, reader)
}

fn bytes(count: usize) -> Vec<u8> {
    (0..count).map(|at| (at % 251) as u8).collect()
}

fn are_totals(totals: &[u64], sum: u64) -> bool {
    let steps: Vec<_> = totals.windows(2).map(|pair| pair[0] < pair[1]).collect();
    totals[0] > 0 && steps.iter().all(|it| *it) && totals.last() == Some(&sum)
}

#[test]
fn a_copy_over_a_channel_tells_its_progress() {
    on_each("a copy with progress", || async {
        const LEN: u64 = 300_000;
        let mut sides = in_memory(rings(20_000));
        let (mut writer, mut reader) = one_way(&mut sides);
        let send = tokio::spawn(async move {
            let (file, mut totals) = (bytes(LEN as usize), Vec::new());
            let sent = copy(&mut &file[..], &mut writer, |it| totals.push(it)).await;
            writer.shutdown().await.unwrap();
            (sent.unwrap(), totals)
        });
        let (mut file, mut totals) = (Vec::new(), Vec::new());
        let received = copy_buf(&mut reader, &mut file, |it| totals.push(it)).await;
        assert_eq!(received.unwrap(), LEN);
        assert!(file == bytes(LEN as usize));
        // A message is a total on either side.
        let messages = sides[1].0.stats()[Data].messages_received;
        assert!(are_totals(&totals, LEN) && totals.len() as u64 == messages);
        let (sent, totals) = send.await.unwrap();
        assert_eq!(sent, LEN);
        assert!(are_totals(&totals, LEN) && totals.len() as u64 == messages);
        close(sides).await;
    });
}

/// Both sides of a copy fail, and their totals are what they moved.
#[test]
fn a_cut_ends_a_copy() {
    on_each("a copy that is cut", || async {
        let mut sides = in_memory(rings(64));
        let (mut writer, mut reader) = one_way(&mut sides);
        let send = tokio::spawn(async move {
            let (file, mut total) = (bytes(1_000), 0);
            let error = copy(&mut &file[..], &mut writer, |it| total = it).await;
            (error.unwrap_err(), total)
        });
        let mut some = vec![0; 100];
        reader.read_exact(&mut some).await.unwrap();
        assert_eq!(some, bytes(100));
        sides[0].0.abort();
        let (error, sent) = send.await.unwrap();
        assert_eq!(Closed::of_io(&error), Some(&Closed::Aborted));
        assert!((100..1_000).contains(&sent), "{sent}");
        let (mut rest, mut total) = (Vec::new(), 0);
        let error = copy_buf(&mut reader, &mut rest, |it| total = it).await;
        // By the end of the stream, or by a write that failed before.
        let closed = Closed::of_io(&error.unwrap_err()).cloned();
        assert!(matches!(closed, Some(Closed::Cut | Closed::Transport(_))));
        assert_eq!(rest.len() as u64, total);
        assert!(100 + total <= sent && rest == bytes(1_000)[100..][..rest.len()]);
    });
}

/// Polls a future until it was pending once, and drops it.
async fn dropped(future: impl Future) {
    let mut future = pin!(future);
    std::future::poll_fn(|cx| {
        assert!(future.as_mut().poll(cx).is_pending());
        Poll::Ready(())
    })
    .await;
}

#[test]
fn a_copy_that_is_dropped_goes_on_where_it_was() {
    on_each("a copy that is dropped", || async {
        let mut sides = in_memory(rings(64));
        let (mut writer, mut reader) = one_way(&mut sides);
        let (file, mut read, mut moved) = (bytes(1_000), Vec::new(), 0);
        let mut source = &file[..];
        while moved < 500 {
            let before = moved;
            dropped(copy_buf(&mut source, &mut writer, |it| moved = before + it)).await;
            assert_eq!(source.len() as u64, 1_000 - moved);
            let mut some = (&mut reader).take(moved - before);
            some.read_to_end(&mut read).await.unwrap();
            tokio::task::yield_now().await; // and the guarantees of the bytes that were read arrive
        }
        let rest = async {
            let rest = copy_buf(&mut source, &mut writer, |_| {}).await;
            writer.shutdown().await.unwrap();
            rest.unwrap()
        };
        let (rest, end) = tokio::join!(rest, reader.read_to_end(&mut read));
        end.unwrap();
        assert_eq!(moved + rest, 1_000);
        assert!(read == file);
        close(sides).await;
    });
}
