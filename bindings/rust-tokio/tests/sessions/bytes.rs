//! Streams of bytes over channels.
use crate::*;
use lcmux_tokio::lcmux::Channel::{Capability, Data};
use lcmux_tokio::{Reader, Writer};
use std::io;
use std::pin::{pin, Pin};
use std::task::{Context, Poll};
use std::time::Duration;
use tokio::io::{AsyncBufReadExt, AsyncReadExt, AsyncWriteExt, BufWriter, ReadBuf};
use tokio::task::yield_now;
use tokio::time::timeout;

type Sides = [(Mux, Run); 2];

/// The writer of the first side, and the reader of the second.
fn one_way(sides: &mut Sides, channel: Channel) -> (Writer, Reader) {
    let writer = Writer::new(sides[0].0.take_sender(channel).unwrap());
    let reader = Reader::new(sides[1].0.take_receiver(channel).unwrap());
    (writer, reader)
}

/// Bytes without a short period.
fn bytes(count: usize) -> Vec<u8> {
    (0..count as u32)
        .map(|at| (at.wrapping_mul(0x9e37_79b9) >> 24) as u8)
        .collect()
}

/// A source and a target of a stream: bytes that repeat with a period which no message and no buffer has.
struct Pattern {
    period: Vec<u8>,
    at: u64,
    len: u64,
}

impl Pattern {
    fn new(len: u64) -> Pattern {
        let period: Vec<_> = (0..251).collect();
        let period = period.repeat(200);
        Pattern { period, at: 0, len }
    }

    fn next(&mut self, most: usize) -> &[u8] {
        let start = (self.at % 251) as usize;
        let count = most.min((self.len - self.at) as usize);
        let count = count.min(self.period.len() - start);
        self.at += count as u64;
        &self.period[start..][..count]
    }
}

impl AsyncRead for Pattern {
    fn poll_read(
        mut self: Pin<&mut Self>,
        _: &mut Context<'_>,
        buffer: &mut ReadBuf<'_>,
    ) -> Poll<io::Result<()>> {
        let next = self.next(buffer.remaining());
        buffer.put_slice(next);
        Poll::Ready(Ok(()))
    }
}

impl AsyncWrite for Pattern {
    fn poll_write(
        mut self: Pin<&mut Self>,
        _: &mut Context<'_>,
        bytes: &[u8],
    ) -> Poll<io::Result<usize>> {
        let next = self.next(bytes.len());
        assert!(next.len() == bytes.len() && next == bytes);
        Poll::Ready(Ok(bytes.len()))
    }

    fn poll_flush(self: Pin<&mut Self>, _: &mut Context<'_>) -> Poll<io::Result<()>> {
        Poll::Ready(Ok(()))
    }

    fn poll_shutdown(self: Pin<&mut Self>, _: &mut Context<'_>) -> Poll<io::Result<()>> {
        Poll::Ready(Ok(()))
    }
}

/// Both copies of tokio, the second from the ring itself, over rings of 20,000 bytes.
#[test]
fn a_long_stream_is_copied() {
    on_each("a long copy", || async {
        for is_buffered in [false, true] {
            const LEN: u64 = 50_000_000;
            let mut sides = both(tcp_pair().await, rings(20_000));
            let (mut writer, mut reader) = one_way(&mut sides, Data);
            let copy = tokio::spawn(async move {
                let sent = tokio::io::copy(&mut Pattern::new(LEN), &mut writer).await;
                writer.shutdown().await.unwrap();
                sent.unwrap()
            });
            let mut target = Pattern::new(LEN);
            let read = match is_buffered {
                false => tokio::io::copy(&mut reader, &mut target).await,
                true => tokio::io::copy_buf(&mut reader, &mut target).await,
            };
            assert_eq!((read.unwrap(), target.at), (LEN, LEN));
            assert_eq!(copy.await.unwrap(), LEN);
            let stats = sides[1].0.stats()[Data];
            assert!(stats.most_buffered <= 20_000);
            let average = LEN / stats.messages_received;
            assert!(average > 500, "{average} bytes a message");
            close(sides).await;
        }
    });
}

#[test]
fn a_stream_passes_rings_of_any_size() {
    on_each("a stream over small rings", || async {
        for (ring, count) in [(1, 300), (2, 301), (61, 3_000)] {
            let mut sides = in_memory(rings(ring));
            let (mut writer, mut reader) = one_way(&mut sides, Data);
            let write = tokio::spawn(async move {
                writer.write_all(&bytes(count)).await.unwrap();
                writer.shutdown().await.unwrap();
                writer.shutdown().await.unwrap();
            });
            let mut read = Vec::new();
            reader.read_to_end(&mut read).await.unwrap();
            assert!(read == bytes(count), "ring {ring}");
            assert_eq!(reader.read(&mut [0; 8]).await.unwrap(), 0);
            write.await.unwrap();
            close(sides).await;
        }
    });
}

/// Polls a future until it was pending this many times, and then drops it: `None`.
async fn cut<F: Future>(future: F, waits: usize) -> Option<F::Output> {
    let (mut future, mut left) = (pin!(future), waits);
    std::future::poll_fn(|cx| match future.as_mut().poll(cx) {
        Poll::Ready(output) => Poll::Ready(Some(output)),
        Poll::Pending if left == 0 => Poll::Ready(None),
        Poll::Pending => {
            left -= 1;
            Poll::Pending
        }
    })
    .await
}

/// Each read and write is dropped again and again, after 0 to 2 polls, and then made with other bytes or buffers.
#[test]
fn dropped_reads_and_writes_lose_no_byte_and_send_none_twice() {
    on_each("dropped reads and writes", || async {
        const LEN: usize = 3_000;
        let mut sides = in_memory(rings(16));
        let (mut writer, mut reader) = one_way(&mut sides, Data);
        let write = tokio::spawn(async move {
            let (bytes, mut sent) = (bytes(LEN), 0);
            for round in 0.. {
                let most = (sent + 1 + round % 23).min(LEN);
                match cut(writer.write(&bytes[sent..most]), round % 3).await {
                    Some(count) => sent += count.unwrap(),
                    None => yield_now().await,
                }
                if sent == LEN {
                    return;
                }
            }
        });
        let mut read = Vec::<u8>::new();
        for round in 0.. {
            let mut piece = vec![0; 1 + round % 11];
            match cut(reader.read(&mut piece), round % 3).await {
                Some(Ok(0)) => break,
                Some(count) => read.extend(&piece[..count.unwrap()]),
                None => yield_now().await,
            }
        }
        assert!(read == bytes(LEN));
        write.await.unwrap();
        close(sides).await;
    });
}

/// Both directions of both sides in one task each, as an engine's loop has them.
#[test]
fn a_select_loop_reads_and_writes_at_once() {
    async fn both_ways(mut writer: Writer, mut reader: Reader) -> Vec<u8> {
        const LEN: usize = 5_000;
        let (bytes, mut sent, mut piece, mut all) = (bytes(LEN), 0, [0; 9], Vec::new());
        let mut has_ended = false;
        while sent < LEN || !has_ended {
            tokio::select! {
                written = writer.write(&bytes[sent..]), if sent < LEN => {
                    sent += written.unwrap();
                    if sent == LEN {
                        writer.shutdown().await.unwrap();
                    }
                }
                read = reader.read(&mut piece), if !has_ended => {
                    let count = read.unwrap();
                    all.extend(&piece[..count]);
                    has_ended = count == 0;
                }
                _ = yield_now() => {}
            }
        }
        all
    }
    on_each("a select loop", || async {
        let mut sides = in_memory(rings(16));
        let tasks = [0, 1].map(|side| {
            let mux = &mut sides[side].0;
            let writer = Writer::new(mux.take_sender(Data).unwrap());
            let reader = Reader::new(mux.take_receiver(Data).unwrap());
            tokio::spawn(both_ways(writer, reader))
        });
        for task in tasks {
            assert!(task.await.unwrap() == bytes(5_000));
        }
        close(sides).await;
    });
}

/// The first side has finished, and the second sends what it read in reply.
#[test]
fn one_direction_goes_on_after_the_other_has_ended() {
    on_each("a half-close", || async {
        let mut sides = in_memory(rings(16));
        let (mut writer, mut reader) = one_way(&mut sides, Data);
        let mut back = Writer::new(sides[1].0.take_sender(Data).unwrap());
        let mut answer = Reader::new(sides[0].0.take_receiver(Data).unwrap());
        tokio::spawn(async move {
            let mut read = String::new();
            reader.read_to_string(&mut read).await.unwrap();
            let read = read.to_uppercase();
            back.write_all(read.as_bytes()).await.unwrap();
        });
        writer
            .write_all(b"half a connection goes on")
            .await
            .unwrap();
        writer.shutdown().await.unwrap();
        let late = writer.write(b"late").await.unwrap_err();
        assert_eq!(late.kind(), ErrorKind::BrokenPipe);
        let mut read = String::new();
        answer.read_to_string(&mut read).await.unwrap();
        assert_eq!(read, "HALF A CONNECTION GOES ON");
        close(sides).await;
    });
}

#[test]
fn a_dropped_writer_finishes_and_a_dropped_reader_breaks_the_pipe() {
    on_each("dropped streams", || async {
        let mut sides = in_memory(rings(16));
        let (mut writer, mut reader) = one_way(&mut sides, Data);
        writer.write_all(b"a part").await.unwrap();
        drop(writer);
        let mut read = Vec::new();
        reader.read_to_end(&mut read).await.unwrap();
        assert_eq!(read, b"a part");
        let (mut writer, reader) = one_way(&mut sides, Capability);
        drop(reader);
        let error = loop {
            if let Err(error) = writer.write(&[7; 100]).await {
                break error;
            }
        };
        assert_eq!(error.kind(), ErrorKind::BrokenPipe);
        close(sides).await;
    });
}

/// The peer's stream ends within its stream of bytes, between two messages.
#[test]
fn a_stream_that_is_cut_never_looks_like_its_end() {
    on_each("a stream that is cut", || async {
        let (mut mux, _run, mut there) = by_hand(rings(64), 4096);
        let mut reader = Reader::new(mux.take_receiver(Data).unwrap());
        let message = [&GREETING[..], b"\x11\0\0\0\x05hello"].concat();
        there.write_all(&message).await.unwrap();
        there.shutdown().await.unwrap();
        let mut read = Vec::new();
        let error = reader.read_to_end(&mut read).await.unwrap_err();
        assert_eq!(
            (&read[..], error.kind()),
            (&b"hello"[..], ErrorKind::UnexpectedEof)
        );
        for _ in 0..2 {
            let error = reader.read(&mut [0; 8]).await.unwrap_err();
            let closed = error.get_ref().and_then(|inner| inner.downcast_ref());
            assert_eq!(closed, Some(&Closed::Cut));
        }
    });
}

/// Both tasks wait while this side aborts.
#[test]
fn an_abort_ends_reads_and_writes() {
    on_each("an abort of streams", || async {
        let (mut mux, _run, _there) = by_hand(rings(64), 4096);
        let mut reader = Reader::new(mux.take_receiver(Data).unwrap());
        let mut writer = Writer::new(mux.take_sender(Data).unwrap());
        let read = tokio::spawn(async move { reader.read(&mut [0; 8]).await });
        let write = tokio::spawn(async move { writer.write(b"hello").await });
        yield_now().await;
        mux.abort();
        for task in [read, write] {
            let error = task.await.unwrap().unwrap_err();
            assert_eq!(error.kind(), ErrorKind::ConnectionAborted);
        }
    });
}

#[test]
fn a_reader_that_is_not_read_blocks_no_other_channel() {
    on_each("a reader that is not read", || async {
        let mut sides = in_memory(rings(64));
        let (mut writer, mut reader) = one_way(&mut sides, Data);
        let blocked = tokio::spawn(async move { writer.write_all(&[7; 128]).await });
        let (mut writer, mut other) = one_way(&mut sides, Capability);
        let write = tokio::spawn(async move { writer.write_all(&bytes(10_000)).await });
        let mut read = Vec::new();
        other.read_to_end(&mut read).await.unwrap();
        assert!(read == bytes(10_000));
        write.await.unwrap().unwrap();
        assert!(!blocked.is_finished());
        reader.read_exact(&mut [0; 128]).await.unwrap();
        blocked.await.unwrap().unwrap();
        close(sides).await;
    });
}

/// A timeout drops the write or the read, and the next one goes on.
#[test]
fn reads_and_writes_that_time_out_are_repeated() {
    on_each("timeouts of a stream", || async {
        let mut sides = in_memory(rings(16));
        let (mut writer, mut reader) = one_way(&mut sides, Data);
        let soon = Duration::from_millis(2);
        assert!(timeout(soon, reader.read(&mut [0; 8])).await.is_err());
        assert_eq!(reader.read(&mut []).await.unwrap(), 0);
        assert_eq!(writer.write(b"").await.unwrap(), 0);
        writer.write_all(&bytes(16)).await.unwrap();
        assert!(timeout(soon, writer.write(b"lost")).await.is_err());
        let mut read = [0; 16];
        reader.read_exact(&mut read).await.unwrap();
        assert_eq!(read[..], bytes(16));
        writer.write_all(b"kept").await.unwrap();
        let mut read = [0; 4];
        reader.read_exact(&mut read).await.unwrap();
        assert_eq!(&read, b"kept");
        drop(writer);
        assert_eq!(reader.read(&mut read).await.unwrap(), 0);
        close(sides).await;
    });
}

#[test]
fn lines_are_found_across_messages_and_small_writes_are_gathered() {
    on_each("lines", || async {
        // The ring has room for all lines, so that no message is cut short, whichever task is faster.
        let mut sides = in_memory(rings(8_192));
        let (writer, reader) = one_way(&mut sides, Data);
        let write = tokio::spawn(async move {
            let mut writer = BufWriter::with_capacity(61, writer);
            let lines: String = (0..1_000).map(|number| format!("{number}\n")).collect();
            for piece in lines.as_bytes().chunks(7) {
                writer.write_all(piece).await.unwrap();
            }
            writer.shutdown().await.unwrap(); // and flushes
        });
        let mut lines = reader.lines();
        for number in 0..1_000 {
            let line = lines.next_line().await.unwrap();
            assert_eq!(line, Some(number.to_string()));
        }
        assert_eq!(lines.next_line().await.unwrap(), None);
        write.await.unwrap();
        let messages = sides[1].0.stats()[Data].messages_received;
        assert!(messages <= 70, "{messages} messages");
        close(sides).await;
    });
}

/// A reader and a writer as one stream, over which another protocol runs: here a session within a session.
#[test]
fn a_session_runs_over_a_channel_of_another() {
    struct Duplex(Reader, Writer);
    impl AsyncRead for Duplex {
        fn poll_read(
            mut self: Pin<&mut Self>,
            cx: &mut Context<'_>,
            buffer: &mut ReadBuf<'_>,
        ) -> Poll<io::Result<()>> {
            Pin::new(&mut self.0).poll_read(cx, buffer)
        }
    }
    impl AsyncWrite for Duplex {
        fn poll_write(
            mut self: Pin<&mut Self>,
            cx: &mut Context<'_>,
            bytes: &[u8],
        ) -> Poll<io::Result<usize>> {
            Pin::new(&mut self.1).poll_write(cx, bytes)
        }
        fn poll_flush(mut self: Pin<&mut Self>, cx: &mut Context<'_>) -> Poll<io::Result<()>> {
            Pin::new(&mut self.1).poll_flush(cx)
        }
        fn poll_shutdown(mut self: Pin<&mut Self>, cx: &mut Context<'_>) -> Poll<io::Result<()>> {
            Pin::new(&mut self.1).poll_shutdown(cx)
        }
    }
    on_each("a session within a session", || async {
        let mut outer = in_memory(rings(50));
        let streams = [0, 1].map(|side| {
            let mux = &mut outer[side].0;
            let reader = Reader::new(mux.take_receiver(Data).unwrap());
            Duplex(reader, Writer::new(mux.take_sender(Data).unwrap()))
        });
        let mut inner = both(streams.into(), rings(16));
        let (mut writer, mut reader) = one_way(&mut inner, Capability);
        let write = tokio::spawn(async move { writer.write_all(&bytes(2_000)).await });
        let mut read = Vec::new();
        reader.read_to_end(&mut read).await.unwrap();
        assert!(read == bytes(2_000));
        write.await.unwrap().unwrap();
        close(inner).await;
        close(outer).await;
    });
}

/// The conversions keep what was set, and lose no byte.
#[test]
fn a_writer_and_a_reader_convert_into_those_below() {
    on_each("conversions", || async {
        let mut sides = in_memory(rings(64));
        let (mut writer, mut reader) = one_way(&mut sides, Data);
        writer.get_mut().set_largest_message(3);
        assert_eq!(writer.write(b"hello").await.unwrap(), 3);
        let mut writer = Writer::from(writer.into_inner());
        assert_eq!(writer.get_ref().largest_message(), 3);
        assert_eq!(writer.write(b"lo").await.unwrap(), 2);
        assert_eq!(reader.fill_buf().await.unwrap(), b"hel");
        reader.consume(1);
        let mut reader = Reader::from(reader.into_inner());
        assert_eq!(reader.fill_buf().await.unwrap(), b"el");
        assert_eq!(reader.get_ref().receiver().channel(), Data);
        let (mut receiver, rest) = reader.into_inner().into_parts();
        assert_eq!(rest, b"el");
        assert_eq!(receiver.recv().await, Ok(Some(b"lo".to_vec())));
        close(sides).await;
    });
}

/// The halves of a stream may go to tasks of their own.
#[test]
fn streams_go_to_tasks() {
    fn goes<T: Send + Sync + Unpin + 'static>() {}
    goes::<Writer>();
    goes::<Reader>();
}
