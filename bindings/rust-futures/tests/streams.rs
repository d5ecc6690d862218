//! Streams of bytes with the traits of futures-io, over sessions on threads.
#[path = "../../rust/tests/common/watchdog.rs"]
mod watchdog;

use futures_util::io::{copy, copy_buf, AllowStdIo, Cursor};
use futures_util::{AsyncBufReadExt, AsyncReadExt, AsyncWriteExt, TryStreamExt};
use lcmux::Channel::{self, Data, Overlap};
use lcmux::{Closed, Config, Mux, CHANNELS};
use lcmux_futures::{Reader, Writer};
use std::future::Future;
use std::io::ErrorKind;
use std::os::unix::net::UnixStream;
use std::pin::pin;
use std::sync::Arc;
use std::task::{Context, Poll, Wake};
use std::thread;
use watchdog::Watchdog;

struct Unpark(thread::Thread);

impl Wake for Unpark {
    fn wake(self: Arc<Unpark>) {
        self.0.unpark();
    }
}

fn block_on<F: Future>(future: F) -> F::Output {
    let mut future = pin!(future);
    let waker = Arc::new(Unpark(thread::current())).into();
    loop {
        match future.as_mut().poll(&mut Context::from_waker(&waker)) {
            Poll::Ready(output) => return output,
            Poll::Pending => thread::park(),
        }
    }
}

/// Two sessions with rings of this size.
fn pair(ring: u32) -> [Mux; 2] {
    let (here, there) = UnixStream::pair().unwrap();
    [here, there].map(|stream| {
        let (mux, driver) = Mux::new(Config::new([ring; CHANNELS], 16)).unwrap();
        thread::spawn(move || driver.run_blocking(stream.try_clone()?, stream));
        mux
    })
}

fn one_way(sides: &mut [Mux; 2], channel: Channel) -> (Writer, Reader) {
    let writer = Writer::new(sides[0].take_sender(channel).unwrap());
    let reader = Reader::new(sides[1].take_receiver(channel).unwrap());
    (writer, reader)
}

fn bytes(count: usize) -> Vec<u8> {
    (0..count as u32)
        .map(|at| (at.wrapping_mul(0x9e37_79b9) >> 24) as u8)
        .collect()
}

#[test]
fn streams_are_copied_over_rings_of_any_size() {
    for (ring, count) in [(1, 300), (61, 5_000), (60_000, 1_000_000)] {
        let _watchdog = Watchdog::new(format!("a copy over a ring of {ring}"));
        for is_buffered in [false, true] {
            let mut sides = pair(ring);
            let (mut writer, mut reader) = one_way(&mut sides, Data);
            let write = thread::spawn(move || {
                block_on(async {
                    let source = Cursor::new(bytes(count));
                    assert_eq!(copy(source, &mut writer).await.unwrap(), count as u64);
                    writer.close().await.unwrap();
                    writer.close().await.unwrap();
                    let late = writer.write(b"late").await.unwrap_err();
                    assert_eq!(late.kind(), ErrorKind::BrokenPipe);
                });
            });
            let mut target = AllowStdIo::new(Vec::new());
            let read = match is_buffered {
                false => block_on(copy(&mut reader, &mut target)),
                true => block_on(copy_buf(&mut reader, &mut target)),
            };
            assert_eq!(read.unwrap(), count as u64);
            assert!(target.into_inner() == bytes(count), "ring {ring}");
            assert_eq!(block_on(reader.read(&mut [0; 8])).unwrap(), 0);
            write.join().unwrap();
        }
    }
}

#[test]
fn lines_are_found_across_messages() {
    let _watchdog = Watchdog::new("lines");
    let mut sides = pair(7);
    let (mut writer, reader) = one_way(&mut sides, Data);
    let write = thread::spawn(move || {
        let lines: String = (0..500).map(|number| format!("{number}\n")).collect();
        block_on(writer.write_all(lines.as_bytes())).unwrap();
    });
    let lines: Vec<_> = block_on(reader.lines().try_collect()).unwrap();
    let wanted: Vec<_> = (0..500).map(|number| number.to_string()).collect();
    assert_eq!(lines, wanted);
    write.join().unwrap();
}

/// The other direction and the other channels go on.
#[test]
fn a_close_ends_one_direction() {
    let _watchdog = Watchdog::new("a half-close");
    let mut sides = pair(16);
    let (mut writer, mut reader) = one_way(&mut sides, Data);
    let mut back = Writer::new(sides[1].take_sender(Data).unwrap());
    let mut answer = Reader::new(sides[0].take_receiver(Data).unwrap());
    let (mut other, mut its_reader) = one_way(&mut sides, Overlap);
    block_on(async {
        writer.write_all(b"to").await.unwrap();
        writer.close().await.unwrap();
        let mut read = String::new();
        reader.read_to_string(&mut read).await.unwrap();
        assert_eq!(read, "to");
        back.write_all(b"back").await.unwrap();
        other.write_all(b"beside").await.unwrap();
        let (mut one, mut two) = ([0; 4], [0; 6]);
        answer.read_exact(&mut one).await.unwrap();
        its_reader.read_exact(&mut two).await.unwrap();
        assert_eq!((&one, &two), (b"back", b"beside"));
    });
}

#[test]
fn a_failed_session_fails_reads_writes_and_the_end() {
    let _watchdog = Watchdog::new("a failed session");
    let mut sides = pair(16);
    let (mut writer, mut reader) = one_way(&mut sides, Data);
    sides.iter().for_each(Mux::abort);
    block_on(async {
        let errors = [
            reader.read(&mut [0; 8]).await.map(drop).unwrap_err(),
            reader.fill_buf().await.map(drop).unwrap_err(),
            writer.write(b"hello").await.map(drop).unwrap_err(),
            writer.flush().await.unwrap_err(),
            writer.close().await.unwrap_err(),
        ];
        for error in errors {
            assert!(error.get_ref().unwrap().is::<Closed>(), "{error}");
        }
    });
}

#[test]
fn a_writer_and_a_reader_convert_into_those_below() {
    let _watchdog = Watchdog::new("conversions");
    let mut sides = pair(16);
    let (mut writer, mut reader) = one_way(&mut sides, Data);
    writer.get_mut().set_largest_message(3);
    assert_eq!(block_on(writer.write(b"hello")).unwrap(), 3);
    let writer = Writer::from(writer.into_inner());
    assert_eq!(writer.get_ref().largest_message(), 3);
    assert_eq!(block_on(reader.fill_buf()).unwrap(), b"hel");
    reader.consume_unpin(1);
    let reader = Reader::from(reader.into_inner());
    assert_eq!(reader.into_inner().into_parts().1, b"el");
}
