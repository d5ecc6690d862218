//! Streams of sessions on threads, over sockets.
use crate::watchdog::Watchdog;
use crate::*;
use lcmux::Channel::{Capability, Data};
use lcmux::{Closed, Mux, Reader, Writer};
use std::io::{BufRead, BufWriter, ErrorKind, Read, Write};
use std::net::Shutdown;
use std::os::unix::net::UnixStream;
use std::sync::mpsc;
use std::thread::{self, JoinHandle};
use std::time::Duration;

/// A session over a socket, with its thread.
struct Side {
    mux: Mux,
    run: JoinHandle<Result<(), Closed>>,
    socket: UnixStream,
}

fn pair(config: Config) -> [Side; 2] {
    let (here, there) = UnixStream::pair().unwrap();
    [here, there].map(|stream| {
        let (mux, driver) = Mux::new(config).unwrap();
        let socket = stream.try_clone().unwrap();
        let run = thread::spawn(move || driver.run_blocking(stream.try_clone()?, stream));
        Side { mux, run, socket }
    })
}

/// The writer of the first side, and the reader of the second.
fn one_way(sides: &mut [Side; 2]) -> (Writer, Reader) {
    let sender = sides[0].mux.take_sender(Data).unwrap();
    let receiver = sides[1].mux.take_receiver(Data).unwrap();
    (sender.into_writer(), receiver.into_reader())
}

/// Closes both sessions, which end in order.
fn close(sides: [Side; 2]) {
    sides.iter().for_each(|side| side.mux.close());
    for side in sides {
        assert_eq!(side.run.join().unwrap(), Ok(()));
    }
}

/// Bytes of which no two neighbouring stretches are equal.
fn bytes(count: usize) -> Vec<u8> {
    (0..count as u32)
        .map(|at| (at.wrapping_mul(0x9e37_79b9) >> 24) as u8)
        .collect()
}

#[test]
fn a_stream_passes_rings_of_any_size() {
    for (ring, count) in [
        (1, 500),
        (2, 501),
        (3, 1_000),
        (61, 5_000),
        (100_000, 1_000_000),
    ] {
        let _watchdog = Watchdog::new(format!("a stream over a ring of {ring}"));
        let mut sides = pair(rings(ring));
        let (mut writer, mut reader) = one_way(&mut sides);
        let wanted = bytes(count);
        let written = wanted.clone();
        let write = thread::spawn(move || {
            writer.write_all(&written).unwrap();
            writer.finish().unwrap();
        });
        let mut read = Vec::new();
        reader.read_to_end(&mut read).unwrap();
        assert!(read == wanted, "ring {ring}");
        write.join().unwrap();
        let stats = sides[1].mux.stats()[Data];
        assert!(stats.most_buffered <= ring.into());
        close(sides);
    }
}

/// A BufWriter gathers small writes, and its drop flushes the last of them.
#[test]
fn a_buffered_writer_sends_few_messages() {
    let _watchdog = Watchdog::new("a buffered writer");
    let mut sides = pair(rings(65_536));
    let (writer, reader) = one_way(&mut sides);
    let mut writer = BufWriter::with_capacity(Writer::LARGEST_MESSAGE, writer);
    for number in 0..10_000 {
        writeln!(writer, "{number}").unwrap();
    }
    drop(writer);
    let lines = reader
        .lines()
        .map(|line| line.unwrap().parse::<u32>().unwrap());
    assert!(lines.eq(0..10_000));
    let messages = sides[1].mux.stats()[Data].messages_received;
    assert!(messages <= 10, "{messages} messages");
    close(sides);
}

/// The first side has finished, and the second sends what it read in reply.
#[test]
fn one_direction_goes_on_after_the_other_has_ended() {
    let _watchdog = Watchdog::new("a half-close");
    let mut sides = pair(rings(16));
    let (mut writer, mut reader) = one_way(&mut sides);
    let mut back = sides[1].mux.take_sender(Data).unwrap().into_writer();
    let mut answer = sides[0].mux.take_receiver(Data).unwrap().into_reader();
    let echo = thread::spawn(move || {
        let mut read = String::new();
        reader.read_to_string(&mut read).unwrap();
        back.write_all(read.to_uppercase().as_bytes()).unwrap();
    });
    writer.write_all(b"half a connection goes on").unwrap();
    writer.finish().unwrap();
    let mut read = String::new();
    answer.read_to_string(&mut read).unwrap();
    assert_eq!(read, "HALF A CONNECTION GOES ON");
    echo.join().unwrap();
    close(sides);
}

#[test]
fn a_stream_that_is_cut_never_looks_like_its_end() {
    let _watchdog = Watchdog::new("a stream that is cut");
    let mut sides = pair(rings(64));
    let (mut writer, mut reader) = one_way(&mut sides);
    let socket = sides[0].socket.try_clone().unwrap();
    let write = thread::spawn(move || loop {
        if let Err(error) = writer.write_all(b"0123456789") {
            return error;
        }
    });
    let mut read = [0; 10_000];
    reader.read_exact(&mut read).unwrap();
    socket.shutdown(Shutdown::Write).unwrap();
    let mut rest = Vec::new();
    let error = reader.read_to_end(&mut rest).unwrap_err();
    let closed: Closed = inner(&error).unwrap(); // a transport that fails while this side issues, too
    assert!(
        matches!(closed, Closed::Cut | Closed::Transport(_)),
        "{closed:?}"
    );
    let all = [&read[..], &rest].concat();
    assert!(all
        .iter()
        .zip(b"0123456789".iter().cycle())
        .all(|(one, other)| one == other));
    let closed: Closed = inner(&write.join().unwrap()).unwrap();
    assert!(
        matches!(closed, Closed::Cut | Closed::Transport(_)),
        "{closed:?}"
    );
}

#[test]
fn a_reader_that_is_not_read_blocks_no_other_channel() {
    let _watchdog = Watchdog::new("a reader that is not read");
    let mut sides = pair(rings(64));
    let (mut writer, mut reader) = one_way(&mut sides);
    let (filled, is_full) = mpsc::channel();
    let blocked = thread::spawn(move || {
        writer.write_all(&[1; 64]).unwrap();
        filled.send(()).unwrap();
        writer.write_all(&[2; 64]).unwrap();
    });
    is_full.recv().unwrap();
    let mut writer = sides[0].mux.take_sender(Capability).unwrap().into_writer();
    let mut other = sides[1]
        .mux
        .take_receiver(Capability)
        .unwrap()
        .into_reader();
    let write = thread::spawn(move || writer.write_all(&bytes(10_000)).unwrap());
    let mut read = Vec::new();
    other.read_to_end(&mut read).unwrap();
    assert!(read == bytes(10_000));
    write.join().unwrap();
    assert!(!blocked.is_finished());
    reader.read_exact(&mut [0; 128]).unwrap();
    blocked.join().unwrap();
    close(sides);
}

/// Each repeats what timed out, and no byte is lost or sent twice.
#[test]
fn reads_and_writes_that_time_out_are_repeated() {
    let _watchdog = Watchdog::new("timeouts of a stream");
    let mut sides = pair(rings(16));
    let (mut writer, mut reader) = one_way(&mut sides);
    writer.set_timeout(Some(Duration::from_micros(50)));
    reader.set_timeout(Some(Duration::from_micros(50)));
    let write = thread::spawn(move || {
        let bytes = bytes(5_000);
        let mut sent = 0;
        while sent < bytes.len() {
            match writer.write(&bytes[sent..]) {
                Ok(count) => sent += count,
                Err(error) => assert_eq!(error.kind(), ErrorKind::TimedOut),
            }
        }
    });
    let (mut read, mut piece, mut expired) = (Vec::<u8>::new(), [0; 5], 0);
    loop {
        match reader.read(&mut piece) {
            Ok(0) => break,
            Ok(count) => read.extend(&piece[..count]),
            Err(error) => {
                assert_eq!(error.kind(), ErrorKind::TimedOut);
                expired += 1;
                thread::sleep(Duration::from_micros(expired % 300));
            }
        }
    }
    assert!(read == bytes(5_000));
    write.join().unwrap();
    close(sides);
}
