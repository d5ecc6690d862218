//! A copy of a long stream over a small ring, whose memory does not grow. It is alone in its program.
#[path = "common/watchdog.rs"]
mod watchdog;

use lcmux::{Channel::Data, Config, Mux, Version, Writer, CHANNELS};
use std::io::{self, Read, Write};
use std::os::unix::net::UnixStream;
use std::{fs, thread};
use watchdog::Watchdog;

const LEN: u64 = 100_000_000;
const RING: u32 = 20_000;

/// The bytes of the stream repeat with a period that no message and no buffer has.
const PERIOD: usize = 251;

/// The bytes from a place of the stream on.
fn bytes_at(at: u64, count: usize) -> Vec<u8> {
    let period: Vec<_> = (0..PERIOD as u8).collect();
    let repeated = period.repeat(2 + count / PERIOD);
    repeated[at as usize % PERIOD..][..count].to_vec()
}

/// The source of the stream, and the place that was read.
struct Source(u64);

impl Read for Source {
    fn read(&mut self, buffer: &mut [u8]) -> io::Result<usize> {
        let count = buffer.len().min((LEN - self.0) as usize);
        buffer[..count].copy_from_slice(&bytes_at(self.0, count));
        self.0 += count as u64;
        Ok(count)
    }
}

/// The target of the stream, and the place that was written.
struct Target(u64);

impl Write for Target {
    fn write(&mut self, bytes: &[u8]) -> io::Result<usize> {
        let wanted = bytes_at(self.0, bytes.len());
        assert!(bytes == wanted, "after {} bytes", self.0);
        self.0 += bytes.len() as u64;
        Ok(bytes.len())
    }

    fn flush(&mut self) -> io::Result<()> {
        Ok(())
    }
}

/// The most memory that this process had resident, in KiB.
fn peak() -> u64 {
    let status = fs::read_to_string("/proc/self/status").unwrap();
    let line = status.lines().find(|line| line.starts_with("VmHWM:"));
    let words = line.unwrap().split_whitespace().nth(1);
    words.unwrap().parse().unwrap()
}

fn session(stream: UnixStream) -> Mux {
    let mut config = Config::new([RING; CHANNELS], 16);
    config.version = Version::Two;
    let (mux, driver) = Mux::new(config).unwrap();
    thread::spawn(move || driver.run_blocking(stream.try_clone()?, stream));
    mux
}

#[test]
fn a_long_copy_over_a_small_ring_needs_no_more_memory_than_a_short_one() {
    let watchdog = Watchdog::new("a long copy");
    let (here, there) = UnixStream::pair().unwrap();
    let (mut alice, mut bob) = (session(here), session(there));
    let mut writer = alice.take_sender(Data).unwrap().into_writer();
    let mut reader = bob.take_receiver(Data).unwrap().into_reader();
    let copy = thread::spawn(move || {
        let sent = lcmux::copy(&mut Source(0), &mut writer, |_| {}).unwrap();
        writer.finish().unwrap();
        sent
    });
    let mut target = Target(0);
    let begun = 1_000_000;
    io::copy(&mut reader.by_ref().take(begun), &mut target).unwrap();
    let before = peak();
    while io::copy(&mut reader.by_ref().take(10_000_000), &mut target).unwrap() > 0 {
        watchdog.feed();
    }
    assert_eq!((copy.join().unwrap(), target.0), (LEN, LEN));
    let grown = peak() - before;
    assert!(grown < 1_024, "{grown} KiB");
    let stats = bob.stats()[Data];
    assert!(stats.most_buffered <= RING.into());
    // A copy writes 16 KiB at once. How many messages these are depends on the threads, but they are no crumbs.
    let average = LEN / stats.messages_received;
    assert!(average > Writer::LARGEST_MESSAGE as u64 / 32, "{average}");
}
