//! `read_from` and `write_to` over readers and writers that are interrupted, block, fail, stop, and read or write
//! less than they could.
mod common;
#[path = "common/watchdog.rs"]
mod watchdog;

use common::{hex, rows};
use lcmux::{
    Channel::{Capability, Data, Overlap},
    Config, Fault, Incoming, Overrun, Peer, ReadError, Stop, Take, Version, CHANNELS,
};
use std::collections::VecDeque;
use std::io::{self, ErrorKind, Read, Write};
use std::net::Shutdown;
use std::os::unix::net::UnixStream;
use std::time::{Duration, Instant};
use std::{panic, thread};
use watchdog::Watchdog;

/// An issue of 5 on channel 1.
const ISSUE: [u8; 5] = [0x21, 0, 0, 0, 5];

fn peer() -> Peer {
    Peer::new(&Config::new([8; CHANNELS], 4)).unwrap()
}

/// The results of a device, call by call: each word is the name of an error, or a success.
fn script<T>(words: &str, done: fn(&str) -> T) -> VecDeque<io::Result<T>> {
    let kinds = [
        ErrorKind::Interrupted,
        ErrorKind::WouldBlock,
        ErrorKind::TimedOut,
        ErrorKind::BrokenPipe,
        ErrorKind::ConnectionReset,
    ];
    let answer = |word| {
        let failed = kinds.iter().find(|kind| format!("{kind:?}") == word);
        failed.map_or_else(|| Ok(done(word)), |kind| Err((*kind).into()))
    };
    words.split_whitespace().map(answer).collect()
}

/// Accepts this many bytes at each call, and then all; records the bytes that it accepted and how many it was
/// offered.
struct Writer {
    answers: VecDeque<io::Result<usize>>,
    taken: Vec<u8>,
    offered: Vec<usize>,
}

impl Writer {
    fn new(words: &str) -> Writer {
        Writer {
            answers: script(words, |count| count.parse().unwrap()),
            taken: Vec::new(),
            offered: Vec::new(),
        }
    }
}

impl Write for Writer {
    fn write(&mut self, buffer: &[u8]) -> io::Result<usize> {
        self.offered.push(buffer.len());
        assert!(self.offered.len() < 100, "the writer is called on and on");
        let count = self.answers.pop_front().unwrap_or(Ok(buffer.len()))?;
        self.taken.extend(&buffer[..count]);
        Ok(count)
    }

    fn flush(&mut self) -> io::Result<()> {
        panic!("the writer is flushed");
    }
}

/// Reads bytes at each call, and then ends; records how many it was asked for.
struct Reader {
    answers: VecDeque<io::Result<Vec<u8>>>,
    asked: Vec<usize>,
}

impl Reader {
    fn new(words: &str) -> Reader {
        Reader {
            answers: script(words, hex),
            asked: Vec::new(),
        }
    }
}

impl Read for Reader {
    fn read(&mut self, buffer: &mut [u8]) -> io::Result<usize> {
        self.asked.push(buffer.len());
        assert!(self.asked.len() < 100, "the reader is called on and on");
        // The buffer may contain bytes of an earlier read.
        buffer.fill(0x77);
        let bytes = self.answers.pop_front().unwrap_or(Ok(Vec::new()))?;
        buffer[..bytes.len()].copy_from_slice(&bytes);
        Ok(bytes.len())
    }
}

// The results of the writer, then the result of `write_to`, and how many of five bytes the writer has.
const WRITES: &str = "\
5 => 5, has 5
1 1 2 1 => 5, has 5
Interrupted => 5, has 5
2 Interrupted Interrupted 2 => 5, has 5
WouldBlock => WouldBlock, has 0
3 WouldBlock => WouldBlock, has 3
3 Interrupted 1 WouldBlock => WouldBlock, has 4
BrokenPipe => BrokenPipe, has 0
4 BrokenPipe => BrokenPipe, has 4
0 => WriteZero, has 0
2 0 => WriteZero, has 2";

#[test]
fn a_write_that_stops_loses_nothing() {
    for (words, answer) in rows(WRITES) {
        let (mut peer, mut writer) = (peer(), Writer::new(words));
        peer.issue(Data, 5).unwrap();
        let written = match peer.write_to(&mut writer) {
            Ok(count) => count.to_string(),
            Err(error) => format!("{:?}", error.kind()),
        };
        let count = writer.taken.len();
        assert_eq!(format!("{written}, has {count}"), answer, "{words}");
        assert_eq!(peer.pending(), 5 - count);
        assert_eq!(peer.write_to(&mut writer).unwrap(), 5 - count as u64);
        assert_eq!((&writer.taken[..], peer.pending()), (&ISSUE[..], 0));
    }
}

/// Pending bytes are fetched in chunks, and the first one that is not full is the last.
#[test]
fn a_write_offers_all_that_waits_by_pieces_of_16_kib() {
    for (body, offered) in [
        (16_380, &[16_383][..]),
        (16_381, &[16_384]),
        (16_382, &[16_384, 1]),
        (32_765, &[16_384, 16_384]),
        (65_535, &[16_384, 16_384, 16_384, 16_384, 2]),
    ] {
        let mut peer = peer();
        assert_eq!(peer.deliver(&[0x21, 0, 1, 0, 0]).frames, 1);
        peer.send(Data, &vec![7; body]).unwrap();
        let mut writer = Writer::new("");
        assert_eq!(peer.write_to(&mut writer).unwrap(), 3 + body as u64);
        assert_eq!(
            (&writer.offered[..], writer.taken.len()),
            (offered, 3 + body)
        );
        assert!(writer.taken[3..].iter().all(|byte| *byte == 7));
        assert_eq!(peer.write_to(&mut writer).unwrap(), 0);
    }
}

#[test]
fn a_short_piece_that_waited_for_the_writer_is_not_the_last() {
    let mut peer = peer();
    peer.issue(Data, 5).unwrap();
    assert!(peer.write_to(&mut Writer::new("WouldBlock")).is_err());
    peer.issue(Overlap, 7).unwrap();
    let mut writer = Writer::new("");
    assert_eq!(peer.write_to(&mut writer).unwrap(), 10);
    assert_eq!((writer.offered, peer.pending()), (vec![5, 5], 0));
}

/// Accepts all offered bytes, or fills the buffer, and claims some bytes more.
struct Boaster {
    more: usize,
    taken: Vec<u8>,
}

impl Boaster {
    fn new(more: usize) -> Boaster {
        Boaster {
            more,
            taken: Vec::new(),
        }
    }
}

impl Write for Boaster {
    fn write(&mut self, buffer: &[u8]) -> io::Result<usize> {
        self.taken.extend(buffer);
        Ok(buffer.len().saturating_add(self.more))
    }

    fn flush(&mut self) -> io::Result<()> {
        Ok(())
    }
}

impl Read for Boaster {
    fn read(&mut self, buffer: &mut [u8]) -> io::Result<usize> {
        for (byte, put) in buffer.iter_mut().zip(ISSUE.iter().cycle()) {
            *byte = *put;
        }
        Ok(buffer.len().saturating_add(self.more))
    }
}

fn overrun(error: &io::Error) -> Option<&Overrun> {
    error.get_ref().and_then(|inner| inner.downcast_ref())
}

#[test]
fn a_writer_that_claims_more_than_it_was_offered_has_no_byte_twice() {
    for more in [1, 70_000, usize::MAX - 5, usize::MAX] {
        let (mut peer, mut boaster) = (peer(), Boaster::new(more));
        peer.issue(Data, 5).unwrap();
        let error = peer.write_to(&mut boaster).unwrap_err();
        assert_eq!(error.kind(), ErrorKind::InvalidData);
        let counts = overrun(&error).map(|it| (it.claimed, it.offered));
        assert_eq!(counts, Some((more.saturating_add(5), 5)));
        assert_eq!((&boaster.taken[..], peer.pending()), (&ISSUE[..], 0));

        peer.issue(Data, 1).unwrap();
        let mut wire = [0; 16];
        assert_eq!((peer.pending(), peer.write(&mut wire)), (5, 5));
        assert_eq!(wire[..5], [0x21, 0, 0, 0, 1]);
        assert_eq!(peer.write_to(&mut boaster).unwrap(), 0);
    }
}

#[test]
fn of_a_read_that_claims_more_than_was_asked_for_nothing_arrives() {
    for more in [1, usize::MAX] {
        let mut peer = peer();
        let error = io::Error::from(peer.read_from(&mut Boaster::new(more)).unwrap_err());
        assert_eq!(error.kind(), ErrorKind::InvalidData);
        let counts = overrun(&error).map(|it| (it.claimed, it.offered));
        assert_eq!(counts, Some((16_384_usize.saturating_add(more), 16_384)));
        assert_eq!(peer.client(Data).held, 0);
        assert_eq!(peer.read_from(&mut &ISSUE[..]).unwrap(), 5);
        assert_eq!(peer.client(Data).held, 5);
    }
}

/// Accepts or reads the bytes of an issue but the last, and panics at the second call.
struct Broken(bool);

impl Broken {
    fn call(&mut self) -> usize {
        assert!(!self.0, "the device is broken");
        self.0 = true;
        4
    }
}

impl Write for Broken {
    fn write(&mut self, _: &[u8]) -> io::Result<usize> {
        Ok(self.call())
    }

    fn flush(&mut self) -> io::Result<()> {
        Ok(())
    }
}

impl Read for Broken {
    fn read(&mut self, buffer: &mut [u8]) -> io::Result<usize> {
        buffer.fill(0x77);
        buffer[..4].copy_from_slice(&ISSUE[..4]);
        Ok(self.call())
    }
}

#[test]
fn a_device_that_panics_leaves_both_streams_as_they_were() {
    let (mut peer, mut device) = (peer(), Broken(false));
    peer.issue(Data, 5).unwrap();
    let write = panic::AssertUnwindSafe(|| peer.write_to(&mut device));
    assert!(panic::catch_unwind(write).is_err());
    let mut wire = Vec::new();
    assert_eq!((peer.pending(), peer.write_to(&mut wire).unwrap()), (1, 1));
    assert_eq!(wire, ISSUE[4..]);

    let mut device = Broken(false);
    assert_eq!(peer.read_from(&mut device).unwrap(), 4);
    let read = panic::AssertUnwindSafe(|| peer.read_from(&mut device));
    assert!(panic::catch_unwind(read).is_err());
    assert_eq!(peer.read_from(&mut &ISSUE[4..]).unwrap(), 1);
    assert_eq!(peer.client(Data).held, 5);
}

/// Three frames, of which the chunk has two when the third is enqueued.
#[test]
fn a_chunk_stays_until_it_is_advanced_over() {
    let mut peer = peer();
    assert!(peer.chunk().is_empty());
    assert!(!peer.wants_write());
    assert_eq!(peer.advance(0), Ok(()));
    assert!(peer.advance(1).is_err());
    peer.issue(Data, 5).unwrap();
    assert!(peer.advance(1).is_err());
    peer.issue(Overlap, 7).unwrap();
    let both = [[0x21, 0, 0, 0, 5], [0x22, 0, 0, 0, 7]].concat();
    assert_eq!(peer.chunk(), both);
    peer.issue(Capability, 8).unwrap();
    assert_eq!((peer.pending(), peer.chunk()), (15, &both[..]));

    peer.advance(4).unwrap();
    for count in [7, 16_384, usize::MAX] {
        let overrun = peer.advance(count).unwrap_err();
        assert_eq!((overrun.claimed, overrun.offered), (count, 6));
        assert_eq!((peer.pending(), peer.chunk()), (11, &both[4..]));
    }
    peer.advance(6).unwrap();
    assert_eq!((peer.pending(), peer.chunk()), (5, &[0x23, 0, 0, 0, 8][..]));
    peer.advance(1).unwrap();
    // Only the rest of the chunk is pending.
    assert!(peer.wants_write());
    let mut wire = Vec::new();
    assert_eq!(peer.write_to(&mut wire).unwrap(), 4);
    assert_eq!((&wire[..], peer.chunk()), (&[0, 0, 0, 8][..], &[][..]));
    assert!(!peer.wants_write());
}

/// Two frames of which a writer accepted six bytes, and a third after them.
#[test]
fn a_buffer_gets_what_no_writer_took_and_then_what_waits() {
    let frames = [[0x21, 0, 0, 0, 5], [0x22, 0, 0, 0, 7], [0x23, 0, 0, 0, 8]].concat();
    for room in 0..=10 {
        let mut peer = peer();
        peer.issue(Data, 5).unwrap();
        peer.issue(Overlap, 7).unwrap();
        let mut writer = Writer::new("6 WouldBlock");
        assert!(peer.write_to(&mut writer).is_err());
        peer.issue(Capability, 8).unwrap();
        assert_eq!(peer.pending(), 9);

        let mut buffer = vec![0xee; room];
        let count = peer.write(&mut buffer);
        assert_eq!(count, room.min(9));
        assert_eq!(peer.pending(), 9 - count);
        assert!(buffer[count..].iter().all(|byte| *byte == 0xee));
        writer.taken.extend(&buffer[..count]);
        assert_eq!(peer.write_to(&mut writer).unwrap(), 9 - count as u64);
        assert_eq!((&writer.taken, peer.pending()), (&frames, 0));
    }
}

// The results of the reader, then those of `read_from`, call by call, and the guarantees that are held then. A
// protocol error is followed by the number of frames that arrived in that call.
const READS: &str = "\
- => 0 0, held 0
2100000005 => 5 0 0, held 5
Interrupted Interrupted 2100000005 => 5 0, held 5
2100 Interrupted 000005 => 2 3 0, held 5
2100 WouldBlock 000005 => 2 WouldBlock 3 0, held 5
2100000005 ConnectionReset => 5 ConnectionReset, held 5
2100000005 2100 => 5 2 Fault(Truncated):0, held 5
2100000005 77 2100000005 => 5 Fault(BadTag):0 Fault(BadTag):0, held 5
2100000002210000000477 2100000005 => Fault(BadTag):2 Fault(BadTag):0, held 6
210000000331000000012100000005 2100000005 => Violated(AbsolvedTooMuch):1 Violated(AbsolvedTooMuch):0, held 3";

fn answer(read: Result<usize, ReadError>) -> String {
    match read {
        Ok(count) => count.to_string(),
        Err(ReadError::Io(error)) => format!("{:?}", error.kind()),
        Err(ReadError::Stopped { error, frames, .. }) => format!("{:?}:{frames}", error.stop),
        Err(error) => panic!("{error}"),
    }
}

#[test]
fn each_read_is_answered() {
    for (words, answers) in rows(READS) {
        let (mut peer, mut reader) = (peer(), Reader::new(words));
        let calls = answers.split_once(',').unwrap().0.split(' ');
        let read: Vec<_> = calls.map(|_| answer(peer.read_from(&mut reader))).collect();
        let held = peer.client(Data).held;
        assert_eq!(
            format!("{}, held {held}", read.join(" ")),
            answers,
            "{words}"
        );
        assert!(reader.asked.iter().all(|count| *count == 16_384));
    }
}

/// A stream of both directions.
struct Stream(Writer, Reader);

impl Write for Stream {
    fn write(&mut self, buffer: &[u8]) -> io::Result<usize> {
        self.0.write(buffer)
    }

    fn flush(&mut self) -> io::Result<()> {
        self.0.flush()
    }
}

impl Read for Stream {
    fn read(&mut self, buffer: &mut [u8]) -> io::Result<usize> {
        self.1.read(buffer)
    }
}

// The results of writes and, after `|`, of reads of the stream; then the result of one drive: the bytes that it wrote
// and read, whether it is blocked, and the state of the inbound stream. Five bytes are pending.
const DRIVES: &str = "\
5 | 2100000005 => 5 5 false Open
2 Interrupted 3 | Interrupted 2100 => 5 2 false Open
WouldBlock | 2100000005 => 0 5 true Open
3 TimedOut | WouldBlock => 3 0 true WouldBlock
1 2 WouldBlock | - => 3 0 true Ended
5 | TimedOut => 5 0 false WouldBlock
5 | WouldBlock => 5 0 false WouldBlock
5 | - => 5 0 false Ended
5 | 77 => 5 0 false Fault(BadTag) at 0 after 0 frames
5 | 210000000577 => 5 0 false Fault(BadTag) at 5 after 1 frames
BrokenPipe | 2100000005 => BrokenPipe
0 | 2100000005 => WriteZero
5 | ConnectionReset => ConnectionReset";

fn shown(incoming: Incoming) -> String {
    match incoming {
        Incoming::Stopped { error, frames } => {
            format!("{:?} at {} after {frames} frames", error.stop, error.offset)
        }
        other => format!("{other:?}"),
    }
}

#[test]
fn each_drive_is_answered() {
    for (words, want) in rows(DRIVES) {
        let (writes, reads) = words.split_once(" | ").unwrap();
        let (mut peer, mut stream) = (peer(), Stream(Writer::new(writes), Reader::new(reads)));
        peer.issue(Data, 5).unwrap();
        let answer = match peer.drive(&mut stream) {
            Ok(it) => format!(
                "{} {} {} {}",
                it.written,
                it.read,
                it.blocked,
                shown(it.incoming)
            ),
            Err(error) => format!("{:?}", error.kind()),
        };
        assert_eq!(answer, want, "{words}");
        assert_eq!(peer.pending(), 5 - stream.0.taken.len());
        peer.write_to(&mut stream).unwrap();
        assert_eq!(stream.0.taken, ISSUE, "{words}");
        assert!(stream.1.asked.len() <= 1 + reads.matches("Interrupted").count());
    }
}

#[test]
fn a_drive_over_a_stream_that_was_given_up_still_writes() {
    let (mut peer, mut stream) = (peer(), Stream(Writer::new(""), Reader::new("77")));
    for written in [5, 5] {
        peer.issue(Data, 1).unwrap();
        let progress = peer.drive(&mut stream).unwrap();
        assert_eq!((progress.written, progress.blocked), (written, false));
        let said = "Fault(BadTag) at 0 after 0 frames";
        assert_eq!(shown(progress.incoming), said);
    }
    assert_eq!(stream.1.asked.len(), 1);
}

type End = fn() -> io::Result<usize>;

/// Reads the beginning of a message of 1 MiB, in reads as long as possible, and accepts nothing for now.
struct Long {
    left: usize,
    writes: usize,
    reads: usize,
    end: End,
}

impl Write for Long {
    fn write(&mut self, _: &[u8]) -> io::Result<usize> {
        self.writes += 1;
        assert_eq!(self.writes, 1, "the stream is written to on and on");
        Err(ErrorKind::WouldBlock.into())
    }

    fn flush(&mut self) -> io::Result<()> {
        Ok(())
    }
}

impl Read for Long {
    fn read(&mut self, buffer: &mut [u8]) -> io::Result<usize> {
        self.reads += 1;
        assert!(self.reads < 100, "the stream is read on and on");
        if self.left == 0 {
            return (self.end)();
        }
        let greeting = b"\x4c\x43\x4d\x02\x11\x00\x10\x00\x00";
        let count = self.left.min(buffer.len());
        buffer[..count].fill(0);
        if self.reads == 1 {
            buffer[..9].copy_from_slice(greeting);
        }
        self.left -= count;
        Ok(count)
    }
}

/// The result of one drive over this many bytes and their continuation, and how many reads it made; `frames` are
/// pending, and the stream does not accept them.
fn driven(left: usize, end: End, frames: u32) -> String {
    let mut peer = Peer::new(&Config::new([1 << 20; CHANNELS], 4)).unwrap();
    peer.issue(Data, 1 << 20).unwrap();
    let count = peer.chunk().len();
    peer.advance(count).unwrap();
    (0..frames).for_each(|_| peer.issue(Overlap, 1).unwrap());
    let mut stream = Long {
        left,
        writes: 0,
        reads: 0,
        end,
    };
    let it = peer.drive(&mut stream).unwrap();
    assert_eq!((it.written, it.blocked), (0, frames > 0));
    format!("{} {}, {} reads", it.read, shown(it.incoming), stream.reads)
}

const LATE: End = || Err(ErrorKind::WouldBlock.into());

#[test]
fn a_drive_that_could_not_write_all_reads_while_pieces_are_full() {
    let cases: [(usize, End, _); 5] = [
        (16_383, LATE, "16383 Open, 1 reads"),
        (16_384, LATE, "16384 Open, 2 reads"),
        (16_385, LATE, "16385 Open, 2 reads"),
        (
            32_768,
            || Ok(0),
            "32768 Fault(Truncated) at 4 after 0 frames, 3 reads",
        ),
        (300_000, LATE, "262144 Open, 16 reads"),
    ];
    for (left, end, want) in cases {
        assert_eq!(driven(left, end, 1), want);
    }
}

/// The stream may be a blocking one: a second read would wait for bytes that the peer may never write.
#[test]
fn a_drive_that_wrote_all_reads_once() {
    let blocks: End = || panic!("a second read waits for good");
    for (left, want) in [
        (16_383, "16383 Open, 1 reads"),
        (16_384, "16384 Open, 1 reads"),
        (300_000, "16384 Open, 1 reads"),
    ] {
        assert_eq!(driven(left, blocks, 0), want);
    }
    assert_eq!(driven(0, LATE, 0), "0 WouldBlock, 1 reads");
}

const SWAPPED: usize = 40;
const LONG: usize = 60_000;

/// Sends all messages and takes as many of the peer's, each ring with space for far more than a socket buffers.
fn swap(mut stream: UnixStream) {
    let mut peer = Peer::new(&Config::new([4 << 20; CHANNELS], 200)).unwrap();
    let (mut sent, mut taken, mut owed) = (0, 0, 4 << 20);
    let deadline = Instant::now() + Duration::from_secs(60);
    while sent < SWAPPED || taken < SWAPPED || peer.pending() > 0 {
        assert!(Instant::now() < deadline, "the sides wait for each other");
        if owed > 0 && peer.issue(Data, owed).is_ok() {
            owed = 0;
        }
        while sent < SWAPPED && peer.send(Data, &[sent as u8; LONG]).is_ok() {
            sent += 1;
        }
        let progress = peer.drive(&mut stream).unwrap();
        assert!(!matches!(progress.incoming, Incoming::Stopped { .. }));
        while let Take::Took(message) = peer.take(Data) {
            assert!(message == [taken as u8; LONG]);
            taken += 1;
            owed += LONG as u32;
        }
    }
    stream.shutdown(Shutdown::Write).unwrap();
    while peer.drive(&mut stream).unwrap().incoming != Incoming::Ended {
        assert!(Instant::now() < deadline, "the stream does not end");
    }
}

fn swap_over(prepare: fn(&UnixStream) -> io::Result<()>) {
    let _watchdog = Watchdog::new("a swap over a socket");
    let (here, there) = UnixStream::pair().unwrap();
    prepare(&here).and_then(|()| prepare(&there)).unwrap();
    let other = thread::spawn(move || swap(there));
    swap(here);
    other.join().unwrap();
}

#[test]
fn drives_over_sockets_with_timeouts_do_not_wait_for_each_other() {
    const WAIT: Option<Duration> = Some(Duration::from_millis(5));
    swap_over(|stream| {
        stream.set_read_timeout(WAIT)?;
        stream.set_write_timeout(WAIT)
    });
}

#[test]
fn drives_over_sockets_that_do_not_block_do_not_wait_for_each_other() {
    swap_over(|stream| stream.set_nonblocking(true));
}

/// Delivers all pending bytes of one peer to the other, in as many reads as necessary.
fn carry(from: &mut Peer, to: &mut Peer) -> usize {
    let mut wire = Vec::new();
    from.write_to(&mut wire).unwrap();
    let (mut rest, mut count) = (wire.as_slice(), 0);
    while !rest.is_empty() {
        count += to.read_from(&mut rest).unwrap();
    }
    assert_eq!(count, wire.len());
    count
}

#[test]
fn messages_of_every_length_that_a_frame_has() {
    let lengths = [
        (Version::One, 3, vec![1, 2, 255, 256, 65_534, 65_535]),
        (
            Version::Two,
            5,
            vec![1, 65_535, 65_536, 1_048_575, 1_048_576],
        ),
    ];
    for (version, header, lengths) in lengths {
        let mut config = Config::new([1 << 20; CHANNELS], 4);
        config.version = version;
        let (mut client, mut server) = (Peer::new(&config).unwrap(), Peer::new(&config).unwrap());
        carry(&mut client, &mut server);
        for len in lengths {
            let body: Vec<u8> = (0..len).map(|k| (k % 251) as u8).collect();
            server.issue(Data, len as u32).unwrap();
            carry(&mut server, &mut client);
            client.send(Data, &body).unwrap();
            assert_eq!(carry(&mut client, &mut server), header + len);
            let mut message = vec![0; len];
            assert_eq!(server.take_into(Data, &mut message), Ok(Take::Took(len)));
            assert_eq!(message, body);
        }
    }
}

#[test]
fn a_stop_is_the_same_for_each_way_to_bring_bytes() {
    let stop = Stop::Fault(Fault::BadTag);
    for by_read in [true, false] {
        let mut peer = peer();
        match by_read {
            true => assert!(peer.read_from(&mut &[0x77][..]).is_err()),
            false => assert_eq!(peer.deliver(&[0x77]).stop, Some(stop)),
        }
        let again = peer.deliver(&ISSUE);
        assert_eq!((again.taken, again.frames, again.stop), (0, 0, Some(stop)));
        assert_eq!(answer(peer.read_from(&mut &ISSUE[..])), "Fault(BadTag):0");
        assert_eq!((peer.end(), peer.client(Data).held), (Err(stop), 0));
        peer.issue(Data, 5).unwrap();
        assert_eq!(peer.write_to(&mut Vec::new()).unwrap(), 5);
    }
}

#[test]
fn a_stream_that_was_given_up_is_not_read() {
    for bytes in ["77", "3100000001"] {
        let (mut peer, mut reader) = (peer(), Reader::new(bytes));
        for _ in 0..3 {
            assert!(peer.read_from(&mut reader).is_err());
        }
        assert_eq!(reader.asked.len(), 1);
    }
}

#[test]
fn a_read_error_says_what_befell() {
    let failed = ReadError::from(io::Error::other("the cable is cut"));
    assert_eq!(failed.to_string(), "the cable is cut");
    let stopped = peer().read_from(&mut &[0x11, 0, 0][..]).unwrap_err();
    let want = "F2 at byte 0: a message has length 0 (a Send of 0 on Data)";
    assert_eq!(stopped.to_string(), want);
}
