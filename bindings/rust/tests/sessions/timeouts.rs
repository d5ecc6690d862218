//! The timeouts of sessions on threads, and streams that cannot be split.
use crate::watchdog::Watchdog;
use crate::*;
use lcmux::Channel::Data;
use lcmux::{Breaker, Closed, Driver, Mux, Timeouts, WriteHalf};
use std::io::{self, ErrorKind, Read, Write};
use std::net::Shutdown;
use std::os::unix::net::UnixStream;
use std::thread::{self, JoinHandle};
use std::time::{Duration, Instant};

type Run = JoinHandle<Result<(), Closed>>;

const SHORT: Duration = Duration::from_millis(300);
/// The delay that a busy machine may add.
const LONG: Duration = Duration::from_secs(20);

fn timed_out(why: &str) -> Result<(), Closed> {
    Err(io::Error::new(ErrorKind::TimedOut, why).into())
}

fn timeouts(set: impl FnOnce(&mut Timeouts)) -> Timeouts {
    let mut timeouts = Timeouts::default();
    timeouts.grace = None;
    set(&mut timeouts);
    timeouts
}

fn with(timeouts: Timeouts) -> Config {
    let mut config = by_caller(16);
    config.timeouts = timeouts;
    config
}

/// How a driver is run.
#[derive(Clone, Copy, PartialEq)]
enum Way {
    Split,
    Unsplit,
    UnsplitNonBlocking,
}

const WAYS: [Way; 3] = [Way::Split, Way::Unsplit, Way::UnsplitNonBlocking];

fn run(way: Way, driver: Driver, stream: UnixStream) -> Run {
    let tick = Duration::from_millis(5);
    thread::spawn(move || match way {
        Way::Split => driver.run_blocking(stream.try_clone()?, stream),
        Way::Unsplit => {
            stream.set_read_timeout(Some(tick))?;
            driver.run_unsplit(stream, Duration::ZERO)
        }
        Way::UnsplitNonBlocking => {
            stream.set_nonblocking(true)?;
            driver.run_unsplit(stream, tick)
        }
    })
}

/// A session, and the other end of its stream for the test.
fn side(way: Way, timeouts: Timeouts) -> (Mux, Run, UnixStream) {
    let (here, there) = UnixStream::pair().unwrap();
    let (mux, driver) = Mux::new(with(timeouts)).unwrap();
    (mux, run(way, driver, here), there)
}

/// Runs a test until it succeeds, ten times at most: on a busy machine a thread may stand still for longer than a
/// timeout.
fn tried(watchdog: &Watchdog, mut test: impl FnMut() -> bool) {
    assert!((0..10).any(|_| {
        watchdog.feed();
        test()
    }));
}

fn ends(run: Run, begin: Instant, after: Duration, with: Result<(), Closed>) {
    assert_eq!(run.join().unwrap(), with);
    assert!(
        (after..after + LONG).contains(&begin.elapsed()),
        "{:?}",
        begin.elapsed()
    );
}

// Whether a byte in each third of the timeout postpones its end.
fn bytes_postpone_the_silence(way: Way) -> bool {
    let (mut mux, run, mut there) = side(way, timeouts(|it| it.idle = Some(SHORT)));
    let mut receiver = mux.take_receiver(Data).unwrap();
    let recv = thread::spawn(move || receiver.recv_blocking());
    let begin = Instant::now();
    let are_in_time = GREETING.iter().all(|byte| {
        thread::sleep(SHORT / 3);
        there.write_all(&[*byte]).is_ok()
    });
    let silent = timed_out("the peer sent nothing within the timeout");
    assert_eq!(run.join().unwrap(), silent);
    let lasted = begin.elapsed();
    assert_eq!(recv.join().unwrap().map(drop), silent);
    assert_eq!(mux.closed_blocking(), silent);
    are_in_time && (2 * SHORT..LONG).contains(&lasted)
}

#[test]
fn a_silent_peer_is_given_up() {
    let watchdog = Watchdog::new("silence");
    for way in WAYS {
        tried(&watchdog, || bytes_postpone_the_silence(way));
    }
}

// Whether a session goes on for longer than the timeout, although the peer sends nothing after its end.
fn an_end_is_no_silence(way: Way) -> bool {
    let (here, mut there) = UnixStream::pair().unwrap();
    let first = [greeted("issue 1 5"), finishes()].concat();
    there.write_all(&first).unwrap();
    there.shutdown(Shutdown::Write).unwrap();
    let (mut mux, driver) = Mux::new(with(timeouts(|it| it.idle = Some(SHORT)))).unwrap();
    let run = run(way, driver, here);
    thread::sleep(3 * SHORT);
    let sender = mux.take_sender(Data).unwrap();
    let sent = sender.send_blocking(b"hello");
    mux.close();
    if (sent, run.join().unwrap()) != (Ok(()), Ok(())) {
        return false;
    }
    let mut bytes = Vec::new();
    there.read_to_end(&mut bytes).unwrap();
    let sent = [GREETING, &frames("send 1 68656c6c6f"), &finishes()];
    assert_eq!(bytes, sent.concat());
    true
}

#[test]
fn a_peer_that_ended_its_stream_is_not_silent() {
    let watchdog = Watchdog::new("half a session");
    for way in WAYS {
        tried(&watchdog, || an_end_is_no_silence(way));
    }
}

/// No read makes the thread of an unsplit stream wait then.
#[test]
fn a_thread_whose_peer_has_ended_its_stream_sleeps() {
    let _watchdog = Watchdog::new("half a session that sleeps");
    let (here, mut there) = UnixStream::pair().unwrap();
    there.write_all(&[GREETING, &finishes()].concat()).unwrap();
    there.shutdown(Shutdown::Write).unwrap();
    here.set_read_timeout(Some(Duration::from_millis(5)))
        .unwrap();
    let (mux, driver) = Mux::new(with(timeouts(|_| {}))).unwrap();
    let run = thread::spawn(move || {
        let before = ran();
        (driver.run_unsplit(here, Duration::ZERO), ran() - before)
    });
    thread::sleep(3 * SHORT);
    mux.close();
    let (ended, hundredths) = run.join().unwrap();
    assert_eq!(ended, Ok(()));
    assert!(hundredths < 20, "{hundredths} hundredths of a second");
}

// Whether both sides end in order, after they sent nothing for longer than the timeout.
fn keep_each_other_alive(way: Way) -> bool {
    let timeouts = timeouts(|it| {
        it.idle = Some(5 * SHORT);
        it.keep_alive = Some(SHORT);
    });
    let (here, there) = UnixStream::pair().unwrap();
    let sides = [here, there].map(|stream| {
        let (mux, driver) = Mux::new(with(timeouts)).unwrap();
        (mux, run(way, driver, stream))
    });
    thread::sleep(8 * SHORT);
    sides.iter().for_each(|(mux, _)| mux.close());
    let ended = sides.map(|(mux, run)| mux.closed_blocking().and(run.join().unwrap()));
    ended.iter().all(Result::is_ok)
}

#[test]
fn two_sides_keep_each_other_alive() {
    let watchdog = Watchdog::new("keep-alive");
    for way in WAYS {
        tried(&watchdog, || keep_each_other_alive(way));
    }
}

#[test]
fn a_keep_alive_is_a_frame_that_changes_nothing() {
    let _watchdog = Watchdog::new("a keep-alive");
    for way in WAYS {
        let begin = Instant::now();
        let (mux, run, mut there) = side(way, timeouts(|it| it.keep_alive = Some(SHORT)));
        let mut bytes = [0; 4 + 2 * 9];
        there.read_exact(&mut bytes).unwrap();
        assert!(begin.elapsed() >= 2 * SHORT);
        let most = 1u64 << 62;
        let kept = frames(&format!("limit-receiving 0 {most}"));
        assert_eq!(bytes[..], [GREETING, &kept, &kept].concat());
        mux.abort();
        assert_eq!(run.join().unwrap(), Err(Closed::Aborted));
    }
}

/// A keep-alive without a pause is one each millisecond at most.
#[test]
fn keep_alives_leave_time_for_messages() {
    let _watchdog = Watchdog::new("keep-alives without a pause");
    for way in WAYS {
        let begin = Instant::now();
        let (mut mux, run, mut there) =
            side(way, timeouts(|it| it.keep_alive = Some(Duration::ZERO)));
        there.write_all(GREETING).unwrap();
        let mut first = [0; 4 + 2 * 9];
        there.read_exact(&mut first).unwrap();
        thread::sleep(SHORT);
        let sender = mux.take_sender(Data).unwrap();
        assert_eq!(sender.held(), 0);
        mux.abort();
        let mut bytes = Vec::new();
        there.read_to_end(&mut bytes).unwrap();
        let most = 1 + begin.elapsed().as_millis() as usize;
        let count = (first.len() + bytes.len()) / 9;
        assert!(count <= most, "{count} in {most} ms");
        assert_eq!(run.join().unwrap(), Err(Closed::Aborted));
    }
}

#[test]
fn a_peer_that_does_not_end_is_waited_for_as_long_as_the_grace() {
    let _watchdog = Watchdog::new("grace");
    for way in WAYS {
        let (mux, run, mut there) = side(way, timeouts(|it| it.grace = Some(SHORT)));
        there.write_all(GREETING).unwrap();
        thread::sleep(2 * SHORT);
        let begin = Instant::now();
        mux.close();
        let mut bytes = Vec::new();
        there.read_to_end(&mut bytes).unwrap();
        assert_eq!(bytes, [GREETING, &finishes()].concat());
        let late = timed_out("the peer did not end its stream within the timeout");
        ends(run, begin, SHORT, late);
    }
}

// How a session ends whose peer reads nothing, and after how long: the socket buffers a part of a message of 1 MiB.
fn stalled(way: Way, is_closed: bool) -> (Result<(), Closed>, Duration) {
    let timeouts = timeouts(|it| match is_closed {
        false => it.idle = Some(SHORT),
        true => it.grace = Some(SHORT),
    });
    let (mut mux, run, mut there) = side(way, timeouts);
    let _ = there.write_all(&greeted("issue 1 4194304"));
    let sender = mux.take_sender(Data).unwrap();
    let mut begin = Instant::now();
    let _ = sender.send_blocking(&vec![7; 1 << 20]);
    if is_closed {
        // The grace begins with the close, however long the transport was stalled before.
        thread::sleep(2 * SHORT);
        begin = Instant::now();
        mux.close();
    }
    while !run.is_finished() {
        let _ = there.write_all(&frames(&format!("limit-receiving 0 {}", 1u64 << 62)));
        thread::sleep(SHORT / 10);
    }
    (run.join().unwrap(), begin.elapsed())
}

#[test]
fn a_peer_that_takes_nothing_is_given_up() {
    let watchdog = Watchdog::new("a peer that takes nothing");
    let why = timed_out("the transport accepted no bytes within the timeout");
    let silent = timed_out("the peer sent nothing within the timeout");
    for way in WAYS {
        for is_closed in [false, true] {
            tried(&watchdog, || {
                let (ended, lasted) = stalled(way, is_closed);
                if !is_closed && ended == silent {
                    return false; // the test stood still, so the peer was silent, too
                }
                assert_eq!(ended, why);
                assert!((SHORT..SHORT + LONG).contains(&lasted), "{lasted:?}");
                true
            });
        }
    }
}

/// By default the end of a session waits for 30 seconds, and there is no other timeout.
#[test]
fn the_default_is_a_grace_alone() {
    let timeouts = Timeouts::default();
    assert_eq!((timeouts.idle, timeouts.keep_alive), (None, None));
    assert_eq!(timeouts.grace, Some(Duration::from_secs(30)));
}

/// A stream that only one thread may use at a time, such as one with TLS.
struct Whole(UnixStream);

impl Read for Whole {
    fn read(&mut self, buffer: &mut [u8]) -> io::Result<usize> {
        self.0.read(buffer)
    }
}

impl Write for Whole {
    fn write(&mut self, bytes: &[u8]) -> io::Result<usize> {
        self.0.write(bytes)
    }

    fn flush(&mut self) -> io::Result<()> {
        self.0.flush()
    }
}

impl WriteHalf for Whole {
    fn end(&mut self) -> io::Result<()> {
        self.0.shutdown(Shutdown::Write)
    }

    fn breaker(&mut self) -> io::Result<Option<Breaker>> {
        Ok(None)
    }
}

/// Both sides send on all channels at once, each over one thread.
#[test]
fn an_unsplit_stream_carries_both_directions() {
    let _watchdog = Watchdog::new("an unsplit stream");
    let (here, there) = UnixStream::pair().unwrap();
    let sides = [here, there].map(|stream| {
        stream
            .set_read_timeout(Some(Duration::from_millis(2)))
            .unwrap();
        let (mux, driver) = Mux::new(narrow()).unwrap();
        let run = thread::spawn(move || driver.run_unsplit(Whole(stream), Duration::ZERO));
        (mux, run)
    });
    let mut tasks = Vec::new();
    for (mut mux, run) in sides {
        for channel in ALL {
            let (sender, mut receiver) = (
                mux.take_sender(channel).unwrap(),
                mux.take_receiver(channel).unwrap(),
            );
            tasks.push(thread::spawn(move || {
                (0..50u8).for_each(|number| sender.send_blocking(&[number; 9]).unwrap());
            }));
            tasks.push(thread::spawn(move || {
                for number in 0..50u8 {
                    assert_eq!(receiver.recv_blocking(), Ok(Some(vec![number; 9])));
                }
                assert_eq!(receiver.recv_blocking(), Ok(None));
            }));
        }
        tasks.push(thread::spawn(move || {
            drop(mux);
            assert_eq!(run.join().unwrap(), Ok(()));
        }));
    }
    tasks.into_iter().for_each(|task| task.join().unwrap());
}

#[test]
fn an_abort_ends_an_unsplit_stream() {
    let _watchdog = Watchdog::new("an abort of an unsplit stream");
    for way in [Way::Unsplit, Way::UnsplitNonBlocking] {
        let (mux, run, mut there) = side(way, Timeouts::default());
        there.write_all(GREETING).unwrap();
        thread::sleep(SHORT / 10);
        mux.abort();
        assert_eq!(run.join().unwrap(), Err(Closed::Aborted));
    }
}
