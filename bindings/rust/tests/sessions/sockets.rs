//! Drivers on threads, over sockets and pipes.
use crate::hand::broken;
use crate::watchdog::Watchdog;
use crate::*;
use lcmux::Channel::{Data, Overlap};
use lcmux::{Closed, Driver, Mux, Pipe, Receiver, SendError, Sender, WriteHalf, CHANNELS};
use std::io::{self, ErrorKind, Read, Write};
use std::net::{Shutdown, TcpListener, TcpStream};
use std::os::unix::net::UnixStream;
use std::sync::atomic::{AtomicUsize, Ordering};
use std::sync::{mpsc, Arc};
use std::thread::{self, JoinHandle};
use std::time::Duration;

type Run = JoinHandle<Result<(), Closed>>;

fn over<S>(driver: Driver, halves: io::Result<(S, S)>) -> Run
where
    S: Read + WriteHalf + Send + 'static,
{
    thread::spawn(move || {
        let (reader, writer) = halves?;
        driver.run_blocking(reader, writer)
    })
}

fn tcp(stream: TcpStream, driver: Driver) -> Run {
    stream.set_nodelay(true).unwrap();
    over(driver, stream.try_clone().map(|reader| (reader, stream)))
}

fn tcp_pair() -> (TcpStream, TcpStream) {
    let listener = TcpListener::bind("127.0.0.1:0").unwrap();
    let here = TcpStream::connect(listener.local_addr().unwrap()).unwrap();
    (here, listener.accept().unwrap().0)
}

fn big() -> Config {
    let mut config = Config::new([4 << 20; CHANNELS], 64);
    config.version = Version::Two;
    config
}

fn send_many(sender: Sender, count: usize) -> JoinHandle<()> {
    thread::spawn(move || {
        for number in 0..count {
            sender.send_blocking(&vec![number as u8; 60_000]).unwrap();
        }
    })
}

fn take_many(mut receiver: Receiver) -> JoinHandle<usize> {
    thread::spawn(move || {
        let mut number = 0;
        while let Some(message) = receiver.recv_ref_blocking().unwrap() {
            assert!(message.len() == 60_000 && message.iter().all(|byte| *byte == number as u8));
            number += 1;
        }
        number
    })
}

/// Both sides have far more to write than sockets buffer, and they do not deadlock.
#[test]
fn two_sides_swap_more_than_sockets_hold() {
    let _watchdog = Watchdog::new("a swap over TCP");
    let (here, there) = tcp_pair();
    let mut sides = [here, there].map(|stream| {
        let (mux, driver) = Mux::new(big()).unwrap();
        (mux, tcp(stream, driver))
    });
    let tasks = [0, 1].map(|side| {
        let mux = &mut sides[side].0;
        let send = send_many(mux.take_sender(Data).unwrap(), 300);
        (send, take_many(mux.take_receiver(Data).unwrap()))
    });
    for (send, take) in tasks {
        send.join().unwrap();
        assert_eq!(take.join().unwrap(), 300);
    }
    sides.iter().for_each(|(mux, _)| mux.close());
    for (mux, run) in sides {
        assert_eq!(mux.closed_blocking(), Ok(()));
        assert_eq!(run.join().unwrap(), Ok(()));
    }
}

/// The session is dropped, and the accepted messages still arrive.
#[test]
fn what_was_accepted_arrives_when_all_is_dropped() {
    let _watchdog = Watchdog::new("a drop");
    let (here, there) = tcp_pair();
    let (mut mux, driver) = Mux::new(big()).unwrap();
    let one = tcp(here, driver);
    let sender = mux.take_sender(Data).unwrap();
    drop(mux);
    let (mut other, driver) = Mux::new(big()).unwrap();
    let other_run = tcp(there, driver);
    let receiver = other.take_receiver(Data).unwrap();
    send_many(sender, 40).join().unwrap();
    assert_eq!(take_many(receiver).join().unwrap(), 40);
    drop(other);
    assert_eq!(one.join().unwrap(), Ok(()));
    assert_eq!(other_run.join().unwrap(), Ok(()));
}

// Aborts a session whose driver blocks in a read, and whose calls wait.
fn abort(mux: &mut Mux, run: Run) {
    let sender = mux.take_sender(Data).unwrap();
    let mut receiver = mux.take_receiver(Data).unwrap();
    let send = thread::spawn(move || sender.send_blocking(b"hello"));
    let recv = thread::spawn(move || receiver.recv_blocking());
    thread::sleep(Duration::from_millis(20));
    mux.abort();
    assert_eq!(
        send.join().unwrap(),
        Err(SendError::Closed(Closed::Aborted))
    );
    assert_eq!(recv.join().unwrap(), Err(Closed::Aborted));
    assert_eq!(run.join().unwrap(), Err(Closed::Aborted));
}

#[test]
fn an_abort_ends_a_read_that_blocks() {
    let _watchdog = Watchdog::new("an abort");
    let (here, mut there) = tcp_pair();
    let (mut mux, driver) = Mux::new(narrow()).unwrap();
    abort(&mut mux, tcp(here, driver));
    assert!(
        there.read_to_end(&mut Vec::new()).is_ok(),
        "the connection is shut down"
    );

    let (here, _there) = UnixStream::pair().unwrap();
    let (mut mux, driver) = Mux::new(narrow()).unwrap();
    abort(
        &mut mux,
        over(driver, here.try_clone().map(|reader| (reader, here))),
    );
    // Before the driver runs.
    let (here, _there) = tcp_pair();
    let (mux, driver) = Mux::new(narrow()).unwrap();
    mux.abort();
    assert_eq!(tcp(here, driver).join().unwrap(), Err(Closed::Aborted));
}

// Aborts a session whose driver blocks in a write, since the peer reads nothing.
fn abort_a_write<S>(here: S, reader: io::Result<S>, mut there: impl Write)
where
    S: Read + WriteHalf + Send + 'static,
{
    let (mut mux, driver) = Mux::new(big()).unwrap();
    let run = over(driver, reader.map(|reader| (reader, here)));
    let room = (1u32 << 24).to_be_bytes(); // more than the slots and the sockets hold
    let issue = [GREETING, &[0x21], &room].concat();
    there.write_all(&issue).unwrap();
    let sender = mux.take_sender(Data).unwrap();
    while sender
        .send_timeout(&[7; 60_000], Duration::from_millis(300))
        .is_ok()
    {}
    mux.abort();
    assert_eq!(run.join().unwrap(), Err(Closed::Aborted));
}

// Fills a connection. If it had some free space, but too little to wake a blocked write, any other wake-up would let
// the write proceed, also a shutdown of the other direction alone.
fn fill(mut stream: &TcpStream) {
    stream.set_nonblocking(true).unwrap();
    let mut refused = 0;
    while refused < 5 {
        match stream.write(&[7; 60_000]) {
            Ok(count) => {
                assert_ne!(count, 0);
                refused = 0;
            }
            Err(error) => {
                assert_eq!(error.kind(), ErrorKind::WouldBlock);
                refused += 1;
                thread::sleep(Duration::from_millis(10));
            }
        }
    }
    stream.set_nonblocking(false).unwrap();
}

#[test]
fn an_abort_ends_a_write_that_blocks() {
    let _watchdog = Watchdog::new("an abort of a write");
    let (here, there) = tcp_pair();
    fill(&here);
    let reader = here.try_clone();
    abort_a_write(here, reader, &there);
    let (here, there) = UnixStream::pair().unwrap();
    let reader = here.try_clone();
    abort_a_write(here, reader, &there);
}

/// A reader that does not end by itself, and that the caller's shutdown handle ends.
struct Blocked(mpsc::Receiver<()>);

impl Read for Blocked {
    fn read(&mut self, _: &mut [u8]) -> io::Result<usize> {
        let _ = self.0.recv();
        Ok(0)
    }
}

#[test]
fn a_pipe_is_ended_by_its_drop_and_broken_by_its_breaker() {
    let _watchdog = Watchdog::new("a pipe");
    let (mux, driver) = Mux::new(narrow()).unwrap();
    let (breaker, blocked) = mpsc::channel();
    let (writer, mut written) = UnixStream::pair().unwrap();
    let writer = Pipe::with_breaker(writer, move || drop(breaker));
    let run = thread::spawn(move || driver.run_blocking(Blocked(blocked), writer));
    mux.close();
    let mut bytes = Vec::new();
    written.read_to_end(&mut bytes).unwrap();
    assert_eq!(bytes[..9], *b"\x4c\x43\x4d\x02\x20\0\0\0\x40");
    mux.abort();
    assert_eq!(run.join().unwrap(), Err(Closed::Aborted));

    let mut pipe = Pipe::new(Vec::new());
    assert!(pipe.breaker().unwrap().is_none());
    pipe.end().unwrap();
    assert_eq!(pipe.write(b"x").unwrap_err().kind(), ErrorKind::BrokenPipe);
    assert_eq!(pipe.flush().unwrap_err().kind(), ErrorKind::BrokenPipe);
}

type Ends = fn(&Mux);

/// A shutdown handle is called even if the session was over before, and dropped if the session ends in order.
#[test]
fn a_breaker_is_called_or_dropped() {
    let _watchdog = Watchdog::new("a breaker");
    let ends: [(Ends, Result<(), Closed>, usize); 2] = [
        (Mux::close, Ok(()), 0),
        (Mux::abort, Err(Closed::Aborted), 1),
    ];
    for (end, result, count) in ends {
        let (mux, driver) = Mux::new(narrow()).unwrap();
        let ended = [GREETING, &finishes()].concat();
        let breaks = Arc::new(AtomicUsize::new(0));
        let counted = Arc::clone(&breaks);
        let breaker = move || counted.store(1, Ordering::Relaxed);
        end(&mux);
        let writer = Pipe::with_breaker(Vec::new(), breaker);
        assert_eq!(driver.run_blocking(&ended[..], writer), result);
        assert_eq!(breaks.load(Ordering::Relaxed), count);
        assert_eq!(Arc::strong_count(&breaks), 1);
    }
}

// This side's direction ends although the stream is still open, and the other direction continues.
fn end<S: Read + WriteHalf>((mut here, mut there): (S, S)) {
    here.write_all(b"last").unwrap();
    here.end().unwrap();
    let mut bytes = Vec::new();
    there.read_to_end(&mut bytes).unwrap();
    assert_eq!(bytes, b"last");
    there.write_all(b"more").unwrap();
    let mut bytes = [0; 4];
    here.read_exact(&mut bytes).unwrap();
    assert_eq!(bytes, *b"more");
}

#[test]
fn one_direction_of_a_socket_ends_without_the_other() {
    let _watchdog = Watchdog::new("an end");
    end(tcp_pair());
    end(UnixStream::pair().unwrap());
}

/// The peer reset the connection, which ends this direction, too.
#[test]
fn a_direction_that_is_gone_is_ended() {
    let _watchdog = Watchdog::new("a reset");
    let (mut here, there) = tcp_pair();
    here.write_all(b"x").unwrap();
    there.peek(&mut [0]).unwrap();
    drop(there); // with an unread byte
    let read = here.read(&mut [0]).unwrap_err();
    assert_eq!(read.kind(), ErrorKind::ConnectionReset);
    here.end().unwrap();
}

/// Panics when it is read.
struct Panics;

impl Read for Panics {
    fn read(&mut self, _: &mut [u8]) -> io::Result<usize> {
        std::panic::resume_unwind(Box::new("a reader panics"));
    }
}

impl Write for Panics {
    fn write(&mut self, _: &[u8]) -> io::Result<usize> {
        std::panic::resume_unwind(Box::new("a writer panics"));
    }

    fn flush(&mut self) -> io::Result<()> {
        Ok(())
    }
}

#[test]
fn a_transport_that_panics_ends_the_session_and_the_driver() {
    let _watchdog = Watchdog::new("a transport that panics");
    for by_read in [true, false] {
        let (mut mux, driver) = Mux::new(narrow()).unwrap();
        let mut receiver = mux.take_receiver(Data).unwrap();
        let recv = thread::spawn(move || receiver.recv_blocking());
        let run = thread::spawn(move || match by_read {
            true => driver.run_blocking(Panics, Pipe::new(io::sink())),
            false => {
                let (breaker, blocked) = mpsc::channel();
                let writer = Pipe::with_breaker(Panics, move || drop(breaker));
                driver.run_blocking(Blocked(blocked), writer)
            }
        });
        assert!(run.join().is_err());
        assert_eq!(recv.join().unwrap(), Err(Closed::Aborted));
        assert_eq!(mux.closed_blocking(), Err(Closed::Aborted));
    }
}

/// The peer is gone in the middle of a frame, or closes its socket at once.
#[test]
fn a_connection_that_is_cut_is_told() {
    let _watchdog = Watchdog::new("a connection that is cut");
    for bytes in [&b"\x4c\x43"[..], b""] {
        let (here, mut there) = tcp_pair();
        let (mut mux, driver) = Mux::new(by_caller(16)).unwrap();
        let run = tcp(here, driver);
        let mut receiver = mux.take_receiver(Overlap).unwrap();
        let recv = thread::spawn(move || receiver.recv_blocking());
        there.read_exact(&mut [0; 4]).unwrap();
        there.write_all(bytes).unwrap();
        there.shutdown(Shutdown::Write).unwrap();
        let reason = recv.join().unwrap().unwrap_err();
        match bytes {
            b"" => assert_eq!(reason, Closed::Cut),
            _ => assert_eq!(reason, broken(bytes)),
        }
        drop(mux);
        assert_eq!(run.join().unwrap(), Err(reason));
    }
}

/// A hook may make a blocking call of the session: here it waits for guarantees that the other thread reads.
#[test]
fn a_hook_may_wait_for_the_session() {
    let _watchdog = Watchdog::new("a hook");
    let (here, mut there) = tcp_pair();
    let (mut mux, mut driver) = Mux::new(by_caller(16)).unwrap();
    let sender = mux.take_sender(Data).unwrap();
    let receiver = mux.take_receiver(Overlap).unwrap();
    driver.on_frame(move |frame| {
        if frame.channel == Overlap {
            sender.send_blocking(b"hello").unwrap();
        }
    });
    let run = tcp(here, driver);
    receiver.issue(1).unwrap();
    let mut bytes = [0; 9];
    there.read_exact(&mut bytes).unwrap();
    assert_eq!(bytes[..], greeted("issue 2 1"));
    thread::sleep(Duration::from_millis(20));
    there.write_all(&greeted("issue 1 5")).unwrap();
    let mut bytes = [0; 10];
    there.read_exact(&mut bytes).unwrap();
    assert_eq!(bytes[..], frames("send 1 68656c6c6f"));
    mux.abort();
    assert_eq!(run.join().unwrap(), Err(Closed::Aborted));
}
