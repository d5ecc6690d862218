//! The latency of a message of one channel over TCP on the loopback, one each millisecond, while the other six
//! channels carry messages of 60 KiB, all in one direction through rings of 256 KiB, with a thread for each handle
//! and two for each driver: `cargo bench --bench quiet`.
#[path = "common/quiet.rs"]
mod quiet;

use lcmux::{Channel, Config, Mux, Receiver, Sender, CHANNELS};
use quiet::{lasted, print_times, stamp, BEFORE, BULK, COUNT, PACE, QUIET};
use std::error::Error;
use std::net::{TcpListener, TcpStream};
use std::sync::atomic::{AtomicBool, AtomicU64, Ordering::Relaxed};
use std::thread;
use std::time::{Duration, Instant};

fn session(stream: TcpStream) -> Result<Mux, Box<dyn Error>> {
    stream.set_nodelay(true)?;
    let reader = stream.try_clone()?;
    let (mux, driver) = Mux::new(Config::new([262_144; CHANNELS], 64))?;
    thread::spawn(|| driver.run_blocking(reader, stream));
    Ok(mux)
}

fn send_bulk(sender: &Sender, is_done: &AtomicBool) {
    let mut message = vec![0; BULK];
    for number in 0u32.. {
        if is_done.load(Relaxed) {
            return;
        }
        message[..4].copy_from_slice(&number.to_be_bytes());
        sender.send_blocking(&message).unwrap();
    }
}

fn take_bulk(receiver: &mut Receiver, bytes: &AtomicU64) {
    let mut due = vec![0; BULK];
    for number in 0u32.. {
        let Some(message) = receiver.recv_ref_blocking().unwrap() else {
            return;
        };
        due[..4].copy_from_slice(&number.to_be_bytes());
        assert_eq!(*message, *due);
        bytes.fetch_add(BULK as u64, Relaxed);
    }
}

fn send_quiet(sender: &Sender, start: Instant) {
    let mut due = Instant::now();
    for _ in 0..COUNT {
        due = Instant::now().max(due + PACE);
        thread::sleep(due.saturating_duration_since(Instant::now()));
        sender.send_blocking(&stamp(start)).unwrap();
    }
}

fn take_quiet(receiver: &mut Receiver, start: Instant) -> Vec<Duration> {
    let mut times = Vec::new();
    for _ in 0..COUNT {
        let message = receiver.recv_ref_blocking().unwrap().unwrap();
        times.push(lasted(start, &message));
    }
    times
}

fn main() -> Result<(), Box<dyn Error>> {
    let listener = TcpListener::bind("127.0.0.1:0")?;
    let mut here = session(TcpStream::connect(listener.local_addr()?)?)?;
    let mut there = session(listener.accept()?.0)?;
    let (is_done, bytes, start) = (AtomicBool::new(false), AtomicU64::new(0), Instant::now());
    thread::scope(|scope| {
        for channel in Channel::ALL.into_iter().filter(|channel| *channel != QUIET) {
            let sender = here.take_sender(channel).unwrap();
            let mut receiver = there.take_receiver(channel).unwrap();
            let (is_done, bytes) = (&is_done, &bytes);
            scope.spawn(move || send_bulk(&sender, is_done));
            scope.spawn(move || take_bulk(&mut receiver, bytes));
        }
        thread::sleep(BEFORE);
        let (sender, mut receiver) = (
            here.take_sender(QUIET).unwrap(),
            there.take_receiver(QUIET).unwrap(),
        );
        let (before, began) = (bytes.load(Relaxed), Instant::now());
        scope.spawn(move || send_quiet(&sender, start));
        let times = take_quiet(&mut receiver, start);
        print_times(
            "threads",
            times,
            bytes.load(Relaxed) - before,
            began.elapsed(),
        );
        is_done.store(true, Relaxed);
    });
    Ok(())
}
