//! The latency of a message of one channel over TCP on the loopback, one each millisecond, while the other six
//! channels carry messages of 60 KiB, all in one direction through rings of 256 KiB, with a task for each handle:
//! `one` with both sides on one thread, `two` with one thread a side, `many` on a thread for each processor. `cargo
//! bench --bench quiet`.
#[path = "../../rust/benches/common/quiet.rs"]
mod quiet;

use lcmux::{Channel, Closed, Config, Mux, Receiver, Sender, CHANNELS};
use lcmux_tokio::connect;
use quiet::{lasted, print_times, stamp, BEFORE, BULK, COUNT, PACE, QUIET};
use std::error::Error;
use std::net;
use std::sync::atomic::{AtomicBool, AtomicU64, Ordering::Relaxed};
use std::sync::Arc;
use std::thread;
use std::time::{Duration, Instant};
use tokio::net::TcpStream;
use tokio::runtime::{Builder, Runtime};
use tokio::task::JoinHandle;
use tokio::time::{sleep, sleep_until};

type Failure = Box<dyn Error + Send + Sync>;

/// The shared state: the start of the clock, whether bulk is to end, and how much of it was received.
struct Run {
    start: Instant,
    is_done: AtomicBool,
    bytes: AtomicU64,
}

fn bulk() -> impl Iterator<Item = Channel> {
    Channel::ALL.into_iter().filter(|channel| *channel != QUIET)
}

fn session(stream: net::TcpStream) -> Result<(Mux, JoinHandle<Result<(), Closed>>), Failure> {
    stream.set_nodelay(true)?;
    stream.set_nonblocking(true)?;
    let stream = TcpStream::from_std(stream)?;
    Ok(connect(stream, Config::new([262_144; CHANNELS], 64))?)
}

async fn send_bulk(sender: Sender, run: Arc<Run>) {
    let mut message = vec![0; BULK];
    for number in 0u32.. {
        if run.is_done.load(Relaxed) {
            return;
        }
        message[..4].copy_from_slice(&number.to_be_bytes());
        sender.send(&message).await.unwrap();
    }
}

async fn take_bulk(mut receiver: Receiver, run: Arc<Run>) {
    let mut due = vec![0; BULK];
    for number in 0u32.. {
        let Some(message) = receiver.recv_ref().await.unwrap() else {
            return;
        };
        due[..4].copy_from_slice(&number.to_be_bytes());
        assert_eq!(*message, *due);
        run.bytes.fetch_add(BULK as u64, Relaxed);
    }
}

async fn send_quiet(sender: Sender, start: Instant) {
    let mut due = Instant::now();
    for _ in 0..COUNT {
        due = Instant::now().max(due + PACE);
        sleep_until(due.into()).await;
        sender.send(&stamp(start)).await.unwrap();
    }
}

async fn take_quiet(mut receiver: Receiver, start: Instant) -> Vec<Duration> {
    let mut times = Vec::new();
    for _ in 0..COUNT {
        let message = receiver.recv_ref().await.unwrap().unwrap();
        times.push(lasted(start, &message));
    }
    times
}

async fn send_all(stream: net::TcpStream, run: Arc<Run>) -> Result<(), Failure> {
    let (mut mux, driver) = session(stream)?;
    for channel in bulk() {
        let sender = mux.take_sender(channel).unwrap();
        tokio::spawn(send_bulk(sender, Arc::clone(&run)));
    }
    sleep(BEFORE).await;
    let quiet = mux.take_sender(QUIET).unwrap();
    tokio::spawn(send_quiet(quiet, run.start)).await?;
    run.is_done.store(true, Relaxed);
    drop(mux);
    Ok(driver.await??)
}

async fn take_all(stream: net::TcpStream, name: &str, run: Arc<Run>) -> Result<(), Failure> {
    let (mut mux, driver) = session(stream)?;
    for channel in bulk() {
        let receiver = mux.take_receiver(channel).unwrap();
        tokio::spawn(take_bulk(receiver, Arc::clone(&run)));
    }
    sleep(BEFORE).await;
    let (before, began) = (run.bytes.load(Relaxed), Instant::now());
    let quiet = mux.take_receiver(QUIET).unwrap();
    let times = tokio::spawn(take_quiet(quiet, run.start)).await?;
    let bytes = run.bytes.load(Relaxed) - before;
    print_times(name, times, bytes, began.elapsed());
    drop(mux);
    Ok(driver.await??)
}

fn pair() -> Result<[net::TcpStream; 2], Failure> {
    let listener = net::TcpListener::bind("127.0.0.1:0")?;
    let here = net::TcpStream::connect(listener.local_addr()?)?;
    Ok([here, listener.accept()?.0])
}

fn new_run() -> Arc<Run> {
    Arc::new(Run {
        start: Instant::now(),
        is_done: AtomicBool::new(false),
        bytes: AtomicU64::new(0),
    })
}

fn measure(name: &'static str, runtime: &Runtime) -> Result<(), Failure> {
    let ([here, there], run) = (pair()?, new_run());
    let sending = runtime.spawn(send_all(here, Arc::clone(&run)));
    let taking = runtime.spawn(take_all(there, name, run));
    runtime.block_on(async {
        sending.await??;
        taking.await?
    })
}

fn measure_two() -> Result<(), Failure> {
    let ([here, there], run) = (pair()?, new_run());
    let (sending, taking) = (on_one_thread()?, on_one_thread()?);
    let sent = Arc::clone(&run);
    let sender = thread::spawn(move || sending.block_on(send_all(here, sent)));
    taking.block_on(take_all(there, "two", run))?;
    sender.join().unwrap()
}

fn on_one_thread() -> Result<Runtime, Failure> {
    Ok(Builder::new_current_thread().enable_all().build()?)
}

fn main() -> Result<(), Failure> {
    measure("one", &on_one_thread()?)?;
    measure_two()?;
    measure("many", &Builder::new_multi_thread().enable_all().build()?)
}
