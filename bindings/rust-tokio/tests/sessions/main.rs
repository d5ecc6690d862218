//! Sessions over tokio's streams, on each of its runtimes.
#[allow(dead_code)] // the tests of lcmux use all of it
#[path = "../../../rust/tests/common/call.rs"]
mod call;
#[path = "../../../rust/tests/common/end.rs"]
mod end;
#[path = "../../../rust/tests/common/page.rs"]
mod page;
#[path = "../../../rust/tests/common/watchdog.rs"]
mod watchdog;

mod answers;
mod bytes;
mod cancelled;
mod clones;
mod copies;
mod endings;
mod ends;
mod handles;
mod killed;
mod load;
mod polled;
mod stalled;
mod timeouts;

use lcmux_tokio::connect;
use lcmux_tokio::lcmux::{Channel, Closed, Config, Mux, Version, CHANNELS};
use std::future::Future;
use std::io::ErrorKind;
use tokio::io::{AsyncRead, AsyncWrite, DuplexStream};
use tokio::net::{TcpListener, TcpStream};
use tokio::runtime::{Builder, Runtime};
use tokio::task::JoinHandle;
use watchdog::Watchdog;

type Run = JoinHandle<Result<(), Closed>>;

/// One thread.
fn current_thread() -> Runtime {
    Builder::new_current_thread().enable_all().build().unwrap()
}

/// Three threads.
fn multi_thread() -> Runtime {
    let mut builder = Builder::new_multi_thread();
    builder.worker_threads(3).enable_all().build().unwrap()
}

/// Runs the test on each runtime, in a task of its own.
fn on_each<F>(what: &str, test: impl Fn() -> F)
where
    F: Future<Output = ()> + Send + 'static,
{
    for (name, runtime) in [("one", current_thread()), ("three", multi_thread())] {
        let _watchdog = Watchdog::new(format!("{what} on {name} thread(s)"));
        runtime.block_on(runtime.spawn(test())).unwrap();
    }
}

/// Version Two, with rings of this size.
fn rings(capacity: u32) -> Config {
    let mut config = Config::new([capacity; CHANNELS], 64);
    config.version = Version::Two;
    config
}

/// Two sessions over the two ends of one stream, each with its task.
fn both<S>(streams: (S, S), config: Config) -> [(Mux, Run); 2]
where
    S: AsyncRead + AsyncWrite + Send + 'static,
{
    [streams.0, streams.1].map(|stream| connect(stream, config).unwrap())
}

fn in_memory(config: Config) -> [(Mux, Run); 2] {
    both(tokio::io::duplex(4096), config)
}

async fn tcp_pair() -> (TcpStream, TcpStream) {
    let listener = TcpListener::bind("127.0.0.1:0").await.unwrap();
    let here = TcpStream::connect(listener.local_addr().unwrap());
    let (here, there) = tokio::join!(here, listener.accept());
    let pair = (here.unwrap(), there.unwrap().0);
    pair.0.set_nodelay(true).unwrap();
    pair.1.set_nodelay(true).unwrap();
    pair
}

/// A session, and the other end of its stream for the test.
fn by_hand(config: Config, room: usize) -> (Mux, Run, DuplexStream) {
    let (here, there) = tokio::io::duplex(room);
    let (mux, run) = connect(here, config).unwrap();
    (mux, run, there)
}

/// Closes both sessions, which end in order.
async fn close(sides: [(Mux, Run); 2]) {
    sides.iter().for_each(|(mux, _)| mux.close());
    for (mux, run) in sides {
        assert_eq!(mux.closed().await, Ok(()));
        assert_eq!(run.await.unwrap(), Ok(()));
    }
}

fn timed_out(why: &str) -> Closed {
    std::io::Error::new(ErrorKind::TimedOut, why).into()
}

const GREETING: [u8; 4] = *b"\x4c\x43\x4d\x02";

/// The first bytes of a session of version Two with rings of 64 bytes.
fn first_bytes() -> Vec<u8> {
    let issues = (0..7).map(|channel| [0x20 + channel, 0, 0, 0, 64]);
    GREETING.into_iter().chain(issues.flatten()).collect()
}

/// The end of all channels.
const FINISHES: [u8; CHANNELS] = *b"\x70\x71\x72\x73\x74\x75\x76";

/// An issue of this many guarantees on channel 1.
fn issue(amount: u32) -> Vec<u8> {
    [&[0x21][..], &amount.to_be_bytes()].concat()
}

/// The largest limit, on channel 0: a frame that changes nothing.
const KEEP_ALIVE: [u8; 9] = [0x60, 0x40, 0, 0, 0, 0, 0, 0, 0];
