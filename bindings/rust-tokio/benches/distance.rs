//! The throughput of a ring over a distance: one busy channel and seven, in one direction, over a relay that delays
//! each byte. `cargo bench --bench distance` prints a line for each delay, ring and number of channels, with the
//! bound by the bandwidth-delay product: in a round trip each channel carries at most the bytes of its ring, and all
//! channels together what the line carries.
//!
//! `cargo bench --bench distance -- relay DELAY` only relays, with this many milliseconds in each direction, and
//! prints its address. It joins the first connection to the second, and so on.
#[path = "common/relay.rs"]
mod relay;

use lcmux::{Channel, Config, Mux, Receiver, Sender, CHANNELS};
use lcmux_tokio::connect;
use relay::Distance;
use std::env;
use std::error::Error;
use std::future::pending;
use std::sync::atomic::{AtomicU64, Ordering};
use std::sync::Arc;
use std::time::Duration;
use tokio::net::TcpStream;
use tokio::time::{sleep, Instant};

/// The bytes per second of the line: a gigabit.
const RATE: f64 = 125e6;

const SLOTS: u32 = 64;

/// The length of a message.
const MESSAGE: usize = 16_384;

/// How many round trips precede the measurement, and how many it has.
const WARM: u32 = 10;
const MEASURED: u32 = 20;

const DELAYS: [u64; 3] = [10, 50, 100];
const RINGS: [(&str, u32); 3] = [("64k", 65_536), ("1m", 1 << 20), ("16m", 1 << 24)];
const BUSY: [usize; 2] = [1, 7];

fn distance(delay: u64) -> Distance {
    Distance {
        delay: Duration::from_millis(delay),
        rate: RATE,
    }
}

async fn send(sender: Sender) {
    let message = vec![sender.channel().number(); MESSAGE];
    while sender.send(&message).await.is_ok() {}
}

async fn take(mut receiver: Receiver, taken: Arc<AtomicU64>) {
    let due = vec![receiver.channel().number(); MESSAGE];
    while let Ok(Some(message)) = receiver.recv_ref().await {
        assert_eq!(*message, *due);
        taken.fetch_add(MESSAGE as u64, Ordering::Relaxed);
    }
}

/// Lets this many channels send from one side to the other, and counts the received bytes.
fn start(from: &mut Mux, to: &mut Mux, busy: usize) -> Arc<AtomicU64> {
    let taken = Arc::new(AtomicU64::new(0));
    for channel in Channel::ALL.into_iter().take(busy) {
        tokio::spawn(send(from.take_sender(channel).unwrap()));
        tokio::spawn(take(to.take_receiver(channel).unwrap(), Arc::clone(&taken)));
    }
    taken
}

/// The bytes per second that arrive.
async fn measure(over: Distance, ring: u32, busy: usize) -> Result<f64, Box<dyn Error>> {
    let address = over.relay().await?;
    let mut sides = Vec::new();
    for _ in 0..2 {
        let stream = TcpStream::connect(address).await?;
        stream.set_nodelay(true)?;
        sides.push(connect(stream, Config::new([ring; CHANNELS], SLOTS))?.0);
    }
    let [from, to] = &mut sides[..] else {
        unreachable!()
    };
    let taken = start(from, to, busy);
    let round = 2 * over.delay;
    sleep(WARM * round).await;
    let (before, begin) = (taken.load(Ordering::Relaxed), Instant::now());
    sleep(MEASURED * round).await;
    let bytes = taken.load(Ordering::Relaxed) - before;
    let seconds = begin.elapsed().as_secs_f64();
    sides.iter().for_each(Mux::abort);
    Ok(bytes as f64 / seconds)
}

async fn print_figures() -> Result<(), Box<dyn Error>> {
    for delay in DELAYS {
        for (name, ring) in RINGS {
            for busy in BUSY {
                let over = distance(delay);
                let rate = measure(over, ring, busy).await?;
                let round = 2.0 * over.delay.as_secs_f64();
                let allowed = (busy as f64 * f64::from(ring) / round).min(RATE);
                println!(
                    "distance.{delay}ms.{name}.{busy} {:.1} of {:.1} MB/s",
                    rate / 1e6,
                    allowed / 1e6
                );
            }
        }
    }
    Ok(())
}

#[tokio::main]
async fn main() -> Result<(), Box<dyn Error>> {
    // Cargo itself adds `--bench`.
    let words: Vec<String> = env::args().skip(1).filter(|w| w != "--bench").collect();
    match &words[..] {
        [] => print_figures().await,
        [word, delay] if word == "relay" => {
            println!("{}", distance(delay.parse()?).relay().await?);
            pending().await
        }
        _ => Err("usage: distance [relay DELAY]".into()),
    }
}
