//! The cost of messages of 16, 1,024 or 61,440 bytes in both directions at once on all seven channels, through rings
//! of 256 KiB, between two sessions on one thread: `memory` over `tokio::io::duplex`, `tcp` over TCP. `cargo bench
//! --bench swap` prints a line `name value unit` for each. With BENCH_FIXED=COUNT nothing is timed, and each
//! measurement has that many messages on each channel and way. An argument selects the measurements whose names begin
//! with it.
use lcmux_tokio::connect;
use lcmux_tokio::lcmux::{Channel, Config, Mux, Receiver, Sender, CHANNELS};
use std::error::Error;
use std::hint::black_box;
use std::time::{Duration, Instant};
use std::{env, io};
use tokio::net::{TcpListener, TcpStream};
use tokio::runtime::Builder;

const RING: u32 = 262_144;

/// The least time of a measurement.
const TARGET: Duration = Duration::from_millis(500);

/// The lanes of two sessions.
const LANES: usize = 14;

async fn tcp() -> io::Result<[TcpStream; 2]> {
    let listener = TcpListener::bind("127.0.0.1:0").await?;
    let here = TcpStream::connect(listener.local_addr()?).await?;
    let there = listener.accept().await?.0;
    here.set_nodelay(true)?;
    there.set_nodelay(true)?;
    Ok([here, there])
}

async fn sessions(over: &str) -> Result<[Mux; 2], Box<dyn Error>> {
    let config = Config::new([RING; CHANNELS], 64);
    if over == "tcp" {
        let [here, there] = tcp().await?;
        return Ok([connect(here, config)?.0, connect(there, config)?.0]);
    }
    let (here, there) = tokio::io::duplex(65_536);
    Ok([connect(here, config)?.0, connect(there, config)?.0])
}

async fn send(sender: Sender, len: usize, count: usize) {
    let body = vec![0x5a; len];
    for _ in 0..count {
        sender.send(black_box(&body)).await.unwrap();
    }
}

async fn take(mut receiver: Receiver, count: usize) {
    let mut taken = 0;
    while let Some(message) = receiver.recv_ref().await.unwrap() {
        black_box(&*message);
        taken += 1;
    }
    assert_eq!(taken, count);
}

// This many messages on each lane.
async fn swap(over: &str, len: usize, count: usize) -> Result<Duration, Box<dyn Error>> {
    let mut sessions = sessions(over).await?;
    let start = Instant::now();
    let mut tasks = Vec::new();
    for channel in Channel::ALL {
        for mux in &mut sessions {
            let (sender, receiver) = (mux.take_sender(channel), mux.take_receiver(channel));
            tasks.push(tokio::spawn(send(sender.unwrap(), len, count)));
            tasks.push(tokio::spawn(take(receiver.unwrap(), count)));
        }
    }
    for task in tasks {
        task.await?;
    }
    Ok(start.elapsed())
}

// Messages per second.
async fn rate(over: &str, len: usize) -> Result<f64, Box<dyn Error>> {
    let mut count = 16;
    loop {
        let taken = swap(over, len, count).await?;
        if taken >= TARGET {
            return Ok((LANES * count) as f64 / taken.as_secs_f64());
        }
        count *= 2;
    }
}

const LENGTHS: [(&str, usize); 3] = [("16", 16), ("1k", 1_024), ("60k", 61_440)];

fn main() -> Result<(), Box<dyn Error>> {
    let runtime = Builder::new_current_thread().enable_all().build()?;
    let fixed = env::var("BENCH_FIXED").ok();
    let fixed = fixed.map(|text| text.parse()).transpose()?;
    // Cargo itself adds `--bench`.
    let mut words = env::args().skip(1).filter(|word| word != "--bench");
    let prefix = words.next().unwrap_or_default();
    for over in ["memory", "tcp"] {
        for (name, len) in LENGTHS {
            let name = format!("{over}.{name}");
            match fixed {
                _ if !name.starts_with(&prefix) => {}
                Some(count) => drop(runtime.block_on(swap(over, len, count))?),
                None => println!(
                    "{name} {:.0} messages/s",
                    runtime.block_on(rate(over, len))?
                ),
            }
        }
    }
    Ok(())
}
