//! Many sessions in one process, over pipes in memory, with messages in both directions, and their cost: `cargo run
//! --release --example many -- COUNT [RING [THREADS]]`, by default with rings of 64 KiB on one thread.
use lcmux_tokio::connect;
use lcmux_tokio::lcmux::Channel::Data;
use lcmux_tokio::lcmux::{Closed, Config, Mux, MuxFault, Receiver, Sender, CHANNELS};
use std::{env, error::Error, fs, io};
use tokio::io::DuplexStream;
use tokio::runtime::Builder;

const MESSAGES: u8 = 10;
const LENGTH: usize = 1000;

/// The cost of the process: resident kibibytes, mappings, and milliseconds of processor time.
struct Use {
    resident: u64,
    mappings: usize,
    time: f64,
}

impl Use {
    fn now() -> io::Result<Use> {
        let rollup = fs::read_to_string("/proc/self/smaps_rollup")?;
        let resident = rollup.lines().find_map(|line| line.strip_prefix("Rss:"));
        let resident = resident.and_then(|rest| rest.split_whitespace().next()?.parse().ok());
        let mut nanoseconds = 0u64;
        for task in fs::read_dir("/proc/self/task")? {
            let spent = fs::read_to_string(task?.path().join("schedstat"))?;
            nanoseconds += spent
                .split(' ')
                .next()
                .map_or(0, |it| it.parse().unwrap_or(0));
        }
        Ok(Use {
            resident: resident.unwrap_or(0),
            mappings: fs::read_to_string("/proc/self/maps")?.lines().count(),
            time: nanoseconds as f64 / 1e6,
        })
    }

    fn print(&self, what: &str, count: usize) {
        let each = |whole: f64| whole / count as f64;
        let (resident, time) = (each(self.resident as f64), each(self.time));
        let mappings = self.mappings;
        eprintln!("{what}: {resident:.1} KiB and {time:.3} ms each, {mappings} mappings");
    }
}

async fn send(sender: Sender) {
    for number in 0..MESSAGES {
        sender.send(&[number; LENGTH]).await.unwrap();
    }
}

async fn take(mut receiver: Receiver) -> usize {
    let mut count = 0;
    while let Some(message) = receiver.recv_ref().await.unwrap() {
        assert_eq!(*message, [count as u8; LENGTH]);
        count += 1;
    }
    count
}

/// One side of a session, with the handles of one channel.
struct Side {
    mux: Mux,
    sender: Sender,
    receiver: Receiver,
}

impl Side {
    fn new(stream: DuplexStream, config: Config) -> Result<Side, MuxFault> {
        let mut mux = connect(stream, config)?.0;
        Ok(Side {
            sender: mux.take_sender(Data).unwrap(),
            receiver: mux.take_receiver(Data).unwrap(),
            mux,
        })
    }

    // Returns the session, and how many messages it received.
    async fn swap(self) -> (Mux, usize) {
        let ((), taken) = tokio::join!(send(self.sender), take(self.receiver));
        (self.mux, taken)
    }
}

// Both sides of a session, once each has the peer's first guarantees.
async fn pair(config: Config) -> Result<[Side; 2], Box<dyn Error>> {
    let (here, there) = tokio::io::duplex(4096);
    let sides = [Side::new(here, config)?, Side::new(there, config)?];
    for side in &sides {
        drop(side.sender.reserve(1).await?);
    }
    Ok(sides)
}

async fn close(sessions: Vec<[Mux; 2]>) -> Result<(), Closed> {
    sessions.iter().flatten().for_each(Mux::close);
    for mux in sessions.iter().flatten() {
        mux.closed().await?;
    }
    Ok(())
}

async fn many(count: usize, config: Config) -> Result<usize, Box<dyn Error>> {
    Use::now()?.print("before", count);
    let mut pairs = Vec::new();
    for _ in 0..count {
        pairs.push(pair(config).await?);
    }
    Use::now()?.print("idle", count);
    let swap = |side: Side| tokio::spawn(side.swap());
    let swaps: Vec<_> = pairs.into_iter().map(|sides| sides.map(swap)).collect();
    let (mut sessions, mut taken) = (Vec::new(), 0);
    for [one, other] in swaps {
        let ((one, first), (other, second)) = (one.await?, other.await?);
        sessions.push([one, other]);
        taken += first + second;
    }
    Use::now()?.print("after messages", count);
    // Every other session, so that the rest is fragmented.
    let mut at = 0;
    let (gone, left): (Vec<_>, Vec<_>) = sessions.into_iter().partition(|_| {
        at += 1;
        at % 2 == 0
    });
    close(gone).await?;
    Use::now()?.print("half of them closed", count);
    close(left).await?;
    Use::now()?.print("all closed", count);
    Ok(taken)
}

fn main() -> Result<(), Box<dyn Error>> {
    let words: Vec<_> = env::args().skip(1).collect();
    let numbers: Result<Vec<u32>, _> = words.iter().map(|word| word.parse()).collect();
    let (count, ring, threads) = match numbers?[..] {
        [count] => (count, 65_536, 1),
        [count, ring] => (count, ring, 1),
        [count, ring, threads] => (count, ring, threads),
        _ => return Err("usage: many COUNT [RING [THREADS]]".into()),
    };
    let mut builder = match threads {
        1 => Builder::new_current_thread(),
        _ => Builder::new_multi_thread(),
    };
    let runtime = builder
        .worker_threads(threads as usize)
        .enable_time()
        .build()?;
    let config = Config::new([ring; CHANNELS], 64);
    let taken = runtime.block_on(many(count as usize, config))?;
    println!("{count} sessions took {taken} messages");
    Ok(())
}
