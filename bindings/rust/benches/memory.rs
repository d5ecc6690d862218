//! The memory of a peer and of a session, by the size of their seven rings. `cargo bench --bench memory` prints a
//! line for each with its resident memory and its address space, in these states:
//!
//! - `idle`: nothing has happened;
//! - `full` and `short`: all rings are full, of messages of 1,024 bytes and of one byte;
//! - `hostile`: the peer has sent a forbidden frame of one mebibyte but for its last byte;
//! - `passed`, of a peer: as many messages of 16 bytes have passed through each ring as it has bytes, and none waits;
//! - `wrapped`, of a peer: a message as long as the ring has wrapped around in each, and then all were filled with
//!   messages of one byte.
//!
//! Each value is the mean over several, in a process of its own.
use lcmux::{Channel, Config, Driver, Mux, Peer, PollRead, Take, Version, CHANNELS};
use std::env;
use std::error::Error;
use std::fs;
use std::io;
use std::process::Command;
use std::sync::Arc;
use std::task::{Context, Poll, Wake, Waker};

/// How many are alive at once.
const HELD: u64 = 20;

const SLOTS: u32 = 64;

const SIDES: [&str; 2] = ["peer", "mux"];
const RINGS: [(&str, u32); 4] = [
    ("1k", 1_024),
    ("64k", 65_536),
    ("256k", 262_144),
    ("16m", 1 << 24),
];
const STATES: [&str; 4] = ["idle", "full", "short", "hostile"];
/// The states in which a peer has taken messages.
const TAKEN: [&str; 2] = ["passed", "wrapped"];
/// The largest rings that are filled with messages of one byte.
const MOST_SHORT: u32 = 1 << 18;

/// A frame of 1,048,576 bytes after a preface, without its end.
fn hostile() -> Vec<u8> {
    let mut bytes = b"\x4c\x43\x4d\x02\x13\x00\x10\x00\x00".to_vec();
    bytes.resize(bytes.len() + 1_048_575, 0x5a);
    bytes
}

/// A side of a session: it reads bytes of the peer and has bytes for it.
trait Side: Sized {
    fn new(config: &Config) -> Result<Self, Box<dyn Error>>;
    fn written(&mut self) -> Vec<u8>;
    fn deliver(&mut self, bytes: &[u8]);
    /// Takes so many messages of each channel.
    fn take(&mut self, count: usize) -> Result<(), Box<dyn Error>>;
}

impl Side for Peer {
    fn new(config: &Config) -> Result<Peer, Box<dyn Error>> {
        let mut peer = Peer::new(config)?;
        for (channel, capacity) in Channel::ALL.into_iter().zip(config.capacities) {
            peer.issue(channel, capacity)?;
        }
        Ok(peer)
    }

    fn written(&mut self) -> Vec<u8> {
        let mut bytes = Vec::new();
        self.write_to(&mut bytes).expect("a vector takes all");
        bytes
    }

    fn deliver(&mut self, mut bytes: &[u8]) {
        while let Ok(1..) = self.read_from(&mut bytes) {}
    }

    fn take(&mut self, count: usize) -> Result<(), Box<dyn Error>> {
        take(self, count)
    }
}

impl Side for (Mux, Driver) {
    fn new(config: &Config) -> Result<(Mux, Driver), Box<dyn Error>> {
        Ok(Mux::new(*config)?)
    }

    fn written(&mut self) -> Vec<u8> {
        let mut bytes = Vec::new();
        let _ = self
            .1
            .poll_write(&mut Context::from_waker(&noop()), &mut bytes);
        bytes
    }

    fn deliver(&mut self, bytes: &[u8]) {
        let mut source = Source(bytes);
        while !source.0.is_empty() {
            let _ = self
                .1
                .poll_read(&mut Context::from_waker(&noop()), &mut source);
        }
    }

    fn take(&mut self, count: usize) -> Result<(), Box<dyn Error>> {
        match count {
            0 => Ok(()),
            _ => Err("the receivers of a session are not held here".into()),
        }
    }
}

/// The bytes of a stream that does not end.
struct Source<'a>(&'a [u8]);

impl PollRead for Source<'_> {
    fn poll_read(&mut self, _: &mut Context<'_>, buffer: &mut [u8]) -> Poll<io::Result<usize>> {
        match io::Read::read(&mut self.0, buffer) {
            Ok(0) => Poll::Pending,
            read => Poll::Ready(read),
        }
    }
}

fn noop() -> Waker {
    struct Noop;
    impl Wake for Noop {
        fn wake(self: Arc<Noop>) {}
    }
    Waker::from(Arc::new(Noop))
}

/// Bytes that arrive so many times, and how many messages of each channel are taken each time.
struct Step {
    bytes: Vec<u8>,
    times: u32,
    taken: usize,
}

/// Takes messages of each channel and issues their bytes again.
fn take(peer: &mut Peer, count: usize) -> Result<(), Box<dyn Error>> {
    for channel in Channel::ALL {
        for _ in 0..count {
            if let Take::Took(message) = peer.take(channel) {
                peer.issue(channel, message.len() as u32)?;
            }
        }
    }
    Ok(())
}

/// A client and a server that find out which bytes fill the rings of a side.
struct Pair {
    client: Peer,
    server: Peer,
}

impl Pair {
    fn new(config: &Config, version: Version) -> Result<Pair, Box<dyn Error>> {
        let mut server = <Peer as Side>::new(config)?;
        let mut config = *config;
        config.version = version;
        let mut client = Peer::new(&config)?;
        client.read_from(&mut &server.written()[..])?;
        Ok(Pair { client, server })
    }

    /// Messages of these lengths on each channel, of which some are taken.
    fn step(&mut self, lengths: &[usize], taken: usize) -> Result<Step, Box<dyn Error>> {
        let mut bytes = Vec::new();
        for channel in Channel::ALL {
            for len in lengths {
                self.client.send(channel, &vec![channel.number(); *len])?;
                self.client.write_to(&mut bytes)?;
            }
        }
        Side::deliver(&mut self.server, &bytes);
        take(&mut self.server, taken)?;
        self.client.read_from(&mut &self.server.written()[..])?;
        Ok(Step {
            bytes,
            times: 1,
            taken,
        })
    }

    /// Messages of this length until no more fit.
    fn fill(&mut self, len: usize) -> Result<Step, Box<dyn Error>> {
        let mut bytes = Vec::new();
        for channel in Channel::ALL {
            let message = vec![channel.number(); len];
            while self.client.send(channel, &message).is_ok() {
                self.client.write_to(&mut bytes)?;
            }
        }
        Ok(Step {
            bytes,
            times: 1,
            taken: 0,
        })
    }
}

/// What arrives at a side in a state.
fn steps(config: &Config, state: &str) -> Result<Vec<Step>, Box<dyn Error>> {
    // Only version Two has messages as long as the larger rings.
    let version = match state {
        "wrapped" => Version::Two,
        _ => config.version,
    };
    let mut pair = Pair::new(config, version)?;
    let ring = config.capacities[0];
    let long = (ring as usize).min(1 << 20);
    Ok(match state {
        "full" => vec![pair.fill(1_024)?],
        "short" => vec![pair.fill(1)?],
        "hostile" => vec![Step {
            bytes: hostile(),
            times: 1,
            taken: 0,
        }],
        // The preface arrives with the first message alone.
        "passed" => vec![
            pair.step(&[16], 1)?,
            Step {
                times: ring - 1,
                ..pair.step(&[16], 1)?
            },
        ],
        // The last of the long messages begins one byte before the wrap point.
        "wrapped" => vec![
            pair.step(&[long - 2, 1], 1)?,
            pair.step(&[long - 1], 2)?,
            pair.fill(1)?,
        ],
        _ => Vec::new(),
    })
}

/// A number of kibibytes after a name in a file of `/proc`.
fn kibibytes(file: &str, name: &str) -> Result<u64, Box<dyn Error>> {
    let text = fs::read_to_string(file)?;
    let line = text.lines().find_map(|line| line.strip_prefix(name));
    let number = line.and_then(|line| line.split_whitespace().next());
    Ok(number.ok_or("it does not say so")?.parse()?)
}

fn resident() -> Result<u64, Box<dyn Error>> {
    kibibytes("/proc/self/smaps_rollup", "Anonymous:")
}

fn addresses() -> Result<u64, Box<dyn Error>> {
    kibibytes("/proc/self/status", "VmSize:")
}

/// The memory of one at which this arrived.
fn measure<S: Side>(config: &Config, steps: &[Step]) -> Result<(u64, u64), Box<dyn Error>> {
    let mut held = Vec::with_capacity(HELD as usize);
    let (before, without) = (resident()?, addresses()?);
    for _ in 0..HELD {
        let mut side = S::new(config)?;
        for step in steps {
            for _ in 0..step.times {
                side.written();
                side.deliver(&step.bytes);
                side.take(step.taken)?;
            }
        }
        held.push(side);
    }
    let (after, with) = (resident()?, addresses()?);
    Ok(((after - before) / HELD, (with - without) / HELD))
}

fn print_line(side: &str, ring: &str, state: &str) -> Result<(), Box<dyn Error>> {
    let known = RINGS.iter().find(|(name, _)| *name == ring);
    let (_, capacity) = known.ok_or("no such ring")?;
    let config = Config::new([*capacity; CHANNELS], SLOTS);
    let steps = steps(&config, state)?;
    let (resident, addresses) = match side {
        "peer" => measure::<Peer>(&config, &steps)?,
        _ => measure::<(Mux, Driver)>(&config, &steps)?,
    };
    println!("memory.{side}.{ring}.{state} {resident} KiB resident, {addresses} KiB of addresses");
    Ok(())
}

/// Whether a state is measured of a side with rings of this size.
fn is_measured(side: &str, capacity: u32, state: &str) -> bool {
    (capacity <= MOST_SHORT || matches!(state, "idle" | "full" | "hostile"))
        && (side == "peer" || STATES.contains(&state))
}

fn print_all() -> Result<(), Box<dyn Error>> {
    for side in SIDES {
        for (ring, capacity) in RINGS {
            for state in STATES.into_iter().chain(TAKEN) {
                if is_measured(side, capacity, state) {
                    let mut alone = Command::new(env::current_exe()?);
                    alone.args([side, ring, state]).status()?;
                }
            }
        }
    }
    Ok(())
}

fn main() -> Result<(), Box<dyn Error>> {
    // Cargo itself adds `--bench`.
    let words: Vec<String> = env::args().skip(1).filter(|it| it != "--bench").collect();
    match &words[..] {
        [] => print_all(),
        [side, ring, state] => print_line(side, ring, state),
        _ => Err("usage: memory [SIDE RING STATE]".into()),
    }
}
