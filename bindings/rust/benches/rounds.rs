//! The cost of a round of two peers on one thread through this crate: a message of 16, 1,024 or 61,440 bytes, and its
//! guarantees back, as `peer` through `write_to` and `read_from`, as `pieces` through `write` and `deliver`; and the
//! cost of each query, as `ask`. `cargo bench --bench rounds` prints a line `name value unit` for each, and the ratio
//! of the rates of `peer` and `pieces`. With BENCH_FIXED=TURNS nothing is timed, and each measurement has that many
//! turns. An argument selects the measurements whose names begin with it.

use lcmux::{Channel, Config, Peer, Take, CHANNELS};
use std::env;
use std::error::Error;
use std::hint::black_box;
use std::time::{Duration, Instant};

const CHANNEL: Channel = Channel::Data;

/// The size of the wire.
const WIRE: usize = 70_000;

/// The approximate time of a repetition, and the number of repetitions, of which the median counts.
const TARGET: Duration = Duration::from_millis(20);
const REPETITIONS: usize = 3;

/// Moves all pending bytes of one peer to the other.
type Carry = fn(&mut Peer, &mut Peer, &mut Vec<u8>) -> Result<(), Box<dyn Error>>;

/// The unit of a measurement.
type Turn = fn(&mut Exchange) -> Result<(), Box<dyn Error>>;

/// Sends a message from the sender to the receiver, over a wire in memory.
struct Exchange {
    client: Peer,
    server: Peer,
    carry: Carry,
    wire: Vec<u8>,
    body: Vec<u8>,
    buffer: Vec<u8>,
}

// Writes all pending bytes of one peer, and reads them at the other.
fn streams(from: &mut Peer, to: &mut Peer, wire: &mut Vec<u8>) -> Result<(), Box<dyn Error>> {
    wire.clear();
    from.write_to(wire)?;
    let mut rest = wire.as_slice();
    while !rest.is_empty() {
        to.read_from(&mut rest)?;
    }
    Ok(())
}

// The same without a reader and a writer, in one chunk.
fn pieces(from: &mut Peer, to: &mut Peer, wire: &mut Vec<u8>) -> Result<(), Box<dyn Error>> {
    wire.resize(WIRE, 0);
    let count = from.write(wire);
    assert_eq!(to.deliver(&wire[..count]).taken, count);
    Ok(())
}

impl Exchange {
    // The first guarantees have arrived.
    fn new(carry: Carry, len: usize) -> Result<Exchange, Box<dyn Error>> {
        let config = Config::new([65_536; CHANNELS], 4);
        let mut exchange = Exchange {
            client: Peer::new(&config)?,
            server: Peer::new(&config)?,
            carry,
            wire: Vec::with_capacity(WIRE),
            body: vec![0x5a; len],
            buffer: vec![0; len],
        };
        exchange.promise()?;
        Ok(exchange)
    }

    // The receiver issues the bytes of one message.
    fn promise(&mut self) -> Result<(), Box<dyn Error>> {
        self.server.issue(CHANNEL, self.body.len() as u32)?;
        (self.carry)(&mut self.server, &mut self.client, &mut self.wire)
    }

    // One message, and its guarantees back.
    fn round(&mut self) -> Result<(), Box<dyn Error>> {
        self.client.send(CHANNEL, black_box(&self.body))?;
        (self.carry)(&mut self.client, &mut self.server, &mut self.wire)?;
        let taken = self.server.take_into(CHANNEL, &mut self.buffer)?;
        assert_eq!(taken, Take::Took(self.body.len()));
        black_box(&self.buffer);
        self.promise()
    }

    fn turns(&mut self, turn: Turn, count: u64) -> Result<Duration, Box<dyn Error>> {
        let start = Instant::now();
        for _ in 0..count {
            turn(self)?;
        }
        Ok(start.elapsed())
    }

    // Turns a second, by the median repetition.
    fn rate(&mut self, turn: Turn) -> Result<f64, Box<dyn Error>> {
        let mut count = 1;
        while self.turns(turn, count)? < TARGET / 4 {
            count *= 2;
        }
        count *= 4;
        let mut taken = [Duration::ZERO; REPETITIONS];
        for one in &mut taken {
            *one = self.turns(turn, count)?;
        }
        taken.sort();
        Ok(count as f64 / taken[REPETITIONS / 2].as_secs_f64())
    }

    // The sender answers a query; the receiver has issued the guarantees of one message.
    fn ask<T>(&self, question: impl FnOnce(&Peer) -> T) -> Result<(), Box<dyn Error>> {
        black_box(question(black_box(&self.client)));
        Ok(())
    }
}

/// The length of the messages in a query, for which the guarantees are held.
const ASKED: usize = 16;

const FIGURES: [(&str, Carry, usize, Turn); 11] = [
    ("peer.16", streams, 16, Exchange::round),
    ("pieces.16", pieces, 16, Exchange::round),
    ("peer.1k", streams, 1_024, Exchange::round),
    ("pieces.1k", pieces, 1_024, Exchange::round),
    ("peer.60k", streams, 61_440, Exchange::round),
    ("pieces.60k", pieces, 61_440, Exchange::round),
    ("ask.would_send", pieces, ASKED, |it| {
        it.ask(|peer| peer.would_send(CHANNEL, ASKED))
    }),
    ("ask.needs", pieces, ASKED, |it| {
        it.ask(|peer| peer.needs(CHANNEL, ASKED))
    }),
    ("ask.slots_left", pieces, ASKED, |it| {
        it.ask(Peer::slots_left)
    }),
    ("ask.wants_write", pieces, ASKED, |it| {
        it.ask(Peer::wants_write)
    }),
    ("ask.ready", pieces, ASKED, |it| it.ask(Peer::ready)),
];

fn main() -> Result<(), Box<dyn Error>> {
    let fixed = env::var("BENCH_FIXED")
        .ok()
        .and_then(|text| text.parse().ok());
    // Cargo itself adds `--bench`.
    let prefix = env::args()
        .skip(1)
        .find(|argument| argument != "--bench")
        .unwrap_or_default();
    let mut before = ("", 0.0);
    for (name, carry, len, turn) in FIGURES {
        if !name.starts_with(&prefix) {
            continue;
        }
        let mut exchange = Exchange::new(carry, len)?;
        if let Some(count) = fixed {
            exchange.turns(turn, count)?;
            println!("{name} 1 per_turn");
            continue;
        }
        let (kind, of) = name.split_once('.').unwrap_or_default();
        let rate = exchange.rate(turn)?;
        let what = if kind == "ask" { "calls" } else { "messages" };
        println!("{name}.{what} {rate:.0} {what}/s");
        if kind == "pieces" && before.0 == of {
            println!("peer.{of}.ratio {:.2} of_pieces", before.1 / rate);
        }
        before = (of, rate);
    }
    Ok(())
}
