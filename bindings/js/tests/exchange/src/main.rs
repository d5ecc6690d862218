//! `exchange ADDRESS VERSION LENGTH COUNT` sends COUNT messages of this length over a TCP connection, and receives as
//! many at the same time. Message k has the bytes k, k + 1 and so on. It prints how many bytes it received.
use lcmux::{Channel, Channel::Data, Config, Incoming, Needs, Peer, Refusal, Take, Version, CHANNELS};
use std::env;
use std::error::Error;
use std::net::{Shutdown, TcpStream};
use std::time::Duration;

const TIMEOUT: Duration = Duration::from_millis(5);

// Counting bytes, of which each message is a part.
fn counted(len: usize) -> Vec<u8> {
    (0..len + 256).map(|at| at as u8).collect()
}

struct Exchange {
    stream: TcpStream,
    peer: Peer,
    version: Version,
    counted: Vec<u8>,
    len: usize,
    count: u32,
    sent: u32,
    taken: u32,
    owed: u32,
}

impl Exchange {
    fn message(&self, k: u32) -> &[u8] {
        let first = k as usize % 256;
        &self.counted[first..first + self.len]
    }

    fn send_all(&mut self) -> Result<(), Box<dyn Error>> {
        while self.sent < self.count && self.peer.needs(Data, self.len) == Needs::Nothing {
            let first = self.sent as usize % 256;
            self.peer
                .send(Data, &self.counted[first..first + self.len])?;
            self.sent += 1;
        }
        Ok(())
    }

    fn take_all(&mut self) -> Result<(), Box<dyn Error>> {
        while let Take::Took(body) = self.peer.take(Data) {
            if body != self.message(self.taken) {
                return Err(format!("message {} is another", self.taken).into());
            }
            self.taken += 1;
            self.owed += body.len() as u32;
        }
        if self.owed > 0 && self.peer.would_issue(Data, self.owed).is_ok() {
            self.peer.issue(Data, self.owed)?;
            self.owed = 0;
        }
        Ok(())
    }

    // Every channel is finished before the stream ends, or the peer takes the stream for cut.
    fn finish_all(&mut self) -> Result<(), Refusal> {
        Channel::ALL
            .into_iter()
            .try_for_each(|channel| match self.version {
                Version::One => self.peer.limit_sending(channel, 0),
                _ => self.peer.finish(channel),
            })
    }

    fn is_done(&self) -> bool {
        self.sent + self.taken == 2 * self.count && !self.peer.wants_write()
    }

    // Both directions at once, until all messages arrived and the peer has closed.
    fn run(&mut self) -> Result<(), Box<dyn Error>> {
        let (mut is_finished, mut is_shut) = (false, false);
        loop {
            self.take_all()?;
            self.send_all()?;
            let progress = self.peer.drive(&mut self.stream)?;
            if !is_finished && self.is_done() {
                self.finish_all()?;
                is_finished = true;
            } else if !is_shut && self.is_done() {
                self.stream.shutdown(Shutdown::Write)?;
                is_shut = true;
            }
            match progress.incoming {
                Incoming::Stopped { error, .. } => return Err(error.into()),
                Incoming::Ended if self.taken == self.count => return Ok(()),
                Incoming::Ended => return Err("the other side is gone".into()),
                _ => {}
            }
        }
    }
}

fn main() -> Result<(), Box<dyn Error>> {
    let [address, version, len, count]: [String; 4] = env::args()
        .skip(1)
        .collect::<Vec<_>>()
        .try_into()
        .map_err(|_| "usage: exchange ADDRESS VERSION LENGTH COUNT")?;
    let stream = TcpStream::connect(address)?;
    stream.set_nodelay(true)?;
    stream.set_read_timeout(Some(TIMEOUT))?;
    stream.set_write_timeout(Some(TIMEOUT))?;
    let mut config = Config::new([4 << 20; CHANNELS], 16);
    config.version = Version::from_number(version.parse()?).ok_or("a version is 1 or 2")?;
    let len = len.parse()?;
    let mut exchange = Exchange {
        stream,
        peer: Peer::new(&config)?,
        version: config.version,
        counted: counted(len),
        len,
        count: count.parse()?,
        sent: 0,
        taken: 0,
        owed: 4 << 20,
    };
    exchange.run()?;
    println!("{}", exchange.taken as usize * exchange.len);
    Ok(())
}
