//! The script of a run makes two peers of the library write the bytes that the run wrote, so `lcmux_chart` draws what
//! happened.
mod common;

use common::talked;
use lcmux_sim::{Faults, Side, Sim};
use lcmux_tokio::lcmux::{Channel, Config, Peer, Take, Version, CHANNELS};

/// Two peers, and what each wrote and has received.
struct Replay {
    peers: [Peer; 2],
    written: [Vec<u8>; 2],
    /// The offsets behind the frames of each side, and how many of its bytes and frames arrived.
    ends: [Vec<usize>; 2],
    arrived: [(usize, usize); 2],
}

impl Replay {
    fn new(capacity: u32, version: Version) -> Replay {
        let config = Config::new([capacity; CHANNELS], 16).version(version);
        Replay {
            peers: [(); 2].map(|()| Peer::new(&config).unwrap()),
            written: [vec![], vec![]],
            ends: [vec![], vec![]],
            arrived: [(0, 0); 2],
        }
    }

    /// Makes the event of a line, which has to be accepted.
    fn make(&mut self, line: &str) {
        let words: Vec<_> = line.split(' ').collect();
        let at = usize::from(words[0] == "B");
        if words[1] == "arrive" {
            return self.arrive(at, 1 - at);
        }
        let channel = Channel::from_number(words[2].parse().unwrap()).unwrap();
        let number = || words[3].parse::<u64>().unwrap();
        let peer = &mut self.peers[at];
        let made = match words[1] {
            "send" => peer.send(channel, &bytes_of(words[3])),
            "issue" => peer.issue(channel, number() as u32),
            "absolve" => peer.absolve(channel, number() as u32),
            "plead" => peer.plead(channel, number() as u32),
            "limit-sending" => peer.limit_sending(channel, number()),
            "limit-receiving" => peer.limit_receiving(channel, number()),
            "finish" => peer.finish(channel),
            "take" => {
                assert!(matches!(peer.take(channel), Take::Took(_)), "{line}");
                return;
            }
            _ => panic!("{line}"),
        };
        assert_eq!(made, Ok(()), "{line}");
        let mut bytes = vec![0; 70_000];
        let count = peer.write(&mut bytes);
        self.written[at].extend(&bytes[..count]);
        self.ends[at].push(self.written[at].len());
    }

    fn arrive(&mut self, at: usize, from: usize) {
        let (bytes, frames) = self.arrived[from];
        let end = self.ends[from][frames];
        let delivered = self.peers[at].deliver(&self.written[from][bytes..end]);
        assert_eq!((delivered.frames, delivered.stop.is_none()), (1, true));
        self.arrived[from] = (end, frames + 1);
    }
}

fn bytes_of(hex: &str) -> Vec<u8> {
    let digits = hex.as_bytes().chunks(2);
    digits
        .map(|it| u8::from_str_radix(std::str::from_utf8(it).unwrap(), 16).unwrap())
        .collect()
}

#[test]
fn the_script_of_a_run_writes_its_frames() {
    let mut messages = 0;
    for seed in 0..300 {
        let run = talked(&mut Sim::new(seed, Faults::all().within(2_000)));
        let script = run.trace.script();
        let mut lines = script.lines();
        let head: Vec<_> = lines.next().unwrap().split(' ').collect();
        assert_eq!((head[0], head[1]), ("#", "lcmux_chart"));
        let (capacity, version) = match head[3] {
            "2" => (head[2], Version::Two),
            _ => (head[2], Version::One),
        };
        let mut replay = Replay::new(capacity.parse().unwrap(), version);
        lines.for_each(|line| replay.make(line));
        for (at, side) in Side::ALL.into_iter().enumerate() {
            let written = run.trace.written(side);
            let frames = run.trace.frames(side);
            assert_eq!(replay.ends[at].len(), frames.len(), "seed {seed}");
            // Side B writes the version of the replay, and A does if B wrote nothing.
            let same_version = written.starts_with(b"LCM\x02") == (version == Version::Two);
            if same_version && !frames.is_empty() {
                assert!(
                    written.starts_with(&replay.written[at]),
                    "seed {seed}, {side}"
                );
            }
            messages += frames.iter().filter(|it| it.starts_with("send ")).count();
        }
    }
    assert!(messages > 5_000, "{messages}");
}

#[test]
fn the_frames_of_a_stream_are_named() {
    let run = talked(&mut Sim::new(3, Faults::none()));
    let frames = run.trace.frames(Side::A);
    assert_eq!(frames[..2], ["issue 0 64", "issue 1 64"]);
    assert!(run.trace.to_string().contains("0 ms  A  writes "));
}
