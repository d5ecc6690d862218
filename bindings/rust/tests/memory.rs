//! The resident memory of a peer that has written and read.
use lcmux::{Channel, Channel::Data, Config, Peer, Stop, Take, Version, Violation, CHANNELS};
use std::fs;

/// The bytes of a hostile message. They are not on the heap, since a later peer could reuse their pages.
const PIECE: [u8; 1_024] = [7; 1_024];

/// The resident bytes of this process, by all lines `Rss:  4 kB`.
fn resident() -> usize {
    let maps = fs::read_to_string("/proc/self/smaps").unwrap();
    let kib = maps.lines().filter_map(|line| {
        let (count, unit) = line.strip_prefix("Rss:")?.trim().split_once(' ')?;
        assert_eq!(unit, "kB");
        count.parse::<usize>().ok()
    });
    1024 * kib.sum::<usize>()
}

/// Two peers with rings of this size, after a message of that length each way.
fn used(len: usize) -> [Peer; 2] {
    let mut config = Config::new([len as u32; CHANNELS], 4);
    config.version = Version::Two;
    let mut peers = [Peer::new(&config).unwrap(), Peer::new(&config).unwrap()];
    peers
        .iter_mut()
        .for_each(|peer| peer.issue(Data, len as u32).unwrap());
    carry(&mut peers);
    let message = vec![7; len];
    peers
        .iter_mut()
        .for_each(|peer| peer.send(Data, &message).unwrap());
    carry(&mut peers);
    for peer in &mut peers {
        assert_eq!(peer.take(Data), Take::Took(message.clone()));
    }
    peers
}

fn carry(peers: &mut [Peer; 2]) {
    let [one, two] = &mut *peers;
    let wires = [one, two].map(|peer| {
        let mut wire = Vec::new();
        peer.write_to(&mut wire).unwrap();
        wire
    });
    for (from, wire) in wires.iter().enumerate() {
        let mut rest = wire.as_slice();
        while !rest.is_empty() {
            peers[1 - from].read_from(&mut rest).unwrap();
        }
    }
}

/// A peer that received a message of 1 MiB, which its rings of this size cannot hold, apart from its last byte.
fn besieged(ring: u32) -> Peer {
    let mut peer = Peer::new(&Config::new([ring; CHANNELS], 4)).unwrap();
    let header = peer.deliver(b"LCM\x02\x11\x00\x10\x00\x00");
    assert_eq!((header.taken, header.stop), (9, None));
    for _ in 1..(1 << 20) / PIECE.len() {
        assert_eq!(peer.deliver(&PIECE).stop, None);
    }
    assert_eq!(peer.deliver(&PIECE[1..]).stop, None);
    peer
}

/// A peer that has issued all of its rings of this size.
fn open(ring: u32) -> Peer {
    let mut peer = Peer::new(&Config::new([ring; CHANNELS], 64)).unwrap();
    for channel in Channel::ALL {
        peer.issue(channel, ring).unwrap();
    }
    peer
}

/// A stream of messages of one byte that fill all rings of this size.
fn short_messages(ring: u32) -> Vec<u8> {
    let mut issued = Vec::new();
    open(ring).write_to(&mut issued).unwrap();
    let mut client = Peer::new(&Config::new([ring; CHANNELS], 64)).unwrap();
    client.read_from(&mut issued.as_slice()).unwrap();
    let mut bytes = Vec::new();
    for channel in Channel::ALL {
        for _ in 0..ring {
            client.send(channel, b"m").unwrap();
            client.write_to(&mut bytes).unwrap();
        }
    }
    bytes
}

/// A peer at which this stream has arrived, and which has taken nothing.
fn crowded(ring: u32, bytes: &[u8]) -> Peer {
    let mut peer = open(ring);
    peer.write_to(&mut Vec::new()).unwrap();
    let mut rest = bytes;
    while !rest.is_empty() {
        peer.read_from(&mut rest).unwrap();
    }
    peer
}

/// One test, since a concurrent one would be counted, too.
#[test]
fn what_a_peer_takes_up_with_short_long_and_hostile_messages() {
    const PAIRS: usize = 50;
    let _first = used(8);
    let before = resident();
    let short: Vec<_> = (0..PAIRS).map(|_| used(8)).collect();
    let each = (resident() - before) / (2 * PAIRS);
    assert!((4_096..80 * 1024).contains(&each), "{each} bytes");

    let before = resident();
    let long = used(1 << 20);
    assert!(resident() - before > 4 << 20);
    drop((short, long));

    for ring in [1_024, 65_536] {
        drop(besieged(ring));
        let before = resident();
        let peers: Vec<_> = (0..PAIRS).map(|_| besieged(ring)).collect();
        let each = (resident() - before) / PAIRS;
        let most = 72 * 1024 + ring as usize;
        assert!((4_096..most).contains(&each), "{each} bytes");
        for mut peer in peers {
            assert_eq!(
                peer.deliver(&PIECE[..1]).stop,
                Some(Stop::Violated(Violation::NotGuaranteed))
            );
        }
    }

    const RING: u32 = 32_768;
    const CROWDED: usize = 10;
    let bytes = short_messages(RING);
    let before = resident();
    let peers: Vec<_> = (0..CROWDED).map(|_| crowded(RING, &bytes)).collect();
    let each = (resident() - before) / CROWDED;
    let most = 72 * 1024 + 7 * RING as usize * 21 / 10;
    assert!((4_096..most).contains(&each), "{each} bytes");
    drop(peers);
}
