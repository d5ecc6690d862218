//! The frames, the results and the effects of calls that `rows.txt` does not cover.
mod common;

use common::{hex, rows};
use lcmux::{
    Channel,
    Channel::{Data, Overlap},
    ClientBook, Closed, Config, Delivery, Peer, PeerFault, Refusal, ServerBook, Take, Version,
    CHANNELS,
};
use std::marker::PhantomData;
use std::thread;

fn peer_in(version: Version, capacities: [u32; CHANNELS]) -> Peer {
    let mut config = Config::new(capacities, 16);
    config.version = version;
    Peer::new(&config).unwrap()
}

fn peer() -> Peer {
    peer_in(Version::One, [300_000; CHANNELS])
}

/// Delivers all pending bytes of one peer to the other.
fn carry(from: &mut Peer, to: &mut Peer) {
    let mut wire = vec![0; from.pending()];
    assert_eq!(from.write(&mut wire), wire.len());
    let delivery = to.deliver(&wire);
    assert_eq!((delivery.taken, delivery.stop), (wire.len(), None));
}

fn written(peer: &mut Peer) -> Vec<u8> {
    let mut wire = vec![0; peer.pending()];
    assert_eq!(peer.write(&mut wire), wire.len());
    wire
}

#[test]
fn channels_have_their_names_and_numbers() {
    let names = [
        "Reconciliation",
        "Data",
        "Overlap",
        "Capability",
        "AreaOfInterest",
        "PayloadRequest",
        "StaticToken",
    ];
    assert_eq!(Channel::ALL.map(|channel| format!("{channel:?}")), names);
    assert_eq!(Channel::ALL.map(Channel::number), [0, 1, 2, 3, 4, 5, 6]);
    for channel in Channel::ALL {
        assert_eq!(Channel::from_number(channel.number()), Some(channel));
    }
    assert_eq!([7, 8, 255].map(Channel::from_number), [None; 3]);
}

#[test]
fn versions_have_their_numbers_and_one_is_the_default() {
    for (number, version) in [(1, Version::One), (2, Version::Two)] {
        assert_eq!(Version::from_number(number), Some(version));
        assert_eq!(version.number(), number);
    }
    assert_eq!([0, 3, 255].map(Version::from_number), [None; 3]);
    assert_eq!(Version::default(), Version::One);
    assert_eq!(Config::new([8; CHANNELS], 4).version, Version::One);
}

#[test]
fn a_configuration_is_judged_by_channel_then_by_slots() {
    let bad = |capacities, slots| Peer::new(&Config::new(capacities, slots)).unwrap_err();
    let capacity_of = |channel, capacity| PeerFault::BadCapacity { channel, capacity };
    assert_eq!(
        bad([8, 8, 8, 8, 8, 8, 0], 0),
        capacity_of(Channel::StaticToken, 0)
    );
    assert_eq!(
        bad([8, 8, 0, 8, 8, (1 << 24) + 1, 8], 4),
        capacity_of(Overlap, 0)
    );
    let wide = (1 << 24) + 1;
    assert_eq!(bad([8, 8, wide, 8, 8, 8, 8], 4), capacity_of(Overlap, wide));
    assert_eq!(bad([8; CHANNELS], 0), PeerFault::BadSlots { slots: 0 });
    assert_eq!(
        bad([8; CHANNELS], 65_537),
        PeerFault::BadSlots { slots: 65_537 }
    );
    let widest = Peer::new(&Config::new([1, 2, 3, 4, 5, 6, 1 << 24], 65_536)).unwrap();
    let capacities = Channel::ALL.map(|channel| widest.server(channel).capacity);
    assert_eq!(capacities, [1, 2, 3, 4, 5, 6, 1 << 24]);
}

#[test]
fn each_call_puts_its_frame_on_its_channel() {
    for channel in Channel::ALL {
        let mut peer = peer_in(Version::Two, [8; CHANNELS]);
        let tag = |kind: u8| 16 * kind + channel.number();
        let arrived = peer.deliver(&[tag(2), 0, 0, 0, 9]);
        assert_eq!(arrived.frames, 1);
        peer.send(channel, b"hi").unwrap();
        peer.issue(channel, 5).unwrap();
        peer.absolve(channel, 3).unwrap();
        peer.plead(channel, 4).unwrap();
        peer.limit_sending(channel, 0x0102_0304_0506).unwrap();
        peer.limit_receiving(channel, 0x0203_0405_0607).unwrap();
        peer.finish(channel).unwrap();
        let frames: [&[u8]; 8] = [
            &[0x4c, 0x43, 0x4d, 2],
            &[tag(1), 0, 0, 0, 2, b'h', b'i'],
            &[tag(2), 0, 0, 0, 5],
            &[tag(3), 0, 0, 0, 3],
            &[tag(4), 0, 0, 0, 4],
            &[tag(5), 0, 0, 1, 2, 3, 4, 5, 6],
            &[tag(6), 0, 0, 2, 3, 4, 5, 6, 7],
            &[tag(7)],
        ];
        assert_eq!(written(&mut peer), frames.concat());
    }
}

#[test]
fn an_honour_absolves_what_is_held_above_the_target() {
    let cases = [
        (300, 0, Some(300)),
        (300_000, 70_000, Some(230_000)),
        (5, 4, Some(1)),
    ];
    for (amount, target, absolved) in cases {
        let (mut client, mut server) = (peer(), peer());
        server.issue(Data, amount).unwrap();
        server.plead(Data, target).unwrap();
        assert_eq!(client.honour(Data), Ok(None));
        carry(&mut server, &mut client);
        assert_eq!(client.honour(Data), Ok(absolved));
        assert_eq!(client.honour(Data), Ok(None));
        carry(&mut client, &mut server);
        assert_eq!(server.server(Data).outstanding, target.into());
    }
}

#[test]
fn messages_are_taken_one_by_one() {
    let mut peer = peer();
    assert_eq!((peer.front_len(Data), peer.take(Data)), (None, Take::Empty));
    assert_eq!(peer.take_into(Data, &mut [7; 4]), Ok(Take::Empty));
    peer.issue(Data, 9).unwrap();
    peer.issue(Overlap, 6).unwrap();
    let arrived = peer.deliver(b"\x11\x00\x05first\x12\x00\x06beside\x11\x00\x04next");
    assert_eq!(arrived.frames, 3);

    let fronts = [Data, Overlap, Channel::Capability].map(|channel| peer.front_len(channel));
    assert_eq!(fronts, [Some(5), Some(6), None]);
    assert_eq!(peer.take(Overlap).took().as_deref(), Some(&b"beside"[..]));
    assert_eq!(peer.take(Data).took().as_deref(), Some(&b"first"[..]));
    assert_eq!(peer.server(Data).buffered, 4);
    let mut buffer = [7; 6];
    let short = peer.take_into(Data, &mut buffer[..3]);
    assert_eq!(short, Err(Refusal::BufferTooSmall { need: 4 }));
    assert_eq!(peer.take_into(Data, &mut buffer), Ok(Take::Took(4)));
    assert_eq!(&buffer, b"next\x07\x07");
    assert_eq!((peer.front_len(Data), peer.take(Data)), (None, Take::Empty));

    let ended = peer.deliver(&[0x51, 0, 0, 0, 0, 0, 0, 0, 0]);
    assert_eq!(ended.frames, 1);
    assert_eq!(peer.take_into(Data, &mut buffer), Ok(Take::Ended));
    assert_eq!((peer.front_len(Data), peer.take(Data)), (None, Take::Ended));
    assert_eq!(
        [Take::Took(5), Take::Empty, Take::Ended].map(Take::took),
        [Some(5), None, None]
    );
}

#[test]
fn a_message_that_goes_round_the_end_of_its_ring_is_lent_in_two_pieces() {
    let mut peer = Peer::new(&Config::new([8; CHANNELS], 4)).unwrap();
    assert_eq!(peer.front(Data), None);
    assert_eq!(peer.pop(Data), Take::Empty);
    peer.issue(Data, 8).unwrap();
    assert_eq!(peer.deliver(b"\x11\0\x05first").stop, None);
    assert_eq!(peer.front(Data), Some((&b"first"[..], &b""[..])));
    assert_eq!(peer.deliver(b"\x11\0\x02no").stop, None);
    assert_eq!(peer.front(Data), Some((&b"first"[..], &b""[..])));
    assert_eq!(peer.pop(Data), Take::Took(5));
    peer.issue(Data, 5).unwrap();
    assert_eq!(peer.deliver(b"\x11\0\x04next").stop, None);
    assert_eq!(peer.pop(Data), Take::Took(2));
    assert_eq!(peer.front(Data), Some((&b"n"[..], &b"ext"[..])));
    assert_eq!(
        (
            peer.server(Data).buffered,
            peer.front(Channel::Reconciliation)
        ),
        (4, None)
    );
    assert_eq!(peer.take(Data), Take::Took(b"next".to_vec()));
    assert_eq!(peer.deliver(&[0x51, 0, 0, 0, 0, 0, 0, 0, 0]).stop, None);
    assert_eq!(peer.front(Data), None);
    assert_eq!(peer.pop(Data), Take::Ended);
}

/// A peer that sent, got a plead and set limits, and one that received, with the ledgers of both.
#[test]
fn both_books_show_each_balance() {
    let capacities = [0, 1, 2, 3, 4, 5, 6].map(|number| 1_000_000 + number);
    let (mut client, mut server) = (
        peer_in(Version::Two, capacities),
        peer_in(Version::Two, capacities),
    );
    server.issue(Overlap, 300_000).unwrap();
    server.limit_receiving(Overlap, 5_000_000_000).unwrap();
    carry(&mut server, &mut client);
    client.limit_sending(Overlap, 6_000_000_000).unwrap();
    client.send(Overlap, &[7; 40]).unwrap();
    client.absolve(Overlap, 15).unwrap();
    server.plead(Overlap, 70_000).unwrap();
    carry(&mut client, &mut server);
    carry(&mut server, &mut client);
    let sending = ClientBook {
        held: 299_945,
        received: 300_000,
        spent: 40,
        absolved: 15,
        waived: 0,
        send_left: Some(5_999_999_960),
        receive_left: Some(5_000_000_000),
        asked: Some(70_000),
        finished: false,
    };
    let receiving = ServerBook {
        capacity: 1_000_002,
        issued: 300_000,
        received: 40,
        taken: 0,
        absolved: 15,
        outstanding: 299_945,
        buffered: 40,
        room: 700_017,
        waived: 0,
        send_left: Some(5_999_999_960),
        receive_left: Some(5_000_000_000),
        finished: false,
    };
    assert_eq!(client.client(Overlap), sending);
    assert_eq!(server.server(Overlap), receiving);

    server.issue(Overlap, 30).unwrap();
    client.finish(Overlap).unwrap();
    carry(&mut server, &mut client);
    carry(&mut client, &mut server);
    let sending = ClientBook {
        held: 0,
        received: 300_030,
        waived: 299_975,
        receive_left: Some(4_999_999_970),
        asked: None,
        finished: true,
        ..sending
    };
    let receiving = ServerBook {
        issued: 300_030,
        outstanding: 0,
        room: 999_962,
        waived: 299_975,
        receive_left: Some(4_999_999_970),
        finished: true,
        ..receiving
    };
    assert_eq!(client.client(Overlap), sending);
    assert_eq!(server.server(Overlap), receiving);
}

// A chunk, then how many bytes of it were consumed, how many frames arrived, and the protocol error. A fault is
// detected at its byte or its number, a violation at its whole frame.
const DELIVERIES: &str = "\
- => 0 0 None
21000000052100 => 7 1 None
2100000005772100 => 6 1 Some(Fault(BadTag))
1100002100000005 => 3 0 Some(Fault(ZeroLength))
2100000005610000000000000009220100000121 => 19 2 Some(Fault(BadNumber))
4c434d0121 => 4 0 Some(Fault(BadTag))
210000000531000000012100 => 10 1 Some(Violated(AbsolvedTooMuch))";

#[test]
fn a_delivery_says_what_it_took_and_where_it_stopped() {
    let shown = |it: Delivery| format!("{} {} {:?}", it.taken, it.frames, it.stop);
    for (piece, delivery) in rows(DELIVERIES) {
        let mut peer = peer();
        let delivered = peer.deliver(&hex(piece));
        assert_eq!(shown(delivered), delivery, "{piece}");
        if let Some(stop) = delivered.stop {
            let again = peer.deliver(&hex("2100000005"));
            assert_eq!(shown(again), format!("0 0 Some({stop:?})"), "{piece}");
            assert_eq!(peer.end(), Err(stop), "{piece}");
        }
    }
}

// The bytes of a stream, and the result of an end there.
const ENDS: &str = "\
- => Ok(())
4c43 => Err(Fault(Truncated))
4c434d02 => Ok(())
2100000005 => Ok(())
210000000521 => Err(Fault(Truncated))";

#[test]
fn the_end_of_a_stream_is_judged_by_what_is_held() {
    for (piece, end) in rows(ENDS) {
        let mut peer = peer();
        assert_eq!(peer.deliver(&hex(piece)).stop, None);
        assert_eq!(format!("{:?}", peer.end()), end, "{piece}");
    }
}

// The bytes of a stream to a peer that issued 5 guarantees on channel 1, and what is wrong where it ends there.
const PROTOCOL_ERRORS: &str = "\
2100000005 => -
1100016111000568656c6c6f => V1 at byte 4: a Send of 5 on Data, where 4 are outstanding
5100000000000000011100026162 => V2 at byte 9: a Send of 2 on Data, where the sender's limit leaves 1
21000000073100000006 => V3 at byte 5: an Absolve of 6 on Data, where 5 are outstanding
3300000006 => V3 at byte 0: an Absolve of 6 on Capability, where 0 are outstanding
510000000000000001510000000000000002 => V4 at byte 9: a LimitSending of 2 on Data, where the sender's limit leaves 1
6100000000000000012100000002 => V5 at byte 9: an Issue of 2 on Data, where the receiver's limit leaves 1
21010000002100000001 => V6 at byte 5: an Issue of 1 on Data, where the sender may hold 0 more
660000000000000005660000000000000006 => V7 at byte 9: a LimitReceiving of 6 on StaticToken, where the receiver's limit leaves 5
4c434d027171 => V9 at byte 5: a Finish on Data, after the Finish of the channel
4c434d0271110000000161 => V9 at byte 5: a Send of 1 on Data, after the Finish of the channel
210000000577 => F1 at byte 5: a byte names no kind or channel, or is not the greeting's (0x77)
4c430d => F1 at byte 0: a byte names no kind or channel, or is not the greeting's (0x0d)
2100000005110000 => F2 at byte 5: a message has length 0 (a Send of 0 on Data)
2100000000 => F3 at byte 0: a number in a frame is out of its range (an Issue of 0 on Data)
4c434d02210000000521 => F4 at byte 9: the stream ends within a frame or a greeting";

#[test]
fn a_protocol_error_says_where_it_is_and_what_was_allowed() {
    for (stream, want) in rows(PROTOCOL_ERRORS) {
        let stream = hex(stream);
        for piece in [1, stream.len()] {
            let mut peer = peer();
            peer.issue(Data, 5).unwrap();
            for piece in stream.chunks(piece) {
                let _ = peer.deliver(piece);
            }
            let error = peer.protocol_error();
            let said = error.map_or("-".into(), |error| error.to_string());
            assert_eq!(said, want);
            let stop = error.map(|error| error.stop);
            assert_eq!(peer.end().err(), stop);
            let mark = error.map(|it| match Closed::from(it) {
                Closed::Violated(same) if same == it => 'V',
                Closed::Fault(same) if same == it => 'F',
                other => panic!("{other}"),
            });
            assert_eq!(mark, want.chars().find(|it| *it != '-'));
        }
    }
}

/// Whether a type is `Sync`: a constant of the type itself precedes one of a trait.
struct Threads<T>(PhantomData<T>);

trait OneAtATime {
    const MAY_SHARE: bool = false;
}

impl<T> OneAtATime for Threads<T> {}

impl<T: Sync> Threads<T> {
    const MAY_SHARE: bool = true;
}

#[test]
fn a_peer_goes_to_another_thread_and_is_not_shared() {
    let mut peer = peer();
    peer.issue(Data, 5).unwrap();
    let moved = thread::spawn(move || peer.pending());
    assert_eq!(moved.join().unwrap(), 5);
    assert_eq!(
        [Threads::<Config>::MAY_SHARE, Threads::<Peer>::MAY_SHARE],
        [true, false]
    );
}

#[test]
fn a_peer_shows_how_many_bytes_wait() {
    let mut peer = peer();
    peer.issue(Data, 5).unwrap();
    assert_eq!(format!("{peer:?}"), "Peer { pending: 5, .. }");
}
