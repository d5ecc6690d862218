//! Issues, absolves, limits, pleads and finishes.
use crate::hand::{Call, Hand};
use crate::*;
use lcmux::Channel::{Capability, Data};
use lcmux::{
    CallError, IssuePolicy, Mux, MuxFault, Needs, PleadPolicy, Refusal, TrySendError, CHANNELS,
};

#[test]
fn a_session_begins_with_the_room_of_all_rings() {
    let rooms: Vec<_> = (0..CHANNELS)
        .map(|channel| format!("issue {channel} 64"))
        .collect();
    let rooms = rooms.join(", ");
    assert_eq!(Hand::new(narrow()).written(), greeted(&rooms));
    let mut config = narrow();
    config.issue = [IssuePolicy::LowWater(1); CHANNELS];
    assert_eq!(Hand::new(config).written(), greeted(&rooms));
    assert_eq!(Hand::new(by_caller(14)).written(), GREETING);
}

#[test]
fn bounds_of_a_session() {
    let made = |config: Config| Mux::new(config).err();
    assert_eq!(Mux::LEAST_SLOTS, 14);
    assert_eq!(made(narrow()), None);
    assert_eq!(
        made(with_slots(13)),
        Some(MuxFault::TooFewSlots { slots: 13 })
    );
    let peer = lcmux::PeerFault::BadSlots { slots: 0 };
    assert_eq!(made(with_slots(0)), Some(MuxFault::Peer(peer)));
    for (mark, channel) in [
        (0, Some(Capability)),
        (1, None),
        (64, None),
        (65, Some(Capability)),
    ] {
        let mut config = narrow();
        config.issue[3] = IssuePolicy::LowWater(mark);
        let capacity = 64;
        let fault = channel.map(|channel| MuxFault::BadMark {
            channel,
            mark,
            capacity,
        });
        assert_eq!(made(config), fault, "{mark}");
        let receiver = Hand::new(narrow()).mux.take_receiver(Capability).unwrap();
        let set = receiver.set_issue_policy(IssuePolicy::LowWater(mark));
        assert_eq!(set.err(), fault, "{mark}");
    }
}

// The inbound frames, and the frames that are written if the first message is taken; `-` takes none.
const POLICIES: [(IssuePolicy, &str, &str); 6] = [
    (IssuePolicy::AtOnce, "send 1 6869", "issue 1 2"),
    (IssuePolicy::AtOnce, "absolve 1 4, send 1 6869", "issue 1 6"),
    (IssuePolicy::LowWater(63), "send 1 6869", "issue 1 2"),
    (IssuePolicy::LowWater(62), "send 1 6869", ""),
    (
        IssuePolicy::LowWater(62),
        "send 1 6869, send 1 77",
        "issue 1 2",
    ),
    (IssuePolicy::ByCaller, "send 1 6869", ""),
];

#[test]
fn each_policy_issues_what_was_taken() {
    for (policy, came, written) in POLICIES {
        let mut config = with_slots(32);
        config.issue[1] = policy;
        let mut hand = Hand::new(config);
        let mut receiver = hand.mux.take_receiver(Data).unwrap();
        if policy == IssuePolicy::ByCaller {
            receiver.issue(64).unwrap();
        }
        hand.written();
        hand.feed(&greeted(came));
        assert_eq!(receiver.try_recv(), Ok(Some(b"hi".to_vec())));
        // The bytes of an absolve are free before those of the message.
        let bytes = match came.starts_with("absolve") {
            true => frames("issue 1 4, issue 1 2"),
            false if written.is_empty() => Vec::new(),
            false => frames(written),
        };
        assert_eq!(hand.written(), bytes, "{policy:?} {came}");
    }
}

#[test]
fn a_lent_message_is_room_once_it_is_dropped() {
    let mut hand = Hand::started(narrow());
    let mut receiver = hand.mux.take_receiver(Data).unwrap();
    hand.feed(&greeted("send 1 6869, send 1 77, absolve 1 3"));
    assert_eq!(hand.written(), frames("issue 1 3"));
    for (body, issue) in [(&b"hi"[..], "issue 1 2"), (b"w", "issue 1 1")] {
        let message = Call::new(receiver.recv_ref()).poll().unwrap().unwrap();
        let message = message.unwrap();
        assert_eq!(&*message, body);
        // Other events for the policy do not count these bytes as free.
        hand.feed(&frames("absolve 1 1"));
        assert_eq!(hand.written(), frames("issue 1 1"));
        drop(message);
        assert_eq!(hand.written(), frames(issue));
        let book = receiver.book();
        assert_eq!((book.outstanding + book.buffered, receiver.room()), (64, 0));
    }
}

#[test]
fn what_finds_no_slot_is_joined_and_goes_before_messages() {
    let mut hand = Hand::started(by_caller(14));
    hand.feed(&greeted("issue 1 64"));
    let sender = hand.mux.take_sender(Data).unwrap();
    let receivers: Vec<_> = ALL
        .map(|channel| hand.mux.take_receiver(channel).unwrap())
        .into();
    sender.try_send(b"a").unwrap();
    let full = TrySendError::Full(Needs::Slot);
    assert_eq!(sender.try_send(b"b"), Err(full));
    let mut waits = Call::waiting(sender.send(b"b"));
    for receiver in &receivers {
        receiver.issue(1).unwrap(); // the seven reserved control slots
    }
    for amount in [2, 3] {
        receivers[1].issue(amount).unwrap();
        receivers[5].issue(amount).unwrap();
    }
    receivers[1].limit(20).unwrap();
    receivers[1].issue(4).unwrap();
    sender.absolve(6).unwrap();
    sender.absolve(1).unwrap();
    assert_eq!(sender.held(), 64 - 1 - 7);
    let rest = "issue 1 9, limit-receiving 1 16, absolve 1 7, issue 5 5";
    let rooms = (0..CHANNELS).map(|channel| format!("issue {channel} 1"));
    let rooms = rooms.collect::<Vec<_>>().join(", ");
    assert_eq!(
        hand.written(),
        frames(&format!("send 1 61, {rooms}, {rest}"))
    );
    assert_eq!(waits.poll(), Some(Ok(())));
    assert_eq!(hand.written(), frames("send 1 62"));
}

/// Guarantees that are issued after a plead are not subject to it, even if both wait for a slot; cancelling a call
/// meanwhile affects neither.
#[test]
fn a_later_issue_is_counted_onto_a_plead_that_waits() {
    let mut hand = Hand::started(by_caller(14));
    hand.feed(&greeted("issue 1 1"));
    let sender = hand.mux.take_sender(Data).unwrap();
    sender.try_send(b"a").unwrap();
    let mut receivers = ALL.map(|channel| hand.mux.take_receiver(channel).unwrap());
    let issue = |receiver: &lcmux::Receiver| receiver.issue(20).unwrap();
    receivers.iter().for_each(issue);
    receivers[1].plead(10).unwrap();
    receivers[1].issue(4).unwrap();
    drop(Call::waiting(receivers[1].recv()));
    let last = frames("issue 1 4, plead 1 14");
    assert!(hand.written().ends_with(&last));
}

#[test]
fn what_is_owed_is_counted_in_refusals() {
    let mut hand = Hand::started(by_caller(14));
    hand.feed(&greeted("issue 1 10"));
    let sender = hand.mux.take_sender(Data).unwrap();
    let receivers: Vec<_> = ALL
        .map(|channel| hand.mux.take_receiver(channel).unwrap())
        .into();
    sender.try_send(b"a").unwrap();
    receivers
        .iter()
        .for_each(|receiver| receiver.issue(1).unwrap());
    let (receiver, refused) = (&receivers[1], |refusal| Err(CallError::Refused(refusal)));
    receiver.issue(3).unwrap(); // which is pending from here on
    assert_eq!(receiver.room(), 60);
    assert_eq!(receiver.issue(0), refused(Refusal::ZeroAmount));
    assert_eq!(receiver.issue(61), refused(Refusal::NoRoom { room: 60 }));
    receiver.limit(30).unwrap();
    assert_eq!(
        receiver.limit(31),
        refused(Refusal::LimitRaised { left: 30 })
    );
    assert_eq!(
        receiver.issue(31),
        refused(Refusal::PastReceiveLimit { left: 30 })
    );
    assert_eq!(
        receiver.limit((1 << 62) + 1),
        refused(Refusal::BoundTooLarge)
    );
    receiver.issue(10).unwrap();
    assert_eq!(
        receiver.limit(21),
        refused(Refusal::LimitRaised { left: 20 })
    );

    sender.absolve(4).unwrap();
    assert_eq!(sender.absolve(6), refused(Refusal::NotHeld { held: 5 }));
    assert_eq!(sender.absolve(0), refused(Refusal::ZeroAmount));
    sender.limit(9).unwrap();
    assert_eq!(sender.limit(10), refused(Refusal::LimitRaised { left: 9 }));
    sender.finish().unwrap();
    assert_eq!(sender.finish(), refused(Refusal::ChannelFinished));
    assert_eq!(sender.limit(1), refused(Refusal::ChannelFinished));
    assert_eq!(sender.absolve(1), refused(Refusal::ChannelFinished));
    let rooms = (0..CHANNELS).map(|channel| format!("issue {channel} 1"));
    let rooms = rooms.collect::<Vec<_>>().join(", ");
    let owed = "issue 1 13, limit-receiving 1 20, absolve 1 4, limit-sending 1 9, finish 1";
    assert_eq!(
        hand.written(),
        frames(&format!("send 1 61, {rooms}, {owed}"))
    );
}

#[test]
fn a_plead_is_honoured_at_once_or_by_the_caller() {
    let mut hand = Hand::started(by_caller(16));
    let sender = hand.mux.take_sender(Data).unwrap();
    hand.feed(&greeted("issue 1 20, plead 1 15"));
    assert_eq!(hand.written(), frames("absolve 1 5"));
    assert_eq!(
        (sender.held(), sender.pleaded(), sender.honour()),
        (15, None, Ok(0))
    );

    let mut config = by_caller(16);
    config.plead[1] = PleadPolicy::ByCaller;
    let mut hand = Hand::started(config);
    let sender = hand.mux.take_sender(Data).unwrap();
    hand.feed(&greeted("issue 1 20, plead 1 15"));
    assert_eq!(hand.written(), []);
    assert_eq!((sender.held(), sender.pleaded()), (20, Some(15)));
    assert_eq!(sender.honour(), Ok(5));
    assert_eq!(
        (sender.held(), sender.pleaded(), sender.honour()),
        (15, None, Ok(0))
    );
    assert_eq!(hand.written(), frames("absolve 1 5"));
}

#[test]
fn a_policy_issues_no_more_than_was_pleaded_for() {
    let mut hand = Hand::started(with_slots(16));
    let receiver = hand.mux.take_receiver(Data).unwrap();
    receiver.plead(10).unwrap();
    assert_eq!(hand.written(), frames("plead 1 10"));
    hand.feed(&greeted("absolve 1 54"));
    assert_eq!((hand.written(), receiver.book().outstanding), (vec![], 10));
    hand.feed(&frames("absolve 1 3"));
    assert_eq!(hand.written(), frames("issue 1 3"));
    let asked = CallError::Refused(Refusal::NothingToAsk { outstanding: 10 });
    assert_eq!(receiver.plead(10), Err(asked));
    receiver.set_issue_policy(IssuePolicy::AtOnce).unwrap();
    assert_eq!(hand.written(), frames("issue 1 54"));
}

#[test]
fn a_policy_issues_no_more_than_a_limit_leaves() {
    let mut hand = Hand::started(with_slots(16));
    let mut receiver = hand.mux.take_receiver(Data).unwrap();
    receiver.limit(3).unwrap();
    hand.feed(&greeted("send 1 68656c6c6f"));
    assert_eq!(receiver.try_recv(), Ok(Some(b"hello".to_vec())));
    assert_eq!(hand.written(), frames("limit-receiving 1 3, issue 1 3"));
    hand.feed(&frames("send 1 6869"));
    assert_eq!(receiver.try_recv(), Ok(Some(b"hi".to_vec())));
    assert_eq!(hand.written(), []);
}

/// A limit that found no slot precedes the issues of the policy.
#[test]
fn a_limit_that_waits_for_a_slot_bounds_what_its_policy_issues() {
    let mut hand = Hand::started(narrow());
    hand.feed(&greeted("issue 1 5, send 0 6869686968"));
    let sender = hand.mux.take_sender(Data).unwrap();
    let mut receivers = ALL.map(|channel| hand.mux.take_receiver(channel).unwrap());
    sender.try_send(b"x").unwrap();
    receivers[1..].iter().for_each(|it| it.plead(9).unwrap());
    sender.limit(3).unwrap();
    receivers[0].limit(2).unwrap();
    assert_eq!(receivers[0].try_recv(), Ok(Some(b"hihih".to_vec())));
    let last = frames("limit-receiving 0 2, issue 0 2");
    assert!(hand.written().ends_with(&last));
}

/// A channel that always has a pending control frame does not starve another one: here each written chunk frees one
/// slot.
#[test]
fn channels_owe_in_turn() {
    let mut hand = Hand::started(by_caller(16));
    hand.feed(&greeted("issue 1 400000"));
    let sender = hand.mux.take_sender(Data).unwrap();
    let receivers: Vec<_> = ALL
        .map(|channel| hand.mux.take_receiver(channel).unwrap())
        .into();
    let permits = [(); 3].map(|()| sender.try_reserve(131_072).unwrap());
    for permit in permits {
        permit.send(&[7; 131_072]).unwrap();
    }
    receivers
        .iter()
        .for_each(|receiver| receiver.issue(1).unwrap());
    receivers[0].issue(2).unwrap();
    receivers[5].issue(2).unwrap();
    let mut written = hand.written_at_most(1000);
    receivers[0].issue(3).unwrap();
    written.extend(hand.written());
    written.extend(hand.written()); // a poll of the driver writes a bounded number of chunks
    let rooms = (0..CHANNELS).map(|channel| format!("issue {channel} 1"));
    let rooms = rooms.collect::<Vec<_>>().join(", ");
    let last = frames(&format!("{rooms}, issue 0 2, issue 5 2, issue 0 3"));
    assert_eq!(written[3 * 131_077..], last);
}
