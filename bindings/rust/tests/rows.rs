//! The worked examples and hostile bytes of `bindings/rows.txt`, and the cases of `bindings/vectors.txt`, through the
//! crate.
mod common;

use common::{hex, shared};
use lcmux::{
    Channel, Config, Needs, Peer, ProtocolError, Ready, Refusal, Stop, Take, Version, CHANNELS,
};

struct Side {
    peer: Peer,
    // The bytes of the side that have not arrived.
    wire: Vec<u8>,
}

fn unhex(bytes: &[u8]) -> String {
    match bytes {
        [] => "-".into(),
        _ => bytes.iter().map(|byte| format!("{byte:02x}")).collect(),
    }
}

fn or_none(left: Option<impl ToString>) -> String {
    left.map_or("-".into(), |left| left.to_string())
}

fn refused(refusal: Refusal) -> String {
    let number = refusal.number();
    match refusal.detail() {
        Some((name, value)) => format!("refused {number} {name} {value}"),
        None => format!("refused {number}"),
    }
}

fn own(answer: Result<(), Refusal>) -> String {
    answer.map_or_else(refused, |()| "ok".into())
}

fn honoured(answer: Result<Option<u32>, Refusal>) -> String {
    match answer {
        Ok(Some(amount)) => format!("absolved {amount}"),
        Ok(None) => "nothing to absolve".into(),
        Err(refusal) => refused(refusal),
    }
}

fn needed(needs: Needs) -> String {
    match needs {
        Needs::Nothing => "nothing".into(),
        Needs::Guarantees(missing) => format!("{missing} more"),
        Needs::MoreThanEverIssued { .. } => unreachable!("a session alone says that"),
        Needs::Slot => "a slot".into(),
        Needs::Never => "never".into(),
    }
}

// The channels that the application can act on, and how.
fn ready(all: [Ready; CHANNELS]) -> String {
    let mut words = Vec::new();
    for (channel, ready) in all.into_iter().enumerate() {
        let flags = [
            (ready.message, "message"),
            (ready.ended, "ended"),
            (ready.plead, "plead"),
            (ready.finished, "finished"),
            (ready.finished_there, "finished-there"),
        ];
        let set = flags.into_iter().filter(|flag| flag.0);
        words.extend(set.map(|flag| format!("{channel} {}", flag.1)));
    }
    match words.is_empty() {
        true => "nothing".into(),
        false => words.join(", "),
    }
}

fn stop(stop: Option<Stop>) -> String {
    match stop {
        None => "ok".into(),
        Some(Stop::Violated(violation)) => format!("violation V{}", violation.number()),
        Some(Stop::Fault(fault)) => format!("fault F{}", fault.number()),
    }
}

// What is wrong with the stream where it ends here, and where.
fn wrong(error: Option<ProtocolError>) -> String {
    let Some(error) = error else {
        return "ok".into();
    };
    let at = format!("{} at {}", stop(Some(error.stop)), error.offset);
    match (error.frame, error.byte) {
        (Some(frame), _) => format!(
            "{at}: kind {} channel {} number {} allowed {}",
            frame.kind as u8 + 1,
            frame.channel.number(),
            or_none(frame.number),
            or_none(error.allowed)
        ),
        (None, Some(byte)) => format!("{at}: byte {byte}"),
        (None, None) => at,
    }
}

fn arrive(me: &mut Side, other: &mut Side) -> String {
    other.peer.write_to(&mut other.wire).unwrap();
    while !other.wire.is_empty() {
        let delivery = me.peer.deliver(&[other.wire.remove(0)]);
        if delivery.stop.is_some() {
            return stop(delivery.stop);
        }
        if delivery.frames == 1 {
            return "arrived".into();
        }
    }
    "nothing in flight".into()
}

fn deliver(peer: &mut Peer, bytes: &[u8], piece: usize) -> String {
    for piece in bytes.chunks(piece) {
        let delivery = peer.deliver(piece);
        if delivery.stop.is_some() {
            return stop(delivery.stop);
        }
        assert_eq!(delivery.taken, piece.len());
    }
    "ok".into()
}

fn taken(take: Result<Take, Refusal>, buffer: &[u8]) -> String {
    match take {
        Ok(Take::Took(len)) => format!("took {}", unhex(&buffer[..len])),
        Ok(Take::Empty) => "empty".into(),
        Ok(Take::Ended) => "ended".into(),
        Err(refusal) => refused(refusal),
    }
}

// The waived guarantees, if the channel is finished.
fn waived(finished: bool, waived: u64) -> String {
    match (finished, waived) {
        (false, 0) => String::new(),
        _ => format!(" finished {} waived {waived}", u8::from(finished)),
    }
}

fn balances(peer: &Peer, word: &str, channel: Channel) -> String {
    if word == "client" {
        let book = peer.client(channel);
        let (send, receive) = (or_none(book.send_left), or_none(book.receive_left));
        return format!(
            "held {} send_left {send} receive_left {receive} asked {}{}",
            book.held,
            or_none(book.asked),
            waived(book.finished, book.waived)
        );
    }
    let book = peer.server(channel);
    let left = book
        .send_left
        .map_or(String::new(), |left| format!(" send_left {left}"));
    format!(
        "outstanding {} buffered {} room {}{left}{}",
        book.outstanding,
        book.buffered,
        book.room,
        waived(book.finished, book.waived)
    )
}

// Runs a call of the side `me`, given as words.
fn answer(me: &mut Side, other: &mut Side, words: &[&str], piece: usize) -> String {
    let number = |at: usize| {
        words
            .get(at)
            .and_then(|word| word.parse::<u64>().ok())
            .unwrap_or(0)
    };
    let peer = &mut me.peer;
    match words[0] {
        "arrive" => return arrive(me, other),
        "bytes" => return deliver(peer, &hex(words[1]), piece),
        "pending" => return peer.pending().to_string(),
        "end" => return stop(peer.end().err()),
        "error" => return wrong(peer.protocol_error()),
        "slots-left" => return peer.slots_left().to_string(),
        "wants-write" => return u8::from(peer.wants_write()).to_string(),
        "ready" => return ready(peer.ready()),
        "write" => {
            let mut buffer = vec![0; number(1) as usize];
            let count = peer.write(&mut buffer);
            return unhex(&buffer[..count]);
        }
        _ => {}
    }
    let Some(channel) = u8::try_from(number(1)).ok().and_then(Channel::from_number) else {
        return "no channel".into();
    };
    match words[0] {
        "send" => own(peer.send(channel, &hex(words[2]))),
        "send-zeros" => own(peer.send(channel, &vec![0; number(2) as usize])),
        "issue" => own(peer.issue(channel, number(2) as u32)),
        "absolve" => own(peer.absolve(channel, number(2) as u32)),
        "plead" => own(peer.plead(channel, number(2) as u32)),
        "limit-sending" => own(peer.limit_sending(channel, number(2))),
        "limit-receiving" => own(peer.limit_receiving(channel, number(2))),
        "finish" => own(peer.finish(channel)),
        "honour" => honoured(peer.honour(channel)),
        "would-send" => own(peer.would_send(channel, number(2) as usize)),
        "would-issue" => own(peer.would_issue(channel, number(2) as u32)),
        "would-absolve" => own(peer.would_absolve(channel, number(2) as u32)),
        "would-plead" => own(peer.would_plead(channel, number(2) as u32)),
        "would-limit-sending" => own(peer.would_limit_sending(channel, number(2))),
        "would-limit-receiving" => own(peer.would_limit_receiving(channel, number(2))),
        "would-finish" => own(peer.would_finish(channel)),
        "would-honour" => honoured(peer.would_honour(channel)),
        "needs" => needed(peer.needs(channel, number(2) as usize)),
        // A borrowed message, copied and dropped.
        "take" if words.len() == 2 && piece == 1 => match peer.take(channel) {
            Take::Took(message) => format!("took {}", unhex(&message)),
            Take::Empty => "empty".into(),
            Take::Ended => "ended".into(),
        },
        "take" => {
            let mut buffer = vec![
                0;
                if words.len() > 2 {
                    number(2) as usize
                } else {
                    1_048_576
                }
            ];
            let take = peer.take_into(channel, &mut buffer);
            taken(take, &buffer)
        }
        "front" => match peer.front_len(channel) {
            Some(len) => len.to_string(),
            None => taken(peer.take_into(channel, &mut []), &[]),
        },
        word => balances(peer, word, channel),
    }
}

// The size of every ring, the slots, and the version if it is not One.
fn side(words: &[&str]) -> Side {
    let mut config = Config::new(
        [words[0].parse().unwrap(); CHANNELS],
        words[1].parse().unwrap(),
    );
    if let Some(number) = words.get(2) {
        config.version = Version::from_number(number.parse().unwrap()).unwrap();
    }
    Side {
        peer: Peer::new(&config).unwrap(),
        wire: Vec::new(),
    }
}

fn run(name: &str, piece: usize) {
    let rows = shared(name);
    let mut sides: Option<(Side, Side)> = None;
    let mut answers = 0;
    for line in rows
        .lines()
        .filter(|line| !line.is_empty() && !line.starts_with('#'))
    {
        let (call, want) = line.split_once(" => ").unwrap_or((line, ""));
        let words: Vec<&str> = call.split(' ').collect();
        if words[0] == "rings" {
            sides = Some((side(&words[1..]), side(&words[1..])));
            continue;
        }
        let (a, b) = sides.as_mut().unwrap();
        let (me, other) = if words[0] == "A" { (a, b) } else { (b, a) };
        assert_eq!(
            answer(me, other, &words[1..], piece),
            want,
            "{name}: {line}"
        );
        answers += 1;
    }
    assert_eq!(answers, rows.matches(" => ").count());
}

#[test]
fn rows_whole() {
    run("rows.txt", usize::MAX);
}

#[test]
fn rows_a_byte_at_a_time() {
    run("rows.txt", 1);
}

#[test]
fn vectors_whole() {
    run("vectors.txt", usize::MAX);
}

#[test]
fn vectors_a_byte_at_a_time() {
    run("vectors.txt", 1);
}
