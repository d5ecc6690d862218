//! Random calls at two peers whose bytes are cut anywhere, beside a model of the rules.
use lcmux::{Channel, Config, Needs, Peer, Refusal, Take, Version, CHANNELS};
use std::collections::VecDeque;

const CAPACITY: u64 = 24;
const SLOTS: usize = 5;

#[derive(Clone, Debug)]
enum Frame {
    Send(Vec<u8>),
    Issue(u64),
    Absolve(u64),
    Plead(u32),
    LimitSending(u64),
    LimitReceiving(u64),
    Finish,
}

impl Frame {
    fn len(&self, version: Version) -> usize {
        match self {
            Frame::Send(body) if version == Version::One => 3 + body.len(),
            Frame::Send(body) => 5 + body.len(),
            Frame::Issue(_) | Frame::Absolve(_) | Frame::Plead(_) => 5,
            Frame::LimitSending(_) | Frame::LimitReceiving(_) => 9,
            Frame::Finish => 1,
        }
    }

    fn is_of_client(&self) -> bool {
        match self {
            Frame::Send(_) | Frame::Absolve(_) | Frame::LimitSending(_) | Frame::Finish => true,
            Frame::Issue(_) | Frame::Plead(_) | Frame::LimitReceiving(_) => false,
        }
    }
}

// A channel in one direction, as its sender and as its receiver know it.
#[derive(Clone, Default)]
struct Direction {
    held: u64,
    spent: u64,
    absolved: u64,
    waived: u64,
    send_left: Option<u64>,
    receive_left: Option<u64>,
    asked: Option<u32>,
    finished: bool,
    issued: u64,
    outstanding: u64,
    server_waived: u64,
    ring: VecDeque<Vec<u8>>,
    server_send_left: Option<u64>,
    server_receive_left: Option<u64>,
    server_finished: bool,
}

impl Direction {
    fn buffered(&self) -> u64 {
        self.ring.iter().map(|body| body.len() as u64).sum()
    }

    fn room(&self) -> u64 {
        CAPACITY - self.outstanding - self.buffered()
    }
}

// The rules: the effect of a local operation on its direction, or its refusal.
impl Direction {
    fn sent(&self, len: u64) -> Result<Direction, Refusal> {
        match self.send_left {
            _ if len == 0 => Err(Refusal::EmptyBody),
            Some(left) if len > left => Err(Refusal::PastSendLimit { left }),
            _ if len > self.held => Err(Refusal::NoGuarantee { held: self.held }),
            left => Ok(Direction {
                held: self.held - len,
                spent: self.spent + len,
                send_left: left.map(|left| left - len),
                ..self.clone()
            }),
        }
    }

    fn absolved(&self, n: u64) -> Result<Direction, Refusal> {
        match n {
            0 => Err(Refusal::ZeroAmount),
            n if n > self.held => Err(Refusal::NotHeld { held: self.held }),
            n => Ok(Direction {
                held: self.held - n,
                absolved: self.absolved + n,
                ..self.clone()
            }),
        }
    }

    fn issued(&self, n: u64) -> Result<Direction, Refusal> {
        match self.server_receive_left {
            _ if n == 0 => Err(Refusal::ZeroAmount),
            Some(left) if n > left => Err(Refusal::PastReceiveLimit { left }),
            _ if n > self.room() => Err(Refusal::NoRoom { room: self.room() }),
            left => Ok(Direction {
                issued: self.issued + n,
                outstanding: self.outstanding + n,
                server_receive_left: left.map(|left| left - n),
                ..self.clone()
            }),
        }
    }

    fn pleaded(&self, target: u32) -> Result<Direction, Refusal> {
        let outstanding = self.outstanding;
        match u64::from(target) < outstanding {
            true => Ok(self.clone()),
            false => Err(Refusal::NothingToAsk { outstanding }),
        }
    }

    fn finished(&self) -> Direction {
        Direction {
            held: 0,
            waived: self.held,
            asked: None,
            finished: true,
            ..self.clone()
        }
    }

    // The checks of every call, then the rules of this call.
    fn after(&self, frame: &Frame, version: Version) -> Result<Direction, Refusal> {
        let finished = match frame.is_of_client() {
            true => self.finished,
            false => self.server_finished,
        };
        match frame {
            Frame::Finish if version == Version::One => Err(Refusal::WrongVersion),
            _ if finished => Err(Refusal::ChannelFinished),
            Frame::Send(body) => self.sent(body.len() as u64),
            Frame::Absolve(n) => self.absolved(*n),
            Frame::Issue(n) => self.issued(*n),
            Frame::Plead(target) => self.pleaded(*target),
            Frame::LimitSending(bound) => Ok(Direction {
                send_left: Some(limited(self.send_left, *bound)?),
                ..self.clone()
            }),
            Frame::LimitReceiving(bound) => Ok(Direction {
                server_receive_left: Some(limited(self.server_receive_left, *bound)?),
                ..self.clone()
            }),
            Frame::Finish => Ok(self.finished()),
        }
    }
}

fn limited(left: Option<u64>, bound: u64) -> Result<u64, Refusal> {
    match left {
        Some(left) if bound > left => Err(Refusal::LimitRaised { left }),
        _ => Ok(bound),
    }
}

// The result of the would-call of a frame.
fn asked(peer: &Peer, channel: Channel, frame: &Frame) -> Result<(), Refusal> {
    match frame {
        Frame::Send(body) => peer.would_send(channel, body.len()),
        Frame::Issue(n) => peer.would_issue(channel, *n as u32),
        Frame::Absolve(n) => peer.would_absolve(channel, *n as u32),
        Frame::Plead(target) => peer.would_plead(channel, *target),
        Frame::LimitSending(bound) => peer.would_limit_sending(channel, *bound),
        Frame::LimitReceiving(bound) => peer.would_limit_receiving(channel, *bound),
        Frame::Finish => peer.would_finish(channel),
    }
}

// One side: the peer, and in the model the pending frames, the frame that is written in part, and the bytes on the
// wire. A preface is pending at the start.
struct Side {
    peer: Peer,
    version: Version,
    waiting: VecDeque<(usize, Frame)>,
    begun: usize,
    flying: VecDeque<(usize, Frame)>,
    wire: VecDeque<u8>,
    greeting: usize,
    arrived: usize,
}

struct Pair {
    sides: [Side; 2],
    // By the sender's side and the channel.
    ways: [[Direction; CHANNELS]; 2],
}

struct Random(u64);

impl Random {
    fn below(&mut self, n: u64) -> u64 {
        self.0 = self
            .0
            .wrapping_mul(6364136223846793005)
            .wrapping_add(1442695040888963407);
        (self.0 >> 33) % n
    }
}

fn new_side(version: Version) -> Side {
    let mut config = Config::new([CAPACITY as u32; CHANNELS], SLOTS as u32);
    config.version = version;
    let greeting = if version == Version::One { 0 } else { 4 };
    Side {
        peer: Peer::new(&config).unwrap(),
        version,
        waiting: VecDeque::new(),
        begun: greeting,
        flying: VecDeque::new(),
        wire: VecDeque::new(),
        greeting,
        arrived: 0,
    }
}

fn new_frame(random: &mut Random) -> Frame {
    let n = random.below(12);
    match random.below(9) {
        0..=2 => Frame::Send(vec![n as u8; n as usize]),
        3..=5 => Frame::Issue(n),
        6 => Frame::Absolve(n / 2),
        7 => Frame::Plead(n as u32),
        _ => match random.below(32) {
            0 | 1 => Frame::LimitSending(40 + n),
            2 | 3 => Frame::LimitReceiving(40 + n),
            4 => Frame::Finish,
            _ => Frame::Absolve(0),
        },
    }
}

impl Pair {
    // The refusal of the ledgers, by the table, then of the queue; else the frame is enqueued.
    fn expect(&mut self, me: usize, at: usize, frame: Frame) -> Result<(), Refusal> {
        let side = &mut self.sides[me];
        let way = match frame.is_of_client() {
            true => &mut self.ways[me][at],
            false => &mut self.ways[1 - me][at],
        };
        let next = way.after(&frame, side.version)?;
        if side.waiting.len() == SLOTS {
            return Err(Refusal::QueueFull);
        }
        *way = next;
        side.waiting.push_back((at, frame));
        Ok(())
    }

    fn call(&mut self, random: &mut Random, me: usize, at: usize) {
        let frame = new_frame(random);
        self.compare_needs(me, at, &frame);
        let (peer, channel) = (&mut self.sides[me].peer, Channel::ALL[at]);
        let would = asked(peer, channel, &frame);
        let answer = match &frame {
            Frame::Send(body) => peer.send(channel, body),
            Frame::Issue(n) => peer.issue(channel, *n as u32),
            Frame::Absolve(n) => peer.absolve(channel, *n as u32),
            Frame::Plead(target) => peer.plead(channel, *target),
            Frame::LimitSending(bound) => peer.limit_sending(channel, *bound),
            Frame::LimitReceiving(bound) => peer.limit_receiving(channel, *bound),
            Frame::Finish => peer.finish(channel),
        };
        let shown = format!("{frame:?}");
        assert_eq!(would, answer, "{shown}");
        assert_eq!(answer, self.expect(me, at, frame), "{shown}");
    }

    // What a message needs, by the result of a send.
    fn compare_needs(&self, me: usize, at: usize, frame: &Frame) {
        let Frame::Send(body) = frame else { return };
        let (side, way) = (&self.sides[me], &self.ways[me][at]);
        let len = body.len() as u64;
        let needs = match way.after(frame, side.version) {
            Ok(_) if side.waiting.len() == SLOTS => Needs::Slot,
            Ok(_) => Needs::Nothing,
            Err(Refusal::NoGuarantee { held }) => match way.receive_left {
                Some(left) if left < len - held => Needs::Never,
                _ => Needs::Guarantees(len - held),
            },
            Err(_) => Needs::Never,
        };
        assert_eq!(side.peer.needs(Channel::ALL[at], body.len()), needs);
    }

    fn honour(&mut self, me: usize, at: usize) {
        let would = self.sides[me].peer.would_honour(Channel::ALL[at]);
        let answer = self.sides[me].peer.honour(Channel::ALL[at]);
        assert_eq!(would, answer);
        let way = &mut self.ways[me][at];
        let due = way
            .asked
            .map_or(0, |target| way.held.saturating_sub(target.into()));
        if way.finished {
            assert_eq!(answer, Err(Refusal::ChannelFinished));
        } else if due == 0 {
            way.asked = None;
            assert_eq!(answer, Ok(None));
        } else if self.sides[me].waiting.len() == SLOTS {
            assert_eq!(answer, Err(Refusal::QueueFull));
        } else {
            way.asked = None;
            (way.held, way.absolved) = (way.held - due, way.absolved + due);
            self.sides[me].waiting.push_back((at, Frame::Absolve(due)));
            assert_eq!(answer, Ok(Some(due as u32)));
        }
    }

    fn write(&mut self, me: usize, room: usize) {
        let side = &mut self.sides[me];
        let mut buffer = vec![0; room];
        let count = side.peer.write(&mut buffer);
        side.wire.extend(&buffer[..count]);
        let mut left = room;
        loop {
            let given = left.min(side.begun);
            (left, side.begun) = (left - given, side.begun - given);
            if left == 0 {
                break;
            }
            let Some(next) = side.waiting.pop_front() else {
                break;
            };
            side.begun = next.1.len(side.version);
            side.flying.push_back(next);
        }
        assert_eq!(count, room - left);
    }

    // Delivers bytes of one side to the other.
    fn deliver(&mut self, me: usize, most: usize) {
        let other = &mut self.sides[1 - me];
        let count = most.min(other.wire.len());
        let piece: Vec<u8> = other.wire.drain(..count).collect();
        let greeted = count.min(other.greeting);
        other.greeting -= greeted;
        other.arrived += count - greeted;
        let mut whole = Vec::new();
        while let Some((_, frame)) = other
            .flying
            .front()
            .filter(|next| next.1.len(other.version) <= other.arrived)
        {
            other.arrived -= frame.len(other.version);
            whole.extend(other.flying.pop_front());
        }
        let delivery = self.sides[me].peer.deliver(&piece);
        assert_eq!((delivery.taken, delivery.stop), (count, None));
        assert_eq!(delivery.frames, whole.len() as u64);
        whole
            .into_iter()
            .for_each(|(at, frame)| self.arrive(me, at, frame));
    }

    fn arrive(&mut self, me: usize, at: usize, frame: Frame) {
        let (mine, theirs) = self.ways.split_at_mut(1);
        let (client, server) = match me {
            0 => (&mut mine[0][at], &mut theirs[0][at]),
            _ => (&mut theirs[0][at], &mut mine[0][at]),
        };
        match frame {
            Frame::Send(body) => {
                server.outstanding -= body.len() as u64;
                server.server_send_left =
                    server.server_send_left.map(|left| left - body.len() as u64);
                server.ring.push_back(body);
            }
            Frame::Issue(n) => {
                match client.finished {
                    true => client.waived += n,
                    false => client.held += n,
                }
                client.receive_left = client.receive_left.map(|left| left - n);
            }
            Frame::Absolve(n) => server.outstanding -= n,
            Frame::Plead(_) if client.finished => {}
            Frame::Plead(target) => client.asked = Some(target),
            Frame::LimitSending(bound) => server.server_send_left = Some(bound),
            Frame::LimitReceiving(bound) => client.receive_left = Some(bound),
            Frame::Finish => {
                (server.outstanding, server.server_waived) = (0, server.outstanding);
                server.server_finished = true;
            }
        }
    }

    fn pop(&mut self, me: usize, at: usize) {
        let answer = self.sides[me].peer.pop(Channel::ALL[at]);
        let way = &mut self.ways[1 - me][at];
        match way.ring.pop_front() {
            Some(body) => assert_eq!(answer, Take::Took(body.len())),
            None if way.server_finished || way.server_send_left == Some(0) => {
                assert_eq!(answer, Take::Ended);
            }
            None => assert_eq!(answer, Take::Empty),
        }
    }

    fn take(&mut self, me: usize, at: usize, room: usize) {
        let mut buffer = vec![0; room];
        let answer = self.sides[me].peer.take_into(Channel::ALL[at], &mut buffer);
        let way = &mut self.ways[1 - me][at];
        match way.ring.front() {
            Some(body) if body.len() > room => {
                assert_eq!(answer, Err(Refusal::BufferTooSmall { need: body.len() }));
            }
            Some(body) => {
                assert_eq!(answer, Ok(Take::Took(body.len())));
                assert_eq!(buffer[..body.len()], body[..]);
                way.ring.pop_front();
            }
            None if way.server_finished || way.server_send_left == Some(0) => {
                assert_eq!(answer, Ok(Take::Ended));
            }
            None => assert_eq!(answer, Ok(Take::Empty)),
        }
    }

    fn compare(&self, me: usize, at: usize) {
        let (side, channel) = (&self.sides[me], Channel::ALL[at]);
        let (book, way) = (side.peer.client(channel), &self.ways[me][at]);
        assert_eq!(
            (book.held, book.spent, book.absolved, book.waived),
            (way.held, way.spent, way.absolved, way.waived)
        );
        assert_eq!(
            book.received,
            way.held + way.spent + way.absolved + way.waived
        );
        assert_eq!(
            (book.send_left, book.receive_left, book.asked, book.finished),
            (way.send_left, way.receive_left, way.asked, way.finished)
        );
        let (book, way) = (side.peer.server(channel), &self.ways[1 - me][at]);
        assert_eq!(
            (book.outstanding, book.buffered, book.room),
            (way.outstanding, way.buffered(), way.room())
        );
        assert_eq!((book.issued, book.waived), (way.issued, way.server_waived));
        assert_eq!(
            (book.send_left, book.receive_left, book.finished),
            (
                way.server_send_left,
                way.server_receive_left,
                way.server_finished
            )
        );
        assert_eq!(side.peer.front_len(channel), way.ring.front().map(Vec::len));
        let front = side.peer.front(channel);
        assert_eq!(
            front.map(|(first, rest)| [first, rest].concat()),
            way.ring.front().cloned()
        );
        let waiting = side.waiting.iter().map(|next| next.1.len(side.version));
        assert_eq!(side.peer.pending(), side.begun + waiting.sum::<usize>());
        self.compare_ready(me);
    }

    fn compare_ready(&self, me: usize) {
        let side = &self.sides[me];
        assert_eq!(side.peer.slots_left(), SLOTS - side.waiting.len());
        let wants = side.begun > 0 || !side.waiting.is_empty();
        assert_eq!(side.peer.wants_write(), wants);
        for (at, ready) in side.peer.ready().into_iter().enumerate() {
            let (mine, theirs) = (&self.ways[me][at], &self.ways[1 - me][at]);
            let ended = theirs.server_finished || theirs.server_send_left == Some(0);
            assert_eq!(ready.message, !theirs.ring.is_empty());
            assert_eq!(ready.ended, theirs.ring.is_empty() && ended);
            assert_eq!(ready.plead, mine.asked.is_some());
            assert_eq!(ready.finished, mine.finished);
            assert_eq!(ready.finished_there, theirs.server_finished);
        }
    }

    // Once all bytes have arrived, both sides of a direction agree.
    fn settle(&mut self) {
        (0..2).for_each(|me| self.write(me, 1_000));
        (0..2).for_each(|me| self.deliver(me, usize::MAX));
        for (me, at) in (0..14).map(|k| (k % 2, k / 2)) {
            self.compare(me, at);
            let client = self.sides[me].peer.client(Channel::ALL[at]);
            let server = self.sides[1 - me].peer.server(Channel::ALL[at]);
            assert_eq!(
                (client.received, client.held, client.waived),
                (server.issued, server.outstanding, server.waived)
            );
            assert_eq!(client.finished, server.finished);
        }
    }
}

fn play(versions: [Version; 2], seed: u64) {
    let mut random = Random(seed);
    let mut pair = Pair {
        sides: versions.map(new_side),
        ways: Default::default(),
    };
    for _ in 0..3_000 {
        let (me, at) = (random.below(2) as usize, random.below(3) as usize * 3);
        match random.below(8) {
            0..=2 => pair.call(&mut random, me, at),
            3 => pair.honour(me, at),
            4 => pair.write(me, random.below(30) as usize),
            5 | 6 => pair.deliver(me, random.below(20) as usize),
            _ => match random.below(16) as usize {
                0 => pair.pop(me, at),
                room => pair.take(me, at, room),
            },
        }
        pair.compare(me, at);
    }
    pair.settle();
}

#[test]
fn random_calls_in_version_one_answer_as_the_rules_say() {
    (0..40).for_each(|seed| play([Version::One, Version::One], seed));
}

#[test]
fn random_calls_in_version_two_answer_as_the_rules_say() {
    (0..40).for_each(|seed| play([Version::Two, Version::Two], seed));
}

#[test]
fn random_calls_in_both_versions_answer_as_the_rules_say() {
    (0..40).for_each(|seed| play([Version::One, Version::Two], seed));
}
