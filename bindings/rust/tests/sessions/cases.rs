//! The cases of `bindings/schedules.txt`: calls of one session, and what each lets happen by the rules of sessions.
use crate::common::shared;
use crate::hand::Hand;
use crate::*;
use lcmux::{CallError, Closed, PollWrite, Receiver, SendError, Sender, TryRecvError};
use std::collections::{BTreeMap, VecDeque};
use std::future::Future;
use std::pin::Pin;
use std::sync::{Arc, Mutex};
use std::task::{Context, Poll, Wake, Waker};
use std::{fmt, io, mem};

/// A transport that takes one chunk when it is told to, and none otherwise.
#[derive(Default)]
struct Gate {
    is_open: bool,
    taken: Option<Vec<u8>>,
    is_closed: bool,
}

impl PollWrite for Gate {
    fn poll_write(&mut self, _: &mut Context<'_>, bytes: &[u8]) -> Poll<io::Result<usize>> {
        if !mem::take(&mut self.is_open) {
            return Poll::Pending;
        }
        self.taken = Some(bytes.to_vec());
        Poll::Ready(Ok(bytes.len()))
    }

    fn poll_flush(&mut self, _: &mut Context<'_>) -> Poll<io::Result<()>> {
        Poll::Ready(Ok(()))
    }

    fn poll_close(&mut self, _: &mut Context<'_>) -> Poll<io::Result<()>> {
        self.is_closed = true;
        Poll::Ready(Ok(()))
    }
}

/// Records that a call was woken, in the order of the wake-ups of all calls.
struct Woken {
    ticket: usize,
    log: Arc<Mutex<VecDeque<usize>>>,
}

impl Wake for Woken {
    fn wake(self: Arc<Woken>) {
        self.log.lock().unwrap().push_back(self.ticket);
    }
}

type Sending = Pin<Box<dyn Future<Output = Result<(), SendError>>>>;

/// A session whose woken calls are polled at once, in the order in which they were woken.
struct Session {
    hand: Hand,
    gate: Gate,
    version: Version,
    senders: Vec<Arc<Sender>>,
    receivers: Vec<Receiver>,
    calls: BTreeMap<usize, Sending>,
    tickets: usize,
    log: Arc<Mutex<VecDeque<usize>>>,
    /// The calls that were completed, in this order, and those that failed.
    done: Vec<usize>,
    failed: BTreeMap<usize, String>,
}

fn failed(error: &SendError) -> String {
    match error {
        SendError::Refused(refusal) => format!("refused {}", refusal.number()),
        SendError::Closed(closed) => ended(closed).into(),
        other => panic!("{other}"),
    }
}

fn ended(closed: &Closed) -> &'static str {
    match closed {
        Closed::Local => "closed",
        Closed::Cut => "cut",
        Closed::Aborted => "aborted",
        other => panic!("{other}"),
    }
}

fn answer(answer: Result<(), CallError>) -> String {
    match answer {
        Ok(()) => "ok".into(),
        Err(CallError::Refused(refusal)) => format!("refused {}", refusal.number()),
        Err(CallError::Closed(closed)) => ended(&closed).into(),
        Err(other) => panic!("{other}"),
    }
}

impl Session {
    /// `version 1 slots 14`, and `issues` if freed room is issued by itself.
    fn new(words: &[&str]) -> Session {
        let mut config = Config::new([200; CHANNELS], words[3].parse().unwrap());
        config.version = match words[1] {
            "1" => Version::One,
            _ => Version::Two,
        };
        if !words.contains(&"issues") {
            config.issue = [IssuePolicy::ByCaller; CHANNELS];
        }
        let version = config.version;
        let mut hand = Hand::new(config);
        let senders = ALL.map(|it| Arc::new(hand.mux.take_sender(it).unwrap()));
        let receivers = ALL.map(|it| hand.mux.take_receiver(it).unwrap());
        let mut session = Session {
            hand,
            gate: Gate::default(),
            version,
            senders: senders.into(),
            receivers: receivers.into(),
            calls: BTreeMap::new(),
            tickets: 0,
            log: Arc::default(),
            done: Vec::new(),
            failed: BTreeMap::new(),
        };
        if version == Version::Two {
            session.hand.feed(GREETING);
        }
        session.go_on();
        session
    }

    // Polls the woken calls, and then the driver, until nothing is left to do.
    fn go_on(&mut self) {
        loop {
            let woken = self.log.lock().unwrap().pop_front();
            if let Some(ticket) = woken {
                self.poll(ticket);
                continue;
            }
            let _ = self.hand.write(&mut self.gate);
            if self.log.lock().unwrap().is_empty() {
                return;
            }
        }
    }

    fn poll(&mut self, ticket: usize) {
        match self.poll_call(ticket) {
            Some(Ok(())) => self.done.push(ticket),
            Some(Err(error)) => drop(self.failed.insert(ticket, failed(&error))),
            None => {}
        }
    }

    fn poll_call(&mut self, ticket: usize) -> Option<Result<(), SendError>> {
        let log = Arc::clone(&self.log);
        let waker = Waker::from(Arc::new(Woken { ticket, log }));
        let call = self.calls.get_mut(&ticket)?;
        let polled = call.as_mut().poll(&mut Context::from_waker(&waker));
        let Poll::Ready(sent) = polled else {
            return None;
        };
        self.calls.remove(&ticket);
        Some(sent)
    }

    fn send(&mut self, channel: usize, len: usize) -> String {
        self.tickets += 1;
        let sender = Arc::clone(&self.senders[channel]);
        let call = async move { sender.send(&vec![7; len]).await };
        self.calls.insert(self.tickets, Box::pin(call));
        match self.poll_call(self.tickets) {
            Some(Ok(())) => "sent".into(),
            Some(Err(error)) => failed(&error),
            None => "waits".into(),
        }
    }

    fn take(&mut self, channel: usize) -> String {
        match self.receivers[channel].try_recv() {
            Ok(Some(message)) => format!("took {}", message.len()),
            Err(TryRecvError::Empty) => "nothing".into(),
            other => panic!("{other:?}"),
        }
    }

    fn step(&mut self) -> String {
        self.gate.is_open = true;
        self.go_on();
        self.gate.is_open = false;
        let Some(bytes) = self.gate.taken.take() else {
            return "nothing".into();
        };
        match shown(bytes.strip_prefix(GREETING).unwrap_or(&bytes), self.version) {
            frames if frames.is_empty() => "preface".into(),
            frames => frames,
        }
    }

    // A message arrives, of a peer that writes the same version.
    fn arrive(&mut self, channel: usize, len: usize) {
        let tag = [0x10 + channel as u8];
        let size = (len as u32).to_be_bytes();
        let size = if self.version == Version::One {
            &size[2..]
        } else {
            &size
        };
        self.hand.feed(&[&tag, size, &vec![7; len]].concat());
    }

    fn perform(&mut self, word: &str, numbers: &[u64]) -> String {
        let channel = numbers.first().map_or(0, |number| *number as usize);
        let number = numbers.last().copied().unwrap_or(0);
        match word {
            "send" => return self.send(channel, number as usize),
            "step" => return self.step(),
            "take" => return self.take(channel),
            "cancel" => {
                let call = self.calls.remove(&channel);
                return call.map_or("nothing", |_| "cancelled").into();
            }
            "issue" => return answer(self.receivers[channel].issue(number as u32)),
            "limit" => return answer(self.senders[channel].limit(number)),
            "absolve" => return answer(self.senders[channel].absolve(number as u32)),
            "finish" => return answer(self.senders[channel].finish()),
            "grant" => self
                .hand
                .feed(&frames(&format!("issue {channel} {number}"))),
            "arrive" => self.arrive(channel, number as usize),
            "close" => self.hand.mux.close(),
            "abort" => self.hand.mux.abort(),
            "cut" => drop(self.hand.read(&mut &[][..])),
            _ => panic!("{word}"),
        }
        "ok".into()
    }

    fn answer(&mut self, line: &str) -> String {
        let words: Vec<_> = line.split(' ').collect();
        let numbers: Vec<_> = words[1..].iter().map(|it| it.parse().unwrap()).collect();
        let was_closed = self.gate.is_closed;
        let said = self.perform(words[0], &numbers);
        self.go_on();
        let done = self.done.drain(..).map(|ticket| format!("done {ticket}"));
        let failed = mem::take(&mut self.failed).into_iter();
        let failed = failed.map(|(ticket, why)| format!("{why} {ticket}"));
        let end = (self.gate.is_closed && !was_closed).then(|| "end".into());
        let all = [said].into_iter().chain(done).chain(failed).chain(end);
        all.collect::<Vec<_>>().join("; ")
    }
}

/// The frames of outbound bytes, by their kinds, channels and numbers.
fn shown(mut bytes: &[u8], version: Version) -> String {
    let mut frames = Vec::new();
    while let [tag, rest @ ..] = bytes {
        let (name, size) = match (tag >> 4, version) {
            (1, Version::One) => ("send", 2),
            (1, Version::Two) => ("send", 4),
            (2, _) => ("issue", 4),
            (3, _) => ("absolve", 4),
            (5, _) => ("limit-sending", 8),
            (7, _) => ("finish", 0),
            other => panic!("{other:?}"),
        };
        let (number, rest) = rest.split_at(size);
        let number = number
            .iter()
            .fold(0, |sum, byte| 256 * sum + usize::from(*byte));
        frames.push(match name {
            "finish" => format!("finish {}", tag & 15),
            _ => format!("{name} {} {number}", tag & 15),
        });
        bytes = &rest[if name == "send" { number } else { 0 }..];
    }
    frames.join(", ")
}

struct Wrong<'a> {
    number: usize,
    line: &'a str,
    answer: String,
}

impl fmt::Display for Wrong<'_> {
    fn fmt(&self, f: &mut fmt::Formatter<'_>) -> fmt::Result {
        write!(
            f,
            "line {}: {}, and not {}",
            self.number, self.line, self.answer
        )
    }
}

/// The number of answers, and the first wrong one of each case.
fn run(text: &str) -> (usize, Vec<Wrong<'_>>) {
    let (mut session, mut answers, mut wrong) = (None, 0, Vec::new());
    for (number, line) in (1..).zip(text.lines()) {
        let words: Vec<_> = line.split(' ').collect();
        if words[0] == "session" {
            session = Some(Session::new(&words[1..]));
        }
        let (Some((call, due)), Some(of_case)) = (line.split_once(" => "), &mut session) else {
            continue;
        };
        answers += 1;
        let answer = of_case.answer(call);
        if answer != due {
            wrong.push(Wrong {
                number,
                line,
                answer,
            });
            session = None;
        }
    }
    (answers, wrong)
}

#[test]
fn each_schedule_is_answered_by_the_rules() {
    let text = shared("schedules.txt");
    let (answers, wrong) = run(&text);
    let wrong: Vec<_> = wrong.iter().map(Wrong::to_string).collect();
    assert!(wrong.is_empty(), "{}", wrong.join("\n"));
    assert_eq!(answers, text.matches(" => ").count());
}

#[test]
fn a_wrong_answer_is_seen() {
    let text = shared("schedules.txt");
    for (at, _) in text.match_indices("; done ").step_by(50) {
        let planted = [&text[..at], "; done 9", &text[at + 7..]].concat();
        assert_eq!(run(&planted).1.len(), 1);
    }
}
