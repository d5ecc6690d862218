//! The table "What each call answers" of `docs/reference/sessions.md`, cell by cell, also for each way into a state.
use crate::hand::{broken, Feed, Hand};
use crate::page::{column, ended, panic_with, Begun};
use crate::page::{ABORTED, CLOSED, ENDED, FAILED, OPEN, OVER};
use crate::*;
use lcmux::Channel::{Capability, Data, Overlap};
use lcmux::{Closed, PollSender, Receiver, Sender};
use std::io::{self, ErrorKind};
use std::task::{Context, Poll};

/// How a session gets into a state, the state's column, and the reason that its cells mention.
struct State {
    column: &'static str,
    enter: fn(&mut Side),
    reason: Closed,
}

/// A session, the handles of a channel that no call uses, and whether its driver is still there.
struct Side {
    hand: Hand,
    spare: Option<(Sender, Receiver)>,
    has_driver: bool,
}

impl Side {
    fn sender(&mut self) -> Sender {
        self.spare.take().unwrap().0
    }

    fn drop_driver(&mut self) {
        self.hand.driver = Mux::new(by_caller(64)).unwrap().1;
        self.has_driver = false;
    }

    // What the driver answers: an error of either half, or success once both are done.
    fn driven(&mut self) -> Option<Result<(), Closed>> {
        let (read, written) = (
            self.hand.read(&mut Feed(b"")),
            self.hand.write(&mut Vec::new()),
        );
        match (read, written) {
            (Poll::Ready(Err(closed)), _) | (_, Poll::Ready(Err(closed))) => Some(Err(closed)),
            (Poll::Ready(Ok(())), Poll::Ready(Ok(()))) => Some(Ok(())),
            _ => None,
        }
    }
}

struct Reset;

impl lcmux::PollRead for Reset {
    fn poll_read(&mut self, _: &mut Context<'_>, _: &mut [u8]) -> Poll<io::Result<usize>> {
        Poll::Ready(Err(ErrorKind::ConnectionReset.into()))
    }
}

// Overlap is finished first.
fn end_in_order(side: &mut Side) {
    let others = frames("finish 0, finish 1, finish 3, finish 4, finish 5, finish 6");
    assert!(side.hand.read(&mut &others[..]).is_ready());
}

fn close(side: &mut Side) {
    side.hand.mux.close();
    assert!(side.hand.write(&mut Vec::new()).is_ready());
}

fn cut(side: &mut Side) {
    assert!(side.hand.read(&mut &[][..]).is_ready());
}

fn reset(side: &mut Side) {
    assert!(side.hand.read(&mut Reset).is_ready());
}

fn cut_a_frame(side: &mut Side) {
    assert!(side.hand.read(&mut &b"\x11\0"[..]).is_ready());
}

fn break_a_rule(side: &mut Side) {
    assert!(side.hand.read(&mut &frames("absolve 0 99")[..]).is_ready());
}

/// The states that a session reaches alike before and after its own close.
fn failures() -> Vec<State> {
    let failed = |enter, reason| State {
        column: FAILED,
        enter,
        reason,
    };
    let aborted = |enter| State {
        column: ABORTED,
        enter,
        reason: Closed::Aborted,
    };
    let reset_by_peer = io::Error::from(ErrorKind::ConnectionReset).into();
    vec![
        failed(cut, Closed::Cut),
        failed(reset, reset_by_peer),
        failed(cut_a_frame, broken(b"\x11\0")),
        failed(break_a_rule, broken(&frames("absolve 0 99"))),
        aborted(|side| side.hand.mux.abort()),
        aborted(Side::drop_driver),
        aborted(|side| panic_with(side.sender())),
        aborted(|side| panic_with(side.sender().clone())),
        aborted(|side| panic_with(PollSender::new(side.sender()))),
        aborted(|side| panic_with(side.spare.take().unwrap().1)),
    ]
}

fn orderly() -> [State; 4] {
    let state = |column, enter| State {
        column,
        enter,
        reason: Closed::Local,
    };
    [
        state(OPEN, |_| {}),
        state(CLOSED, |side| side.hand.mux.close()),
        state(ENDED, end_in_order),
        state(OVER, |side| {
            close(side);
            end_in_order(side);
        }),
    ]
}

fn assert_answers(state: &State, is_closed_before: bool) {
    let mut hand = Hand::started(by_caller(64));
    let mut senders = Vec::from(ALL.map(|it| hand.mux.take_sender(it).unwrap()));
    let mut receivers = Vec::from(ALL.map(|it| hand.mux.take_receiver(it).unwrap()));
    receivers.iter().for_each(|it| it.issue(9).unwrap());
    hand.written();
    // Data has a message, Overlap is finished and empty, Capability is neither.
    hand.feed(&greeted("issue 0 9, issue 1 9, send 1 6869, finish 2"));
    let spare = senders.pop().zip(receivers.pop());
    let begun = Begun::new(&senders);
    let mut side = Side {
        hand,
        spare,
        has_driver: true,
    };
    if is_closed_before {
        close(&mut side);
    }
    (state.enter)(&mut side);
    let what = format!("{}, {}, {is_closed_before}", state.column, state.reason);
    let answers = begun.answers(&side.hand.mux, &mut receivers, &state.reason);
    let cells = column(state.column);
    for ((call, cell), answer) in cells.iter().zip(&answers) {
        assert_eq!(answer, cell, "{call} in {what}");
    }
    if side.has_driver {
        let driven = ended(side.driven(), &state.reason);
        assert_eq!(Some(&driven), answers.last(), "the driver in {what}");
    }
}

#[test]
fn each_call_answers_as_the_page_says() {
    for state in orderly() {
        assert_answers(&state, false);
    }
    for state in failures() {
        assert_answers(&state, false);
        assert_answers(&state, true);
    }
    assert_eq!([Data, Overlap, Capability].map(|it| it.number()), [1, 2, 3]);
}
