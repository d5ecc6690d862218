//! The table "What each call answers" of `docs/reference/sessions.md`, cell by cell, over TCP with a driver's task.
use crate::call::Call;
use crate::end::End;
use crate::page::{column, ended, panic_with, Begun};
use crate::page::{ABORTED, CLOSED, ENDED, FAILED, OPEN, OVER};
use crate::*;
use lcmux_tokio::lcmux::{IssuePolicy, PollSender, Receiver, Sender, TrySendError};
use std::time::Duration;
use tokio::io::AsyncWriteExt;

/// How a session gets into a state.
#[derive(Clone, Copy, Debug, PartialEq)]
enum Way {
    Open,
    Close,
    PeerEnds,
    Over,
    Peer(End),
    Abort,
    AbortRun,
    DropRuntime,
    PanicOfSender,
    PanicOfClone,
    PanicOfPollSender,
    PanicOfReceiver,
    TaskWithReceiver,
}

const ORDERLY: [Way; 4] = [Way::Open, Way::Close, Way::PeerEnds, Way::Over];

/// The ways that lead to the same state before and after this side's close.
const FAILURES: [Way; 12] = [
    Way::Peer(End::BetweenFrames),
    Way::Peer(End::InAFrame),
    Way::Peer(End::Reset),
    Way::Peer(End::AgainstTheRules),
    Way::Abort,
    Way::AbortRun,
    Way::DropRuntime,
    Way::PanicOfSender,
    Way::PanicOfClone,
    Way::PanicOfPollSender,
    Way::PanicOfReceiver,
    Way::TaskWithReceiver,
];

impl Way {
    fn column(self) -> &'static str {
        match self {
            Way::Open => OPEN,
            Way::Close => CLOSED,
            Way::PeerEnds => ENDED,
            Way::Over => OVER,
            Way::Peer(_) => FAILED,
            _ => ABORTED,
        }
    }
}

/// A session whose driver is a task of a runtime of its own, the peer's end of its stream, and the handles of a channel
/// that no call uses.
struct Side {
    mux: Mux,
    run: Run,
    runtime: Option<Runtime>,
    there: TcpStream,
    spare: Option<(Sender, Receiver)>,
}

impl Side {
    async fn new() -> Side {
        let (here, there) = tcp_pair().await;
        let mut config = rings(64);
        config.issue = [IssuePolicy::ByCaller; CHANNELS];
        let runtime = multi_thread();
        let (mux, run) = {
            let _inside = runtime.enter();
            connect(here, config).unwrap()
        };
        Side {
            mux,
            run,
            runtime: Some(runtime),
            there,
            spare: None,
        }
    }

    async fn enter(&mut self, way: Way) {
        match way {
            Way::Open => {}
            Way::Close => self.mux.close(),
            Way::PeerEnds => self.peer_ends().await,
            Way::Over => {
                self.mux.close();
                self.peer_ends().await;
            }
            Way::Peer(end) => self.fail(end).await,
            Way::Abort => self.mux.abort(),
            Way::AbortRun => self.run.abort(),
            Way::DropRuntime => self.runtime.take().unwrap().shutdown_background(),
            Way::PanicOfSender => panic_with(self.spare.take().unwrap().0),
            Way::PanicOfClone => panic_with(self.spare.as_ref().unwrap().0.clone()),
            Way::PanicOfPollSender => panic_with(PollSender::new(self.spare.take().unwrap().0)),
            Way::PanicOfReceiver => panic_with(self.spare.take().unwrap().1),
            Way::TaskWithReceiver => self.panic_in_a_task().await,
        }
    }

    // Channel 2 is finished first.
    async fn peer_ends(&mut self) {
        self.there
            .write_all(b"\x70\x71\x73\x74\x75\x76")
            .await
            .unwrap();
        self.there.shutdown().await.unwrap();
    }

    async fn fail(&mut self, end: End) {
        self.there.write_all(end.last_bytes()).await.unwrap();
        match end {
            End::Reset => {
                self.there.set_linger(Some(Duration::ZERO)).unwrap();
                self.there = tcp_pair().await.0;
            }
            _ => self.there.shutdown().await.unwrap(),
        }
    }

    async fn panic_in_a_task(&mut self) {
        let handles = self.spare.take();
        let task = tokio::spawn(async move {
            let _handles = handles;
            tokio::task::yield_now().await;
            std::panic::resume_unwind(Box::new("a task panics"));
        });
        assert!(task.await.unwrap_err().is_panic());
    }

    // What the driver's task answers. A task that was aborted answers nothing.
    async fn driven(self) -> Option<Result<(), Closed>> {
        match self.run.is_finished() || self.mux.closed_timeout(Duration::ZERO).is_some() {
            true => self.run.await.ok(),
            false => None,
        }
    }
}

async fn until(mut is_so: impl FnMut() -> bool) {
    while !is_so() {
        tokio::time::sleep(Duration::from_millis(1)).await;
    }
}

async fn answers_as_the_page_says(way: Way, is_closed_before: bool) {
    let what = format!("{way:?}, closed before: {is_closed_before}");
    let mut side = Side::new().await;
    let all = Channel::ALL;
    let mut senders = Vec::from(all.map(|it| side.mux.take_sender(it).unwrap()));
    let mut receivers = Vec::from(all.map(|it| side.mux.take_receiver(it).unwrap()));
    receivers.iter().for_each(|it| it.issue(9).unwrap());
    let first = b"\x20\0\0\0\x09\x21\0\0\0\x09\x11\0\0\0\x02hi\x72";
    let bytes = [&GREETING[..], first].concat();
    side.there.write_all(&bytes).await.unwrap();
    until(|| Call::new(receivers[2].recv()).poll().is_some()).await;
    side.spare = senders.pop().zip(receivers.pop());
    let begun = Begun::new(&senders);
    if is_closed_before {
        side.mux.close();
    }
    side.enter(way).await;
    let reason = match way {
        Way::Open | Way::Close => Closed::Local,
        Way::PeerEnds => {
            until(|| Call::new(receivers[5].recv()).poll().is_some()).await;
            // The end of the stream is read later than the last frame. From then on a call without guarantees fails.
            until(|| matches!(senders[5].try_send(b"hi"), Err(TrySendError::Failed(_)))).await;
            Closed::Local
        }
        _ => side.mux.closed().await.err().unwrap_or(Closed::Local),
    };
    if let Way::Peer(end) = way {
        assert!(end.is_reason(&reason), "{what}: {reason:?}");
    }
    let answers = begun.answers(&side.mux, &mut receivers, &reason);
    for ((call, cell), answer) in column(way.column()).iter().zip(&answers) {
        assert_eq!(answer, cell, "{call}, {what}");
    }
    let is_aborted = [Way::AbortRun, Way::DropRuntime].contains(&way);
    let runtime = side.runtime.take();
    let driven = side.driven().await;
    if !is_aborted {
        assert_eq!(Some(&ended(driven, &reason)), answers.last(), "{what}");
    }
    drop((senders, receivers));
    runtime.into_iter().for_each(Runtime::shutdown_background);
}

#[test]
fn each_call_answers_as_the_page_says() {
    let orderly = ORDERLY.map(|way| (way, false));
    let failures = FAILURES.map(|way| [(way, false), (way, true)]);
    for (way, is_closed_before) in orderly.into_iter().chain(failures.into_iter().flatten()) {
        let _watchdog = Watchdog::new(format!("{way:?}"));
        current_thread().block_on(answers_as_the_page_says(way, is_closed_before));
    }
}
