//! What a subscriber is told of a session.
use crate::{connect, run};
use lcmux::{Channel::Data, Closed, Config, Mux};
use std::fmt::Debug;
use std::future::Future;
use std::sync::{Arc, Mutex};
use std::time::Duration;
use tokio::io::DuplexStream;
use tokio::time::timeout;
use tracing::field::{Field, Visit};
use tracing::span::{Attributes, Id, Record};
use tracing::{Event, Metadata, Subscriber};

/// The spans by their names, those that are entered, and a line for each event.
#[derive(Default)]
struct Told {
    spans: Vec<String>,
    entered: Vec<Id>,
    lines: Vec<String>,
}

#[derive(Clone, Default)]
struct Tells(Arc<Mutex<Told>>);

impl Tells {
    /// The lines with this text, which are one or more.
    fn with(&self, text: &str) -> Vec<String> {
        let told = self.0.lock().unwrap();
        let lines = told.lines.iter().filter(|line| line.contains(text));
        let lines: Vec<_> = lines.cloned().collect();
        assert!(!lines.is_empty(), "{text}: {:#?}", told.lines);
        lines
    }
}

struct Line(String);

impl Visit for Line {
    fn record_debug(&mut self, field: &Field, value: &dyn Debug) {
        self.0 += &format!(" {field}={value:?}");
    }
}

impl Subscriber for Tells {
    fn enabled(&self, metadata: &Metadata<'_>) -> bool {
        metadata.target() == "lcmux" || metadata.name() == "outer"
    }

    fn new_span(&self, span: &Attributes<'_>) -> Id {
        let mut told = self.0.lock().unwrap();
        let above = told.entered.last().filter(|_| span.is_contextual());
        let above = above.map(|id| told.spans[id.into_u64() as usize - 1].clone());
        let name = [above.as_deref().unwrap_or("root"), span.metadata().name()];
        told.spans.push(name.join("/"));
        Id::from_u64(told.spans.len() as u64)
    }

    fn record(&self, _: &Id, _: &Record<'_>) {}

    fn record_follows_from(&self, _: &Id, _: &Id) {}

    fn event(&self, event: &Event<'_>) {
        let mut line = Line(String::new());
        event.record(&mut line);
        let mut told = self.0.lock().unwrap();
        let span = event.parent().expect("each event has its session's span");
        let span = told.spans[span.into_u64() as usize - 1].clone();
        let level = event.metadata().level();
        told.lines.push(format!("{level} {span}{}", line.0));
    }

    fn enter(&self, span: &Id) {
        self.0.lock().unwrap().entered.push(span.clone());
    }

    fn exit(&self, _: &Id) {
        self.0.lock().unwrap().entered.pop();
    }
}

/// Runs a test on one thread, below a span, and returns what was told.
fn told<T: Future<Output = ()>>(test: impl FnOnce(DuplexStream, DuplexStream) -> T) -> Tells {
    let told = Tells::default();
    tracing::subscriber::with_default(told.clone(), || {
        let outer = tracing::info_span!("outer");
        let mut builder = tokio::runtime::Builder::new_current_thread();
        let runtime = builder.enable_time().start_paused(true).build().unwrap();
        runtime.block_on(async {
            let (here, there) = tokio::io::duplex(64);
            let test = outer.in_scope(|| test(here, there));
            timeout(Duration::from_secs(60), test).await.unwrap();
        });
    });
    told
}

fn config() -> Config {
    Config::new([8; lcmux::CHANNELS], 16)
}

#[test]
fn frames_stalls_and_the_end_are_told_in_the_span_of_the_session() {
    let told = told(|here, there| {
        let (mut alice, run_here) = connect(here, config()).unwrap();
        let (mut bob, driver) = Mux::new(config()).unwrap();
        let run_there = tokio::spawn(run(driver, there));
        async move {
            let sender = alice.take_sender(Data).unwrap();
            let mut receiver = bob.take_receiver(Data).unwrap();
            sender.send(b"hello").await.unwrap();
            assert_eq!(receiver.recv().await, Ok(Some(b"hello".to_vec())));
            alice.close();
            bob.close();
            assert_eq!(run_here.await.unwrap(), Ok(()));
            assert_eq!(run_there.await.unwrap(), Ok(()));
        }
    });
    let frame = |is_inbound| {
        let frame = "kind=Send channel=Data number=5 size=8";
        format!("message=frame is_inbound={is_inbound} {frame}")
    };
    // The span of `connect` is below that of its caller, and that of `run` below that in which it is polled first.
    let sent = format!("TRACE root/outer/session {}", frame(false));
    assert_eq!(told.with(&frame(false)), [sent]);
    let received = format!("TRACE root/session {}", frame(true));
    assert_eq!(told.with(&frame(true)), [received]);
    let waits = "DEBUG root/outer/session message=a send waits channel=Data stall=Guarantees";
    assert_eq!(told.with("a send waits"), [waits]);
    let waited = told.with("the send waited channel=Data stall=Guarantees waited=");
    assert_eq!(waited.len(), 1);
    let end = "session message=the session ended in order";
    let ends = told.with(end);
    assert_eq!(ends.len(), 2);
    assert!(ends.contains(&format!("INFO root/outer/{end}")), "{ends:?}");
}

#[test]
fn a_message_longer_than_the_ring_and_a_failure_are_warnings() {
    let told = told(|here, there| {
        let (mut alice, run) = connect(here, config()).unwrap();
        let (bob, _) = connect(there, config()).unwrap();
        async move {
            let _open = bob;
            let sender = alice.take_sender(Data).unwrap();
            let sent = timeout(Duration::from_millis(100), sender.send(b"too large"));
            assert!(sent.await.is_err());
            alice.abort();
            assert_eq!(run.await.unwrap(), Err(Closed::Aborted));
        }
    });
    let oversized = "WARN root/outer/session message=a send waits for more guarantees than the peer ever issued at once channel=Data len=9 most_held=8";
    assert_eq!(told.with("than the peer ever issued"), [oversized]);
    let failed = "WARN root/outer/session message=the session failed error=the session was aborted";
    assert_eq!(told.with("aborted"), [failed]);
}

#[test]
fn a_session_that_fails_before_it_runs_is_told_too() {
    let told = told(|here, _| {
        let (mux, driver) = Mux::new(config()).unwrap();
        mux.abort();
        async move { assert_eq!(run(driver, here).await, Err(Closed::Aborted)) }
    });
    let failed = "WARN root/session message=the session failed error=the session was aborted";
    assert_eq!(told.with("aborted"), [failed]);
}
