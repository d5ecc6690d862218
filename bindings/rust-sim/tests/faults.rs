//! Each kind of fault is drawn by some seeds, and does what it is documented to do.
mod common;

use common::{config, talked};
use lcmux_sim::{Entry, Event, Fault, Faults, Kind, Run, Side, Sim, Stream};
use lcmux_tokio::lcmux::{Channel, Mux, PollRead, Refusal, TrySendError, Version};
use std::cell::RefCell;
use std::future::poll_fn;
use std::io::{self, ErrorKind};
use std::panic::{self, AssertUnwindSafe};
use std::rc::Rc;
use std::task::{Context, Poll};
use std::time::Duration;
use tokio::io::{AsyncReadExt, AsyncWriteExt};
use tokio::time::{sleep, timeout, Instant};

const BYTES: u64 = 100;

/// What a side of raw bytes did: how many it wrote, and what it read, each up to its end.
#[derive(Debug, PartialEq)]
struct Moved {
    written: (u64, Option<ErrorKind>),
    read: (u64, Option<ErrorKind>),
}

async fn write_all(mut half: impl AsyncWriteExt + Unpin) -> (u64, Option<ErrorKind>) {
    for written in 0..BYTES {
        if let Err(error) = half.write_all(&[7]).await {
            return (written, Some(error.kind()));
        }
        sleep(Duration::from_millis(1)).await;
    }
    (BYTES, half.shutdown().await.err().map(|error| error.kind()))
}

/// A reader that gives up after an hour without a byte.
async fn read_all(mut half: impl AsyncReadExt + Unpin) -> (u64, Option<ErrorKind>) {
    let mut read = 0;
    loop {
        let mut bytes = [0; 16];
        match timeout(Duration::from_secs(1_800), half.read(&mut bytes)).await {
            Ok(Ok(0)) => return (read, None),
            Ok(Ok(count)) => read += count as u64,
            Ok(Err(error)) => return (read, Some(error.kind())),
            Err(_) => return (read, Some(ErrorKind::TimedOut)),
        }
    }
}

async fn both(stream: Stream) -> Moved {
    let (reader, writer) = tokio::io::split(stream);
    let (read, written) = tokio::join!(read_all(reader), write_all(writer));
    Moved { written, read }
}

fn raw(seed: u64, faults: Faults) -> Run<Moved, Moved> {
    Sim::new(seed, faults).run(both, both)
}

/// The runs of raw bytes in which a fault of this kind struck, on an otherwise perfect link: the fault, the side to which
/// it happened, and the other one.
fn struck(kind: Kind) -> Vec<(Fault, Option<Moved>, Option<Moved>)> {
    let mut runs = Vec::new();
    for seed in 0..200 {
        let run = raw(seed, Faults::none().with(&[kind]).within(BYTES));
        let faults: Vec<_> = run.trace.faults().collect();
        if let [fault] = faults[..] {
            assert_eq!(fault.kind, kind);
            runs.push(match fault.side {
                Side::A => (fault, run.a, run.b),
                _ => (fault, run.b, run.a),
            });
        }
    }
    assert!(runs.len() > 50, "{} runs", runs.len());
    let of = |side| runs.iter().filter(|it| it.0.side == side).count();
    assert!(of(Side::A) > 20 && of(Side::B) > 20);
    runs
}

const WHOLE: (u64, Option<ErrorKind>) = (BYTES, None);

#[test]
fn a_cut_ends_both_directions() {
    for (fault, here, there) in struck(Kind::Cut) {
        let (here, there) = (here.unwrap(), there.unwrap());
        assert_eq!(here.written, (fault.at, Some(ErrorKind::BrokenPipe)));
        assert_eq!(there.read, (fault.at, None));
        assert_eq!(there.written.1, Some(ErrorKind::BrokenPipe));
        assert_eq!(here.read, (there.written.0, None));
    }
}

#[test]
fn a_half_close_ends_one_direction() {
    for (fault, here, there) in struck(Kind::HalfClose) {
        let (here, there) = (here.unwrap(), there.unwrap());
        assert_eq!(here.written, (fault.at, Some(ErrorKind::BrokenPipe)));
        assert_eq!(there.read, (fault.at, None));
        assert_eq!((there.written, here.read), (WHOLE, WHOLE));
    }
}

#[test]
fn a_reset_fails_both_sides() {
    let reset = Some(ErrorKind::ConnectionReset);
    for (fault, here, there) in struck(Kind::Reset) {
        let (here, there) = (here.unwrap(), there.unwrap());
        assert_eq!(here.written, (fault.at, reset));
        assert!(there.read.0 <= fault.at);
        assert_eq!(
            (there.read.1, here.read.1, there.written.1),
            (reset, reset, reset)
        );
    }
}

#[test]
fn after_a_silence_nothing_arrives() {
    for (fault, here, there) in struck(Kind::Silence) {
        let (here, there) = (here.unwrap(), there.unwrap());
        assert_eq!(here.written, WHOLE);
        assert_eq!(there.read, (fault.at, Some(ErrorKind::TimedOut)));
        assert_eq!(here.read.1, Some(ErrorKind::TimedOut));
    }
}

#[test]
fn a_side_crashes_and_the_other_one_reads_an_end_or_a_reset() {
    let mut ends = [0; 2];
    for (fault, here, there) in struck(Kind::Crash) {
        let there = there.unwrap();
        assert_eq!(here, None);
        match there.read {
            (count, None) => {
                assert_eq!(count, fault.at);
                ends[0] += 1;
            }
            (count, error) => {
                assert!(count <= fault.at);
                assert_eq!(error, Some(ErrorKind::ConnectionReset));
                ends[1] += 1;
            }
        }
    }
    assert!(ends[0] > 5 && ends[1] > 5, "{ends:?}");
}

/// The future of the side waits for something else while its tasks use the stream.
#[test]
fn a_crash_drops_its_future_at_once() {
    let side = |stream| async {
        let task = tokio::spawn(both(stream));
        sleep(Duration::from_secs(1_000)).await;
        task.await.unwrap()
    };
    let mut crashes = 0;
    for seed in 0..50 {
        let faults = Faults::none().with(&[Kind::Crash]).within(BYTES);
        let run = Sim::new(seed, faults).run(side, side);
        let entries = run.trace.entries();
        let crashed = entries.iter().filter(|it| it.event == Event::Crashed);
        for crash in crashed {
            let is_cause =
                |it: &Entry| matches!(it.event, Event::Fault(_)) && it.side == crash.side;
            let struck = entries.iter().find(|it| is_cause(it)).unwrap();
            assert_eq!(struck.at, crash.at);
            crashes += 1;
        }
    }
    assert!(crashes > 10, "{crashes}");
}

/// The closure of a crash runs while the future still is.
#[test]
fn a_crash_is_noticed_before_the_future_is_dropped() {
    struct Dropped(Rc<RefCell<Vec<String>>>);
    impl Drop for Dropped {
        fn drop(&mut self) {
            self.0.borrow_mut().push("dropped".into());
        }
    }
    let mut crashes = 0;
    for seed in 0..100 {
        let order = Rc::new(RefCell::new(Vec::new()));
        let mut sim = Sim::new(seed, Faults::none().with(&[Kind::Crash]).within(BYTES));
        let log = Rc::clone(&order);
        sim.on_crash(move |side| log.borrow_mut().push(side.to_string()));
        let dropped = Dropped(Rc::clone(&order));
        let a = |stream| async move {
            let _dropped = dropped;
            both(stream).await
        };
        let run = sim.run(a, both);
        if run.a.is_none() && run.b.is_some() {
            crashes += 1;
            assert_eq!(*order.borrow(), ["A", "dropped"]);
        }
    }
    assert!(crashes > 10);
}

#[test]
fn a_slow_reader_reads_nothing_for_its_time() {
    for seed in 0..200 {
        let faults = Faults::none().with(&[Kind::SlowReader]).within(BYTES);
        let run = raw(seed, faults.pause(Duration::from_millis(700)));
        let entries = run.trace.entries();
        for (at, entry) in entries.iter().enumerate() {
            let Event::Fault(fault) = entry.event else {
                continue;
            };
            assert!((1..=700).contains(&fault.extent));
            let after = entries[at..]
                .iter()
                .filter(|it| it.side == Some(fault.side));
            let next = after
                .clone()
                .find(|it| matches!(it.event, Event::Read(_) | Event::ReadEnd));
            let pause = next.unwrap().at - entry.at;
            assert!(
                pause >= Duration::from_millis(fault.extent),
                "{pause:?} of {fault}"
            );
        }
        assert_eq!((run.a.unwrap().read, run.b.unwrap().read), (WHOLE, WHOLE));
    }
    let found = (0..200).filter(|seed| {
        let faults = Faults::none().with(&[Kind::SlowReader]).within(BYTES);
        !raw(*seed, faults).is_faultless()
    });
    assert!(found.count() > 100);
}

/// A session cannot be made, or a send is refused; the session of the other side does not notice.
#[test]
fn allocations_are_refused() {
    let (mut unmade, mut unsent) = (0, 0);
    let send = |_stream| async {
        let Ok((mut mux, mut driver)) = Mux::new(config(Version::One)) else {
            return None;
        };
        let sender = mux.take_sender(Channel::Data).unwrap();
        let mut issued = Inbound(b"\x21\0\0\x10\0");
        poll_fn(|cx| {
            let _ = driver.poll_read(cx, &mut issued);
            Poll::Ready(())
        })
        .await;
        Some(
            (0..40)
                .filter(|_| matches!(sender.try_send(b"hello"), Err(error) if is_refused(&error)))
                .count(),
        )
    };
    for seed in 0..300 {
        let faults = Faults::none().with(&[Kind::Memory]).within(64);
        let run = Sim::new(seed, faults).run(send, |_stream| async {});
        let refused = run.trace.faults().count();
        match run.a.unwrap() {
            None => unmade += 1,
            Some(count) => unsent += count,
        }
        assert!(refused <= 8);
    }
    assert!(unmade > 20 && unsent > 20, "{unmade} {unsent}");
}

/// Inbound bytes, after which the transport is pending.
struct Inbound(&'static [u8]);

impl PollRead for Inbound {
    fn poll_read(&mut self, cx: &mut Context<'_>, buffer: &mut [u8]) -> Poll<io::Result<usize>> {
        match self.0.is_empty() {
            true => Poll::Pending,
            false => self.0.poll_read(cx, buffer),
        }
    }
}

fn is_refused(error: &TrySendError) -> bool {
    *error == Refusal::OutOfMemory.into()
}

#[test]
fn file_operations_fail() {
    let path = std::env::temp_dir();
    let mut failed = 0;
    for seed in 0..200 {
        let look = |_stream| async {
            let mut results = Vec::new();
            for _ in 0..20 {
                results.push(lcmux_sim::fs::metadata(&path).await);
            }
            results
        };
        let faults = Faults::none().with(&[Kind::Disk]).within(16);
        let run = Sim::new(seed, faults).run(look, |_stream| async {});
        let errors: Vec<_> = run
            .a
            .iter()
            .flatten()
            .filter_map(|it| it.as_ref().err())
            .collect();
        assert!(errors.iter().all(|it| it.raw_os_error() == Some(28)));
        let mut faults: Vec<_> = run.trace.faults().collect();
        assert_eq!(errors.len(), faults.len());
        faults.dedup();
        if let [fault] = faults[..] {
            assert_eq!(errors.len() as u64, fault.extent.min(20 - fault.at));
        }
        failed += errors.len();
    }
    assert!(failed > 100);
}

#[test]
fn a_perfect_link_moves_all_at_once() {
    for seed in 0..20 {
        let run = Sim::new(seed, Faults::none()).run(
            |mut stream| async move { stream.write_all(&[7; 100_000]).await },
            |mut stream| async move { stream.read_to_end(&mut Vec::new()).await },
        );
        assert_eq!(run.b.unwrap().unwrap(), 100_000);
        assert!(run.trace.entries().iter().all(|it| it.at.is_zero()));
        assert_eq!(run.trace.entries()[0].event, Event::Wrote(100_000));
        assert_eq!(
            (run.trace.read(Side::A), run.trace.read(Side::B)),
            (0, 100_000)
        );
    }
}

/// Nothing is lost. Among the seeds are late bytes, partial writes and full buffers.
#[test]
fn timing_is_drawn_and_loses_nothing() {
    let (mut late, mut parts, mut longest) = (0, 0, Duration::ZERO);
    for seed in 0..300 {
        let faults = Faults::timing().latency(Duration::from_millis(200));
        let run = Sim::new(seed, faults).run(
            |mut stream| async move { stream.write_all(&[7; 3_000]).await },
            |mut stream| async move { stream.read_to_end(&mut Vec::new()).await },
        );
        assert!(run.is_faultless());
        assert_eq!(run.b.unwrap().unwrap(), 3_000);
        let entries = run.trace.entries();
        let first =
            |wanted: fn(&Event) -> bool| entries.iter().find(|it| wanted(&it.event)).unwrap().at;
        let latency =
            first(|it| matches!(it, Event::Read(_))) - first(|it| matches!(it, Event::Wrote(_)));
        late += usize::from(latency > Duration::ZERO);
        longest = longest.max(latency);
        parts += usize::from(
            entries
                .iter()
                .filter(|it| matches!(it.event, Event::Wrote(_)))
                .count()
                > 1,
        );
    }
    assert!(late > 100 && parts > 100, "{late} late, {parts} in parts");
    // A latency and a jitter of at most 200 ms, and at least 2 bytes in a millisecond.
    assert!((300..=1_900).contains(&longest.as_millis()), "{longest:?}");
}

/// A call of a session that could proceed yields by some seeds.
#[test]
fn calls_of_a_session_yield() {
    let first_poll = |faults: Faults, seed| {
        let run = Sim::new(seed, faults).run(
            |_stream| async {
                let (mut mux, mut driver) = Mux::new(config(Version::One)).unwrap();
                let mut receiver = mux.take_receiver(Channel::Data).unwrap();
                let mut message = &b"\x11\0\x02hi"[..];
                poll_fn(|cx| {
                    let _ = driver.poll_write(cx, &mut Vec::new());
                    let _ = driver.poll_read(cx, &mut message);
                    Poll::Ready(receiver.poll_recv(cx).is_ready())
                })
                .await
            },
            |_stream| async {},
        );
        run.a.unwrap()
    };
    assert!((0..100).all(|seed| first_poll(Faults::none(), seed)));
    let yields = (0..400)
        .filter(|seed| !first_poll(Faults::timing(), *seed))
        .count();
    assert!((10..150).contains(&yields), "{yields}");
}

#[test]
fn an_hour_of_virtual_time_takes_no_hour() {
    let begin = std::time::Instant::now();
    let mut sim = Sim::new(1, Faults::none());
    sim.set_limit(Duration::from_secs(36_000));
    let wait = |_stream| async {
        let now = Instant::now();
        sleep(Duration::from_secs(35_999)).await;
        now.elapsed()
    };
    let run = sim.run(wait, |_stream| async {});
    assert_eq!(run.a, Some(Duration::from_secs(35_999)));
    assert!(begin.elapsed() < Duration::from_secs(60));
}

/// The program of A ends and leaves a task that would write more.
#[test]
fn a_program_that_ends_closes_its_socket() {
    for (unread, error) in [(true, Some(ErrorKind::ConnectionReset)), (false, None)] {
        let a = |mut stream: Stream| async move {
            stream.write_all(b"hello").await.unwrap();
            if !unread {
                stream.read_exact(&mut [0; 5]).await.unwrap();
            } else {
                sleep(Duration::from_millis(5)).await;
            }
            tokio::spawn(async move {
                sleep(Duration::from_secs(1)).await;
                stream.write_all(b"more").await
            });
        };
        let b = |stream: Stream| async move {
            let (reader, mut writer) = tokio::io::split(stream);
            writer.write_all(b"hello").await.unwrap();
            read_all(reader).await
        };
        let run = Sim::new(1, Faults::none()).run(a, b);
        assert_eq!(run.b, Some((5, error)));
        assert_eq!(run.trace.written(Side::A), b"hello");
    }
}

fn panics(call: impl FnOnce()) -> String {
    let error = panic::catch_unwind(AssertUnwindSafe(call)).unwrap_err();
    error.downcast_ref::<String>().cloned().unwrap_or_default()
}

#[test]
fn a_side_that_waits_for_good_is_named() {
    let said = panics(|| {
        Sim::new(1, Faults::none()).run(|_| async {}, |_| std::future::pending::<()>());
    });
    assert_eq!(said, "side B has not ended within 3600s");
    let said = panics(|| {
        let mut sim = Sim::new(1, Faults::none());
        sim.set_limit(Duration::from_secs(9));
        sim.run(|_| sleep(Duration::from_secs(10)), |_| async {});
    });
    assert_eq!(said, "side A has not ended within 9s");
    // A later run of this thread is not affected.
    assert!(talked(&mut Sim::new(1, Faults::timing()))
        .a
        .unwrap()
        .is_ok());
}
