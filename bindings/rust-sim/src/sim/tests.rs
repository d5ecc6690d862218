//! Links of a known shape.
use super::*;
use crate::faults::Shape;
use std::collections::BTreeSet;
use std::io::IoSlice;
use tokio::io::{AsyncReadExt, AsyncWriteExt};

/// What a link of this shape does to bytes that A writes at once: the entries of both sides.
fn sent(seed: u64, shape: Shape, count: usize) -> Trace {
    let plan = Plan {
        shapes: [shape, Shape::default()],
        ..Plan::default()
    };
    let mut sim = Sim::new(seed, Faults::none());
    let run = sim.run_plan(
        plan,
        |mut stream| async move { stream.write_all(&vec![7; count]).await },
        |mut stream| async move {
            let mut bytes = Vec::new();
            stream.read_to_end(&mut bytes).await.map(|_| bytes)
        },
    );
    assert_eq!(run.b.unwrap().unwrap(), vec![7; count]);
    run.trace
}

/// When each byte was written and read, in milliseconds.
fn times(trace: &Trace) -> [Vec<u128>; 2] {
    let mut times = [vec![], vec![]];
    for entry in trace.entries() {
        let (at, count) = match entry.event {
            Event::Wrote(count) => (0, count),
            Event::Read(count) => (1, count),
            _ => continue,
        };
        times[at].extend(vec![entry.at.as_millis(); count]);
    }
    times
}

#[test]
fn bytes_arrive_after_the_latency() {
    let shape = Shape {
        latency: 30,
        ..Shape::default()
    };
    let trace = sent(1, shape, 100);
    assert_eq!(times(&trace), [vec![0; 100], vec![30; 100]]);
    let end = trace.entries().iter().find(|it| it.event == Event::ReadEnd);
    assert_eq!(end.unwrap().at, Duration::from_millis(30));
}

/// The end follows the last byte.
#[test]
fn a_bandwidth_bounds_the_bytes_of_each_millisecond() {
    let shape = Shape {
        latency: 10,
        rate: 4,
        buffer: 8,
        ..Shape::default()
    };
    let trace = sent(1, shape, 100);
    let read = &times(&trace)[1];
    for (at, time) in read.iter().enumerate() {
        assert!(*time >= 10 + (at as u128) / 4, "byte {at} at {time}");
    }
    assert!(read[99] < 400, "{read:?}");

    let shape = Shape { buffer: 0, ..shape };
    assert_eq!(times(&sent(1, shape, 100))[1], vec![35; 100]);
}

/// Also the future of a side yields, so that one side may do more than the other one.
#[test]
fn the_sides_proceed_in_orders_of_the_seed() {
    let noted = |yields, seed| {
        let plan = Plan {
            yields,
            ..Plan::default()
        };
        let side = |name: &'static str| async move {
            crate::note(name);
            tokio::task::yield_now().await;
            crate::note(name);
        };
        let run = Sim::new(seed, Faults::none()).run_plan(plan, |_| side("a"), |_| side("b"));
        let entries = run.trace.entries().iter();
        let notes = entries.filter_map(|it| match &it.event {
            Event::Note(text) => Some(text.as_str()),
            _ => None,
        });
        notes.collect::<String>()
    };
    let orders = |yields| {
        (0..60)
            .map(|seed| noted(yields, seed))
            .collect::<BTreeSet<_>>()
    };
    let both_first =
        |orders: BTreeSet<String>| ["ab", "ba"].map(|it| orders.iter().any(|o| o.starts_with(it)));
    assert_eq!(both_first(orders(0)), [true; 2]);
    assert!(orders(0)
        .iter()
        .all(|it| it.len() == 4 && it[..2] != *"aa" && it[..2] != *"bb"));
    assert!(orders(2).contains("aabb") && orders(2).contains("bbaa"));
}

#[test]
fn a_buffer_bounds_the_bytes_that_are_not_read() {
    let shape = Shape {
        latency: 5,
        buffer: 16,
        ..Shape::default()
    };
    let trace = sent(1, shape, 100);
    let (mut unread, mut most) = (0, 0);
    for entry in trace.entries() {
        match entry.event {
            Event::Wrote(count) => unread += count,
            Event::Read(count) => unread -= count,
            _ => {}
        }
        most = most.max(unread);
    }
    assert_eq!(most, 16);
}

#[test]
fn jitter_is_at_most_its_bound_and_keeps_the_order() {
    let shape = Shape {
        latency: 10,
        jitter: 20,
        buffer: 8,
        ..Shape::default()
    };
    let mut latencies = Vec::new();
    for seed in 0..30 {
        let [written, read] = times(&sent(seed, shape, 80));
        assert!(read.windows(2).all(|it| it[0] <= it[1]));
        latencies.extend(written.iter().zip(&read).map(|(from, to)| to - from));
    }
    assert!(latencies.iter().all(|it| (10..=30).contains(it)));
    assert!(latencies.contains(&10) && latencies.contains(&30));
}

#[test]
fn partial_calls_move_a_part() {
    let shape = Shape {
        is_short: true,
        ..Shape::default()
    };
    let counts = |trace: &Trace| {
        let of = |it: &fn(&Event) -> bool| trace.entries().iter().filter(|e| it(&e.event)).count();
        let kinds: [fn(&Event) -> bool; 2] = [
            |it| matches!(it, Event::Wrote(_)),
            |it| matches!(it, Event::Read(_)),
        ];
        kinds.iter().map(of).collect::<Vec<_>>()
    };
    let whole = counts(&sent(1, Shape::default(), 1_000));
    assert!(whole[0] == 1 && whole[1] < 10, "{whole:?}"); // the reader's buffer grows
    let short = (0..20).map(|seed| counts(&sent(seed, shape, 1_000)));
    let parts = short.filter(|it| it[0] > 1 && it[1] > whole[1]).count();
    assert!(parts > 5, "{parts}");
}

#[test]
fn several_slices_are_written_in_their_order() {
    for is_vectored in [false, true] {
        let plan = Plan {
            is_vectored,
            ..Plan::default()
        };
        let a = |mut stream: Stream| async move {
            use tokio::io::AsyncWrite;
            let slices = [IoSlice::new(b"hel"), IoSlice::new(b""), IoSlice::new(b"lo")];
            let written = stream.write_vectored(&slices).await.unwrap();
            (stream.is_write_vectored(), written)
        };
        let b = |mut stream: Stream| async move { stream.read_exact(&mut [0; 5]).await };
        let run = Sim::new(1, Faults::none()).run_plan(plan, a, b);
        assert_eq!(run.a, Some((is_vectored, 5)));
        assert_eq!(run.trace.written(Side::A), b"hello");
    }
}

/// A plan in words, as a report has it.
#[test]
fn a_plan_is_named_in_words() {
    assert_eq!(Plan::default().to_string(), "a perfect link");
    let shape = Shape {
        latency: 5,
        jitter: 6,
        rate: 7,
        buffer: 8,
        is_short: true,
    };
    let plan = Plan {
        shapes: [Shape::default(), shape],
        yields: 9,
        ..Plan::default()
    };
    let wanted =
        "B to A: latency 5 ms, jitter 6 ms, 7 bytes/ms, buffer 8 bytes, partial reads and writes; \
                  one call in 9 yields";
    assert_eq!(plan.to_string(), wanted);
}
