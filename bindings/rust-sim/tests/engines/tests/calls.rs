//! The calls of the example, by many seeds: each call ends by its own answer, its deadline or the end of the session, and
//! work that is cancelled stops. And bugs that break this, which are found.
mod common;

use common::found;
use lcmux_sim::{Explorer, Faults, Sim};
use lcmux_sim_engines as engines;
use std::time::Duration;

const SEEDS: u64 = 10_000;

/// The most bytes that a side writes in most runs.
const BYTES: u64 = 1_000;

fn explorer() -> Explorer {
    Explorer::new(Faults::all().within(BYTES)).seeds(SEEDS)
}

/// A property of an engine of calls, by the modules of its variants.
macro_rules! check {
    ($engine:ident) => {
        |sim: &mut Sim| {
            use engines::$engine::driver::{client, server, Outcome, Planned};
            sim.set_limit(Duration::from_secs(300));
            let count = sim.draw("calls", 0..=6);
            let calls: Vec<_> = (0..count)
                .map(|number| {
                    let (begin, deadline, request) = drawn_call(sim, number);
                    Planned {
                        begin,
                        deadline,
                        request,
                    }
                })
                .collect();
            let made = calls.clone();
            let run = sim.run(move |stream| client(stream, made), server);
            let is_faultless = run.is_faultless();
            if let Some((outcomes, ended)) = run.a {
                for (call, outcome) in calls.iter().zip(&outcomes) {
                    match outcome {
                        Outcome::Answer(text) => assert_eq!(*text, call.request.to_uppercase()),
                        Outcome::Late => {
                            assert!(call.deadline.is_some(), "late without a deadline")
                        }
                        Outcome::Failed => assert!(!is_faultless, "a call failed without a fault"),
                    }
                }
                if is_faultless {
                    assert_eq!(ended, Ok(()));
                    let cancelled = run.b.unwrap().expect("the server ends in order");
                    let late = outcomes.iter().filter(|it| **it == Outcome::Late).count();
                    assert!(cancelled <= late, "{cancelled} cancelled, {late} late");
                }
            }
        }
    };
}

/// A call that is quick, or slow, or that ends only if it is cancelled. The texts differ, so no answer is that of another.
fn drawn_call(sim: &mut Sim, number: u64) -> (Duration, Option<Duration>, String) {
    let ms = Duration::from_millis;
    let begin = ms(sim.draw("begin", 0..=40));
    let deadline = sim.draw("deadline", 0..=120);
    let (deadline, request) = match (deadline, sim.draw("work", 0..=3)) {
        (0, 3) | (_, 0) => (
            deadline,
            format!("call {number} {}", "x".repeat(number as usize * 8)),
        ),
        (_, 3) => (deadline, format!("sleep {}", 100_000_000 + number)),
        (_, work) => (deadline, format!("sleep {}", 60 * work + number)),
    };
    (begin, (deadline > 0).then(|| ms(deadline)), request)
}

#[test]
fn calls_end_as_they_should_by_every_seed() {
    explorer().check(check!(calls));
}

#[test]
fn two_runs_of_a_seed_are_the_same() {
    explorer().seeds(300).twice().check(check!(calls));
}

#[test]
fn a_number_that_no_request_has_is_found() {
    found(explorer(), "calls_number", check!(calls_number));
}

#[test]
fn a_call_that_outlives_its_session_is_found() {
    let failure = found(explorer(), "calls_waiting", check!(calls_waiting));
    assert!(
        failure.message.contains("side A has not ended"),
        "{failure}"
    );
}

#[test]
fn work_that_is_not_cancelled_is_found() {
    let failure = found(explorer(), "calls_early", check!(calls_early));
    assert!(failure.message.contains("has not ended"), "{failure}");
}

#[test]
fn a_request_that_is_not_counted_is_found() {
    found(explorer(), "calls_count", check!(calls_count));
}
