//! Two sessions over streams in memory, on an executor of the test. The choices of a seed decide which task is polled
//! next, how bytes are cut, and which calls are postponed, fail or are cancelled. A model checks that no message is
//! lost, duplicated or out of order, and that no task misses its wake-up.
//!
//! `LCMUX_SCHEDULES=100000 cargo test --release --test schedules` runs this many schedules, on all processors. A
//! failing schedule is shortened and printed; `LCMUX_SEED` runs one seed alone.
mod choices;
mod ends;
mod executor;
mod memory;
mod model;
mod stalled;
mod wire;

#[path = "../common/watchdog.rs"]
mod watchdog;

use choices::{shrunk, Choices};
use ends::{recv_all, send_all, End, LONGEST, RING};
use executor::{Executor, Yield};
use lcmux::{Channel, Closed, Config, Driver, IssuePolicy, Mux, PleadPolicy, Version, CHANNELS};
use model::Model;
use std::any::Any;
use std::cell::RefCell;
use std::future::{poll_fn, Future};
use std::io::{self, Write};
use std::panic::{self, AssertUnwindSafe};
use std::rc::Rc;
use std::sync::atomic::{AtomicU64, Ordering};
use std::task::Poll;
use std::{env, thread};
use wire::{wire, Fault, Reader, Writer};

/// More polls than any schedule needs.
const POLLS: usize = 200_000;

/// The bytes of both sides at once, including the four buffers of 32 KiB of their drivers.
const MOST_MEMORY: isize = 190_000;

type Shared<T> = Rc<RefCell<T>>;

/// How a session is to end. A number counts the calls or polls before.
#[derive(Clone, Copy, Debug, PartialEq)]
enum Ending {
    Clean,
    Fault(Fault),
    Abort(u32),
    DropDriver(u32),
}

fn chosen_ending(choices: &mut Choices) -> Ending {
    let after = 1 + choices.below(60);
    match choices.below(24) {
        17 => Ending::Fault(Fault::Read(after)),
        18 => Ending::Fault(Fault::Write(after)),
        19 => Ending::Fault(Fault::Cut(after)),
        20 => Ending::Fault(Fault::Garbage(after)),
        21 => Ending::Fault(Fault::Flush(after)),
        22 => Ending::Abort(after),
        23 => Ending::DropDriver(after),
        _ => Ending::Clean,
    }
}

/// A schedule that is being set up.
struct World {
    choices: Shared<Choices>,
    model: Shared<Model>,
    executor: Executor,
    ending: Ending,
    policies: [[IssuePolicy; CHANNELS]; 2],
}

fn chosen_policy(choices: &mut Choices) -> IssuePolicy {
    match choices.below(3) {
        0 => IssuePolicy::AtOnce,
        1 => IssuePolicy::LowWater(LONGEST as u32 + choices.below(RING - LONGEST as u32 + 1)),
        _ => IssuePolicy::ByCaller,
    }
}

fn chosen_config(choices: &mut Choices, issue: [IssuePolicy; CHANNELS]) -> Config {
    let slots = Mux::LEAST_SLOTS + choices.below(4);
    let mut config = Config::new([RING; CHANNELS], slots);
    config.version = match choices.below(2) {
        0 => Version::One,
        _ => Version::Two,
    };
    config.issue = issue;
    config.plead = config.plead.map(|_| match choices.below(2) {
        0 => PleadPolicy::AtOnce,
        _ => PleadPolicy::ByCaller,
    });
    config
}

impl World {
    fn new(mut choices: Choices) -> World {
        let ending = chosen_ending(&mut choices);
        let policies = [(); 2].map(|()| [(); CHANNELS].map(|()| chosen_policy(&mut choices)));
        let choices = Rc::new(RefCell::new(choices));
        let model = Model {
            left: [14; 2],
            is_garbled: matches!(ending, Ending::Fault(Fault::Garbage(_))),
            ..Model::default()
        };
        World {
            model: Rc::new(RefCell::new(model)),
            executor: Executor::new(&choices),
            choices,
            ending,
            policies,
        }
    }

    fn below(&self, n: u32) -> u32 {
        self.choices.borrow_mut().below(n)
    }

    // One side: its handles, its driver and the task that closes it.
    fn spawn_side(&mut self, side: usize, writer: Writer, reader: Reader) {
        let config = chosen_config(&mut self.choices.borrow_mut(), self.policies[side]);
        let (mut mux, driver) = Mux::new(config).unwrap();
        driver.borrow_from(8);
        let most = 1 + self.below(12);
        for (channel, kind) in Channel::ALL.into_iter().enumerate() {
            let end = |policy| End {
                side,
                channel,
                policy,
                is_clean: self.ending == Ending::Clean,
                choices: Rc::clone(&self.choices),
                model: Rc::clone(&self.model),
            };
            let (here, there) = (
                end(self.policies[side][channel]),
                end(self.policies[1 - side][channel]),
            );
            let sender = Rc::new(mux.take_sender(kind).unwrap());
            let receiver = mux.take_receiver(kind).unwrap();
            let count = self.below(most);
            let send = send_all(there, sender, count);
            self.executor.spawn(format!("send {side} {channel}"), send);
            let recv = recv_all(here, receiver);
            self.executor.spawn(format!("recv {side} {channel}"), recv);
        }
        let driver = self.drive(side, driver, writer, reader);
        self.executor.spawn(format!("driver {side}"), driver);
        let close = self.close(side, mux);
        self.executor.spawn(format!("close {side}"), close);
    }

    fn drive(
        &self,
        side: usize,
        driver: Driver,
        writer: Writer,
        reader: Reader,
    ) -> impl Future<Output = ()> {
        let (model, ending) = (Rc::clone(&self.model), self.ending);
        let mut run = Box::pin(driver.run(reader, writer));
        let mut polls = 0;
        async move {
            let ended = poll_fn(|cx| {
                polls += 1;
                match ending {
                    Ending::DropDriver(most) if side == 0 && polls > most => Poll::Ready(None),
                    _ => run.as_mut().poll(cx).map(Some),
                }
            });
            let ended = ended.await;
            drop(run);
            match (ending, ended) {
                (_, Some(Err(closed))) => model.borrow_mut().reasons[side].push(closed),
                (Ending::Clean | Ending::Fault(_), None) => panic!("it was not dropped"),
                _ => {}
            }
        }
    }

    // Closes the session once all handles are dropped, or aborts it before.
    fn close(&self, side: usize, mux: Mux) -> impl Future<Output = ()> {
        let (model, ending) = (Rc::clone(&self.model), self.ending);
        let by_drop = self.below(2) == 0;
        async move {
            if let (Ending::Abort(after), 0) = (ending, side) {
                for _ in 0..after {
                    Yield(false).await;
                }
                mux.abort();
            }
            let all_done = poll_fn(|cx| match model.borrow_mut() {
                model if model.left[side] == 0 => Poll::Ready(()),
                mut model => {
                    model.closers[side] = Some(cx.waker().clone());
                    Poll::Pending
                }
            });
            all_done.await;
            if by_drop {
                return;
            }
            mux.close();
            if let Err(closed) = mux.closed().await {
                model.borrow_mut().reasons[side].push(closed);
            }
        }
    }
}

// Runs a schedule to its end. Panics if a check fails.
fn play(choices: Choices, made: &Shared<Vec<u32>>) -> usize {
    let mut world = World::new(choices);
    let fault = match world.ending {
        Ending::Fault(fault) => Some(fault),
        _ => None,
    };
    let (to_one, from_zero) = wire(&world.choices, fault);
    let (to_zero, from_one) = wire(&world.choices, None);
    world.spawn_side(0, to_one, from_one);
    world.spawn_side(1, to_zero, from_zero);
    let World {
        choices,
        model,
        executor,
        ending,
        ..
    } = world;
    let played = panic::catch_unwind(AssertUnwindSafe(|| {
        executor.run(POLLS);
        judge(&model.borrow(), ending);
    }));
    *made.borrow_mut() = choices.borrow().made();
    if let Err(panic) = played {
        panic::resume_unwind(panic);
    }
    let messages = model.borrow().messages();
    messages
}

// The checks at the end, once all tasks have completed.
fn judge(model: &Model, ending: Ending) {
    if ending == Ending::Clean {
        assert!(model.is_whole(), "messages are lost");
        assert_eq!(model.reasons, [vec![], vec![]]);
    }
    for reasons in &model.reasons {
        // If the peer ended in order, a call may return that before this side fails.
        let is_failure = |it: &&Closed| !matches!(it, Closed::Local | Closed::Remote);
        let mut kinds: Vec<&Closed> = reasons.iter().filter(is_failure).collect();
        kinds.dedup();
        assert!(kinds.len() <= 1, "more reasons than one: {kinds:?}");
    }
    if let Ending::Abort(_) | Ending::DropDriver(_) = ending {
        let mut reasons = model.reasons[0].iter();
        assert!(
            reasons.all(|reason| *reason == Closed::Aborted),
            "{:?}",
            model.reasons
        );
    }
}

fn said(panic: &(dyn Any + Send)) -> String {
    let text = panic.downcast_ref::<String>().cloned();
    text.or_else(|| panic.downcast_ref::<&str>().map(|text| text.to_string()))
        .unwrap_or_default()
}

// Returns the failure with these choices, and the choices that were made.
fn failure(choices: Choices) -> Result<usize, (String, Vec<u32>)> {
    let made = Rc::default();
    let play = || panic::catch_unwind(AssertUnwindSafe(|| play(choices, &made)));
    let (played, most, left) = memory::counted(play);
    let tape = made.take();
    match played {
        Err(panic) => Err((said(&*panic), tape)),
        // Beside the sessions, the test keeps the tape, which may have grown to twice its length.
        Ok(_) if most > MOST_MEMORY + 16 * tape.len() as isize => {
            Err((format!("{most} bytes at once"), tape))
        }
        Ok(_) if left > 8 * tape.len() as isize => Err((format!("{left} bytes are left"), tape)),
        Ok(messages) => Ok(messages),
    }
}

// Reports a failing seed: at once, since the watchdog may end the search, and again with the shortest schedule that
// was found.
fn tell(seed: u64, what: &str, tape: Vec<u32>) -> String {
    let _ = writeln!(io::stderr(), "LCMUX_SEED={seed}: {what}");
    let long = tape.len();
    let tape = shrunk(tape, 600, |tape| {
        failure(Choices::of_tape(tape.to_vec())).is_err()
    });
    let short = match failure(Choices::of_tape(tape.clone())) {
        Err((what, _)) => what,
        Ok(_) => "nothing any more".to_string(),
    };
    let count = tape.len();
    format!("LCMUX_SEED={seed}: {what}\nof {long} choices; with these {count}: {short}\n{tape:?}")
}

fn asked(name: &str) -> Option<u64> {
    env::var(name).ok().and_then(|value| value.parse().ok())
}

/// The next seed that no thread has taken.
static SEEDS: AtomicU64 = AtomicU64::new(0);

// Runs seeds until none is left. Returns how many messages arrived.
fn play_seeds(most: u64) -> usize {
    let mut messages = 0;
    loop {
        let seed = SEEDS.fetch_add(1, Ordering::Relaxed);
        if seed >= most {
            return messages;
        }
        let watchdog = watchdog::Watchdog::new(format!("LCMUX_SEED={seed}"));
        match failure(Choices::of_seed(seed)) {
            Ok(count) => messages += count,
            Err((what, tape)) => panic!("{}", tell(seed, &what, tape)),
        }
        drop(watchdog);
    }
}

#[test]
fn every_schedule_ends_as_the_model_says() {
    let (first, most) = match asked("LCMUX_SEED") {
        Some(seed) => (seed, seed + 1),
        None => (0, asked("LCMUX_SCHEDULES").unwrap_or(1500)),
    };
    SEEDS.store(first, Ordering::Relaxed);
    panic::set_hook(Box::new(|_| {}));
    let count = match asked("LCMUX_SCHEDULES") {
        Some(_) => thread::available_parallelism().map_or(2, |count| count.get()),
        None => 2,
    };
    let threads: Vec<_> = (0..count)
        .map(|_| thread::spawn(move || play_seeds(most)))
        .collect();
    let played: Vec<_> = threads.into_iter().map(|thread| thread.join()).collect();
    let _ = panic::take_hook();
    let mut messages = 0;
    for played in played {
        match played {
            Ok(count) => messages += count,
            Err(panic) => panic!("{}", said(&*panic)),
        }
    }
    let schedules = most - first;
    println!("{schedules} schedules, {messages} messages");
    assert!(schedules == 1 || messages as u64 > 5 * schedules);
}

/// A failure by a 7 and a later 9 shrinks to those two; one that does not depend on the tape shrinks to nothing.
#[test]
fn a_tape_that_fails_becomes_short() {
    let long: Vec<u32> = (0..200).map(|at| at % 23).collect();
    let fails = |tape: &[u32]| {
        let seven = tape.iter().position(|choice| *choice == 7);
        seven.is_some_and(|seven| tape[seven..].contains(&9))
    };
    assert_eq!(shrunk(long.clone(), 600, fails), [7, 9]);
    assert_eq!(shrunk(long.clone(), 600, |_| true), []);
    assert_eq!(shrunk(long.clone(), 600, |_| false), long);
    let tape = Choices::of_tape(vec![5, 6]);
    let mut made = tape;
    assert_eq!([0; 3].map(|_| made.below(4)), [1, 2, 0]);
    assert_eq!(made.made(), [5, 6]);
}

/// The same seed makes the same choices, and so does its tape.
#[test]
fn a_seed_and_its_tape_play_the_same() {
    for seed in [1, 2, 3] {
        let made = [0; 2].map(|_| {
            let made = Rc::default();
            let messages = play(Choices::of_seed(seed), &made);
            (messages, made.take())
        });
        assert_eq!(made[0], made[1]);
        let again = Rc::default();
        assert_eq!(play(Choices::of_tape(made[0].1.clone()), &again), made[0].0);
    }
}
