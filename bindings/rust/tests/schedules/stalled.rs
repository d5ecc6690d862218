//! Callers of up to six channels stop polling their calls: for a while, forever, leaked, dropped late, timed out or
//! holding permits. Meanwhile the seventh channel carries its messages, over streams of any capacity, and also if
//! nothing else wakes a driver: in half of the schedules the peer issues once and is silent from then on.
use crate::choices::Choices;
use crate::executor::{Executor, Yield};
use crate::watchdog::Watchdog;
use crate::wire::{wire_of, Shape};
use crate::{asked, Shared, POLLS};
use lcmux::{Channel, Config, Driver, IssuePolicy, Mux, Receiver, Sender, Version, CHANNELS};
use std::cell::{Cell, RefCell};
use std::future::{poll_fn, Future};
use std::mem;
use std::pin::Pin;
use std::rc::Rc;
use std::sync::atomic::{AtomicBool, Ordering::Relaxed};
use std::sync::Arc;
use std::task::{Context, Wake, Waker};

/// How a caller stops.
#[derive(Clone, Copy, Debug)]
enum Stop {
    /// A call is leaked once it waits.
    Waiting,
    /// A call is leaked once it was woken to proceed.
    Woken,
    /// All available permits are leaked.
    WithPermits,
    /// A call is not polled for a while, repeatedly, and then dropped.
    DroppedLate,
    /// The same, but then it is polled again.
    Slow,
    /// A call is polled whenever it is woken, up to a deadline. After that it is dropped, or kept and not polled, as
    /// `timeout(&mut send)` keeps it.
    TimedOut,
}

const STOPS: [Stop; 6] = [
    Stop::Waiting,
    Stop::Woken,
    Stop::WithPermits,
    Stop::DroppedLate,
    Stop::Slow,
    Stop::TimedOut,
];

#[derive(Default)]
struct Flag(AtomicBool);

impl Wake for Flag {
    fn wake(self: Arc<Flag>) {
        self.0.store(true, Relaxed);
    }
}

/// A send that is polled occasionally.
struct Sending {
    future: Pin<Box<dyn Future<Output = ()>>>,
    woken: Arc<Flag>,
}

impl Sending {
    fn new(sender: &Rc<Sender>, len: usize) -> Sending {
        let sender = Rc::clone(sender);
        Sending {
            future: Box::pin(async move {
                let _ = sender.send(&vec![7; len]).await;
            }),
            woken: Arc::default(),
        }
    }

    fn waits(&mut self) -> bool {
        let waker = Waker::from(Arc::clone(&self.woken));
        let polled = self.future.as_mut().poll(&mut Context::from_waker(&waker));
        polled.is_pending()
    }

    fn is_woken(&self) -> bool {
        self.woken.0.load(Relaxed)
    }

    // Polls the call if it was woken. Returns whether it waits still.
    fn waits_on(&mut self) -> bool {
        !self.woken.0.swap(false, Relaxed) || self.waits()
    }
}

/// One caller, and the source of its choices.
struct Caller {
    choices: Shared<Choices>,
    sender: Rc<Sender>,
    longest: u32,
}

impl Caller {
    fn below(&self, n: u32) -> u32 {
        self.choices.borrow_mut().below(n)
    }

    fn len(&self) -> usize {
        1 + self.below(self.longest) as usize
    }

    async fn rest(&self, most: u32) {
        for _ in 0..self.below(most) {
            Yield(false).await;
        }
    }

    async fn stop(self, stop: Stop) {
        if let Stop::WithPermits = stop {
            while let Ok(permit) = self.sender.try_reserve(self.len()) {
                mem::forget(permit);
            }
            return;
        }
        loop {
            let mut call = Sending::new(&self.sender, self.len());
            if !call.waits() {
                Yield(false).await;
            } else if self.forgets(stop, &mut call).await {
                return mem::forget(call);
            } else if let Stop::Slow | Stop::Waiting = stop {
                poll_fn(|cx| call.future.as_mut().poll(cx)).await;
            }
        }
    }

    // Whether the caller never comes back to its waiting call.
    async fn forgets(&self, stop: Stop, call: &mut Sending) -> bool {
        match stop {
            Stop::Waiting if self.below(4) == 0 => return true,
            Stop::Woken => {
                for _ in 0..200 {
                    if call.is_woken() {
                        return true;
                    }
                    Yield(false).await;
                }
            }
            Stop::TimedOut => {
                for _ in 0..self.below(100) {
                    if !call.waits_on() {
                        return false;
                    }
                    Yield(false).await;
                }
                return self.below(2) == 0;
            }
            _ => self.rest(300).await,
        }
        false
    }

    // Occasionally the session is idle before the next message.
    async fn send_all(self, count: u32) {
        for number in 0..count {
            if self.below(16) == 0 {
                self.rest(60).await;
            }
            let mut message = number.to_be_bytes().to_vec();
            message.resize(4 + self.below(9) as usize, 9);
            self.sender.send(&message).await.unwrap();
        }
    }
}

async fn take_any(mut receiver: Receiver) {
    while let Ok(Some(_)) = receiver.recv().await {}
}

async fn take_in_order(mut receiver: Receiver, count: u32, is_over: Rc<Cell<bool>>) {
    for number in 0..count {
        let message = receiver.recv().await.unwrap().unwrap();
        assert_eq!(message[..4], number.to_be_bytes());
    }
    is_over.set(true);
}

/// The sizes of a session, and what its peer does.
struct Setting {
    ring: u32,
    longest: u32,
    /// How many messages the seventh channel carries.
    count: u32,
    shape: Shape,
    /// Whether the peer issues once, as much as its rings have, and then sends nothing.
    is_silent: bool,
}

impl Setting {
    fn new(choices: &mut Choices) -> Setting {
        let (ring, longest, count) = match choices.below(8) {
            0 => (200_000, 65_536, 40),
            1..=3 => (300, 40, 300),
            _ => (24, 12, 1_000),
        };
        let is_silent = choices.below(2) == 0;
        let narrow = [1, 5, 64, 200][choices.below(4) as usize];
        Setting {
            ring: if is_silent { ring.max(16_384) } else { ring },
            longest,
            count,
            shape: Shape {
                capacity: if longest > 100 { 10_000 } else { narrow },
                is_steady: is_silent || choices.below(2) == 0,
            },
            is_silent,
        }
    }

    // The configurations of this side and of the peer.
    fn configs(&self, choices: &mut Choices) -> [Config; 2] {
        let slots = Mux::LEAST_SLOTS + choices.below(12);
        let here = Config::new([self.ring; CHANNELS], slots).version(Version::Two);
        let mut there = here;
        if self.is_silent {
            there.issue = [IssuePolicy::ByCaller; CHANNELS];
        }
        [here, there]
    }
}

fn spawn_driver(executor: &mut Executor, driver: Driver, wires: (crate::Reader, crate::Writer)) {
    let run = async { drop(driver.run(wires.0, wires.1).await) };
    executor.spawn("driver".into(), run);
}

/// Two sessions with their drivers.
fn sides(executor: &mut Executor, choices: &Shared<Choices>, setting: &Setting) -> [Mux; 2] {
    let configs = setting.configs(&mut choices.borrow_mut());
    let [(to_there, from_here), (to_here, from_there)] =
        [(); 2].map(|()| wire_of(choices, setting.shape));
    let [(here, driver), (there, other)] = configs.map(|config| Mux::new(config).unwrap());
    spawn_driver(executor, driver, (from_there, to_there));
    spawn_driver(executor, other, (from_here, to_here));
    [here, there]
}

fn play(seed: u64) {
    let mut choices = Choices::of_seed(seed);
    let setting = Setting::new(&mut choices);
    let carrying = choices.below(CHANNELS as u32) as usize;
    let choices = Rc::new(RefCell::new(choices));
    let mut executor = Executor::new(&choices);
    let [mut here, mut there] = sides(&mut executor, &choices, &setting);
    let is_over = Rc::new(Cell::new(false));
    let mut kept = Vec::new();
    for (at, channel) in Channel::ALL.into_iter().enumerate() {
        let sender = Rc::new(here.take_sender(channel).unwrap());
        kept.push(Rc::clone(&sender));
        let receiver = there.take_receiver(channel).unwrap();
        if setting.is_silent {
            receiver.issue(setting.ring).unwrap();
        }
        let caller = || Caller {
            choices: Rc::clone(&choices),
            sender: Rc::clone(&sender),
            longest: setting.longest,
        };
        if at == carrying {
            executor.spawn(format!("send {at}"), caller().send_all(setting.count));
            let take = take_in_order(receiver, setting.count, Rc::clone(&is_over));
            executor.spawn(format!("take {at}"), take);
            continue;
        }
        let stop = STOPS[caller().below(STOPS.len() as u32) as usize];
        for _ in 0..1 + caller().below(2) {
            executor.spawn(format!("{stop:?} {at}"), caller().stop(stop));
        }
        executor.spawn(format!("take {at}"), take_any(receiver));
    }
    let over = Rc::clone(&is_over);
    executor.run_until(20 * POLLS, || over.get());
    assert!(is_over.get());
}

#[test]
fn callers_that_stop_polling_hold_up_no_other_channel() {
    let (first, most) = match asked("LCMUX_SEED") {
        Some(seed) => (seed, seed + 1),
        None => (0, asked("LCMUX_SCHEDULES").map_or(60, |count| count / 20)),
    };
    for seed in first..most {
        let what = format!("LCMUX_SEED={seed}");
        let _watchdog = Watchdog::new(what.as_str());
        let played = std::panic::catch_unwind(|| play(seed));
        assert!(played.is_ok(), "{what}");
    }
}
