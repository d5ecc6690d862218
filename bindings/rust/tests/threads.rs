//! Twenty-eight handles of two sessions on threads, on one, two and four processors, beside threads that only burn
//! processor time.
//!
//! ThreadSanitizer recognizes the locks of std only if std is built with it, and the toolchain at hand lacks the
//! source of std. Without that, it reports the steps of the locks as races. Miri runs no C, and is not at hand. The
//! one unsafe module has no threads, and all shared state is behind one `Mutex`.
use lcmux::{Channel, Closed, Config, IssuePolicy, Mux, Receiver, Sender, CHANNELS};
use std::os::unix::net::UnixStream;
use std::sync::atomic::{AtomicBool, Ordering};
use std::sync::Arc;
use std::thread::{self, JoinHandle};
use std::time::Duration;

#[path = "common/watchdog.rs"]
mod watchdog;

use watchdog::Watchdog;

const MESSAGES: u32 = 300;
const EATERS: usize = 4;

/// A set of processors, in the form of `sched_setaffinity` of the C library.
type Processors = [u64; 16];

extern "C" {
    fn sched_getaffinity(process: i32, size: usize, set: *mut Processors) -> i32;
    fn sched_setaffinity(process: i32, size: usize, set: *const Processors) -> i32;
}

/// Restricts this thread, and those that it starts, to the first `count` of its processors.
fn on_processors(count: u32) {
    let (mut all, mut first) = (Processors::default(), Processors::default());
    let size = std::mem::size_of::<Processors>();
    assert_eq!(unsafe { sched_getaffinity(0, size, &mut all) }, 0);
    let has = |at: &usize| all[at / 64] >> (at % 64) & 1 == 1;
    for at in (0..1024).filter(has).take(count as usize) {
        first[at / 64] |= 1 << (at % 64);
    }
    assert_eq!(unsafe { sched_setaffinity(0, size, &first) }, 0);
}

static IS_OVER: AtomicBool = AtomicBool::new(false);

fn eat() -> JoinHandle<()> {
    thread::spawn(|| {
        while !IS_OVER.load(Ordering::Relaxed) {
            std::hint::spin_loop();
        }
    })
}

fn body(channel: Channel, number: u32) -> Vec<u8> {
    let len = 4 + (number % 29) as usize;
    let mut body = vec![channel.number(); len];
    body[..4].copy_from_slice(&number.to_be_bytes());
    body
}

// Uses each waiting call in turn.
fn send(sender: &Sender) -> Result<(), Closed> {
    for number in 0..MESSAGES {
        let body = body(sender.channel(), number);
        match number % 4 {
            0 => sender
                .reserve_blocking(body.len() + 2)
                .unwrap()
                .send(&body)
                .unwrap(),
            1 => {
                while sender
                    .send_timeout(&body, Duration::from_micros(50))
                    .is_err()
                {}
            }
            2 => {
                while sender.try_send(&body).is_err() {
                    thread::yield_now()
                }
            }
            _ => sender.send_blocking(&body).unwrap(),
        }
    }
    Ok(())
}

fn receive(receiver: &mut Receiver, watchdog: &Watchdog) -> Result<u32, Closed> {
    for number in 0.. {
        watchdog.feed();
        let want = body(receiver.channel(), number);
        let message = match number % 3 {
            0 => receiver.recv_blocking()?,
            1 => receiver
                .recv_ref_blocking()?
                .map(|message| message.to_vec()),
            _ => loop {
                if let Ok(message) = receiver.recv_timeout(Duration::from_micros(50)) {
                    break message;
                }
            },
        };
        match message {
            None => return Ok(number),
            Some(message) => assert_eq!(message, want),
        }
    }
    unreachable!("the numbers have no end")
}

fn side(stream: UnixStream, issue: IssuePolicy, watchdog: &Arc<Watchdog>) -> Vec<JoinHandle<()>> {
    let mut config = Config::new([64; CHANNELS], 16);
    config.issue = [issue; CHANNELS];
    let (mut mux, driver) = Mux::new(config).unwrap();
    let mut threads = Vec::new();
    for channel in Channel::ALL {
        let sender = mux.take_sender(channel).unwrap();
        threads.push(thread::spawn(move || send(&sender).unwrap()));
        let mut receiver = mux.take_receiver(channel).unwrap();
        let watchdog = Arc::clone(watchdog);
        let take = move || assert_eq!(receive(&mut receiver, &watchdog), Ok(MESSAGES));
        threads.push(thread::spawn(take));
    }
    threads.push(thread::spawn(move || {
        let reader = stream.try_clone().unwrap();
        assert_eq!(driver.run_blocking(reader, stream), Ok(()));
    }));
    threads
}

/// One test, since the threads of another one would run on other processors.
#[test]
fn all_ends_on_one_two_and_four_processors_beside_eaters() {
    for count in [4, 2, 1] {
        let watchdog = Arc::new(Watchdog::new(format!("28 ends on {count} processors")));
        on_processors(count);
        IS_OVER.store(false, Ordering::Relaxed);
        let eaters: Vec<_> = (0..EATERS).map(|_| eat()).collect();
        let (here, there) = UnixStream::pair().unwrap();
        let ends = [
            side(here, IssuePolicy::AtOnce, &watchdog),
            side(there, IssuePolicy::LowWater(40), &watchdog),
        ];
        for end in ends.into_iter().flatten() {
            end.join().unwrap();
        }
        IS_OVER.store(true, Ordering::Relaxed);
        eaters.into_iter().for_each(|eater| eater.join().unwrap());
    }
}
