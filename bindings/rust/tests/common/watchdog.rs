use std::io::{self, Write};
use std::sync::mpsc::{self, RecvTimeoutError, Sender};
use std::time::Duration;
use std::{process, thread};

/// Ends the whole program, with a message, if it is neither fed nor dropped within five minutes: a call that hangs does
/// not hang the gate, and a busy machine does not look like such a call.
pub struct Watchdog {
    alive: Sender<()>,
}

impl Watchdog {
    pub fn new(what: impl Into<String>) -> Watchdog {
        let (alive, watched) = mpsc::channel::<()>();
        let what = what.into();
        thread::spawn(move || loop {
            match watched.recv_timeout(Duration::from_secs(300)) {
                Ok(()) => {}
                Err(RecvTimeoutError::Disconnected) => return,
                Err(RecvTimeoutError::Timeout) => {
                    // Bypasses the capture of a test's output, which is lost with the program.
                    let _ = writeln!(io::stderr(), "{what} hangs");
                    process::abort();
                }
            }
        });
        Watchdog { alive }
    }

    /// Restarts the time after progress: for tests that a busy machine may slow down.
    #[allow(dead_code)]
    pub fn feed(&self) {
        let _ = self.alive.send(());
    }
}
