//! A TCP relay between both sides that stops in the middle.
use std::io::{self, Read, Write};
use std::net::{Shutdown, TcpListener, TcpStream};
use std::sync::mpsc::{channel, Receiver, Sender};
use std::thread;

/// The next step of a relay that stalls.
pub enum Then {
    GoOn,
    Cut,
}

/// It forwards this many bytes of the listening side, and then waits for a command.
pub struct Relay {
    pub address: String,
    stalled: Receiver<()>,
    then: Sender<Then>,
}

impl Relay {
    pub fn new(target: String, bytes: u64) -> Relay {
        let listener = TcpListener::bind("127.0.0.1:0").unwrap();
        let address = listener.local_addr().unwrap().to_string();
        let (stalls, stalled) = channel();
        let (then, told) = channel();
        thread::spawn(move || {
            let near = listener.accept().unwrap().0;
            let far = TcpStream::connect(target).unwrap();
            near.set_nodelay(true).unwrap();
            far.set_nodelay(true).unwrap();
            let (from, to) = (near.try_clone().unwrap(), far.try_clone().unwrap());
            thread::spawn(move || pass(from, to));
            stall(far, near, bytes, &stalls, &told);
        });
        Relay {
            address,
            stalled,
            then,
        }
    }

    /// Waits until the bytes were forwarded.
    pub fn stalled(&self) {
        self.stalled.recv().unwrap();
    }

    pub fn then(&self, then: Then) {
        self.then.send(then).unwrap();
    }
}

/// Forwards all bytes, and then the end. If one side is gone, so is the other.
fn pass(mut from: TcpStream, mut to: TcpStream) {
    let end = match io::copy(&mut from, &mut to) {
        Ok(_) => Shutdown::Write,
        Err(_) => Shutdown::Both,
    };
    let _ = to.shutdown(end);
}

fn stall(far: TcpStream, near: TcpStream, bytes: u64, stalls: &Sender<()>, told: &Receiver<Then>) {
    let mut first = far.try_clone().unwrap().take(bytes);
    let passed = io::copy(&mut first, &mut &near).unwrap();
    (&near).flush().unwrap();
    assert_eq!(passed, bytes, "the session is too short to stall");
    stalls.send(()).unwrap();
    match told.recv() {
        Ok(Then::GoOn) => pass(far, near),
        _ => {
            let _ = (far.shutdown(Shutdown::Both), near.shutdown(Shutdown::Both));
        }
    }
}
