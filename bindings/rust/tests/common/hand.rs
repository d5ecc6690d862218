//! A session whose bytes the test moves by hand.
pub use crate::call::{Call, Count};
use crate::watchdog::Watchdog;
use lcmux::{Channel, Closed, Config, Driver, Mux, Peer, PollRead, PollWrite, CHANNELS};
use std::io;
use std::sync::Arc;
use std::task::{Context, Poll, Waker};
use std::thread;

/// The reason of a session with rings of 64 bytes, all of them issued, whose peer sent these bytes.
pub fn broken(bytes: &[u8]) -> Closed {
    let mut peer = Peer::new(&Config::new([64; CHANNELS], 16)).unwrap();
    for channel in Channel::ALL {
        peer.issue(channel, 64).unwrap();
    }
    let _ = peer.deliver(bytes);
    peer.protocol_error().expect("they break a rule").into()
}

/// Inbound bytes, after which the transport is pending.
pub struct Feed<'a>(pub &'a [u8]);

impl PollRead for Feed<'_> {
    fn poll_read(&mut self, cx: &mut Context<'_>, buffer: &mut [u8]) -> Poll<io::Result<usize>> {
        match self.0.is_empty() {
            true => Poll::Pending,
            false => self.0.poll_read(cx, buffer),
        }
    }
}

/// Accepts this many bytes, and then none.
struct Narrow<'a>(&'a mut Vec<u8>, usize);

impl PollWrite for Narrow<'_> {
    fn poll_write(&mut self, _: &mut Context<'_>, bytes: &[u8]) -> Poll<io::Result<usize>> {
        let count = self.1.min(bytes.len());
        if count == 0 {
            return Poll::Pending;
        }
        self.1 -= count;
        self.0.extend(&bytes[..count]);
        Poll::Ready(Ok(count))
    }

    fn poll_flush(&mut self, _: &mut Context<'_>) -> Poll<io::Result<()>> {
        Poll::Ready(Ok(()))
    }

    fn poll_close(&mut self, _: &mut Context<'_>) -> Poll<io::Result<()>> {
        Poll::Ready(Ok(()))
    }
}

pub struct Hand {
    pub mux: Mux,
    pub driver: Driver,
    pub written: Arc<Count>,
    // No thread moves the bytes, so a call that waits by mistake would wait forever.
    _watchdog: Watchdog,
}

impl Hand {
    pub fn new(config: Config) -> Hand {
        let (mux, driver) = Mux::new(config).unwrap();
        let test = thread::current().name().unwrap_or("a test").to_string();
        Hand {
            mux,
            driver,
            written: Arc::default(),
            _watchdog: Watchdog::new(test),
        }
    }

    /// A session whose first issues are written.
    pub fn started(config: Config) -> Hand {
        let mut hand = Hand::new(config);
        hand.written();
        hand
    }

    pub fn read(&mut self, reader: &mut impl PollRead) -> Poll<Result<(), Closed>> {
        let waker = Waker::from(Arc::new(Count::default()));
        self.driver
            .poll_read(&mut Context::from_waker(&waker), reader)
    }

    pub fn write(&mut self, writer: &mut impl PollWrite) -> Poll<Result<(), Closed>> {
        let waker = Waker::from(Arc::clone(&self.written));
        self.driver
            .poll_write(&mut Context::from_waker(&waker), writer)
    }

    /// Delivers inbound bytes.
    pub fn feed(&mut self, bytes: &[u8]) {
        assert_eq!(self.read(&mut Feed(bytes)), Poll::Pending);
    }

    /// Returns all pending bytes.
    pub fn written(&mut self) -> Vec<u8> {
        let mut bytes = Vec::new();
        assert_eq!(self.write(&mut bytes), Poll::Pending);
        bytes
    }

    /// Returns the next pending bytes, of which the transport accepts no more than this many.
    pub fn written_at_most(&mut self, most: usize) -> Vec<u8> {
        let mut bytes = Vec::new();
        assert_eq!(self.write(&mut Narrow(&mut bytes, most)), Poll::Pending);
        bytes
    }

    /// Returns how often the writing half was woken.
    pub fn write_wakes(&self) -> usize {
        self.written.count()
    }
}
