//! Seven logical channels each way between two peers, over one ordered byte stream each way, such as a TCP
//! connection, with credit-based flow control for each channel.
//!
//! On each channel the receiver issues *guarantees*. A guarantee is one byte of send credit: the promise of one free
//! byte in the receiver's ring buffer. The sender sends no more bytes than it holds guarantees for. So no message is
//! dropped for lack of space, receive memory is bounded, and a slow consumer puts backpressure on its own channel
//! alone: there is no head-of-line blocking between channels above the transport.
//!
//! The peer below is written in Rattle, Rust with contracts, and proved. This crate calls it over the C interface of
//! `lcmux.h`, in one small module with `unsafe` code. The session, [`Mux`], and its drivers are tested and not
//! proved. The repository's `docs/verification/promises.md` lists what is proved and what is trusted.
//!
//! A [`Mux`] is a session: a [`Sender`] and a [`Receiver`] for each channel, each for a thread or a task of its own,
//! and a [`Driver`], which moves their bytes over any transport. The example runs a session on threads;
//! `examples/session.rs` runs two sessions in two processes.
//!
//! ```no_run
//! use lcmux::{Channel::Data, Config, Mux};
//! use std::{error::Error, net::TcpStream, thread};
//!
//! fn echo(stream: TcpStream) -> Result<(), Box<dyn Error>> {
//!     stream.set_nodelay(true)?;
//!     let (mut mux, driver) = Mux::new(Config::default())?;
//!     let run = thread::spawn(move || driver.run_blocking(stream.try_clone()?, stream));
//!
//!     let (sender, mut receiver) = (mux.take_sender(Data).unwrap(), mux.take_receiver(Data).unwrap());
//!     while let Some(message) = receiver.recv_blocking()? {
//!         sender.send_blocking(&message)?; // which waits until the other side has room
//!     }
//!     drop(sender); // the channel has ended: this way, too
//!     mux.close();
//!     run.join().unwrap()?;
//!     Ok(())
//! }
//! ```
//!
//! In async code the same calls are `receiver.recv().await?` and `sender.send(&message).await?`, with a task for
//! `driver.run(reader, writer)`, on any runtime. [`PollSender`] and [`Receiver::poll_recv`] serve futures that are written
//! by hand. A `Stream` and a `Sink` are in the crate `lcmux-futures`, so that this one has no dependencies.
//!
//! [`Peer`] is the layer below, a pure state machine: bytes in by [`Peer::deliver`], bytes out by [`Peer::write`].
//! [`Peer::read_from`] and [`Peer::write_to`] do the same over any reader and writer. Over blocking sockets, two
//! sides that only call `write_to` deadlock once both have more to write than the sockets buffer. [`Peer::drive`]
//! moves both directions of one stream; if the stream does not block or has timeouts, neither direction blocks the
//! other. `examples/tcp.rs` runs two peers in two processes over TCP.
//!
//! ```rust,no_run
//! use lcmux::{Channel::Data, Config, Incoming, Peer, Refusal, Take, CHANNELS};
//! use std::{error::Error, net::TcpStream, time::Duration};
//!
//! fn serve(mut stream: TcpStream) -> Result<(), Box<dyn Error>> {
//!     // With timeouts neither direction blocks the other for long.
//!     stream.set_read_timeout(Some(Duration::from_millis(10)))?;
//!     stream.set_write_timeout(Some(Duration::from_millis(10)))?;
//!     let mut peer = Peer::new(&Config::new([1024; CHANNELS], 16))?;
//!     let mut free = 1024; // the bytes of the ring buffer that are to be issued
//!     loop {
//!         match peer.issue(Data, free) {
//!             Ok(()) => free = 0,
//!             Err(Refusal::QueueFull) => {} // try again after a write
//!             Err(Refusal::ZeroAmount | Refusal::ChannelFinished) => {} // nothing to issue
//!             Err(refusal) => return Err(refusal.into()),
//!         }
//!         match peer.take(Data) {
//!             Take::Took(message) => {
//!                 println!("{}", String::from_utf8_lossy(&message));
//!                 free += message.len() as u32; // the bytes of a taken message are free again
//!             }
//!             Take::Ended => return Ok(()),
//!             Take::Empty => match peer.drive(&mut stream)?.incoming {
//!                 Incoming::Stopped { error, .. } => return Err(error.into()),
//!                 Incoming::Ended => return Ok(()),
//!                 _ => {}
//!             },
//!         }
//!     }
//! }
//! ```
#![warn(missing_docs)]
#![deny(unsafe_code, unsafe_op_in_unsafe_fn)]

mod channel;
mod config;
mod error;
#[cfg(feature = "simulation")]
#[path = "simulation.rs"]
mod hooks;
mod mux;
mod peer;
mod questions;
mod sys;

pub use channel::{Channel, CHANNELS};
pub use config::{Config, IssuePolicy, PleadPolicy};
pub use error::{
    Fault, FrameHead, Overrun, PeerFault, ProtocolError, ReadError, Refusal, Stop, Violation,
};
pub use mux::{
    copy, Breaker, CallError, Closed, Direction, Driver, Event, Frame, FrameKind, Message, Mux,
    MuxFault, OwnedPermit, Permit, Pipe, PollRead, PollSender, PollWrite, Reader, Receiver,
    RecvTimeoutError, SendError, SendTimeoutError, Sender, Stall, Stats, Timeouts, TryRecvError,
    TrySendError, WriteHalf, Writer,
};
pub use peer::{ClientBook, Delivery, Incoming, Peer, Progress, ServerBook, Take, Version};
pub use questions::{Needs, Ready};

/// The hooks of `lcmux-sim`.
#[cfg(feature = "simulation")]
#[doc(hidden)]
pub mod simulation {
    pub use crate::hooks::{set, Hook, Hooks};
}

/// Returns the version of the linked library: 65,536 times its first number, plus 256 times its second, plus its
/// third. [`Peer::new`] refuses a library of another version than this crate's.
///
/// ```
/// assert_eq!(lcmux::library_version(), 0x000100);
/// ```
pub fn library_version() -> u32 {
    sys::version()
}
