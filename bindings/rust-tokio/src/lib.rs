//! Sessions of [`lcmux`] on tokio: seven logical channels each way, with credit-based flow control for each, over any
//! stream that is [`AsyncRead`] and [`AsyncWrite`].
//!
//! [`connect`] makes a session and spawns a task that moves its bytes. It returns the [`Mux`] of [`lcmux`], whose
//! calls are futures that need no particular runtime: `sender.send(&message).await?` and `receiver.recv().await?`.
//!
//! ```no_run
//! use lcmux_tokio::{connect, lcmux::{Channel::Data, Config}};
//! use std::error::Error;
//! use tokio::net::TcpStream;
//!
//! async fn echo(stream: TcpStream) -> Result<(), Box<dyn Error>> {
//!     stream.set_nodelay(true)?;
//!     let (mut mux, run) = connect(stream, Config::default())?;
//!
//!     let (sender, mut receiver) = (mux.take_sender(Data).unwrap(), mux.take_receiver(Data).unwrap());
//!     while let Some(message) = receiver.recv().await? {
//!         sender.send(&message).await?; // waits until the peer has issued enough guarantees
//!     }
//!     drop(sender); // finishes this direction of the channel
//!     mux.close();
//!     run.await??;
//!     Ok(())
//! }
//! ```
//!
//! [`Writer`] and [`Reader`] make a stream of bytes of a channel, for `tokio::io::copy` and everything else that is
//! written for [`AsyncWrite`] and [`AsyncRead`]. [`copy`] and [`copy_buf`] are those of tokio, with progress.
//!
//! # How a session ends
//!
//! - By [`Mux::close`], or by dropping the `Mux` and all its handles: the task writes all accepted messages, finishes
//!   every channel, flushes the stream and shuts it down for writing. Then it reads until the peer has ended its own
//!   direction, for at most [`Timeouts::grace`](lcmux::Timeouts::grace), and returns `Ok`.
//! - By [`Mux::abort`], by a stream that fails or is [cut](Closed::Cut), by a peer that breaks the framing or a rule,
//!   and by a timeout: the task drops the stream and returns the reason, as do all waiting calls.
//! - By aborting the task, or by dropping the runtime: the session is [aborted](Closed::Aborted). Dropping the
//!   [`JoinHandle`] ends nothing: the task runs until the session is over.
//!
//! # Cancel safety
//!
//! The futures of [`lcmux`] document what happens if they are dropped before they complete. All calls of the handles
//! are cancel safe, so they may be used in a `select!` or in a task that is aborted. [`run`] is not: dropping it
//! aborts the session.
//!
//! # Features
//!
//! `tracing` reports each session to the crate `tracing`, in a span `session` below the one in which [`connect`] is
//! called, or in which [`run`] is polled first: each frame at the level trace, each stall of a sender at debug, a message
//! that is longer than all that the peer ever issued at once and a failure at warn, and an end in order at info. The
//! target is `lcmux`.
#![warn(missing_docs)]
#![forbid(unsafe_code)]

mod alarm;
mod copy;
mod link;
mod stream;
#[cfg(feature = "tracing")]
mod trace;

pub use copy::{copy, copy_buf};
pub use lcmux;

pub use stream::{Reader, Writer};

use lcmux::{Closed, Config, Driver, Mux, MuxFault};
use link::Link;
use std::future::poll_fn;
use std::pin::pin;
use tokio::io::{AsyncRead, AsyncWrite};
use tokio::task::JoinHandle;

/// Makes a session over a stream, and spawns the task that moves its bytes. The task completes once both directions
/// ended or the session failed, and has dropped the stream by then.
///
/// The driver already writes large chunks: set `TCP_NODELAY` on a `TcpStream`, and wrap no stream in a buffer.
///
/// # Errors
///
/// Those of [`Mux::new`].
///
/// # Panics
///
/// Outside the context of a runtime, as [`tokio::spawn`] does. The task panics, and so aborts the session, if a
/// [timeout](lcmux::Timeouts) is set, as the grace is by default, and the timers of the runtime are not enabled.
///
/// # Examples
///
/// ```
/// use lcmux_tokio::{connect, lcmux::{Channel::Data, Config, CHANNELS}};
///
/// # #[tokio::main(flavor = "current_thread")]
/// # async fn main() -> Result<(), Box<dyn std::error::Error>> {
/// let (here, there) = tokio::io::duplex(4096);
/// let (mut alice, run) = connect(here, Config::new([1024; CHANNELS], 16))?;
/// let (mut bob, _) = connect(there, Config::new([1024; CHANNELS], 16))?;
///
/// alice.take_sender(Data).unwrap().send(b"hello").await?;
/// let mut receiver = bob.take_receiver(Data).unwrap();
/// assert_eq!(receiver.recv().await?, Some(b"hello".to_vec()));
/// alice.close();
/// bob.close();
/// run.await??;
/// # Ok(())
/// # }
/// ```
pub fn connect<S>(
    stream: S,
    config: Config,
) -> Result<(Mux, JoinHandle<Result<(), Closed>>), MuxFault>
where
    S: AsyncRead + AsyncWrite + Send + 'static,
{
    let (mux, driver) = Mux::new(config)?;
    Ok((mux, tokio::spawn(drive(traced(driver), stream))))
}

/// Runs a session over a stream as a future, for applications that spawn it themselves or register a [hook for each
/// frame](Driver::on_frame).
///
/// # Cancel safety
///
/// This function is not cancel safe: a future that is dropped before it completes aborts the session.
///
/// # Errors
///
/// The reason why the session failed.
///
/// # Panics
///
/// If a timeout is set and the timers of the runtime are not enabled, as the task of [`connect`] does.
///
/// # Examples
///
/// ```
/// use lcmux_tokio::{lcmux::{Config, Mux}, run};
///
/// # #[tokio::main(flavor = "current_thread")]
/// # async fn main() -> Result<(), Box<dyn std::error::Error>> {
/// let (here, there) = tokio::io::duplex(4096);
/// let (alice, driver) = Mux::new(Config::default())?;
/// let (bob, other) = Mux::new(Config::default())?;
/// alice.close();
/// bob.close();
/// tokio::try_join!(
///     run(driver, here),
///     run(other, there),
/// )?;
/// # Ok(())
/// # }
/// ```
pub async fn run<S>(driver: Driver, stream: S) -> Result<(), Closed>
where
    S: AsyncRead + AsyncWrite,
{
    drive(traced(driver), stream).await
}

#[cfg_attr(not(feature = "tracing"), allow(unused_mut))]
fn traced(mut driver: Driver) -> Driver {
    #[cfg(feature = "tracing")]
    trace::attach(&mut driver);
    driver
}

async fn drive<S>(mut driver: Driver, stream: S) -> Result<(), Closed>
where
    S: AsyncRead + AsyncWrite,
{
    let stream = pin!(stream);
    let mut link = Link::new(stream, driver.timeouts());
    poll_fn(|cx| link.poll(cx, &mut driver)).await
}

/// Runs the example of the README.
#[cfg(doctest)]
#[doc = include_str!("../README.md")]
struct Readme;
