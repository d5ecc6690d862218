//! A deterministic simulator for engines on [`lcmux`]. Both sides of a session run in one thread, over a link in memory and
//! by virtual time, and a seed decides all that is left to chance. A test that fails is replayed by its seed, and shrunk.
//!
//! - [`Sim::run`] runs both sides of an engine, whose tasks are those of tokio. [`Stream`] is one end of the link.
//! - [`Faults`] are what may happen: latency, jitter, bandwidth, partial reads and writes, cuts, half-closes, resets,
//!   silence, crashes, slow readers, refused memory and failing files ([`Kind`]).
//! - [`Explorer`] runs a test by many seeds, and reports the first failure: its seed, and the simplest run that still fails.
//! - [`Trace`] is what happened, byte for byte, and `lcmux_chart` draws it.
//! - [`fs`] has the calls of `tokio::fs`, which itself runs on threads.
//!
//! ```
//! use lcmux_sim::{Explorer, Faults, Sim, Stream};
//! use lcmux_tokio::connect;
//! use lcmux_tokio::lcmux::{Channel::Data, Closed, Config};
//!
//! async fn send(stream: Stream, count: u64) -> Result<(), Closed> {
//!     let (mut mux, run) = connect(stream, Config::default()).unwrap();
//!     let sender = mux.take_sender(Data).unwrap();
//!     for number in 0..count {
//!         if sender.send(&number.to_be_bytes()).await.is_err() {
//!             mux.abort(); // else the end of the channel would look like that of the numbers
//!             break;
//!         }
//!     }
//!     drop(sender);
//!     mux.close();
//!     run.await.unwrap()
//! }
//!
//! async fn count(stream: Stream) -> Result<u64, Closed> {
//!     let (mut mux, run) = connect(stream, Config::default()).unwrap();
//!     let (mut receiver, mut count) = (mux.take_receiver(Data).unwrap(), 0);
//!     while receiver.recv().await?.is_some() {
//!         count += 1;
//!     }
//!     mux.close();
//!     run.await.unwrap()?;
//!     Ok(count)
//! }
//!
//! fn all_arrive(sim: &mut Sim) {
//!     let wanted = sim.draw("count", 0..=20);
//!     let run = sim.run(|stream| send(stream, wanted), count);
//!     if let Some(Ok(count)) = run.b {
//!         assert_eq!(count, wanted);
//!     }
//! }
//!
//! // In a test, of more seeds.
//! Explorer::new(Faults::timing()).seeds(100).check(all_arrive);
//! ```
//!
//! # What a seed determines
//!
//! A run is the same for the same seed, the same test and the same build, byte for byte. The order in which the tasks of an
//! engine proceed is drawn: each call of a session, each read and each write may yield. An engine decides nothing by chance
//! itself if it keeps to this:
//!
//! - `tokio::select!` begins at a random branch. Write `biased;` in it, or build with `--cfg tokio_unstable`: then the seed
//!   decides it, too.
//! - Time is tokio's: `tokio::time::Instant`, `sleep`, `timeout`. It is virtual, in steps of a millisecond, and passes while
//!   all tasks wait.
//! - Threads, and with them `spawn_blocking` and `tokio::fs`, have an order of their own. [`fs`] is there for files.
//! - The order of a `HashMap` differs from run to run.
//!
//! [`Explorer::twice`] finds an engine that does not.
//!
//! # What is not simulated
//!
//! One link is between two sides: an engine of more sessions has one of them in a run. Bytes are neither lost nor changed
//! within a stream, as over TCP. A crash drops the future of a side, after [`Sim::on_crash`], and cuts its stream off; tasks
//! that the side has spawned notice that as an error. A loop that never waits is not interrupted.
#![warn(missing_docs)]
#![forbid(unsafe_code)]

mod choices;
mod current;
mod explore;
mod faults;
mod frames;
pub mod fs;
mod link;
mod quiet;
mod sim;
mod trace;
mod world;

pub use current::note;
pub use explore::{Explorer, Failure};
pub use faults::{Fault, Faults, Kind, Side};
pub use link::Stream;
pub use sim::{Run, Sim};
pub use trace::{Entry, Event, Trace};

/// Runs the example of the README.
#[cfg(doctest)]
#[doc = include_str!("../README.md")]
struct Readme;
