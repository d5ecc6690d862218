//! The channels of [`lcmux`] with the traits of the crate `futures`, on any runtime: messages as streams and sinks, and
//! streams of bytes.
//!
//! [`ReceiverStream`] is a [`Stream`](futures_core::Stream) over a [`Receiver`](lcmux::Receiver), and [`SenderSink`] a
//! [`Sink`](futures_sink::Sink) over a [`Sender`](lcmux::Sender). So the combinators of `StreamExt` and `SinkExt` work
//! on the messages of a channel. [`Writer`] is [`AsyncWrite`](futures_io::AsyncWrite), and [`Reader`]
//! [`AsyncRead`](futures_io::AsyncRead) and [`AsyncBufRead`](futures_io::AsyncBufRead): a stream of bytes over a channel.
//! On tokio, `lcmux-tokio` has both with the traits of tokio. The crate depends on the traits alone, `futures-core`,
//! `futures-sink` and `futures-io`: it needs no runtime. It is beside `lcmux` and no feature of it, so that `lcmux` has no
//! dependencies and builds without an index of crates.
//!
//! ```
//! use futures_util::{SinkExt, StreamExt, TryStreamExt};
//! use lcmux_futures::lcmux::{Receiver, Sender};
//! use lcmux_futures::{ReceiverStream, SenderSink};
//! use std::error::Error;
//!
//! /// Sends each message back in capitals until the peer finishes its channel, and then finishes this side's.
//! async fn shout(receiver: Receiver, sender: Sender) -> Result<(), Box<dyn Error>> {
//!     let messages = ReceiverStream::new(receiver).err_into::<Box<dyn Error>>();
//!     let sink = SenderSink::new(sender).sink_err_into();
//!     messages.map_ok(|message| message.to_ascii_uppercase()).forward(sink).await
//! }
//! # use lcmux::{Channel::Data, Config, Mux, CHANNELS};
//! # use std::{os::unix::net::UnixStream, thread};
//! # let (here, there) = UnixStream::pair()?;
//! # let (mut alice, driver) = Mux::new(Config::new([64; CHANNELS], 16))?;
//! # thread::spawn(move || driver.run_blocking(here.try_clone()?, here));
//! # let (mut bob, driver) = Mux::new(Config::new([64; CHANNELS], 16))?;
//! # thread::spawn(move || driver.run_blocking(there.try_clone()?, there));
//! # let (sender, mut receiver) = (alice.take_sender(Data).unwrap(), alice.take_receiver(Data).unwrap());
//! # sender.send_blocking(b"hello")?;
//! # drop(sender);
//! # tokio::runtime::Builder::new_current_thread().build()?
//! #     .block_on(shout(bob.take_receiver(Data).unwrap(), bob.take_sender(Data).unwrap()))?;
//! # assert_eq!(receiver.recv_blocking()?, Some(b"HELLO".to_vec()));
//! # assert_eq!(receiver.recv_blocking()?, None);
//! # Ok::<(), Box<dyn Error>>(())
//! ```
//!
//! A stream of bytes:
//!
//! ```
//! use futures_util::{AsyncReadExt, AsyncWriteExt};
//! use lcmux::{Channel::Data, Config, Mux, CHANNELS};
//! use lcmux_futures::{Reader, Writer};
//! # use std::{future::Future, os::unix::net::UnixStream, pin::pin, sync::Arc, thread};
//! # use std::task::{Context, Poll, Wake};
//! # struct Unpark(thread::Thread);
//! # impl Wake for Unpark {
//! #     fn wake(self: Arc<Unpark>) { self.0.unpark(); }
//! # }
//! # fn block_on<F: Future>(future: F) -> F::Output {
//! #     let mut future = pin!(future);
//! #     let waker = Arc::new(Unpark(thread::current())).into();
//! #     loop {
//! #         match future.as_mut().poll(&mut Context::from_waker(&waker)) {
//! #             Poll::Ready(output) => return output,
//! #             Poll::Pending => thread::park(),
//! #         }
//! #     }
//! # }
//!
//! # let (here, there) = UnixStream::pair()?;
//! let (mut alice, driver) = Mux::new(Config::new([64; CHANNELS], 16))?;
//! # thread::spawn(move || driver.run_blocking(here.try_clone()?, here));
//! # let (mut bob, driver) = Mux::new(Config::new([64; CHANNELS], 16))?;
//! # thread::spawn(move || driver.run_blocking(there.try_clone()?, there));
//! let mut writer = Writer::new(alice.take_sender(Data).unwrap());
//! let mut reader = Reader::new(bob.take_receiver(Data).unwrap());
//! # thread::spawn(move || block_on(async {
//! writer.write_all(&[b'.'; 1_000]).await?; // through a ring of 64 bytes
//! writer.close().await?;
//! # std::io::Result::Ok(()) }));
//! # block_on(async {
//! let mut text = String::new();
//! reader.read_to_string(&mut text).await?;
//! assert_eq!(text, ".".repeat(1_000));
//! # std::io::Result::Ok(()) })?;
//! # Ok::<(), Box<dyn std::error::Error>>(())
//! ```
//!
//! # Features
//!
//! `bytes` receives messages as `Bytes`: `ReceiverExt` has the calls of a receiver, and `BytesStream` is a stream of
//! them. Sending `Bytes` needs no feature: [`SenderSink`] and `Sender::send_owned` accept whatever is `AsRef<[u8]>`.
#![warn(missing_docs)]
#![forbid(unsafe_code)]

#[cfg(feature = "bytes")]
mod received;
mod sink;
mod stream;
mod streams_of_bytes;

pub use lcmux;
#[cfg(feature = "bytes")]
pub use received::{BytesStream, ReceiverExt, RecvBytes};
pub use sink::SenderSink;
pub use stream::ReceiverStream;
pub use streams_of_bytes::{Reader, Writer};
