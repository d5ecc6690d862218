use super::sender::{filled, Sender};
use super::state::Body;
use crate::SendError;
use std::fmt::{self, Formatter};
use std::io::IoSlice;

/// A [`Permit`](crate::Permit) that borrows nothing: it has a clone of its sender, so it may move to another task or
/// thread.
///
/// The clone keeps the channel open, even if the permit outlives all other senders: the channel is then finished once
/// the permit is used or dropped. A dropped permit returns its guarantees and its slot. A permit that a panic drops
/// aborts the session, as a sender does.
///
/// [`Sender::reserve_owned`] and [`Sender::try_reserve_owned`] reserve one, and
/// [`Permit::into_owned`](crate::Permit::into_owned) makes one from any other permit.
///
/// ```
/// use lcmux::{Channel::Data, Config, Mux, CHANNELS};
/// # use std::os::unix::net::UnixStream;
/// use std::thread;
/// # let (here, there) = UnixStream::pair()?;
/// # let (mut alice, driver) = Mux::new(Config::new([64; CHANNELS], 16))?;
/// # thread::spawn(move || driver.run_blocking(here.try_clone()?, here));
/// # let (mut bob, driver) = Mux::new(Config::new([64; CHANNELS], 16))?;
/// # thread::spawn(move || driver.run_blocking(there.try_clone()?, there));
/// let sender = alice.take_sender(Data).unwrap();
/// let permit = sender.reserve_blocking(60)?.into_owned();
/// drop(sender);
/// let sent = thread::spawn(move || permit.send(b"hello")); // and finishes the channel
/// sent.join().unwrap()?;
/// let mut receiver = bob.take_receiver(Data).unwrap();
/// assert_eq!(receiver.recv_blocking()?, Some(b"hello".to_vec()));
/// assert_eq!(receiver.recv_blocking()?, None);
/// # Ok::<(), Box<dyn std::error::Error>>(())
/// ```
#[must_use = "a dropped permit returns its guarantees"]
pub struct OwnedPermit {
    sender: Sender,
    /// The length of the longest message, until the permit is used.
    reserved: Option<usize>,
}

impl OwnedPermit {
    pub(super) fn new(sender: Sender, len: usize) -> OwnedPermit {
        OwnedPermit {
            sender,
            reserved: Some(len),
        }
    }

    /// Returns the length of the longest message that the permit allows.
    #[allow(clippy::len_without_is_empty)]
    pub fn len(&self) -> usize {
        self.reserved.unwrap_or(0)
    }

    /// Sends the message at once, returns the guarantees that it does not need, and drops the clone of the sender.
    /// This uses up the permit, whatever the result.
    ///
    /// # Errors
    ///
    /// Those of [`Permit::send`](crate::Permit::send).
    pub fn send(self, body: &[u8]) -> Result<(), SendError> {
        self.send_body(body.into())
    }

    /// Sends a message in several slices, as [`OwnedPermit::send`] does.
    ///
    /// # Errors
    ///
    /// Those of [`Permit::send`](crate::Permit::send).
    ///
    /// ```
    /// use lcmux::{OwnedPermit, SendError};
    /// use std::io::IoSlice;
    ///
    /// fn send_block(permit: OwnedPermit, number: u32, block: &[u8]) -> Result<(), SendError> {
    ///     permit.send_vectored(&[IoSlice::new(&number.to_be_bytes()), IoSlice::new(block)])
    /// }
    /// # let _ = send_block;
    /// ```
    pub fn send_vectored(self, slices: &[IoSlice<'_>]) -> Result<(), SendError> {
        self.send_body(slices.into())
    }

    /// Lets a closure write the message in place, and sends it, as [`Permit::fill`](crate::Permit::fill) does.
    ///
    /// # Errors
    ///
    /// Those of [`Permit::fill`](crate::Permit::fill).
    ///
    /// # Panics
    ///
    /// If the closure panics: the permit is dropped then, and a panic that drops its sender aborts the session.
    ///
    /// ```
    /// use lcmux::{OwnedPermit, SendError};
    /// use std::{fs::File, io::Read};
    ///
    /// /// Sends the next bytes of a file, as many as the permit allows; none at its end, or if it fails.
    /// fn send_next(permit: OwnedPermit, file: &mut File) -> Result<usize, SendError> {
    ///     permit.fill(|message| file.read(message).unwrap_or(0))
    /// }
    /// # let _ = send_next;
    /// ```
    pub fn fill(mut self, fill: impl FnOnce(&mut [u8]) -> usize) -> Result<usize, SendError> {
        let filled = filled(&self.sender.shared, self.len(), fill)?;
        let len = self.reserved.take().unwrap_or(0);
        let Sender {
            shared, channel, ..
        } = &self.sender;
        shared.with(|state| state.send_filled(*channel, len, filled))
    }

    fn send_body(mut self, body: Body) -> Result<(), SendError> {
        let len = self.reserved.take().unwrap_or(0);
        let Sender {
            shared, channel, ..
        } = &self.sender;
        shared.with(|state| state.send_reserved(*channel, len, body))
    }
}

impl Drop for OwnedPermit {
    fn drop(&mut self) {
        if let Some(len) = self.reserved.take() {
            let Sender {
                shared, channel, ..
            } = &self.sender;
            shared.with(|state| state.give_back(*channel, len));
        }
    }
}

impl fmt::Debug for OwnedPermit {
    fn fmt(&self, f: &mut Formatter<'_>) -> fmt::Result {
        f.debug_struct("OwnedPermit")
            .field("channel", &self.sender.channel())
            .field("len", &self.len())
            .finish()
    }
}
