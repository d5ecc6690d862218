//! What the engines have in common: what a client wants, the work of a server, and the results.
//!
//! A client makes calls, all at once, each with a deadline, and uploads a file beside them. A call that is past its
//! deadline is dropped, and the server drops its work. The server works at [`WORKS`] calls at most, and stores the file
//! no faster than its [`Gate`] lets it. Neither side has a queue without a bound.
use futures_util::future::join_all;
use std::error::Error;
use std::future::Future;
use std::time::Duration;
use tokio::io::{AsyncRead, AsyncWrite};
use tokio::sync::watch;
use tokio::time::{sleep, timeout};

pub type Answer<T> = Result<T, Box<dyn Error + Send + Sync>>;

/// The most calls that a server works at.
pub const WORKS: usize = 64;

/// The bytes of a part of the file.
pub const PART: usize = 16_384;

pub trait Stream: AsyncRead + AsyncWrite + Send + Unpin + 'static {}

impl<S: AsyncRead + AsyncWrite + Send + Unpin + 'static> Stream for S {}

/// What a client wants.
pub struct Plan {
    /// The requests, each with its deadline.
    pub calls: Vec<(Duration, String)>,
    /// How long the upload runs before the first call.
    pub head_start: Duration,
    /// The length of the file, in parts.
    pub parts: u32,
}

impl Plan {
    /// Makes the calls. A call past its deadline is dropped, and has no answer.
    pub async fn make<'a, F>(&'a self, call: impl Fn(&'a [u8]) -> F) -> Answer<Vec<Option<Vec<u8>>>>
    where
        F: Future<Output = Answer<Vec<u8>>>,
    {
        sleep(self.head_start).await;
        let calls = self.calls.iter().map(|(deadline, request)| {
            let call = call(request.as_bytes());
            async move { timeout(*deadline, call).await.ok().transpose() }
        });
        join_all(calls).await.into_iter().collect()
    }

    /// The parts of the file.
    pub fn file(&self) -> impl Iterator<Item = Vec<u8>> {
        (0..self.parts).map(|part| part.to_be_bytes().repeat(PART / 4))
    }
}

/// Answers a request: `sleep N` after N milliseconds, and everything else in capitals.
pub async fn work(request: &[u8]) -> Vec<u8> {
    let text = String::from_utf8_lossy(request);
    if let Some(Ok(time)) = text.strip_prefix("sleep ").map(str::parse) {
        sleep(Duration::from_millis(time)).await;
    }
    text.to_uppercase().into_bytes()
}

/// Whether a server stores what arrives of the file.
pub type Gate = watch::Receiver<bool>;

/// A stored file.
#[derive(Debug, Default, PartialEq, Eq)]
pub struct File {
    pub len: u64,
    /// A checksum, in which the order of the bytes counts.
    pub sum: u64,
}

impl File {
    /// Stores bytes once the gate is open.
    pub async fn store(&mut self, bytes: &[u8], gate: &mut Gate) -> Answer<()> {
        while !*gate.borrow_and_update() {
            gate.changed().await?;
        }
        self.len += bytes.len() as u64;
        for byte in bytes {
            self.sum = self.sum.wrapping_mul(31).wrapping_add(u64::from(*byte));
        }
        Ok(())
    }
}

/// What a server did.
#[derive(Debug, PartialEq, Eq)]
pub struct Served {
    pub cancelled: usize,
    pub file: File,
}
