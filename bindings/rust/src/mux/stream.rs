//! Streams of bytes over a channel: a writer cuts them into messages, and a reader joins the messages again.
mod copy;
mod reader;
mod writer;

pub use copy::copy;
pub use reader::Reader;
pub use writer::Writer;

use crate::{Closed, Refusal, SendError};
use std::io::{self, ErrorKind};

/// The text of a read or a write whose own timeout expired. Unlike an error of the session it carries no [`Closed`].
const TIMED_OUT: &str = "the call timed out";

fn timed_out() -> io::Error {
    io::Error::new(ErrorKind::TimedOut, TIMED_OUT)
}

// The end of a session as an error of a stream. Callers repeat a call after the two kinds that are replaced here, and
// no further call succeeds.
fn session_error(closed: Closed) -> io::Error {
    let error = io::Error::from(closed.clone());
    match error.kind() {
        ErrorKind::Interrupted | ErrorKind::WouldBlock => {
            io::Error::new(ErrorKind::ConnectionAborted, closed)
        }
        _ => error,
    }
}

fn send_error(error: SendError) -> io::Error {
    match error {
        SendError::Closed(closed) => session_error(closed),
        SendError::Refused(Refusal::OutOfMemory) => io::Error::new(ErrorKind::OutOfMemory, error),
        SendError::Refused(_) | SendError::Unwanted { .. } | SendError::RingTooSmall { .. } => {
            io::Error::new(ErrorKind::BrokenPipe, error)
        }
    }
}

#[cfg(test)]
mod tests {
    use super::*;

    #[test]
    fn no_error_of_a_session_asks_for_the_same_call_again() {
        for (kind, wanted) in [
            (ErrorKind::Interrupted, ErrorKind::ConnectionAborted),
            (ErrorKind::WouldBlock, ErrorKind::ConnectionAborted),
            (ErrorKind::ConnectionReset, ErrorKind::ConnectionReset),
        ] {
            let closed = Closed::from(io::Error::from(kind));
            let error = session_error(closed.clone());
            assert_eq!(error.kind(), wanted);
            let inner = error.get_ref().and_then(|inner| inner.downcast_ref());
            assert_eq!(inner, Some(&closed));
        }
    }
}
