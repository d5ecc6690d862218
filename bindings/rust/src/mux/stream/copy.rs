use crate::Writer;
use std::io::{self, ErrorKind, Read, Write};

/// Copies a reader to its end into a writer, and calls `progress` after each write with the bytes written so far.
/// It returns the sum of all bytes. Either side may be a channel: [`Sender::into_writer`](crate::Sender::into_writer)
/// or [`Receiver::into_reader`](crate::Receiver::into_reader).
///
/// It is [`std::io::copy`] with progress. It holds one buffer of 16,384 bytes, whatever the length of the stream. It
/// neither flushes nor finishes the writer: [`Writer::finish`] does, once the copy has succeeded.
///
/// # Progress
///
/// Each total is above the one before, and the last one is the result. Without a byte there is no call. Written to a
/// channel are bytes in the outbound queue: the peer may not have received them yet.
///
/// # Errors
///
/// The first error of the reader or of the writer, and `WriteZero` if the writer accepts no byte. `Interrupted` is no
/// error: the call is made again. After an error the last total tells how many bytes the writer accepted; up to 16,384
/// bytes more may have left the reader.
///
/// A writer that is dropped after an error finishes its channel all the same. If the peer must not take a part of the
/// stream for the whole, keep [a clone of the sender](crate::Mux#early-returns-and-aborted-tasks).
///
/// # Examples
///
/// ```
/// use lcmux::Writer;
/// use std::{fs::File, io};
///
/// fn send(path: &str, writer: &mut Writer) -> io::Result<u64> {
///     let mut file = File::open(path)?;
///     let len = file.metadata()?.len().max(1);
///     let sent = lcmux::copy(&mut file, writer, |sent| eprint!("\r{} %", 100 * sent / len))?;
///     writer.finish()?;
///     Ok(sent)
/// }
/// # let _ = send;
/// ```
pub fn copy<R, W, P>(reader: &mut R, writer: &mut W, mut progress: P) -> io::Result<u64>
where
    R: Read + ?Sized,
    W: Write + ?Sized,
    P: FnMut(u64),
{
    let mut buffer = vec![0; Writer::LARGEST_MESSAGE];
    let mut total = 0;
    loop {
        let count = again(|| reader.read(&mut buffer))?;
        let mut rest = &buffer[..count];
        if rest.is_empty() {
            return Ok(total);
        }
        while !rest.is_empty() {
            let written = again(|| writer.write(rest))?;
            if written == 0 {
                return Err(ErrorKind::WriteZero.into());
            }
            rest = &rest[written..];
            total += written as u64;
            progress(total);
        }
    }
}

// Repeats a call that a signal interrupts.
fn again(mut call: impl FnMut() -> io::Result<usize>) -> io::Result<usize> {
    loop {
        match call() {
            Err(error) if error.kind() == ErrorKind::Interrupted => {}
            answer => return answer,
        }
    }
}
