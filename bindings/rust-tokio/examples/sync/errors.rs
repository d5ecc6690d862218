//! What fails: one file, or the session.
use std::cell::Cell;
use std::error::Error;
use std::ffi::OsStr;
use std::fmt::{self, Display, Formatter};
use std::io;

/// Why one file failed. The others go on.
#[derive(Debug)]
pub enum FileError {
    Io(io::Error),
    /// The name is not UTF-8, or is that of the folder of partial files.
    BadName,
    /// Another file has the name now, or the file has other contents than when it was offered.
    Changed,
    /// The contents that arrived are shorter or longer than the offer said.
    WrongLength,
    /// A folder or a link has the file's name, or a file that was created meanwhile.
    NameTaken,
    /// The other side could not read the file.
    NotSent,
}

impl Display for FileError {
    fn fmt(&self, f: &mut Formatter<'_>) -> fmt::Result {
        f.write_str(match self {
            FileError::Io(error) => return error.fmt(f),
            FileError::BadName => "no file of this name can be offered",
            FileError::Changed => "the file changed after it was offered",
            FileError::WrongLength => "the contents do not have the length that was offered",
            FileError::NameTaken => "something else has this name here",
            FileError::NotSent => "the other side could not read the file",
        })
    }
}

impl From<io::Error> for FileError {
    fn from(error: io::Error) -> FileError {
        FileError::Io(error)
    }
}

/// How the other side broke the rules of the exchange, which ends the session.
#[derive(Debug)]
pub enum ProtocolError {
    BadOffer(Vec<u8>),
    NotOffered(Vec<u8>),
    BadPiece,
    /// The channel of the contents ended, and a file that was requested had not.
    MissingContents,
}

impl Display for ProtocolError {
    fn fmt(&self, f: &mut Formatter<'_>) -> fmt::Result {
        f.write_str("the other side ")?;
        match self {
            ProtocolError::BadOffer(offer) => {
                write!(f, "sends a malformed offer: {}", offer.escape_ascii())
            }
            ProtocolError::NotOffered(name) => {
                write!(
                    f,
                    "requests a file that was not offered: {}",
                    name.escape_ascii()
                )
            }
            ProtocolError::BadPiece => f.write_str("sends contents of an unknown kind"),
            ProtocolError::MissingContents => {
                f.write_str("ended the contents before a requested file")
            }
        }
    }
}

impl Error for ProtocolError {}

/// Names the files that failed on standard error, and counts them.
#[derive(Default)]
pub struct Failures(Cell<u32>);

impl Failures {
    /// The name is escaped: a peer may have chosen it, and a terminal would obey its control characters.
    pub fn report(&self, name: impl AsRef<OsStr>, error: impl Into<FileError>) {
        eprintln!("sync: {:?}: {}", name.as_ref(), error.into());
        self.0.set(self.0.get() + 1);
    }

    pub fn count(&self) -> u32 {
        self.0.get()
    }
}
