//! The outbound files: offers, and the contents that the other side requests.
use crate::errors::{FileError, ProtocolError};
use crate::listing::{FileVersion, Listing, Name};
use crate::messages::{Offer, Piece};
use lcmux_tokio::lcmux::{Receiver, SendError, Sender};
use std::error::Error;
use std::io;
use std::path::Path;
use tokio::fs::{File, OpenOptions};
use tokio::io::{AsyncReadExt, Take};

/// The most bytes of a file in a message: half of a ring, so one chunk is in transit while another one is written.
const CHUNK: u64 = 32_768;

/// Why the contents of a file end early: the file failed, or the session.
enum Trouble {
    File(FileError),
    Session(SendError),
}

impl From<FileError> for Trouble {
    fn from(error: FileError) -> Trouble {
        Trouble::File(error)
    }
}

impl From<SendError> for Trouble {
    fn from(error: SendError) -> Trouble {
        Trouble::Session(error)
    }
}

/// Sends an offer for each file.
pub async fn offer(listing: &Listing<'_>, offers: &Sender) -> Result<(), Box<dyn Error>> {
    for (name, version) in &listing.files {
        let (name, length) = (name.clone(), version.length);
        offers.send(&Offer { name, length }.encode()).await?;
    }
    Ok(offers.finish()?)
}

/// Sends the contents of each file that the other side requests, if it was offered.
pub async fn serve(
    listing: &Listing<'_>,
    requests: &mut Receiver,
    contents: &Sender,
) -> Result<(), Box<dyn Error>> {
    while let Some(request) = requests.recv().await? {
        let offered = Name::decode(&request).and_then(|name| listing.files.get_key_value(&name));
        let (name, version) = offered.ok_or(ProtocolError::NotOffered(request))?;
        let end = match send_chunks(&listing.path(name), *version, contents).await {
            Ok(()) => Piece::Whole,
            Err(Trouble::File(error)) => {
                listing.failures.report(name.as_str(), error);
                Piece::Failed
            }
            Err(Trouble::Session(error)) => return Err(error.into()),
        };
        contents.send(&end.encode()).await?;
    }
    Ok(contents.finish()?)
}

async fn send_chunks(path: &Path, offered: FileVersion, contents: &Sender) -> Result<(), Trouble> {
    let mut source = Source::open(path, offered).await?;
    while let Some(chunk) = source.next().await? {
        contents.send(&Piece::Chunk(&chunk).encode()).await?;
    }
    Ok(())
}

/// An open file, with the version that was offered.
struct Source {
    file: Take<File>,
    offered: FileVersion,
}

impl Source {
    async fn open(path: &Path, offered: FileVersion) -> Result<Source, FileError> {
        // A link that took the file's place is not followed, and a pipe does not block the open.
        let mut options = OpenOptions::new();
        options
            .read(true)
            .custom_flags(libc::O_NOFOLLOW | libc::O_NONBLOCK);
        let file = options.open(path).await?.take(offered.length);
        let source = Source { file, offered };
        source.check().await?;
        Ok(source)
    }

    /// The next chunk, and `None` at the end of a file that did not change while it was read.
    async fn next(&mut self) -> Result<Option<Vec<u8>>, FileError> {
        let mut chunk = Vec::new();
        (&mut self.file).take(CHUNK).read_to_end(&mut chunk).await?;
        if chunk.is_empty() {
            self.check().await?;
            return Ok(None);
        }
        Ok(Some(chunk))
    }

    async fn check(&self) -> Result<(), FileError> {
        let found: io::Result<_> = self.file.get_ref().metadata().await;
        match FileVersion::of(&found?) == self.offered {
            true => Ok(()),
            false => Err(FileError::Changed),
        }
    }
}
