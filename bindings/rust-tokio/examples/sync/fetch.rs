//! The inbound files: requests for those that are missing here, and their contents.
use crate::errors::{Failures, FileError, ProtocolError};
use crate::listing::Name;
use crate::messages::{Offer, Piece};
use crate::partial::{Partial, Partials};
use lcmux_tokio::lcmux::{Receiver, Sender};
use std::error::Error;
use std::io::ErrorKind;
use std::path::{Path, PathBuf};
use tokio::fs;
use tokio::sync::mpsc;

/// Where inbound files go.
pub struct Fetch<'a> {
    pub folder: &'a Path,
    pub partials: &'a Partials,
    pub failures: &'a Failures,
}

impl Fetch<'_> {
    /// Requests each file that is offered and missing here.
    pub async fn request(
        &self,
        offers: &mut Receiver,
        requests: &Sender,
        requested: mpsc::Sender<Offer>,
    ) -> Result<(), Box<dyn Error>> {
        while let Some(offer) = offers.recv().await? {
            let offer = Offer::decode(&offer)?;
            match self.is_missing(&offer.name).await {
                Ok(true) => {
                    requests.send(offer.name.as_str().as_bytes()).await?;
                    requested.send(offer).await?;
                }
                Ok(false) => {}
                Err(error) => self.failures.report(offer.name.as_str(), error),
            }
        }
        Ok(requests.finish()?)
    }

    /// Receives the contents of each file that was requested, and counts those that are now here.
    pub async fn receive(
        &self,
        mut requested: mpsc::Receiver<Offer>,
        contents: &mut Receiver,
    ) -> Result<u32, Box<dyn Error>> {
        let mut fetched = 0;
        while let Some(offer) = requested.recv().await {
            let placed = match self.receive_one(&offer, contents).await? {
                Ok(partial) => partial.place(&self.path(&offer.name)).await,
                Err(error) => Err(error),
            };
            match placed {
                Ok(()) => fetched += 1,
                Err(error) => self.failures.report(offer.name.as_str(), error),
            }
        }
        Ok(fetched)
    }

    /// Receives the contents of a file to their end, also of one that failed before: those of the next one follow.
    async fn receive_one(
        &self,
        offer: &Offer,
        contents: &mut Receiver,
    ) -> Result<Result<Partial, FileError>, Box<dyn Error>> {
        let mut partial = self.partials.create(offer.length).await;
        loop {
            let message = contents.recv().await?;
            match Piece::decode(&message.ok_or(ProtocolError::MissingContents)?)? {
                Piece::Chunk(chunk) => {
                    partial = match partial {
                        Ok(partial) => partial.write(chunk).await,
                        failed => failed,
                    }
                }
                Piece::Whole => return Ok(partial),
                Piece::Failed => return Ok(Err(FileError::NotSent)),
            }
        }
    }

    async fn is_missing(&self, name: &Name) -> Result<bool, FileError> {
        match fs::symlink_metadata(self.path(name)).await {
            Ok(found) if found.is_file() => Ok(false),
            Ok(_) => Err(FileError::NameTaken),
            Err(error) if error.kind() == ErrorKind::NotFound => Ok(true),
            Err(error) => Err(error.into()),
        }
    }

    fn path(&self, name: &Name) -> PathBuf {
        self.folder.join(name.as_str())
    }
}
