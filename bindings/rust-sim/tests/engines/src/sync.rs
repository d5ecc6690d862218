//! A side of the folder sync over a stream, as its `main` runs one over TCP.
use super::*;
use std::path::PathBuf;

/// How many files arrived, and how many failed.
pub type Ended = Result<(u32, u32), String>;

/// Runs a side.
pub async fn side(stream: lcmux_sim::Stream, folder: PathBuf) -> Ended {
    let partials = Partials::open(&folder).map_err(|error| error.to_string())?;
    match sync(stream, &folder, &partials).await {
        Ok(outcome) => Ok((outcome.fetched, outcome.failed)),
        Err(error) => Err(error.to_string()),
    }
}
