//! A session of the sync over any stream, which is the same on both sides.
use crate::errors::Failures;
use crate::fetch::Fetch;
use crate::listing::Listing;
use crate::partial::Partials;
use crate::serve;
use lcmux_tokio::connect;
use lcmux_tokio::lcmux::Channel::{Data, PayloadRequest, Reconciliation};
use lcmux_tokio::lcmux::{Channel, Config, Mux, Receiver, Sender};
use std::error::Error;
use std::path::Path;
use std::process::ExitCode;
use std::time::Duration;
use tokio::io::{AsyncRead, AsyncWrite};
use tokio::sync::mpsc;

/// The most requests without an answer. Their offers are kept in memory, which a peer must not be able to fill.
const REQUESTS: usize = 256;

/// How many files a run received, and how many failed.
pub struct Outcome {
    fetched: u32,
    failed: u32,
}

impl Outcome {
    /// Prints the outcome of a run, and returns its exit status.
    pub fn report(outcome: Result<Outcome, Box<dyn Error>>) -> ExitCode {
        match outcome {
            Ok(Outcome { fetched, failed }) => {
                println!("got {fetched} files");
                if failed == 0 {
                    return ExitCode::SUCCESS;
                }
                eprintln!("sync: {failed} files failed");
            }
            Err(error) => eprintln!("sync: {error}"),
        }
        ExitCode::FAILURE
    }
}

/// Both handles of a channel.
struct Handles {
    sender: Sender,
    receiver: Receiver,
}

impl Handles {
    fn take(mux: &mut Mux, channel: Channel) -> Handles {
        Handles {
            sender: mux.take_sender(channel).expect("each is taken once"),
            receiver: mux.take_receiver(channel).expect("each is taken once"),
        }
    }
}

// A side that is done waits for the other one, which may still store hundreds of files: hence the long grace.
fn config() -> Config {
    Config::default()
        .idle(Duration::from_secs(60))
        .keep_alive(Duration::from_secs(20))
        .grace(Duration::from_secs(600))
}

/// Runs a session, and ends it: in order if all went well, else by an abort.
pub async fn sync<S>(
    stream: S,
    folder: &Path,
    partials: &Partials,
) -> Result<Outcome, Box<dyn Error>>
where
    S: AsyncRead + AsyncWrite + Send + 'static,
{
    let failures = Failures::default();
    let listing = Listing::read(folder, &failures)?;
    let (mut mux, run) = connect(stream, config())?;
    let mut channels = [Reconciliation, PayloadRequest, Data].map(|it| Handles::take(&mut mux, it));
    let fetch = Fetch {
        folder,
        partials,
        failures: &failures,
    };
    let exchanged = exchange(&mut channels, &listing, &fetch).await;
    match exchanged {
        Ok(_) => mux.close(),
        // Abort while `channels` still owns the senders. A dropped sender ends its channel in order, so the other
        // side would take this failure for the end of the offers or of the contents. A panic aborts by itself: it
        // drops the senders while the thread unwinds.
        Err(_) => mux.abort(),
    }
    let closed = run.await?;
    let fetched = exchanged.map_err(|error| format!("the session ended early: {error}"))?;
    closed?;
    Ok(Outcome {
        fetched,
        failed: failures.count(),
    })
}

/// Runs four tasks at once: two send this side's files, two fetch those of the other side. Each task finishes its
/// outbound channel once it is done, and the first error ends all four.
async fn exchange(
    [offers, requests, contents]: &mut [Handles; 3],
    listing: &Listing<'_>,
    fetch: &Fetch<'_>,
) -> Result<u32, Box<dyn Error>> {
    let (requested, to_fetch) = mpsc::channel(REQUESTS);
    let (_, _, _, fetched) = tokio::try_join!(
        serve::offer(listing, &offers.sender),
        serve::serve(listing, &mut requests.receiver, &contents.sender),
        fetch.request(&mut offers.receiver, &requests.sender, requested),
        fetch.receive(to_fetch, &mut contents.receiver),
    )?;
    Ok(fetched)
}
