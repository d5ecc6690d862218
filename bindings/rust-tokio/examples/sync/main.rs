//! Two folders get each other's files, over TCP: `sync listen ADDRESS FOLDER` on one side and
//! `sync connect ADDRESS FOLDER` on the other.
//!
//! Offers, requests and contents have a channel each, so a long file delays no offer. Both directions run at once.
//!
//! - A file is identified by its name alone: the contents of two files of one name are not compared. Only regular
//!   files are offered. Links are not followed. No file of either folder is changed, replaced or removed.
//! - An inbound file is written in the folder [`partial::FOLDER`]. Once it is whole and on disk, a hard link gives it
//!   its name, so the file system must have hard links. The next run removes the partial files of a crashed run, so
//!   two runs on one folder at the same time may make files of each other fail.
//! - A file that fails is named on standard error, and the others go on. The exit status is 0 if this side received
//!   each file that it lacked, and sent each file that the other side requested. It is 1 if a file or the session
//!   failed.
mod errors;
mod fetch;
mod listing;
mod messages;
mod partial;
mod serve;
mod session;

use partial::Partials;
use session::{sync, Outcome};
use std::path::Path;
use std::process::ExitCode;
use std::{env, error::Error};
use tokio::net::{TcpListener, TcpStream};

const USAGE: &str = "usage: sync listen|connect ADDRESS FOLDER";

async fn open(how: &str, address: &str) -> Result<TcpStream, Box<dyn Error>> {
    match how {
        "connect" => Ok(TcpStream::connect(address).await?),
        "listen" => {
            let listener = TcpListener::bind(address).await?;
            eprintln!("listening on {}", listener.local_addr()?);
            Ok(listener.accept().await?.0)
        }
        _ => Err(USAGE.into()),
    }
}

async fn run(words: &[&str]) -> Result<Outcome, Box<dyn Error>> {
    let &[how, address, folder] = words else {
        return Err(USAGE.into());
    };
    let folder = Path::new(folder);
    let partials = Partials::open(folder)?;
    let stream = open(how, address).await?;
    stream.set_nodelay(true)?;
    sync(stream, folder, &partials).await
}

#[tokio::main]
async fn main() -> ExitCode {
    let words: Vec<_> = env::args().skip(1).collect();
    let words: Vec<_> = words.iter().map(String::as_str).collect();
    Outcome::report(run(&words).await)
}
