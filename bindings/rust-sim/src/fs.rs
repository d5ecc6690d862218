//! The calls of `tokio::fs` that an engine uses most, for its simulated runs: tokio's run on threads, whose order no seed
//! decides.
//!
//! Each call is made at once on the thread of the run, over the files of the system, and takes some virtual time by the
//! seed. [`Kind::Disk`](crate::Kind::Disk) lets some of them fail. Nothing is forced to a disk: `sync_all` and `sync_data`
//! do nothing, so that runs are short. Outside of a run the calls are made at once.
//!
//! An engine imports its files by one name, and a build for the simulator gives that name to this module:
//!
//! ```text
//! #[cfg(not(test))]
//! use tokio::fs as files;
//! #[cfg(test)]
//! use lcmux_sim::fs as files;
//! ```
use crate::current::current;
use crate::world::World;
use std::fs::{self, Metadata};
use std::io::{self, Read, Seek, SeekFrom, Write};
use std::path::{Path, PathBuf};
use std::pin::Pin;
use std::task::{Context, Poll};
use std::time::Duration;
use tokio::io::{AsyncRead, AsyncSeek, AsyncWrite, ReadBuf};
use tokio::time::sleep;

// Takes some virtual time, or none, and fails where the disk does.
async fn begin() -> io::Result<()> {
    let pause = current(|world| match world.below(4) {
        3 => world.below(20),
        _ => 0,
    });
    if let Some(pause) = pause.filter(|pause| *pause > 0) {
        sleep(Duration::from_millis(pause)).await;
    }
    refused()
}

fn refused() -> io::Result<()> {
    const NO_SPACE: i32 = 28;
    match current(World::refuses_file) {
        Some(true) => Err(io::Error::from_raw_os_error(NO_SPACE)),
        _ => Ok(()),
    }
}

macro_rules! calls {
    ($($(#[$attribute:meta])* $name:ident($($argument:ident: $kind:ty),*) -> $answer:ty;)*) => {
        $(
            $(#[$attribute])*
            pub async fn $name($($argument: $kind),*) -> io::Result<$answer> {
                begin().await?;
                fs::$name($($argument),*)
            }
        )*
    };
}

calls! {
    /// Creates a folder.
    create_dir(path: impl AsRef<Path>) -> ();
    /// Creates a folder and those above it.
    create_dir_all(path: impl AsRef<Path>) -> ();
    /// Gives a file another name, on the same file system.
    hard_link(from: impl AsRef<Path>, to: impl AsRef<Path>) -> ();
    /// Returns what is known of a file, behind links.
    metadata(path: impl AsRef<Path>) -> Metadata;
    /// Returns what is known of a file or a link.
    symlink_metadata(path: impl AsRef<Path>) -> Metadata;
    /// Returns the path without links.
    canonicalize(path: impl AsRef<Path>) -> PathBuf;
    /// Reads a whole file.
    read(path: impl AsRef<Path>) -> Vec<u8>;
    /// Reads a whole file of text.
    read_to_string(path: impl AsRef<Path>) -> String;
    /// Removes a file.
    remove_file(path: impl AsRef<Path>) -> ();
    /// Removes an empty folder.
    remove_dir(path: impl AsRef<Path>) -> ();
    /// Removes a folder and all in it.
    remove_dir_all(path: impl AsRef<Path>) -> ();
    /// Gives a file another name in place of its own, and replaces a file of that name.
    rename(from: impl AsRef<Path>, to: impl AsRef<Path>) -> ();
    /// Writes a whole file, and replaces one of its name.
    write(path: impl AsRef<Path>, contents: impl AsRef<[u8]>) -> ();
}

/// How a file is opened.
#[derive(Clone, Debug)]
pub struct OpenOptions(fs::OpenOptions);

impl Default for OpenOptions {
    fn default() -> OpenOptions {
        OpenOptions::new()
    }
}

macro_rules! options {
    ($($(#[$attribute:meta])* $name:ident)*) => {
        $(
            $(#[$attribute])*
            pub fn $name(&mut self, is_set: bool) -> &mut OpenOptions {
                self.0.$name(is_set);
                self
            }
        )*
    };
}

impl OpenOptions {
    /// Makes options of which none is set.
    pub fn new() -> OpenOptions {
        OpenOptions(fs::OpenOptions::new())
    }

    options! {
        /// To read.
        read
        /// To write.
        write
        /// To write behind what is there.
        append
        /// To be emptied.
        truncate
        /// To be created, if there is none.
        create
        /// To be created, or else to fail.
        create_new
    }

    /// Sets flags of the system.
    #[cfg(unix)]
    pub fn custom_flags(&mut self, flags: i32) -> &mut OpenOptions {
        std::os::unix::fs::OpenOptionsExt::custom_flags(&mut self.0, flags);
        self
    }

    /// Opens a file.
    pub async fn open(&self, path: impl AsRef<Path>) -> io::Result<File> {
        begin().await?;
        self.0.open(path).map(File)
    }
}

/// An open file.
#[derive(Debug)]
pub struct File(fs::File);

impl File {
    /// Opens a file to read it.
    pub async fn open(path: impl AsRef<Path>) -> io::Result<File> {
        OpenOptions::new().read(true).open(path).await
    }

    /// Opens a file to write it, which is created or emptied.
    pub async fn create(path: impl AsRef<Path>) -> io::Result<File> {
        let mut options = OpenOptions::new();
        options.write(true).create(true).truncate(true);
        options.open(path).await
    }

    /// Returns what is known of the file.
    pub async fn metadata(&self) -> io::Result<Metadata> {
        begin().await?;
        self.0.metadata()
    }

    /// Sets the length of the file.
    pub async fn set_len(&self, length: u64) -> io::Result<()> {
        begin().await?;
        self.0.set_len(length)
    }

    /// Does nothing but fail where the disk does.
    pub async fn sync_all(&self) -> io::Result<()> {
        begin().await
    }

    /// Does nothing but fail where the disk does.
    pub async fn sync_data(&self) -> io::Result<()> {
        begin().await
    }
}

impl AsyncRead for File {
    fn poll_read(
        mut self: Pin<&mut Self>,
        _: &mut Context<'_>,
        buffer: &mut ReadBuf<'_>,
    ) -> Poll<io::Result<()>> {
        let count = refused().and_then(|()| self.0.read(buffer.initialize_unfilled()));
        Poll::Ready(count.map(|count| buffer.advance(count)))
    }
}

impl AsyncWrite for File {
    fn poll_write(
        mut self: Pin<&mut Self>,
        _: &mut Context<'_>,
        bytes: &[u8],
    ) -> Poll<io::Result<usize>> {
        Poll::Ready(refused().and_then(|()| self.0.write(bytes)))
    }

    fn poll_flush(self: Pin<&mut Self>, _: &mut Context<'_>) -> Poll<io::Result<()>> {
        Poll::Ready(Ok(()))
    }

    fn poll_shutdown(self: Pin<&mut Self>, _: &mut Context<'_>) -> Poll<io::Result<()>> {
        Poll::Ready(Ok(()))
    }
}

impl AsyncSeek for File {
    fn start_seek(mut self: Pin<&mut Self>, position: SeekFrom) -> io::Result<()> {
        self.0.seek(position).map(drop)
    }

    fn poll_complete(mut self: Pin<&mut Self>, _: &mut Context<'_>) -> Poll<io::Result<u64>> {
        Poll::Ready(self.0.stream_position())
    }
}
