//! Partial files: inbound files that are not whole yet. They lie in a folder of their own, which no name of a peer
//! leads to, and their own names do not depend on the names of the files.
use crate::errors::FileError;
use std::cell::Cell;
use std::collections::hash_map::RandomState;
use std::fs::symlink_metadata;
use std::hash::{BuildHasher, Hasher};
use std::io::{self, ErrorKind};
use std::path::{Path, PathBuf};
use tokio::fs::{self, File, OpenOptions};
use tokio::io::AsyncWriteExt;

/// The folder of partial files. It lies beside the files, on the same file system, or a hard link would fail.
pub const FOLDER: &str = ".sync-partial";

/// The end of the names of partial files. A run removes nothing of another name.
const SUFFIX: &str = ".partial";

/// The partial files of a run.
pub struct Partials {
    folder: PathBuf,
    /// A random part of the names, so two runs never write to the same partial file.
    run: u64,
    count: Cell<u64>,
}

impl Partials {
    /// Removes the partial files of a crashed run. Fails where a file or a link has the folder's name. The folder is
    /// created with the first partial file, so a folder can also be served by a user who may not write to it.
    pub fn open(folder: &Path) -> io::Result<Partials> {
        let in_folder = |error: io::Error| {
            io::Error::new(error.kind(), format!("{}: {error}", folder.display()))
        };
        folder.read_dir().map_err(in_folder)?;
        let folder = folder.join(FOLDER);
        match symlink_metadata(&folder) {
            Ok(found) if found.is_dir() => remove_leftovers(&folder)?,
            Ok(_) => {
                let why = format!("{} is no folder: move it away", folder.display());
                return Err(io::Error::new(ErrorKind::AlreadyExists, why));
            }
            Err(error) if error.kind() == ErrorKind::NotFound => {}
            Err(error) => return Err(error),
        }
        Ok(Partials {
            folder,
            run: RandomState::new().build_hasher().finish(),
            count: Cell::new(0),
        })
    }

    /// Opens a new partial file for a file of `length` bytes.
    pub async fn create(&self, length: u64) -> Result<Partial, FileError> {
        match fs::create_dir(&self.folder).await {
            Err(error) if error.kind() != ErrorKind::AlreadyExists => return Err(error.into()),
            _ => {}
        }
        let number = self.count.replace(self.count.get() + 1);
        let path = self
            .folder
            .join(format!("{:016x}-{number}{SUFFIX}", self.run));
        let file = OpenOptions::new()
            .write(true)
            .create_new(true)
            .open(&path)
            .await?;
        Ok(Partial {
            path,
            file,
            missing: length,
        })
    }
}

impl Drop for Partials {
    fn drop(&mut self) {
        let _ = std::fs::remove_dir(&self.folder); // fails, as it should, if the folder is not empty
    }
}

fn remove_leftovers(folder: &Path) -> io::Result<()> {
    for entry in folder.read_dir()? {
        let entry = entry?;
        let is_ours = entry
            .file_name()
            .to_str()
            .is_some_and(|name| name.ends_with(SUFFIX));
        if is_ours && entry.file_type()?.is_file() {
            std::fs::remove_file(entry.path())?;
        }
    }
    Ok(())
}

/// An inbound file. Its drop removes the partial file, after an error as after the hard link.
pub struct Partial {
    path: PathBuf,
    file: File,
    missing: u64,
}

impl Partial {
    pub async fn write(mut self, chunk: &[u8]) -> Result<Partial, FileError> {
        let missing = self.missing.checked_sub(chunk.len() as u64);
        self.missing = missing.ok_or(FileError::WrongLength)?;
        self.file.write_all(chunk).await?;
        Ok(self)
    }

    /// Links a whole file to its name. A rename would replace a file that was created there meanwhile; a hard link
    /// fails instead.
    pub async fn place(mut self, path: &Path) -> Result<(), FileError> {
        if self.missing > 0 {
            return Err(FileError::WrongLength);
        }
        self.file.flush().await?; // reports an error of the last write, which `sync_all` of tokio does not
        self.file.sync_all().await?;
        match fs::hard_link(&self.path, path).await {
            Err(error) if error.kind() == ErrorKind::AlreadyExists => Err(FileError::NameTaken),
            linked => Ok(linked?),
        }
    }
}

impl Drop for Partial {
    fn drop(&mut self) {
        let _ = std::fs::remove_file(&self.path); // the next run removes it otherwise
    }
}
