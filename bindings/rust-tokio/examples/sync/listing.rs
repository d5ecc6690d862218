//! The files that this side offers.
use crate::errors::{Failures, FileError};
use crate::partial;
use std::collections::BTreeMap;
use std::fs::{DirEntry, Metadata};
use std::io;
use std::os::unix::ffi::OsStrExt;
use std::os::unix::fs::MetadataExt;
use std::path::{Path, PathBuf};

/// The plain name of a file: joined to a folder, it leads to an entry of that very folder.
#[derive(Clone, Debug, PartialEq, Eq, PartialOrd, Ord)]
pub struct Name(String);

impl Name {
    pub fn decode(bytes: &[u8]) -> Option<Name> {
        let name = std::str::from_utf8(bytes).ok()?;
        let is_plain =
            !matches!(name, "" | "." | ".." | partial::FOLDER) && !name.contains(['/', '\0']);
        is_plain.then(|| Name(name.into()))
    }

    pub fn as_str(&self) -> &str {
        &self.0
    }
}

/// Identifies a file and the state of its contents: it changes when another file takes the name, and when the file
/// is written to.
#[derive(Clone, Copy, PartialEq, Eq)]
pub struct FileVersion {
    device: u64,
    inode: u64,
    pub length: u64,
    modified: (i64, i64),
}

impl FileVersion {
    pub fn of(metadata: &Metadata) -> FileVersion {
        FileVersion {
            device: metadata.dev(),
            inode: metadata.ino(),
            length: metadata.len(),
            modified: (metadata.mtime(), metadata.mtime_nsec()),
        }
    }
}

/// The regular files of a folder, as they were when the session began. No other file is ever sent.
pub struct Listing<'a> {
    folder: &'a Path,
    pub files: BTreeMap<Name, FileVersion>,
    pub failures: &'a Failures,
}

impl Listing<'_> {
    pub fn read<'a>(folder: &'a Path, failures: &'a Failures) -> io::Result<Listing<'a>> {
        let mut files = BTreeMap::new();
        for entry in folder.read_dir()? {
            let entry = entry?;
            match regular_file(&entry) {
                Ok(found) => files.extend(found),
                Err(error) => failures.report(entry.file_name(), error),
            }
        }
        Ok(Listing {
            folder,
            files,
            failures,
        })
    }

    pub fn path(&self, name: &Name) -> PathBuf {
        self.folder.join(name.as_str())
    }
}

/// The name and version of a regular file, `None` for other entries: `DirEntry::metadata` follows no link.
fn regular_file(entry: &DirEntry) -> Result<Option<(Name, FileVersion)>, FileError> {
    let metadata = entry.metadata()?;
    if !metadata.is_file() {
        return Ok(None);
    }
    let name = Name::decode(entry.file_name().as_bytes()).ok_or(FileError::BadName)?;
    Ok(Some((name, FileVersion::of(&metadata))))
}
