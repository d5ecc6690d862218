//! The folders of a test, and their contents.
use std::collections::BTreeMap;
use std::env;
use std::ffi::OsString;
use std::fs;
use std::path::{Path, PathBuf};
use std::process::{self, Command};
use std::sync::atomic::{AtomicU32, Ordering};

pub type Tree = BTreeMap<OsString, Entry>;

#[derive(Clone, PartialEq, Eq)]
pub enum Entry {
    File(Vec<u8>),
    Link(PathBuf),
    Folder(Tree),
    Other,
}

/// Regular files with these contents.
pub fn files<N: Into<OsString>, B: Into<Vec<u8>>>(files: impl IntoIterator<Item = (N, B)>) -> Tree {
    let entry = |(name, bytes): (N, B)| (name.into(), Entry::File(bytes.into()));
    files.into_iter().map(entry).collect()
}

/// Bytes of which no two neighbouring chunks are equal.
pub fn bytes(length: usize) -> Vec<u8> {
    (0..length).map(|at| (at * 31 + at / 256) as u8).collect()
}

/// Copies a file by `cp`, which also sets the times of files; the standard library of the oldest Rust that the crate
/// is for does not.
pub fn copy(options: &[&str], from: &Path, to: &Path) {
    let status = Command::new("cp").args(options).args([from, to]).status();
    assert!(status.unwrap().success());
}

/// A folder that is removed in the end.
pub struct Folder(PathBuf);

impl Folder {
    pub fn new(tree: &Tree) -> Folder {
        static COUNT: AtomicU32 = AtomicU32::new(0);
        let number = COUNT.fetch_add(1, Ordering::Relaxed);
        let path = env::temp_dir().join(format!("lcmux-sync-{}-{number}", process::id()));
        lay_out(&path, tree);
        Folder(path)
    }

    pub fn path(&self) -> &Path {
        &self.0
    }

    pub fn join(&self, name: &str) -> PathBuf {
        self.0.join(name)
    }

    pub fn tree(&self) -> Tree {
        tree_of(&self.0)
    }

    /// Checks that the folder has these entries and no others.
    #[track_caller]
    pub fn has(&self, wanted: &Tree) {
        let found = self.tree();
        let differ = |name: &&OsString| found.get(*name) != wanted.get(*name);
        let differing: Vec<_> = found.keys().chain(wanted.keys()).filter(differ).collect();
        assert!(differing.is_empty(), "these differ: {differing:?}");
    }
}

impl Drop for Folder {
    fn drop(&mut self) {
        let _ = fs::remove_dir_all(&self.0);
    }
}

fn lay_out(path: &Path, tree: &Tree) {
    fs::create_dir(path).unwrap();
    for (name, entry) in tree {
        let path = path.join(name);
        match entry {
            Entry::File(bytes) => fs::write(path, bytes).unwrap(),
            Entry::Link(to) => std::os::unix::fs::symlink(to, path).unwrap(),
            Entry::Folder(tree) => lay_out(&path, tree),
            Entry::Other => unreachable!("no test asks for one"),
        }
    }
}

fn tree_of(path: &Path) -> Tree {
    let entries = fs::read_dir(path).unwrap().map(Result::unwrap);
    entries
        .map(|entry| (entry.file_name(), entry_of(&entry.path())))
        .collect()
}

fn entry_of(path: &Path) -> Entry {
    let kind = fs::symlink_metadata(path).unwrap().file_type();
    match () {
        () if kind.is_file() => Entry::File(fs::read(path).unwrap()),
        () if kind.is_symlink() => Entry::Link(fs::read_link(path).unwrap()),
        () if kind.is_dir() => Entry::Folder(tree_of(path)),
        () => Entry::Other,
    }
}
