//! Files that change after they were offered: before they are sent, and meanwhile.
use super::folder::{bytes, copy, files, Folder};
use super::stranger::{Stranger, FAILED, WHOLE};
use super::Watchdog;
use std::ffi::CString;
use std::fs::{self, OpenOptions};
use std::io::Write;
use std::os::unix::ffi::OsStrExt;
use std::os::unix::fs::symlink;
use std::path::Path;
use std::thread;
use std::time::Duration;

/// Longer than the resolution of the file system's clock.
const TICK: Duration = Duration::from_millis(20);

const CHANGED: &str = "the file changed after it was offered";

/// A change of a file, with a folder outside of the offered one.
type Change = fn(&Path, &Path);

fn append(path: &Path) {
    let mut file = OpenOptions::new().append(true).open(path).unwrap();
    file.write_all(&[7; 100]).unwrap();
}

fn overwrite(path: &Path) {
    let mut file = OpenOptions::new().write(true).open(path).unwrap();
    file.write_all(b"76543210").unwrap();
}

fn truncate(path: &Path) {
    let file = OpenOptions::new().write(true).open(path).unwrap();
    file.set_len(4).unwrap();
}

fn append_at_the_same_time(path: &Path, outside: &Path) {
    let before = outside.join("before");
    copy(&["--preserve=timestamps"], path, &before);
    append(path);
    copy(
        &["--attributes-only", "--preserve=timestamps"],
        &before,
        path,
    );
}

/// Another file of the same length and time.
fn replace(path: &Path, outside: &Path) {
    let other = outside.join("other");
    copy(&["--preserve=timestamps"], path, &other);
    fs::rename(other, path).unwrap();
}

fn replace_by_a_link_to_it(path: &Path, outside: &Path) {
    let moved = outside.join("moved");
    fs::rename(path, &moved).unwrap();
    symlink(moved, path).unwrap();
}

fn replace_by_a_pipe(path: &Path) {
    fs::remove_file(path).unwrap();
    let path = CString::new(path.as_os_str().as_bytes()).unwrap();
    // SAFETY: the path ends with a NUL, and outlives the call.
    assert_eq!(unsafe { libc::mkfifo(path.as_ptr(), 0o600) }, 0);
}

/// A file that was changed or replaced after the listing is not served under the name that was offered.
#[test]
fn a_file_that_changed_since_it_was_offered_fails_alone() {
    let _watchdog = Watchdog::new("requests of what changed");
    let changes: [(Change, &str); 7] = [
        (
            |path, _| fs::remove_file(path).unwrap(),
            "No such file or directory (os error 2)",
        ),
        (|path, _| append(path), CHANGED),
        (|path, _| overwrite(path), CHANGED),
        (append_at_the_same_time, CHANGED),
        (replace, CHANGED),
        (|path, _| replace_by_a_pipe(path), CHANGED),
        (
            replace_by_a_link_to_it,
            "Too many levels of symbolic links (os error 40)",
        ),
    ];
    for (change, why) in changes {
        let outside = Folder::new(&files([("secret", "01234567")]));
        let folder = Folder::new(&files([("changing", "01234567"), ("stays", "file")]));
        let mut stranger = Stranger::meet(&folder);
        assert_eq!(stranger.offered(), ["changing", "stays"]);
        thread::sleep(TICK);
        change(&folder.join("changing"), outside.path());
        stranger.request(b"changing");
        stranger.request(b"stays");
        stranger.gets(b"", FAILED);
        stranger.gets(b"file", WHOLE);
        stranger.finish().failed(0, "changing", why);
    }
}

/// The first chunk of a file that is much longer than a ring was sent.
#[test]
fn a_file_that_changes_while_it_is_sent_fails_alone() {
    const LENGTH: usize = 1_000_000;
    const CHUNK: usize = 32_768;
    let _watchdog = Watchdog::new("files that change while they are sent");
    for change in [append, overwrite, truncate] {
        let folder = Folder::new(&files([("changing", bytes(LENGTH)), ("stays", bytes(5))]));
        let mut stranger = Stranger::meet(&folder);
        assert_eq!(stranger.offered(), ["changing", "stays"]);
        stranger.request(b"changing");
        stranger.request(b"stays");
        assert!(stranger.piece()[1..] == bytes(LENGTH)[..CHUNK]);
        thread::sleep(TICK);
        change(&folder.join("changing"));
        let (rest, end) = stranger.contents();
        assert!(rest.len() <= LENGTH - CHUNK, "more than was offered");
        assert_eq!(end, FAILED);
        stranger.gets(&bytes(5), WHOLE);
        stranger.finish().failed(0, "changing", CHANGED);
    }
}
