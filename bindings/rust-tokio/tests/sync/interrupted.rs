//! Sessions of two processes that are interrupted in the middle of a file.
use super::folder::{bytes, files, Folder, Tree};
use super::relay::{Relay, Then};
use super::{both, connect, example, listen, sync, Ended, Running, Watchdog, PARTIAL};
use std::ffi::OsStr;
use std::fs;
use std::thread;
use std::time::Duration;

const LENGTH: usize = 4_000_000;

/// Both sides in the middle of a file.
struct Halfway {
    children: [Running; 2],
    relay: Relay,
}

fn here() -> Tree {
    both(files([("big", bytes(LENGTH))]), there())
}

fn there() -> Tree {
    files([("kept", "as it was")])
}

fn both_folders() -> [Folder; 2] {
    [here(), there()].map(|tree| Folder::new(&tree))
}

impl Halfway {
    fn reach(folders: &[Folder; 2]) -> Halfway {
        let (one, address) = listen(&folders[0]);
        let relay = Relay::new(address, LENGTH as u64 / 2);
        let other = connect(example("sync"), &relay.address, &folders[1]);
        relay.stalled();
        while !has_part(&folders[1]) {
            thread::sleep(Duration::from_millis(5));
        }
        assert!(!folders[1].join("big").exists());
        let children = [one, other];
        Halfway { children, relay }
    }

    /// Continues or not, and waits until both sides end.
    fn then(self, then: Then) -> [Ended; 2] {
        self.relay.then(then);
        self.children.map(Ended::of)
    }
}

/// Returns whether bytes of the file are anywhere in the folder.
fn has_part(folder: &Folder) -> bool {
    let inside = |path| fs::read_dir(path).into_iter().flatten().map(Result::unwrap);
    let mut entries = inside(folder.path().into()).chain(inside(folder.join(PARTIAL)));
    entries.any(|entry| {
        let metadata = entry.metadata().unwrap();
        metadata.is_file() && entry.file_name() != "kept" && metadata.len() > 0
    })
}

/// The side whose stream the relay cuts fails, and has no file that looks whole. A second run gets all files.
#[test]
fn a_killed_run_leaves_nothing_that_looks_whole() {
    let _watchdog = Watchdog::new("the killed sync");
    for killed in [0, 1] {
        let folders = both_folders();
        let mut halfway = Halfway::reach(&folders);
        halfway.children[killed].kill();
        let ended = halfway.then(Then::Cut);
        ended[1 - killed].broke("sync: the session ended early: ");
        folders[0].has(&here());
        let mut left = folders[1].tree();
        let partial = left.remove(OsStr::new(PARTIAL));
        assert_eq!(
            partial.is_some(),
            killed == 1,
            "who is killed removes nothing"
        );
        assert!(left == there());

        let again = sync(&folders[0], &folders[1]);
        again[0].got(0);
        again[1].got(1);
        folders.iter().for_each(|folder| folder.has(&here()));
    }
}

#[test]
fn both_sides_fail_where_the_stream_is_cut() {
    let _watchdog = Watchdog::new("the cut sync");
    let folders = both_folders();
    let ended = Halfway::reach(&folders).then(Then::Cut);
    ended
        .iter()
        .for_each(|ended| ended.broke("sync: the session ended early: "));
    folders[0].has(&here());
    folders[1].has(&there());
}

#[test]
fn a_file_that_comes_meanwhile_stays() {
    let _watchdog = Watchdog::new("the sync of a file that comes meanwhile");
    let folders = both_folders();
    let halfway = Halfway::reach(&folders);
    let meanwhile = files([("big", "of the user")]);
    fs::write(folders[1].join("big"), "of the user").unwrap();
    let ended = halfway.then(Then::GoOn);
    ended[0].got(0);
    ended[1].failed(0, "big", "something else has this name here");
    folders[0].has(&here());
    folders[1].has(&both(there(), meanwhile));
}

/// The second run removes the partial file of the first run as a leftover. The first run then has no file to link,
/// and does not link what the second run has of the file so far.
#[test]
fn two_runs_on_a_folder_place_whole_files_alone() {
    let _watchdog = Watchdog::new("two syncs of a folder");
    let folders = both_folders();
    let first = Halfway::reach(&folders);
    let second = Halfway::reach(&folders);
    let ended = first.then(Then::GoOn);
    ended[0].got(0);
    ended[1].failed(0, "big", "No such file or directory (os error 2)");
    assert!(!folders[1].join("big").exists());
    let ended = second.then(Then::GoOn);
    ended[0].got(0);
    ended[1].got(1);
    folders.iter().for_each(|folder| folder.has(&here()));
}
