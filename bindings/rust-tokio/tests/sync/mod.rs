//! The folder sync: the files that it creates, those that it leaves alone, and its output.
mod changes;
mod folder;
mod interrupted;
mod relay;
mod stranger;
mod strangers;

use super::watchdog::Watchdog;
use super::{built, example, listening};
use folder::{bytes, copy, files, Entry, Folder, Tree};
use std::ffi::OsStr;
use std::fs::{self, Permissions};
use std::os::unix::ffi::OsStrExt;
use std::os::unix::fs::{chown, MetadataExt, PermissionsExt};
use std::os::unix::process::CommandExt;
use std::process::{Child, Command, Stdio};

/// The folder of partial files.
const PARTIAL: &str = ".sync-partial";

/// The output of a run, and whether its status is 0.
struct Ended {
    printed: String,
    said: String,
    success: bool,
}

/// A run of the example. It is killed if a test fails before the run ends.
struct Running(Option<Child>);

impl Running {
    fn kill(&mut self) {
        self.0.iter_mut().for_each(|child| child.kill().unwrap());
    }
}

impl Drop for Running {
    fn drop(&mut self) {
        self.kill();
    }
}

impl Ended {
    fn of(mut running: Running) -> Ended {
        let child = running.0.take().unwrap();
        let output = child.wait_with_output().unwrap();
        Ended {
            printed: String::from_utf8(output.stdout).unwrap(),
            said: String::from_utf8(output.stderr).unwrap(),
            success: output.status.success(),
        }
    }

    /// Checks that the run succeeded, and that this many files arrived.
    #[track_caller]
    fn got(&self, count: u32) {
        assert_eq!((self.said.as_str(), self.success), ("", true));
        assert_eq!(self.printed, format!("got {count} files\n"));
    }

    /// Checks that this many files arrived and that one failed: which one, and why.
    #[track_caller]
    fn failed(&self, count: u32, name: &str, why: &str) {
        let said = format!("sync: {name:?}: {why}\nsync: 1 files failed\n");
        assert_eq!((&self.said, self.success), (&said, false));
        assert_eq!(self.printed, format!("got {count} files\n"));
    }

    /// Checks that the session failed.
    #[track_caller]
    fn broke(&self, why: &str) {
        assert!(self.said.contains(why), "{}", self.said);
        assert_eq!((self.printed.as_str(), self.success), ("", false));
    }
}

fn listen(folder: &Folder) -> (Running, String) {
    let words = ["listen", "127.0.0.1:0"].map(OsStr::new);
    let (child, address) = listening(example("sync").args(words).arg(folder.path()));
    (Running(Some(child)), address)
}

fn connect(mut command: Command, address: &str, folder: &Folder) -> Running {
    command.args(["connect", address]).arg(folder.path());
    command.stdout(Stdio::piped()).stderr(Stdio::piped());
    Running(Some(command.spawn().unwrap()))
}

/// Runs both sides, the second by a command.
fn sync_by(command: Command, here: &Folder, there: &Folder) -> [Ended; 2] {
    let (one, address) = listen(here);
    let other = connect(command, &address, there);
    [one, other].map(Ended::of)
}

fn sync(here: &Folder, there: &Folder) -> [Ended; 2] {
    sync_by(example("sync"), here, there)
}

fn both(mut one: Tree, other: Tree) -> Tree {
    one.extend(other);
    one
}

/// Files of none, one, some and many chunks.
#[test]
fn both_folders_get_all_files() {
    let _watchdog = Watchdog::new("the folder sync");
    let of_lengths = |side: &str, lengths: &[usize]| {
        let named = lengths
            .iter()
            .map(|length| (format!("{side} {length}"), bytes(*length)));
        files(named)
    };
    let kept = files([("both", "as it was")]);
    let here = both(of_lengths("here", &[0, 1, 32_768, 3_000_000]), kept.clone());
    let there = both(
        of_lengths("there", &[32_767, 2_000_001, 65_536, 5, 40]),
        kept,
    );
    let folders = [Folder::new(&here), Folder::new(&there)];
    let ended = sync(&folders[0], &folders[1]);
    ended[0].got(5);
    ended[1].got(4);
    let all = both(here, there);
    folders.iter().for_each(|folder| folder.has(&all));
}

/// More names, requests and files than rings and queues hold, in both directions at once.
#[test]
fn many_files_hold_up_none() {
    let _watchdog = Watchdog::new("the sync of many files");
    let of_side = |side: &str| {
        let named = (0..300).map(|at| (format!("{side} {at:0>240}"), format!("{at}")));
        files(named)
    };
    let (here, there) = (of_side("here"), of_side("there"));
    let folders = [Folder::new(&here), Folder::new(&there)];
    sync(&folders[0], &folders[1])
        .iter()
        .for_each(|ended| ended.got(300));
    let all = both(here, there);
    folders.iter().for_each(|folder| folder.has(&all));
}

#[test]
fn a_name_that_looks_partial_is_a_name_like_others() {
    let _watchdog = Watchdog::new("the sync of names that look partial");
    let here = files([("notes.part", "precious"), ("a.partial", "dear")]);
    let there = files([("notes.txt", "text"), ("a", "letter")]);
    let folders = [Folder::new(&here), Folder::new(&there)];
    sync(&folders[0], &folders[1])
        .iter()
        .for_each(|ended| ended.got(2));
    let all = both(here, there);
    folders.iter().for_each(|folder| folder.has(&all));
}

#[test]
fn the_longest_name_is_a_name_like_others() {
    let _watchdog = Watchdog::new("the sync of the longest name");
    let here = files([("n".repeat(255), "long"), ("short".into(), "short")]);
    let folders = [Folder::new(&here), Folder::new(&Tree::new())];
    let ended = sync(&folders[0], &folders[1]);
    ended[0].got(0);
    ended[1].got(2);
    folders.iter().for_each(|folder| folder.has(&here));
}

/// Links to a file outside and to nothing, one of them with a name that looks partial.
#[test]
fn links_are_neither_offered_nor_followed() {
    let _watchdog = Watchdog::new("the sync with links");
    let precious = files([("precious", "precious")]);
    for target in ["precious", "nothing"] {
        let outside = Folder::new(&precious);
        let link = |name: &str| (name.into(), Entry::Link(outside.join(target)));
        let notes = files([("notes.txt", "notes")]);
        let here = both(
            notes.clone(),
            [link("out"), ("name".into(), Entry::File(b"file".to_vec()))].into(),
        );
        let links = Tree::from([link("notes.part"), link("name")]);
        let folders = [Folder::new(&here), Folder::new(&links)];
        let ended = sync(&folders[0], &folders[1]);
        ended[0].got(0);
        ended[1].failed(1, "name", "something else has this name here");
        folders[0].has(&here);
        folders[1].has(&both(notes, links));
        outside.has(&precious);
    }
}

#[test]
fn a_folder_of_a_files_name_stays() {
    let _watchdog = Watchdog::new("the sync with a folder of a file's name");
    let here = files([("name", "file"), ("other", "file")]);
    let inside = Entry::Folder(files([("inside", "file")]));
    let there = Tree::from([("name".into(), inside)]);
    let folders = [Folder::new(&here), Folder::new(&there)];
    let ended = sync(&folders[0], &folders[1]);
    ended[0].got(0);
    ended[1].failed(1, "name", "something else has this name here");
    folders[0].has(&here);
    folders[1].has(&both(there, files([("other", "file")])));
}

#[test]
fn a_name_that_is_no_text_fails_alone() {
    let _watchdog = Watchdog::new("the sync of a name that is no text");
    let here = files([
        (OsStr::from_bytes(b"no\xfftext"), "file"),
        (OsStr::new("text"), "file"),
    ]);
    let folders = [Folder::new(&here), Folder::new(&Tree::new())];
    let ended = sync(&folders[0], &folders[1]);
    assert!(
        ended[0]
            .said
            .contains(r#""no\xFFtext": no file of this name can be offered"#),
        "{}",
        ended[0].said
    );
    assert!(!ended[0].success);
    ended[1].got(1);
    folders[0].has(&here);
    folders[1].has(&files([("text", "file")]));
}

/// A command of a user who may not read all files, and who owns the folder.
fn of_plain_user(folder: &Folder, programs: &Folder) -> Command {
    const NOBODY: u32 = 65_534;
    // Other users may have no access to cargo's folder. This process does not write the copy itself: a child that another
    // test starts meanwhile would keep the file open for writing, and it could not be executed.
    copy(&[], &built("sync"), programs.path());
    let mut command = Command::new(programs.join("sync"));
    if fs::metadata(folder.path()).unwrap().uid() == 0 {
        let inside = folder
            .tree()
            .into_keys()
            .map(|name| folder.path().join(name));
        for path in inside.chain([folder.path().into()]) {
            chown(path, Some(NOBODY), Some(NOBODY)).unwrap();
        }
        command.uid(NOBODY).gid(NOBODY);
    }
    command
}

#[test]
fn a_file_that_may_not_be_read_fails_alone() {
    let _watchdog = Watchdog::new("the sync of a file that may not be read");
    let here = files([("open", "file"), ("secret", "file")]);
    let folders = [Folder::new(&here), Folder::new(&Tree::new())];
    let programs = Folder::new(&Tree::new());
    let command = of_plain_user(&folders[0], &programs);
    let mode = |mode| fs::set_permissions(folders[0].join("secret"), Permissions::from_mode(mode));
    mode(0).unwrap();
    let [one, other] = sync_by(command, &folders[1], &folders[0]);
    mode(0o600).unwrap();
    one.failed(1, "secret", "the other side could not read the file");
    other.failed(0, "secret", "Permission denied (os error 13)");
    folders[0].has(&here);
    folders[1].has(&files([("open", "file")]));
}

/// The shell bounds each file that is written to 64 KiB. The last write of one file fails, and one in the middle of
/// another.
#[test]
fn files_that_find_no_room_fail_alone() {
    let _watchdog = Watchdog::new("the sync of a file that finds no room");
    for length in [80_000, 3_000_000] {
        let here = files([
            ("big".into(), bytes(length)),
            ("small".to_string(), bytes(65_536)),
        ]);
        let folders = [Folder::new(&here), Folder::new(&Tree::new())];
        let mut command = Command::new("sh");
        command
            .args(["-c", r#"trap "" XFSZ; ulimit -f 128; exec "$0" "$@""#])
            .arg(built("sync"));
        let ended = sync_by(command, &folders[0], &folders[1]);
        ended[0].got(0);
        assert!(
            ended[1].said.starts_with("sync: \"big\": "),
            "{}",
            ended[1].said
        );
        assert!(!ended[1].success);
        folders[0].has(&here);
        folders[1].has(&files([("small", bytes(65_536))]));
    }
}

/// The error is reported before the connection.
#[test]
fn a_file_or_link_named_as_the_partial_folder_stays() {
    let _watchdog = Watchdog::new("the sync with a file named as the partial folder");
    let leftover = files([("0123456789abcdef-0.partial", "file")]);
    let outside = Folder::new(&leftover);
    for taken in [
        Entry::File("file".into()),
        Entry::Link(outside.path().into()),
        Entry::Link("nowhere".into()),
    ] {
        let tree = Tree::from([(PARTIAL.into(), taken)]);
        let folder = Folder::new(&tree);
        let ended = Ended::of(connect(example("sync"), "127.0.0.1:1", &folder));
        ended.broke(".sync-partial is no folder: move it away");
        folder.has(&tree);
        outside.has(&leftover);
    }
}

#[test]
fn leftovers_alone_are_removed_from_the_partial_folder() {
    let _watchdog = Watchdog::new("the sync with leftovers");
    let own = || {
        Tree::from([
            ("own".into(), Entry::File("file".into())),
            ("a.partial".into(), Entry::Folder(Tree::new())),
        ])
    };
    let partial = |tree: Tree| Tree::from([(PARTIAL.into(), Entry::Folder(tree))]);
    let here = files([("name", "file")]);
    let leftover = files([("0123456789abcdef-0.partial", "file")]);
    for own in [own(), Tree::new()] {
        let there = partial(both(own.clone(), leftover.clone()));
        let folders = [Folder::new(&here), Folder::new(&there)];
        let ended = sync(&folders[0], &folders[1]);
        ended[0].got(0);
        ended[1].got(1);
        folders[0].has(&here);
        let kept = if own.is_empty() {
            Tree::new()
        } else {
            partial(own)
        };
        folders[1].has(&both(here.clone(), kept));
    }
}

#[test]
fn a_folder_that_is_not_there_is_named() {
    let _watchdog = Watchdog::new("the sync of no folder");
    let folder = Folder::new(&Tree::new());
    fs::remove_dir(folder.path()).unwrap();
    let ended = Ended::of(connect(example("sync"), "127.0.0.1:1", &folder));
    ended.broke(&format!(
        "{}: No such file or directory",
        folder.path().display()
    ));
}
