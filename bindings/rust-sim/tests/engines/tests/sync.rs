//! The folder sync of the example, by many seeds: no file is ever truncated, mixed or replaced, also while a user works in
//! the folders; a success is one on both sides; and another run completes what a fault ended. And bugs that break this,
//! which are found.
mod common;

use common::found;
use lcmux_sim::{Explorer, Faults, Kind, Run, Side, Sim, Stream};
use lcmux_sim_engines as engines;
use std::cell::Cell;
use std::collections::BTreeMap;
use std::fs;
use std::future::{pending, Future};
use std::io::Write;
use std::path::{Path, PathBuf};
use std::sync::atomic::{AtomicU32, Ordering};
use std::time::Duration;
use std::{env, process};
use tokio::time::sleep;

const SEEDS: u64 = 10_000;

/// The most bytes that a side writes in most runs.
const BYTES: u64 = 2_000;

type Ended = Result<(u32, u32), String>;
type Files = BTreeMap<String, Vec<u8>>;

fn explorer() -> Explorer {
    Explorer::new(Faults::all().within(BYTES)).seeds(SEEDS)
}

/// The folders of both sides, which are removed in the end. They are in memory where the system has such a folder.
struct Folders(PathBuf);

impl Folders {
    fn new() -> Folders {
        static COUNT: AtomicU32 = AtomicU32::new(0);
        let memory = Path::new("/dev/shm");
        let parent = if memory.is_dir() {
            memory.into()
        } else {
            env::temp_dir()
        };
        let number = COUNT.fetch_add(1, Ordering::Relaxed);
        let path = parent.join(format!("lcmux-sim-{}-{number}", process::id()));
        fs::create_dir(&path).unwrap();
        Folders(path)
    }

    fn of(&self, side: Side) -> PathBuf {
        self.0.join(side.to_string())
    }

    fn crashed(&self, side: Side) -> PathBuf {
        self.0.join(format!("{side}-crashed"))
    }

    /// Restores the folder that a side had when it crashed.
    fn restore(&self, side: Side) {
        if self.crashed(side).exists() {
            let _ = fs::remove_dir_all(self.of(side));
            fs::rename(self.crashed(side), self.of(side)).unwrap();
        }
    }

    fn lay_out(&self, side: Side, files: &Files) {
        fs::create_dir(self.of(side)).unwrap();
        for (name, bytes) in files {
            fs::write(self.of(side).join(name), bytes).unwrap();
        }
    }

    /// The listed files, without the folder of partial ones.
    fn listed(&self, side: Side) -> Files {
        let entries = fs::read_dir(self.of(side)).unwrap().map(Result::unwrap);
        let files = entries.filter(|it| it.file_type().unwrap().is_file());
        files
            .map(|it| {
                (
                    it.file_name().into_string().unwrap(),
                    fs::read(it.path()).unwrap(),
                )
            })
            .collect()
    }
}

impl Drop for Folders {
    fn drop(&mut self) {
        let _ = fs::remove_dir_all(&self.0);
    }
}

fn drawn_files(sim: &mut Sim, side: Side) -> Files {
    let count = sim.draw("files", 0..=7);
    let first = if side == Side::A { 0 } else { 3 };
    (first..first + count)
        .map(|number| {
            let length = sim.draw("length", 0..=200);
            let bytes = (0..length).map(|at| (at * 31 + number * 7 + side as u64) as u8);
            (name(number), bytes.collect())
        })
        .collect()
}

/// What a folder has in the end: of each name the contents of which it has one.
type Allowed = BTreeMap<String, Vec<Vec<u8>>>;

/// The own files of a side, and those of the other one that it lacks.
fn allowed(own: &Files, other: &Files) -> Allowed {
    let all = other.iter().chain(own);
    all.map(|(name, bytes)| (name.clone(), vec![bytes.clone()]))
        .collect()
}

/// The names of the files with other contents than allowed.
fn wrong(listed: &Files, allowed: &Allowed) -> Vec<String> {
    let is_right = |name: &String, bytes| allowed.get(name).is_some_and(|it| it.contains(bytes));
    let wrong = listed.iter().filter(|(name, bytes)| !is_right(name, bytes));
    wrong.map(|(name, _)| name.clone()).collect()
}

fn is_complete(listed: &Files, allowed: &Allowed) -> bool {
    listed.keys().eq(allowed.keys()) && wrong(listed, allowed).is_empty()
}

fn is_success(ended: &Option<Ended>) -> bool {
    matches!(ended, Some(Ok((_, 0))))
}

/// What a user does in a folder while the sync runs.
#[derive(Clone, Copy, Debug, PartialEq)]
enum User {
    Nothing,
    /// Creates the first file of A in the folder of B, if it is not there.
    Creates,
    /// Rewrites the first file of A.
    Rewrites,
}

const CREATED: &[u8] = b"a user's";
const FIRST: u64 = 0;

fn name(number: u64) -> String {
    format!("file {number:0>50}") // a ring holds two offers
}

fn rewritten(old: &[u8]) -> Vec<u8> {
    let other = old.iter().map(|byte| !byte);
    other.chain([7]).collect() // of another length: files of one tick of the clock differ by it alone
}

impl User {
    /// Whether it did something in this folder.
    fn acts(self, folder: &Path) -> bool {
        let path = folder.join(name(FIRST));
        match self {
            User::Nothing => false,
            User::Creates => {
                let mut options = fs::OpenOptions::new();
                let file = options.write(true).create_new(true).open(path);
                file.map(|mut file| file.write_all(CREATED).unwrap())
                    .is_ok()
            }
            User::Rewrites => {
                let old = fs::read(&path);
                old.map(|old| fs::write(&path, rewritten(&old)).unwrap())
                    .is_ok()
            }
        }
    }
}

/// A side, beside a user who acts after some milliseconds. The result of the side ends both.
async fn beside_user(side: impl Future<Output = Ended>, after: u64, act: impl FnOnce()) -> Ended {
    let user = async {
        sleep(Duration::from_millis(after)).await;
        act();
        pending().await
    };
    tokio::select! {
        biased;
        () = user => unreachable!("it waits for good"),
        ended = side => ended,
    }
}

/// A test of two folders.
struct Test {
    folders: Folders,
    files: [Files; 2],
    allowed: [Allowed; 2],
    user: User,
    after: u64,
    has_acted: Cell<bool>,
}

impl Test {
    fn draw(sim: &mut Sim) -> Test {
        let folders = Folders::new();
        let files = Side::ALL.map(|side| drawn_files(sim, side));
        let sides = Side::ALL.iter().zip(&files);
        sides.for_each(|(side, files)| folders.lay_out(*side, files));
        let moves = Side::ALL.map(|side| (folders.of(side), folders.crashed(side)));
        sim.on_crash(move |side| {
            let (from, to) = &moves[side as usize];
            fs::rename(from, to).unwrap();
        });
        let users = [User::Nothing, User::Creates, User::Rewrites];
        Test {
            folders,
            allowed: [allowed(&files[0], &files[1]), allowed(&files[1], &files[0])],
            files,
            user: users[sim.draw("user", 0..=2) as usize],
            after: sim.draw("after", 1..=100),
            has_acted: Cell::new(false),
        }
    }

    fn run<F>(&self, sim: &mut Sim, side: impl Fn(Stream, PathBuf) -> F) -> Run<Ended, Ended>
    where
        F: Future<Output = Ended>,
    {
        let [a, b] = Side::ALL.map(|side| self.folders.of(side));
        let act = |user: User, folder: &Path| {
            let acts = user == self.user && !self.has_acted.get();
            self.has_acted
                .set(acts && user.acts(folder) || self.has_acted.get());
        };
        let run = sim.run(
            |stream| {
                beside_user(side(stream, a.clone()), self.after, || {
                    act(User::Rewrites, &a)
                })
            },
            |stream| {
                beside_user(side(stream, b.clone()), self.after, || {
                    act(User::Creates, &b)
                })
            },
        );
        Side::ALL
            .iter()
            .for_each(|side| self.folders.restore(*side));
        run
    }

    /// What the user did is allowed from here on.
    fn allow_user(&mut self) {
        let old = self.files[0].get(&name(FIRST));
        match self.user {
            User::Creates if self.has_acted.get() => {
                self.allowed[1].insert(name(FIRST), vec![CREATED.into()]);
                let of_a = old.map_or(CREATED, Vec::as_slice);
                self.allowed[0].insert(name(FIRST), vec![of_a.into()]);
            }
            User::Rewrites if self.has_acted.get() => {
                for allowed in self
                    .allowed
                    .iter_mut()
                    .filter_map(|it| it.get_mut(&name(FIRST)))
                {
                    allowed.extend(old.map(|old| rewritten(old)));
                }
            }
            _ => {}
        }
    }

    /// After a run in which anything may have happened.
    fn check_first(&mut self, run: &Run<Ended, Ended>) {
        let before = self.allowed.clone();
        self.allow_user();
        let listed = Side::ALL.map(|side| self.folders.listed(side));
        for (listed, allowed) in listed.iter().zip(&self.allowed) {
            let wrong = wrong(listed, allowed);
            assert!(wrong.is_empty(), "truncated, mixed or replaced: {wrong:?}");
        }
        let successes = [is_success(&run.a), is_success(&run.b)];
        if self.has_acted.get() {
            return; // a file that changed, or whose name is taken, is a failure on one side alone
        }
        let disk_failed = run.trace.faults().any(|it| it.kind == Kind::Disk);
        for (at, _) in successes.iter().enumerate().filter(|it| *it.1) {
            assert!(
                is_complete(&listed[at], &before[at]),
                "a success without all files here"
            );
            let there = is_complete(&listed[1 - at], &before[1 - at]);
            assert!(disk_failed || there, "a success without all files there");
        }
        assert!(
            !run.is_faultless() || successes == [true; 2],
            "{:?} {:?}",
            run.a,
            run.b
        );
    }

    /// After another run, in which no fault struck and no user acted.
    fn check_second(&self, run: &Run<Ended, Ended>) {
        assert!(
            is_success(&run.a) && is_success(&run.b),
            "{:?} {:?}",
            run.a,
            run.b
        );
        for (side, allowed) in Side::ALL.into_iter().zip(&self.allowed) {
            let listed = self.folders.listed(side);
            assert!(
                is_complete(&listed, allowed),
                "{side} lacks files after another run"
            );
            let entries = fs::read_dir(self.folders.of(side)).unwrap().count();
            assert_eq!(entries, allowed.len(), "leftovers");
        }
    }
}

/// The properties of a sync, whose sides are made by `side`.
fn check<F>(sim: &mut Sim, side: impl Fn(Stream, PathBuf) -> F)
where
    F: Future<Output = Ended>,
{
    sim.set_limit(Duration::from_secs(1_500)); // a grace of ten minutes, and another one
    let mut test = Test::draw(sim);
    let first = test.run(sim, &side);
    test.check_first(&first);
    if first.is_faultless() && !test.has_acted.get() {
        return; // nothing is left to do
    }
    test.user = User::Nothing;
    sim.set_faults(Faults::timing());
    let second = test.run(sim, &side);
    test.check_second(&second);
}

macro_rules! check {
    ($engine:ident) => {
        |sim: &mut Sim| check(sim, engines::$engine::session::driver::side)
    };
}

#[test]
fn files_are_whole_and_complete_by_every_seed() {
    explorer().check(check!(sync));
}

#[test]
fn two_runs_of_a_seed_are_the_same() {
    explorer().seeds(200).twice().check(check!(sync));
}

#[test]
fn a_failure_that_looks_like_an_end_in_order_is_found() {
    let failure = found(explorer(), "sync_close", check!(sync_close));
    assert!(
        failure.message.contains("a success without all files"),
        "{failure}"
    );
}

#[test]
fn a_success_before_the_last_bytes_is_found() {
    let failure = found(explorer(), "sync_unchecked", check!(sync_unchecked));
    assert!(
        failure
            .message
            .contains("a success without all files there"),
        "{failure}"
    );
}

#[test]
fn a_chunk_that_is_left_out_is_found() {
    let failure = found(explorer(), "sync_write", check!(sync_write));
    assert!(failure.message.contains("truncated, mixed"), "{failure}");
}

#[test]
fn leftovers_of_a_crash_are_found() {
    let failure = found(explorer(), "sync_leftovers", check!(sync_leftovers));
    assert!(failure.message.contains("leftovers"), "{failure}");
}

#[test]
fn sides_that_wait_for_each_other_are_found() {
    let failure = found(explorer(), "sync_sequence", check!(sync_sequence));
    assert!(failure.message.contains("has not ended"), "{failure}");
}

#[test]
fn a_file_that_is_replaced_is_found() {
    let failure = found(explorer(), "sync_rename", check!(sync_rename));
    assert!(failure.message.contains("or replaced"), "{failure}");
}

#[test]
fn a_file_that_is_read_while_it_changes_is_found() {
    let failure = found(explorer(), "sync_changed", check!(sync_changed));
    assert!(failure.message.contains("truncated, mixed"), "{failure}");
}
