//! Finds the archive of the peer: the file that LCMUX_ARCHIVE names, else the one that this package has for the
//! target, else, in a clone of the repository, the one that `scripts/archive` has proved and built or kept. A proof
//! takes minutes, so no build starts one: without an archive, only a build that links fails. It fails by the name of a
//! library that no machine has, and that says what is missing. A build for docs.rs, which sets DOCS_RS, looks for no
//! archive.
use std::collections::BTreeSet;
use std::ffi::OsString;
use std::path::{Path, PathBuf};
use std::process::{exit, Command, ExitStatus, Stdio};
use std::{env, fmt, fs, io};

/// A processor for which archives exist.
#[derive(Clone, Copy)]
enum Processor {
    X86_64,
    Aarch64,
}

impl Processor {
    const ALL: [Processor; 2] = [Processor::X86_64, Processor::Aarch64];

    /// Its name in Rust's targets.
    fn name(self) -> &'static str {
        match self {
            Processor::X86_64 => "x86_64",
            Processor::Aarch64 => "aarch64",
        }
    }

    /// Its number in the header of an ELF file.
    fn machine(self) -> u16 {
        match self {
            Processor::X86_64 => 62,
            Processor::Aarch64 => 183,
        }
    }

    /// Whether the target has this processor.
    fn is_of_target(self) -> bool {
        of_cargo("CARGO_CFG_TARGET_ARCH") == self.name()
    }

    /// The processor of the target, if the target is a Linux with 64-bit addresses.
    fn of_target() -> Option<Processor> {
        let of_target = |name| of_cargo(&format!("CARGO_CFG_TARGET_{name}"));
        let fits = of_target("OS") == "linux" && of_target("POINTER_WIDTH") == "64";
        Processor::ALL
            .into_iter()
            .find(|it| fits && it.is_of_target())
    }
}

/// The naming scheme of an archive: of its calls, and of the functions by which it allocates memory.
#[derive(Clone, Copy)]
enum Names {
    /// The kit's names for memory, which each library of the kit has, and the names of `lcmux.h`.
    Kit,
    /// The names of `liblcmux.a`, which a program may link beside this crate.
    C,
    /// The names of src/sys.rs.
    Own,
}

impl Names {
    const ALL: [Names; 3] = [Names::Own, Names::Kit, Names::C];

    /// The prefix of its functions for memory.
    fn heap(self) -> &'static str {
        match self {
            Names::Kit => "rattle_",
            Names::C => "lcmux_",
            Names::Own => OWN,
        }
    }
}

/// The prefix of the names of src/sys.rs.
const OWN: &str = "lcmux_rs_";

/// The functions by which an archive allocates memory.
const HEAP: [&str; 3] = ["alloc", "realloc", "dealloc"];

/// The reason why no archive can be linked.
enum Wrong {
    Device(PathBuf, io::Error),
    NoPeer(PathBuf),
    OtherProcessor(PathBuf, u16),
    NoCommand(OsString, io::Error),
    Failed(OsString, ExitStatus),
}

impl fmt::Display for Wrong {
    fn fmt(&self, to: &mut fmt::Formatter) -> fmt::Result {
        match self {
            Wrong::Device(path, error) => write!(to, "{}: {error}", path.display()),
            Wrong::NoPeer(path) => write!(to, "{}: this is no archive of the peer", path.display()),
            Wrong::OtherProcessor(path, machine) => {
                let found = Processor::ALL.into_iter().find(|it| it.machine() == *machine);
                let found = found.map_or("another processor", Processor::name);
                let (path, target) = (path.display(), of_cargo("TARGET"));
                write!(to, "{path}: this archive is for {found}, and not for {target}")
            }
            Wrong::NoCommand(name, error) => write!(
                to,
                "{}: {error}: without it, set LCMUX_ARCHIVE to the path of an archive from a package",
                name.to_string_lossy()
            ),
            Wrong::Failed(name, status) => write!(to, "{} failed: {status}", name.to_string_lossy()),
        }
    }
}

/// Reads a variable that cargo sets.
fn of_cargo(name: &str) -> String {
    env::var(name).unwrap_or_else(|_| panic!("cargo sets {name}"))
}

/// Reads a variable that the user may set.
fn of_user(name: &str) -> Option<OsString> {
    println!("cargo:rerun-if-env-changed={name}");
    env::var_os(name)
}

fn run(mut command: Command) -> Result<(), Wrong> {
    let name = command.get_program().to_owned();
    match command.status() {
        Ok(status) if status.success() => Ok(()),
        Ok(status) => Err(Wrong::Failed(name, status)),
        Err(error) => Err(Wrong::NoCommand(name, error)),
    }
}

/// A clone of the repository.
struct Clone {
    top: PathBuf,
}

impl Clone {
    /// The clone that contains this package, if any.
    fn around(package: &Path) -> Option<Clone> {
        let top = package.join("../..");
        let has_crate = top.join("crates/lc_c").exists();
        has_crate.then_some(Clone { top })
    }

    /// The archive that was built there from the current sources, or kept.
    fn kept(&self, processor: Processor) -> Option<PathBuf> {
        let asked = Command::new(self.top.join("scripts/archive"))
            .args(["--kept", processor.name()])
            .stderr(Stdio::null())
            .status();
        let archive = format!("crates/lc_c/out/{}/liblc_c.a", processor.name());
        let is_there = asked.is_ok_and(|status| status.success());
        is_there.then(|| self.top.join(archive))
    }

    /// Makes cargo watch the sources of the archive.
    fn watch(&self) -> Result<(), Wrong> {
        let crates = self.top.join("crates.txt");
        is_watched(&crates);
        is_watched(&self.top.join("HANDLES"));
        let rows = fs::read_to_string(&crates).map_err(|error| Wrong::Device(crates, error))?;
        for name in with_those_below("lc_c", &rows) {
            for part in ["src", "specs", "proofs"] {
                let folder = self.top.join(format!("crates/{name}/{part}"));
                if folder.exists() {
                    is_watched(&folder);
                }
            }
        }
        Ok(())
    }
}

/// Makes cargo run this script again if the file or a file in the folder changes.
fn is_watched(path: &Path) {
    println!("cargo:rerun-if-changed={}", path.display());
}

/// A crate and its dependencies in the repository, from the rows of crates.txt.
fn with_those_below<'a>(name: &'a str, rows: &'a str) -> BTreeSet<&'a str> {
    let words = |row: &'a str| row.split([':', ' ']).filter(|word| !word.is_empty());
    let (mut found, mut left) = (BTreeSet::new(), vec![name]);
    while let Some(name) = left.pop() {
        let row = rows.lines().find(|row| words(row).next() == Some(name));
        if let Some(row) = row.filter(|_| found.insert(name)) {
            left.extend(words(row).skip(1));
        }
    }
    found
}

/// An archive, or the reason why there is none.
enum Found {
    Archive(PathBuf),
    /// In a clone, in which one has yet to be built for this processor.
    NoneYet(Processor),
    /// In a package that has none for the target.
    NoneFits,
}

fn find(processor: Option<Processor>) -> Result<Found, Wrong> {
    if let Some(path) = of_user("LCMUX_ARCHIVE") {
        return Ok(Found::Archive(path.into()));
    }
    let Some(processor) = processor else {
        return Ok(Found::NoneFits);
    };
    let package = PathBuf::from(of_cargo("CARGO_MANIFEST_DIR"));
    let packaged = package.join(format!("archives/{}-linux/liblc_c.a", processor.name()));
    if packaged.exists() {
        return Ok(Found::Archive(packaged));
    }
    let Some(clone) = Clone::around(&package) else {
        return Ok(Found::NoneFits);
    };
    clone.watch()?;
    let kept = clone.kept(processor);
    Ok(kept.map_or(Found::NoneYet(processor), Found::Archive))
}

/// The machine of the first object of an archive. After 8 bytes, each member begins at an even offset, with a header
/// of 60 bytes; its ten bytes at 48 are the length of the member in decimal.
fn machine_of(archive: &[u8]) -> Option<u16> {
    let mut rest = archive.strip_prefix(b"!<arch>\n")?;
    loop {
        let length = std::str::from_utf8(rest.get(48..58)?).ok()?;
        let length: usize = length.trim_end().parse().ok()?;
        let member = rest.get(60..)?.get(..length)?;
        if let [0x7f, b'E', b'L', b'F', ..] = member {
            return Some(u16::from_le_bytes([*member.get(18)?, *member.get(19)?]));
        }
        rest = rest.get(60 + length + length % 2..)?;
    }
}

fn names_of(archive: &[u8]) -> Option<Names> {
    Names::ALL.into_iter().find(|it| {
        let name = format!("{}{}\0", it.heap(), HEAP[0]);
        archive.windows(name.len()).any(|at| at == name.as_bytes())
    })
}

/// The naming scheme of an archive of the peer, if the archive is for the target's processor.
fn judge(path: &Path, archive: &[u8]) -> Result<Names, Wrong> {
    let (Some(machine), Some(names)) = (machine_of(archive), names_of(archive)) else {
        return Err(Wrong::NoPeer(path.into()));
    };
    let differ = |it: &Processor| (it.machine() == machine) != it.is_of_target();
    if Processor::ALL.iter().any(differ) {
        return Err(Wrong::OtherProcessor(path.into(), machine));
    }
    Ok(names)
}

/// The names that an archive defines, from its first member: the number of names as four big-endian bytes, as many
/// offsets of four bytes, and the names, each terminated by a 0.
fn defined(archive: &[u8]) -> Option<Vec<String>> {
    let header = archive.get(8..68)?;
    let length: usize = std::str::from_utf8(&header[48..58])
        .ok()?
        .trim_end()
        .parse()
        .ok()?;
    let index = archive.get(68..)?.get(..length)?;
    let count = u32::from_be_bytes(index.get(..4)?.try_into().ok()?) as usize;
    let names = index.get(4 + 4 * count..)?.split(|it| *it == 0).take(count);
    let names = names.map(|it| String::from_utf8(it.to_vec()).ok());
    header.starts_with(b"/ ").then(|| names.collect())?
}

/// The names of this library in an archive, each with its new name: the names that it defines, and those of the heap.
fn renamed(archive: &[u8], names: Names) -> Option<Vec<(String, String)>> {
    let heap = HEAP.map(|it| (format!("{}{it}", names.heap()), format!("{OWN}{it}")));
    let calls = defined(archive)?.into_iter().filter_map(|it| {
        let own = format!("{OWN}{}", it.strip_prefix("lcmux_")?);
        Some((it, own))
    });
    let all: BTreeSet<_> = heap.into_iter().chain(calls).collect();
    Some(all.into_iter().collect())
}

/// Copies an archive with names of its own, since a program may link the library for C or another library of the kit,
/// too.
fn rename(path: &Path, archive: &[u8], names: Names, to: &Path) -> Result<(), Wrong> {
    let mut command = Command::new(of_user("OBJCOPY").unwrap_or_else(|| "objcopy".into()));
    for (old, own) in renamed(archive, names).ok_or_else(|| Wrong::NoPeer(path.into()))? {
        command.arg("--redefine-sym").arg(format!("{old}={own}"));
    }
    command.arg(path).arg(to);
    run(command)
}

fn link_to(path: &Path) -> Result<(), Wrong> {
    is_watched(path);
    let device = |error| Wrong::Device(path.into(), error);
    let archive = fs::read(path).map_err(device)?;
    let out = PathBuf::from(of_cargo("OUT_DIR"));
    let copy = out.join("liblc_c.a");
    match judge(path, &archive)? {
        Names::Own => fs::write(&copy, archive).map_err(|error| Wrong::Device(copy, error))?,
        names => rename(path, &archive, names, &copy)?,
    }
    println!("cargo:rustc-link-search=native={}", out.display());
    println!("cargo:rustc-link-lib=static=lc_c");
    Ok(())
}

/// The library whose absence ends a build that links without an archive: the linker prints this name.
const MISSING: &str = "lcmux-has-no-archive-of-the-peer-set-LCMUX_ARCHIVE-to-the-path-of-one";

fn warn_of_none(why: &str) {
    // This file never exists, so cargo runs the script at each build.
    is_watched(&PathBuf::from(of_cargo("OUT_DIR")).join("none-yet"));
    println!("cargo:rustc-link-lib=dylib={MISSING}");
    println!("cargo:warning=nothing can be linked before {why}");
}

fn link() -> Result<(), Wrong> {
    if of_user("DOCS_RS").is_some() {
        return Ok(()); // a build of the documents alone, on a machine without an archive
    }
    match find(Processor::of_target())? {
        Found::Archive(path) => link_to(&path),
        Found::NoneYet(processor) => {
            warn_of_none(&format!(
                "`scripts/archive {}` has proved and built the archive of the peer, which takes some ten minutes, or LCMUX_ARCHIVE names one of a package",
                processor.name()
            ));
            Ok(())
        }
        Found::NoneFits => {
            warn_of_none(&format!(
                "LCMUX_ARCHIVE names an archive of the peer for {}: this package has none",
                of_cargo("TARGET")
            ));
            Ok(())
        }
    }
}

fn main() {
    if let Err(wrong) = link() {
        eprintln!("lcmux: {wrong}");
        if let Some(path) = env::var_os("LCMUX_ARCHIVE") {
            eprintln!("lcmux: LCMUX_ARCHIVE is {path:?}: set it to the whole path of an archive from a package, or unset it");
        }
        exit(1);
    }
}
