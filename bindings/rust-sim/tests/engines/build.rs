//! Copies the examples `calls` and `sync` of lcmux-tokio, as they are and with a bug each, into modules for the simulator.
//!
//! Each edit replaces a text that the example has once. If an edit for the simulator fits no more, the build fails. If a
//! bug does, its copy has none, and the test that finds it fails.
use std::path::{Path, PathBuf};
use std::{env, fs};

/// A text of a file, and what takes its place.
struct Edit {
    file: &'static str,
    from: &'static str,
    to: &'static str,
}

/// An engine with a bug.
struct Bug {
    name: &'static str,
    edit: Edit,
}

const fn edit(file: &'static str, from: &'static str, to: &'static str) -> Edit {
    Edit { file, from, to }
}

/// What the simulator needs: no random order of branches, and no files on threads. And small sizes, so that rings and
/// queues fill in short runs.
const SIMULATED: [Edit; 9] = [
    edit(
        "calls.rs",
        "        tokio::select! {\n",
        "        tokio::select! {\n            biased;\n",
    ),
    edit(
        "calls.rs",
        "const WORKS: usize = 64;",
        "const WORKS: usize = 3;",
    ),
    edit(
        "calls.rs",
        "const RING: u32 = 65_536;",
        "const RING: u32 = 64;",
    ),
    edit(
        "errors.rs",
        "eprintln!(\"sync: {:?}: {}\", name.as_ref(), error.into());",
        "lcmux_sim::note(format!(\"{:?}: {}\", name.as_ref(), error.into()));",
    ),
    edit("fetch.rs", "use tokio::fs;", "use lcmux_sim::fs;"),
    edit("partial.rs", "use tokio::fs::", "use lcmux_sim::fs::"),
    edit("serve.rs", "use tokio::fs::", "use lcmux_sim::fs::"),
    edit(
        "serve.rs",
        "const CHUNK: u64 = 32_768;",
        "const CHUNK: u64 = 60;",
    ),
    edit(
        "session.rs",
        "const REQUESTS: usize = 256;",
        "const REQUESTS: usize = 2;",
    ),
];

/// The rings of the sync, which hold two chunks.
const RINGS: Edit = edit(
    "session.rs",
    "Config::default()\n",
    "Config::default()\n        .rings(128)\n",
);

const BUGS: [Bug; 11] = [
    // A call that is given up while it waits for guarantees takes a number, which no request has.
    Bug {
        name: "calls_number",
        edit: edit(
            "calls.rs",
            "        requests.sender.send(request).await?;\n        requests.sent += 1;\n",
            "        requests.sent += 1;\n        requests.sender.send(request).await?;\n",
        ),
    },
    // A call without a deadline waits for good once the session has failed.
    Bug {
        name: "calls_waiting",
        edit: edit("calls.rs", "    *waiting.lock().unwrap() = None;\n", ""),
    },
    // A cancellation that overtakes its request is forgotten.
    Bug {
        name: "calls_early",
        edit: edit("calls.rs", "early.insert(number);", "let _: (&HashSet<u64>, u64) = (&early, number);"),
    },
    // A request that is cancelled before it is taken is not counted.
    Bug {
        name: "calls_count",
        edit: edit(
            "calls.rs",
            "running.insert(received, works.spawn(work));\n                    }\n                    received += 1;\n",
            "running.insert(received, works.spawn(work));\n                        received += 1;\n                    }\n",
        ),
    },
    // A failure looks like an end in order to the other side.
    Bug {
        name: "sync_close",
        edit: edit("session.rs", "Err(_) => mux.abort(),", "Err(_) => mux.close(),"),
    },
    // The end of the session is not checked: its last bytes may never have been written.
    Bug {
        name: "sync_unchecked",
        edit: edit("session.rs", "    closed?;\n", "    let _ = closed;\n"),
    },
    // A chunk that a full disk refuses is left out.
    Bug {
        name: "sync_write",
        edit: edit(
            "partial.rs",
            "self.file.write_all(chunk).await?;",
            "let _ = self.file.write_all(chunk).await;",
        ),
    },
    // A file that a user creates meanwhile is replaced.
    Bug {
        name: "sync_rename",
        edit: edit(
            "partial.rs",
            "fs::hard_link(&self.path, path).await",
            "fs::rename(&self.path, path).await",
        ),
    },
    // A file that a user rewrites meanwhile is sent as half the old and half the new one.
    Bug {
        name: "sync_changed",
        edit: edit(
            "serve.rs",
            "        if chunk.is_empty() {\n            self.check().await?;\n",
            "        if chunk.is_empty() {\n",
        ),
    },
    // The partial files of a crashed run stay.
    Bug {
        name: "sync_leftovers",
        edit: edit(
            "partial.rs",
            "if is_ours && entry.file_type()?.is_file() {",
            "if is_ours && entry.file_type()?.is_dir() {",
        ),
    },
    // The requests are served once all offers are sent: two sides with many files wait for each other.
    Bug {
        name: "sync_sequence",
        edit: edit(
            "session.rs",
            "        serve::offer(listing, &offers.sender),\n        serve::serve(listing, &mut requests.receiver, &contents.sender),\n",
            "        async { Ok(()) },\n        async {\n            serve::offer(listing, &offers.sender).await?;\n            serve::serve(listing, &mut requests.receiver, &contents.sender).await\n        },\n",
        ),
    },
];

/// The files of the example `sync`.
const SYNC: [&str; 7] = [
    "errors", "fetch", "listing", "messages", "partial", "serve", "session",
];

fn main() {
    println!("cargo:rerun-if-changed=build.rs");
    let out = PathBuf::from(env::var_os("OUT_DIR").expect("cargo sets it"));
    let mut modules = calls(&out, "calls", None) + &sync(&out, "sync", None);
    for Bug { name, edit } in &BUGS {
        modules += &match name.starts_with("calls") {
            true => calls(&out, name, Some(edit)),
            false => sync(&out, name, Some(edit)),
        };
    }
    fs::write(out.join("engines.rs"), modules).expect("OUT_DIR can be written");
}

/// The text of an example's file for the simulator, with a bug or without one.
fn text_of(path: &Path, bug: Option<&Edit>) -> String {
    println!("cargo:rerun-if-changed={}", path.display());
    let text =
        fs::read_to_string(path).unwrap_or_else(|error| panic!("{}: {error}", path.display()));
    // The documentation of a file stands at its beginning, and here another module begins.
    let lines = text.lines().filter(|line| !line.starts_with("//!"));
    let mut text: String = lines.map(|line| format!("{line}\n")).collect();
    let edits = SIMULATED.iter().chain([&RINGS]).map(|edit| (edit, true));
    let edits = edits.chain(bug.map(|edit| (edit, false)));
    for (Edit { from, to, .. }, is_needed) in edits.filter(|it| path.ends_with(it.0.file)) {
        if text.matches(from).count() == 1 {
            text = text.replacen(from, to, 1);
            continue;
        }
        let why = format!("{} has not once: {from:?}", path.display());
        assert!(!is_needed, "{why}");
        println!("cargo:warning={why}"); // a reader plants a bug there: the one of this copy is not found
    }
    text
}

fn examples() -> PathBuf {
    Path::new(env!("CARGO_MANIFEST_DIR")).join("../../../rust-tokio/examples")
}

/// The declaration of a module whose file is in `src`.
fn driver(name: &str) -> String {
    let path = Path::new(env!("CARGO_MANIFEST_DIR")).join("src").join(name);
    format!("#[path = {path:?}]\npub mod driver;\n")
}

fn calls(out: &Path, name: &str, bug: Option<&Edit>) -> String {
    let file = out.join(format!("{name}.rs"));
    let text = text_of(&examples().join("calls.rs"), bug) + &driver("calls.rs");
    fs::write(&file, text).expect("OUT_DIR can be written");
    format!("#[path = {file:?}]\npub mod {name};\n")
}

fn sync(out: &Path, name: &str, bug: Option<&Edit>) -> String {
    let folder = out.join(name);
    fs::create_dir_all(&folder).expect("OUT_DIR can be written");
    let mut modules = String::new();
    for file in SYNC {
        let mut text =
            text_of(&examples().join(format!("sync/{file}.rs")), bug).replace("crate::", "super::");
        if file == "session" {
            text += &driver("sync.rs");
        }
        let path = folder.join(format!("{file}.rs"));
        fs::write(&path, text).expect("OUT_DIR can be written");
        modules += &format!("    #[path = {path:?}]\n    pub mod {file};\n");
    }
    format!("pub mod {name} {{\n{modules}}}\n")
}
