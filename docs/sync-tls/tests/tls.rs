//! The sync over TLS, as users run it: two processes, and keys that `openssl` makes.
#[path = "../../../bindings/rust/tests/common/watchdog.rs"]
mod watchdog;

use std::io::{Read, Write};
use std::net::TcpStream;
use std::path::{Path, PathBuf};
use std::process::{Child, Command, Output, Stdio};
use std::{env, fs, process};
use watchdog::Watchdog;

/// A folder that is removed with its content.
struct Folder(PathBuf);

impl Folder {
    fn new(name: &str) -> Folder {
        let path = env::temp_dir().join(format!("sync-tls-{}-{name}", process::id()));
        fs::create_dir(&path).unwrap();
        Folder(path)
    }

    fn with(name: &str, files: &[(&str, &[u8])]) -> Folder {
        let folder = Folder::new(name);
        for (name, bytes) in files {
            fs::write(folder.0.join(name), bytes).unwrap();
        }
        folder
    }

    fn file(&self, name: &str) -> Option<Vec<u8>> {
        fs::read(self.0.join(name)).ok()
    }
}

impl Drop for Folder {
    fn drop(&mut self) {
        let _ = fs::remove_dir_all(&self.0);
    }
}

fn openssl(folder: &Path, words: &str) {
    let mut command = Command::new("openssl");
    let made = command.current_dir(folder).args(words.split(' ')).output();
    let made = made.expect("openssl is installed");
    let said = String::from_utf8_lossy(&made.stderr);
    assert!(made.status.success(), "openssl {words}: {said}");
}

/// The keys of a side whose name is `side`, and a new authority.
fn keys(name: &str) -> Folder {
    let folder = Folder::with(name, &[("names", b"subjectAltName=DNS:side")]);
    let key = "-newkey ec -pkeyopt ec_paramgen_curve:prime256v1 -nodes";
    openssl(
        &folder.0,
        &format!(
            "req -x509 {key} -subj /CN=authority -days 2 -keyout authority.key -out authority.pem"
        ),
    );
    openssl(
        &folder.0,
        &format!("req {key} -subj /CN=side -keyout key.pem -out request.pem"),
    );
    openssl(
        &folder.0,
        "x509 -req -in request.pem -CA authority.pem -CAkey authority.key -CAcreateserial -days 2 -extfile names -out certificate.pem",
    );
    folder
}

fn program() -> Command {
    let mut command = Command::new(env!("CARGO_BIN_EXE_sync-tls"));
    command.stdout(Stdio::piped()).stderr(Stdio::piped());
    command
}

/// A side that listens, and its address.
fn listening(folder: &Folder, keys: &Folder) -> (Child, String) {
    let mut command = program();
    command.args(["listen", "127.0.0.1:0"]);
    let mut child = command.arg(&folder.0).arg(&keys.0).spawn().unwrap();
    let errors = child.stderr.as_mut().unwrap();
    let (mut line, mut byte) = (String::new(), [0]);
    while errors.read(&mut byte).unwrap() == 1 && byte != *b"\n" {
        line.push(byte[0].into());
    }
    let address = line.strip_prefix("listening on ").expect(&line);
    (child, address.into())
}

/// Runs both sides, each with its keys, where the second expects this name of the first.
fn sync(folders: [&Folder; 2], keys: [&Folder; 2], name: &str) -> [Output; 2] {
    let (here, address) = listening(folders[0], keys[0]);
    let mut there = program();
    there.args(["connect", &address]).arg(&folders[1].0);
    let there = there.arg(&keys[1].0).arg(name).output().unwrap();
    [here.wait_with_output().unwrap(), there]
}

fn said(output: &Output) -> String {
    assert_eq!(output.status.code(), Some(1));
    assert!(output.stdout.is_empty());
    String::from_utf8(output.stderr.clone()).unwrap()
}

#[test]
fn both_folders_get_all_files() {
    let _watchdog = Watchdog::new("the sync over TLS");
    let long: Vec<u8> = (0..3_000_000u32).map(|at| (at % 251) as u8).collect();
    let here = Folder::with("here", &[("one", b"1"), ("long", &long)]);
    let there = Folder::with("there", &[("two", b"22"), ("empty", b"")]);
    let keys = keys("both");
    for ended in sync([&here, &there], [&keys, &keys], "side") {
        let said = String::from_utf8_lossy(&ended.stderr);
        assert!(ended.status.success(), "{said}");
        assert_eq!(ended.stdout, b"got 2 files\n");
    }
    for folder in [&here, &there] {
        assert_eq!(folder.file("one"), Some(b"1".to_vec()));
        assert_eq!(folder.file("two"), Some(b"22".to_vec()));
        assert_eq!(folder.file("empty"), Some(Vec::new()));
        assert!(folder.file("long") == Some(long.clone()));
    }
}

/// Each side checks the other: its authority, and the listening one's name.
#[test]
fn a_stranger_gets_nothing() {
    let _watchdog = Watchdog::new("strangers of the sync over TLS");
    let here = Folder::with("mine", &[("secret", b"1")]);
    let there = Folder::new("strange");
    let (keys, others) = (keys("ours"), keys("theirs"));
    // A side that trusts us, and has a certificate of another authority.
    let stranger = Folder::with(
        "mixed",
        &[
            ("authority.pem", &keys.file("authority.pem").unwrap()),
            ("certificate.pem", &others.file("certificate.pem").unwrap()),
            ("key.pem", &others.file("key.pem").unwrap()),
        ],
    );
    for (keys, name, why) in [
        ([&keys, &others], "side", "UnknownIssuer"),
        ([&keys, &keys], "other", "CertNotValidForName"),
        ([&keys, &stranger], "side", ""),
    ] {
        let [mine, strange] = sync([&here, &there], keys, name);
        assert!(said(&strange).contains(why), "{}", said(&strange));
        assert!(said(&mine).starts_with("sync: "), "{}", said(&mine));
        assert_eq!(there.file("secret"), None);
    }
    assert_eq!(here.file("secret"), Some(b"1".to_vec()));
}

/// As a side without TLS does.
#[test]
fn a_plain_connection_is_refused() {
    let _watchdog = Watchdog::new("a plain connection to the sync over TLS");
    let (folder, keys) = (Folder::new("plain"), keys("plain-keys"));
    let (here, address) = listening(&folder, &keys);
    let mut stream = TcpStream::connect(address).unwrap();
    stream.write_all(b"\x21\0\x01\0\0").unwrap();
    let ended = here.wait_with_output().unwrap();
    assert!(said(&ended).starts_with("sync: "));
}
