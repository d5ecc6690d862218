//! Peers that break the rules of the exchange.
use super::folder::{files, Entry, Folder, Tree};
use super::stranger::{Stranger, FAILED, WHOLE};
use super::{both, Watchdog, PARTIAL};
use std::os::unix::ffi::OsStrExt;
use std::path::Path;

/// A request for anything but an offered file fails the session, and no contents are sent for it.
#[test]
fn only_what_was_offered_is_served() {
    let _watchdog = Watchdog::new("requests of what was not offered");
    let outside = Folder::new(&files([("secret", "secret")]));
    let secret = outside.join("secret");
    let sub = Entry::Folder(files([("inside", "inside")]));
    let others = [
        ("link".into(), Entry::Link(secret.clone())),
        ("sub".into(), sub),
    ];
    let tree = both(files([("offered", "offered")]), others.into());
    let folder = Folder::new(&tree);
    let up = Path::new("..").join(
        secret
            .strip_prefix(outside.path().parent().unwrap())
            .unwrap(),
    );
    let names = [
        b"link",
        b"sub/inside",
        b"./offered",
        b"nothing",
        b"sub",
        secret.as_os_str().as_bytes(),
        up.as_os_str().as_bytes(),
    ] as [&[u8]; 7];
    for name in names {
        let mut stranger = Stranger::meet(&folder);
        assert_eq!(stranger.offered(), ["offered"]);
        stranger.request(b"offered");
        stranger.gets(b"offered", WHOLE);
        stranger.request(name);
        let name = String::from_utf8_lossy(name);
        stranger.given_up().broke(&format!(
            "the other side requests a file that was not offered: {name}"
        ));
    }
    folder.has(&tree);
}

/// The session fails with an error that shows the name, and nothing of that name is created.
#[test]
fn names_that_lead_elsewhere_are_refused() {
    let _watchdog = Watchdog::new("offers of bad names");
    let partial = format!("{PARTIAL}/a");
    let texts = [
        "../other", "a/b", "a/", "/tmp/a", "..", ".", "", "a\0b", "a\0", PARTIAL, &partial,
    ];
    let no_texts = [&b"\xff"[..], b"a\xc3"];
    let zeros = r"\x00".repeat(7);
    for name in texts.map(str::as_bytes).into_iter().chain(no_texts) {
        let folder = Folder::new(&files([("kept", "kept")]));
        let stranger = Stranger::meet(&folder);
        stranger.offer(5, name);
        // An example that accepts the offer does not wait for contents. (The requests do not end, or the example's
        // contents might end in order before the offer arrives.)
        let _ = stranger.contents.0.finish();
        let shown = name.escape_ascii();
        stranger.given_up().broke(&format!(
            "sync: the session ended early: the other side sends a malformed offer: {zeros}\\x05{shown}\n"
        ));
        folder.has(&files([("kept", "kept")]));
    }
    let folder = Folder::new(&Tree::new());
    let stranger = Stranger::meet(&folder);
    stranger.offers.0.send_blocking(b"1234567").unwrap(); // no whole length
    stranger
        .given_up()
        .broke("the other side sends a malformed offer: 1234567");
}

/// No file of this machine can have the name; the next one can.
#[test]
fn a_name_that_cannot_be_made_fails_alone() {
    let _watchdog = Watchdog::new("offers of a name too long");
    let folder = Folder::new(&Tree::new());
    let mut stranger = Stranger::meet(&folder);
    let long = "n".repeat(256);
    stranger.offer(4, long.as_bytes());
    stranger.offer(4, b"good");
    assert_eq!(
        stranger.requests.1.recv_blocking().unwrap().unwrap(),
        b"good"
    );
    stranger.send_chunk("file");
    stranger.send(WHOLE);
    stranger
        .finish()
        .failed(1, &long, "File name too long (os error 36)");
    folder.has(&files([("good", "file")]));
}

#[test]
fn contents_of_another_length_than_offered_fail_alone() {
    let _watchdog = Watchdog::new("contents of another length");
    let wrong = "the contents do not have the length that was offered";
    let cases: [(&[&str], &[u8], &str); 5] = [
        (&["123456"], WHOLE, wrong),
        (&["123", "45", "6", "7"], WHOLE, wrong),
        (&["123"], WHOLE, wrong),
        (&[], WHOLE, wrong),
        (&["12345"], FAILED, "the other side could not read the file"),
    ];
    for (chunks, end, why) in cases {
        let folder = Folder::new(&Tree::new());
        let stranger = Stranger::meet(&folder);
        stranger.offer(5, b"wrong");
        stranger.offer(4, b"good");
        chunks.iter().for_each(|chunk| stranger.send_chunk(chunk));
        stranger.send(end);
        ["fi", "le"]
            .iter()
            .for_each(|chunk| stranger.send_chunk(chunk));
        stranger.send(WHOLE);
        stranger.finish().failed(1, "wrong", why);
        folder.has(&files([("good", "file")]));
    }
}

#[test]
fn contents_that_are_none_end_the_session() {
    let _watchdog = Watchdog::new("contents that are none");
    for piece in [&[3][..], &[1, 0], &[2, 0], &[255]] {
        let folder = Folder::new(&Tree::new());
        let stranger = Stranger::meet(&folder);
        stranger.offer(5, b"name");
        stranger.send_chunk("123");
        stranger.send(piece);
        stranger
            .given_up()
            .broke("the other side sends contents of an unknown kind");
        folder.has(&Tree::new());
    }
    let folder = Folder::new(&Tree::new());
    let stranger = Stranger::meet(&folder);
    stranger.offer(5, b"name");
    stranger.send_chunk("12345");
    stranger.contents.0.finish().unwrap();
    stranger
        .given_up()
        .broke("the other side ended the contents before a requested file");
    folder.has(&Tree::new());
}

/// A name that a peer chose reaches no terminal as it is.
#[test]
fn control_characters_of_a_name_are_escaped() {
    let _watchdog = Watchdog::new("names with control characters");
    let folder = Folder::new(&Tree::new());
    let stranger = Stranger::meet(&folder);
    stranger.offer(1, b"\x1b[2Jname");
    stranger.send(FAILED);
    let ended = stranger.finish();
    assert!(
        ended.said.contains(r"\u{1b}[2Jname") && !ended.said.contains('\x1b'),
        "{}",
        ended.said
    );
}
