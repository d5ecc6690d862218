//! The table "What each call answers" of `docs/reference/sessions.md`, and the cells for the results of calls.
use crate::call::Call;
use lcmux::{CallError, Closed, Mux, Permit, Receiver, SendError, Sender};
use std::fs;
use std::path::Path;
use std::time::Duration;

pub const OPEN: &str = "open";
pub const CLOSED: &str = "after this side's `close`";
pub const ENDED: &str = "the peer closed in order";
pub const OVER: &str = "over, in order";
pub const FAILED: &str = "cut, transport, protocol error";
pub const ABORTED: &str = "aborted";

// The page is in the repository, and among the tests of a package of the crate.
fn page() -> String {
    let folder = Path::new(env!("CARGO_MANIFEST_DIR"));
    let packed = concat!("../lcmux-", env!("CARGO_PKG_VERSION"), "/tests/sessions.md");
    let places = [
        "tests/sessions.md",
        "../../docs/reference/sessions.md",
        packed,
    ];
    let mut pages = places.iter().map(|it| fs::read_to_string(folder.join(it)));
    pages.find_map(Result::ok).expect("the page on sessions")
}

/// The rows after this heading, without the line below the first one.
pub fn table(heading: &str) -> Vec<Vec<String>> {
    let page = page();
    let (_, behind) = page.split_once(&format!("## {heading}\n")).unwrap();
    let rows = behind.lines().skip_while(|line| !line.starts_with('|'));
    let rows = rows.take_while(|line| line.starts_with('|'));
    let cells = |row: &str| {
        row.trim_matches('|')
            .split('|')
            .map(|it| it.trim().into())
            .collect()
    };
    rows.filter(|row| !row.starts_with("|---"))
        .map(cells)
        .collect()
}

/// The names of the calls, and the cells of a column.
pub fn column(name: &str) -> Vec<(String, String)> {
    let rows = table("What each call answers");
    let (head, rows) = rows.split_first().unwrap();
    assert_eq!(rows.len(), 7);
    assert_eq!(head[1..], [OPEN, CLOSED, ENDED, OVER, FAILED, ABORTED]);
    let at = head.iter().position(|it| it == name).unwrap();
    let cell = |row: &[String]| {
        // A call that returns at once is ready at its first poll. An empty cell cannot be reached; it is the end of its
        // channel.
        let cell = row[at].split(", at once").next().unwrap();
        let cell = if cell.is_empty() { "the end" } else { cell };
        (row[0].clone(), cell.to_string())
    };
    rows.iter().map(|row| cell(row)).collect()
}

/// Whether it is this reason, wherever in the stream.
fn is_of(closed: &Closed, reason: &Closed) -> bool {
    closed == reason || closed.stop().is_some() && closed.stop() == reason.stop()
}

/// The cell of the page for a result.
pub fn word(closed: &Closed, reason: &Closed) -> String {
    match closed {
        Closed::Local => "closed here".into(),
        Closed::Remote => "closed by the peer".into(),
        Closed::Aborted => "aborted".into(),
        closed if is_of(closed, reason) => "reason".into(),
        closed => format!("{closed:?}"),
    }
}

/// The cell for what `closed` or a driver answers, if it answers.
pub fn ended(answer: Option<Result<(), Closed>>, reason: &Closed) -> String {
    match answer {
        None => "-".into(),
        Some(Ok(())) => "success".into(),
        Some(Err(closed)) => word(&closed, reason),
    }
}

fn sent(answer: Option<Result<(), SendError>>, reason: &Closed) -> String {
    match answer {
        None | Some(Ok(())) => "-".into(),
        Some(Err(SendError::Closed(closed))) => word(&closed, reason),
        Some(Err(error)) => format!("{error:?}"),
    }
}

fn received(answer: Option<Result<Option<Vec<u8>>, Closed>>, reason: &Closed) -> String {
    match answer {
        None => "-".into(),
        Some(Ok(Some(_))) => "the message".into(),
        Some(Ok(None)) => "the end".into(),
        Some(Err(closed)) => word(&closed, reason),
    }
}

fn allowed(answer: Result<(), CallError>, reason: &Closed) -> String {
    match answer {
        Ok(()) | Err(CallError::Refused(_)) => "-".into(),
        Err(CallError::Closed(closed)) => word(&closed, reason),
        Err(error) => format!("{error:?}"),
    }
}

/// A cell may describe two results: with guarantees and without.
fn both(with: String, without: String) -> String {
    match with == without {
        true => with,
        false => format!("{with} where guarantees are held, else {without}"),
    }
}

/// The calls that begin while a session is open. On channels 0 and 1 guarantees are held; on channel 1 a message has
/// arrived; channel 2 is finished by the peer. Channel 6 is not used.
pub struct Begun<'a> {
    senders: &'a [Sender],
    permit: Permit<'a>,
    waiting: Call<'a, Result<(), SendError>>,
    waiting_to_reserve: Call<'a, Result<Permit<'a>, SendError>>,
}

impl<'a> Begun<'a> {
    pub fn new(senders: &'a [Sender]) -> Begun<'a> {
        Begun {
            senders,
            permit: senders[0].try_reserve(1).unwrap(),
            waiting: Call::waiting(senders[2].send(b"poor")),
            waiting_to_reserve: Call::waiting(senders[3].reserve(9)),
        }
    }

    /// The results of all calls now, in the order of the page's rows.
    pub fn answers(
        mut self,
        mux: &Mux,
        receivers: &mut [Receiver],
        reason: &Closed,
    ) -> Vec<String> {
        let senders = self.senders;
        let rich = sent(Call::new(senders[1].send(b"rich")).poll(), reason);
        let poor = sent(Call::new(senders[4].send(b"poor")).poll(), reason);
        assert_eq!(sent(self.waiting.poll(), reason), poor);
        let reserved = self.waiting_to_reserve.poll().map(|it| it.map(drop));
        assert_eq!(sent(reserved, reason), poor);
        let empty = &receivers[3];
        let controls = [
            allowed(senders[1].limit(8), reason),
            allowed(senders[1].absolve(1), reason),
            allowed(senders[1].honour().map(drop), reason),
            allowed(empty.issue(1), reason),
            allowed(empty.plead(0), reason),
            allowed(empty.limit(1), reason),
            allowed(senders[5].finish(), reason),
        ];
        assert!(controls.iter().all(|it| *it == controls[0]), "{controls:?}");
        let [control, ..] = controls;
        let closed = ended(mux.closed_timeout(Duration::ZERO), reason);
        let [full, finished, empty] =
            [1, 2, 3].map(|it: usize| received(Call::new(receivers[it].recv()).poll(), reason));
        let permit = sent(Some(self.permit.send(b"p")), reason);
        vec![
            both(rich, poor),
            permit,
            full,
            finished,
            empty,
            control,
            closed,
        ]
    }
}

/// Drops a handle by a panic.
pub fn panic_with<T>(handle: T) {
    let panics = std::panic::AssertUnwindSafe(|| {
        let _handle = handle;
        std::panic::resume_unwind(Box::new("a panic"));
    });
    assert!(std::panic::catch_unwind(panics).is_err());
}
