//! The examples, as users run them: two processes each, and their output.
#[path = "../../rust/tests/common/watchdog.rs"]
mod watchdog;

mod sync;

use std::io::{Read, Write};
use std::path::{Path, PathBuf};
use std::process::{self, Child, Command, Output, Stdio};
use std::{env, fs};
use watchdog::Watchdog;

/// Cargo builds the examples beside the tests.
fn built(name: &str) -> PathBuf {
    let deps = env::current_exe().unwrap();
    deps.parent().unwrap().with_file_name("examples").join(name)
}

fn example(name: &str) -> Command {
    let mut command = Command::new(built(name));
    command.stdin(Stdio::piped()).stdout(Stdio::piped());
    command
}

/// A program that listens, and its address.
fn listening(command: &mut Command) -> (Child, String) {
    let mut child = command.stderr(Stdio::piped()).spawn().unwrap();
    let errors = child.stderr.as_mut().unwrap();
    let (mut line, mut byte) = (String::new(), [0]);
    // Byte by byte: bytes that a buffer reads after the line would be lost.
    while errors.read(&mut byte).unwrap() == 1 && byte != *b"\n" {
        line.push(byte[0].into());
    }
    let address = line.strip_prefix("listening on ").expect(&line);
    (child, address.into())
}

/// The output of a program that succeeds.
fn printed(child: Child) -> String {
    let output = child.wait_with_output().unwrap();
    assert!(output.status.success());
    String::from_utf8(output.stdout).unwrap()
}

/// The output of both programs for their typed input.
fn run(name: &str, typed: [&str; 2]) -> [String; 2] {
    let (one, address) = listening(example(name).args(["listen", "127.0.0.1:0"]));
    let other = example(name).args(["connect", &address]).spawn().unwrap();
    let mut children = [one, other];
    for (child, typed) in children.iter_mut().zip(typed) {
        let mut input = child.stdin.take().unwrap();
        input.write_all(typed.as_bytes()).unwrap();
    }
    children.map(printed)
}

/// A call with its deadline in milliseconds.
fn call(deadline: u32, request: &str) -> [String; 2] {
    [deadline.to_string(), request.into()]
}

/// The output of a server and of a client that makes these calls.
fn calls(requests: &[[String; 2]]) -> [String; 2] {
    let (server, address) = listening(example("calls").args(["listen", "127.0.0.1:0"]));
    let mut client = example("calls");
    client.args(["connect", &address]).args(requests.concat());
    [server, client.spawn().unwrap()].map(printed)
}

/// Calls, and what their server and their client print.
type Case = (Vec<[String; 2]>, [String; 2]);

/// Makes the calls of a case, whose deadlines are counted in a unit of so many milliseconds. On a busy machine a deadline
/// may pass before its request is sent, and nothing is cancelled then: the next try has more time.
fn print_as_wanted(watchdog: &Watchdog, case: impl Fn(u32) -> Case) {
    let tries = [1_000, 3_000, 10_000].map(case).into_iter();
    let tries = tries.map(|(requests, wanted)| {
        watchdog.feed();
        (calls(&requests), wanted)
    });
    let others: Vec<_> = tries
        .take_while(|(printed, wanted)| printed != wanted)
        .collect();
    assert!(others.len() < 3, "{others:?}");
}

const LATE: &str = "deadline has elapsed\n";

#[test]
fn calls_are_answered_in_any_order() {
    let _watchdog = Watchdog::new("calls");
    let [server, client] =
        calls(&["sleep 300", "hello", "sleep 100"].map(|request| call(30_000, request)));
    assert_eq!(client, "SLEEP 300\nHELLO\nSLEEP 100\n");
    assert_eq!(server, "0 cancelled\n");
}

/// More calls than the server works at, so some are cancelled before it takes them from the ring. More cancellations than
/// a task sends in one go, so the client would close before the last one.
#[test]
fn calls_past_their_deadlines_are_cancelled() {
    let watchdog = Watchdog::new("calls past their deadlines");
    print_as_wanted(&watchdog, |unit| {
        let requests = vec![call(2 * unit, "sleep 3600000"); 400];
        (requests, ["400 cancelled\n".into(), LATE.repeat(400)])
    });
    print_as_wanted(&watchdog, |unit| {
        let requests = ["sleep 3600000", "hello", "sleep 3600000"];
        let requests = requests.map(|request| call(2 * unit, request));
        let printed = ["2 cancelled\n".into(), format!("{LATE}HELLO\n{LATE}")];
        (requests.into(), printed)
    });
}

/// The server works at 64 others, so the cancellation of the last one overtakes it.
#[test]
fn a_call_is_cancelled_before_its_server_takes_it() {
    let watchdog = Watchdog::new("a call that is cancelled in the ring");
    print_as_wanted(&watchdog, |unit| {
        let mut requests = vec![call(4 * unit, "sleep 3600000"); 64];
        requests.push(call(unit, "sleep 3600000"));
        (requests, ["65 cancelled\n".into(), LATE.repeat(65)])
    });
}

#[test]
fn a_server_works_at_64_calls_at_most() {
    let watchdog = Watchdog::new("one call more than the server works at");
    print_as_wanted(&watchdog, |unit| {
        let request = format!("sleep {}", 2 * unit);
        let mut requests = vec![call(60_000, &request); 64];
        requests.push(call(unit, "hello"));
        let answers = format!("{}\n", request.to_uppercase()).repeat(64);
        (requests, ["1 cancelled\n".into(), answers + LATE])
    });
}

/// A call without an answer ends with its session.
#[test]
fn a_call_fails_when_its_server_is_killed() {
    let _watchdog = Watchdog::new("a call of a server that is killed");
    let (mut server, address) = listening(example("calls").args(["listen", "127.0.0.1:0"]));
    let mut client = example("calls");
    client.args(["connect", &address]);
    client.args(["3600000", "hello", "3600000", "sleep 3600000"]);
    let mut client = client.stderr(Stdio::piped()).spawn().unwrap();
    let (answers, mut answer) = (client.stdout.as_mut().unwrap(), [0; 6]);
    answers.read_exact(&mut answer).unwrap();
    assert_eq!(answer, *b"HELLO\n");
    server.kill().unwrap();
    let output = client.wait_with_output().unwrap();
    assert_eq!(output.status.code(), Some(1));
    assert_eq!(output.stdout, b"");
    let error = String::from_utf8(output.stderr).unwrap();
    assert!(
        error.contains("the session ended before the answer"),
        "{error}"
    );
    server.wait().unwrap();
}

#[test]
fn a_chat() {
    let _watchdog = Watchdog::new("the chat");
    let typed = ["hello\n\nhow are you?\n", "good morning\nfine\nand you?\n"];
    let printed = run("chat", typed);
    // Receipts have a channel of their own; the last one is counted when both programs have ended.
    let wanted = [
        "> good morning\n> fine\n> and you?\nthe other side read 2 of it\n",
        "> hello\n> how are you?\nthe other side read 3 of it\n",
    ];
    for (printed, wanted) in printed.iter().zip(wanted) {
        assert_eq!(sorted(printed), sorted(wanted));
    }
}

// The lines of the peer in their order, and the count, which may precede some of them.
fn sorted(text: &str) -> (Vec<&str>, Vec<&str>) {
    text.lines().partition(|line| line.starts_with('>'))
}

/// A folder of its own, which is removed in the end.
struct Folder(PathBuf);

impl Folder {
    fn new(name: &str) -> Folder {
        let path = env::temp_dir().join(format!("lcmux-{name}-{}", process::id()));
        fs::create_dir(&path).unwrap();
        Folder(path)
    }
}

impl Drop for Folder {
    fn drop(&mut self) {
        let _ = fs::remove_dir_all(&self.0);
    }
}

/// Both programs copy a file from one path to another: their outputs.
fn copied(from: &Path, to: &Path) -> [Output; 2] {
    let mut listen = example("copy");
    let (receiver, address) = listening(listen.args(["listen", "127.0.0.1:0"]).arg(to));
    let mut connect = example("copy");
    let connect = connect.args(["connect", &address]).arg(from);
    let sender = connect.stderr(Stdio::piped()).spawn().unwrap();
    [sender, receiver].map(|child| child.wait_with_output().unwrap())
}

#[test]
fn a_file_is_copied() {
    let _watchdog = Watchdog::new("the copy of a file");
    let folder = Folder::new("copy");
    let [from, to] = ["from", "to"].map(|name| folder.0.join(name));
    for len in [0, 1, 3_000_000_u32] {
        let bytes: Vec<_> = (0..len)
            .map(|at| (at.wrapping_mul(at) >> 7) as u8)
            .collect();
        fs::write(&from, &bytes).unwrap();
        let [sent, received] = copied(&from, &to).map(|output| {
            assert!(output.status.success(), "{output:?}");
            [output.stdout, output.stderr].map(|text| String::from_utf8(text).unwrap())
        });
        let steps = |done: &str| -> String {
            let steps = 1..=len >> 20;
            steps.map(|it| format!("{done} {it} MiB\n")).collect()
        };
        assert_eq!(sent, [format!("sent {len} bytes\n"), steps("sent")]);
        assert_eq!(
            received,
            [format!("received {len} bytes\n"), steps("received")]
        );
        assert!(fs::read(&to).unwrap() == bytes);
    }
}

/// A folder is opened, and cannot be read.
#[test]
fn a_file_that_cannot_be_read_is_not_taken_for_an_empty_one() {
    let _watchdog = Watchdog::new("the copy of a folder");
    let folder = Folder::new("no-copy");
    let to = folder.0.join("to");
    for from in [folder.0.clone(), folder.0.join("none")] {
        for output in copied(&from, &to) {
            assert!(!output.status.success(), "{output:?}");
            assert_eq!(output.stdout, b"");
        }
        assert!(!to.exists());
    }
}
