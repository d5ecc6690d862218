//! The engines do the same over each transport, apart from what the page says of one.
use compare::engine::{Answer, File, Plan, Served, PART};
use compare::{over_codec, over_h2, over_lcmux};
use std::fs;
use std::path::Path;
use std::time::Duration;
use tokio::io::duplex;
use tokio::sync::watch;

const LONG: Duration = Duration::from_secs(60);
const SHORT: Duration = Duration::from_millis(1_000);

/// How many bytes the stream between both sides holds, each way.
const PIPE: usize = 65_536;

type Outcome = (Vec<Option<Vec<u8>>>, Served);

/// Runs an engine with a gate that is closed until the calls have ended, or open from the start. Its clock is paused while
/// any task can run, and then jumps to the next timer, so a busy machine is not too slow for a deadline.
macro_rules! run {
    ($engine:ident, $plan:expr, $is_open:expr) => {{
        let ((here, there), (open, gate)) = (duplex(PIPE), watch::channel($is_open));
        let server = tokio::spawn($engine::server(there, gate));
        let plan = $plan;
        let open_later = async {
            if !$is_open {
                tokio::time::sleep(plan.head_start + 2 * SHORT).await;
            }
            open.send_replace(true);
            Answer::Ok(())
        };
        let client = $engine::client(here, &plan);
        let ended = tokio::time::timeout(LONG, async { tokio::try_join!(client, open_later) });
        let (answers, ()) = ended.await.expect("it ends in time").unwrap();
        let served = tokio::time::timeout(LONG, server).await;
        let served = served.expect("it ends in time").unwrap().unwrap();
        let outcome: Outcome = (answers, served);
        outcome
    }};
}

fn calls(calls: &[(Duration, &str)]) -> Vec<(Duration, String)> {
    let calls = calls.iter();
    calls
        .map(|(deadline, it)| (*deadline, it.to_string()))
        .collect()
}

fn answers(answers: &[Option<&str>]) -> Vec<Option<Vec<u8>>> {
    let answers = answers.iter();
    answers
        .map(|it| it.map(|it| it.as_bytes().to_vec()))
        .collect()
}

/// The file of a plan, by another way than that of the servers.
fn file(plan: &Plan) -> File {
    let bytes: Vec<u8> = (0..plan.parts)
        .flat_map(|part| [part.to_be_bytes(); PART / 4].concat())
        .collect();
    let sum = bytes
        .iter()
        .fold(0_u64, |sum, byte| sum.wrapping_mul(31) + u64::from(*byte));
    File {
        len: bytes.len() as u64,
        sum,
    }
}

/// Calls in any order, two past their deadlines, and a file beside them.
fn busy() -> Plan {
    Plan {
        calls: calls(&[
            (LONG, "sleep 300"),
            (LONG, "hello"),
            (SHORT, "sleep 3600000"),
            (LONG, "sleep 100"),
            (SHORT, "sleep 3600001"),
            (LONG, "hello again"),
        ]),
        head_start: Duration::ZERO,
        parts: 500,
    }
}

fn served() -> Outcome {
    let all = ["SLEEP 300", "HELLO", "", "SLEEP 100", "", "HELLO AGAIN"];
    let all = all.map(|it| Some(it).filter(|it| !it.is_empty()));
    let file = file(&busy());
    (answers(&all), Served { cancelled: 2, file })
}

#[tokio::test(start_paused = true)]
async fn the_engine_over_lcmux() {
    assert_eq!(run!(over_lcmux, busy(), true), served());
}

#[tokio::test(start_paused = true)]
async fn the_engine_over_h2() {
    assert_eq!(run!(over_h2, busy(), true), served());
}

#[tokio::test(start_paused = true)]
async fn the_engine_over_frames_of_its_own() {
    assert_eq!(run!(over_codec, busy(), true), served());
}

/// A file that is longer than all buffers, whose server stores nothing until the call was answered or is given up.
fn stalled() -> Plan {
    Plan {
        calls: calls(&[(SHORT, "hello")]),
        head_start: Duration::from_millis(500),
        parts: 1_000,
    }
}

#[tokio::test(start_paused = true)]
async fn a_slow_file_stops_the_calls_of_one_queue_alone() {
    let hello = answers(&[Some("HELLO")]);
    let (calls, served) = run!(over_lcmux, stalled(), false);
    assert_eq!((calls, served.file), (hello.clone(), file(&stalled())));
    let (calls, served) = run!(over_h2, stalled(), false);
    assert_eq!((calls, served.file), (hello, file(&stalled())));
    let (calls, served) = run!(over_codec, stalled(), false);
    assert_eq!((calls, served.file), (answers(&[None]), file(&stalled())));
}

/// More calls than a server works at: the others wait, one of them past its deadline.
#[tokio::test(start_paused = true)]
async fn a_server_works_at_64_calls_at_most() {
    let mut all = vec![(SHORT, "sleep 3600000"); 64];
    all.extend([(SHORT / 2, "hello"), (LONG, "hello again")]);
    let plan = || Plan {
        calls: calls(&all),
        head_start: Duration::ZERO,
        parts: 1,
    };
    let mut wanted = vec![None; 65];
    wanted.push(Some("HELLO AGAIN"));
    let file = || file(&plan());
    let wanted = (
        answers(&wanted),
        Served {
            cancelled: 65,
            file: file(),
        },
    );
    assert_eq!(run!(over_lcmux, plan(), true), wanted);
    assert_eq!(run!(over_h2, plan(), true), wanted);
    assert_eq!(run!(over_codec, plan(), true), wanted);
}

/// The lines of a module without blank ones and comments.
fn lines(module: &str) -> usize {
    let path = Path::new(env!("CARGO_MANIFEST_DIR")).join(format!("src/{module}.rs"));
    let text = fs::read_to_string(path).unwrap();
    let lines = text.lines().map(str::trim);
    lines
        .filter(|it| !it.is_empty() && !it.starts_with("//"))
        .count()
}

#[test]
fn the_page_has_the_lines_of_each_engine() {
    let page = Path::new(env!("CARGO_MANIFEST_DIR")).join("../explanation/comparison.md");
    let page = fs::read_to_string(page).unwrap();
    let [lcmux, h2, codec] = ["over_lcmux", "over_h2", "over_codec"].map(lines);
    let row = format!("| lines of the engine | {lcmux} | {h2} | {codec} |");
    assert!(page.contains(&row), "the page lacks {row}");
}
