//! Timeouts, on a clock that is paused while any task can run, and then jumps to the next timer.
use crate::*;
use lcmux_tokio::lcmux::Channel::Data;
use lcmux_tokio::lcmux::SendError;
use std::time::Duration;
use tokio::io::{AsyncReadExt, AsyncWriteExt};
use tokio::time::{sleep, timeout, Instant};

fn seconds(count: u64) -> Duration {
    Duration::from_secs(count)
}

/// The test on a runtime with such a clock.
fn on_paused(what: &str, test: impl Future<Output = ()>) {
    let _watchdog = Watchdog::new(what);
    let mut builder = Builder::new_current_thread();
    let runtime = builder.enable_time().start_paused(true).build().unwrap();
    runtime.block_on(test);
}

/// Checks that the session's task ends with this result, this many seconds after the instant.
async fn ends(run: Run, since: Instant, after: u64, with: Result<(), Closed>) {
    assert_eq!(run.await.unwrap(), with);
    let over = since.elapsed();
    let most = seconds(after) + Duration::from_millis(5);
    assert!((seconds(after)..most).contains(&over), "{over:?}");
}

fn idle(count: u64) -> Config {
    let mut config = rings(64);
    config.timeouts.idle = Some(seconds(count));
    config
}

fn keep_alive(count: u64) -> Config {
    let mut config = rings(64);
    config.timeouts.keep_alive = Some(seconds(count));
    config
}

fn grace(count: Option<u64>) -> Config {
    let mut config = rings(64);
    config.timeouts.grace = count.map(seconds);
    config
}

/// Reads all available bytes.
async fn read_now(stream: &mut DuplexStream) -> Vec<u8> {
    let mut bytes = vec![0; 4096];
    let count = timeout(Duration::from_millis(1), stream.read(&mut bytes)).await;
    bytes.truncate(count.map_or(0, |count| count.unwrap()));
    bytes
}

#[test]
fn a_side_that_is_silent_is_given_up() {
    on_paused("silence", async {
        let (mut mux, run, mut there) = by_hand(idle(60), 4096);
        let begin = Instant::now();
        let mut receiver = mux.take_receiver(Data).unwrap();
        let waits = tokio::spawn(async move { receiver.recv().await });
        // One byte is enough, even if it completes no frame.
        for byte in GREETING {
            sleep(seconds(50)).await;
            there.write_all(&[byte]).await.unwrap();
        }
        let silent = timed_out("the peer sent nothing within the timeout");
        ends(run, begin, 4 * 50 + 60, Err(silent.clone())).await;
        assert_eq!(waits.await.unwrap(), Err(silent.clone()));
        assert_eq!(mux.closed().await, Err(silent));
        assert_eq!(read_now(&mut there).await, first_bytes());
        assert_eq!(there.read(&mut [0]).await.unwrap(), 0, "it was dropped");
    });
}

#[test]
fn by_default_silence_is_borne() {
    on_paused("silence that is borne", async {
        let sides = in_memory(rings(64));
        sleep(seconds(1_000_000)).await;
        close(sides).await;
    });
}

#[test]
fn a_side_that_ended_its_direction_is_not_silent() {
    on_paused("half a session", async {
        let (mut mux, run, mut there) = by_hand(idle(60), 4096);
        there.write_all(&GREETING).await.unwrap();
        there.write_all(&issue(5)).await.unwrap();
        there.write_all(&FINISHES).await.unwrap();
        there.shutdown().await.unwrap();
        sleep(seconds(1000)).await;
        mux.take_sender(Data).unwrap().send(b"hello").await.unwrap();
        mux.close();
        assert_eq!(run.await.unwrap(), Ok(()));
    });
}

#[test]
fn a_timeout_needs_the_timers_of_the_runtime() {
    let _watchdog = Watchdog::new("a runtime without timers");
    let runtime = Builder::new_current_thread().build().unwrap();
    runtime.block_on(async {
        let (mux, run, _there) = by_hand(rings(64), 4096);
        assert!(run.await.unwrap_err().is_panic());
        assert_eq!(mux.closed().await, Err(Closed::Aborted));
        close(in_memory(grace(None))).await;
    });
}

/// The peer is not silent, but reads nothing: a message fills the stream, and then one byte too many.
#[test]
fn a_side_that_stops_reading_is_given_up() {
    on_paused("a side that stops reading", async {
        let (mut mux, run, mut there) = by_hand(idle(60), first_bytes().len() + 100);
        there.write_all(&GREETING).await.unwrap();
        there.write_all(&issue(4096)).await.unwrap();
        let sender = mux.take_sender(Data).unwrap();
        sender.send(&[7; 95]).await.unwrap();
        for _ in 0..10 {
            sleep(seconds(40)).await;
            there.write_all(&KEEP_ALIVE).await.unwrap();
        }
        sender.send(&[7; 1000]).await.unwrap();
        let begin = Instant::now();
        let (_reads, mut writes) = tokio::io::split(there);
        tokio::spawn(async move {
            while writes.write_all(&KEEP_ALIVE).await.is_ok() {
                sleep(seconds(5)).await;
            }
        });
        let stalled = timed_out("the transport accepted no bytes within the timeout");
        ends(run, begin, 60, Err(stalled.clone())).await;
        let sent = sender.send(b"x").await;
        assert_eq!(sent, Err(SendError::Closed(stalled)));
    });
}

/// A slow reader does not expire the timeout.
#[test]
fn a_side_that_reads_slowly_is_borne() {
    on_paused("a slow reader", async {
        let (mut mux, run, mut there) = by_hand(idle(60), first_bytes().len());
        there.write_all(&GREETING).await.unwrap();
        there.write_all(&issue(20)).await.unwrap();
        let sender = mux.take_sender(Data).unwrap();
        sender.send(&[7; 20]).await.unwrap();
        mux.close();
        let mut bytes = Vec::new();
        for _ in 0..25 {
            sleep(seconds(29)).await;
            there.write_all(&KEEP_ALIVE).await.unwrap();
            bytes.push(there.read_u8().await.unwrap());
        }
        there.read_to_end(&mut bytes).await.unwrap();
        there.write_all(&FINISHES).await.unwrap();
        drop(there);
        assert_eq!(run.await.unwrap(), Ok(()));
        let message = [&[0x11, 0, 0, 0, 20][..], &[7; 20]].concat();
        assert_eq!(
            bytes[first_bytes().len()..],
            [message, FINISHES.into()].concat()
        );
    });
}

#[test]
fn a_frame_that_changes_nothing_goes_where_nothing_else_does() {
    on_paused("a keep-alive", async {
        let (mut mux, _run, mut there) = by_hand(keep_alive(20), 4096);
        there.write_all(&GREETING).await.unwrap();
        there.write_all(&issue(5)).await.unwrap();
        assert_eq!(read_now(&mut there).await, first_bytes());
        sleep(seconds(19)).await;
        assert_eq!(read_now(&mut there).await, []);
        sleep(seconds(72)).await;
        assert_eq!(read_now(&mut there).await, KEEP_ALIVE.repeat(4), "after 91");
        sleep(seconds(4)).await;
        mux.take_sender(Data).unwrap().send(b"hello").await.unwrap(); // and is dropped after 95 seconds
        sleep(seconds(19)).await;
        assert_eq!(read_now(&mut there).await, b"\x11\0\0\0\x05hello\x71");
        sleep(seconds(2)).await;
        assert_eq!(read_now(&mut there).await, KEEP_ALIVE, "after 115");
        mux.close();
        sleep(seconds(25)).await;
        let rest = b"\x70\x72\x73\x74\x75\x76";
        assert_eq!(read_now(&mut there).await, rest, "the other channels' ends");
    });
}

/// A keep-alive repeats what a limit allows, on the first channel where a frame may be sent.
#[test]
fn a_keep_alive_leaves_limits_as_they_are() {
    on_paused("keep-alives and limits", async {
        let [(mut alice, _one), (mut bob, _other)] = in_memory(keep_alive(1));
        let (sender, mut receiver) = (
            alice.take_sender(Data).unwrap(),
            bob.take_receiver(Data).unwrap(),
        );
        sender.limit(200).unwrap();
        receiver.limit(100).unwrap();
        for length in [60, 50, 50] {
            sleep(seconds(10)).await;
            sender.send(&vec![7; length]).await.unwrap();
            assert_eq!(receiver.recv().await.unwrap(), Some(vec![7; length]));
        }
        sleep(seconds(10)).await;
        let book = sender.book();
        assert_eq!(
            (book.held, book.send_left, book.receive_left),
            (4, Some(40), Some(0))
        );
        let refused = SendError::Unwanted { held: 4, left: 0 };
        assert_eq!(sender.send(b"hello").await, Err(refused));
    });
}

#[test]
fn two_sides_keep_each_other_alive() {
    on_paused("two sides that keep alive", async {
        let mut config = idle(60);
        config.timeouts.keep_alive = Some(seconds(20));
        let mut sides = in_memory(config);
        sleep(seconds(100_000)).await;
        let sender = sides[0].0.take_sender(Data).unwrap();
        let mut receiver = sides[1].0.take_receiver(Data).unwrap();
        sender.send(&[7; 64]).await.unwrap();
        assert_eq!(receiver.recv().await.unwrap(), Some(vec![7; 64]));
        close(sides).await;
    });
}

/// A keep-alive without a pause is one each millisecond at most.
#[test]
fn keep_alives_leave_time_for_messages() {
    on_paused("keep-alives without a pause", async {
        let mut sides = in_memory(keep_alive(0));
        let sender = sides[0].0.take_sender(Data).unwrap();
        let mut receiver = sides[1].0.take_receiver(Data).unwrap();
        sender.send(b"hi").await.unwrap();
        assert_eq!(receiver.recv().await.unwrap(), Some(b"hi".to_vec()));
        close(sides).await;
    });
}

/// The peer reads all bytes and does not end its stream, but continues to send.
#[test]
fn the_end_waits_for_the_other_side_as_long_as_it_may() {
    on_paused("an end that is waited for", async {
        for (config, after) in [(rings(64), 30), (grace(Some(7)), 7)] {
            let (mux, run, mut there) = by_hand(config, 4096);
            there.write_all(&GREETING).await.unwrap();
            sleep(seconds(100)).await;
            let begin = Instant::now();
            mux.close();
            let mut bytes = Vec::new();
            there.read_to_end(&mut bytes).await.unwrap();
            assert_eq!(bytes, [first_bytes(), FINISHES.into()].concat());
            tokio::spawn(async move {
                while there.write_all(&KEEP_ALIVE).await.is_ok() {
                    sleep(seconds(1)).await;
                }
            });
            let late = timed_out("the peer did not end its stream within the timeout");
            ends(run, begin, after, Err(late)).await;
        }
        let (mux, run, mut there) = by_hand(grace(None), 4096);
        mux.close();
        let begin = Instant::now();
        tokio::spawn(async move {
            sleep(seconds(100_000)).await;
            let end = [&GREETING[..], &FINISHES].concat();
            there.write_all(&end).await.unwrap();
        });
        ends(run, begin, 100_000, Ok(())).await;
    });
}

/// A close while the peer reads nothing waits no longer, either; each byte that it reads restarts the time.
#[test]
fn the_end_does_not_wait_for_who_takes_nothing() {
    on_paused("an end that is not written", async {
        let (mux, run, mut there) = by_hand(grace(Some(7)), first_bytes().len() - 3);
        sleep(seconds(100)).await;
        mux.close();
        for _ in 0..2 {
            sleep(seconds(5)).await;
            there.read_u8().await.unwrap();
        }
        let begin = Instant::now();
        let stalled = timed_out("the transport accepted no bytes within the timeout");
        ends(run, begin, 7, Err(stalled)).await;
    });
}
