//! A session whose other side is a process that is killed, or stopped.
use crate::*;
use lcmux_tokio::lcmux::Channel::Data;
use std::env;
use std::process::{Child, Command, Stdio};
use std::time::Duration;

const ADDRESS: &str = "LCMUX_TEST_ADDRESS";

/// The other process, which is no test: it sends until it is killed.
#[test]
#[ignore]
fn other_side() {
    let address = env::var(ADDRESS).unwrap();
    current_thread().block_on(async {
        let stream = TcpStream::connect(address).await.unwrap();
        let (mut mux, _run) = connect(stream, rings(1 << 16)).unwrap();
        let sender = mux.take_sender(Data).unwrap();
        while sender.send(&[7; 10_000]).await.is_ok() {}
    });
}

/// A process that is killed at the end of the test.
struct Other(Child);

impl Other {
    fn new(address: String) -> Other {
        let mut command = Command::new(env::current_exe().unwrap());
        command.args(["--ignored", "--exact", "killed::other_side"]);
        // The process keeps no pipe of this one open.
        command.stdout(Stdio::null()).stderr(Stdio::null());
        Other(command.env(ADDRESS, address).spawn().unwrap())
    }

    fn signal(&self, name: &str) {
        let kill = format!("kill {name} {}", self.0.id());
        let sent = Command::new("sh").args(["-c", &kill]).status();
        assert!(sent.unwrap().success());
    }
}

impl Drop for Other {
    fn drop(&mut self) {
        let _ = self.0.kill();
        let _ = self.0.wait();
    }
}

/// A session with such a process, after some messages arrived.
async fn with_other(config: Config) -> (Mux, Run, Other) {
    let listener = TcpListener::bind("127.0.0.1:0").await.unwrap();
    let other = Other::new(listener.local_addr().unwrap().to_string());
    let (mux, run) = connect(listener.accept().await.unwrap().0, config).unwrap();
    (mux, run, other)
}

/// The messages that arrived are received, and then an error and no end of the channel.
#[test]
fn a_side_that_is_killed_is_no_end_of_its_channels() {
    on_each("a side that is killed", || async {
        let (mut mux, run, other) = with_other(rings(1 << 16)).await;
        let mut receiver = mux.take_receiver(Data).unwrap();
        for _ in 0..20 {
            assert_eq!(receiver.recv().await, Ok(Some(vec![7; 10_000])));
        }
        other.signal("-KILL");
        let why = loop {
            match receiver.recv().await {
                Ok(message) => assert_eq!(message, Some(vec![7; 10_000])),
                Err(why) => break why,
            }
        };
        mux.close();
        match (why, run.await.unwrap()) {
            (Closed::Cut, _) => {} // the stream ended after a whole frame
            (why, ran) => assert_eq!(ran, Err(why)),
        }
    });
}

/// Whether a process that sends, and is then stopped, is given up. On a busy machine it may be silent before it sends.
async fn is_given_up() -> bool {
    let mut config = rings(1 << 16);
    config.timeouts.idle = Some(Duration::from_secs(2));
    let (mut mux, run, other) = with_other(config).await;
    let mut receiver = mux.take_receiver(Data).unwrap();
    let first = receiver.recv().await;
    other.signal("-STOP");
    while receiver.recv().await.is_ok() {}
    let silent = Err(timed_out("the peer sent nothing within the timeout"));
    assert_eq!(run.await.unwrap(), silent);
    assert_eq!(mux.closed().await, silent);
    first == Ok(Some(vec![7; 10_000]))
}

/// The system buffers bytes for the stopped process, so no call fails; but the process is silent.
#[test]
fn a_side_that_is_stopped_is_given_up() {
    on_each("a side that is stopped", || async {
        for _ in 0..10 {
            if is_given_up().await {
                return;
            }
        }
        panic!("it sends nothing");
    });
}
