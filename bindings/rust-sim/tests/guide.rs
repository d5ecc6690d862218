//! The listings of docs/guides/simulation.md.
use lcmux_sim::{Explorer, Faults, Sim, Stream};
use lcmux_tokio::connect;
use lcmux_tokio::lcmux::{Channel::Data, Config, Receiver, Sender};
use std::error::Error;
use std::future::Future;
use std::time::Duration;
use tokio::io::{AsyncRead, AsyncWrite};

type Answer<T> = Result<T, Box<dyn Error>>;

fn config() -> Config {
    let second = Duration::from_secs(1);
    Config::default().idle(60 * second).keep_alive(20 * second)
}

async fn send_back(sender: Sender, mut receiver: Receiver) -> Answer<()> {
    while let Some(message) = receiver.recv().await? {
        sender.send(&message).await?;
    }
    Ok(())
}

/// Sends each message back. The stream is a `TcpStream` in the program, and the simulator's in its test.
async fn echo(stream: impl AsyncRead + AsyncWrite + Send + 'static) -> Answer<()> {
    let (mut mux, run) = connect(stream, config())?;
    let sender = mux.take_sender(Data).unwrap();
    let receiver = mux.take_receiver(Data).unwrap();
    if let Err(error) = send_back(sender, receiver).await {
        eprintln!("echo: {error}");
    }
    mux.close();
    Ok(run.await??)
}

/// Sends messages and receives each back. Returns how many came back.
async fn ask(stream: impl AsyncRead + AsyncWrite + Send + 'static, count: u64) -> Answer<u64> {
    let (mut mux, run) = connect(stream, config())?;
    let sender = mux.take_sender(Data).unwrap();
    let mut receiver = mux.take_receiver(Data).unwrap();
    let mut answers = 0;
    while answers < count {
        sender.send(&answers.to_be_bytes()).await?;
        if receiver.recv().await?.is_none() {
            break;
        }
        answers += 1;
    }
    drop(sender);
    mux.close();
    run.await??;
    Ok(answers)
}

#[test]
fn messages_come_back() {
    let run = Sim::new(17, Faults::none()).run(|stream| ask(stream, 20), echo);
    assert_eq!(run.a.unwrap().unwrap(), 20);
    assert!(run.b.unwrap().is_ok());
}

/// Whatever happens, a side that succeeds has all messages. Without a fault both succeed.
fn all_come_back<E>(sim: &mut Sim, echo: impl FnOnce(Stream) -> E)
where
    E: Future<Output = Answer<()>>,
{
    let count = sim.draw("messages", 0..=20);
    let run = sim.run(|stream| ask(stream, count), echo);
    if run.is_faultless() {
        assert!(matches!(run.a, Some(Ok(_))) && matches!(run.b, Some(Ok(_))));
    }
    if let Some(Ok(answers)) = run.a {
        assert_eq!(answers, count, "a success without all messages");
    }
}

/// The guide shows such a report.
#[test]
fn the_first_echo_fails_as_the_guide_says() {
    let explorer = Explorer::new(Faults::all().within(500)).seeds(100_000);
    let failure = explorer
        .ignore_environment()
        .find(|sim| all_come_back(sim, echo));
    let report = failure.expect("it fails by some seed").to_string();
    let shrunk = report.split_once("shrunk to: ").expect("it is shrunk").1;
    for said in [
        "a success without all messages",
        "    messages = 1\n    allocation ",
        "B  ends its direction",
    ] {
        assert!(shrunk.contains(said), "{report}");
    }
}

/// Sends each message back. A failure ends the session before a dropped sender ends the channel in order.
async fn careful_echo(stream: impl AsyncRead + AsyncWrite + Send + 'static) -> Answer<()> {
    let (mut mux, run) = connect(stream, config())?;
    let sender = mux.take_sender(Data).unwrap();
    let receiver = mux.take_receiver(Data).unwrap();
    if let Err(error) = send_back(sender.clone(), receiver).await {
        mux.abort();
        return Err(error);
    }
    drop(sender);
    mux.close();
    Ok(run.await??)
}

#[test]
fn all_messages_come_back() {
    let faults = Faults::all().within(500); // they strike within the first 500 bytes or so
    let explorer = Explorer::new(faults).seeds(10_000);
    explorer.check(|sim| all_come_back(sim, careful_echo));
}
