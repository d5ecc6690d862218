//! Copies a file over a channel on TCP, as a stream of bytes, with its progress on standard error.
//!
//! Run `copy listen ADDRESS FILE` in one terminal, which receives the file, and `copy connect ADDRESS FILE` in another,
//! which sends it. The received file has its name once it is whole.
use lcmux_tokio::lcmux::{Channel::Data, Config, Mux, Version, CHANNELS};
use lcmux_tokio::{connect, copy_buf, Reader, Writer};
use std::{env, error::Error, io};
use tokio::fs::{self, File};
use tokio::io::{AsyncWriteExt, BufReader};
use tokio::net::{TcpListener, TcpStream};

/// How many bytes are copied between two lines of progress.
const STEP: u64 = 1 << 20;

/// Prints a line of progress for each step: `sent 1 MiB` and so on.
fn print_steps(done: &'static str) -> impl FnMut(u64) {
    let mut steps = 0;
    move |total| {
        if total / STEP > steps {
            steps = total / STEP;
            eprintln!("{done} {steps} MiB");
        }
    }
}

async fn send(mux: &mut Mux, path: &str) -> io::Result<()> {
    let sender = mux.take_sender(Data).expect("it is taken once");
    let kept = sender.clone(); // a writer that an error drops must not end the channel
    let mut writer = Writer::new(sender);
    let sent = send_file(path, &mut writer).await;
    if sent.is_err() {
        mux.abort();
    }
    drop(kept);
    println!("sent {} bytes", sent?);
    Ok(())
}

async fn send_file(path: &str, writer: &mut Writer) -> io::Result<u64> {
    let mut file = BufReader::with_capacity(65_536, File::open(path).await?);
    let sent = copy_buf(&mut file, writer, print_steps("sent")).await?;
    writer.shutdown().await?;
    Ok(sent)
}

async fn receive(mux: &mut Mux, path: &str) -> io::Result<()> {
    let mut reader = Reader::new(mux.take_receiver(Data).expect("it is taken once"));
    let part = format!("{path}.part");
    let mut file = File::create(&part).await?;
    let received = copy_buf(&mut reader, &mut file, print_steps("received")).await?;
    file.flush().await?;
    fs::rename(part, path).await?;
    println!("received {received} bytes");
    Ok(())
}

async fn open(words: &[&str]) -> Result<TcpStream, Box<dyn Error>> {
    match words {
        ["connect", address, _] => Ok(TcpStream::connect(address).await?),
        ["listen", address, _] => {
            let listener = TcpListener::bind(address).await?;
            eprintln!("listening on {}", listener.local_addr()?);
            Ok(listener.accept().await?.0)
        }
        _ => Err("usage: copy listen|connect ADDRESS FILE".into()),
    }
}

#[tokio::main(flavor = "current_thread")]
async fn main() -> Result<(), Box<dyn Error>> {
    let words: Vec<_> = env::args().skip(1).collect();
    let words: Vec<_> = words.iter().map(String::as_str).collect();
    let stream = open(&words).await?;
    stream.set_nodelay(true)?;
    let mut config = Config::new([16_384; CHANNELS], 64);
    config.version = Version::Two;
    config.capacities[Data] = 1 << 20;
    let (mut mux, run) = connect(stream, config)?;
    let copied = match words[0] {
        "connect" => send(&mut mux, words[2]).await,
        _ => receive(&mut mux, words[2]).await,
    };
    match copied {
        Ok(()) => mux.close(),
        Err(_) => mux.abort(),
    }
    let ended = run.await?;
    copied?;
    Ok(ended?)
}
