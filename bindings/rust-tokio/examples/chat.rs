//! A chat over two channels on TCP: typed lines are sent on one channel, and read receipts on the other.
//!
//! Run `chat listen ADDRESS` in one terminal, and `chat connect ADDRESS` in another. Each line of standard input is a
//! message, and the end of the input ends the channel.
use lcmux_tokio::connect;
use lcmux_tokio::lcmux::Channel::{Data, StaticToken};
use lcmux_tokio::lcmux::{Config, Receiver, Sender};
use std::{env, error::Error, process};
use tokio::io::{stdin, AsyncBufReadExt, BufReader};
use tokio::net::{TcpListener, TcpStream};

type Done = Result<(), Box<dyn Error>>;

async fn open() -> Result<TcpStream, Box<dyn Error>> {
    let words: Vec<_> = env::args().skip(1).collect();
    match words.iter().map(String::as_str).collect::<Vec<_>>()[..] {
        ["connect", address] => Ok(TcpStream::connect(address).await?),
        ["listen", address] => {
            let listener = TcpListener::bind(address).await?;
            eprintln!("listening on {}", listener.local_addr()?);
            Ok(listener.accept().await?.0)
        }
        _ => Err("usage: chat listen|connect ADDRESS".into()),
    }
}

// The sender is dropped at the end of the input, which finishes the channel.
async fn say(lines: Sender) -> Done {
    let mut input = BufReader::new(stdin()).lines();
    while let Some(line) = input.next_line().await? {
        if !line.is_empty() {
            lines.send(line.as_bytes()).await?;
        }
    }
    Ok(())
}

async fn hear(mut lines: Receiver, receipts: Sender) -> Done {
    let mut count = 0u32;
    while let Some(line) = lines.recv().await? {
        println!("> {}", String::from_utf8_lossy(&line));
        count += 1;
        receipts.send(&count.to_be_bytes()).await?;
    }
    Ok(())
}

async fn note(mut receipts: Receiver) -> Done {
    let mut read = 0;
    while let Some(receipt) = receipts.recv().await? {
        read = u32::from_be_bytes(receipt.as_slice().try_into()?);
    }
    println!("the other side read {read} of it");
    Ok(())
}

async fn chat() -> Done {
    let stream = open().await?;
    stream.set_nodelay(true)?;
    let (mut mux, run) = connect(stream, Config::default())?;
    let (lines, receipts) = (
        mux.take_sender(Data).unwrap(),
        mux.take_sender(StaticToken).unwrap(),
    );
    tokio::try_join!(
        say(lines),
        hear(mux.take_receiver(Data).unwrap(), receipts),
        note(mux.take_receiver(StaticToken).unwrap()),
    )?;
    mux.close();
    Ok(run.await??)
}

#[tokio::main(flavor = "current_thread")]
async fn main() {
    if let Err(error) = chat().await {
        eprintln!("chat: {error}");
        process::exit(1); // a return would wait for the thread that reads the next line
    }
}
