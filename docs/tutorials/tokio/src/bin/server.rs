use lcmux_tokio::connect;
use lcmux_tokio::lcmux::{Channel::Data, Config};
use std::{env, error::Error};
use tokio::net::{TcpListener, TcpStream};

/// Sends every message back on the same channel, until the client has sent its last one.
async fn echo(stream: TcpStream) -> Result<(), Box<dyn Error + Send + Sync>> {
    stream.set_nodelay(true)?;
    let (mut mux, run) = connect(stream, Config::default())?;

    let sender = mux.take_sender(Data).unwrap();
    let mut receiver = mux.take_receiver(Data).unwrap();
    while let Some(message) = receiver.recv().await? {
        sender.send(&message).await?; // waits while the client has no room for it
    }
    drop(sender); // half-close: nothing more is sent on this channel

    mux.close();
    run.await??;
    let stats = mux.stats()[Data];
    println!("echoed {} messages, {} bytes", stats.messages_sent, stats.bytes_sent);
    Ok(())
}

#[tokio::main]
async fn main() -> Result<(), Box<dyn Error + Send + Sync>> {
    let address = env::args().nth(1).ok_or("usage: server ADDRESS")?;
    let listener = TcpListener::bind(address).await?;
    println!("listening on {}", listener.local_addr()?);
    loop {
        let (stream, _) = listener.accept().await?;
        tokio::spawn(async move {
            if let Err(error) = echo(stream).await {
                eprintln!("a session failed: {error}");
            }
        });
    }
}
