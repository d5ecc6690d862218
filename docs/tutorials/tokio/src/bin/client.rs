use lcmux_tokio::connect;
use lcmux_tokio::lcmux::{Channel::Data, Closed, Config, Receiver, SendError, Sender};
use std::{env, error::Error};
use tokio::net::TcpStream;

async fn send(sender: Sender, messages: Vec<String>) -> Result<(), SendError> {
    for message in &messages {
        sender.send(message.as_bytes()).await?;
    }
    Ok(()) // the sender is dropped here: half-close
}

async fn print(mut receiver: Receiver) -> Result<(), Closed> {
    while let Some(message) = receiver.recv().await? {
        println!("{}", String::from_utf8_lossy(&message));
    }
    Ok(())
}

#[tokio::main]
async fn main() -> Result<(), Box<dyn Error>> {
    let mut words = env::args().skip(1);
    let address = words.next().ok_or("usage: client ADDRESS [MESSAGE]...")?;

    let stream = TcpStream::connect(address).await?;
    stream.set_nodelay(true)?;
    let (mut mux, run) = connect(stream, Config::default())?;

    let sending = send(mux.take_sender(Data).unwrap(), words.collect());
    let printing = print(mux.take_receiver(Data).unwrap());
    let (sent, printed) = tokio::join!(sending, printing);
    sent?;
    printed?;

    mux.close();
    run.await??;
    println!("the session is closed");
    Ok(())
}
