use lcmux::{Channel::Data, Config, Mux};
use std::error::Error;
use std::net::{TcpListener, TcpStream};
use std::{env, thread};

/// Sends every message back on the same channel, until the client has sent its last one.
fn echo(stream: TcpStream) -> Result<(), Box<dyn Error>> {
    stream.set_nodelay(true)?;
    let (mut mux, driver) = Mux::new(Config::default())?;
    let run = thread::spawn(move || driver.run_blocking(stream.try_clone()?, stream));

    let sender = mux.take_sender(Data).unwrap();
    let mut receiver = mux.take_receiver(Data).unwrap();
    while let Some(message) = receiver.recv_blocking()? {
        sender.send_blocking(&message)?; // blocks while the client has no room for it
    }
    drop(sender); // half-close: nothing more is sent on this channel

    mux.close();
    run.join().unwrap()?;
    let stats = mux.stats()[Data];
    println!("echoed {} messages, {} bytes", stats.messages_sent, stats.bytes_sent);
    Ok(())
}

fn main() -> Result<(), Box<dyn Error>> {
    let address = env::args().nth(1).ok_or("usage: server ADDRESS")?;
    let listener = TcpListener::bind(address)?;
    println!("listening on {}", listener.local_addr()?);
    for stream in listener.incoming() {
        let stream = stream?;
        thread::spawn(move || {
            if let Err(error) = echo(stream) {
                eprintln!("a session failed: {error}");
            }
        });
    }
    Ok(())
}
