//! A session of two processes over one TCP connection: `cargo run --example session`. The program starts itself a
//! second time as its peer.
use lcmux::{Channel::Data, Config, Mux, MuxFault, CHANNELS};
use std::error::Error;
use std::net::{TcpListener, TcpStream};
use std::{env, process::Command, thread};

const MESSAGES: usize = 1000;

// The driver moves the bytes on two threads of its own.
fn open(stream: TcpStream) -> Result<Mux, MuxFault> {
    let (mux, driver) = Mux::new(Config::new([4096; CHANNELS], 64))?;
    thread::spawn(move || {
        stream.set_nodelay(true)?;
        driver.run_blocking(stream.try_clone()?, stream)
    });
    Ok(mux)
}

fn send_all(mut mux: Mux) -> Result<(), Box<dyn Error>> {
    let sender = mux.take_sender(Data).unwrap();
    for number in 0..MESSAGES {
        sender.send_blocking(format!("message {number}").as_bytes())?;
    }
    drop(sender); // finishes the channel
    mux.close();
    Ok(mux.closed_blocking()?)
}

fn take_all(mut mux: Mux) -> Result<usize, Box<dyn Error>> {
    let (mut receiver, mut count) = (mux.take_receiver(Data).unwrap(), 0);
    while let Some(message) = receiver.recv_blocking()? {
        assert_eq!(message, format!("message {count}").as_bytes());
        count += 1;
    }
    mux.close();
    mux.closed_blocking()?;
    Ok(count)
}

fn main() -> Result<(), Box<dyn Error>> {
    if let Some(address) = env::args().nth(1) {
        return send_all(open(TcpStream::connect(address)?)?);
    }
    let listener = TcpListener::bind("127.0.0.1:0")?;
    let address = listener.local_addr()?.to_string();
    let mut sender = Command::new(env::current_exe()?).arg(address).spawn()?;
    let taken = take_all(open(listener.accept()?.0)?)?;
    assert!(sender.wait()?.success());
    println!("took {taken} messages in order");
    Ok(())
}
