use lcmux::{Channel::Data, Config, Mux, SendError};
use std::error::Error;
use std::net::TcpStream;
use std::{env, thread};

fn main() -> Result<(), Box<dyn Error>> {
    let mut words = env::args().skip(1);
    let address = words.next().ok_or("usage: client ADDRESS [MESSAGE]...")?;
    let messages: Vec<String> = words.collect();

    let stream = TcpStream::connect(address)?;
    stream.set_nodelay(true)?;
    let (mut mux, driver) = Mux::new(Config::default())?;
    let run = thread::spawn(move || driver.run_blocking(stream.try_clone()?, stream));

    let sender = mux.take_sender(Data).unwrap();
    let sending = thread::spawn(move || -> Result<(), SendError> {
        for message in &messages {
            sender.send_blocking(message.as_bytes())?;
        }
        Ok(()) // the sender is dropped here: half-close
    });

    let mut receiver = mux.take_receiver(Data).unwrap();
    while let Some(message) = receiver.recv_blocking()? {
        println!("{}", String::from_utf8_lossy(&message));
    }
    sending.join().unwrap()?;

    mux.close();
    run.join().unwrap()?;
    println!("the session is closed");
    Ok(())
}
