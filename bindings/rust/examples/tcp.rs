//! Two peers in two processes, over one TCP connection: `cargo run --example tcp`. The program starts itself a second
//! time as its peer.
use lcmux::{Channel::Data, Config, Peer, Take, CHANNELS};
use std::error::Error;
use std::net::{TcpListener, TcpStream};
use std::{env, process::Command};

const MESSAGES: u32 = 1000;

fn new_peer(stream: &TcpStream) -> Result<Peer, Box<dyn Error>> {
    stream.set_nodelay(true)?;
    Ok(Peer::new(&Config::new([64; CHANNELS], 16))?)
}

// Sends as its guarantees allow, ends the channel, and reads until the peer closes.
fn send_all(mut stream: TcpStream) -> Result<(), Box<dyn Error>> {
    let mut peer = new_peer(&stream)?;
    for k in 0..MESSAGES {
        let body = k.to_be_bytes();
        while peer.client(Data).held < body.len() as u64 {
            if peer.read_from(&mut stream)? == 0 {
                return Err("the peer closed its stream".into());
            }
        }
        peer.send(Data, &body)?;
        peer.write_to(&mut stream)?;
    }
    peer.limit_sending(Data, 0)?;
    peer.write_to(&mut stream)?;
    while peer.read_from(&mut stream)? > 0 {}
    Ok(())
}

// Issues the whole ring, and the bytes of each message again once it was taken.
fn take_all(mut stream: TcpStream) -> Result<u32, Box<dyn Error>> {
    let mut peer = new_peer(&stream)?;
    peer.issue(Data, 64)?;
    let (mut message, mut next) = ([0; 64], 0u32);
    loop {
        peer.write_to(&mut stream)?;
        match peer.take_into(Data, &mut message)? {
            Take::Took(len) => {
                assert_eq!(message[..len], next.to_be_bytes());
                next += 1;
                if !peer.server(Data).finished {
                    peer.issue(Data, len as u32)?;
                }
            }
            Take::Ended => return Ok(next),
            Take::Empty => {
                if peer.read_from(&mut stream)? == 0 {
                    return Err("the peer closed its stream".into());
                }
            }
        }
    }
}

fn main() -> Result<(), Box<dyn Error>> {
    if let Some(address) = env::args().nth(1) {
        return send_all(TcpStream::connect(address)?);
    }
    let listener = TcpListener::bind("127.0.0.1:0")?;
    let address = listener.local_addr()?.to_string();
    let mut sender = Command::new(env::current_exe()?).arg(address).spawn()?;
    let taken = take_all(listener.accept()?.0)?;
    assert!(sender.wait()?.success());
    println!("took {taken} messages in order");
    Ok(())
}
