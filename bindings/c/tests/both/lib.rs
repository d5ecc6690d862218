//! A static library over the crate for Rust, for a program that links the library for C, too.
use lcmux::{Channel, Config, Peer, Take, CHANNELS};
use std::error::Error;

fn message() -> Result<Take<Vec<u8>>, Box<dyn Error>> {
    let config = Config::new([8; CHANNELS], 4);
    let (mut client, mut server) = (Peer::new(&config)?, Peer::new(&config)?);
    let mut wire = Vec::new();
    server.issue(Channel::Data, 2)?;
    server.write_to(&mut wire)?;
    client.read_from(&mut wire.as_slice())?;
    client.send(Channel::Data, b"hi")?;
    wire.clear();
    client.write_to(&mut wire)?;
    server.read_from(&mut wire.as_slice())?;
    Ok(server.take(Channel::Data))
}

/// Returns whether a message gets from one peer of Rust to another.
#[no_mangle]
pub extern "C" fn rust_passes_a_message() -> bool {
    message().is_ok_and(|it| it == Take::Took(b"hi".to_vec()))
}
