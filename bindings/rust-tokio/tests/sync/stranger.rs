//! A peer of the example that keeps the rules of a session, and those of the example as far as a test wants it.
use super::folder::Folder;
use super::{listen, Ended, Running};
use lcmux_tokio::lcmux::Channel::{Data, PayloadRequest, Reconciliation};
use lcmux_tokio::lcmux::{Closed, Config, Mux, Receiver, Sender, CHANNELS};
use std::net::TcpStream;
use std::thread::{self, JoinHandle};

/// The messages after the last chunk of a file.
pub const WHOLE: &[u8] = &[1];
pub const FAILED: &[u8] = &[2];

pub struct Stranger {
    mux: Mux,
    run: JoinHandle<Result<(), Closed>>,
    example: Running,
    pub offers: (Sender, Receiver),
    pub requests: (Sender, Receiver),
    pub contents: (Sender, Receiver),
}

impl Stranger {
    /// Connects to the example, which listens for a folder.
    pub fn meet(folder: &Folder) -> Stranger {
        let (example, address) = listen(folder);
        let stream = TcpStream::connect(address).unwrap();
        let (mut mux, driver) = Mux::new(Config::new([65_536; CHANNELS], 64)).unwrap();
        let run = thread::spawn(move || driver.run_blocking(stream.try_clone()?, stream));
        let [offers, requests, contents] = [Reconciliation, PayloadRequest, Data].map(|channel| {
            (
                mux.take_sender(channel).unwrap(),
                mux.take_receiver(channel).unwrap(),
            )
        });
        Stranger {
            mux,
            run,
            example,
            offers,
            requests,
            contents,
        }
    }

    pub fn offer(&self, length: u64, name: &[u8]) {
        let offer = [&length.to_be_bytes()[..], name].concat();
        self.offers.0.send_blocking(&offer).unwrap();
    }

    /// Returns the names that the example offers, once it offered all.
    pub fn offered(&mut self) -> Vec<String> {
        let mut names = Vec::new();
        while let Some(offer) = self.offers.1.recv_blocking().unwrap() {
            names.push(String::from_utf8_lossy(&offer[8..]).into());
        }
        names
    }

    pub fn request(&self, name: &[u8]) {
        self.requests.0.send_blocking(name).unwrap();
    }

    /// Receives the next message of contents.
    pub fn piece(&mut self) -> Vec<u8> {
        self.contents.1.recv_blocking().unwrap().unwrap()
    }

    /// Receives the contents of a file, as far as they arrive, and the message after them.
    pub fn contents(&mut self) -> (Vec<u8>, Vec<u8>) {
        let mut contents = Vec::new();
        loop {
            match self.piece() {
                piece if piece[0] == 0 => contents.extend(&piece[1..]),
                end => return (contents, end),
            }
        }
    }

    /// Checks that the next contents are these, followed by this message.
    #[track_caller]
    pub fn gets(&mut self, contents: &[u8], end: &[u8]) {
        assert!(self.contents() == (contents.into(), end.into()));
    }

    pub fn send_chunk(&self, text: &str) {
        self.send(&[&[0], text.as_bytes()].concat());
    }

    pub fn send(&self, piece: &[u8]) {
        self.contents.0.send_blocking(piece).unwrap();
    }

    /// Finishes its channels, and checks that the session ends in order on both sides.
    pub fn finish(self) -> Ended {
        for sender in [&self.offers.0, &self.requests.0, &self.contents.0] {
            sender.finish().unwrap();
        }
        self.mux.close();
        let ended = Ended::of(self.example);
        assert_eq!(self.run.join().unwrap(), Ok(()));
        ended
    }

    /// Checks that the example aborts the session: it ends neither its requests nor its contents in order.
    pub fn given_up(mut self) -> Ended {
        for receiver in [&mut self.contents.1, &mut self.requests.1] {
            let channel = receiver.channel();
            loop {
                match receiver.recv_blocking() {
                    Ok(Some(message)) if channel == PayloadRequest => drop(message),
                    Ok(ended) => panic!("on {channel:?} comes {ended:?}"),
                    Err(_) => break,
                }
            }
        }
        let ended = Ended::of(self.example);
        self.mux.abort();
        let _ = self.run.join().unwrap();
        ended
    }
}
