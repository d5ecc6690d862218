//! The throughput of two sessions over one TCP connection on the loopback, in both directions on all seven channels,
//! through rings of 256 KiB, with a thread for each of the 28 handles and two for each driver; each message is
//! compared with the expected one. `cargo bench --bench sessions` prints a line for messages of 4 to 16 bytes, of 1
//! KiB and of 60 KiB.
#[path = "common/load.rs"]
mod load;

use lcmux::{Channel, Closed, Config, Mux, Receiver, Sender, CHANNELS};
use load::{print_figures, Load};
use std::error::Error;
use std::net::{TcpListener, TcpStream};
use std::thread::{self, JoinHandle};

const RING: u32 = 262_144;
const SLOTS: u32 = 64;

fn pair() -> Result<[TcpStream; 2], Box<dyn Error>> {
    let listener = TcpListener::bind("127.0.0.1:0")?;
    let here = TcpStream::connect(listener.local_addr()?)?;
    Ok([here, listener.accept()?.0])
}

type Session = (Mux, JoinHandle<Result<(), Closed>>);

fn session(stream: TcpStream) -> Result<Session, Box<dyn Error>> {
    stream.set_nodelay(true)?;
    let reader = stream.try_clone()?;
    let (mux, driver) = Mux::new(Config::new([RING; CHANNELS], SLOTS))?;
    Ok((mux, thread::spawn(|| driver.run_blocking(reader, stream))))
}

fn send(sender: &Sender, load: Load) {
    let mut message = Vec::new();
    for number in 0..load.count {
        load.write(number, sender.channel(), &mut message);
        sender.send_blocking(&message).unwrap();
    }
}

fn take(receiver: &mut Receiver, load: Load) {
    let (channel, mut due) = (receiver.channel(), Vec::new());
    for number in 0..load.count {
        load.write(number, channel, &mut due);
        let message = receiver.recv_ref_blocking().unwrap().unwrap();
        assert_eq!(*message, *due);
    }
}

fn swap(load: Load) -> Result<(), Box<dyn Error>> {
    let [here, there] = pair()?;
    let mut sessions = [session(here)?, session(there)?];
    thread::scope(|scope| {
        for (mux, _) in &mut sessions {
            for channel in Channel::ALL {
                let sender = mux.take_sender(channel).unwrap();
                let mut receiver = mux.take_receiver(channel).unwrap();
                scope.spawn(move || send(&sender, load));
                scope.spawn(move || take(&mut receiver, load));
            }
        }
    });
    sessions.iter().for_each(|(mux, _)| mux.close());
    for (_, run) in sessions {
        run.join().unwrap()?;
    }
    Ok(())
}

fn main() -> Result<(), Box<dyn Error>> {
    print_figures("threads", swap)
}
