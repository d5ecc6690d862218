//! The throughput of two sessions over one TCP connection on the loopback, in both directions on all seven channels,
//! through rings of 256 KiB, with a task for each of the 28 handles: `one` on one thread, `many` on a thread for each
//! processor; each message is compared with the expected one. `cargo bench --bench sessions` prints a line for
//! messages of 4 to 16 bytes, of 1 KiB and of 60 KiB.
#[path = "../../rust/benches/common/load.rs"]
mod load;

use lcmux::{Channel, Closed, Config, Mux, Receiver, Sender, CHANNELS};
use lcmux_tokio::connect;
use load::{print_figures, Load};
use std::error::Error;
use tokio::net::{TcpListener, TcpStream};
use tokio::runtime::{Builder, Runtime};
use tokio::task::JoinHandle;

const RING: u32 = 262_144;
const SLOTS: u32 = 64;

type Session = (Mux, JoinHandle<Result<(), Closed>>);

fn session(stream: TcpStream) -> Result<Session, Box<dyn Error>> {
    stream.set_nodelay(true)?;
    Ok(connect(stream, Config::new([RING; CHANNELS], SLOTS))?)
}

async fn sessions() -> Result<[Session; 2], Box<dyn Error>> {
    let listener = TcpListener::bind("127.0.0.1:0").await?;
    let here = TcpStream::connect(listener.local_addr()?).await?;
    Ok([session(here)?, session(listener.accept().await?.0)?])
}

async fn send(sender: Sender, load: Load) {
    let mut message = Vec::new();
    for number in 0..load.count {
        load.write(number, sender.channel(), &mut message);
        sender.send(&message).await.unwrap();
    }
}

async fn take(mut receiver: Receiver, load: Load) {
    let (channel, mut due) = (receiver.channel(), Vec::new());
    for number in 0..load.count {
        load.write(number, channel, &mut due);
        let message = receiver.recv_ref().await.unwrap().unwrap();
        assert_eq!(*message, *due);
    }
}

async fn swap(load: Load) -> Result<(), Box<dyn Error>> {
    let mut sessions = sessions().await?;
    let mut tasks = Vec::new();
    for (mux, _) in &mut sessions {
        for channel in Channel::ALL {
            tasks.push(tokio::spawn(send(mux.take_sender(channel).unwrap(), load)));
            tasks.push(tokio::spawn(take(
                mux.take_receiver(channel).unwrap(),
                load,
            )));
        }
    }
    for task in tasks {
        task.await?;
    }
    sessions.iter().for_each(|(mux, _)| mux.close());
    for (_, run) in sessions {
        run.await??;
    }
    Ok(())
}

fn print_on(name: &str, runtime: &Runtime) -> Result<(), Box<dyn Error>> {
    print_figures(name, |load| runtime.block_on(swap(load)))
}

fn main() -> Result<(), Box<dyn Error>> {
    print_on("one", &Builder::new_current_thread().enable_all().build()?)?;
    print_on("many", &Builder::new_multi_thread().enable_all().build()?)
}
