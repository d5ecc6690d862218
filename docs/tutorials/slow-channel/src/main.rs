use lcmux::Channel::{Data, Overlap};
use lcmux::{Config, Mux, Receiver, SendError, Sender};
use std::error::Error;
use std::net::{TcpListener, TcpStream};
use std::thread::{self, JoinHandle};
use std::time::{Duration, Instant};

const BUSY: usize = 400_000; // messages of 1,024 bytes in each measurement
const SLOW: usize = 100; // messages of 64 bytes

type Outcome<T> = Result<T, Box<dyn Error>>;

/// A session whose ring for Data has 4,096 bytes, and whose other rings have 256 KiB.
fn session(stream: TcpStream) -> Outcome<Mux> {
    stream.set_nodelay(true)?;
    let (mux, driver) = Mux::new(Config::default().rings(262_144).ring(Data, 4096))?;
    thread::spawn(move || driver.run_blocking(stream.try_clone()?, stream));
    Ok(mux)
}

/// Both sides of a session over TCP, in this process.
fn sessions() -> Outcome<(Mux, Mux)> {
    let listener = TcpListener::bind("127.0.0.1:0")?;
    let near = TcpStream::connect(listener.local_addr()?)?;
    Ok((session(near)?, session(listener.accept()?.0)?))
}

fn send_slow(sender: Sender) -> JoinHandle<Result<(), SendError>> {
    thread::spawn(move || {
        for number in 0..SLOW {
            sender.send_blocking(&[number as u8; 64])?;
        }
        Ok(())
    })
}

/// Sends on the busy channel, receives there, and answers the throughput in MB/s.
fn measure(sender: &Sender, receiver: &mut Receiver) -> Outcome<f64> {
    let start = Instant::now();
    thread::scope(|scope| {
        let sending = scope.spawn(|| (0..BUSY).try_for_each(|_| sender.send_blocking(&[7; 1024])));
        for _ in 0..BUSY {
            receiver.recv_blocking()?.ok_or("the channel ended too early")?;
        }
        sending.join().unwrap()?;
        Ok((BUSY * 1024) as f64 / 1e6 / start.elapsed().as_secs_f64())
    })
}

fn show_slow(mux: &Mux) {
    let stats = mux.stats()[Data];
    let (messages, bytes) = (stats.messages_sent, stats.bytes_sent);
    println!("slow channel: {messages} of {SLOW} messages sent, {bytes} bytes");
}

fn main() -> Outcome<()> {
    let (mut alice, mut bob) = sessions()?;
    let busy = alice.take_sender(Overlap).unwrap();
    let mut busy_receiver = bob.take_receiver(Overlap).unwrap();
    let alone = measure(&busy, &mut busy_receiver)?;
    println!("busy channel alone: about {alone:.0} MB/s");

    let sending = send_slow(alice.take_sender(Data).unwrap());
    while alice.stats()[Data].waited_for_guarantees < Duration::from_millis(100) {
        thread::sleep(Duration::from_millis(10));
    }
    show_slow(&alice);
    println!("slow channel: its send waits for send credit");

    let beside = measure(&busy, &mut busy_receiver)?;
    println!("busy channel beside it: about {beside:.0} MB/s");
    show_slow(&alice);

    let mut slow_receiver = bob.take_receiver(Data).unwrap();
    let mut received = 0;
    while let Some(message) = slow_receiver.recv_blocking()? {
        assert_eq!(message, [received as u8; 64]);
        received += 1;
    }
    sending.join().unwrap()?;
    show_slow(&alice);
    println!("slow channel: {received} messages received, in order");

    alice.close();
    bob.close();
    alice.closed_blocking()?;
    Ok(())
}
