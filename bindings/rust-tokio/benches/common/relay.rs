//! A connection over a distance: a relay between two sockets of the loopback that delays its bytes.
use std::io;
use std::net::SocketAddr;
use std::time::Duration;
use tokio::io::{AsyncReadExt, AsyncWriteExt};
use tokio::net::tcp::{OwnedReadHalf, OwnedWriteHalf};
use tokio::net::{TcpListener, TcpStream};
use tokio::sync::mpsc::{unbounded_channel, UnboundedReceiver, UnboundedSender};
use tokio::time::{sleep_until, Instant};

/// The largest chunk on the line.
const PIECE: usize = 16_384;

/// How far the line may be ahead of the clock, whose resolution is one millisecond.
const AHEAD: Duration = Duration::from_millis(2);

/// The line between two sockets, in each direction.
#[derive(Clone, Copy, Debug)]
pub struct Distance {
    /// The delay of a byte.
    pub delay: Duration,
    /// The bytes per second.
    pub rate: f64,
}

/// Bytes, and the time of their arrival.
struct Arrival {
    due: Instant,
    bytes: Vec<u8>,
}

impl Distance {
    /// A relay that joins each accepted connection to the next one: connect twice for a pair.
    pub async fn relay(self) -> io::Result<SocketAddr> {
        let listener = TcpListener::bind("127.0.0.1:0").await?;
        let address = listener.local_addr()?;
        tokio::spawn(async move {
            loop {
                let (here, there) = (listener.accept().await?.0, listener.accept().await?.0);
                self.join(here, there)?;
            }
            #[allow(unreachable_code)]
            io::Result::Ok(())
        });
        Ok(address)
    }

    fn join(self, here: TcpStream, there: TcpStream) -> io::Result<()> {
        here.set_nodelay(true)?;
        there.set_nodelay(true)?;
        let ((here_reader, here_writer), (there_reader, there_writer)) =
            (here.into_split(), there.into_split());
        self.carry(here_reader, there_writer);
        self.carry(there_reader, here_writer);
        Ok(())
    }

    fn carry(self, reader: OwnedReadHalf, writer: OwnedWriteHalf) {
        let (line, arrivals) = unbounded_channel();
        tokio::spawn(self.send(reader, line));
        tokio::spawn(receive(arrivals, writer));
    }

    /// Sends inbound bytes over the line, no faster than its rate, until they end.
    async fn send(
        self,
        mut reader: OwnedReadHalf,
        line: UnboundedSender<Arrival>,
    ) -> io::Result<()> {
        let mut free = Instant::now();
        loop {
            let mut bytes = Vec::with_capacity(PIECE);
            if reader.read_buf(&mut bytes).await? == 0 {
                return Ok(());
            }
            free = free.max(Instant::now());
            free += Duration::from_secs_f64(bytes.len() as f64 / self.rate);
            let due = free + self.delay;
            if line.send(Arrival { due, bytes }).is_err() {
                return Ok(());
            }
            sleep_until(free - AHEAD).await;
        }
    }
}

/// Forwards bytes when they are due, and then the end.
async fn receive(
    mut arrivals: UnboundedReceiver<Arrival>,
    mut writer: OwnedWriteHalf,
) -> io::Result<()> {
    while let Some(Arrival { due, bytes }) = arrivals.recv().await {
        sleep_until(due).await;
        writer.write_all(&bytes).await?;
    }
    writer.shutdown().await
}
