//! One quiet channel beside six with bulk, in one direction: the contents of its messages and their latencies.
use lcmux::Channel;
use std::time::{Duration, Instant};

/// The quiet channel.
pub const QUIET: Channel = Channel::Reconciliation;

/// The size of a bulk message.
pub const BULK: usize = 61_440;

/// The time between two messages of the quiet channel, and how many there are.
pub const PACE: Duration = Duration::from_millis(1);
pub const COUNT: usize = 2_000;

/// How long bulk is sent before the first of them.
pub const BEFORE: Duration = Duration::from_millis(200);

/// A message of the quiet channel, which contains the time of its send.
pub fn stamp(start: Instant) -> [u8; 16] {
    (start.elapsed().as_nanos()).to_le_bytes()
}

/// Returns how long ago a message was sent.
pub fn lasted(start: Instant, message: &[u8]) -> Duration {
    let sent = u128::from_le_bytes(message.try_into().unwrap());
    start.elapsed() - Duration::from_nanos(u64::try_from(sent).unwrap())
}

/// Prints the latencies of half of the messages, of 99 %, and of all, and the bulk that was sent meanwhile.
pub fn print_times(name: &str, mut times: Vec<Duration>, bytes: u64, took: Duration) {
    times.sort();
    let within = |percent: usize| times[(times.len() - 1) * percent / 100].as_nanos() as f64 / 1e3;
    println!(
        "{name} median {:.1} p99 {:.1} most {:.1} us, bulk {:.0} MB/s",
        within(50),
        within(99),
        within(100),
        bytes as f64 / 1e6 / took.as_secs_f64()
    );
}
