//! The load of the benchmarks of sessions, and its results.
use lcmux::Channel;
use std::error::Error;
use std::time::{Duration, Instant};
use std::{env, fs};

/// The lanes of two sessions.
const LANES: u32 = 14;

/// The least time of a measurement.
const TARGET: Duration = Duration::from_secs(1);

/// The messages of a session: this many on each channel and way.
#[derive(Clone, Copy)]
pub struct Load {
    /// The length of each message; 0 stands for 4 to 16 bytes.
    len: usize,
    pub count: u32,
}

impl Load {
    const ALL: [(&'static str, usize); 3] = [("small", 0), ("1k", 1_024), ("60k", 61_440)];

    /// The message of a number: the number, and then bytes of the channel's number.
    pub fn write(&self, number: u32, channel: Channel, message: &mut Vec<u8>) {
        let len = match self.len {
            0 => 4 + number as usize % 13,
            len => len,
        };
        message.clear();
        message.resize(len, channel.number());
        message[..4].copy_from_slice(&number.to_be_bytes());
    }
}

/// The processor time of this process so far, to a hundredth of a second.
fn processor_time() -> Result<Duration, Box<dyn Error>> {
    let stat = fs::read_to_string("/proc/self/stat")?;
    let (_, fields) = stat.rsplit_once(')').ok_or("no name")?;
    let ticks: Result<Vec<u64>, _> = fields
        .split_whitespace()
        .skip(11)
        .take(2)
        .map(str::parse)
        .collect();
    Ok(Duration::from_millis(10 * ticks?.iter().sum::<u64>()))
}

/// Prints the results of each kind of load: messages a second, all lanes together, and the processor time of each
/// message. An argument selects the results whose names begin with it.
pub fn print_figures(
    name: &str,
    run: impl Fn(Load) -> Result<(), Box<dyn Error>>,
) -> Result<(), Box<dyn Error>> {
    // Cargo itself adds `--bench`.
    let prefix = env::args().skip(1).find(|word| word != "--bench");
    for (kind, len) in Load::ALL {
        let name = format!("{name}.{kind}");
        if name.starts_with(prefix.as_deref().unwrap_or_default()) {
            print_figure(&name, len, &run)?;
        }
    }
    Ok(())
}

fn print_figure(
    name: &str,
    len: usize,
    run: impl Fn(Load) -> Result<(), Box<dyn Error>>,
) -> Result<(), Box<dyn Error>> {
    let mut load = Load { len, count: 64 };
    loop {
        let (before, start) = (processor_time()?, Instant::now());
        run(load)?;
        let (taken, spent) = (start.elapsed(), processor_time()? - before);
        if taken >= TARGET {
            let messages = f64::from(LANES * load.count);
            let each = spent.as_secs_f64() * 1e6 / messages;
            println!(
                "{name} {:.0} messages/s {each:.2} us",
                messages / taken.as_secs_f64()
            );
            return Ok(());
        }
        load.count *= 2;
    }
}
