//! An engine of the tests: two sides that send each other messages on three channels, in tasks of their own.
#![allow(dead_code)] // each test uses a part
use lcmux_sim::{Sim, Stream};
use lcmux_tokio::connect;
use lcmux_tokio::lcmux::{Channel, Config, Receiver, Sender, Version};
use std::time::Duration;
use tokio::task::JoinSet;

/// The channels that are used.
pub const CHANNELS: [Channel; 3] = [Channel::Data, Channel::Overlap, Channel::StaticToken];

/// Rings that hold some messages, and timeouts by which a silent session ends.
pub fn config(version: Version) -> Config {
    let second = Duration::from_secs(1);
    let config = Config::default().version(version).rings(64);
    config.idle(60 * second).keep_alive(20 * second)
}

async fn send_all(sender: Sender, count: u64) -> Result<(), String> {
    for number in 0..count {
        let len = 1 + (number * 7 % 40) as usize;
        let message = vec![number as u8; len];
        sender
            .send(&message)
            .await
            .map_err(|error| error.to_string())?;
    }
    sender.finish().map_err(|error| error.to_string())
}

async fn count_all(mut receiver: Receiver) -> Result<u64, String> {
    let mut count = 0;
    while let Some(message) = receiver.recv().await.map_err(|error| error.to_string())? {
        assert!(message.iter().all(|byte| u64::from(*byte) == count));
        count += 1;
    }
    Ok(count)
}

/// Sends so many messages on each channel, and counts those of the other side.
pub async fn talk(stream: Stream, version: Version, count: u64) -> Result<u64, String> {
    let connected = connect(stream, config(version));
    let (mut mux, run) = connected.map_err(|error| error.to_string())?;
    let (mut tasks, mut kept) = (JoinSet::new(), Vec::new());
    for channel in CHANNELS {
        let sender = mux.take_sender(channel).unwrap();
        let receiver = mux.take_receiver(channel).unwrap();
        kept.push(sender.clone()); // after an error, no drop ends the channel in order
        tasks.spawn(async move {
            let (_, counted) = tokio::try_join!(send_all(sender, count), count_all(receiver))?;
            Ok::<_, String>(counted)
        });
    }
    let mut sum = 0;
    while let Some(counted) = tasks.join_next().await {
        match counted.unwrap() {
            Ok(count) => sum += count,
            Err(error) => {
                mux.abort();
                return Err(error);
            }
        }
    }
    mux.close();
    run.await.unwrap().map_err(|closed| closed.to_string())?;
    Ok(sum)
}

/// Runs the engine of both sides by a seed. Side A writes version One, and B writes Two.
pub fn talked(sim: &mut Sim) -> lcmux_sim::Run<Result<u64, String>, Result<u64, String>> {
    let [a, b] = ["messages of A", "messages of B"].map(|name| sim.draw(name, 0..=12));
    sim.run(
        move |stream| talk(stream, Version::One, a),
        move |stream| talk(stream, Version::Two, b),
    )
}
