//! High load, in both directions at once, on all channels.
use crate::*;
use lcmux_tokio::lcmux::{Receiver, Sender};

/// The bytes in each direction.
const BYTES: usize = 100_000_000;

/// Message k of a channel, of 1 to `most` bytes.
fn message(channel: Channel, number: usize, most: usize) -> Vec<u8> {
    let length = 1 + (number * 7919 + 4999) % most;
    vec![(number as u8).wrapping_mul(7) ^ channel.number(); length]
}

/// Sends at least this many bytes, and returns in how many messages.
async fn send(sender: Sender, bytes: usize, most: usize) -> usize {
    let (mut number, mut sent) = (0, 0);
    while sent < bytes {
        let message = message(sender.channel(), number, most);
        sender.send(&message).await.unwrap();
        sent += message.len();
        number += 1;
    }
    number
}

/// Compares all messages that arrive, and returns how many these are.
async fn take(mut receiver: Receiver, most: usize) -> usize {
    let (channel, mut number) = (receiver.channel(), 0);
    while let Some(taken) = receiver.recv_ref().await.unwrap() {
        let is_next = *taken == message(channel, number, most);
        assert!(is_next, "message {number} of {channel:?}");
        number += 1;
    }
    number
}

async fn swap(sides: [(Mux, Run); 2], most: usize) {
    let mut sides = sides;
    let bytes = BYTES / CHANNELS;
    let mut tasks = Vec::new();
    for channel in Channel::ALL {
        for (from, to) in [(0, 1), (1, 0)] {
            let sender = sides[from].0.take_sender(channel).unwrap();
            let receiver = sides[to].0.take_receiver(channel).unwrap();
            let send = tokio::spawn(send(sender, bytes, most));
            tasks.push((send, tokio::spawn(take(receiver, most))));
        }
    }
    for (send, take) in tasks {
        assert_eq!(send.await.unwrap(), take.await.unwrap());
    }
    close(sides).await;
}

#[test]
fn much_goes_both_ways_through_small_rings() {
    on_each("much through rings of 64 KiB", || async {
        swap(both(tcp_pair().await, rings(1 << 16)), 1 << 16).await;
    });
}

#[test]
fn much_goes_both_ways_through_large_rings() {
    on_each("much through rings of 16 MiB", || async {
        swap(both(tcp_pair().await, rings(1 << 24)), 1 << 20).await;
    });
}

#[test]
fn much_goes_both_ways_in_memory() {
    on_each("much in memory", || async {
        swap(both(tokio::io::duplex(50_000), rings(1 << 16)), 1 << 16).await;
    });
}
