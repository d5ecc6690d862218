//! Tasks that share a channel through clones, with messages of all lengths, and that are aborted while they send.
use crate::*;
use lcmux_tokio::lcmux::{Channel::Data, Receiver, Sender};
use std::sync::Arc;
use tokio::task::yield_now;

/// Around the bytes of the queue, and the ring.
const LENGTHS: [usize; 7] = [1, 65_535, 9_000, 65_536, 65_537, 300_000, 3];
const CLONES: u8 = 3;
const MESSAGES: u8 = 20;

/// Which clone sent it and its number, in bytes that differ from those of all others.
fn body(clone: u8, number: u8) -> Vec<u8> {
    let len = LENGTHS[usize::from(number + clone) % LENGTHS.len()];
    let first = clone << 6 | number;
    (0..len)
        .map(|at| first.wrapping_add((at / 251) as u8))
        .collect()
}

/// Whether a task sent the message before it was aborted, so many turns after it was spawned.
async fn is_sent(sender: &Sender, message: &Arc<[u8]>, turns: u32) -> bool {
    let task = tokio::spawn(sender.send_owned(Arc::clone(message)));
    for _ in 0..turns {
        yield_now().await;
    }
    task.abort();
    match task.await {
        Ok(sent) => sent.map(|()| true).unwrap(),
        Err(error) => {
            assert!(error.is_cancelled(), "{error}");
            false
        }
    }
}

/// Sends each message by tasks that are aborted later and later, until one has sent it.
async fn send(sender: Sender, clone: u8) {
    for number in 0..MESSAGES {
        let (message, mut turns) = (body(clone, number).into(), 0);
        while !is_sent(&sender, &message, turns).await {
            turns += 1;
        }
    }
}

async fn take(mut receiver: Receiver) {
    let mut next = [0; CLONES as usize];
    while let Some(message) = receiver.recv_ref().await.unwrap() {
        let clone = message[0] >> 6;
        let due = body(clone, next[usize::from(clone)]);
        assert!(*message == due, "{clone}: {} bytes", message.len());
        next[usize::from(clone)] += 1;
    }
    assert_eq!(next, [MESSAGES; CLONES as usize]);
}

/// An aborted task has sent its whole message or nothing, and the others of its channel keep their order.
#[test]
fn tasks_that_are_aborted_have_sent_all_or_nothing() {
    on_each("tasks that are aborted", || async {
        let mut sides = both(tcp_pair().await, rings(300_000));
        let sender = sides[0].0.take_sender(Data).unwrap();
        let tasks = [0, 1, 2].map(|clone| tokio::spawn(send(sender.clone(), clone)));
        drop(sender);
        let take = tokio::spawn(take(sides[1].0.take_receiver(Data).unwrap()));
        for task in tasks {
            task.await.unwrap();
        }
        take.await.unwrap();
        close(sides).await;
    });
}
