//! The model: the expected state of both sides.
use lcmux::{Closed, CHANNELS};
use std::task::Waker;

/// A channel in one direction.
#[derive(Default)]
pub struct Way {
    accepted: Vec<Vec<u8>>,
    taken: usize,
}

#[derive(Default)]
pub struct Model {
    pub ways: [[Way; CHANNELS]; 2],
    pub reasons: [Vec<Closed>; 2],
    /// How many tasks of each side are left, and the task that waits for them.
    pub left: [usize; 2],
    pub closers: [Option<Waker>; 2],
    /// Whether bytes may have been changed in transit.
    pub is_garbled: bool,
    /// The calls that were cancelled, for the tests of the tests.
    pub dropped: usize,
}

pub fn body(side: usize, channel: usize, number: usize, len: usize) -> Vec<u8> {
    let mark = (side * 100 + channel * 10 + number) as u8;
    (0..len).map(|at| mark.wrapping_add(at as u8)).collect()
}

impl Model {
    pub fn next_number(&self, side: usize, channel: usize) -> usize {
        self.ways[side][channel].accepted.len()
    }

    pub fn accepted(&mut self, side: usize, channel: usize, message: Vec<u8>) {
        self.ways[side][channel].accepted.push(message);
    }

    /// Records that a message of this side was taken.
    pub fn taken(&mut self, side: usize, channel: usize, message: &[u8]) {
        let way = &mut self.ways[side][channel];
        if !self.is_garbled {
            let wanted = way.accepted.get(way.taken).map(Vec::as_slice);
            assert_eq!(Some(message), wanted, "of {side} on {channel}");
        }
        way.taken += 1;
    }

    pub fn done(&mut self, side: usize) {
        self.left[side] -= 1;
        if self.left[side] == 0 {
            if let Some(waker) = self.closers[side].take() {
                waker.wake();
            }
        }
    }

    /// Checks that all accepted messages were taken.
    pub fn is_whole(&self) -> bool {
        let mut ways = self.ways.iter().flatten();
        ways.all(|way| way.taken == way.accepted.len())
    }

    pub fn messages(&self) -> usize {
        let ways = self.ways.iter().flatten();
        ways.map(|way| way.taken).sum()
    }
}
