//! The source of a schedule's choices: a seed, or a tape of the choices of an earlier run.

pub struct Choices {
    tape: Vec<u32>,
    at: usize,
    random: Option<u64>,
}

impl Choices {
    pub fn of_seed(seed: u64) -> Choices {
        Choices {
            tape: Vec::new(),
            at: 0,
            random: Some(seed.wrapping_mul(0x9e37_79b9_7f4a_7c15) | 1),
        }
    }

    /// After its end each choice is the first one.
    pub fn of_tape(tape: Vec<u32>) -> Choices {
        Choices {
            tape,
            at: 0,
            random: None,
        }
    }

    pub fn below(&mut self, n: u32) -> u32 {
        let choice = match (&mut self.random, self.tape.get(self.at)) {
            (None, Some(choice)) => choice % n,
            (None, None) => 0,
            (Some(random), _) => {
                *random ^= *random << 13;
                *random ^= *random >> 7;
                *random ^= *random << 17;
                let choice = (*random >> 33) as u32 % n;
                self.tape.push(choice);
                choice
            }
        };
        self.at += 1;
        choice
    }

    /// Makes one of `n` choices, and returns whether it is this one.
    pub fn one_in(&mut self, n: u32) -> bool {
        self.below(n) == n - 1
    }

    /// The choices that were made.
    pub fn made(&self) -> Vec<u32> {
        self.tape[..self.at.min(self.tape.len())].to_vec()
    }
}

/// A shorter or simpler tape on which `fails` still holds, found in at most this many tries.
pub fn shrunk(mut tape: Vec<u32>, tries: usize, mut fails: impl FnMut(&[u32]) -> bool) -> Vec<u32> {
    let mut left = tries;
    let mut size = tape.len().div_ceil(2).max(1);
    while size > 0 {
        let mut at = 0;
        while at < tape.len() && left > 0 {
            let end = (at + size).min(tape.len());
            let cut = [&tape[..at], &tape[end..]].concat();
            let mut plain = tape.clone();
            plain[at..end].fill(0);
            left = left.saturating_sub(2);
            if fails(&cut) {
                tape = cut;
            } else if plain != tape && fails(&plain) {
                tape = plain;
                at = end;
            } else {
                at = end;
            }
        }
        size /= 2;
    }
    tape
}
