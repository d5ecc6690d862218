//! The source of all choices: a seed, or a tape of the choices of an earlier run.
use std::collections::BTreeSet;

/// The generator SplitMix64.
#[derive(Clone, Debug)]
pub(crate) struct Random(u64);

impl Random {
    pub fn new(seed: u64) -> Random {
        Random(seed)
    }

    pub fn next(&mut self) -> u64 {
        self.0 = self.0.wrapping_add(0x9e37_79b9_7f4a_7c15);
        let mixed = (self.0 ^ (self.0 >> 30)).wrapping_mul(0xbf58_476d_1ce4_e5b9);
        let mixed = (mixed ^ (mixed >> 27)).wrapping_mul(0x94d0_49bb_1331_11eb);
        mixed ^ (mixed >> 31)
    }

    /// A number below `n`, which is above 0.
    pub fn below(&mut self, n: u64) -> u64 {
        ((u128::from(self.next()) * u128::from(n)) >> 64) as u64
    }

    /// A number below `n`, which is above 0. Each magnitude, in powers of two, is as likely as another.
    pub fn scaled(&mut self, n: u64) -> u64 {
        let bits = u64::BITS - (n - 1).leading_zeros();
        let least = match self.below(u64::from(bits) + 1) {
            0 => return 0,
            bit => 1 << (bit - 1),
        };
        least + self.below(least.min(n - least))
    }

    /// Whether an event of the probability 1 to `n` occurs. It never does for 0.
    pub fn one_in(&mut self, n: u64) -> bool {
        n > 0 && self.below(n) == 0
    }
}

/// The choices that define a run: its inputs, its link and its faults. Of each the simplest is 0, so a tape of smaller
/// numbers is a simpler run.
#[derive(Clone, Debug)]
pub(crate) struct Choices {
    tape: Vec<u64>,
    at: usize,
    random: Option<Random>,
}

impl Choices {
    pub fn of_seed(seed: u64) -> Choices {
        Choices {
            tape: Vec::new(),
            at: 0,
            random: Some(Random::new(seed)),
        }
    }

    /// After the end of the tape each choice is 0.
    pub fn of_tape(tape: Vec<u64>) -> Choices {
        Choices {
            tape,
            at: 0,
            random: None,
        }
    }

    // A choice below `n`, by the generator or from the tape.
    fn choose(&mut self, n: u64, draw: impl FnOnce(&mut Random) -> u64) -> u64 {
        let choice = match &mut self.random {
            Some(random) => {
                let choice = draw(random);
                self.tape.push(choice);
                choice
            }
            None => self.tape.get(self.at).map_or(0, |choice| *choice),
        };
        self.at += 1;
        choice.min(n - 1)
    }

    /// A number below `n`, which is above 0.
    pub fn below(&mut self, n: u64) -> u64 {
        self.choose(n, |random| random.below(n))
    }

    /// 0 in half of the cases, and else a number of 1 to `most`.
    pub fn sometimes(&mut self, most: u64) -> u64 {
        self.choose(most + 1, |random| match random.below(2) {
            1 if most > 0 => 1 + random.below(most),
            _ => 0,
        })
    }

    /// A number below `n`, which is above 0: often the first or the last one, where bugs are.
    pub fn edgy(&mut self, n: u64) -> u64 {
        self.choose(n, |random| match random.below(8) {
            0 | 1 => 0,
            7 => n - 1,
            _ => random.below(n),
        })
    }

    /// A number below `n`, which is above 0. In every fourth case each magnitude, in powers of two, is as likely as another.
    pub fn early(&mut self, n: u64) -> u64 {
        self.choose(n, |random| match random.below(4) {
            0 => random.scaled(n),
            _ => random.below(n),
        })
    }

    /// The choices that were made.
    pub fn made(&self) -> Vec<u64> {
        self.tape[..self.at.min(self.tape.len())].to_vec()
    }
}

/// A simpler tape on which `fails` still holds, found in at most `tries` calls of it.
pub(crate) fn shrunk(
    tape: Vec<u64>,
    tries: usize,
    mut fails: impl FnMut(&[u64]) -> bool,
) -> Vec<u64> {
    let mut tape = trimmed(tape);
    let mut tried = BTreeSet::from([tape.clone()]);
    let mut try_tape = |tape: &mut Vec<u64>, other: Vec<u64>| {
        let other = trimmed(other);
        if tried.len() > tries || !tried.insert(other.clone()) {
            return false;
        }
        let is_simpler = fails(&other);
        if is_simpler {
            *tape = other;
        }
        is_simpler
    };
    loop {
        let before = tape.clone();
        drop_blocks(&mut tape, &mut try_tape);
        lower_numbers(&mut tape, &mut try_tape);
        lower_counts(&mut tape, &mut try_tape);
        if tape == before {
            return tape;
        }
    }
}

// Each choice after the end of a tape is 0.
fn trimmed(mut tape: Vec<u64>) -> Vec<u64> {
    while tape.last() == Some(&0) {
        tape.pop();
    }
    tape
}

/// Replaces a tape by another one if that still fails.
type TryTape<'a> = &'a mut dyn FnMut(&mut Vec<u64>, Vec<u64>) -> bool;

// Sets blocks of choices to 0, and removes blocks.
fn drop_blocks(tape: &mut Vec<u64>, try_tape: TryTape<'_>) {
    let mut size = tape.len().div_ceil(2);
    while size > 0 {
        let mut at = 0;
        while at < tape.len() {
            let end = (at + size).min(tape.len());
            let mut plain = tape.clone();
            plain[at..end].fill(0);
            let cut = [&tape[..at], &tape[end..]].concat();
            if !try_tape(tape, plain) && try_tape(tape, cut) {
                continue;
            }
            at = end;
        }
        size /= 2;
    }
}

// Lowers each number as far as the run still fails, by bisection.
fn lower_numbers(tape: &mut Vec<u64>, try_tape: TryTape<'_>) {
    for at in (0..tape.len()).rev() {
        let mut low = 0;
        while tape.get(at).is_some_and(|number| low < *number) {
            let mut lower = tape.clone();
            let number = low + (tape[at] - low) / 2;
            lower[at] = number;
            if !try_tape(tape, lower) {
                low = number + 1;
            }
        }
    }
}

// Lowers a number and removes some choices behind it: those of an element, where the number is a count of them.
fn lower_counts(tape: &mut Vec<u64>, try_tape: TryTape<'_>) {
    for at in 0..tape.len() {
        while at < tape.len() && tape[at] > 0 && lower_count(tape, at, try_tape) {}
    }
}

fn lower_count(tape: &mut Vec<u64>, at: usize, try_tape: TryTape<'_>) -> bool {
    for width in 1..=4 {
        for from in at + 1..(tape.len() + 1).saturating_sub(width) {
            let mut lower = [&tape[..from], &tape[from + width..]].concat();
            lower[at] -= 1;
            if try_tape(tape, lower) {
                return true;
            }
        }
    }
    false
}

#[cfg(test)]
mod tests {
    use super::*;

    #[test]
    fn the_generator_gives_the_numbers_of_its_definition() {
        let mut random = Random::new(1_234_567);
        let numbers = [(); 3].map(|()| random.next());
        let wanted = [
            6_457_827_717_110_365_317,
            3_203_168_211_198_807_973,
            9_817_491_932_198_370_423,
        ];
        assert_eq!(numbers, wanted);
    }

    #[test]
    fn a_tape_repeats_the_choices_of_a_seed() {
        let mut seed = Choices::of_seed(7);
        let made: Vec<_> = (1..100).map(|n| seed.below(n)).collect();
        assert!(made.iter().any(|it| *it > 50));
        assert_eq!(seed.made(), made);
        let mut tape = Choices::of_tape(made.clone());
        assert_eq!((1..100).map(|n| tape.below(n)).collect::<Vec<_>>(), made);
        assert_eq!(
            (tape.below(9), tape.early(500), tape.sometimes(9)),
            (0, 0, 0)
        );
    }

    #[test]
    fn numbers_of_all_scales_occur() {
        let mut random = Random::new(1);
        let mut counts = [0; 11];
        for _ in 0..1_100 {
            let number = random.scaled(1_000);
            assert!(number < 1_000);
            counts[(64 - number.leading_zeros()) as usize] += 1;
        }
        assert!(
            counts.iter().all(|count| (50..200).contains(count)),
            "{counts:?}"
        );
    }

    #[test]
    fn first_and_last_numbers_are_frequent() {
        let mut choices = Choices::of_seed(1);
        let drawn: Vec<_> = (0..1_000).map(|_| choices.edgy(100)).collect();
        let count = |is: fn(u64) -> bool| drawn.iter().filter(|it| is(**it)).count();
        assert!((150..350).contains(&count(|it| it == 0)));
        assert!((60..200).contains(&count(|it| it == 99)));
        assert!((20..200).contains(&count(|it| (40..60).contains(&it))));
        let halves: Vec<_> = (0..1_000).map(|_| choices.sometimes(9)).collect();
        assert!((400..600).contains(&halves.iter().filter(|it| **it == 0).count()));
        assert!(halves.contains(&9) && halves.iter().all(|it| *it <= 9));
    }

    #[test]
    fn a_tape_that_fails_becomes_short_and_small() {
        let long: Vec<u64> = (0..200).map(|at| at % 23).collect();
        let fails = |tape: &[u64]| {
            let seven = tape.iter().position(|choice| *choice >= 7);
            seven.is_some_and(|seven| tape[seven..].contains(&9))
        };
        assert_eq!(shrunk(long.clone(), 5_000, fails), [9]);
        assert_eq!(shrunk(long.clone(), 600, |_| true), []);
        assert_eq!(shrunk(long.clone(), 600, |_| false), long);
        // A count, its elements, and a number behind them.
        let counted = |tape: &[u64]| match tape {
            [count, rest @ ..] if *count > 2 => rest.get(*count as usize).is_some_and(|it| *it > 5),
            _ => false,
        };
        assert_eq!(
            shrunk(vec![6, 9, 8, 9, 8, 9, 8, 70], 5_000, counted),
            [3, 0, 0, 0, 6]
        );
        let second = |tape: &[u64]| tape.get(1).is_some_and(|it| *it > 300);
        assert_eq!(shrunk(vec![5_000, 70_000, 9], 600, second), [0, 301]);
    }
}
