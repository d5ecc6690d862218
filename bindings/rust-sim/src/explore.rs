//! Runs a test by many seeds, and reports the first failure.
use crate::choices::{shrunk, Choices};
use crate::faults::Faults;
use crate::quiet::caught;
use crate::sim::{Report, Sim};
use crate::trace::Trace;
use std::fmt::{self, Display, Formatter};
use std::path::PathBuf;
use std::{env, thread};

/// The seeds of a test without another number.
const SEEDS: u64 = 1_000;

/// The most runs in which a failure is made simpler.
const TRIES: usize = 1_000;

/// Runs a test by many seeds. The first one that fails is shrunk and reported.
///
/// | variable | effect |
/// |---|---|
/// | `LCMUX_SIM_SEED=17` | runs this seed alone; `17:0,3,1` is a shrunk run of it, as the report names it |
/// | `LCMUX_SIM_SEEDS=100000` | runs this many seeds, whatever the test says |
/// | `LCMUX_SIM_OUT=folder` | writes the runs of the failure, as it was shrunk, into files of this folder |
///
/// ```
/// use lcmux_sim::{Explorer, Faults};
/// use tokio::io::{AsyncReadExt, AsyncWriteExt};
///
/// Explorer::new(Faults::timing()).seeds(100).check(|sim| {
///     let count = sim.draw("count", 0..=300);
///     let run = sim.run(
///         |mut stream| async move { stream.write_all(&vec![7; count as usize]).await },
///         |mut stream| async move {
///             let mut bytes = Vec::new();
///             stream.read_to_end(&mut bytes).await.map(|_| bytes)
///         },
///     );
///     assert_eq!(run.b.unwrap().unwrap().len() as u64, count);
/// });
/// ```
#[derive(Clone, Debug)]
pub struct Explorer {
    faults: Faults,
    seeds: u64,
    first: u64,
    is_twice: bool,
    ignores_environment: bool,
}

/// A test that failed by a seed.
#[derive(Clone, Debug)]
#[non_exhaustive]
pub struct Failure {
    /// The seed.
    pub seed: u64,
    /// What failed.
    pub message: String,
    /// The shrunk run, as `LCMUX_SIM_SEED` takes it.
    pub case: String,
    /// What failed in the shrunk run.
    pub shrunk: String,
    /// How many seeds were run.
    pub runs: u64,
    said: String,
}

impl Display for Failure {
    fn fmt(&self, f: &mut Formatter<'_>) -> fmt::Result {
        f.write_str(&self.said)
    }
}

/// One run of a test: what failed, if anything, the choices that were made, and the report.
struct Tried {
    failed: Option<String>,
    tape: Vec<u64>,
    report: Report,
}

impl Tried {
    fn checksums(&self) -> Vec<u64> {
        self.report.traces.iter().map(|it| it.checksum()).collect()
    }
}

impl Explorer {
    /// Makes an explorer of 1,000 seeds, whose runs have what these faults allow.
    pub fn new(faults: Faults) -> Explorer {
        Explorer {
            faults,
            seeds: SEEDS,
            first: 0,
            is_twice: false,
            ignores_environment: false,
        }
    }

    /// Sets the number of seeds.
    pub fn seeds(mut self, count: u64) -> Explorer {
        self.seeds = count;
        self
    }

    /// Sets the first seed, 0 without a call.
    pub fn first_seed(mut self, seed: u64) -> Explorer {
        self.first = seed;
        self
    }

    /// Runs each seed twice, and fails if the two differ: then the test is not determined by its seed.
    pub fn twice(mut self) -> Explorer {
        self.is_twice = true;
        self
    }

    /// Ignores the variables of the environment, for tests of the test.
    pub fn ignore_environment(mut self) -> Explorer {
        self.ignores_environment = true;
        self
    }

    /// Runs the test by each seed.
    ///
    /// # Panics
    ///
    /// If the test panics by one, with a report: the seed, what failed, and the simplest run that was found.
    pub fn check(&self, test: impl Fn(&mut Sim)) {
        if let Some(failure) = self.find(test) {
            panic!("{failure}");
        }
    }

    /// Runs the test by each seed, until it fails by one.
    pub fn find(&self, test: impl Fn(&mut Sim)) -> Option<Failure> {
        let (seeds, tape) = match self.variable("LCMUX_SIM_SEED") {
            Some(case) => {
                let (seed, tape) = parsed(&case);
                (seed..seed.saturating_add(1), tape)
            }
            None => {
                let asked = self.variable("LCMUX_SIM_SEEDS").map(|it| number(&it));
                let count = asked.unwrap_or(self.seeds);
                (self.first..self.first.saturating_add(count), None)
            }
        };
        for (runs, seed) in (1..).zip(seeds) {
            let choices = match &tape {
                Some(tape) => Choices::of_tape(tape.clone()),
                None => Choices::of_seed(seed),
            };
            let tried = self.tried(seed, choices, &test);
            if let Some(message) = tried.failed.clone() {
                return Some(self.failure(seed, runs, message, tried, &test));
            }
        }
        None
    }

    fn variable(&self, name: &str) -> Option<String> {
        match self.ignores_environment {
            true => None,
            false => env::var(name).ok(),
        }
    }

    fn once(&self, seed: u64, choices: Choices, test: &impl Fn(&mut Sim)) -> Tried {
        let mut sim = Sim::of(seed, choices, self.faults.clone());
        let failed = caught(|| test(&mut sim)).err();
        let (report, tape) = sim.into_parts();
        Tried {
            failed,
            tape,
            report,
        }
    }

    fn tried(&self, seed: u64, choices: Choices, test: &impl Fn(&mut Sim)) -> Tried {
        let mut tried = self.once(seed, choices.clone(), test);
        if self.is_twice && tried.failed.is_none() {
            let again = self.once(seed, choices, test);
            if tried.checksums() != again.checksums() {
                tried.failed = Some("two runs of this seed differ".into());
            }
        }
        tried
    }

    fn failure(
        &self,
        seed: u64,
        runs: u64,
        message: String,
        tried: Tried,
        test: &impl Fn(&mut Sim),
    ) -> Failure {
        let long = Choices::of_tape(tried.tape.clone());
        let is_repeated = self.tried(seed, long, test).failed.is_some();
        let short = shrunk(tried.tape.clone(), TRIES, |tape| {
            let tape = Choices::of_tape(tape.to_vec());
            self.tried(seed, tape, test).failed.is_some()
        });
        let tape: Vec<_> = short.iter().map(u64::to_string).collect();
        let case = format!("{seed}:{}", tape.join(","));
        let last = self.tried(seed, Choices::of_tape(short), test);
        let mut failure = Failure {
            seed,
            message,
            case,
            shrunk: last.failed.clone().unwrap_or_default(),
            runs,
            said: String::new(),
        };
        failure.said = match is_repeated && last.failed.is_some() {
            true => self.said(&failure, &tried.report, &last.report),
            false => unrepeated(&failure),
        };
        failure
    }

    fn said(&self, failure: &Failure, long: &Report, short: &Report) -> String {
        let Failure {
            seed,
            message,
            case,
            shrunk,
            ..
        } = failure;
        let name = thread::current().name().unwrap_or_default().to_string();
        let mut lines = vec![format!("LCMUX_SIM_SEED={seed}: {message}")];
        lines.extend(long.lines.iter().map(|line| format!("    {line}")));
        lines.push(format!("shrunk to: {shrunk}"));
        lines.extend(short.lines.iter().map(|line| format!("    {line}")));
        lines.push("to run it again:".into());
        lines.push(format!("    LCMUX_SIM_SEED={seed} cargo test {name}"));
        lines.push(format!("    LCMUX_SIM_SEED={case} cargo test {name}"));
        if let Some(folder) = self.variable("LCMUX_SIM_OUT") {
            lines.push(written(short, folder.into()));
        }
        if let Some(trace) = short.traces.last() {
            lines.push("the shrunk run, or its last one:".into());
            lines.extend(shown(trace));
        }
        lines.join("\n")
    }
}

// The events of a run, without those in the middle of a long one.
fn shown(trace: &Trace) -> Vec<String> {
    const FIRST: usize = 40;
    const LAST: usize = 10;
    let entries = trace.entries().iter();
    let mut lines: Vec<_> = entries.map(|entry| format!("    {entry}")).collect();
    if let Some(more) = lines.len().checked_sub(FIRST + LAST + 1) {
        let left_out = format!("    .. {} events ..", more + 1);
        lines.splice(FIRST..FIRST + more + 1, [left_out]);
    }
    lines
}

fn unrepeated(failure: &Failure) -> String {
    let Failure { seed, message, .. } = failure;
    format!(
        "LCMUX_SIM_SEED={seed}: {message}\nand not when it was run again: something else than the seed decides what \
         happens, such as a `select!` without `biased`, the order of a `HashMap`, a thread, or the system's clock"
    )
}

fn written(report: &Report, folder: PathBuf) -> String {
    let mut lines = Vec::new();
    for (number, trace) in report.traces.iter().enumerate() {
        let folder = folder.join(format!("run-{number}"));
        lines.push(match trace.write_to(&folder) {
            Ok(()) => format!("its bytes and events are in {}", folder.display()),
            Err(error) => format!("{}: {error}", folder.display()),
        });
    }
    lines.join("\n")
}

fn number(text: &str) -> u64 {
    text.trim()
        .parse()
        .unwrap_or_else(|_| panic!("a variable of lcmux-sim has no number: {text}"))
}

// A seed, or a seed and the choices of a shrunk run.
fn parsed(case: &str) -> (u64, Option<Vec<u64>>) {
    match case.split_once(':') {
        None => (number(case), None),
        Some((seed, tape)) => {
            let tape = tape.split(',').filter(|it| !it.is_empty()).map(number);
            (number(seed), Some(tape.collect()))
        }
    }
}
