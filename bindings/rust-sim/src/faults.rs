//! What may happen in a run, and what does happen in one.
use crate::choices::Choices;
use std::fmt::{self, Display, Formatter};
use std::time::Duration;

/// One of the two sides of a run.
#[derive(Clone, Copy, Debug, PartialEq, Eq, Hash)]
pub enum Side {
    /// The side of the first future of [`Sim::run`](crate::Sim::run).
    A,
    /// The side of the second one.
    B,
}

impl Side {
    /// Both sides.
    pub const ALL: [Side; 2] = [Side::A, Side::B];

    /// Returns the other side.
    pub fn other(self) -> Side {
        match self {
            Side::A => Side::B,
            Side::B => Side::A,
        }
    }

    pub(crate) fn at(self) -> usize {
        self as usize
    }
}

impl Display for Side {
    fn fmt(&self, f: &mut Formatter<'_>) -> fmt::Result {
        f.write_str(match self {
            Side::A => "A",
            Side::B => "B",
        })
    }
}

/// A kind of fault.
#[derive(Clone, Copy, Debug, PartialEq, Eq, Hash)]
#[non_exhaustive]
pub enum Kind {
    /// The connection ends in both directions: each side reads the bytes in flight and then the end of the stream, and
    /// writes nothing more. So does a proxy that is stopped.
    Cut,
    /// The direction in which the side writes ends, and the other one goes on.
    HalfClose,
    /// The connection is reset: the bytes in flight are lost, and each side's reads and writes fail.
    Reset,
    /// Nothing that is written from now on arrives, and neither side is notified, as when a cable is unplugged. An
    /// engine without timeouts waits for good.
    Silence,
    /// The side crashes: its future is dropped, and the other side reads what is in flight, or a reset.
    Crash,
    /// The side reads nothing for some time, and the other side's writes are held up.
    SlowReader,
    /// Some allocations in a row of the library below the sessions are refused.
    Memory,
    /// Some calls in a row of [`fs`](crate::fs) fail, as those of a full disk do.
    Disk,
}

impl Kind {
    /// All kinds.
    pub const ALL: [Kind; 8] = [
        Kind::Cut,
        Kind::HalfClose,
        Kind::Reset,
        Kind::Silence,
        Kind::Crash,
        Kind::SlowReader,
        Kind::Memory,
        Kind::Disk,
    ];

    fn bit(self) -> u8 {
        1 << self as u8
    }

    /// Whether it strikes at a byte that its side writes.
    pub(crate) fn is_of_writer(self) -> bool {
        !matches!(self, Kind::SlowReader | Kind::Memory | Kind::Disk)
    }
}

/// A fault of a run.
#[derive(Clone, Copy, Debug, PartialEq, Eq)]
#[non_exhaustive]
pub struct Fault {
    /// What happens.
    pub kind: Kind,
    /// To which side. Of [`Kind::Memory`] and [`Kind::Disk`] it has no meaning: they are counted for both sides at once.
    pub side: Side,
    /// After how many bytes that the side wrote: it strikes at any byte, also within a frame. Of [`Kind::SlowReader`] after
    /// how many that it read, and of [`Kind::Memory`] and [`Kind::Disk`] after how many calls.
    pub at: u64,
    /// For how many milliseconds the reader is slow, or how many calls are refused.
    pub extent: u64,
}

impl Display for Fault {
    fn fmt(&self, f: &mut Formatter<'_>) -> fmt::Result {
        let Fault {
            kind,
            side,
            at,
            extent,
        } = self;
        match kind {
            Kind::Cut => write!(f, "a cut after byte {at} of {side}"),
            Kind::HalfClose => write!(f, "{side}'s direction ends after its byte {at}"),
            Kind::Reset => write!(f, "a reset after byte {at} of {side}"),
            Kind::Silence => write!(f, "silence after byte {at} of {side}"),
            Kind::Crash => write!(f, "{side} crashes after its byte {at}"),
            Kind::SlowReader => write!(f, "{side} reads nothing for {extent} ms after {at} bytes"),
            Kind::Memory if *extent == 1 => write!(f, "allocation {} is refused", at + 1),
            Kind::Memory => write!(f, "allocations {} to {} are refused", at + 1, at + extent),
            Kind::Disk if *extent == 1 => write!(f, "file operation {} fails", at + 1),
            Kind::Disk => write!(f, "file operations {} to {} fail", at + 1, at + extent),
        }
    }
}

/// What may happen in the runs of a test: the bounds from which each seed draws.
///
/// ```
/// use lcmux_sim::{Faults, Kind};
/// use std::time::Duration;
///
/// // Timing of all kinds, and connections that break within the first kilobyte.
/// let faults = Faults::timing()
///     .latency(Duration::from_millis(200))
///     .with(&[Kind::Cut, Kind::Reset])
///     .within(1_000);
/// # let _ = faults;
/// ```
#[derive(Clone, Debug)]
pub struct Faults {
    latency: u64,
    is_timed: bool,
    kinds: u8,
    within: u64,
    pause: u64,
}

impl Faults {
    /// A perfect link: each byte arrives at once, in one piece, and each call proceeds at once.
    pub fn none() -> Faults {
        Faults {
            latency: 0,
            is_timed: false,
            kinds: 0,
            within: 65_536,
            pause: 2_000,
        }
    }

    /// Nothing is lost, and everything takes time: latencies of up to 50 ms, jitter, bandwidth, small buffers, partial
    /// reads and writes, and calls that yield although they could proceed.
    pub fn timing() -> Faults {
        Faults {
            latency: 50,
            is_timed: true,
            ..Faults::none()
        }
    }

    /// [`Faults::timing`] and the faults of all kinds.
    pub fn all() -> Faults {
        Faults::timing().with(&Kind::ALL)
    }

    /// Adds kinds of faults.
    pub fn with(mut self, kinds: &[Kind]) -> Faults {
        kinds.iter().for_each(|kind| self.kinds |= kind.bit());
        self
    }

    /// Removes kinds of faults.
    pub fn without(mut self, kinds: &[Kind]) -> Faults {
        kinds.iter().for_each(|kind| self.kinds &= !kind.bit());
        self
    }

    /// Sets the longest latency of a direction, in whole milliseconds.
    pub fn latency(mut self, most: Duration) -> Faults {
        self.latency = most.as_millis() as u64;
        self
    }

    /// Sets the longest time for which a reader is slow, in whole milliseconds.
    pub fn pause(mut self, most: Duration) -> Faults {
        self.pause = (most.as_millis() as u64).max(1);
        self
    }

    /// Sets the bytes within which faults strike, 65,536 without a call: to about what a side writes in a run. Most are
    /// drawn uniformly, and every fourth by its magnitude, so that the first bytes are likely, too. Of calls, those of
    /// [`Kind::Memory`] and [`Kind::Disk`], it is at most 256.
    pub fn within(mut self, bytes: u64) -> Faults {
        self.within = bytes.clamp(1, 1 << 40);
        self
    }
}

/// A direction of the link.
#[derive(Clone, Copy, Debug, Default, PartialEq, Eq)]
pub(crate) struct Shape {
    /// Milliseconds, of which `jitter` is added at random.
    pub latency: u64,
    pub jitter: u64,
    /// Bytes in a millisecond; 0 without a bound.
    pub rate: u64,
    /// The bytes that are written and not read; 0 without a bound.
    pub buffer: u64,
    /// Whether reads and writes move a part of what they could.
    pub is_short: bool,
}

/// A run as it was drawn.
#[derive(Clone, Debug, Default, PartialEq, Eq)]
pub(crate) struct Plan {
    pub shapes: [Shape; 2],
    /// One call in so many yields, although it could proceed; 0 for none.
    pub yields: u64,
    /// Whether several slices are written at once.
    pub is_vectored: bool,
    pub faults: Vec<Fault>,
}

impl Shape {
    fn draw(choices: &mut Choices, faults: &Faults) -> Shape {
        let latency = choices.sometimes(faults.latency);
        Shape {
            latency,
            jitter: choices.sometimes(faults.latency),
            rate: match choices.sometimes(10) {
                0 => 0,
                bits => 1 << bits,
            },
            buffer: match choices.sometimes(12) {
                0 => 0,
                bits => 8 << bits,
            },
            is_short: choices.below(2) == 1,
        }
    }
}

impl Plan {
    pub fn draw(choices: &mut Choices, faults: &Faults) -> Plan {
        let mut plan = Plan::default();
        let kinds = Kind::ALL.map(|kind| (kind, faults.kinds & kind.bit() != 0));
        let kinds: Vec<_> = kinds.iter().filter(|it| it.1).map(|it| it.0).collect();
        if !kinds.is_empty() {
            // Every third run has no fault, and one in six has two.
            let count = [0, 1, 1, 1, 2, 0][choices.below(6) as usize];
            plan.faults = (0..count)
                .map(|_| drawn_fault(choices, faults, &kinds))
                .collect();
        }
        if faults.is_timed {
            plan.shapes = [(); 2].map(|()| Shape::draw(choices, faults));
            plan.yields = [0, 64, 16, 4][choices.below(4) as usize];
            plan.is_vectored = choices.below(2) == 1;
        }
        plan
    }
}

fn drawn_fault(choices: &mut Choices, faults: &Faults, kinds: &[Kind]) -> Fault {
    let kind = kinds[choices.below(kinds.len() as u64) as usize];
    let most = match kind {
        Kind::SlowReader => faults.pause,
        _ => 4,
    };
    let within = match kind {
        Kind::Memory | Kind::Disk => faults.within.min(256),
        _ => faults.within,
    };
    Fault {
        kind,
        side: Side::ALL[choices.below(2) as usize],
        at: choices.early(within),
        extent: 1 + choices.below(most),
    }
}

impl Display for Plan {
    fn fmt(&self, f: &mut Formatter<'_>) -> fmt::Result {
        let mut parts: Vec<_> = self.faults.iter().map(Fault::to_string).collect();
        for (side, shape) in Side::ALL.iter().zip(&self.shapes) {
            let said = shape.said();
            if !said.is_empty() {
                parts.push(format!("{side} to {}: {}", side.other(), said.join(", ")));
            }
        }
        if self.yields > 0 {
            parts.push(format!("one call in {} yields", self.yields));
        }
        if parts.is_empty() {
            parts.push("a perfect link".into());
        }
        f.write_str(&parts.join("; "))
    }
}

impl Shape {
    fn said(&self) -> Vec<String> {
        let mut parts = Vec::new();
        let mut say = |is_so: bool, what: String| parts.extend(is_so.then_some(what));
        say(self.latency > 0, format!("latency {} ms", self.latency));
        say(self.jitter > 0, format!("jitter {} ms", self.jitter));
        say(self.rate > 0, format!("{} bytes/ms", self.rate));
        say(self.buffer > 0, format!("buffer {} bytes", self.buffer));
        say(self.is_short, "partial reads and writes".into());
        parts
    }
}
