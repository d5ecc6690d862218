//! What happened in a run.
use crate::faults::{Fault, Side};
use crate::frames::{self, Frame};
use std::fmt::{self, Display, Formatter};
use std::fs;
use std::io::{self, ErrorKind, Write};
use std::path::Path;
use std::time::Duration;

/// An event of a run.
#[derive(Clone, Debug, PartialEq, Eq)]
#[non_exhaustive]
pub enum Event {
    /// The side wrote this many bytes.
    Wrote(usize),
    /// The side read this many bytes.
    Read(usize),
    /// The side ended its direction.
    Shut,
    /// The side read the end of the stream.
    ReadEnd,
    /// A read or a write of the side failed.
    Failed(ErrorKind),
    /// A fault struck.
    Fault(Fault),
    /// The future of the side is ready: its program has ended, and its other tasks move no more bytes.
    Ended,
    /// The future of the side was dropped by a crash.
    Crashed,
    /// What an engine or a test noted by [`note`](crate::note).
    Note(String),
}

/// An event with its virtual time and its side.
#[derive(Clone, Debug, PartialEq, Eq)]
pub struct Entry {
    /// The time since the run began.
    pub at: Duration,
    /// The side; `None` for a note, and for a fault of the memory or the files, which both sides share.
    pub side: Option<Side>,
    /// The event.
    pub event: Event,
}

impl Display for Entry {
    fn fmt(&self, f: &mut Formatter<'_>) -> fmt::Result {
        let side = self.side.map_or("-".into(), |side| side.to_string());
        write!(f, "{:>8} ms  {side}  ", self.at.as_millis())?;
        match &self.event {
            Event::Wrote(count) => write!(f, "writes {count} bytes"),
            Event::Read(count) => write!(f, "reads {count} bytes"),
            Event::Shut => f.write_str("ends its direction"),
            Event::ReadEnd => f.write_str("reads the end"),
            Event::Failed(kind) => write!(f, "fails: {kind}"),
            Event::Fault(fault) => write!(f, "fault: {fault}"),
            Event::Ended => f.write_str("has ended"),
            Event::Crashed => f.write_str("has crashed"),
            Event::Note(text) => f.write_str(text),
        }
    }
}

/// The events of a run, and the bytes that each side wrote.
#[derive(Clone, Debug, Default, PartialEq, Eq)]
pub struct Trace {
    pub(crate) entries: Vec<Entry>,
    pub(crate) written: [Vec<u8>; 2],
}

impl Trace {
    /// Returns the events in their order.
    pub fn entries(&self) -> &[Entry] {
        &self.entries
    }

    /// Returns the bytes that a side wrote, of which the other one may have read fewer.
    pub fn written(&self, side: Side) -> &[u8] {
        &self.written[side.at()]
    }

    /// Returns how many bytes a side read.
    pub fn read(&self, side: Side) -> usize {
        let of_side = self.entries.iter().filter(|it| it.side == Some(side));
        of_side
            .map(|it| match it.event {
                Event::Read(count) => count,
                _ => 0,
            })
            .sum()
    }

    /// Returns the faults that struck.
    pub fn faults(&self) -> impl Iterator<Item = Fault> + '_ {
        self.entries.iter().filter_map(|it| match it.event {
            Event::Fault(fault) => Some(fault),
            _ => None,
        })
    }

    /// Returns a checksum of all events and bytes: that of two runs of a seed is the same.
    pub fn checksum(&self) -> u64 {
        let mut sum = Sum(0xcbf2_9ce4_8422_2325);
        for entry in &self.entries {
            sum.add(entry.to_string().as_bytes());
        }
        self.written.iter().for_each(|bytes| sum.add(bytes));
        sum.0
    }

    /// Returns the whole frames that a side wrote, one a line, as `lcmux frames` prints them.
    pub fn frames(&self, side: Side) -> Vec<String> {
        let frames = frames::of_stream(self.written(side));
        frames.iter().map(Frame::to_string).collect()
    }

    /// Returns the run as a script of events for `lcmux replay` and `lcmux_chart`: which frame each side wrote when, and
    /// when it arrived. The first line has the command that draws it.
    pub fn script(&self) -> String {
        frames::script(self)
    }

    /// Writes the run into files of a folder, which it creates: `run.script`, `a.bytes` and `b.bytes` for `lcmux_chart`, and
    /// `events.txt`.
    ///
    /// # Errors
    ///
    /// Those of the file system.
    pub fn write_to(&self, folder: &Path) -> io::Result<()> {
        fs::create_dir_all(folder)?;
        fs::write(folder.join("run.script"), self.script())?;
        fs::write(folder.join("a.bytes"), self.written(Side::A))?;
        fs::write(folder.join("b.bytes"), self.written(Side::B))?;
        let mut events = fs::File::create(folder.join("events.txt"))?;
        write!(events, "{self}")
    }
}

impl Display for Trace {
    fn fmt(&self, f: &mut Formatter<'_>) -> fmt::Result {
        self.entries
            .iter()
            .try_for_each(|entry| writeln!(f, "{entry}"))
    }
}

/// The checksum FNV-1a.
struct Sum(u64);

impl Sum {
    fn add(&mut self, bytes: &[u8]) {
        for byte in bytes {
            self.0 = (self.0 ^ u64::from(*byte)).wrapping_mul(0x0100_0000_01b3);
        }
    }
}
