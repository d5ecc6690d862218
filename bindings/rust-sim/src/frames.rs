//! The frames of a recorded stream, and a run as a script for `lcmux_chart`.
use crate::faults::Side;
use crate::trace::{Event, Trace};
use std::collections::VecDeque;
use std::fmt::{self, Display, Formatter, Write};

const CHANNELS: usize = 7;

/// The preface of version Two.
const PREFACE: &[u8] = b"LCM\x02";

/// The names of the kinds of frames, from kind 1.
const KINDS: [&str; 7] = [
    "send",
    "issue",
    "absolve",
    "plead",
    "limit-sending",
    "limit-receiving",
    "finish",
];

const SEND: u8 = 1;
const ISSUE: u8 = 2;
const ABSOLVE: u8 = 3;
const PLEAD: u8 = 4;
const LIMIT_RECEIVING: u8 = 6;
const FINISH: u8 = 7;

/// A whole frame of a stream.
#[derive(Clone, Debug, PartialEq, Eq)]
pub(crate) struct Frame {
    kind: u8,
    channel: usize,
    number: u64,
    body: Vec<u8>,
    /// The offset behind its last byte.
    end: usize,
}

impl Display for Frame {
    fn fmt(&self, f: &mut Formatter<'_>) -> fmt::Result {
        let name = KINDS[usize::from(self.kind - 1)];
        write!(f, "{name} {}", self.channel)?;
        match self.kind {
            SEND => {
                f.write_char(' ')?;
                self.body
                    .iter()
                    .try_for_each(|byte| write!(f, "{byte:02x}"))
            }
            FINISH => Ok(()),
            _ => write!(f, " {}", self.number),
        }
    }
}

fn is_of_version_two(stream: &[u8]) -> bool {
    stream.starts_with(PREFACE)
}

/// The whole frames of a stream, up to its first fault.
pub(crate) fn of_stream(stream: &[u8]) -> Vec<Frame> {
    let is_two = is_of_version_two(stream);
    let mut at = if is_two { PREFACE.len() } else { 0 };
    let mut frames = Vec::new();
    while let Some(frame) = frame_at(stream, at, is_two) {
        at = frame.end;
        frames.push(frame);
    }
    frames
}

fn frame_at(stream: &[u8], at: usize, is_two: bool) -> Option<Frame> {
    let tag = *stream.get(at)?;
    let (kind, channel) = (tag >> 4, usize::from(tag & 15));
    let width = match kind {
        SEND if !is_two => 2,
        1..=4 => 4,
        5 | 6 => 8,
        FINISH if is_two => 0,
        _ => return None,
    };
    if channel >= CHANNELS {
        return None;
    }
    let body = at + 1 + width;
    let number = stream.get(at + 1..body)?;
    let number = number
        .iter()
        .fold(0, |sum, byte| sum << 8 | u64::from(*byte));
    let end = match kind {
        SEND => body + number as usize,
        _ => body,
    };
    Some(Frame {
        kind,
        channel,
        number,
        body: stream.get(body..end)?.to_vec(),
        end,
    })
}

/// One channel at its receiver.
#[derive(Default)]
struct Ring {
    outstanding: u64,
    buffered: VecDeque<u64>,
}

/// What a frame that was written or that arrived changes at the receiver of its channel.
struct Rings([[Ring; CHANNELS]; 2]);

impl Rings {
    fn new() -> Rings {
        Rings([(); 2].map(|()| [(); CHANNELS].map(|()| Ring::default())))
    }

    /// The side wrote a frame. Returns how many messages it has to take before it, with rings of this capacity.
    fn wrote(&mut self, side: Side, frame: &Frame, capacity: u64) -> usize {
        let ring = &mut self.0[side.at()][frame.channel];
        let mut taken = 0;
        if frame.kind == ISSUE {
            let mut used = ring.outstanding + ring.buffered.iter().sum::<u64>();
            while used + frame.number > capacity && !ring.buffered.is_empty() {
                used -= ring.buffered.pop_front().unwrap_or(0);
                taken += 1;
            }
            ring.outstanding += frame.number;
        }
        taken
    }

    /// A frame arrived at the side.
    fn arrived(&mut self, side: Side, frame: &Frame) {
        let ring = &mut self.0[side.at()][frame.channel];
        match frame.kind {
            SEND => ring.buffered.push_back(frame.number),
            FINISH => ring.outstanding = 0,
            ABSOLVE => {}
            _ => return,
        }
        ring.outstanding = ring.outstanding.saturating_sub(frame.number);
    }

    fn most(&self) -> u64 {
        let rings = self.0.iter().flatten();
        rings.map(|ring| ring.outstanding).max().unwrap_or(0)
    }
}

/// A frame that a side wrote, or one that arrived there.
enum Step<'a> {
    Wrote(Side, &'a Frame),
    Arrived(Side, &'a Frame),
}

/// The frames of both sides that were written and that arrived, in the order of a trace.
struct Steps<'a> {
    frames: &'a [Vec<Frame>; 2],
    /// How many bytes and frames each side wrote, and how many of these arrived.
    written: [(usize, usize); 2],
    arrived: [(usize, usize); 2],
    steps: Vec<Step<'a>>,
}

impl<'a> Steps<'a> {
    fn of(trace: &Trace, frames: &'a [Vec<Frame>; 2]) -> Vec<Step<'a>> {
        let mut steps = Steps {
            frames,
            written: [(0, 0); 2],
            arrived: [(0, 0); 2],
            steps: Vec::new(),
        };
        for entry in trace.entries() {
            match (entry.side, &entry.event) {
                (Some(side), Event::Wrote(count)) => steps.wrote(side, *count),
                (Some(side), Event::Read(count)) => steps.read(side, *count),
                _ => {}
            }
        }
        steps.steps
    }

    fn wrote(&mut self, side: Side, count: usize) {
        let (bytes, frames) = &mut self.written[side.at()];
        *bytes += count;
        let rest = self.frames[side.at()][*frames..].iter();
        let whole = rest.take_while(|it| it.end <= *bytes).count();
        let end = *frames + whole;
        self.write(side, end);
    }

    // The side writes its frames up to this one.
    fn write(&mut self, side: Side, end: usize) {
        let frames = &mut self.written[side.at()].1;
        let new = self.frames[side.at()][..end].iter().skip(*frames);
        self.steps.extend(new.map(|frame| Step::Wrote(side, frame)));
        *frames = end.max(*frames);
    }

    fn read(&mut self, side: Side, count: usize) {
        let by = side.other().at();
        self.arrived[by].0 += count;
        while let Some(frame) = self.frames[by].get(self.arrived[by].1) {
            if frame.end > self.arrived[by].0 {
                return;
            }
            if frame.kind == FINISH {
                self.write_before_finish(side, frame.channel);
            }
            self.steps.push(Step::Arrived(side, frame));
            self.arrived[by].1 += 1;
        }
    }

    // What a receiver said of a channel was enqueued before the channel's end arrived, also if it is written later.
    fn write_before_finish(&mut self, side: Side, channel: usize) {
        let is_of_receiver = |it: &Frame| matches!(it.kind, ISSUE | PLEAD | LIMIT_RECEIVING);
        let frames = &self.frames[side.at()];
        let last = frames
            .iter()
            .rposition(|it| it.channel == channel && is_of_receiver(it));
        self.write(side, last.map_or(0, |last| last + 1));
    }
}

/// A run as a script of events.
pub(crate) fn script(trace: &Trace) -> String {
    let frames = Side::ALL.map(|side| of_stream(trace.written(side)));
    let steps = Steps::of(trace, &frames);
    let mut rings = Rings::new();
    let mut capacity = 1;
    for step in &steps {
        match step {
            Step::Wrote(side, frame) => drop(rings.wrote(*side, frame, u64::MAX)),
            Step::Arrived(side, frame) => rings.arrived(*side, frame),
        }
        capacity = capacity.max(rings.most());
    }
    let version = match Side::ALL
        .iter()
        .any(|it| is_of_version_two(trace.written(*it)))
    {
        true => " 2",
        false => "",
    };
    let mut script = format!("# lcmux_chart {capacity}{version} < run.script > run.svg\n");
    write_steps(&mut script, &steps, capacity);
    script
}

fn write_steps(script: &mut String, steps: &[Step<'_>], capacity: u64) {
    let mut rings = Rings::new();
    for step in steps {
        let line = match step {
            Step::Wrote(side, frame) => {
                for _ in 0..rings.wrote(*side, frame, capacity) {
                    script.push_str(&format!("{side} take {}\n", frame.channel));
                }
                format!("{side} {frame}\n")
            }
            Step::Arrived(side, frame) => {
                rings.arrived(*side, frame);
                format!("{side} arrive\n")
            }
        };
        script.push_str(&line);
    }
}

#[cfg(test)]
mod tests {
    use super::*;

    fn lines(stream: &[u8]) -> Vec<String> {
        of_stream(stream).iter().map(Frame::to_string).collect()
    }

    #[test]
    fn each_kind_of_frame_is_recognized() {
        let stream = b"\x21\0\0\0\x05\x11\0\x02hi\x31\0\0\0\x03\x41\0\0\0\0\x51\0\0\0\0\0\0\0\x07\x60\0\0\0\0\0\0\0\x0a";
        let wanted = [
            "issue 1 5",
            "send 1 6869",
            "absolve 1 3",
            "plead 1 0",
            "limit-sending 1 7",
            "limit-receiving 0 10",
        ];
        assert_eq!(lines(stream), wanted);
        assert_eq!(
            lines(b"LCM\x02\x11\0\0\0\x02hi\x71"),
            ["send 1 6869", "finish 1"]
        );
    }

    #[test]
    fn a_partial_frame_and_all_behind_a_fault_are_left_out() {
        assert_eq!(lines(b"\x21\0\0\0\x05\x11\0\x03hi"), ["issue 1 5"]);
        assert_eq!(lines(b"\x21\0\0\0\x05\x71\x21\0\0\0\x05"), ["issue 1 5"]);
        assert_eq!(lines(b"\x27\0\0\0\x05"), [""; 0]);
        assert_eq!(lines(b"LCM"), [""; 0]);
    }
}
