//! Copies with progress, over devices that read and write a few bytes at a time.
use std::collections::VecDeque;
use std::io::{self, ErrorKind, Read, Write};

/// A reader of these answers, and then of its end.
struct Source(VecDeque<Result<&'static [u8], ErrorKind>>);

fn source<const N: usize>(answers: [Result<&'static [u8], ErrorKind>; N]) -> Source {
    Source(answers.into())
}

impl Read for Source {
    fn read(&mut self, buffer: &mut [u8]) -> io::Result<usize> {
        let bytes = self.0.pop_front().unwrap_or(Ok(b""))?;
        buffer[..bytes.len()].copy_from_slice(bytes);
        Ok(bytes.len())
    }
}

/// A writer whose calls accept this many bytes, or fail. It has no further call.
#[derive(Default)]
struct Target {
    written: Vec<u8>,
    counts: VecDeque<Result<usize, ErrorKind>>,
}

fn target<const N: usize>(counts: [Result<usize, ErrorKind>; N]) -> Target {
    Target {
        counts: counts.into(),
        ..Target::default()
    }
}

impl Write for Target {
    fn write(&mut self, bytes: &[u8]) -> io::Result<usize> {
        let most = self.counts.pop_front().expect("one more write")?;
        let count = most.min(bytes.len());
        self.written.extend(&bytes[..count]);
        Ok(count)
    }

    fn flush(&mut self) -> io::Result<()> {
        panic!("a copy flushes nothing, as that of the standard library")
    }
}

fn copied(mut source: Source, target: &mut Target) -> (Result<u64, ErrorKind>, Vec<u64>) {
    let mut totals = Vec::new();
    let result = lcmux::copy(&mut source, target, |total| totals.push(total));
    (result.map_err(|error| error.kind()), totals)
}

#[test]
fn each_write_adds_to_the_total() {
    let mut target = target([Ok(3), Ok(3), Ok(4), Ok(4)]);
    let (result, totals) = copied(source([Ok(b"abcde"), Ok(b"fghij")]), &mut target);
    assert_eq!((result, totals), (Ok(10), vec![3, 5, 9, 10]));
    assert_eq!(target.written, b"abcdefghij");
}

#[test]
fn without_a_byte_there_is_no_progress() {
    let answer = copied(source([]), &mut target([]));
    assert_eq!(answer, (Ok(0), vec![]));
}

#[test]
fn a_signal_interrupts_no_copy() {
    let signal = || ErrorKind::Interrupted;
    let mut target = target([Ok(3), Err(signal()), Ok(9)]);
    let steps = [Err(signal()), Ok(&b"abcde"[..]), Err(signal())];
    assert_eq!(copied(source(steps), &mut target), (Ok(5), vec![3, 5]));
    assert_eq!(target.written, b"abcde");
}

#[test]
fn an_error_of_the_reader_ends_a_copy() {
    let error = ErrorKind::TimedOut;
    let mut target = target([Ok(3), Ok(3)]);
    let answer = copied(source([Ok(b"abcde"), Err(error), Ok(b"f")]), &mut target);
    assert_eq!(answer, (Err(error), vec![3, 5]));
}

#[test]
fn an_error_of_the_writer_ends_a_copy() {
    for (last, kind) in [
        (Err(ErrorKind::BrokenPipe), ErrorKind::BrokenPipe),
        (Ok(0), ErrorKind::WriteZero),
    ] {
        let mut target = target([Ok(3), Ok(1), last]);
        let answer = copied(source([Ok(b"abcde")]), &mut target);
        assert_eq!(answer, (Err(kind), vec![3, 4]));
        assert_eq!(target.written, b"abcd");
    }
}
