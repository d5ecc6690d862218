//! Checks the name, the number and the whole sentence of each code.
use super::*;
use std::fs;
use std::path::Path;

// Each row: a code, the value that it becomes with the number 6, and its text.
// codes: begin refusals
const REFUSALS: &str = "\
1 | EmptyBody | the message is empty
2 | BodyTooLong | the message is too long
3 | PastSendLimit { left: 6 } | the message is longer than the limit on sending leaves (left 6)
4 | NoGuarantee { held: 6 } | the message is longer than the guarantees that are held (held 6)
5 | ZeroAmount | the amount is zero
6 | NotHeld { held: 6 } | more would be absolved than is held (held 6)
7 | BoundTooLarge | the bound is above 2^62
8 | LimitRaised { left: 6 } | the bound is above what an earlier limit leaves (left 6)
9 | PastReceiveLimit { left: 6 } | more would be issued than the limit on receiving leaves (left 6)
10 | NoRoom { room: 6 } | more would be issued than the receiving ring has room for (room 6)
11 | NothingToAsk { outstanding: 6 } | the target is not below the guarantees outstanding (outstanding 6)
12 | TotalReached | the guarantees of one channel would pass 2^62
13 | QueueFull | the outgoing queue is full
14 | OutOfMemory | out of memory
15 | ChannelFinished | the channel is finished
16 | BufferTooSmall { need: 6 } | the buffer is too small (need 6)
17 | WrongVersion | version 1 of the format cannot finish a channel";
// codes: end

// codes: begin violations
const VIOLATIONS: &str = "\
101 | NotGuaranteed | a message longer than the guarantees outstanding
102 | SentPastLimit | a message beyond the limit on sending
103 | AbsolvedTooMuch | more guarantees absolved than are outstanding
104 | SendLimitRaised | a limit on sending that raises an earlier one
105 | IssuedPastLimit | guarantees beyond the limit on receiving
106 | TooManyGuarantees | more than 2^24 guarantees held
107 | ReceiveLimitRaised | a limit on receiving that raises an earlier one
108 | TotalPassed | more than 2^62 guarantees on one channel
109 | AfterFinish | a frame of the client behind its Finish";
// codes: end

// codes: begin faults
const FAULTS: &str = "\
201 | BadTag | a byte names no kind or channel, or is not the greeting's
202 | ZeroLength | a message has length 0
203 | BadNumber | a number in a frame is out of its range
204 | Truncated | the stream ends within a frame or a greeting";
// codes: end

const PEER_FAULTS: &str = "\
14 | OutOfMemory | out of memory
36 | BadCapacity { channel: StaticToken, capacity: 0 } | the capacity of StaticToken must be in 1..=16777216, got 0
37 | BadSlots { slots: 65537 } | slots must be in 1..=65536, got 65537";

fn rows(table: &str) -> impl Iterator<Item = (u32, String)> + '_ {
    table.lines().map(|row| {
        let (code, shown) = row.split_once(" | ").unwrap();
        (code.parse().unwrap(), shown.into())
    })
}

fn shown(error: impl Error) -> String {
    format!("{error:?} | {error}")
}

#[test]
fn each_refusal() {
    for (code, row) in rows(REFUSALS) {
        let refusal = Refusal::of(code, 6);
        assert_eq!(shown(refusal), row);
        assert_eq!(u32::from(refusal.number()), code);
        let most = Refusal::of(code, 1 << 62).detail();
        assert_eq!(most, refusal.detail().map(|(name, _)| (name, 1 << 62)));
    }
}

#[test]
fn each_violation() {
    assert_eq!(rows(VIOLATIONS).count(), Violation::ALL.len());
    for (violation, (code, row)) in Violation::ALL.into_iter().zip(rows(VIOLATIONS)) {
        assert_eq!(shown(violation), row);
        assert_eq!(u32::from(violation.number()), code - 100);
        let stop = Stop::Violated(violation);
        assert_eq!(Stop::of(code), Some(stop));
        assert_eq!(stop.to_string(), violation.to_string());
    }
}

#[test]
fn each_fault() {
    assert_eq!(rows(FAULTS).count(), Fault::ALL.len());
    for (fault, (code, row)) in Fault::ALL.into_iter().zip(rows(FAULTS)) {
        assert_eq!(shown(fault), row);
        assert_eq!(u32::from(fault.number()), code - 200);
        let stop = Stop::Fault(fault);
        assert_eq!(Stop::of(code), Some(stop));
        assert_eq!(stop.to_string(), fault.to_string());
    }
    assert_eq!(Stop::of(0), None);
}

#[test]
fn each_fault_of_a_configuration() {
    let config = Config::new([8, 8, 8, 8, 8, 8, 0], 65_537);
    for (code, row) in rows(PEER_FAULTS) {
        assert_eq!(shown(PeerFault::of(code, 6, &config)), row);
    }
}

#[test]
fn a_library_of_another_version_says_both() {
    let said = "WrongLibrary { found: 65794 } | the linked library must have version ";
    let fault = PeerFault::WrongLibrary { found: 0x010102 };
    assert_eq!(
        shown(fault),
        [said, env!("CARGO_PKG_VERSION"), ", got 1.1.2"].concat()
    );
}

#[test]
fn an_overrun_says_both_counts_and_is_invalid_data() {
    let overrun = Overrun {
        claimed: 6,
        offered: 5,
    };
    let error = io::Error::from(overrun);
    assert_eq!(error.kind(), ErrorKind::InvalidData);
    let said = "6 bytes claimed, but only 5 offered";
    assert_eq!(
        (overrun.to_string(), error.to_string()),
        (said.into(), said.into())
    );
    let inner = error.get_ref().and_then(|inner| inner.downcast_ref());
    assert_eq!(inner, Some(&overrun));
}

// Each protocol error as an I/O error.
const DEVICE_ERRORS: [(Stop, ErrorKind); 3] = [
    (Stop::Fault(Fault::Truncated), ErrorKind::UnexpectedEof),
    (Stop::Fault(Fault::BadTag), ErrorKind::InvalidData),
    (
        Stop::Violated(Violation::AfterFinish),
        ErrorKind::InvalidData,
    ),
];

fn at_byte_7(stop: Stop) -> ProtocolError {
    ProtocolError {
        stop,
        offset: 7,
        frame: None,
        allowed: None,
        byte: None,
    }
}

// The texts of an Issue that violates, by the violation: what no test on a stream reaches is among them.
const ISSUES: [(Violation, &str); 3] = [
    (
        Violation::IssuedPastLimit,
        "where the receiver's limit leaves 5",
    ),
    (
        Violation::TooManyGuarantees,
        "where the sender may hold 5 more",
    ),
    (
        Violation::TotalPassed,
        "where the sender may receive 5 more",
    ),
];

#[test]
fn a_protocol_error_says_what_was_allowed() {
    for (violation, allowed) in ISSUES {
        let error = ProtocolError {
            frame: Some(FrameHead {
                kind: FrameKind::Issue,
                channel: Channel::Overlap,
                number: Some(9),
            }),
            allowed: Some(5),
            ..at_byte_7(Stop::Violated(violation))
        };
        let number = violation.number();
        let said = format!("V{number} at byte 7: an Issue of 9 on Overlap, {allowed}");
        assert_eq!(error.to_string(), said);
    }
}

#[test]
fn a_read_error_becomes_an_error_of_a_device() {
    for (stop, kind) in DEVICE_ERRORS {
        let error = at_byte_7(stop);
        let stopped = ReadError::Stopped { error, frames: 3 };
        assert_eq!((stopped.frames(), stopped.stop()), (3, Some(stop)));
        let said = error.to_string();
        let error = io::Error::from(stopped);
        assert_eq!((error.kind(), error.to_string()), (kind, said));
        let inner = error.get_ref().and_then(|inner| inner.downcast_ref());
        assert_eq!(inner.map(ReadError::frames), Some(3));
    }
    let failed = ReadError::from(io::Error::new(ErrorKind::BrokenPipe, Fault::BadTag));
    assert_eq!((failed.frames(), failed.stop()), (0, None));
    let error = io::Error::from(failed);
    assert_eq!(error.kind(), ErrorKind::BrokenPipe);
    assert!(error.get_ref().is_some_and(|inner| inner.is::<Fault>()));
}

#[derive(Debug)]
struct Cut(Fault);

impl Display for Cut {
    fn fmt(&self, f: &mut Formatter<'_>) -> fmt::Result {
        f.write_str("the cable is cut")
    }
}

impl Error for Cut {
    fn source(&self) -> Option<&(dyn Error + 'static)> {
        Some(&self.0)
    }
}

#[test]
fn a_read_error_has_the_source_of_what_failed() {
    let failed = ReadError::from(io::Error::other(Cut(Fault::BadTag)));
    assert_eq!(failed.to_string(), "the cable is cut");
    let source = failed.source().map(ToString::to_string);
    assert_eq!(source, Some(Fault::BadTag.to_string()));
    let stop = Stop::Fault(Fault::BadTag);
    let error = at_byte_7(stop);
    assert!(ReadError::Stopped { error, frames: 0 }.source().is_none());
}

// `LCMUX_NO_ROOM = 10, ..` of the C header as `10 NoRoom`, `LCMUX_V1_NOT_GUARANTEED` as `NotGuaranteed`.
fn named(line: &str) -> Option<String> {
    let (name, rest) = line.trim().strip_prefix("LCMUX_")?.split_once(" = ")?;
    let code = rest.split(|c: char| !c.is_ascii_digit()).next()?;
    let words = name
        .split('_')
        .filter(|word| !word.ends_with(char::is_numeric));
    let name = words.map(|word| word[..1].to_owned() + &word[1..].to_ascii_lowercase());
    Some(format!("{code} {}", name.collect::<String>()))
}

/// The header for C, which a package of this crate has among its tests.
fn header() -> String {
    let read = |path| fs::read_to_string(Path::new(env!("CARGO_MANIFEST_DIR")).join(path));
    read("tests/lcmux.h")
        .or_else(|_| read("../c/lcmux.h"))
        .expect("lcmux.h is here")
}

#[test]
fn names_and_numbers_are_those_of_the_c_header() {
    let header = header();
    let header: Vec<_> = header.lines().filter_map(named).collect();
    for table in [REFUSALS, VIOLATIONS, FAULTS, PEER_FAULTS] {
        for (code, row) in rows(table) {
            let name = row.split(' ').next().unwrap();
            assert!(header.contains(&format!("{code} {name}")), "{code} {row}");
        }
    }
}
