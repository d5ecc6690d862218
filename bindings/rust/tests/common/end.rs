//! How the stream of a peer ends.
use lcmux::{Closed, Fault, Stop, Violation};
use std::io::ErrorKind;

/// The last operation of the peer.
#[derive(Clone, Copy, Debug, PartialEq)]
pub enum End {
    InOrder,
    BetweenFrames,
    InAFrame,
    Reset,
    AgainstTheRules,
}

impl End {
    pub const ALL: [End; 5] = [
        End::InOrder,
        End::BetweenFrames,
        End::InAFrame,
        End::Reset,
        End::AgainstTheRules,
    ];

    /// The last bytes of version Two.
    pub fn last_bytes(self) -> &'static [u8] {
        match self {
            End::InOrder => b"\x70\x71\x72\x73\x74\x75\x76",
            End::InAFrame => b"\x11\0",
            End::AgainstTheRules => b"\x30\0\0\0\xff",
            End::BetweenFrames | End::Reset => b"",
        }
    }

    /// Whether the session ends by this reason. An end in order is none.
    pub fn is_reason(self, closed: &Closed) -> bool {
        match self {
            End::InOrder => false,
            End::BetweenFrames => *closed == Closed::Cut,
            End::InAFrame => closed.stop() == Some(Stop::Fault(Fault::Truncated)),
            End::Reset => {
                matches!(closed, Closed::Transport(error) if error.kind() == ErrorKind::ConnectionReset)
            }
            End::AgainstTheRules => {
                closed.stop() == Some(Stop::Violated(Violation::AbsolvedTooMuch))
            }
        }
    }
}
