use std::time::Duration;

/// The timeouts of a session, in its [`Config`](crate::Config).
///
/// The drivers on threads and `lcmux_tokio` observe them. [`Driver::run`](crate::Driver::run) and
/// [`Driver::poll`](crate::Driver::poll) know no time. A timeout that expires fails the session with
/// [`Closed::Transport`](crate::Closed::Transport), of the kind [`TimedOut`](std::io::ErrorKind::TimedOut).
///
/// ```
/// use lcmux::Config;
/// use std::time::Duration;
///
/// let config = Config::default()
///     .idle(Duration::from_secs(60))
///     .keep_alive(Duration::from_secs(20));
/// assert_eq!(config.timeouts.grace, Some(Duration::from_secs(30)));
/// ```
#[derive(Clone, Copy, Debug, PartialEq, Eq)]
#[non_exhaustive]
pub struct Timeouts {
    /// The longest time without an inbound byte, and the longest time in which the transport accepts none of the
    /// pending bytes. The peer needs a [`Timeouts::keep_alive`] well below this timeout. A peer that has ended its
    /// stream is not silent. `None` by default.
    pub idle: Option<Duration>,
    /// The time without a write after which a frame is sent that changes nothing, as
    /// [`Driver::keep_alive`](crate::Driver::keep_alive) does. A time below a millisecond counts as one. `None` by
    /// default.
    pub keep_alive: Option<Duration>,
    /// The longest time that the end may take. Once the session is closed on this side, it bounds the time in which
    /// the transport accepts none of the pending bytes, and then the time until the peer ends its stream. 30 seconds
    /// by default; `None` sets no bound.
    pub grace: Option<Duration>,
}

impl Default for Timeouts {
    fn default() -> Timeouts {
        Timeouts {
            idle: None,
            keep_alive: None,
            grace: Some(Duration::from_secs(30)),
        }
    }
}

/// What sessions on other runtimes use, too: the texts of the timeout errors, and the timeouts that a session keeps.
#[doc(hidden)]
impl Timeouts {
    pub const SILENT: &'static str = "the peer sent nothing within the timeout";
    pub const STALLED: &'static str = "the transport accepted no bytes within the timeout";
    pub const UNENDED: &'static str = "the peer did not end its stream within the timeout";

    /// A keep-alive without a pause would leave no time for anything else.
    pub fn kept(self) -> Timeouts {
        let least = Duration::from_millis(1);
        Timeouts {
            keep_alive: self.keep_alive.map(|pause| pause.max(least)),
            ..self
        }
    }
}
