//! The events of a session beside its frames, for tracing.
use super::stats::Stats;
use crate::{Channel, Closed};
use std::sync::Arc;
use std::time::{Duration, Instant};

/// What the first waiting call of a channel lacks.
///
/// ```
/// use lcmux::Stall;
///
/// fn cause(stall: Stall) -> &'static str {
///     match stall {
///         Stall::Guarantees => "the receiver is slow, or its ring is small",
///         Stall::Slot => "the transport is slow",
///     }
/// }
/// ```
#[derive(Clone, Copy, Debug, PartialEq, Eq, Hash)]
pub enum Stall {
    /// Guarantees: send credit.
    Guarantees,
    /// The outbound queue: a slot, its bytes, or its turn.
    Slot,
}

/// An event of a session, as [`Driver::on_event`](crate::Driver::on_event) reports it.
///
/// ```
/// use lcmux::{Config, Event, Mux};
///
/// let (mux, mut driver) = Mux::new(Config::default())?;
/// driver.on_event(|event| match event {
///     Event::Resumed { channel, stall, waited } => println!("{channel:?} lacked {stall:?} for {waited:?}"),
///     event => println!("{event:?}"),
/// });
/// # Ok::<(), lcmux::MuxFault>(())
/// ```
#[derive(Clone, Debug, PartialEq, Eq)]
#[non_exhaustive]
pub enum Event {
    /// The first call of a sender waits.
    Stalled {
        /// The channel.
        channel: Channel,
        /// What the call lacks.
        stall: Stall,
    },
    /// The first call of a sender no longer lacks that: it lacks something else, it can proceed, it fails, or none waits.
    Resumed {
        /// The channel.
        channel: Channel,
        /// What was lacking.
        stall: Stall,
        /// How long it was.
        waited: Duration,
    },
    /// The first call of a sender waits to send more bytes than the peer ever issued at once: for good, if the peer's
    /// ring buffer is smaller. It is reported once for each call.
    Oversized {
        /// The channel.
        channel: Channel,
        /// The length of the message.
        len: u64,
        /// The most guarantees that this side held at once.
        most_held: u64,
    },
    /// The session is over, in order or by a failure. No event happens after it. One that happened before may be reported
    /// after it: by another thread, or if a hook ended the session.
    Closed(Result<(), Closed>),
}

pub(crate) type Hook = Arc<dyn Fn(&Event) + Send + Sync>;

/// Events to report once the lock is free, since hooks may run any code.
pub(crate) struct Reports {
    hooks: Vec<Hook>,
    events: Vec<Event>,
}

impl Reports {
    pub fn to(hooks: &[Hook]) -> Box<Reports> {
        let hooks = hooks.to_vec();
        Box::new(Reports {
            hooks,
            events: Vec::new(),
        })
    }

    pub fn add(&mut self, event: Event) {
        self.events.push(event);
    }

    #[cold]
    pub fn call(&self) {
        for event in &self.events {
            self.hooks.iter().for_each(|hook| hook(event));
        }
    }
}

/// Measures how long the first waiting call of a channel lacks what it lacks.
#[derive(Debug, Default)]
pub(crate) struct Lacking(Option<(Stall, Instant)>);

impl Lacking {
    /// Notes what the call lacks from now on. Returns what it lacked before, and for how long, if that is no longer so.
    pub fn note(&mut self, lack: Option<Stall>, stats: &mut Stats) -> Change {
        let before = self.0;
        if before.map(|(before, _)| before) == lack {
            return Change::default();
        }
        let now = Instant::now();
        self.count(now, stats);
        self.0 = lack.map(|lack| (lack, now));
        Change {
            ended: before.map(|(stall, since)| (stall, now - since)),
            begun: lack,
        }
    }

    #[cfg(test)]
    pub fn stall(&self) -> Option<Stall> {
        self.0.map(|(stall, _)| stall)
    }

    /// Adds the time up to now.
    pub fn count(&self, now: Instant, stats: &mut Stats) {
        match self.0 {
            Some((Stall::Guarantees, since)) => stats.waited_for_guarantees += now - since,
            Some((Stall::Slot, since)) => stats.waited_for_slots += now - since,
            None => {}
        }
    }
}

/// A stall that ended, and one that began.
#[derive(Default)]
pub(crate) struct Change {
    ended: Option<(Stall, Duration)>,
    begun: Option<Stall>,
}

impl Change {
    pub fn events(self, channel: Channel) -> impl Iterator<Item = Event> {
        let ended = self.ended.map(|(stall, waited)| Event::Resumed {
            channel,
            stall,
            waited,
        });
        let begun = self.begun.map(|stall| Event::Stalled { channel, stall });
        ended.into_iter().chain(begun)
    }
}
