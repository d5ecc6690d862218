//! The events of a session for the crate `tracing`.
use lcmux::{Direction, Driver, Event, Frame};
use tracing::{debug, info, info_span, trace, warn, Span};

/// The target of the span and of all events.
const TARGET: &str = "lcmux";

/// Reports the frames and the events of a session, in a span below the present one.
pub(crate) fn attach(driver: &mut Driver) {
    let session = info_span!(target: TARGET, "session");
    let span = session.clone();
    driver.on_frame(move |frame| report_frame(&span, frame));
    driver.on_event(move |event| report_event(&session, event));
}

fn report_frame(span: &Span, frame: &Frame) {
    let Frame {
        direction,
        kind,
        channel,
        number,
        size,
        ..
    } = frame;
    let is_inbound = *direction == Direction::In;
    trace!(target: TARGET, parent: span, is_inbound, ?kind, ?channel, number, size, "frame");
}

fn report_event(span: &Span, event: &Event) {
    match event {
        Event::Stalled { channel, stall } => {
            debug!(target: TARGET, parent: span, channel = ?channel, ?stall, "a send waits");
        }
        Event::Resumed {
            channel,
            stall,
            waited,
        } => {
            debug!(target: TARGET, parent: span, channel = ?channel, ?stall, ?waited, "the send waited")
        }
        Event::Oversized {
            channel,
            len,
            most_held,
        } => warn!(
            target: TARGET, parent: span, channel = ?channel, len, most_held,
            "a send waits for more guarantees than the peer ever issued at once"
        ),
        Event::Closed(Ok(())) => info!(target: TARGET, parent: span, "the session ended in order"),
        Event::Closed(Err(closed)) => warn!(
            target: TARGET, parent: span, error = closed as &dyn std::error::Error,
            "the session failed"
        ),
        event => debug!(target: TARGET, parent: span, event = ?event, "event"),
    }
}

#[cfg(test)]
mod tests;
