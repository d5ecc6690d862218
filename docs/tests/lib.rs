//! Compiles the Rust listings of the guides, and those of two pages of the reference.

macro_rules! guides {
    ($($name:ident $page:literal)*) => {
        $(
            #[cfg(doctest)]
            #[doc = include_str!(concat!("../", $page))]
            mod $name {}
        )*
    };
}

guides! {
    byte_streams "guides/byte-streams.md"
    closing "guides/closing.md"
    configuration "reference/configuration.md"
    copies "guides/copies.md"
    errors "reference/errors.md"
    hostile_peers "guides/hostile-peers.md"
    latency "guides/latency.md"
    many_sessions "guides/many-sessions.md"
    observability "guides/observability.md"
    peer "guides/peer.md"
    porting "guides/porting.md"
    requests "guides/requests.md"
    ring_sizes "guides/ring-sizes.md"
    slots_and_policies "guides/slots-and-policies.md"
    streams_and_sinks "guides/streams-and-sinks.md"
    timeouts "guides/timeouts.md"
    transports "guides/transports.md"
}
