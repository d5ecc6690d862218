//! The engines of the examples of lcmux-tokio, as the build script copies them: `calls` and `sync` as they are, and others
//! with a bug each. Beside each is a `driver`, which runs one side of it over a stream.
#![allow(dead_code, clippy::duplicate_mod)] // each engine has its own driver of one text

include!(concat!(env!("OUT_DIR"), "/engines.rs"));
