//! One engine over three transports for the page `docs/explanation/comparison.md`, whose table counts the lines of the
//! three modules beside `engine`.
pub mod engine;
pub mod over_codec;
pub mod over_h2;
pub mod over_lcmux;
