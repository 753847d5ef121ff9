//! The engine's C names, as `include/murgolab.h` declares them, each behind a safe function.
//!
//! Every function here is `#[inline]`, so a test program holds, and links, those that it calls: a
//! family that the archive does not have yet is in nobody's way.

pub mod engine;
pub mod engine_records;
pub mod local_rule;
pub mod scenario;
pub mod scenario_records;
pub mod tablet;
pub mod turn;
