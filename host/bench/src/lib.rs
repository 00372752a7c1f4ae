//! The static library beside plain Rust, on the same tables in one process.
//!
//! * [`workloads`]: what is asked about.
//! * [`timing`]: how long calls take that take turns.

pub mod timing;
pub mod workloads;
