//! Table files: the tables as text. The form is docs/TABLES.md's.
//!
//! * [`read`] takes what the port's own reader takes, and says the same of what that refuses.
//! * [`write`] writes numbers, strings and `reserved`, none of the other words; [`write_short`] the
//!   same in fewer bytes.

mod keywords;
mod read;
mod token;
mod write;

pub use read::{read, Fault};
pub use write::{write, write_short};
