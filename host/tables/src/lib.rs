//! The tables that every entry is lent, on the host's side.
//!
//! * [`layout`]: widths, kinds, limits and reserved names, each said once.
//! * [`rows`]: [`Tables`] and a view of each row.
//! * [`rules`]: the rules of document 01 for tables, for testing what is generated.
//! * [`describe`]: schemas, documents, variables and answers as trees; [`build`] makes tables of
//!   them, [`notation`] reads them from a short text.
//! * [`file`]: table files, written and read.
//! * [`record`]: error records; [`room`]: a stack for deep rows.

pub mod build;
pub mod describe;
pub mod file;
pub mod layout;
pub mod notation;
pub mod record;
pub mod room;
pub mod rows;
pub mod rules;

pub use record::{ErrorRecord, Segment};
pub use rows::Tables;
