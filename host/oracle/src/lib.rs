//! The oracle.
//!
//! Four files of `apollo-compiler` 1.33.0, compiled unchanged where they lie (see `build/`), over
//! a support layer of our own, and asked through the same tables as the port.
//!
//! * Support layer, under the module names that the four files import: [`ast`], [`collections`],
//!   [`executable`], [`introspection`], [`json`], [`name`], [`node`], [`parser`], [`request`],
//!   [`resolvers`], [`response`], [`schema`], [`validation`].
//! * Ours: [`translate`] makes the Rust's values from the tables, [`answers`] makes resolver
//!   objects of the answer rows, [`errors`] maps messages to codes, [`judge`] asks.

mod answers;
mod ast;
mod collections;
mod errors;
mod executable;
mod introspection;
mod json;
pub mod judge;
mod name;
mod node;
mod parser;
mod request;
mod resolvers;
mod response;
mod schema;
mod translate;
mod validation;

pub(crate) use executable::ExecutableDocument;
pub(crate) use name::Name;
pub(crate) use node::Node;
pub(crate) use schema::Schema;
