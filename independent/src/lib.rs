//! The docket once more, in plain Rust and from the pages of the repository alone: README.md and docs/. It shares no
//! text with the proved crates, so that where the two agree on a dossier, they agree for reasons of their own.

pub mod book;
pub mod claims;
pub mod concepts;
pub mod docket;
pub mod intake;
pub mod labels;
pub mod models;
pub mod reader;
pub mod refusals;
pub mod roles;
pub mod rules;
pub mod writer;
