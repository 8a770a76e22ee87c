//! The same calls in plain Rust: what the proved library is measured beside and compared with.
pub mod case;
pub mod certificate;
pub mod check;
pub mod listing;
pub mod log;
pub mod settle;
pub mod table;
pub mod text;
