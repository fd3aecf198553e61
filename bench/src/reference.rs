//! The rule book in plain Rust.

pub mod channel;
pub mod cost;
pub mod listen;
pub mod place;
pub mod receiver;
pub mod refusal;
pub mod sweep;
pub mod text;
