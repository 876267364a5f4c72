//! The desk in plain Rust: the same rules and, but for those of 37 and of the count, the same loops
//! as the proved crates, over the same bytes. It allocates nothing, and every index is checked.

pub mod build;
pub mod check;
pub mod count;
pub mod dispatch;
mod hitable;
mod late;
pub mod list;
pub mod log;
mod lotable;
pub mod plan;

pub use crate::limits::IDLE;
