//! The same work as the crates' programs, written plainly in Rust, to compare times with.

pub mod calls;
pub mod fault;
pub mod figures;
pub mod finish;
pub mod player;
pub mod report;
pub mod runner;
pub mod servers;
pub mod sheet;
pub mod text;
