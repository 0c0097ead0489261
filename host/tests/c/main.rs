//! C and C++ callers: programs compiled against the header and the archive and run, and the header's constants.

#![forbid(unsafe_code)]

#[path = "../common/mod.rs"]
mod common;

mod compiled;
mod header;
mod memory;
mod programs;
