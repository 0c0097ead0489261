//! The test kit: library and model as two values of one type, accounts in document 01's notation, lent buffers that
//! notice every write, and ways to change a record or a block by hand. The samples and the benchmark are its programs.

#![forbid(unsafe_code)]

pub mod accounts;
pub mod block;
pub mod both;
pub mod fields;
pub mod lent;

/// The second implementation, which has no way to the library.
pub use usm_model as model;

use std::path::PathBuf;

/// The root of the repository.
pub fn repository() -> PathBuf {
    PathBuf::from(concat!(env!("CARGO_MANIFEST_DIR"), "/../.."))
}
