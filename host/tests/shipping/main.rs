//! What is shipped: `install`, the package that is made of it, and both used on a machine that has nothing else.

#![forbid(unsafe_code)]

#[path = "../common/mod.rs"]
mod common;
#[path = "../c/compiled.rs"]
#[allow(dead_code)] // C++ is for the tests of C callers
mod compiled;
mod install;
mod machine;
mod package;
#[path = "../common/scripts.rs"]
#[allow(dead_code)] // nothing stands in for a program here
mod scripts;
