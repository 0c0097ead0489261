//! The door of a clone, the script `sheet`: how it makes the library and the tool ([`making`]) and what it does
//! where it cannot ([`left_alone`]), and what the tool behind it answers where files, names or streams are not as
//! they should be ([`faults`], [`verdicts`]). Nothing is proved or compiled here: toolchain and cargo pretend, in
//! a clone that has only what the script looks at.

#![forbid(unsafe_code)]

mod door;
mod faults;
mod left_alone;
mod making;
#[path = "../common/scripts.rs"]
mod scripts;
mod verdicts;
