//! Refusals in sentences that say what a clerk needs: the record's own text and its place as people
//! count, the field that is out of range, the amounts on each side.

mod binaries;
mod blocks;
mod boxes;
mod fields;
mod files;
mod fills;
mod groups;
mod legs;
mod lines;
mod moves;
mod rules;
mod salvage;
mod sheets;
mod size;
mod strangers;
mod symbols;
mod unequal;

pub use binaries::{of_binary, of_pair};
pub use boxes::{half_of, of_margin};
pub use fields::record_texts;
pub use files::of_file;
pub use fills::of_fills;
pub use moves::of_move;
pub use salvage::{of_dropped, of_left_out, of_salvage};
pub use sheets::{earlier_leg, of_sheet};
pub use strangers::other_kind;
pub use symbols::{of_export, of_import, of_line};
pub use unequal::{unequal, Unequal};
