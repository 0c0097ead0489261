//! The call against the model: the four numbers of the answer, and all of the three lent buffers.

use std::fmt::Display;

use usm::{ffi, Refusal, SalvageCounts, BLOCK_BYTES};
use usm_kit::both::{Calls, LIBRARY, MODEL};
use usm_kit::lent::Lent;
use usm_kit::model;

use crate::compare::{answer_of, numbers, same, same_buffer};

/// The lengths of what is lent: for the file, and for the two slices of the list.
#[derive(Clone, Copy, Debug)]
pub struct Rooms {
    pub file: usize,
    pub list: [usize; 2],
}

impl Rooms {
    /// Enough for whatever these bytes make: nothing grows, and no block is listed twice.
    pub fn enough_for(bytes: &[u8]) -> Rooms {
        let blocks = bytes.chunks(BLOCK_BYTES).len();
        Rooms { file: bytes.len() + 9, list: [blocks + 1, blocks] }
    }
}

/// What both sides made of a file: its length, and the list.
#[derive(Debug, PartialEq)]
pub struct Found {
    pub bytes: usize,
    pub list: Vec<(u32, u8)>,
}

/// With enough room.
pub fn salvage(case: &dyn Display, bytes: &[u8]) -> Result<Found, Refusal> {
    salvage_into(case, bytes, Rooms::enough_for(bytes))
}

pub fn salvage_into(case: &dyn Display, bytes: &[u8], rooms: Rooms) -> Result<Found, Refusal> {
    let call = format!("usm_salvage of {} bytes, {rooms:?}", bytes.len());
    let mut out = Lent::of_length(rooms.file);
    let (mut indices, mut listed) = (Lent::of_length(rooms.list[0]), Lent::of_length(rooms.list[1]));
    let (mut expected_out, mut expected_indices, mut expected_listed) =
        (out.clone(), indices.clone(), listed.clone());
    let answer =
        answer_of(|answer| ffi::salvage(bytes, out.slice(), indices.slice(), listed.slice(), answer));
    let expected =
        model::salvage(bytes, expected_out.slice(), expected_indices.slice(), expected_listed.slice());
    let SalvageCounts { bytes: length, dropped } = expected.unwrap_or(SalvageCounts { bytes: 0, dropped: 0 });
    same_buffer(case, &call, &out, &expected_out, length);
    same_buffer(case, &call, &indices, &expected_indices, dropped);
    same_buffer(case, &call, &listed, &expected_listed, dropped);
    same(case, &call, answer, numbers(&expected, |_| [length as u64, dropped as u64, 0]));
    let list = indices.slice().iter().copied().zip(listed.slice().iter().copied()).take(dropped);
    expected.map(|_| Found { bytes: length, list: list.collect() })
}

/// The list that library and model make of this file.
#[track_caller]
pub fn listed(bytes: &[u8]) -> Vec<(u32, u8)> {
    salvage(&"salvage", bytes).expect("something is kept").list
}

/// The safe wrapper answers as the model does, and leaves the same in what it is lent.
pub fn wrapper(case: &dyn Display, bytes: &[u8], rooms: Rooms) {
    let salvaged = |calls: Calls| {
        let mut out = vec![1; rooms.file];
        let (mut indices, mut listed) = (vec![1; rooms.list[0]], vec![1; rooms.list[1]]);
        let counts = (calls.salvage)(bytes, &mut out, &mut indices, &mut listed);
        (counts, out, indices, listed)
    };
    assert!(salvaged(LIBRARY) == salvaged(MODEL), "{case}: {rooms:?}: wrapper and model differ");
}
