//! The C interface of `libusm_c.a`, as `include/usm.h` states it: every declaration of this
//! package stands here, and the one place that calls it, on Rust slices.
//!
//! An answer is four numbers, always written: 0 and the results, or refusal number, table,
//! place and 0. The first of them is returned, too.

#![allow(unsafe_code)] // The one module that may: it is the way to the library.

/// The bytes of a line that [`file_line`] may fill.
pub const LINE_BYTES: usize = 64;

/// The bytes of a table that [`file_table`] may fill.
pub const TABLE_BYTES: usize = 8704;

/// The four numbers of an answer.
pub type Answer = [u64; 4];

extern "C" {
    fn usm_check_table(kind: u64, table: *const u8, table_len: usize, answer: *mut u64) -> u64;

    fn usm_margin(placement: *const u8, placement_len: usize, g: u64, answer: *mut u64) -> u64;

    fn usm_cash(placement: *const u8, placement_len: usize, g: u64, answer: *mut u64) -> u64;

    fn usm_margins(
        placement: *const u8,
        placement_len: usize,
        n: u64,
        out: *mut i64,
        out_len: usize,
        answer: *mut u64,
    ) -> u64;

    fn usm_worksheet(
        placement: *const u8,
        placement_len: usize,
        g: u64,
        strikes: *mut u32,
        strikes_len: usize,
        nets: *mut i64,
        nets_len: usize,
        answer: *mut u64,
    ) -> u64;

    fn usm_mark_paid(placement: *mut u8, placement_len: usize, answer: *mut u64) -> u64;

    fn usm_check_sheet(
        holdings: *const u8,
        holdings_len: usize,
        placement: *const u8,
        placement_len: usize,
        claims: *const u8,
        claims_len: usize,
        answer: *mut u64,
    ) -> u64;

    fn usm_check_file(file: *const u8, file_len: usize, answer: *mut u64) -> u64;

    fn usm_read_file(
        file: *const u8,
        file_len: usize,
        holdings: *mut u8,
        holdings_len: usize,
        placement: *mut u8,
        placement_len: usize,
        claims: *mut u8,
        claims_len: usize,
        origin: *mut u64,
        answer: *mut u64,
    ) -> u64;

    fn usm_write_file(
        holdings: *const u8,
        holdings_len: usize,
        placement: *const u8,
        placement_len: usize,
        claims: *const u8,
        claims_len: usize,
        form: u64,
        account: u64,
        out: *mut u8,
        out_len: usize,
        answer: *mut u64,
    ) -> u64;

    fn usm_move_to_new(
        file: *const u8,
        file_len: usize,
        account: u64,
        out: *mut u8,
        out_len: usize,
        answer: *mut u64,
    ) -> u64;

    fn usm_move_to_old(
        file: *const u8,
        file_len: usize,
        out: *mut u8,
        out_len: usize,
        answer: *mut u64,
    ) -> u64;

    fn usm_play_fills(
        holdings: *const u8,
        holdings_len: usize,
        fills: *const u8,
        fills_len: usize,
        result: *mut u8,
        result_len: usize,
        indices: *mut u32,
        indices_len: usize,
        numbers: *mut u8,
        numbers_len: usize,
        answer: *mut u64,
    ) -> u64;

    fn usm_import(
        roots: *const u8,
        roots_len: usize,
        list: *const u8,
        list_len: usize,
        holdings: *mut u8,
        holdings_len: usize,
        answer: *mut u64,
    ) -> u64;

    fn usm_export(
        roots: *const u8,
        roots_len: usize,
        holdings: *const u8,
        holdings_len: usize,
        list: *mut u8,
        list_len: usize,
        answer: *mut u64,
    ) -> u64;

    fn usm_salvage(
        bytes: *const u8,
        bytes_len: usize,
        out: *mut u8,
        out_len: usize,
        indices: *mut u32,
        indices_len: usize,
        numbers: *mut u8,
        numbers_len: usize,
        answer: *mut u64,
    ) -> u64;

    fn usm_binary_margin(
        side: u64,
        spread: u64,
        valuation: u64,
        expiry: u64,
        contracts: u64,
        answer: *mut u64,
    ) -> u64;

    fn usm_binary_pair(
        valuation: u64,
        long_reference: u64,
        long_spread: u64,
        long_expiry: u64,
        long_contracts: u64,
        long_paid: u64,
        short_reference: u64,
        short_spread: u64,
        short_expiry: u64,
        short_contracts: u64,
        answer: *mut u64,
    ) -> u64;

    fn usm_file_line(file: *const u8, file_len: usize, line: *mut u8) -> usize;

    fn usm_file_table(file: *const u8, file_len: usize, text: *mut u8) -> usize;
}

// SAFETY, of every call below: each pointer comes from a slice or an array, with its length.
// It is never null, not even for an empty slice, and what is lent for writing is a `&mut`,
// which overlaps nothing else. The library has no other condition.

pub fn check_table(kind: u64, table: &[u8], answer: &mut Answer) -> u64 {
    unsafe { usm_check_table(kind, table.as_ptr(), table.len(), answer.as_mut_ptr()) }
}

pub fn margin(placement: &[u8], g: u64, answer: &mut Answer) -> u64 {
    unsafe { usm_margin(placement.as_ptr(), placement.len(), g, answer.as_mut_ptr()) }
}

pub fn cash(placement: &[u8], g: u64, answer: &mut Answer) -> u64 {
    unsafe { usm_cash(placement.as_ptr(), placement.len(), g, answer.as_mut_ptr()) }
}

pub fn margins(placement: &[u8], n: u64, out: &mut [i64], answer: &mut Answer) -> u64 {
    unsafe {
        usm_margins(placement.as_ptr(), placement.len(), n, out.as_mut_ptr(), out.len(), answer.as_mut_ptr())
    }
}

pub fn worksheet(
    placement: &[u8],
    g: u64,
    strikes: &mut [u32],
    nets: &mut [i64],
    answer: &mut Answer,
) -> u64 {
    unsafe {
        usm_worksheet(
            placement.as_ptr(),
            placement.len(),
            g,
            strikes.as_mut_ptr(),
            strikes.len(),
            nets.as_mut_ptr(),
            nets.len(),
            answer.as_mut_ptr(),
        )
    }
}

pub fn mark_paid(placement: &mut [u8], answer: &mut Answer) -> u64 {
    unsafe { usm_mark_paid(placement.as_mut_ptr(), placement.len(), answer.as_mut_ptr()) }
}

pub fn check_sheet(holdings: &[u8], placement: &[u8], claims: &[u8], answer: &mut Answer) -> u64 {
    unsafe {
        usm_check_sheet(
            holdings.as_ptr(),
            holdings.len(),
            placement.as_ptr(),
            placement.len(),
            claims.as_ptr(),
            claims.len(),
            answer.as_mut_ptr(),
        )
    }
}

pub fn check_file(file: &[u8], answer: &mut Answer) -> u64 {
    unsafe { usm_check_file(file.as_ptr(), file.len(), answer.as_mut_ptr()) }
}

pub fn read_file(
    file: &[u8],
    holdings: &mut [u8],
    placement: &mut [u8],
    claims: &mut [u8],
    origin: &mut [u64; 2],
    answer: &mut Answer,
) -> u64 {
    unsafe {
        usm_read_file(
            file.as_ptr(),
            file.len(),
            holdings.as_mut_ptr(),
            holdings.len(),
            placement.as_mut_ptr(),
            placement.len(),
            claims.as_mut_ptr(),
            claims.len(),
            origin.as_mut_ptr(),
            answer.as_mut_ptr(),
        )
    }
}

/// The form and the account as the numbers that they are in C.
pub fn write_file(
    holdings: &[u8],
    placement: &[u8],
    claims: &[u8],
    [form, account]: [u64; 2],
    out: &mut [u8],
    answer: &mut Answer,
) -> u64 {
    unsafe {
        usm_write_file(
            holdings.as_ptr(),
            holdings.len(),
            placement.as_ptr(),
            placement.len(),
            claims.as_ptr(),
            claims.len(),
            form,
            account,
            out.as_mut_ptr(),
            out.len(),
            answer.as_mut_ptr(),
        )
    }
}

pub fn move_to_new(file: &[u8], account: u64, out: &mut [u8], answer: &mut Answer) -> u64 {
    unsafe {
        usm_move_to_new(file.as_ptr(), file.len(), account, out.as_mut_ptr(), out.len(), answer.as_mut_ptr())
    }
}

pub fn move_to_old(file: &[u8], out: &mut [u8], answer: &mut Answer) -> u64 {
    unsafe { usm_move_to_old(file.as_ptr(), file.len(), out.as_mut_ptr(), out.len(), answer.as_mut_ptr()) }
}

pub fn play_fills(
    holdings: &[u8],
    fills: &[u8],
    result: &mut [u8],
    indices: &mut [u32],
    numbers: &mut [u8],
    answer: &mut Answer,
) -> u64 {
    unsafe {
        usm_play_fills(
            holdings.as_ptr(),
            holdings.len(),
            fills.as_ptr(),
            fills.len(),
            result.as_mut_ptr(),
            result.len(),
            indices.as_mut_ptr(),
            indices.len(),
            numbers.as_mut_ptr(),
            numbers.len(),
            answer.as_mut_ptr(),
        )
    }
}

pub fn import(roots: &[u8], list: &[u8], holdings: &mut [u8], answer: &mut Answer) -> u64 {
    unsafe {
        usm_import(
            roots.as_ptr(),
            roots.len(),
            list.as_ptr(),
            list.len(),
            holdings.as_mut_ptr(),
            holdings.len(),
            answer.as_mut_ptr(),
        )
    }
}

pub fn export(roots: &[u8], holdings: &[u8], list: &mut [u8], answer: &mut Answer) -> u64 {
    unsafe {
        usm_export(
            roots.as_ptr(),
            roots.len(),
            holdings.as_ptr(),
            holdings.len(),
            list.as_mut_ptr(),
            list.len(),
            answer.as_mut_ptr(),
        )
    }
}

pub fn salvage(
    bytes: &[u8],
    out: &mut [u8],
    indices: &mut [u32],
    numbers: &mut [u8],
    answer: &mut Answer,
) -> u64 {
    unsafe {
        usm_salvage(
            bytes.as_ptr(),
            bytes.len(),
            out.as_mut_ptr(),
            out.len(),
            indices.as_mut_ptr(),
            indices.len(),
            numbers.as_mut_ptr(),
            numbers.len(),
            answer.as_mut_ptr(),
        )
    }
}

/// Side, spread, valuation date, expiry and contracts.
pub fn binary_margin([side, spread, valuation, expiry, contracts]: [u64; 5], answer: &mut Answer) -> u64 {
    unsafe { usm_binary_margin(side, spread, valuation, expiry, contracts, answer.as_mut_ptr()) }
}

/// A position is reference obligation, spread, expiry and contracts; behind the long's stands its paid mark.
pub fn binary_pair(valuation: u64, long: [u64; 5], short: [u64; 4], answer: &mut Answer) -> u64 {
    unsafe {
        usm_binary_pair(
            valuation,
            long[0],
            long[1],
            long[2],
            long[3],
            long[4],
            short[0],
            short[1],
            short[2],
            short[3],
            answer.as_mut_ptr(),
        )
    }
}

/// Answers the length of the line, newline included.
pub fn file_line(file: &[u8], line: &mut [u8; LINE_BYTES]) -> usize {
    unsafe { usm_file_line(file.as_ptr(), file.len(), line.as_mut_ptr()) }
}

pub fn file_table(file: &[u8], text: &mut [u8; TABLE_BYTES]) -> usize {
    unsafe { usm_file_table(file.as_ptr(), file.len(), text.as_mut_ptr()) }
}
