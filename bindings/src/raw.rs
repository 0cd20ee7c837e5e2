//! The library's own calls, as include/lockgraph.h has them, and all that is unsafe. The functions of [the crate](crate) have the same
//! answers with types of their own.
//!
//! Each gives the number of the refusal, or 0. Without a refusal `out` holds afterwards what the function says; with one it is as it
//! was, like every other store. What a caller owes is kept by the types of the arguments:
//! - a slice is one store of its length, and its pointer is aligned and never null, also where it is empty;
//! - `out` is an array of the prototype's length;
//! - a `&mut` slice and `out`, each borrowed alone, overlap no other argument.
//!
//! A function whose name ends in `_within` has the limits before what the one without limits has, and tells the same.
//!
//! The library keeps no pointer and has no state, so nothing outlives a call. The stack is what the crate's documentation asks for.

use crate::Limits;

extern "C" {
    fn lockgraph_table(
        sheet: *const u8,
        sheet_len: usize,
        naming: u64,
        first: *mut u64,
        first_len: usize,
        second: *mut u64,
        second_len: usize,
        out: *mut u64,
    ) -> u8;
    fn lockgraph_book(
        sheet: *const u8,
        sheet_len: usize,
        store: *mut u64,
        store_len: usize,
        out: *mut u64,
    ) -> u8;
    fn lockgraph_list(
        sheet: *const u8,
        sheet_len: usize,
        naming: u64,
        store: *mut u16,
        store_len: usize,
        out: *mut u64,
    ) -> u8;
    fn lockgraph_verdict(sheet: *const u8, sheet_len: usize, out: *mut u64) -> u8;
    fn lockgraph_clean(
        sheet: *const u8,
        sheet_len: usize,
        store: *mut u8,
        store_len: usize,
        out: *mut u64,
    ) -> u8;
    fn lockgraph_goal(sheet: *const u8, sheet_len: usize, out: *mut u64) -> u8;
    fn lockgraph_snapshot(
        sheet: *const u8,
        sheet_len: usize,
        text: *const u8,
        text_len: usize,
        row: *mut u8,
        row_len: usize,
        out: *mut u64,
    ) -> u8;
    fn lockgraph_table_within(
        lean: usize,
        closure: usize,
        sheet: *const u8,
        sheet_len: usize,
        naming: u64,
        first: *mut u64,
        first_len: usize,
        second: *mut u64,
        second_len: usize,
        out: *mut u64,
    ) -> u8;
    fn lockgraph_book_within(
        lean: usize,
        closure: usize,
        sheet: *const u8,
        sheet_len: usize,
        store: *mut u64,
        store_len: usize,
        out: *mut u64,
    ) -> u8;
    fn lockgraph_list_within(
        lean: usize,
        closure: usize,
        sheet: *const u8,
        sheet_len: usize,
        naming: u64,
        store: *mut u16,
        store_len: usize,
        out: *mut u64,
    ) -> u8;
    fn lockgraph_verdict_within(
        lean: usize,
        closure: usize,
        sheet: *const u8,
        sheet_len: usize,
        out: *mut u64,
    ) -> u8;
    fn lockgraph_clean_within(
        lean: usize,
        closure: usize,
        sheet: *const u8,
        sheet_len: usize,
        store: *mut u8,
        store_len: usize,
        out: *mut u64,
    ) -> u8;
    fn lockgraph_goal_within(
        lean: usize,
        closure: usize,
        sheet: *const u8,
        sheet_len: usize,
        out: *mut u64,
    ) -> u8;
    fn lockgraph_snapshot_within(
        lean: usize,
        closure: usize,
        sheet: *const u8,
        sheet_len: usize,
        text: *const u8,
        text_len: usize,
        row: *mut u8,
        row_len: usize,
        out: *mut u64,
    ) -> u8;
}

/// Told: W, start, left, rounds, and the store written last, 1 or 2.
pub fn table(
    sheet: &[u8],
    naming: u64,
    first: &mut [u64],
    second: &mut [u64],
    out: &mut [u64; 5],
) -> u8 {
    // SAFETY: pointers and lengths are those of slices, the three that are written are borrowed alone, and `out` has 5 words.
    unsafe {
        lockgraph_table(
            sheet.as_ptr(),
            sheet.len(),
            naming,
            first.as_mut_ptr(),
            first.len(),
            second.as_mut_ptr(),
            second.len(),
            out.as_mut_ptr(),
        )
    }
}

/// Told: the number of namings, and W.
pub fn book(sheet: &[u8], store: &mut [u64], out: &mut [u64; 2]) -> u8 {
    // SAFETY: pointers and lengths are those of slices, the two that are written are borrowed alone, and `out` has 2 words.
    unsafe {
        lockgraph_book(
            sheet.as_ptr(),
            sheet.len(),
            store.as_mut_ptr(),
            store.len(),
            out.as_mut_ptr(),
        )
    }
}

/// Told: how many types are listed.
pub fn list(sheet: &[u8], naming: u64, store: &mut [u16], out: &mut [u64; 1]) -> u8 {
    // SAFETY: pointers and lengths are those of slices, the two that are written are borrowed alone, and `out` has 1 word.
    unsafe {
        lockgraph_list(
            sheet.as_ptr(),
            sheet.len(),
            naming,
            store.as_mut_ptr(),
            store.len(),
            out.as_mut_ptr(),
        )
    }
}

/// Told: 1, naming and type of an open goal; 2, 0, 0 of an unsatisfiable one.
pub fn verdict(sheet: &[u8], out: &mut [u64; 3]) -> u8 {
    // SAFETY: pointer and length are those of a slice, and `out` has 3 words.
    unsafe { lockgraph_verdict(sheet.as_ptr(), sheet.len(), out.as_mut_ptr()) }
}

/// Told: how many bytes the clean text has.
pub fn clean(sheet: &[u8], store: &mut [u8], out: &mut [u64; 1]) -> u8 {
    // SAFETY: pointers and lengths are those of slices, the two that are written are borrowed alone, and `out` has 1 word.
    unsafe {
        lockgraph_clean(
            sheet.as_ptr(),
            sheet.len(),
            store.as_mut_ptr(),
            store.len(),
            out.as_mut_ptr(),
        )
    }
}

/// Told: the place of the goal's first byte, and how many bytes it has.
pub fn goal(sheet: &[u8], out: &mut [u64; 2]) -> u8 {
    // SAFETY: pointer and length are those of a slice, and `out` has 2 words.
    unsafe { lockgraph_goal(sheet.as_ptr(), sheet.len(), out.as_mut_ptr()) }
}

/// Told: how many nodes the snapshot has.
pub fn snapshot(sheet: &[u8], text: &[u8], row: &mut [u8], out: &mut [u64; 1]) -> u8 {
    // SAFETY: pointers and lengths are those of slices, the two that are written are borrowed alone, and `out` has 1 word. Sheet and
    // text are only read, so they may overlap.
    unsafe {
        lockgraph_snapshot(
            sheet.as_ptr(),
            sheet.len(),
            text.as_ptr(),
            text.len(),
            row.as_mut_ptr(),
            row.len(),
            out.as_mut_ptr(),
        )
    }
}

/// Told: as of [`table`].
pub fn table_within(
    limits: Limits,
    sheet: &[u8],
    naming: u64,
    first: &mut [u64],
    second: &mut [u64],
    out: &mut [u64; 5],
) -> u8 {
    // SAFETY: as in `table`; limits may be any numbers.
    unsafe {
        lockgraph_table_within(
            limits.lean,
            limits.closure,
            sheet.as_ptr(),
            sheet.len(),
            naming,
            first.as_mut_ptr(),
            first.len(),
            second.as_mut_ptr(),
            second.len(),
            out.as_mut_ptr(),
        )
    }
}

/// Told: as of [`book`].
pub fn book_within(limits: Limits, sheet: &[u8], store: &mut [u64], out: &mut [u64; 2]) -> u8 {
    // SAFETY: as in `book`; limits may be any numbers.
    unsafe {
        lockgraph_book_within(
            limits.lean,
            limits.closure,
            sheet.as_ptr(),
            sheet.len(),
            store.as_mut_ptr(),
            store.len(),
            out.as_mut_ptr(),
        )
    }
}

/// Told: as of [`list`].
pub fn list_within(
    limits: Limits,
    sheet: &[u8],
    naming: u64,
    store: &mut [u16],
    out: &mut [u64; 1],
) -> u8 {
    // SAFETY: as in `list`; limits may be any numbers.
    unsafe {
        lockgraph_list_within(
            limits.lean,
            limits.closure,
            sheet.as_ptr(),
            sheet.len(),
            naming,
            store.as_mut_ptr(),
            store.len(),
            out.as_mut_ptr(),
        )
    }
}

/// Told: as of [`verdict`].
pub fn verdict_within(limits: Limits, sheet: &[u8], out: &mut [u64; 3]) -> u8 {
    // SAFETY: as in `verdict`; limits may be any numbers.
    unsafe {
        lockgraph_verdict_within(
            limits.lean,
            limits.closure,
            sheet.as_ptr(),
            sheet.len(),
            out.as_mut_ptr(),
        )
    }
}

/// Told: as of [`clean`].
pub fn clean_within(limits: Limits, sheet: &[u8], store: &mut [u8], out: &mut [u64; 1]) -> u8 {
    // SAFETY: as in `clean`; limits may be any numbers.
    unsafe {
        lockgraph_clean_within(
            limits.lean,
            limits.closure,
            sheet.as_ptr(),
            sheet.len(),
            store.as_mut_ptr(),
            store.len(),
            out.as_mut_ptr(),
        )
    }
}

/// Told: as of [`goal`].
pub fn goal_within(limits: Limits, sheet: &[u8], out: &mut [u64; 2]) -> u8 {
    // SAFETY: as in `goal`; limits may be any numbers.
    unsafe {
        lockgraph_goal_within(
            limits.lean,
            limits.closure,
            sheet.as_ptr(),
            sheet.len(),
            out.as_mut_ptr(),
        )
    }
}

/// Told: as of [`snapshot`].
pub fn snapshot_within(
    limits: Limits,
    sheet: &[u8],
    text: &[u8],
    row: &mut [u8],
    out: &mut [u64; 1],
) -> u8 {
    // SAFETY: as in `snapshot`; limits may be any numbers.
    unsafe {
        lockgraph_snapshot_within(
            limits.lean,
            limits.closure,
            sheet.as_ptr(),
            sheet.len(),
            text.as_ptr(),
            text.len(),
            row.as_mut_ptr(),
            row.len(),
            out.as_mut_ptr(),
        )
    }
}
