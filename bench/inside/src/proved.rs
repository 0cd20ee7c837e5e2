//! The proved library, by the prototypes of include/lockgraph.h.

use std::os::raw::c_uchar;

#[link(name = "lockgraph_c", kind = "static")]
extern "C" {
    fn lockgraph_verdict(sheet: *const u8, sheet_len: usize, out: *mut u64) -> c_uchar;
    fn lockgraph_table(
        sheet: *const u8,
        sheet_len: usize,
        naming: u64,
        first: *mut u64,
        first_len: usize,
        second: *mut u64,
        second_len: usize,
        out: *mut u64,
    ) -> c_uchar;
    fn lockgraph_list(
        sheet: *const u8,
        sheet_len: usize,
        naming: u64,
        store: *mut u16,
        store_len: usize,
        out: *mut u64,
    ) -> c_uchar;
    fn lockgraph_clean(
        sheet: *const u8,
        sheet_len: usize,
        store: *mut u8,
        store_len: usize,
        out: *mut u64,
    ) -> c_uchar;
    fn lockgraph_verdict_within(
        lean: usize,
        closure: usize,
        sheet: *const u8,
        sheet_len: usize,
        out: *mut u64,
    ) -> c_uchar;
    fn lockgraph_table_within(
        lean: usize,
        closure: usize,
        sheet: *const u8,
        sheet_len: usize,
        naming: u64,
        first: *mut u64,
        first_len: usize,
        second: *mut u64,
        second_len: usize,
        out: *mut u64,
    ) -> c_uchar;
    fn lockgraph_book_within(
        lean: usize,
        closure: usize,
        sheet: *const u8,
        sheet_len: usize,
        store: *mut u64,
        store_len: usize,
        out: *mut u64,
    ) -> c_uchar;
}

/// The refusal, or 1, naming and type; 2, 0, 0 where it is unsatisfiable.
pub fn verdict(sheet: &[u8]) -> Result<[u64; 3], u8> {
    let mut out = [0; 3];
    // The sheet is one lent store, and `out` has the 3 words that the prototype says.
    let refusal = unsafe { lockgraph_verdict(sheet.as_ptr(), sheet.len(), out.as_mut_ptr()) };
    answer(refusal, out)
}

/// The refusal, or the standing types and the counts: words, start, left, rounds, store.
pub fn table(sheet: &[u8], naming: u64) -> Result<([u64; 4], [u64; 5]), u8> {
    let mut first = [0; 4];
    let mut second = [0; 4];
    let mut out = [0; 5];
    // Two stores of 4 words that overlap nothing, and `out` with the 5 words that the prototype says.
    let refusal = unsafe {
        lockgraph_table(
            sheet.as_ptr(),
            sheet.len(),
            naming,
            first.as_mut_ptr(),
            first.len(),
            second.as_mut_ptr(),
            second.len(),
            out.as_mut_ptr(),
        )
    };
    answer(refusal, (first, out))
}

/// The refusal, or the standing types in document 02's order.
pub fn list(sheet: &[u8], naming: u64) -> Result<Vec<u16>, u8> {
    let mut store = [0; 256];
    let mut out = [0; 1];
    // A store of 256 numbers that overlaps nothing, and `out` with the word that the prototype says.
    let refusal = unsafe {
        lockgraph_list(
            sheet.as_ptr(),
            sheet.len(),
            naming,
            store.as_mut_ptr(),
            store.len(),
            out.as_mut_ptr(),
        )
    };
    answer(refusal, out).map(|[left]| store[..left as usize].to_vec())
}

/// The refusal, or the clean text.
pub fn clean(sheet: &[u8]) -> Result<Vec<u8>, u8> {
    let mut store = [0; 1024];
    let mut out = [0; 1];
    // A store of 1,024 bytes that overlaps nothing, and `out` with the word that the prototype says.
    let refusal = unsafe {
        lockgraph_clean(
            sheet.as_ptr(),
            sheet.len(),
            store.as_mut_ptr(),
            store.len(),
            out.as_mut_ptr(),
        )
    };
    answer(refusal, out).map(|[length]| store[..length as usize].to_vec())
}

/// A lean limit and a closure limit.
pub type Limits = (usize, usize);

/// The verdict under given limits.
pub fn verdict_within((lean, closure): Limits, sheet: &[u8]) -> Result<[u64; 3], u8> {
    let mut out = [0; 3];
    // The sheet is one lent store, and `out` has the 3 words that the prototype says.
    let refusal = unsafe {
        lockgraph_verdict_within(lean, closure, sheet.as_ptr(), sheet.len(), out.as_mut_ptr())
    };
    answer(refusal, out)
}

/// The table under given limits: the standing types at the beginning of the store, and the counts.
pub fn table_within(
    (lean, closure): Limits,
    sheet: &[u8],
    naming: u64,
    store: &mut [u64],
) -> Result<[u64; 5], u8> {
    let mut second = [0; 64];
    let mut out = [0; 5];
    // Two stores that overlap nothing, and `out` with the 5 words that the prototype says.
    let refusal = unsafe {
        lockgraph_table_within(
            lean,
            closure,
            sheet.as_ptr(),
            sheet.len(),
            naming,
            store.as_mut_ptr(),
            store.len(),
            second.as_mut_ptr(),
            second.len(),
            out.as_mut_ptr(),
        )
    };
    answer(refusal, out)
}

/// The book under given limits, at the beginning of the store: how many namings there are, and how many words each has.
pub fn book_within(
    (lean, closure): Limits,
    sheet: &[u8],
    store: &mut [u64],
) -> Result<[u64; 2], u8> {
    let mut out = [0; 2];
    // A store that overlaps nothing, and `out` with the 2 words that the prototype says.
    let refusal = unsafe {
        lockgraph_book_within(
            lean,
            closure,
            sheet.as_ptr(),
            sheet.len(),
            store.as_mut_ptr(),
            store.len(),
            out.as_mut_ptr(),
        )
    };
    answer(refusal, out)
}

fn answer<T>(refusal: u8, out: T) -> Result<T, u8> {
    match refusal {
        0 => Ok(out),
        _ => Err(refusal),
    }
}
