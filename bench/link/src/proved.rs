//! The proved library. No call requires anything of its bytes.

use crate::side::Side;

// A slice crosses as a pointer and a length.
unsafe extern "C" {
    fn funavolem_open(sheet: *const u8, length: usize) -> u64;
    fn funavolem_mark_count(sheet: *const u8, length: usize) -> u64;
    fn funavolem_marks(sheet: *const u8, length: usize, out: *mut u8, room: usize) -> u64;
    fn funavolem_close(sheet: *const u8, length: usize, out: *mut u8, room: usize) -> u64;
    fn funavolem_closed_edges(sheet: *const u8, length: usize) -> u64;
    fn funavolem_book(calls: *const u8, length: usize, out: *mut u8, room: usize) -> u64;
    fn funavolem_trace(sheet: *const u8, length: usize, steps: *const u8, count: usize, out: *mut u8, room: usize) -> u64;
}

pub struct Proved;

// SAFETY, of all calls: each pointer and length are those of one slice, which is borrowed for the call.
impl Side for Proved {
    fn name(&self) -> &'static str {
        "proved"
    }

    fn open(&self, sheet: &[u8]) -> u64 {
        unsafe { funavolem_open(sheet.as_ptr(), sheet.len()) }
    }

    fn mark_count(&self, sheet: &[u8]) -> u64 {
        unsafe { funavolem_mark_count(sheet.as_ptr(), sheet.len()) }
    }

    fn marks(&self, sheet: &[u8], out: &mut [u8]) -> u64 {
        unsafe { funavolem_marks(sheet.as_ptr(), sheet.len(), out.as_mut_ptr(), out.len()) }
    }

    fn close(&self, sheet: &[u8], out: &mut [u8]) -> u64 {
        unsafe { funavolem_close(sheet.as_ptr(), sheet.len(), out.as_mut_ptr(), out.len()) }
    }

    fn closed_edges(&self, sheet: &[u8]) -> u64 {
        unsafe { funavolem_closed_edges(sheet.as_ptr(), sheet.len()) }
    }

    fn trace(&self, sheet: &[u8], steps: &[u8], out: &mut [u8]) -> u64 {
        let (length, count, room) = (sheet.len(), steps.len(), out.len());
        unsafe { funavolem_trace(sheet.as_ptr(), length, steps.as_ptr(), count, out.as_mut_ptr(), room) }
    }

    fn book(&self, calls: &[u8], out: &mut [u8]) -> u64 {
        unsafe { funavolem_book(calls.as_ptr(), calls.len(), out.as_mut_ptr(), out.len()) }
    }
}
