//! The heap that the proved library asks for, over the C library's.

use std::ffi::c_void;
use std::ptr;

unsafe extern "C" {
    fn malloc(size: usize) -> *mut c_void;
    fn realloc(block: *mut c_void, size: usize) -> *mut c_void;
    fn free(block: *mut c_void);
}

/// Whether there was memory, and where.
#[repr(C)]
pub struct Tried {
    ok: bool,
    block: *mut c_void,
}

fn tried(block: *mut c_void) -> Tried {
    if block.is_null() { Tried { ok: false, block: ptr::without_provenance_mut(16) } } else { Tried { ok: true, block } }
}

// A block of no bytes is asked for as one of its alignment, so that it has an address. No alignment is above 16.

#[unsafe(no_mangle)]
extern "C" fn rattle_alloc(size: usize, align: usize) -> Tried {
    // SAFETY: any size may be asked for.
    tried(unsafe { malloc(if size == 0 { align } else { size }) })
}

/// # Safety
/// The block is one that was answered here and has not been freed.
#[unsafe(no_mangle)]
unsafe extern "C" fn rattle_realloc(block: *mut c_void, _kept: usize, size: usize, align: usize) -> Tried {
    // SAFETY: as the caller promises.
    tried(unsafe { realloc(block, if size == 0 { align } else { size }) })
}

/// # Safety
/// The block is one that was answered here and has not been freed.
#[unsafe(no_mangle)]
unsafe extern "C" fn rattle_dealloc(block: *mut c_void) {
    // SAFETY: as the caller promises.
    unsafe { free(block) }
}
