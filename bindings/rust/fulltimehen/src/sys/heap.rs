//! The allocator that a library of this toolchain asks its program for, as the library's own `heap.c` has it, but that no block is
//! smaller than a few words: each step makes short lists, which grow from nothing.

use std::ffi::c_void;

unsafe extern "C" {
    fn malloc(size: usize) -> *mut c_void;
    fn realloc(at: *mut c_void, size: usize) -> *mut c_void;
    fn free(at: *mut c_void);
}

/// What an allocation gave.
#[repr(C)]
struct Tried {
    ok: bool,
    at: *mut c_void,
}

impl Tried {
    fn of(at: *mut c_void) -> Tried {
        Tried { ok: !at.is_null(), at }
    }
}

/// How many bytes a block has at least.
const LEAST: usize = 64;

/// A block of `size` bytes, or of more. `align` is at most 16 and divides the size, or the size is 0, so `malloc` gives it.
// SAFETY: the name is this function's alone in the program: it is the one that the library calls.
#[unsafe(no_mangle)]
extern "C" fn rattle_alloc(size: usize, _align: usize) -> Tried {
    // SAFETY: `malloc` may be called with each size.
    Tried::of(unsafe { malloc(size.max(LEAST)) })
}

/// The block with another size.
///
/// # Safety
///
/// `at` is a block that `rattle_alloc` or this function gave and that wasn't freed.
// SAFETY: as for `rattle_alloc`.
#[unsafe(no_mangle)]
unsafe extern "C" fn rattle_realloc(
    at: *mut c_void,
    kept: usize,
    size: usize,
    _align: usize,
) -> Tried {
    if kept < size && size <= LEAST {
        // It has as many bytes already.
        return Tried::of(at);
    }
    // SAFETY: the block is `malloc`'s, as the caller says.
    Tried::of(unsafe { realloc(at, size.max(LEAST)) })
}

/// Frees the block.
///
/// # Safety
///
/// As for `rattle_realloc`.
// SAFETY: as for `rattle_alloc`.
#[unsafe(no_mangle)]
unsafe extern "C" fn rattle_dealloc(at: *mut c_void) {
    // SAFETY: the block is `malloc`'s, as the caller says.
    unsafe { free(at) }
}
